/* The example's blade. A 6502 runs firmware.s, which switches eight outlets on, one after another. Twice the power
   fails while the board writes, and the blade goes on from the last whole record.
     board FOLDER SEED [LATER]
   FOLDER has the firmware and its map, and gets the board's files. From SEED is drawn where the power fails. LATER is
   by how many cycles a patched firmware switches the first outlet on later than firmware.s, and with it all that
   follows. The exit status is 0 if all came as expected.

   Each call has a function of its own: wankitare_admit is in admit, wankitare_run in rehearse, wankitare_step in step,
   wankitare_pages in count_list, wankitare_append_at in save, wankitare_restart in restart. */

#define _POSIX_C_SOURCE 200809L

#include "wankitare.h"

#include <fcntl.h>
#include <stdarg.h>
#include <stdio.h>
#include <stdlib.h>
#include <string.h>
#include <unistd.h>

/* The blade's memory: RAM from 0000 on, ROM in the protected page at the top. */
enum { RAM = 0x0300, PAGES = 1, ROM = 0x100 * PAGES, ROM_AT = WANKITARE_BANK_BYTES - ROM };
enum { RESET_VECTOR = 0xFFFC, INTERRUPT_VECTOR = 0xFFFE };

/* The cells that board and firmware share, in the RAM's last page. */
enum { CELLS = 0x0200, OUTLETS = 0x0200, STAGE, SHED, SERVED, LOADS = 0x0210, SUM = 0x0220 };

enum { RECORD = WANKITARE_RECORD_BYTES, ACCESS = WANKITARE_ACCESS_BYTES, MAP_RECORD = WANKITARE_MAP_RECORD_BYTES };

/* What happens to the blade: the load of each outlet that is on; when which outlet is to be shed, first in the midst of
   the switching of another, then of a decimal sum; power dips. */
enum { COUNT = 8, REQUESTS = 2, DIPS = 2 };
static const unsigned amperes[COUNT] = {12, 9, 31, 7, 28, 16, 45, 22};
static struct { uint32_t cycle; unsigned outlet; } requests[REQUESTS] = {{25010, 2}, {45100, 4}};
static uint32_t end = 50000;

/* What must come of it: an outlet every 5,000 cycles, and 40 more where an interrupt came between. */
static struct event { uint32_t cycle; uint8_t outlets; unsigned load; } events[] = {
    {0, 0x00, 0},
    {5018, 0x01, 12}, {10018, 0x03, 21}, {15018, 0x07, 52}, {20018, 0x0F, 59}, {25018, 0x1F, 87},
    {25044, 0x1B, 56},
    {30058, 0x3B, 72}, {35058, 0x7B, 117}, {40058, 0xFB, 139},
    {45126, 0xEB, 111},
};

/* All that the processor is, and all that it sees. The library keeps nothing: a copy of this is another blade. */
struct blade {
    uint8_t record[RECORD];
    uint8_t image[WANKITARE_BANK_BYTES];
};

static struct blade blade;
static uint8_t rom[ROM], map[WANKITARE_MOST_MAP_BYTES];
static size_t map_length;
static uint8_t relays;          /* bit n: outlet n has power */
static int asking;              /* IRQ is asserted */
static unsigned shown;          /* the load that was shown last */
static int restart_file, ram_file;

/* A logger hangs on the bus, with power of its own: what a dip makes the blade do twice, it sees twice. It keeps the
   latest accesses in a list, all of them in a file, how many reads and writes each page had, and how many accesses each
   purpose. */
enum { PURPOSES = WANKITARE_FOR_VECTOR + 1 };
static uint8_t list[1000 * WANKITARE_STEP_ROOM];
static size_t list_length;
static int list_file;
static uint64_t reads[WANKITARE_PAGES], writes[WANKITARE_PAGES], purposes[PURPOSES];

/* Of the trial, not of a board: how many bytes can be written until the power fails; what the last save that was
   completed has saved, and how many were; how many accesses the steps have made. */
static size_t power = SIZE_MAX;
static struct blade saved;
static int saves, quiet, failed;
static uint64_t made;

/* ---- What is said ---- */

static const char *const sentences[] = {
    [WANKITARE_RECORD_LENGTH] = "the record is not 16 bytes long",
    [WANKITARE_RECORD_MALFORMED] = "the record is malformed",
    [WANKITARE_IMAGE_LENGTH] = "the image is not as long as the part wants it",
    [WANKITARE_LINES_OR_PINS] = "the part has no such lines or pins",
    [WANKITARE_ACCESS_ROOM] = "under 56 bytes are left for the accesses",
    [WANKITARE_UNDEFINED_OPCODE] = "the opcode is undefined",
    [WANKITARE_SCRIPT_LENGTH] = "the script ends with half a step",
    [WANKITARE_FILE_LENGTH] = "the restart file has no record, or no room for one more",
    [WANKITARE_ADMISSION_INPUT] = "image, map or number of protected pages cannot be right",
    [WANKITARE_MAP_RECORD] = "the map's record is malformed, or its address is not above the one before",
    [WANKITARE_VECTORS_OR_ROOM] = "a vector leads to no beginning of main or handler, or they need too much stack",
    [WANKITARE_PLACE_OR_OPCODE] = "the instruction is not whole in protected pages, or undefined, or barred",
    [WANKITARE_STORE_ADDRESS] = "the instruction could write the stack page",
    [WANKITARE_KIND_OR_HEIGHT] = "TXS, CLI, RTS, RTI or PLA in a kind of code, or at a height, where it is not allowed",
    [WANKITARE_SUCCESSOR] = "what follows the instruction has no record, or one that does not fit",
    [WANKITARE_LIST_LENGTH] = "the list of accesses ends with a part of one",
    [WANKITARE_LIST_RECORD] = "the list has an access that no step makes",
    [WANKITARE_TOTAL] = "all counts together would pass 64 bits",
};

static const char *const names[PURPOSES] = {
    [WANKITARE_FOR_OPCODE] = "opcode",
    [WANKITARE_FOR_OPERAND] = "operand",
    [WANKITARE_FOR_WASTED] = "wasted",
    [WANKITARE_FOR_POINTER] = "pointer",
    [WANKITARE_FOR_DATA] = "data",
    [WANKITARE_FOR_STACK] = "stack",
    [WANKITARE_FOR_VECTOR] = "vector",
};

static const char *sentence(uint64_t word)
{
    unsigned refusal = wankitare_refusal(word);
    const char *known = refusal < sizeof sentences / sizeof *sentences ? sentences[refusal] : NULL;

    return known ? known : "a number that this board does not know";
}

/* A blade that cannot go on says why. */
static void stop_if_refused(uint64_t word, const char *what)
{
    unsigned refusal = wankitare_refusal(word);

    if (refusal == 0)
        return;
    fprintf(stderr, "board: %s is refused by %u: %s\n", what, refusal, sentence(word));
    if (refusal == WANKITARE_UNDEFINED_OPCODE)
        fprintf(stderr, "board: it is %02X at %04X\n", wankitare_opcode(word), wankitare_pc(word));
    if (refusal == WANKITARE_MAP_RECORD || (refusal >= WANKITARE_PLACE_OR_OPCODE && refusal <= WANKITARE_SUCCESSOR))
        fprintf(stderr, "board: see record %u of the map\n", wankitare_index(word));
    exit(1);
}

static void must(int works, const char *what)
{
    if (!works) {
        perror(what);
        exit(2);
    }
}

static void expect(int holds, const char *what)
{
    if (!holds) {
        fprintf(stderr, "board: not as expected: %s\n", what);
        failed = 1;
    }
}

/* A line of the timeline. */
static void tell(const char *format, ...)
{
    va_list values;

    va_start(values, format);
    if (!quiet) {
        vprintf(format, values);
        putchar('\n');
    }
    va_end(values);
}

/* ---- What is kept when the power fails ---- */

static size_t read_file(int file, uint8_t *bytes, size_t room, const char *name)
{
    ssize_t length = file < 0 ? -1 : pread(file, bytes, room, 0);

    must(length >= 0, name);
    return (size_t)length;
}

/* Writes, and says whether there is power still: it may have failed before the last byte. */
static int put(int file, const uint8_t *bytes, size_t length, size_t at, const char *name)
{
    size_t written = length < power ? length : power;

    must(pwrite(file, bytes, written, (off_t)at) == (ssize_t)written && fsync(file) == 0, name);
    power -= written;
    if (written < length)
        tell("-- the power fails: %zu of %zu bytes of the %s are written", written, length, name);
    return written == length;
}

/* Two copies of the RAM take turns, by the place of the record that they belong to. */
static size_t copy_at(uint32_t place)
{
    return place / RECORD % 2 * RAM;
}

/* Saves RAM and record, and says whether there is power still.

   A record is the processor alone, and fits only the RAM of the same moment: over another one RTS would find a return
   address that is not its own. So the RAM goes first, and a record that stands whole says that its RAM does. Until then
   the record before is the last whole one, and its RAM is the other copy.

   (A board that cannot keep its RAM asserts RES in the first step after a dip. Then the cycles go on from the record,
   the firmware begins anew, and what admission promises holds from there.) */
static int save(void)
{
    off_t length = lseek(restart_file, 0, SEEK_END);
    uint64_t word = wankitare_append_at((uint64_t)length);
    uint32_t place = wankitare_place(word);

    must(length >= 0, "restart file");
    stop_if_refused(word, "an append"); /* 8 after 4,096 records: a blade in service would begin a new file */
    if (!put(ram_file, blade.image, RAM, copy_at(place), "RAM"))
        return 0;
    must(ftruncate(restart_file, (off_t)place) == 0, "restart file"); /* drops a tail */
    if (!put(restart_file, blade.record, RECORD, place, "record"))
        return 0;
    saved = blade;
    saves++;
    return 1;
}

/* ---- What the logger keeps ---- */

/* Counts the list by page and by purpose, and writes it behind those before it. That is done for many steps at a time,
   since a call goes over all counts of pages once, however short the list. */
static void count_list(void)
{
    stop_if_refused(wankitare_pages(reads, writes, list, list_length), "a list"); /* by 21 if it has another purpose */
    for (size_t at = 0; at < list_length; at += ACCESS)
        purposes[list[at + WANKITARE_AT_PURPOSE]]++;
    must(write(list_file, list, list_length) == (ssize_t)list_length, "accesses");
    list_length = 0;
}

/* Takes the list of a step. */
static void log_accesses(const uint8_t *accesses, size_t length)
{
    if (length > sizeof list - list_length)
        count_list();
    memcpy(list + list_length, accesses, length);
    list_length += length;
}

static uint64_t total(const uint64_t *counts, unsigned length)
{
    uint64_t all = 0;

    for (unsigned i = 0; i < length; i++)
        all += counts[i];
    return all;
}

/* Each access is a cycle. */
static void show_purposes(void)
{
    tell("-- what its %lu cycles were for:", (unsigned long)made);
    for (unsigned purpose = WANKITARE_FOR_OPCODE; purpose < PURPOSES; purpose++)
        tell("   %u %-8s%6lu  %4.1f %%", purpose, names[purpose], (unsigned long)purposes[purpose],
             100.0 * (double)purposes[purpose] / (double)made);
    tell("-- %lu of them are wasted", (unsigned long)purposes[WANKITARE_FOR_WASTED]);
}

/* ---- What the firmware sees of the board, and the board of the firmware ---- */

static uint32_t cycles(void)
{
    return wankitare_cycles(blade.record);
}

/* A patched firmware has its first outlet come on later. So does all that happens then: it meets the same moments. */
static void postpone(uint32_t later)
{
    for (unsigned i = 1; i < sizeof events / sizeof *events; i++)
        events[i].cycle += later;
    for (unsigned i = 0; i < REQUESTS; i++)
        requests[i].cycle += later;
    end += later;
}

/* The last event that must have been by this cycle. */
static const struct event *expected(uint32_t cycle)
{
    const struct event *event = events + sizeof events / sizeof *events - 1;

    while (event->cycle > cycle)
        event--;
    return event;
}

static void switch_outlets(uint8_t to, uint32_t cycle)
{
    uint8_t changed = relays ^ to;

    relays = to;
    for (unsigned n = 0; n < COUNT; n++) {
        unsigned on = relays >> n & 1, load = on ? amperes[n] : 0;

        blade.image[LOADS + n] = (uint8_t)(load / 10 << 4 | load % 10); /* the meter's two decimal digits */
        if (changed >> n & 1) {
            tell("cycle %5u  outlet %u %s", cycle, n, on ? "on" : "off");
            expect(cycle == expected(cycle)->cycle, "an outlet is switched in its cycle");
        }
    }
    expect(relays == expected(cycle)->outlets, "these outlets are on");
}

/* The firmware's sum: four decimal digits, two in a byte. */
static unsigned sum(void)
{
    unsigned digits = wankitare_pair(blade.image + SUM);

    return (digits >> 12) * 1000 + (digits >> 8 & 15) * 100 + (digits >> 4 & 15) * 10 + (digits & 15);
}

static void show_sum(uint32_t cycle)
{
    if (sum() == shown)
        return;
    shown = sum();
    tell("cycle %5u  load %u A", cycle, shown);
    expect(shown == expected(cycle)->load, "the load is that of the outlets that are on");
}

/* The lines as they stand: the board asks for an outlet to be shed until the firmware has counted that as served. */
static uint8_t lines(void)
{
    unsigned served = blade.image[SERVED];
    int asks = served < REQUESTS && cycles() >= requests[served].cycle;

    if (asks && !asking) {
        blade.image[SHED] = (uint8_t)(1 << requests[served].outlet);
        tell("cycle %5u  overload: IRQ is asserted, outlet %u is to be shed", cycles(), requests[served].outlet);
    }
    asking = asks;
    return asks ? WANKITARE_IRQ : 0;
}

/* What an access means to this board. */
static void look(const uint8_t *access, uint32_t cycle)
{
    uint16_t address = wankitare_pair(access + WANKITARE_AT_ADDRESS);
    int written = access[WANKITARE_AT_WRITTEN];

    if (written && address == OUTLETS)
        switch_outlets(access[WANKITARE_AT_VALUE], cycle);
    if (written && address == SUM)
        show_sum(cycle);
    if (!written && address == RESET_VECTOR)
        tell("cycle %5u  reset", cycle);
    if (!written && address == INTERRUPT_VECTOR)
        tell("cycle %5u  the interrupt is taken", cycle);
}

/* One step, and its accesses: each is a cycle. When an outlet was switched the board saves, so that a dip takes the
   blade back by one outlet at most. Says whether there is power still. */
static int step(uint8_t with_lines)
{
    uint8_t accesses[WANKITARE_STEP_ROOM], relays_before = relays;
    uint32_t before = cycles();
    uint64_t word = wankitare_step(blade.record, sizeof blade.record, blade.image, sizeof blade.image, with_lines, 0,
                                   accesses, sizeof accesses);

    stop_if_refused(word, "a step");
    made += wankitare_accesses(word);
    log_accesses(accesses, wankitare_accesses(word) * ACCESS);
    for (unsigned i = 0; i < wankitare_accesses(word); i++)
        look(accesses + i * ACCESS, before + i + 1);
    return relays == relays_before || save();
}

/* ---- Power comes ---- */

/* The ROM is there and the RAM has anything in it. Shared cells are cleared, so that no outlet comes on by chance. */
static void power_up(void)
{
    static const uint8_t record[RECORD] = {
        [WANKITARE_AT_PART] = WANKITARE_6502,
        [WANKITARE_AT_P] = WANKITARE_FLAG_5 | WANKITARE_FLAG_I,
        [WANKITARE_AT_PAGES] = PAGES,
    };

    memcpy(blade.record, record, sizeof record);
    memset(blade.image, 0xA5, sizeof blade.image);
    memset(blade.image + CELLS, 0, RAM - CELLS);
    memcpy(blade.image + ROM_AT, rom, sizeof rom);
    asking = 0;
}

/* Goes on from the last whole record, or begins by a reset. Says whether there is power still. */
static int restart(void)
{
    static uint8_t file[WANKITARE_MOST_FILE_BYTES + 1];
    size_t length = read_file(restart_file, file, sizeof file, "restart file");
    uint64_t word = wankitare_restart(file, length);
    uint32_t place = wankitare_place(word);
    int none = wankitare_refusal(word) == WANKITARE_FILE_LENGTH && length < RECORD;

    power_up();
    if (none) {
        tell("-- power comes: restart file of %zu bytes, no whole record", length);
        expect(saves == 0, "a restart finds a record, once one was saved");
    } else {
        stop_if_refused(word, "the restart file");
        memcpy(blade.record, file + place, RECORD);
        must(pread(ram_file, blade.image, RAM, (off_t)copy_at(place)) == RAM, "RAM");
        tell("-- power comes: restart file of %zu bytes, last whole record at %u, tail of %u: PC %04X, cycle %u",
             length, place, wankitare_tail(word), wankitare_pair(blade.record + WANKITARE_AT_PC), cycles());
        expect(memcmp(&blade, &saved, sizeof blade) == 0, "a restart finds what was last saved");
    }
    relays = blade.image[OUTLETS];
    shown = sum();
    expect(relays == expected(cycles())->outlets, "these outlets are on when power comes");
    return none ? step(WANKITARE_RES) && save() : 1;
}

/* Works until the end, or until the power fails. Says whether there is power still. */
static int work(void)
{
    int powered = restart();

    while (powered && cycles() < end)
        powered = step(lines());
    return powered;
}

/* ---- Before the first outlet is switched ---- */

/* Admission turns a patched firmware away, whose handler ends as a routine does, and takes the firmware as it was. */
static void admit(void)
{
    enum { RTI = 0x40, RTS = 0x60 };
    unsigned records = (unsigned)(map_length / MAP_RECORD), last = records - 1;
    uint16_t at;
    uint64_t word;

    while (last > 0 && map[last * MAP_RECORD + WANKITARE_AT_KIND] != WANKITARE_HANDLER)
        last--; /* what a patch has added behind the handler */
    at = wankitare_pair(map + last * MAP_RECORD + WANKITARE_AT_INSTRUCTION);
    expect(blade.image[at] == RTI, "the handler's last instruction ends it");
    blade.image[at] = RTS;
    word = wankitare_admit(blade.image, sizeof blade.image, PAGES, map, map_length);
    tell("patched, RTS over RTI at %04X: refused by %u at record %u of the map:\n    %s", at, wankitare_refusal(word),
         wankitare_index(word), sentence(word));
    expect(wankitare_refusal(word) == WANKITARE_KIND_OR_HEIGHT && wankitare_index(word) == last, "the patch is found");

    blade.image[at] = RTI;
    word = wankitare_admit(blade.image, sizeof blade.image, PAGES, map, map_length);
    stop_if_refused(word, "the firmware");
    tell("as it was: admitted, %u records, protected pages: %d", records, PAGES);
}

/* A run of many steps, the first under RES and the others quiet, shows when the first outlet will come on. It moves no
   relay: those hang on the lists of steps. */
static void rehearse(void)
{
    enum { STEPS = 4000 };
    static const uint8_t script[2 * STEPS] = {WANKITARE_RES};
    static uint8_t accesses[STEPS * WANKITARE_STEP_ROOM];
    uint64_t steps, listed, cycle = 0;

    stop_if_refused(wankitare_run(blade.record, sizeof blade.record, blade.image, sizeof blade.image, script,
                                  sizeof script, accesses, sizeof accesses, &steps, &listed), "a run");
    for (const uint8_t *access = accesses; cycle++ < listed; access += ACCESS)
        if (access[WANKITARE_AT_WRITTEN] && wankitare_pair(access + WANKITARE_AT_ADDRESS) == OUTLETS &&
            access[WANKITARE_AT_VALUE] != 0)
            break;
    tell("rehearsed, a run of %u steps: outlet 0 comes on in cycle %u", (unsigned)steps, (unsigned)cycle);
    expect(cycle == events[1].cycle, "outlet 0 comes on in its cycle");
}

/* ---- The trial ---- */

static uint32_t draw(uint32_t *seed, uint32_t below)
{
    uint32_t mixed = *seed += 0x9E3779B9;

    mixed = (mixed ^ mixed >> 16) * 0x21F0AAAD;
    mixed = (mixed ^ mixed >> 15) * 0x735A2D97;
    return (mixed ^ mixed >> 15) % below;
}

/* The power is to fail after some saves, in the midst of one more: mostly of its record, sometimes of its RAM. */
static size_t draw_dip(uint32_t *seed)
{
    size_t whole = draw(seed, 6) * (RAM + RECORD);

    return whole + (draw(seed, 4) ? RAM + draw(seed, RECORD) : draw(seed, RAM));
}

/* Works to the end through so many dips, from empty files and counts on. */
static void work_through(int dips, uint32_t seed)
{
    must(ftruncate(restart_file, 0) == 0 && ftruncate(ram_file, 0) == 0 && ftruncate(list_file, 0) == 0, "files");
    memset(reads, 0, sizeof reads);
    memset(writes, 0, sizeof writes);
    memset(purposes, 0, sizeof purposes);
    saves = 0;
    made = 0;
    for (; dips > 0; dips--) {
        power = draw_dip(&seed);
        expect(!work(), "the power fails");
    }
    power = SIZE_MAX;
    expect(work(), "the power stays");
    expect(relays == expected(end)->outlets && sum() == expected(end)->load, "in the end these outlets are on");
    expect(blade.image[STAGE] == COUNT && blade.image[SERVED] == REQUESTS, "the firmware has counted right");
    count_list();
    expect(total(reads, WANKITARE_PAGES) + total(writes, WANKITARE_PAGES) == made,
           "the counts of all pages together are the accesses");
    expect(purposes[0] == 0 && total(purposes, PURPOSES) == made, "those of the seven purposes are too");
    expect(lseek(list_file, 0, SEEK_END) == (off_t)(made * ACCESS), "the logger's file has the accesses");
}

int main(int count, char **words)
{
    static struct blade undisturbed;
    uint32_t seed;

    if (count != 3 && count != 4) {
        fprintf(stderr, "usage: board FOLDER SEED [LATER]\n");
        return 2;
    }
    seed = (uint32_t)strtoul(words[2], NULL, 10);
    if (count == 4)
        postpone((uint32_t)strtoul(words[3], NULL, 10));
    must(chdir(words[1]) == 0, words[1]);
    must(read_file(open("firmware", O_RDONLY), rom, sizeof rom, "firmware") == sizeof rom, "firmware");
    map_length = read_file(open("firmware.map", O_RDONLY), map, sizeof map, "firmware.map");
    must(map_length >= MAP_RECORD, "firmware.map");
    restart_file = open("restart", O_RDWR | O_CREAT, 0666);
    ram_file = open("ram", O_RDWR | O_CREAT, 0666);
    list_file = open("accesses", O_WRONLY | O_CREAT | O_APPEND, 0666);
    must(restart_file >= 0 && ram_file >= 0 && list_file >= 0, words[1]);

    tell("seed %u", (unsigned)seed);
    power_up();
    admit();
    rehearse();

    quiet = 1;
    work_through(0, seed);
    undisturbed = blade;
    expect(made == cycles(), "a blade whose power never fails makes one access in each cycle");
    quiet = 0;
    work_through(DIPS, seed);
    expect(memcmp(&blade, &undisturbed, sizeof blade) == 0, "a blade whose power never fails ends with the same bytes");
    tell("-- the bus saw %lu reads and %lu writes", (unsigned long)total(reads, WANKITARE_PAGES),
         (unsigned long)total(writes, WANKITARE_PAGES));
    show_purposes();
    if (!failed)
        tell("-- all as expected; record and image end as if the power had never failed");
    return failed;
}

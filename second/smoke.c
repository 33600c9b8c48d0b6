/* Runs examples.txt, given as standard input, as steps and as runs of one step, then some runs, restart files, appends,
   admissions, counts by page and texts, on the archive that this is linked with, through the board's header. It shows
   that an x86-64 archive links and answers wherever x86-64 programs run, and needs no headers of a C library. */

#include "wankitare.h"

int getchar(void);
int printf(const char *format, ...);
int memcmp(const void *, const void *, size_t);
void *memcpy(void *, const void *, size_t);
void *memset(void *, int, size_t);

enum { MOST_BANKS = 4, MOST_ROOM = 64, UNTOUCHED = 0xEE };

/* What a step is given, and what it must leave. */
struct buffers {
    uint8_t record[WANKITARE_RECORD_BYTES];
    uint8_t image[MOST_BANKS * WANKITARE_BANK_BYTES];
    uint8_t accesses[MOST_ROOM];
};

static struct buffers given, run_given, left;
static size_t banks, room;
static uint8_t pins;
static uint64_t word;
static unsigned listed;

static char line[128];
static char name[sizeof line];
static uint8_t bytes[sizeof line / 2]; /* of the line */
static size_t count;
static unsigned run, checked, failed;

static int read_line(void)
{
    size_t length = 0;
    int c;

    while ((c = getchar()) >= 0 && c != '\n')
        if (length < sizeof line - 1)
            line[length++] = (char)c;
    line[length] = 0;
    return c >= 0;
}

static int digit(char c)
{
    return c >= '0' && c <= '9' ? c - '0' : c >= 'A' && c <= 'F' ? c - 'A' + 10 : -1;
}

/* Two digits are a byte; the first stands alone where their number is odd. */
static void read_bytes(const char *text)
{
    size_t digits = 0;
    unsigned value = 0;

    for (const char *c = text; *c != 0; c++)
        digits += digit(*c) >= 0;
    for (count = 0; *text != 0; text++)
        if (digit(*text) >= 0) {
            value = value << 4 | (unsigned)digit(*text);
            if (--digits % 2 == 0)
                bytes[count++] = (uint8_t)value;
        }
}

/* Whether the line begins so; if it does, its digits are read. */
static int says(const char *start)
{
    size_t length = 0;

    for (; start[length] != 0; length++)
        if (start[length] != line[length])
            return 0;
    read_bytes(line + length);
    return 1;
}

static uint64_t number(size_t length)
{
    uint64_t value = 0;

    for (size_t i = 0; i < length; i++)
        value = value << 8 | bytes[i];
    return value;
}

static void put(uint8_t *image)
{
    memcpy(image + number(3), bytes + 3, count - 3);
}

static void start(void)
{
    memcpy(name, line, sizeof name);
    memset(given.image, 0, sizeof given.image);
    memset(left.image, 0, sizeof left.image);
    memset(given.accesses, UNTOUCHED, sizeof given.accesses);
    memset(left.accesses, UNTOUCHED, sizeof left.accesses);
    banks = 1;
    room = MOST_ROOM;
    pins = 0;
    listed = 0;
}

/* Eight digits: the bank's one, the address's four, the value's two, the purpose's one. */
static void list(uint8_t written)
{
    uint8_t *access = left.accesses + WANKITARE_ACCESS_BYTES * listed++;
    uint64_t digits = number(4);

    memset(access, 0, WANKITARE_ACCESS_BYTES);
    access[WANKITARE_AT_ADDRESS] = (uint8_t)(digits >> 12);
    access[WANKITARE_AT_ADDRESS + 1] = (uint8_t)(digits >> 20);
    access[WANKITARE_AT_BANK] = (uint8_t)(digits >> 28);
    access[WANKITARE_AT_VALUE] = (uint8_t)(digits >> 4);
    access[WANKITARE_AT_WRITTEN] = written;
    access[WANKITARE_AT_PURPOSE] = digits & 0x0F;
}

static int details_hold(uint64_t answer)
{
    switch (wankitare_refusal(answer)) {
    case 0:
        return wankitare_accesses(answer) == listed;
    case WANKITARE_UNDEFINED_OPCODE:
        return wankitare_pc(answer) == (given.record[6] | given.record[7] << 8) &&
               wankitare_opcode(answer) == given.image[wankitare_pc(answer)];
    default:
        return 1;
    }
}

static void check(const char *what, int holds)
{
    checked++;
    if (!holds) {
        printf("fails: %s\n", what);
        failed++;
    }
}

/* The example as a run of one step. */
static int run_holds(void)
{
    uint8_t script[] = {0, pins};
    uint64_t steps = 99, accesses = 99;
    uint64_t answer = wankitare_run(run_given.record, sizeof run_given.record, run_given.image,
                                    banks * WANKITARE_BANK_BYTES, script, sizeof script, run_given.accesses, room,
                                    &steps, &accesses);
    int is_done = wankitare_refusal(word) == 0;

    return answer == (is_done ? 0 : word) && steps == (is_done ? 1 : 0) && accesses == listed &&
           memcmp(&run_given, &left, sizeof left) == 0;
}

static void finish(void)
{
    uint64_t answer;

    if (name[0] == 0)
        return;
    memcpy(&run_given, &given, sizeof given);
    answer = wankitare_step(given.record, sizeof given.record, given.image, banks * WANKITARE_BANK_BYTES, 0, pins,
                            given.accesses, room);
    run++;
    check(name, answer == word && details_hold(answer) && memcmp(&given, &left, sizeof given) == 0 && run_holds());
}

/* LDA #42 and NOP are done; the next opcode is undefined. */
static void check_runs(void)
{
    static const uint8_t program[] = {0xA9, 0x42, 0xEA, 0x02};
    static const uint8_t before[WANKITARE_RECORD_BYTES] = {2, 0, 0, 0, 0xFF, 0x24, 0x00, 0x80};
    static const uint8_t after[WANKITARE_RECORD_BYTES] = {2, 0x42, 0, 0, 0xFF, 0x24, 0x03, 0x80, 0, 0, 0, 0, 4};
    static const uint8_t lists[] = {
        0, 0x80, 0, 0xA9, 0, WANKITARE_FOR_OPCODE, 0, 0, 1, 0x80, 0, 0x42, 0, WANKITARE_FOR_OPERAND, 0, 0,
        2, 0x80, 0, 0xEA, 0, WANKITARE_FOR_OPCODE, 0, 0, 3, 0x80, 0, 0x02, 0, WANKITARE_FOR_WASTED, 0, 0};
    static const uint8_t script[6];
    uint8_t record[WANKITARE_RECORD_BYTES], accesses[sizeof lists + WANKITARE_STEP_ROOM];
    uint8_t *image = given.image;
    uint64_t steps = 99, accessed = 99;

    memset(image, 0, WANKITARE_BANK_BYTES);
    memcpy(image + 0x8000, program, sizeof program);
    memcpy(record, before, sizeof record);
    memset(accesses, UNTOUCHED, sizeof accesses);

    word = wankitare_run(record, sizeof record, image, WANKITARE_BANK_BYTES, script, 3, accesses, sizeof accesses,
                         &steps, &accessed);
    check("run, odd script", word == WANKITARE_SCRIPT_LENGTH && steps == 0 && accessed == 0);
    steps = accessed = 99;
    word = wankitare_run(record, sizeof record, image, WANKITARE_BANK_BYTES, script, 0, accesses, 0, &steps, &accessed);
    check("run, empty script", word == 0 && steps == 0 && accessed == 0);
    check("run, nothing done", memcmp(record, before, sizeof record) == 0 && accesses[0] == UNTOUCHED);

    word = wankitare_run(record, sizeof record, image, WANKITARE_BANK_BYTES, script, 6, accesses,
                         WANKITARE_STEP_ROOM + 8, &steps, &accessed);
    check("run, room for a step", word == WANKITARE_ACCESS_ROOM && steps == 1 && accessed == 2);
    memcpy(record, before, sizeof record);
    word = wankitare_run(record, sizeof record, image, WANKITARE_BANK_BYTES, script, 6, accesses, sizeof accesses,
                         &steps, &accessed);
    check("run, undefined opcode", wankitare_refusal(word) == WANKITARE_UNDEFINED_OPCODE &&
                                       wankitare_opcode(word) == 0x02 && wankitare_pc(word) == 0x8003);
    check("run, steps done", steps == 2 && accessed == 4 && memcmp(record, after, sizeof record) == 0 &&
                                 memcmp(accesses, lists, sizeof lists) == 0 && accesses[sizeof lists] == UNTOUCHED);
}

static void check_restart(void)
{
    uint8_t file[2 * WANKITARE_RECORD_BYTES + 15] = {2, 0, 0, 0, 0, 0x20};
    uint8_t *last = file + WANKITARE_RECORD_BYTES;

    word = wankitare_restart(file, WANKITARE_RECORD_BYTES + 15);
    check("restart, one record", word == 15 << 8 && wankitare_place(word) == 0 && wankitare_tail(word) == 15);
    check("restart, last record malformed", wankitare_restart(file, sizeof file) == WANKITARE_RECORD_MALFORMED);
    memcpy(last, file, WANKITARE_RECORD_BYTES);
    word = wankitare_restart(file, sizeof file - 8);
    check("restart, two records", word == (16 << 16 | 7 << 8) && wankitare_place(word) == 16 &&
                                      wankitare_tail(word) == 7);
    check("restart, file too short", wankitare_restart(file, 15) == WANKITARE_FILE_LENGTH);
}

static void check_append(void)
{
    check("append, first record", wankitare_append_at(15) == 0);
    check("append, tail dropped", wankitare_place(wankitare_append_at(40)) == 32);
    check("append, last place", wankitare_append_at(65535) == (uint64_t)65520 << 16);
    check("append, file full", wankitare_append_at(WANKITARE_MOST_FILE_BYTES) == WANKITARE_FILE_LENGTH);
    check("append, no length", wankitare_append_at(UINT64_MAX) == WANKITARE_FILE_LENGTH);
}

/* Document 01's example. */
static void check_admit(void)
{
    static const uint8_t program[] = {0xA2, 0xFF, 0x9A, 0x58, 0x4C, 0x04, 0xFF, 0x40};
    static const uint8_t vectors[] = {0x00, 0xFF, 0x07, 0xFF};
    static uint8_t map[][WANKITARE_MAP_RECORD_BYTES] = {
        {0x00, 0xFF, 1}, {0x02, 0xFF, 1}, {0x03, 0xFF, 1}, {0x04, 0xFF, 1}, {0x07, 0xFF, 3}};
    uint8_t *image = given.image;

    memset(image, 0, WANKITARE_BANK_BYTES);
    memcpy(image + 0xFF00, program, sizeof program);
    memcpy(image + 0xFFFC, vectors, sizeof vectors);
    check("admit, the example", wankitare_admit(image, WANKITARE_BANK_BYTES, 1, map[0], sizeof map) == 0);
    check("admit, no protected page",
          wankitare_admit(image, WANKITARE_BANK_BYTES, 0, map[0], sizeof map) == WANKITARE_ADMISSION_INPUT);
    image[0xFF07] = 0x60;
    word = wankitare_admit(image, WANKITARE_BANK_BYTES, 1, map[0], sizeof map);
    check("admit, 60 at FF07", wankitare_refusal(word) == WANKITARE_KIND_OR_HEIGHT && wankitare_index(word) == 4 &&
                                   word == (4 << 16 | 15));
    map[4][7] = 1;
    word = wankitare_admit(image, WANKITARE_BANK_BYTES, 1, map[0], sizeof map);
    check("admit, malformed record", word == (4 << 16 | WANKITARE_MAP_RECORD));
}

/* The list of LDA 10 at 8000 and of STA 0210, and then what is refused. */
static void check_pages(void)
{
    static uint8_t lists[][WANKITARE_ACCESS_BYTES] = {
        {0x00, 0x80, 0, 0xA5, 0, WANKITARE_FOR_OPCODE},  {0x01, 0x80, 0, 0x10, 0, WANKITARE_FOR_OPERAND},
        {0x10, 0x00, 0, 0x42, 0, WANKITARE_FOR_DATA},    {0x02, 0x80, 0, 0x8D, 0, WANKITARE_FOR_OPCODE},
        {0x03, 0x80, 0, 0x10, 0, WANKITARE_FOR_OPERAND}, {0x04, 0x80, 0, 0x02, 0, WANKITARE_FOR_OPERAND},
        {0x10, 0x02, 0, 0x42, 1, WANKITARE_FOR_DATA}};
    static uint64_t reads[WANKITARE_PAGES], writes[WANKITARE_PAGES];
    static uint64_t right_reads[WANKITARE_PAGES], right_writes[WANKITARE_PAGES];
    const size_t first = 3 * WANKITARE_ACCESS_BYTES, rest = sizeof lists - first;

    right_reads[0x00] = 1;
    right_reads[0x80] = 5;
    right_writes[0x02] = 1;
    check("pages, first list", wankitare_pages(reads, writes, lists[0], first) == 0 && reads[0x80] == 2 &&
                                   reads[0x00] == 1 && writes[0x02] == 0);
    check("pages, second list", wankitare_pages(reads, writes, lists[3], rest) == 0);
    check("pages, empty list", wankitare_pages(reads, writes, NULL, 0) == 0);
    check("pages, counts", memcmp(reads, right_reads, sizeof reads) == 0 &&
                               memcmp(writes, right_writes, sizeof writes) == 0);
    lists[0][7] = 1;
    check("pages, list cut", wankitare_pages(reads, writes, lists[0], sizeof lists - 1) == WANKITARE_LIST_LENGTH);
    check("pages, bad record", wankitare_pages(reads, writes, lists[0], sizeof lists) == WANKITARE_LIST_RECORD);
    lists[0][7] = 0;
    lists[0][WANKITARE_AT_PURPOSE] = WANKITARE_FOR_VECTOR + 1;
    check("pages, no purpose", wankitare_pages(reads, writes, lists[0], sizeof lists) == WANKITARE_LIST_RECORD);
    lists[0][WANKITARE_AT_PURPOSE] = 0; /* as before purposes were listed */
    writes[0xFF] = UINT64_MAX - 7 - 6; /* with the seven before, room for six */
    right_writes[0xFF] = writes[0xFF];
    check("pages, total", wankitare_pages(reads, writes, lists[0], sizeof lists) == WANKITARE_TOTAL);
    check("pages, refused and unchanged", memcmp(reads, right_reads, sizeof reads) == 0 &&
                                              memcmp(writes, right_writes, sizeof writes) == 0);
    word = wankitare_pages(reads, writes, lists[0], sizeof lists - WANKITARE_ACCESS_BYTES);
    check("pages, the last that fit", word == 0 && reads[0x80] == 10 && reads[0x00] == 2 && writes[0x02] == 1);
    check("pages, no room", wankitare_pages(reads, writes, lists[0], WANKITARE_ACCESS_BYTES) == WANKITARE_TOTAL);
}

/* Whether these bytes were written, and none behind them. */
static int has_only(const uint8_t *room, size_t length, const void *right, size_t right_length)
{
    if (memcmp(room, right, right_length) != 0)
        return 0;
    for (size_t i = right_length; i < length; i++)
        if (room[i] != UNTOUCHED)
            return 0;
    return 1;
}

/* Each refusal, and that nothing was written; then a text with most of what a line may be. */
static void check_assemble(void)
{
#define LINES(text, number, line) {text, sizeof text - 1, (uint64_t)(line) << 16 | (number)}
    static const struct { const char *text; size_t length; uint64_t word; } bad[] = {
        LINES("start ;\n", WANKITARE_NOT_A_LINE, 1),
        LINES("NOP\nLDA $12345\n", WANKITARE_NOT_A_LINE, 2),
        LINES("; one\n\nLDA", WANKITARE_NO_SUCH_MODE, 3),
        LINES("LDA #$100", WANKITARE_NO_SUCH_MODE, 1),
        LINES("BNE $8082", WANKITARE_BRANCH_TOO_FAR, 1),
        LINES("LDA [[[[[[[[[[[[[[[[[$1]]]]]]]]]]]]]]]]]", WANKITARE_TOO_DEEP, 1),
        LINES("NOP\nJSR $1\nJSR $1\nJSR $1\nJSR $1\nJSR $1\nNOP\n", WANKITARE_TEXT_ROOM, 7),
    };
    static const char good[] = "\tlda #$01+[$12-$11] ; two\r\n\nSTA $0012\nsta$12\nBNE $8081\nASL A\nJMP ($1234)\n"
                               "BYTE $02";
    static const uint8_t made[] = {0xA9, 0x02, 0x8D, 0x12, 0x00, 0x85, 0x12, 0xD0, 0x78, 0x0A,
                                   0x6C, 0x34, 0x12, 0x02};
    uint8_t room[16];

    memset(room, UNTOUCHED, sizeof room);
    for (size_t i = 0; i < sizeof bad / sizeof *bad; i++) {
        word = wankitare_assemble((const uint8_t *)bad[i].text, bad[i].length, 0x8000, room, sizeof room);
        check(bad[i].text, word == bad[i].word && wankitare_line(word) == bad[i].word >> 16 &&
                               has_only(room, sizeof room, room, 0));
    }
    word = wankitare_assemble((const uint8_t *)good, sizeof good - 1, 0x8000, room, sizeof made - 1);
    check("assemble, one byte too few", word == (8 << 16 | WANKITARE_TEXT_ROOM) &&
                                            has_only(room, sizeof room, room, 0));
    word = wankitare_assemble((const uint8_t *)good, sizeof good - 1, 0x8000, room, sizeof room);
    check("assemble", wankitare_refusal(word) == 0 && wankitare_written(word) == sizeof made &&
                          has_only(room, sizeof room, made, sizeof made));
    check("assemble, no text", wankitare_assemble(NULL, 0, 0x8000, NULL, 0) == 0);
}

/* An instruction of most modes, and one that is cut. */
static void check_list(void)
{
    static const uint8_t program[] = {0xA9, 0x02, 0x8D, 0x12, 0x00, 0xB1, 0x12, 0xD0, 0xFE, 0x0A,
                                      0x6C, 0x34, 0x12, 0x02, 0xEA, 0x4C, 0x34};
    static const char right[] = "LDA #$02\nSTA $0012\nLDA ($12),Y\nBNE $0001\nASL A\nJMP ($1234)\nBYTE $02\nNOP\n"
                                "BYTE $4C\nBYTE $34\n";
    const size_t length = sizeof right - 1;
    uint8_t text[WANKITARE_LISTED_LINE * sizeof program], again[sizeof program];

    memset(text, UNTOUCHED, sizeof text);
    word = wankitare_list(program, sizeof program, 0xFFFA, text, length - 1);
    check("list, one character too few", word == WANKITARE_TEXT_ROOM && has_only(text, sizeof text, text, 0));
    word = wankitare_list(program, sizeof program, 0xFFFA, text, sizeof text);
    check("list", wankitare_refusal(word) == 0 && wankitare_written(word) == length &&
                      has_only(text, sizeof text, right, length));
    word = wankitare_assemble(text, length, 0xFFFA, again, sizeof again);
    check("list and assemble", wankitare_written(word) == sizeof again &&
                                   memcmp(again, program, sizeof again) == 0);
    check("list, no bytes", wankitare_list(NULL, 0, 0, NULL, 0) == 0);
}

int main(void)
{
    while (read_line()) {
        if (says("=")) {
            finish();
            start();
        } else if (says("before ")) {
            memcpy(given.record, bytes, sizeof given.record);
        } else if (says("banks ")) {
            banks = number(count);
        } else if (says("pins ")) {
            pins = bytes[0];
        } else if (says("room ")) {
            room = number(count);
        } else if (says("image ")) {
            put(given.image);
            put(left.image);
        } else if (says("word ")) {
            word = number(count);
        } else if (says("after ")) {
            memcpy(left.record, bytes, sizeof left.record);
        } else if (says("R ")) {
            list(0);
        } else if (says("W ")) {
            list(1);
        } else if (says("changed ")) {
            put(left.image);
        } else if (line[0] != 0 && !says("#")) {
            printf("no example has such a line: %s\n", line);
            failed++;
        }
    }
    finish();
    check_runs();
    check_restart();
    check_append();
    check_admit();
    check_pages();
    check_assemble();
    check_list();
    printf("%u examples and %u cases through the header: %u failed\n", run, checked - run, failed);
    return run == 0 || failed != 0;
}

/*
 * Wankitare: a 6502, 6508 or 6509, one step or a run of steps at a time, the file that it restarts from, the admission
 * of 6502 images, the counting of accesses by page, and an assembler and a lister for who patches an image.
 *
 * The board lends all memory: a state record of 16 bytes, the memory image and room for a list of bus accesses. The
 * library keeps nothing between calls and allocates nothing, so calls on different buffers may be made on different
 * threads at once.
 *
 *     uint64_t word = wankitare_step(record, sizeof record, image, sizeof image, lines, 0, accesses, sizeof accesses);
 *     if (wankitare_refusal(word) != 0)
 *         halt(wankitare_refusal(word));
 *     log_accesses(accesses, wankitare_accesses(word));
 *
 * For C99 and C++11, and what came after them. `scripts/library` makes the archives for x86-64 and Arm, with this header
 * beside them. They need no symbol of a C library, nor of anything else.
 *
 * Nothing checks what C hands over: a pointer must lead to as many bytes as the length beside it says. What a call may
 * write must overlap nothing else that the same call was given: not record, image and access buffer, not script, *steps
 * and *listed, not the counts of reads and of writes, not a text and the bytes that are made of it. What calls only
 * read (a script, a restart file, an admitted image and its map, a list that is counted, what is assembled or listed)
 * may be shared and may lie in read-only memory. No buffer of bytes needs any alignment, and an empty one may have any
 * pointer; 64-bit numbers are aligned as C aligns them.
 */
#ifndef WANKITARE_H
#define WANKITARE_H

#include <stddef.h>
#include <stdint.h>

#ifdef __cplusplus
extern "C" {
#endif

/*
 * Refusals. A step tests 1 to 6 in this order and the first that applies is given; a refused step has changed no byte
 * of any buffer. A run tests 1, 2, 3 and 7 before anything, then 4 to 6 in each step. Of a restart file 8 is tested,
 * then 2. Admission tests 10, then 11 at each record, then 12, then 13 to 16 at each record. Counting by page tests 20,
 * then 21 at each record, then 22, before it counts anything. The assembler tests 33, then 30, 31, 32 and 34 at each
 * line, before it writes anything; the lister has 34 alone.
 */
enum {
    /* record_len is not 16. */
    WANKITARE_RECORD_LENGTH = 1,

    /* The record is none that a step could have written: it is damaged, or was never set up. Restart from one that was
       saved. Of a restart file it is the last whole record that is so. */
    WANKITARE_RECORD_MALFORMED = 2,

    /* image_len is not 65,536; or, for a 6509, not 1, 2, 4, 8 or 16 times that. */
    WANKITARE_IMAGE_LENGTH = 3,

    /* An input that the part lacks. Bits 3 to 7 of lines, NMI on a 6508, or pins not 0 on any other part. */
    WANKITARE_LINES_OR_PINS = 4,

    /* accesses_len is under 56, or in a run what is left of it. Each step wants room for the longest list, whatever it
       will do. */
    WANKITARE_ACCESS_ROOM = 5,

    /* The opcode at PC is none of the 151. wankitare_opcode and wankitare_pc tell which, and where. The processor stays
       there until a reset or an interrupt takes it away. */
    WANKITARE_UNDEFINED_OPCODE = 6,

    /* script_len is odd. */
    WANKITARE_SCRIPT_LENGTH = 7,

    /* The restart file is under 16 or over 65,536 bytes, or an append would take it past that. There is no record to
       restart from, or no place for one more. */
    WANKITARE_FILE_LENGTH = 8,

    /* Admission: image_len, c or map_len does not fit. image_len is not 65,536, c is 0 or 255, or map_len is 0, over
       65,536 or no multiple of 8. */
    WANKITARE_ADMISSION_INPUT = 10,

    /* The map record at wankitare_index is malformed or does not ascend. It has no kind from 1 to 3 or no three zeros
       at its end, or its address is not above that of the record before it. */
    WANKITARE_MAP_RECORD = 11,

    /* A vector points to what is not marked so, or the stack has too little room. FFFC does not point to a main record
       of height 0, or FFFE not to a handler's; or their needs and the three bytes of an interrupt do not fit into the
       stack's 256. */
    WANKITARE_VECTORS_OR_ROOM = 12,

    /* The instruction at wankitare_index lies outside the protected pages, or its opcode is undefined or barred. It
       does not lie whole in them; or its opcode is none of the 151, or BRK, PLP, JMP (a), 81 or 91. */
    WANKITARE_PLACE_OR_OPCODE = 13,

    /* The instruction could write the stack page. It is a store, shift, INC or DEC whose absolute address is 0100 to
       01FF, or whose a,X or a,Y base is 0001 to 01FF. */
    WANKITARE_STORE_ADDRESS = 14,

    /* The instruction is TXS, CLI, RTS, RTI or PLA, of the wrong kind or height. TXS outside main or not at height 0;
       CLI outside main; RTS not in a routine at height 0; RTI not in a handler at height 0; PLA at height 0. */
    WANKITARE_KIND_OR_HEIGHT = 15,

    /* The instruction leads to one that is not marked as it must be. That has no record, or one of another kind, a
       height that does not follow, or more need than it leaves; or a JSR calls what is no routine of height 0, or one
       that needs too much. */
    WANKITARE_SUCCESSOR = 16,

    /* Counting by page: accesses_len is no multiple of 8, so the list is cut. */
    WANKITARE_LIST_LENGTH = 20,

    /* A record of the list is none that a step could have listed. Its byte 4 is above 1, its byte 5 is above 7, or its
       byte 6 or 7 is not 0. A byte 5 of 0 passes: that is a list from before purposes were listed. */
    WANKITARE_LIST_RECORD = 21,

    /* All 512 counts together would pass 64 bits. Counts that were never set to zero may be why. */
    WANKITARE_TOTAL = 22,

    /* The line wankitare_line of the text is none of the language. Its name is no mnemonic, its operand is written as
       none is, or it has a character that has no place there. */
    WANKITARE_NOT_A_LINE = 30,

    /* The mnemonic has no such mode, or the value is too large for it. Its operand is missing, or one too many; or what
       is written as a byte is over 255. */
    WANKITARE_NO_SUCH_MODE = 31,

    /* The branch's target is too far. It must lie 126 bytes before the branch to 129 bytes behind it. */
    WANKITARE_BRANCH_TOO_FAR = 32,

    /* More than 16 square brackets of the line are open at once. */
    WANKITARE_TOO_DEEP = 33,

    /* The line's bytes, or the lister's text, find no room. Of the assembler, the bytes of the lines before it fit. */
    WANKITARE_TEXT_ROOM = 34
};

/* Lengths in bytes. */
enum {
    WANKITARE_RECORD_BYTES = 16,
    WANKITARE_BANK_BYTES = 65536,
    WANKITARE_ACCESS_BYTES = 8,
    WANKITARE_STEP_ROOM = 56,
    WANKITARE_MOST_FILE_BYTES = 65536,
    WANKITARE_MAP_RECORD_BYTES = 8,
    WANKITARE_MOST_MAP_BYTES = 65536
};

/* No line that is assembled makes more bytes, and no line that is listed has more characters, its LF among them. */
enum {
    WANKITARE_LINE_BYTES = 3,
    WANKITARE_LISTED_LINE = 12
};

/* How many pages an address can lie in, and so how many counts of reads, and of writes, there are. */
enum { WANKITARE_PAGES = 256 };

/* Where things stand in the state record. "Malformed" (2) is whatever breaks what is said here. */
enum {
    WANKITARE_AT_PART = 0,      /* one of the three below */
    WANKITARE_AT_A = 1,
    WANKITARE_AT_X = 2,
    WANKITARE_AT_Y = 3,
    WANKITARE_AT_S = 4,         /* the stack pointer */
    WANKITARE_AT_P = 5,         /* the flags below; bit 5 is 1, bit 4 is 0 */
    WANKITARE_AT_PC = 6,        /* low, high */
    WANKITARE_AT_REGISTERS = 8, /* those at 0000 and 0001: 0 on the 6502, at most 15 on the 6509 */
    WANKITARE_AT_NMI = 10,      /* the last NMI level, 0 or 1; 0 on the 6508 */
    WANKITARE_AT_PAGES = 11,    /* c: how many pages at the top of memory are write-protected; 0 on the 6509 */
    WANKITARE_AT_CYCLES = 12    /* cycles so far, modulo 2^32: four bytes, low byte first */
};

/* The part. */
enum {
    WANKITARE_6502 = 2,
    WANKITARE_6508 = 8,
    WANKITARE_6509 = 9
};

/* The flags of P. */
enum {
    WANKITARE_FLAG_N = 0x80,
    WANKITARE_FLAG_V = 0x40,
    WANKITARE_FLAG_5 = 0x20, /* no flag: always 1 */
    WANKITARE_FLAG_D = 0x08,
    WANKITARE_FLAG_I = 0x04,
    WANKITARE_FLAG_Z = 0x02,
    WANKITARE_FLAG_C = 0x01
};

/* Where things stand in an access. The other bytes are 0. */
enum {
    WANKITARE_AT_ADDRESS = 0,   /* low, high */
    WANKITARE_AT_BANK = 2,      /* of a 6509, as selected, 0 to 15; of k banks in the image it is this one modulo k */
    WANKITARE_AT_VALUE = 3,
    WANKITARE_AT_WRITTEN = 4,   /* 0 for a read, 1 for a write (listed whole even where protection stops it) */
    WANKITARE_AT_PURPOSE = 5    /* one of the seven below */
};

/* What an access was for. */
enum {
    /* An instruction's first access, and no other: a reset and the entry to an interrupt have none. */
    WANKITARE_FOR_OPCODE = 1,

    /* A byte that follows the opcode: an immediate value, an address, or a branch's offset, even where the branch is
       not taken. */
    WANKITARE_FOR_OPERAND = 2,

    /* A read whose value is not used, for instance the first of an indexed store or of an indexed load that crosses a
       page, and both of PC by a reset or an interrupt; or the write by which a shift, INC or DEC puts the old value
       back. */
    WANKITARE_FOR_WASTED = 3,

    /* One of the two bytes of an address that (z,X), (z),Y or JMP (a) fetches from memory. */
    WANKITARE_FOR_POINTER = 4,

    /* The value that an instruction loads, stores or changes: of an indexed load the first read already, where no page
       is crossed. */
    WANKITARE_FOR_DATA = 5,

    /* A byte that is pushed or pulled, and each of the three that a reset reads where an interrupt would push (the read
       at S, with which pulls begin and JSR its pushes, is wasted). */
    WANKITARE_FOR_STACK = 6,

    /* One of the two bytes, from FFFA to FFFF, that say where a reset, an interrupt or BRK goes on. */
    WANKITARE_FOR_VECTOR = 7
};

/* Where things stand in a map record. The other bytes are 0. */
enum {
    WANKITARE_AT_INSTRUCTION = 0,   /* its address, low, high */
    WANKITARE_AT_KIND = 2,          /* one of the three below */
    WANKITARE_AT_HEIGHT = 3,        /* how many bytes it finds on the stack, of those pushed since main began, the
                                       routine was called or the handler was entered */
    WANKITARE_AT_NEED = 4           /* how many more bytes may yet be pushed from there on */
};

/* The kind of an instruction. */
enum {
    WANKITARE_MAIN = 1,
    WANKITARE_ROUTINE = 2,
    WANKITARE_HANDLER = 3
};

/* The input lines, 1 meaning asserted. RES goes before NMI, and NMI before IRQ. */
enum {
    WANKITARE_RES = 1,
    WANKITARE_NMI = 2, /* taken once, where the step before saw it released; under RES that is lost */
    WANKITARE_IRQ = 4  /* taken as long as it is asserted and I is 0 */
};

/*
 * Does one step: a reset, the entry to an interrupt, or the instruction at PC.
 *
 * record    The state (WANKITARE_AT_PART and so on), and after the step the new state.
 * image     The memory, changed by what the step writes: 65,536 bytes, or the banks of a 6509 one after another.
 * lines     WANKITARE_RES, WANKITARE_NMI and WANKITARE_IRQ as they stand.
 * pins      The levels at the 6508's port; 0 for the other parts.
 * accesses  Room for 56 bytes or more. The front takes the step's bus accesses in the order of time, each of 8 bytes
 *           (WANKITARE_AT_ADDRESS and so on). The bytes behind them stay as they are.
 *
 * Answers a word, as every call does: take it apart by the functions below. Its bits:
 *     0..7    the refusal's number, 0 where there is none
 *     8..15   step done: the number of its accesses; refusal 6: the opcode; record found: the tail's length
 *     16..31  refusal 6: PC; 11, 13 to 16: the map record's index; record found, place for the next one: that place
 *     16..63  assembled or listed: how many bytes or characters; 30 to 34 of the assembler: the bad line, from 1
 *     others  0
 */
uint64_t wankitare_step(uint8_t *record, size_t record_len, uint8_t *image, size_t image_len,
                        uint8_t lines, uint8_t pins, uint8_t *accesses, size_t accesses_len);

/*
 * Does a run: one step after another, by a script.
 *
 * record    As for a step: the state before the first step, and then that after the last step done.
 * image     The memory, changed by what the steps write.
 * script    Two bytes for each step: its lines and its pins.
 * accesses  The lists of the steps one after another. Each step wants 56 bytes of what is left: 56 times the number of
 *           steps is always enough. The bytes behind the last list stay as they are.
 * steps     How many steps were done.
 * listed    How many accesses they made, of 8 bytes each, from the front of accesses on.
 *
 * *steps and *listed are set on every return, both to 0 where no step was done; what they were before does not matter.
 *
 * Answers 0 where the script was played to its end; an empty one is so at once. Otherwise the word of a refusal: of 1,
 * 2, 3 or 7, and nothing was done; or of the step that was refused, and the steps before it stand. The refused step
 * has changed nothing, so where its list found no room the run can go on once the lists were taken away:
 *
 *     word = wankitare_run(record, sizeof record, image, sizeof image, script, script_len, accesses, sizeof accesses,
 *                          &steps, &listed);
 *     log_accesses(accesses, listed);
 *     script += 2 * steps;
 *     script_len -= 2 * steps;
 */
uint64_t wankitare_run(uint8_t *record, size_t record_len, uint8_t *image, size_t image_len,
                       const uint8_t *script, size_t script_len, uint8_t *accesses, size_t accesses_len,
                       uint64_t *steps, uint64_t *listed);

/*
 * Finds the record to restart from in a restart file, which is state records in a row and then a tail of 0 to 15 bytes:
 * what an append that was cut has left.
 *
 *     word = wankitare_restart(file, file_len);
 *     if (wankitare_refusal(word) == 0)
 *         memcpy(record, file + wankitare_place(word), sizeof record);
 *
 * It is the last whole record. Where that is malformed the answer is 2, and no older record is taken in its place; it
 * is 8 where the file is under 16 or over 65,536 bytes. The file is only read.
 *
 * A record is the processor alone. Go on from it with the image of the same moment, or assert RES in the first step:
 * over another image RTS would find a return address that is not its own.
 */
uint64_t wankitare_restart(const uint8_t *file, size_t file_len);

/*
 * Where the next record goes in a restart file of this length: behind its last whole record. The board truncates the
 * file there, which drops a tail, and then writes the sixteen bytes:
 *
 *     word = wankitare_append_at(file_len);
 *     if (wankitare_refusal(word) == 0) {
 *         ftruncate(file, wankitare_place(word));
 *         pwrite(file, record, sizeof record, wankitare_place(word));
 *     }
 *
 * So a cut at any byte of an append leaves a file in which wankitare_restart finds the record that was last completely
 * written, or gives 8 if there is none. Here 8 says that the file would pass 65,536 bytes: the board begins a new one.
 */
uint64_t wankitare_append_at(uint64_t file_len);

/*
 * Admits a 6502 image, or says what its map breaks. docs/ADMISSION.md shows how a map is made.
 *
 * image     The memory with the firmware in it: 65,536 bytes.
 * c         How many pages at the top are write-protected, 1 to 254: byte 11 of the record that it will run with.
 * map       One record of 8 bytes for each instruction (WANKITARE_AT_INSTRUCTION and so on), at most 8,192 of them, by
 *           ascending address.
 *
 * Answers 0 where every rule holds. Otherwise 10; or 11 for the first record that is malformed or out of order; or 12;
 * or one of 13 to 16: the lowest record at which a rule is broken, and at it the lowest number.
 *
 * An admitted image, from a reset on, never makes wankitare_step refuse, runs only instructions of its map, writes the
 * stack page only by pushes and keeps 0 to 256 bytes on the stack: for a 6502 whose record has this c, under any resets
 * and interrupt requests, as long as NMI stays released and nobody else writes the stack page or the protected ones. (A
 * step still refuses what is no fault of the image: a wrong length, lines or pins that the part has not.)
 */
uint64_t wankitare_admit(const uint8_t *image, size_t image_len, uint8_t c, const uint8_t *map, size_t map_len);

/*
 * Counts a list of accesses by page: where a firmware spends itself.
 *
 *     static uint64_t reads[WANKITARE_PAGES], writes[WANKITARE_PAGES];
 *
 *     word = wankitare_pages(reads, writes, accesses, WANKITARE_ACCESS_BYTES * listed);
 *
 * reads     256 counts, one for each page: each read of the list adds one to that of its page (the high byte of its
 *           address). Set them to zero before the first list.
 * writes    The same for writes. One that protection stopped counts: the bus saw it.
 * accesses  The list of a step, of a run, or any number of them one after the other, of any part. Banks are ignored.
 *
 * Lists that are fed one after another leave the counts of all of them joined, and all counts together are the number
 * of accesses. Answers 0, or the word of 20, 21 or 22, and then every count is as it was. A call goes over all 512
 * counts once, whatever the list, to see that they cannot overflow: feed a run's list rather than each step's.
 */
uint64_t wankitare_pages(uint64_t *reads, uint64_t *writes, const uint8_t *accesses, size_t accesses_len);

/*
 * Assembles a text: an instruction to a line, written as in the data sheets. docs/PATCHING.md shows the way from an
 * image through a text and back.
 *
 *     word = wankitare_assemble(text, text_len, 0xFF00, bytes, sizeof bytes);
 *     if (wankitare_refusal(word) == 0)
 *         memcpy(image + 0xFF00, bytes, wankitare_written(word));
 *     else
 *         printf("line %lu: refused by %u\n", (unsigned long)wankitare_line(word), wankitare_refusal(word));
 *
 * text      Lines, each ended by LF; the last may lack it. A CR directly before the LF is part of the line's end,
 *           spaces and tabs may stand between any two words, and what follows a semicolon is a comment. A line has a
 *           mnemonic and its operand, or BYTE and a value, or nothing; letters may be small or large.
 *               LDA #$12    LDA $12      LDA $12,X    LDX $12,Y    LDA ($12,X)    LDA ($12),Y    ASL A    NOP
 *               JMP ($1234) LDA $1234    LDA $1234,X  LDA $1234,Y  BNE $80FE      BYTE $02
 *           In place of each number may stand a sum: numbers of one to four hexadecimal digits, + and -, and square
 *           brackets, at most 16 deep, modulo 65,536. A value under 256 takes the form of page zero where the operation
 *           has one; four digits alone take the absolute form. A branch's operand is its target.
 * start     The address of the first byte. Addresses go on from FFFF at 0000.
 * bytes     Gets what the lines make, WANKITARE_LINE_BYTES for each at most. The bytes behind them stay as they are.
 *
 * Answers how many bytes were written (wankitare_written); or the refusal of the first bad line, at it 33 first and
 * then the lowest number, with that line (wankitare_line), and then no byte was written.
 */
uint64_t wankitare_assemble(const uint8_t *text, size_t text_len, uint16_t start, uint8_t *bytes, size_t bytes_len);

/*
 * Lists bytes as a text that wankitare_assemble makes the same bytes of, with the same start.
 *
 * bytes     What is listed, instruction by instruction. A byte that starts no whole one, be it undefined or cut by the
 *           end, becomes a line of BYTE.
 * start     The address of the first byte, for the targets of branches.
 * text      Gets the lines, in large letters, each with its LF: WANKITARE_LISTED_LINE for each byte is always enough.
 *           The characters behind them stay as they are.
 *
 * Answers how many characters were written (wankitare_written); or 34 where text_len is less, and then none was.
 */
uint64_t wankitare_list(const uint8_t *bytes, size_t bytes_len, uint16_t start, uint8_t *text, size_t text_len);

/* The refusal's number, or 0 where there was none. */
static inline unsigned wankitare_refusal(uint64_t word)
{
    return (unsigned)(word & 0xFF);
}

/* Step done: how many accesses it made, 2 to 7. That is also how many cycles it took. */
static inline unsigned wankitare_accesses(uint64_t word)
{
    return (unsigned)(word >> 8 & 0xFF);
}

/* WANKITARE_UNDEFINED_OPCODE: the opcode. */
static inline uint8_t wankitare_opcode(uint64_t word)
{
    return (uint8_t)(word >> 8 & 0xFF);
}

/* WANKITARE_UNDEFINED_OPCODE: its address. */
static inline uint16_t wankitare_pc(uint64_t word)
{
    return (uint16_t)(word >> 16 & 0xFFFF);
}

/* WANKITARE_MAP_RECORD, and WANKITARE_PLACE_OR_OPCODE to WANKITARE_SUCCESSOR: which record of the map it is, from 0. */
static inline unsigned wankitare_index(uint64_t word)
{
    return (unsigned)(word >> 16 & 0xFFFF);
}

/* Record found: how many bytes of the file follow it, 0 to 15. They are no record, and the next append drops them. */
static inline unsigned wankitare_tail(uint64_t word)
{
    return (unsigned)(word >> 8 & 0xFF);
}

/* Record found, or place for the next one: where in the file it begins, in bytes. */
static inline uint32_t wankitare_place(uint64_t word)
{
    return (uint32_t)(word >> 16 & 0xFFFFFFFF);
}

/* Assembled or listed: how many bytes or characters were written. */
static inline uint64_t wankitare_written(uint64_t word)
{
    return word >> 16;
}

/* WANKITARE_NOT_A_LINE to WANKITARE_TEXT_ROOM, of the assembler: the line of the text, from 1. */
static inline uint64_t wankitare_line(uint64_t word)
{
    return word >> 16;
}

/* Two bytes, low and high, as a number: a record's PC, an access's address, a map record's instruction. */
static inline uint16_t wankitare_pair(const uint8_t *at)
{
    return (uint16_t)(at[0] | at[1] << 8);
}

/* A state record's cycles. They start again at 0 after 2^32: the difference of two readings is right all the same. */
static inline uint32_t wankitare_cycles(const uint8_t *record)
{
    return wankitare_pair(record + WANKITARE_AT_CYCLES) |
           (uint32_t)wankitare_pair(record + WANKITARE_AT_CYCLES + 2) << 16;
}

#ifdef __cplusplus
}
#endif

#endif

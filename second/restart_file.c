/* Writes a restart file in a folder as a board does, cuts it at every byte of an append, and restarts from what is
   left.
     restart_file FOLDER */

#define _POSIX_C_SOURCE 200809L

#include "wankitare.h"

#include <limits.h>
#include <stdio.h>
#include <stdlib.h>
#include <string.h>
#include <sys/stat.h>
#include <unistd.h>

enum { RECORD = WANKITARE_RECORD_BYTES, MOST_RECORDS = WANKITARE_MOST_FILE_BYTES / RECORD };

static int file;
static uint8_t whole[MOST_RECORDS][RECORD]; /* the records of the file that were written whole */
static size_t wholes;
static unsigned appended, answers, failed;

static void must(int works, const char *what)
{
    if (!works) {
        perror(what);
        exit(2);
    }
}

static void check(const char *what, int holds)
{
    answers++;
    if (!holds && failed++ < 10)
        printf("fails: %s, %zu whole records before\n", what, wholes);
}

static size_t length(void)
{
    struct stat status;

    must(fstat(file, &status) == 0, "fstat");
    return (size_t)status.st_size;
}

static void cut(size_t to)
{
    must(ftruncate(file, (off_t)to) == 0, "ftruncate");
}

static void begin(void)
{
    cut(0);
    wholes = 0;
}

/* A well-formed record, each time another. */
static void next_record(uint8_t *record)
{
    static const uint8_t parts[] = {2, 8, 9};
    unsigned number = appended++;
    const uint8_t next[RECORD] = {parts[number % 3], (uint8_t)number, (uint8_t)(number >> 8), 0, 0xFF, 0x24};

    memcpy(record, next, RECORD);
}

/* Appends a record as a board does, and is cut after so many of its bytes. Gives the refusal, or 0. */
static unsigned append(size_t bytes)
{
    uint8_t record[RECORD];
    uint64_t word = wankitare_append_at(length());

    if (wankitare_refusal(word) != 0)
        return wankitare_refusal(word);
    check("where an append goes", word == (uint64_t)(wholes * RECORD) << 16);
    cut(wankitare_place(word));
    next_record(record);
    must(pwrite(file, record, bytes, wankitare_place(word)) == (ssize_t)bytes, "pwrite");
    if (bytes == RECORD && wholes < MOST_RECORDS)
        memcpy(whole[wholes++], record, RECORD);
    return 0;
}

static uint8_t *read_file(void)
{
    static uint8_t bytes[WANKITARE_MOST_FILE_BYTES + 1];

    must(pread(file, bytes, sizeof bytes, 0) == (ssize_t)length(), "pread");
    return bytes;
}

/* Whether a restart finds the record that was last completely written, or gives 8 if there is none. */
static void expect_last(const char *what)
{
    const uint8_t *bytes = read_file();
    uint64_t word = wankitare_restart(bytes, length());

    if (wholes == 0)
        check(what, word == WANKITARE_FILE_LENGTH);
    else
        check(what, wankitare_refusal(word) == 0 && wankitare_place(word) == (wholes - 1) * RECORD &&
                        wankitare_tail(word) == length() - wholes * RECORD &&
                        memcmp(bytes + wankitare_place(word), whole[wholes - 1], RECORD) == 0);
}

static void expect(const char *what, unsigned refusal)
{
    check(what, wankitare_restart(read_file(), length()) == refusal);
}

/* An append is cut after each of its bytes; over what is left another is cut likewise, or done; a third is done. Before
   the first there are so many whole records and such a tail, which is an append that was cut too. */
static void cut_appends(size_t records, size_t tail)
{
    for (size_t first = 0; first < RECORD; first++)
        for (size_t second = 0; second <= RECORD; second++) {
            begin();
            for (size_t i = 0; i < records; i++)
                append(RECORD);
            append(tail);
            expect_last("a file with a tail");
            append(first);
            expect_last("an append is cut");
            append(second);
            expect_last("the next append is cut or done");
            append(RECORD);
            expect_last("an append is done after cuts");
        }
}

/* The tail is dropped only in part. */
static void cut_truncations(size_t records)
{
    for (size_t left = 0; left < RECORD; left++) {
        begin();
        for (size_t i = 0; i < records; i++)
            append(RECORD);
        append(RECORD - 1);
        cut(records * RECORD + left);
        expect_last("a tail is dropped in part");
        append(RECORD);
        expect_last("an append is done after that");
    }
}

/* Shortens the file byte by byte: of the records that were written whole, the last that is left counts. */
static void cut_to_prefixes(size_t down_to)
{
    for (size_t bytes = length(); bytes-- > down_to;) {
        cut(bytes);
        wholes = bytes / RECORD;
        expect_last("a prefix of the file");
    }
}

static void fill(void)
{
    begin();
    for (size_t i = 0; i < MOST_RECORDS; i++)
        check("an append to a file with room", append(RECORD) == 0);
    expect_last("a full file");
    check("an append to a full file", append(RECORD) == WANKITARE_FILE_LENGTH);
    check("a full file's length", length() == WANKITARE_MOST_FILE_BYTES);
    expect_last("a full file, after an append was refused");
    cut_to_prefixes(WANKITARE_MOST_FILE_BYTES - 2 * RECORD);
    append(RECORD);
    append(RECORD - 1);
    expect_last("the last append is cut");
    check("the last append once more", append(RECORD) == 0);
    expect_last("the last append is done");
}

/* What no append leaves. */
static void damage(void)
{
    static const uint8_t byte = 0xFF;

    begin();
    append(RECORD);
    append(RECORD);
    append(1);
    must(pwrite(file, &byte, 1, RECORD) == 1, "pwrite");
    expect("the last whole record is damaged", WANKITARE_RECORD_MALFORMED);
    cut(WANKITARE_MOST_FILE_BYTES + 1);
    expect("the file is too long", WANKITARE_FILE_LENGTH);
    check("an append to a file that is too long", append(RECORD) == WANKITARE_FILE_LENGTH);
}

int main(int count, char **words)
{
    char name[PATH_MAX];

    if (count != 2) {
        fprintf(stderr, "usage: restart_file FOLDER\n");
        return 2;
    }
    snprintf(name, sizeof name, "%s/restart.XXXXXX", words[1]);
    file = mkstemp(name);
    must(file >= 0 && unlink(name) == 0, name);

    for (size_t records = 0; records < 4; records++) {
        for (size_t tail = 0; tail < RECORD; tail += 5)
            cut_appends(records, tail);
        cut_truncations(records);
    }
    begin();
    for (size_t i = 0; i < 40; i++)
        append(RECORD);
    append(RECORD - 1);
    cut_to_prefixes(0);
    fill();
    damage();
    printf("%u answers about a restart file that was cut: %u failed\n", answers, failed);
    return failed != 0;
}

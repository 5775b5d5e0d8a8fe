/* A C host: reads a profile's file, compiles it, goes back from what was compiled, and prints what it got.
 *
 *     host FILE
 *
 * Prints the sizes, each machine record and the table's entries in hexadecimal, and each assembly record; exit status
 * 0. A profile that is refused prints `refused`, the number, `at` and the place; exit status 1. A file that cannot be
 * read is named on standard error; exit status 2.
 */
#include <stdio.h>

#include "profile.h"

static void print_bytes(const char *name, const uint8_t *bytes, size_t length)
{
    fputs(name, stdout);
    for (size_t i = 0; i < length; i++)
        printf(" %02x", bytes[i]);
    putchar('\n');
}

static void print_records(const char *name, const uint8_t *code, unsigned records)
{
    for (unsigned i = 0; i < records; i++)
        print_bytes(name, code + PROFILE_RECORD_BYTES * i, PROFILE_RECORD_BYTES);
}

static int refused(uint64_t answer)
{
    printf("refused %u at %u\n", (unsigned)profile_refusal(answer), (unsigned)profile_place(answer));
    return 1;
}

/* The file's length, at most `room`; -1 where it cannot be read. */
static long read_file(const char *path, uint8_t *buffer, size_t room)
{
    FILE *file = fopen(path, "rb");
    if (!file)
        return -1;
    size_t length = fread(buffer, 1, room, file);
    int failed = ferror(file);
    fclose(file);
    return failed ? -1 : (long)length;
}

int main(int count, char **words)
{
    /* One byte more than the longest text, so that a longer file is refused as a text. */
    static uint8_t text[PROFILE_TEXT_BYTES + 1], table[PROFILE_VARIABLES];
    static uint8_t code[PROFILE_RECORD_BYTES * PROFILE_TEXT_BYTES], assembly[sizeof code];

    if (count != 2) {
        fputs("usage: host FILE\n", stderr);
        return 2;
    }
    long length = read_file(words[1], text, sizeof text);
    if (length < 0) {
        perror(words[1]);
        return 2;
    }

    /* A text has at most as many records as bytes, so these buffers are enough for any. */
    uint64_t sizes = profile_read(text, (size_t)length);
    if (profile_refusal(sizes) != PROFILE_ACCEPTED)
        return refused(sizes);
    uint64_t compiled = profile_compile(text, (size_t)length, code, sizeof code, table, sizeof table);
    if (profile_refusal(compiled) != PROFILE_ACCEPTED)
        return refused(compiled);
    unsigned records = profile_records(compiled);
    size_t written = PROFILE_RECORD_BYTES * (size_t)records;
    uint64_t back = profile_go_back(code, written, table, sizeof table, assembly, sizeof assembly);
    if (profile_refusal(back) != PROFILE_ACCEPTED)
        return refused(back);

    printf("records %u stack %u cells %u\n", profile_records(sizes), profile_depth(sizes), profile_cells(sizes));
    print_records("machine", code, records);
    print_bytes("table", table, sizeof table);
    print_records("assembly", assembly, profile_records(back));
    return 0;
}

/* The native stack that each exported call uses, and the inspection, the paired run and going on, through their probes.
 * The call runs on a stack of its own, painted before; the lowest byte that lost its paint tells how far it went. What
 * an empty call uses is taken off.
 *
 *     stack TEXT_FILE...
 *
 * Prints the greatest use of each call over these texts, over texts at nesting 64 in each construct, and over code as
 * long as it may be; fails where it is above LIMIT, the bound that docs/SPEED.md states.
 */
#include <stdio.h>
#include <stdlib.h>
#include <string.h>
#include <ucontext.h>

#include "profile.h"

uint64_t probe_inspect(const uint8_t *code, size_t code_length, uint64_t depth, uint64_t cells);
uint64_t probe_run_paired(const uint8_t *code, size_t code_length, const uint8_t *table, size_t table_length,
                          int32_t *store, size_t store_length, uint64_t depth, uint32_t budget);
uint64_t probe_go_on(const uint8_t *code, size_t code_length, int32_t *memory, size_t memory_length, uint64_t depth,
                     uint64_t cells, uint32_t *state, size_t state_length, uint32_t budget);

enum { LONGEST = 4096, RECORD = 5, SPACE = 1 << 20, PAINT = 0xa5, LIMIT = 32 * 1024 };
enum { SPENT = 1 << 8 }; /* bits 0-15 of a spent run's answer */

static uint8_t text[LONGEST + 1], code[RECORD * LONGEST], assembly[RECORD * LONGEST], table[64];
static int32_t store[64], memory[PROFILE_MEMORY_CELLS];
static uint32_t state[7];
static size_t length;
static unsigned records;
static int refused; /* set where a run of one record or more is refused */

/* The calls, on the buffers above. */
static void nothing(void) {}
static void reading(void) { profile_read(text, length); }
static void compiling(void)
{
    uint64_t answer = profile_compile(text, length, code, sizeof code, table, sizeof table);
    records = profile_refusal(answer) ? 0 : profile_records(answer);
}
static void going_back(void)
{
    profile_go_back(code, RECORD * (size_t)records, table, sizeof table, assembly, sizeof assembly);
}
static void inspecting(void) { probe_inspect(code, RECORD * (size_t)records, 64, 64); }
static void running_paired(void)
{
    uint64_t answer = probe_run_paired(code, RECORD * (size_t)records, table, sizeof table, store, 64, 64, 1000);
    refused |= records && profile_refusal(answer);
}
/* From a fresh machine on, in pieces of 10 records, until one is not spent; at most 100 pieces. */
static void going_on(void)
{
    uint64_t answer;
    int pieces = 0;

    memset(state, 0, sizeof state);
    do
        answer = probe_go_on(code, RECORD * (size_t)records, memory, PROFILE_MEMORY_CELLS, 64, 64, state, 7, 10);
    while ((answer & 0xffff) == SPENT && ++pieces < 100);
    refused |= profile_refusal(answer) != PROFILE_ACCEPTED;
}

static struct {
    const char *name;
    void (*call)(void);
    size_t most;
} calls[] = {
    {"profile_read", reading, 0},
    {"profile_compile", compiling, 0},
    {"profile_go_back", going_back, 0},
    {"probe_inspect", inspecting, 0},
    {"probe_run_paired", running_paired, 0},
    {"probe_go_on", going_on, 0},
};
enum { INSPECT = 3, RUN_PAIRED, GO_ON, CALLS = sizeof calls / sizeof calls[0] };

/* How many bytes of a fresh stack a call changes. */
static size_t stack_used(void (*call)(void))
{
    static uint8_t space[SPACE];
    ucontext_t here, there;

    memset(space, PAINT, SPACE);
    getcontext(&there);
    there.uc_stack.ss_sp = space;
    there.uc_stack.ss_size = SPACE;
    there.uc_link = &here;
    makecontext(&there, call, 0);
    swapcontext(&here, &there);
    size_t kept = 0;
    while (kept < SPACE && space[kept] == PAINT)
        kept++;
    return SPACE - kept;
}

static void measure_call(int i)
{
    size_t used = stack_used(calls[i].call) - stack_used(nothing);
    if (used > calls[i].most)
        calls[i].most = used;
}

static void measure(void)
{
    for (int i = 0; i < CALLS; i++)
        measure_call(i);
}

/* A text of so many copies of a prefix, a middle and as many copies of a suffix, after a start. */
struct nest {
    const char *start, *prefix, *middle, *suffix;
    int times;
};

static void append(const char *hexadecimal)
{
    for (; *hexadecimal; hexadecimal += 2) {
        unsigned byte;
        sscanf(hexadecimal, "%2x", &byte);
        text[length++] = (uint8_t)byte;
    }
}

static void build(const struct nest *nest)
{
    length = 0;
    append(nest->start);
    for (int i = 0; i < nest->times; i++)
        append(nest->prefix);
    append(nest->middle);
    for (int i = 0; i < nest->times; i++)
        append(nest->suffix);
}

/* Each construct in each of its parts, down to nesting 64. */
static const struct nest nests[] = {
    {"", "02", "00", "00", 63},                     /* sequence, first part */
    {"", "0200", "00", "", 63},                     /* sequence, second part */
    {"", "032001", "00", "00", 63},                 /* IF, first branch */
    {"", "03200100", "00", "", 63},                 /* IF, second branch */
    {"", "042001", "00", "", 63},                   /* WHILE */
    {"0100", "12", "1101", "1101", 62},             /* Plus, left */
    {"0100", "121101", "1101", "", 62},             /* Plus, right */
    {"04", "21", "2001", "", 62},                   /* Not; the body is added below */
    {"04", "22", "2001", "2001", 62},               /* And, left */
    {"04", "222001", "2001", "", 62},               /* And, right */
    {"0423", "12", "1101", "1101", 61},             /* Less and Plus, left */
    {"04231100", "121101", "1101", "", 61},         /* Less and Plus, right */
};

static void measure_nests(void)
{
    for (size_t i = 0; i < sizeof nests / sizeof nests[0]; i++) {
        build(&nests[i]);
        /* What is still due: a Less's second side, a WHILE's body. */
        if (strcmp(nests[i].start, "0423") == 0)
            append("1100");
        if (strncmp(nests[i].start, "04", 2) == 0)
            append("00");
        if (profile_refusal(profile_read(text, length))) {
            fprintf(stderr, "text %zu of the deep ones is refused\n", i);
            exit(1);
        }
        measure();
    }
}

static void measure_file(const char *path)
{
    FILE *file = fopen(path, "rb");
    if (!file) {
        perror(path);
        exit(1);
    }
    length = fread(text, 1, sizeof text, file);
    fclose(file);
    measure();
}

/* As many jumps as code may have records, each to the next, and a table of no names. */
static void measure_longest_code(void)
{
    for (records = 0; records < LONGEST; records++)
        memcpy(code + RECORD * records, (uint8_t[RECORD]){0x54}, RECORD);
    memset(table, 0, sizeof table);
    measure_call(INSPECT);
    measure_call(RUN_PAIRED);
    measure_call(GO_ON);
}

int main(int count, char **words)
{
    int failed = 0;

    measure_nests();
    for (int i = 1; i < count; i++)
        measure_file(words[i]);
    measure_longest_code();
    if (refused)
        fprintf(stderr, "a run is refused\n");
    for (int i = 0; i < CALLS; i++) {
        printf("%s: %zu bytes of stack\n", calls[i].name, calls[i].most);
        failed |= calls[i].most == 0 || calls[i].most > LIMIT;
    }
    return failed || refused;
}

/* A C host that runs a profile a few instructions at a time, as the pod does in its drive periods: it compiles the
 * profile, loads a store of zeros, runs the first piece, and goes on with each other from where the one before paused.
 * The pod's library has no call that runs: the probes, which are for tests, stand in for it here.
 *
 *     pieces FILE BUDGET...
 *
 * Prints the sizes; for each piece its budget, end, count and mark, where it is spent the position and the stack size
 * that it pauses with, and the variables as they then are; at the end each named variable and its value. A piece that
 * is not spent is the last. Exit status 0. A call that declines prints `refused`, the number, `at` and the place; exit
 * status 1. A file that cannot be read or a word that is no budget is named on standard error; exit status 2.
 */
#include <stdio.h>
#include <stdlib.h>

#include "profile.h"

/* Probes of crates/probe. */
uint64_t probe_load(const uint8_t *table, size_t table_length, const int32_t *store, size_t store_length,
                    uint64_t depth, int32_t *memory, size_t memory_length);
uint64_t probe_run_machine(const uint8_t *code, size_t code_length, int32_t *memory, size_t memory_length,
                           uint64_t depth, uint64_t cells, uint32_t budget, uint32_t *state, size_t state_length);
uint64_t probe_go_on(const uint8_t *code, size_t code_length, int32_t *memory, size_t memory_length, uint64_t depth,
                     uint64_t cells, uint32_t *state, size_t state_length, uint32_t budget);
uint64_t probe_read_back(const uint8_t *table, size_t table_length, const int32_t *memory, size_t memory_length,
                         uint64_t depth, int32_t *store, size_t store_length);

/* Of a state's seven words the first four are position, stack size, count and mark; the rest are not used yet. */
enum { POSITION, STACK_SIZE, WORDS = 7 };
enum { SPENT = 1 };
/* By their numbers; no run has the end of number 2, since sums hold at the limits. */
static const char *const ends[] = {"done", "spent", "never", "short", "full", "astray"};

/* A profile, compiled and loaded, and the state of its last pause. */
struct machine {
    uint8_t code[PROFILE_RECORD_BYTES * PROFILE_TEXT_BYTES], table[PROFILE_VARIABLES];
    int32_t memory[PROFILE_MEMORY_CELLS], store[PROFILE_VARIABLES];
    uint32_t state[WORDS];
    size_t code_length, memory_length;
    unsigned depth, cells;
};

/* Compiles a text, prints its sizes and loads a store of zeros. The answer is compiling's if that declines, else
 * loading's. */
static uint64_t load(struct machine *m, const uint8_t *text, size_t length)
{
    uint64_t sizes = profile_compile(text, length, m->code, sizeof m->code, m->table, PROFILE_VARIABLES);
    if (profile_refusal(sizes) != PROFILE_ACCEPTED)
        return sizes;
    m->depth = profile_depth(sizes);
    m->cells = profile_cells(sizes);
    m->code_length = PROFILE_RECORD_BYTES * (size_t)profile_records(sizes);
    m->memory_length = m->depth + 1 + m->cells;
    printf("records %u stack %u cells %u\n", profile_records(sizes), m->depth, m->cells);
    return probe_load(m->table, PROFILE_VARIABLES, m->store, PROFILE_VARIABLES, m->depth, m->memory, m->memory_length);
}

static uint64_t first_piece(struct machine *m, uint32_t budget)
{
    return probe_run_machine(m->code, m->code_length, m->memory, m->memory_length, m->depth, m->cells, budget,
                             m->state, WORDS);
}

static uint64_t next_piece(struct machine *m, uint32_t budget)
{
    return probe_go_on(m->code, m->code_length, m->memory, m->memory_length, m->depth, m->cells, m->state, WORDS,
                       budget);
}

static uint64_t read_back(struct machine *m)
{
    return probe_read_back(m->table, PROFILE_VARIABLES, m->memory, m->memory_length, m->depth, m->store,
                           PROFILE_VARIABLES);
}

/* What a run's answer has, where it is no refusal. */
static unsigned run_end(uint64_t answer) { return (unsigned)(answer >> 8 & 0xff); }
static unsigned run_count(uint64_t answer) { return (unsigned)(answer >> 16 & 0xffffffff); }
static unsigned run_mark(uint64_t answer) { return (unsigned)(answer >> 48 & 0xff); }

static void print_variables(const struct machine *m, const char *before, const char *after)
{
    for (unsigned v = 0; v < PROFILE_VARIABLES; v++)
        if (m->table[v])
            printf("%s%u %d%s", before, v, (int)m->store[v], after);
}

static void print_piece(const struct machine *m, uint32_t budget, uint64_t answer)
{
    printf("piece %u %s %u", (unsigned)budget, ends[run_end(answer)], run_count(answer));
    printf(" mark %u", run_mark(answer));
    if (run_end(answer) == SPENT)
        printf(" position %u stack %u", (unsigned)m->state[POSITION], (unsigned)m->state[STACK_SIZE]);
    print_variables(m, " x", "");
    putchar('\n');
}

static int refused(uint64_t answer)
{
    printf("refused %u at %u\n", (unsigned)profile_refusal(answer), (unsigned)profile_place(answer));
    return 1;
}

/* The number that a word is, where it is one of 32 bits; else -1. */
static int64_t budget_of(const char *word)
{
    char *end;
    unsigned long long number = strtoull(word, &end, 10);
    int is_one = *word >= '0' && *word <= '9' && *end == '\0' && number <= UINT32_MAX;
    return is_one ? (int64_t)number : -1;
}

static int run(struct machine *m, char **words, int pieces)
{
    for (int i = 0; i < pieces; i++) {
        uint32_t budget = (uint32_t)budget_of(words[i]);
        uint64_t answer = i == 0 ? first_piece(m, budget) : next_piece(m, budget);
        if (profile_refusal(answer) != PROFILE_ACCEPTED)
            return refused(answer);
        uint64_t read = read_back(m);
        if (profile_refusal(read) != PROFILE_ACCEPTED)
            return refused(read);
        print_piece(m, budget, answer);
        if (run_end(answer) != SPENT)
            break;
    }
    print_variables(m, "", "\n");
    return 0;
}

/* The file's length, at most `room`; -1 where it cannot be read. */
static long read_file(const char *path, uint8_t *buffer, size_t room)
{
    FILE *file = fopen(path, "rb");
    if (!file)
        return -1;
    size_t length = fread(buffer, 1, room, file);
    int failed = ferror(file);
    fclose(file);
    return failed ? -1 : (long)length;
}

int main(int count, char **words)
{
    /* One byte more than the longest text, so that a longer file is refused as a text. */
    static uint8_t text[PROFILE_TEXT_BYTES + 1];
    static struct machine machine;

    if (count < 3) {
        fputs("usage: pieces FILE BUDGET...\n", stderr);
        return 2;
    }
    for (int i = 2; i < count; i++)
        if (budget_of(words[i]) < 0) {
            fprintf(stderr, "%s: no budget\n", words[i]);
            return 2;
        }
    long length = read_file(words[1], text, sizeof text);
    if (length < 0) {
        perror(words[1]);
        return 2;
    }
    uint64_t loaded = load(&machine, text, (size_t)length);
    if (profile_refusal(loaded) != PROFILE_ACCEPTED)
        return refused(loaded);
    return run(&machine, words + 2, count - 2);
}

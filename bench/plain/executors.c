/* Both executors in plain C: records decoded from their bytes at each step, no bounds checks on code, store, memory. */
#include <stdbool.h>
#include <stddef.h>
#include <stdint.h>
#include <string.h>

/* By the numbers that the probes give them; 2 is no end. */
enum { DONE = 0, SPENT = 1, SHORT = 3, FULL = 4, ASTRAY = 5 };
enum { LOADI, LOAD, ADD, STORE, JMP, JMPLESS, JMPGE };

/* A machine between two records, and the end that it came to. */
struct state {
    int64_t position;
    ptrdiff_t size, mark;
    uint32_t count;
    int end;
};

/* A sum, held at the limits. */
static inline int32_t held_sum(int32_t x, int32_t y)
{
    int32_t sum;

    if (__builtin_add_overflow(x, y, &sum))
        return x < 0 ? INT32_MIN : INT32_MAX;
    return sum;
}

/* From a state on, spent at the count `limit`. `first` is the byte of LOADI. Slot i of the stack is bottom[way * i]; a
 * name's cell is names[name]. */
static inline __attribute__((always_inline)) struct state run(uint8_t first, const uint8_t *code, size_t length,
                                                              int32_t *bottom, ptrdiff_t way, int32_t *names,
                                                              ptrdiff_t depth, struct state from, uint32_t limit)
{
    int64_t last = (int64_t)(length / 5), position = from.position;
    ptrdiff_t size = from.size, mark = from.mark;
    uint32_t count = from.count;
    int end = DONE;

    while (position != last) {
        if (count == limit) {
            end = SPENT;
            break;
        }
        const uint8_t *record = code + 5 * position;
        int32_t operand;
        int64_t next = position + 1;
        memcpy(&operand, record + 1, 4);
        count++;
        switch (record[0] - first) {
        case LOADI:
            if (size == depth) {
                end = FULL;
                goto out;
            }
            bottom[way * size] = operand;
            if (++size > mark)
                mark = size;
            break;
        case LOAD:
            if (size == depth) {
                end = FULL;
                goto out;
            }
            bottom[way * size] = names[operand];
            if (++size > mark)
                mark = size;
            break;
        case ADD:
            if (size < 2) {
                end = SHORT;
                goto out;
            }
            bottom[way * (size - 2)] = held_sum(bottom[way * (size - 2)], bottom[way * (size - 1)]);
            size--;
            break;
        case STORE:
            if (size < 1) {
                end = SHORT;
                goto out;
            }
            names[operand] = bottom[way * (size - 1)];
            size--;
            break;
        case JMP:
            next += operand;
            if (next < 0 || next > last) {
                end = ASTRAY;
                goto out;
            }
            break;
        case JMPLESS:
            if (size < 2) {
                end = SHORT;
                goto out;
            }
            if (bottom[way * (size - 2)] < bottom[way * (size - 1)]) {
                next += operand;
                if (next < 0 || next > last) {
                    end = ASTRAY;
                    goto out;
                }
            }
            size -= 2;
            break;
        default: /* JMPGE */
            if (size < 2) {
                end = SHORT;
                goto out;
            }
            if (bottom[way * (size - 2)] >= bottom[way * (size - 1)]) {
                next += operand;
                if (next < 0 || next > last) {
                    end = ASTRAY;
                    goto out;
                }
            }
            size -= 2;
            break;
        }
        position = next;
    }
out:
    return (struct state){position, size, mark, count, end};
}

/* As the probes pack it: the end from bit 8, the count from bit 16, the mark from bit 48. */
static inline uint64_t packed(struct state state)
{
    return (uint64_t)state.end << 8 | (uint64_t)state.count << 16 | (uint64_t)state.mark << 48;
}

/* Cell j is address j - depth; the stack grows from -1 down. */
uint64_t plain_run_machine(const uint8_t *code, size_t length, int32_t *memory, size_t depth, uint32_t budget)
{
    int32_t *middle = memory + depth;
    return packed(run(0x50, code, length, middle - 1, -1, middle, (ptrdiff_t)depth, (struct state){0}, budget));
}

uint64_t plain_run_assembly(const uint8_t *code, size_t length, int32_t *store, int32_t *stack, size_t depth,
                            uint32_t budget)
{
    return packed(run(0x40, code, length, stack, 1, store, (ptrdiff_t)depth, (struct state){0}, budget));
}

/* Whether a machine record is one, with addresses from 1 to n. */
static inline bool known(const uint8_t *record, uint64_t n)
{
    int32_t operand;

    memcpy(&operand, record + 1, 4);
    switch (record[0] - 0x50) {
    case LOAD:
    case STORE:
        return operand >= 1 && (uint64_t)operand <= n;
    case ADD:
        return operand == 0;
    default:
        return record[0] >= 0x50 + LOADI && record[0] <= 0x50 + JMPGE;
    }
}

/* Goes on from a state of seven words, which a spent run writes; refuses 9, 10, 11, 15, packed as the probes do it. */
uint64_t plain_go_on(const uint8_t *code, size_t length, int32_t *memory, size_t memory_length, uint64_t depth,
                     uint64_t cells, uint32_t *words, size_t words_length, uint32_t budget)
{
    if (length % 5 != 0 || length / 5 > 4096)
        return 9;
    for (size_t i = 0; i < length / 5; i++)
        if (!known(code + 5 * i, cells))
            return 10 | (uint64_t)i << 8;
    if (depth > 64 || cells > 64 || memory_length != depth + 1 + cells)
        return 11;
    struct state from = {words[0], words[1], words[3], words[2], DONE};
    if (words[0] > length / 5 || words[1] > words[3] || words[3] > depth || from.count + (uint64_t)budget > UINT32_MAX)
        return 15;
    int32_t *middle = memory + depth;
    uint32_t limit = from.count + budget;
    struct state state = run(0x50, code, length, middle - 1, -1, middle, (ptrdiff_t)depth, from, limit);
    if (state.end == SPENT) {
        memset(words, 0, 4 * words_length);
        words[0] = (uint32_t)state.position;
        words[1] = (uint32_t)state.size;
        words[2] = state.count;
        words[3] = (uint32_t)state.mark;
    }
    return packed(state);
}

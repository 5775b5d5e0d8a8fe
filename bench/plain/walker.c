/* The source rules in plain C, over the text's bytes, of a text that reading accepts: no bounds checks. */
#include <stdbool.h>
#include <stddef.h>
#include <stdint.h>
#include <string.h>

enum { DONE, SPENT };

/* Each function gives the position after its part, or NULL once the run has ended. */
struct run {
    int32_t *store;
    uint32_t left;
    unsigned height, mark; /* the values on the stack, and the most that were */
    int end;
};

static bool tick(struct run *run)
{
    if (run->left == 0) {
        run->end = SPENT;
        return false;
    }
    run->left--;
    return true;
}

static void push(struct run *run)
{
    if (++run->height > run->mark)
        run->mark = run->height;
}

/* A sum, held at the limits. */
static int32_t held_sum(int32_t x, int32_t y)
{
    int32_t sum;

    if (__builtin_add_overflow(x, y, &sum))
        return x < 0 ? INT32_MIN : INT32_MAX;
    return sum;
}

static const uint8_t *expression(struct run *run, const uint8_t *at, int32_t *value)
{
    int32_t x, y;

    switch (*at) {
    case 0x10:
        if (!tick(run))
            return NULL;
        push(run);
        memcpy(value, at + 1, 4);
        return at + 5;
    case 0x11:
        if (!tick(run))
            return NULL;
        push(run);
        *value = run->store[at[1]];
        return at + 2;
    case 0x13:
        if (!tick(run))
            return NULL;
        push(run);
        *value = (int8_t)at[1];
        return at + 2;
    default:
        if (!(at = expression(run, at + 1, &x)) || !(at = expression(run, at, &y)) || !tick(run))
            return NULL;
        run->height--;
        *value = held_sum(x, y);
        return at;
    }
}

static const uint8_t *expression_end(const uint8_t *at)
{
    switch (*at) {
    case 0x10:
        return at + 5;
    case 0x11:
    case 0x13:
        return at + 2;
    default:
        return expression_end(expression_end(at + 1));
    }
}

static const uint8_t *condition_end(const uint8_t *at)
{
    switch (*at) {
    case 0x20:
        return at + 2;
    case 0x21:
        return condition_end(at + 1);
    case 0x22:
        return condition_end(condition_end(at + 1));
    default:
        return expression_end(expression_end(at + 1));
    }
}

static const uint8_t *command_end(const uint8_t *at)
{
    switch (*at) {
    case 0x00:
        return at + 1;
    case 0x01:
        return expression_end(at + 2);
    case 0x02:
        return command_end(command_end(at + 1));
    case 0x03:
        return command_end(command_end(condition_end(at + 1)));
    default:
        return command_end(condition_end(at + 1));
    }
}

static const uint8_t *condition(struct run *run, const uint8_t *at, bool flag, bool *value)
{
    int32_t x, y;

    switch (*at) {
    case 0x20:
        *value = at[1] == 1;
        return *value == flag && !tick(run) ? NULL : at + 2;
    case 0x21:
        if ((at = condition(run, at + 1, !flag, value)))
            *value = !*value;
        return at;
    case 0x22:
        if (!(at = condition(run, at + 1, false, value)))
            return NULL;
        return *value ? condition(run, at, flag, value) : condition_end(at);
    default:
        if (!(at = expression(run, at + 1, &x)) || !(at = expression(run, at, &y)) || !tick(run))
            return NULL;
        run->height -= 2;
        *value = x < y;
        return at;
    }
}

static const uint8_t *command(struct run *run, const uint8_t *at)
{
    const uint8_t *test;
    int32_t z;
    bool value;

    switch (*at) {
    case 0x00:
        return at + 1;
    case 0x01: {
        const uint8_t *next = expression(run, at + 2, &z);
        if (!next || !tick(run))
            return NULL;
        run->height--;
        run->store[at[1]] = z;
        return next;
    }
    case 0x02:
        return (at = command(run, at + 1)) ? command(run, at) : NULL;
    case 0x03:
        if (!(at = condition(run, at + 1, false, &value)))
            return NULL;
        if (!value)
            return command(run, command_end(at));
        return (at = command(run, at)) && tick(run) ? command_end(at) : NULL;
    default:
        test = at + 1;
        while ((at = condition(run, test, false, &value)) && value)
            if (!command(run, at) || !tick(run))
                return NULL;
        return at ? command_end(at) : NULL;
    }
}

/* The end from bit 8, the count from bit 16, the mark from bit 48. */
uint64_t plain_run_source(const uint8_t *text, int32_t *store, uint32_t budget)
{
    struct run run = {store, budget, 0, 0, DONE};

    command(&run, text);
    return (uint64_t)run.end << 8 | (uint64_t)(budget - run.left) << 16 | (uint64_t)run.mark << 48;
}

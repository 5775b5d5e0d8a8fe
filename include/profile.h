/* Drive profiles for a C host: reading a profile's text, compiling it, and going back from machine code to assembly.
 *
 * Every call takes byte buffers and numbers only, allocates nothing and keeps no reference to a buffer. Buffers are
 * the caller's and must not overlap; a call that declines changes none of them. A pointer may be anything where its
 * length is 0.
 *
 * An answer is one number:
 *   bits 0-7    the refusal's number, 0 where there is none
 *   after a refusal:
 *     bits 8-39   its place: a byte offset in the text for 1 to 5, a record's index for 10, else 0
 *   otherwise:
 *     bits 8-23   the record count
 *     bits 24-31  D, the depth bound of the stack       (reading and compiling)
 *     bits 32-39  n, how many variables the text names  (reading and compiling)
 *
 * A refusal's number is one of `enum profile_refusal_number`. `tools/staticlibs` makes the library, libpod.a; it links
 * into x86-64 programs, and needs no other library, not C's either.
 */
#ifndef PROFILE_H
#define PROFILE_H

#include <stddef.h>
#include <stdint.h>

#ifdef __cplusplus
extern "C" {
#endif

/* The limits. Memory for a compiled profile has D + 1 + n cells, at most PROFILE_MEMORY_CELLS. */
enum {
    PROFILE_TEXT_BYTES = 4096,   /* the longest text */
    PROFILE_NESTING = 64,        /* the deepest nesting; the root has 1 */
    PROFILE_RECORD_BYTES = 5,    /* one record */
    PROFILE_RECORDS = 4096,      /* the most records of one code; a text has at most as many as bytes */
    PROFILE_VARIABLES = 64,      /* variables, numbered from 0; the bytes of a table */
    PROFILE_STACK_CELLS = 64,    /* the most stack cells */
    PROFILE_MEMORY_CELLS = 129   /* the stack, address 0, and an address for each variable */
};

/* Why a call declines, and what its place is: a byte offset of the text for 1 to 5, a record's index for 10, else 0. */
enum profile_refusal_number {
    PROFILE_ACCEPTED = 0,        /* not declined */
    PROFILE_ENDS_EARLY = 1,      /* the text ends too early; place: its length */
    PROFILE_NO_CONSTRUCT = 2,    /* a byte begins no construct of the kind due */
    PROFILE_BAD_OPERAND = 3,     /* a variable above 63, or a Bc byte above 1; place: the operand */
    PROFILE_TOO_NESTED = 4,      /* a construct at nesting 65 */
    PROFILE_LEFT_OVER = 5,       /* bytes are left over after the command */
    PROFILE_TOO_LONG = 6,        /* more than 4,096 bytes of text */
    PROFILE_SHORT_OUTPUT = 7,    /* the output is shorter than 5 bytes for each record */
    PROFILE_BAD_LENGTH = 8,      /* the table is not 64 bytes */
    PROFILE_NOT_RECORDS = 9,     /* the code is not whole records, or more than 4,096 of them */
    PROFILE_BAD_RECORD = 10,     /* a record unknown, its unused operand not 0, or its address not 1 to n */
    PROFILE_BAD_MEMORY = 11,     /* D or n above 64, or a slice of the wrong length; not given by these three calls */
    PROFILE_BAD_TABLE = 12,      /* the table's nonzero entries are not 1 to n, once each */
    PROFILE_NO_HEIGHTS = 13,     /* an inspection: the stack has no heights; not given by these three calls */
    PROFILE_NOT_PAIRED = 14,     /* the table's n and the code's addresses disagree; not given by these three calls */
    PROFILE_BAD_STATE = 15       /* a paused run's state does not fit; not given by these three calls */
};

/* A text is one command of at most PROFILE_TEXT_BYTES bytes. The first byte of each construct; v is a variable's byte,
 * 0 to 63, numbers are two's complement. A constant may have either spelling; both compile to the same record. */
enum profile_text_byte {
    PROFILE_SKIP = 0x00,
    PROFILE_ASSIGN = 0x01,            /* v, expression */
    PROFILE_SEQUENCE = 0x02,          /* command, command */
    PROFILE_IF = 0x03,                /* condition, command, command */
    PROFILE_WHILE = 0x04,             /* condition, command */
    PROFILE_CONSTANT = 0x10,          /* four bytes, lowest first */
    PROFILE_VARIABLE = 0x11,          /* v */
    PROFILE_PLUS = 0x12,              /* expression, expression */
    PROFILE_ONE_BYTE_CONSTANT = 0x13, /* one signed byte, -128 to 127 */
    PROFILE_BC = 0x20,                /* 0 false, 1 true */
    PROFILE_NOT = 0x21,               /* condition */
    PROFILE_AND = 0x22,               /* condition, condition */
    PROFILE_LESS = 0x23               /* expression, expression */
};

/* Reads a text. Gives its record count, D and n. Refuses 6, then 1 to 5. */
uint64_t profile_read(const uint8_t *text, size_t text_len);

/* Compiles a text. Gives its record count, D and n; writes the machine code, 5 bytes for each record, to the start of
 * `code`, whose other bytes keep their values, and all 64 bytes of `table`: each variable's address, 0 if the text does
 * not name it. Refuses 6, 1 to 5, 8, 7. */
uint64_t profile_compile(const uint8_t *text, size_t text_len, uint8_t *code, size_t code_len, uint8_t *table,
                         size_t table_len);

/* Turns machine code and its table into assembly. Gives the record count; writes the assembly records to the start of
 * `out`, whose other bytes keep their values. Refuses 9, 8, 12, 10, 7. */
uint64_t profile_go_back(const uint8_t *code, size_t code_len, const uint8_t *table, size_t table_len, uint8_t *out,
                         size_t out_len);

/* The refusal's number, 0 where the call did not decline. */
static inline enum profile_refusal_number profile_refusal(uint64_t answer)
{
    return (enum profile_refusal_number)(answer & 0xff);
}

/* The refusal's place. */
static inline uint32_t profile_place(uint64_t answer) { return (uint32_t)(answer >> 8); }

/* What a call that did not decline gives. */
static inline unsigned profile_records(uint64_t answer) { return (unsigned)(answer >> 8 & 0xffff); }
static inline unsigned profile_depth(uint64_t answer) { return (unsigned)(answer >> 24 & 0xff); }
static inline unsigned profile_cells(uint64_t answer) { return (unsigned)(answer >> 32 & 0xff); }

#ifdef __cplusplus
}
#endif

#endif

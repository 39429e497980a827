/*
 * Lilivrez, a verified trace agent: what its three libraries share. A program includes the header of each library that
 * it links:
 *
 *     lilivrez_verifier.h   liblilivrez_verifier.a   the console: does an expression run safely, and how long at most?
 *     lilivrez_agent.h      liblilivrez_agent.a      the unit: fetches from target memory, and runs
 *     lilivrez_frames.h     liblilivrez_frames.a     lab and desk: the frames that runs have recorded, read back
 *
 * Each archive is whole by itself, and they can be linked together in any order. The rules that the comments speak of
 * are docs/document-01.md of the sources, with the list of amended rules in front of it.
 *
 * What holds of every function of all three, but for those that tell a version:
 *
 *  - It returns the number of a refusal, or 0. What it tells besides it stores in `out`, an array of fixed size. An
 *    enum names the places of that array; a place that does not apply holds 0. Every place is stored by every call.
 *  - A number is passed as itself. Bytes or words that are lent are passed as two arguments, a pointer and how many
 *    there are; an array of fixed size is passed as a pointer alone.
 *  - It answers on any bytes and numbers whatever. What it answers is proved for all of them.
 *  - The caller owes what no function can check: each pointer is good for the length passed with it (for an array, for
 *    its size), and aligned as C wants it. What a function writes overlaps nothing else that is passed to it; what it
 *    only reads may overlap. Where a length is 0, the pointer may be NULL. An array is never NULL.
 *  - Until it returns, nothing that was passed may be changed by anybody else: no other thread, interrupt or device.
 *    An expression is verified and then run as it stands: if a byte of it changes in between, the run may read and
 *    write anywhere. Memory that is live is held still, or copied, before it is lent: else what is proved of the bytes
 *    recorded is not true of them.
 *  - It allocates nothing, keeps no pointer and has no state: it may be called from several threads at once.
 *  - It needs memcpy, memmove and memset, which the compiler calls by itself, and no other function. It uses less than
 *    8 KB of stack.
 *  - The archives are machine code for x86-64 with the System V calling convention (Linux), and may be placed at any
 *    address. What that convention asks of a caller is owed in a kernel and in firmware too: at the call instruction
 *    the stack pointer is a multiple of 16 (not so in code that gcc compiles with -mpreferred-stack-boundary=3), and
 *    the direction flag is clear. SSE is on, since XMM registers are used (CR4.OSFXSR is set, CR0.EM and CR0.TS are
 *    clear): an interrupt handler that calls a function saves them first. The 128 bytes below the stack pointer are
 *    used as well (the red zone): an interrupt during a call is taken on another stack, or leaves them as they are.
 *
 * Each function has a second form, inline, in the same header under "by name": it takes structs, and returns one. A
 * field has its name beside it, and where two pointers that are passed change places the compiler says so; in the plain
 * calls, where numbers and pointers go by their position, it does not. The second form calls the first and adds nothing
 * to it, and it takes no room in a program that does not use it.
 */
#ifndef LILIVREZ_H
#define LILIVREZ_H

#include <stddef.h>
#include <stdint.h>

#if !defined(__x86_64__) || defined(__ILP32__) || defined(_WIN32)
#error "the Lilivrez libraries are built for x86-64 with the System V calling convention only"
#endif

#ifdef __cplusplus
extern "C" {
#endif

/*
 * The version of these headers. Each archive tells its own (lilivrez_verifier_version, lilivrez_agent_version,
 * lilivrez_frames_version) as LILIVREZ_VERSION_NUMBER does: major * 10000 + minor * 100 + patch.
 */
#define LILIVREZ_VERSION "0.3.0"
#define LILIVREZ_VERSION_MAJOR 0
#define LILIVREZ_VERSION_MINOR 3
#define LILIVREZ_VERSION_PATCH 0
#define LILIVREZ_VERSION_NUMBER (LILIVREZ_VERSION_MAJOR * 10000 + LILIVREZ_VERSION_MINOR * 100 + LILIVREZ_VERSION_PATCH)

/* The limits of document 01, "Sizes". */
enum {
    LILIVREZ_EXPRESSION_BYTES = 1024, /* an expression has 1 to so many bytes */
    LILIVREZ_STACK_CELLS = 64,        /* the height that no accepted expression exceeds */
    LILIVREZ_REGISTERS = 256,         /* at most so many registers are lent */
    LILIVREZ_VARIABLES = 64,          /* trace state variables */
    LILIVREZ_BUFFER_BYTES = 65536     /* at most so many bytes has a trace buffer */
};

/* A frame is its records and, behind them, a trailer of so many bytes (document 01, "Frames"). */
enum { LILIVREZ_TRAILER_BYTES = 8 };

/* A trace buffer, for the calls by name: of its `length` bytes the first `used` are frames already recorded. */
struct lilivrez_trace {
    uint8_t *buffer;
    size_t length;
    size_t used;
};

/* The numbers that the functions return. The words are those of document 01's table. */
enum lilivrez_refusal {
    LILIVREZ_NOT_REFUSED = 0,                  /* accepted, completed, found, read */

    /* of an expression */
    LILIVREZ_REFUSED_EXPRESSION_SIZE = 1,      /* 0 bytes, or more than 1,024 */
    LILIVREZ_REFUSED_OPCODE_UNKNOWN = 2,       /* opcode unknown */
    LILIVREZ_REFUSED_OPCODE_UNSUPPORTED = 3,   /* opcode unsupported */
    LILIVREZ_REFUSED_OPERANDS_CUT = 4,         /* operands cut short */
    LILIVREZ_REFUSED_OPERAND_BAD = 5,          /* ext 0 or variable above 63 */
    LILIVREZ_REFUSED_JUMP_NO_START = 6,        /* jump not to a start */
    LILIVREZ_REFUSED_JUMP_NOT_FORWARD = 7,     /* jump not forward */
    LILIVREZ_REFUSED_HEIGHTS_DIFFER = 8,       /* heights differ */
    LILIVREZ_REFUSED_CELLS_TOO_FEW = 9,        /* too few cells */
    LILIVREZ_REFUSED_CELLS_TOO_MANY = 10,      /* too many */
    LILIVREZ_REFUSED_RUNS_OFF = 11,            /* runs off */

    /* of what a run or a fetch is given */
    LILIVREZ_REFUSED_SPAN_PAST_END = 12,       /* first address + length exceeds 2^64 */
    LILIVREZ_REFUSED_SPANS_SHARE = 13,         /* spans share an address */
    LILIVREZ_REFUSED_REGISTERS_MANY = 14,      /* over 256 registers */
    LILIVREZ_REFUSED_BUFFER_BAD = 15,          /* buffer over 65,536 or used beyond its length */

    /* met while running; 19 also by a fetch */
    LILIVREZ_REFUSED_ALLOWANCE_SPENT = 16,     /* allowance spent */
    LILIVREZ_REFUSED_DIVISOR_ZERO = 17,        /* divisor zero */
    LILIVREZ_REFUSED_REGISTER_NOT_LENT = 18,   /* register number not lent */
    LILIVREZ_REFUSED_RANGE_NOT_READABLE = 19,  /* range not readable */
    LILIVREZ_REFUSED_RECORD_SIZE = 20,         /* record size above 65,535 */
    LILIVREZ_REFUSED_BUFFER_FULL = 21,         /* record, or trailer at end, longer than the free bytes */

    /* of reading frames */
    LILIVREZ_REFUSED_TRAILER_BROKEN = 22,      /* reader: trailer broken */
    LILIVREZ_REFUSED_RECORD_BROKEN = 23,       /* reader: record broken */
    LILIVREZ_REFUSED_NO_SUCH_FRAME = 24,       /* no such frame */
    LILIVREZ_REFUSED_NO_SUCH_RECORD = 25       /* no such record */
};

/* Words for a person. They take no room in a program that does not call this. */
static inline const char *lilivrez_refusal_words(uint32_t number)
{
    static const char *const words[] = {
        "not refused",
        "the expression has no bytes, or more than 1024",
        "unknown instruction",
        "this instruction is not supported",
        "the expression ends inside this instruction",
        "ext 0, or a variable number above 63",
        "the jump is not to the start of an instruction",
        "the jump is not forward",
        "paths meet here with unequal stack heights",
        "too few cells on the stack for this instruction",
        "more than 64 cells on the stack",
        "the bytes end before an end instruction",
        "a memory span reaches past the last address",
        "the two memory spans overlap",
        "more than 256 registers",
        "trace buffer too large, or used past its end",
        "the allowed number of steps is used up",
        "division by zero",
        "no register with this number",
        "the memory range cannot be read as a whole",
        "more than 65535 bytes to record at once",
        "too little room left in the trace buffer",
        "the trailer before this offset is broken",
        "a record of the frame is broken",
        "there is no such frame",
        "there is no such record in the frame",
    };

    return number < sizeof words / sizeof words[0] ? words[number] : "unknown refusal number";
}

#ifdef __cplusplus
}
#endif

#endif

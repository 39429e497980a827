/*
 * Lilivrez, the agent: runs GDB agent expressions on target memory, and records what they collect.
 * Link with liblilivrez_agent.a; a run verifies by itself. What the caller owes, what holds of every function, and the
 * refusals are in lilivrez.h.
 */
#ifndef LILIVREZ_AGENT_H
#define LILIVREZ_AGENT_H

#include "lilivrez.h"

#ifdef __cplusplus
extern "C" {
#endif

/*
 * Target memory is two spans, the program image and the working memory. Each is the address that its first byte has on
 * the target, and the bytes, wherever they are in the caller's memory. They share no address of the target; an empty
 * span shares none with any. A range can be read exactly if all of it lies in one span.
 */
enum lilivrez_span {
    LILIVREZ_SPAN_NONE = 0,
    LILIVREZ_SPAN_IMAGE = 1, /* the program image */
    LILIVREZ_SPAN_WORK = 2   /* the working memory */
};

/* ---- fetching */

/* What lilivrez_fetch stores. */
enum lilivrez_fetch_place {
    LILIVREZ_FETCH_SPAN = 0,  /* the span that holds the bytes; none where the fetch is refused or of 0 bytes */
    LILIVREZ_FETCH_INDEX = 1, /* the index, in that span's bytes, of the first of them; all `size` bytes from there on are in the span */
    LILIVREZ_FETCH_PLACES = 2 /* the size of the array */
};

/* Finds the `size` bytes at `address`. Returns 0, or the refusal: 12, 13 or 19. */
uint32_t lilivrez_fetch(uint64_t image_first, const uint8_t *image, size_t image_length,
                        uint64_t work_first, const uint8_t *work, size_t work_length,
                        uint64_t address, uint64_t size,
                        uint64_t out[LILIVREZ_FETCH_PLACES]);

/* ---- running */

/* The allowance of lilivrez_run_default: no accepted expression needs more. */
enum { LILIVREZ_ALLOWANCE = 1024 };

/* What lilivrez_run stores. */
enum lilivrez_run_place {
    LILIVREZ_RUN_OFFSET = 0,  /* refused: the offset, in the expression, of the instruction at fault (0 for 1 and 12 to 15) */
    LILIVREZ_RUN_STEPS = 1,   /* the instructions completed; 0 where nothing ran */
    LILIVREZ_RUN_USED = 2,    /* the used length of the buffer: grown by the frame, or as given where the run is refused */
    LILIVREZ_RUN_CELLS = 3,   /* completed: how many cells of the stack are told: 0, 1, or 2 for two or more */
    LILIVREZ_RUN_TOP = 4,     /* the top of the stack, where 1 or 2 cells are told */
    LILIVREZ_RUN_BENEATH = 5, /* the cell beneath it, where 2 are told */
    LILIVREZ_RUN_PLACES = 6   /* the size of the array */
};

/*
 * Verifies an expression, checks what is given, and runs it. Returns 0 where the run completed, else the refusal: 1 to
 * 21.
 *
 * registers   register n of the target is registers[n]; at most LILIVREZ_REGISTERS
 * variables   the trace state variables, 0 to 63. A completed run leaves them as it set them, a refused one as given.
 *             Until it returns they may hold what it has set so far.
 * buffer      the trace buffer, at most LILIVREZ_BUFFER_BYTES bytes. The first `used` are frames already recorded, and
 *             stay as they are. A completed run appends one frame: its records and a trailer with the tracepoint
 *             number. A run refused with 16 to 21 leaves the records it had completed past the used length, which the
 *             next run overwrites. Every other byte of the buffer is unchanged.
 *             A condition is given 8 bytes of scratch for it ("by name", below).
 * allowance   at most so many instructions. The longest walk of lilivrez_verify (lilivrez_verifier.h) is always
 *             enough.
 */
uint32_t lilivrez_run(const uint8_t *expression, size_t expression_length,
                      const uint64_t *registers, size_t register_count,
                      uint64_t image_first, const uint8_t *image, size_t image_length,
                      uint64_t work_first, const uint8_t *work, size_t work_length,
                      uint64_t variables[LILIVREZ_VARIABLES],
                      uint8_t *buffer, size_t buffer_length, size_t used,
                      uint16_t tracepoint, uint64_t allowance,
                      uint64_t out[LILIVREZ_RUN_PLACES]);

/* The same with LILIVREZ_ALLOWANCE. */
uint32_t lilivrez_run_default(const uint8_t *expression, size_t expression_length,
                              const uint64_t *registers, size_t register_count,
                              uint64_t image_first, const uint8_t *image, size_t image_length,
                              uint64_t work_first, const uint8_t *work, size_t work_length,
                              uint64_t variables[LILIVREZ_VARIABLES],
                              uint8_t *buffer, size_t buffer_length, size_t used,
                              uint16_t tracepoint,
                              uint64_t out[LILIVREZ_RUN_PLACES]);

/* The version of the archive, as a number like LILIVREZ_VERSION_NUMBER. */
uint32_t lilivrez_agent_version(void);

/*
 * ---- by name
 *
 * A unit that lends registers, program image and working memory, and runs a tracepoint's expression at a hit:
 *
 *     struct lilivrez_target target = {
 *         .registers = registers, .register_count = 24,
 *         .image = {.first = 0x8000, .bytes = image, .length = sizeof image},
 *         .work = {.first = 0x1000, .bytes = work, .length = sizeof work},
 *     };
 *     struct lilivrez_tracepoint tracepoint = {.number = 7, .expression = bytes, .length = sizeof bytes};
 *     struct lilivrez_trace trace = {.buffer = buffer, .length = sizeof buffer, .used = 0};
 *     uint64_t variables[LILIVREZ_VARIABLES] = {0};
 *
 *     struct lilivrez_outcome o = lilivrez_run_on(&tracepoint, &target, variables, &trace);
 *     if (o.refusal != LILIVREZ_NOT_REFUSED)
 *         report(o.refusal, o.offset, o.steps);
 *
 * A condition is an expression whose value is on top of the stack at the end, and is met where that is not 0. It
 * records nothing, yet every completed run appends a frame, at least a trailer of 8 bytes: on the trace buffer it would
 * leave an empty frame at each hit, and be refused with 21 where the buffer is full. So it is lent 8 bytes of scratch
 * as its buffer, of which 0 are used, and only its outcome is looked at. lilivrez_evaluate_on does this:
 *
 *     struct lilivrez_outcome c = lilivrez_evaluate_on(condition, sizeof condition, &target, variables);
 *     if (c.refusal != LILIVREZ_NOT_REFUSED)
 *         report(c.refusal, c.offset, c.steps);
 *     else if (c.cells >= 1 && c.top != 0)
 *         o = lilivrez_run_on(&tracepoint, &target, variables, &trace);
 *
 * A refused condition is neither met nor not met: it has no value. One that records is refused, with 21 where nothing
 * else is wrong, since the scratch has room for the trailer alone. One that sets variables (setv) leaves them set, as
 * any run does.
 *
 * C++ before C++20 has no names in initialisers: there the fields are assigned.
 */

/* One span of target memory. */
struct lilivrez_span_bytes {
    uint64_t first; /* the address that its first byte has on the target */
    const uint8_t *bytes;
    size_t length;
};

/* What a run and a fetch read. A fetch reads no registers. */
struct lilivrez_target {
    const uint64_t *registers;
    size_t register_count;
    struct lilivrez_span_bytes image; /* the program image */
    struct lilivrez_span_bytes work;  /* the working memory */
};

/* What lilivrez_fetch finds. */
struct lilivrez_fetched {
    uint32_t refusal;        /* 0 where the bytes were found */
    enum lilivrez_span span; /* the span that holds them; none where the fetch is refused or of 0 bytes */
    const uint8_t *bytes;    /* the first of them, in that span; NULL where there is none */
    size_t length;           /* how many they are: the size asked for, or 0 where the fetch is refused */
};

static inline struct lilivrez_fetched lilivrez_fetch_from(const struct lilivrez_target *target, uint64_t address, uint64_t size)
{
    const struct lilivrez_span_bytes *image = &target->image, *work = &target->work;
    uint64_t out[LILIVREZ_FETCH_PLACES];
    struct lilivrez_fetched f;

    f.refusal = lilivrez_fetch(image->first, image->bytes, image->length, work->first, work->bytes, work->length, address, size, out);
    f.span = (enum lilivrez_span)out[LILIVREZ_FETCH_SPAN];
    f.bytes = f.span == LILIVREZ_SPAN_NONE ? NULL : (f.span == LILIVREZ_SPAN_IMAGE ? image : work)->bytes + out[LILIVREZ_FETCH_INDEX];
    f.length = f.span == LILIVREZ_SPAN_NONE ? 0 : (size_t)size;
    return f;
}

/* A tracepoint: its number, which stands in the trailer of each frame, and the expression that is run at a hit. */
struct lilivrez_tracepoint {
    uint16_t number;
    const uint8_t *expression;
    size_t length;
};

/* What lilivrez_run returns and stores. */
struct lilivrez_outcome {
    uint32_t refusal; /* 0 where the run completed */
    uint64_t offset;  /* refused: as LILIVREZ_RUN_OFFSET */
    uint64_t steps;   /* the instructions completed */
    uint64_t cells;   /* completed: how many cells of the stack are told: 0, 1, or 2 for two or more */
    uint64_t top;     /* the top of the stack, where 1 or 2 cells are told */
    uint64_t beneath; /* the cell beneath it, where 2 are told */
};

/* lilivrez_run. The used length of the trace grows by the frame, or stays where the run is refused. */
static inline struct lilivrez_outcome lilivrez_run_on_within(const struct lilivrez_tracepoint *tracepoint, const struct lilivrez_target *target,
                                                             uint64_t variables[LILIVREZ_VARIABLES], struct lilivrez_trace *trace,
                                                             uint64_t allowance)
{
    const struct lilivrez_span_bytes *image = &target->image, *work = &target->work;
    uint64_t out[LILIVREZ_RUN_PLACES];
    struct lilivrez_outcome o;

    o.refusal = lilivrez_run(tracepoint->expression, tracepoint->length, target->registers, target->register_count,
                             image->first, image->bytes, image->length, work->first, work->bytes, work->length,
                             variables, trace->buffer, trace->length, trace->used, tracepoint->number, allowance, out);
    o.offset = out[LILIVREZ_RUN_OFFSET];
    o.steps = out[LILIVREZ_RUN_STEPS];
    o.cells = out[LILIVREZ_RUN_CELLS];
    o.top = out[LILIVREZ_RUN_TOP];
    o.beneath = out[LILIVREZ_RUN_BENEATH];
    trace->used = (size_t)out[LILIVREZ_RUN_USED];
    return o;
}

/* The same with LILIVREZ_ALLOWANCE. An allowance of 0 is one: it refuses every expression that is accepted with 16. */
static inline struct lilivrez_outcome lilivrez_run_on(const struct lilivrez_tracepoint *tracepoint, const struct lilivrez_target *target,
                                                      uint64_t variables[LILIVREZ_VARIABLES], struct lilivrez_trace *trace)
{
    return lilivrez_run_on_within(tracepoint, target, variables, trace, LILIVREZ_ALLOWANCE);
}

/* A condition, or any expression that does not record: run with LILIVREZ_ALLOWANCE on scratch, and no frame is left. */
static inline struct lilivrez_outcome lilivrez_evaluate_on(const uint8_t *expression, size_t expression_length,
                                                           const struct lilivrez_target *target, uint64_t variables[LILIVREZ_VARIABLES])
{
    uint8_t scratch[LILIVREZ_TRAILER_BYTES];
    struct lilivrez_tracepoint condition = {0, expression, expression_length};
    struct lilivrez_trace trace = {scratch, sizeof scratch, 0};

    return lilivrez_run_on(&condition, target, variables, &trace);
}

#ifdef __cplusplus
}
#endif

#endif

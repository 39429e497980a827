/* A unit's firmware in small: verify expressions of a console, run them on two spans of memory, read back what was collected. */
#include <inttypes.h>
#include <stdio.h>

#include "lilivrez_agent.h"
#include "lilivrez_frames.h"
#include "lilivrez_verifier.h"

#define TRACEPOINT 7

/* What the unit lends to its trace agent. */
struct unit {
    struct lilivrez_target target;
    uint64_t variables[LILIVREZ_VARIABLES];
    struct lilivrez_trace trace;
};

static void print_hex(const uint8_t *bytes, size_t length)
{
    for (size_t i = 0; i < length; i++)
        printf(" %02x", (unsigned)bytes[i]);
    printf("\n");
}

static void print_bytes(const char *name, const uint8_t *bytes, size_t length)
{
    printf("  %s:", name);
    print_hex(bytes, length);
}

static void print_refusal(uint32_t number, uint64_t offset)
{
    printf("  refused %" PRIu32 " at offset %" PRIu64 ": %s\n", number, offset, lilivrez_refusal_words(number));
}

/* The console's part: lilivrez_verifier.h alone. */
static void verify(const char *what, const uint8_t *expression, size_t length)
{
    struct lilivrez_verdict v = lilivrez_verdict_of(expression, length);

    printf("verify %s\n", what);
    if (v.refusal != LILIVREZ_NOT_REFUSED)
        print_refusal(v.refusal, v.offset);
    else
        printf("  accepted: %" PRIu64 " instructions, greatest height %" PRIu64 ", longest walk %" PRIu64 "\n", v.instructions,
               v.greatest_height, v.longest_walk);
}

static void print_outcome(struct lilivrez_outcome o)
{
    if (o.refusal != LILIVREZ_NOT_REFUSED) {
        printf("  refused %" PRIu32 " at offset %" PRIu64 ", steps %" PRIu64 ": %s\n", o.refusal, o.offset, o.steps,
               lilivrez_refusal_words(o.refusal));
        return;
    }
    printf("  completed, steps %" PRIu64, o.steps);
    if (o.cells >= 1)
        printf(", top %" PRIu64, o.top);
    if (o.cells >= 2)
        printf(", beneath %" PRIu64, o.beneath);
    printf("\n");
}

/* The unit's part, lilivrez_agent.h: a run appends its frame to the trace buffer. */
static void run(struct unit *u, const char *what, const uint8_t *expression, size_t length)
{
    struct lilivrez_tracepoint tracepoint = {.number = TRACEPOINT, .expression = expression, .length = length};
    size_t before = u->trace.used;

    printf("run %s\n", what);
    print_outcome(lilivrez_run_on(&tracepoint, &u->target, u->variables, &u->trace));
    if (u->trace.used > before)
        print_bytes("frame", u->trace.buffer + before, u->trace.used - before);
}

/* A condition leaves no frame, and is evaluated on a full trace buffer too. */
static void evaluate(struct unit *u, const char *what, const uint8_t *condition, size_t length)
{
    printf("evaluate %s\n", what);
    print_outcome(lilivrez_evaluate_on(condition, length, &u->target, u->variables));
}

static void fetch(const struct unit *u, uint64_t address, uint64_t size)
{
    struct lilivrez_fetched f = lilivrez_fetch_from(&u->target, address, size);

    printf("fetch %" PRIu64 " bytes at %" PRIu64 "\n", size, address);
    if (f.refusal != LILIVREZ_NOT_REFUSED)
        printf("  refused %" PRIu32 ": %s\n", f.refusal, lilivrez_refusal_words(f.refusal));
    else
        print_bytes(f.span == LILIVREZ_SPAN_IMAGE ? "program image" : "working memory", f.bytes, f.length);
}

/* The lab's part, lilivrez_frames.h. The bytes of a memory record stay in the trace buffer. */
static void print_record(struct lilivrez_record_read r)
{
    if (r.refusal != LILIVREZ_NOT_REFUSED) {
        print_refusal(r.refusal, r.offset);
    } else if (r.kind == LILIVREZ_RECORD_MEMORY) {
        printf("  memory at %" PRIu64 ":", r.address);
        print_hex(r.bytes, r.length);
    } else {
        printf("  variable %" PRIu64 ": %" PRIu64 "\n", r.variable, r.value);
    }
}

/* The records of a frame, each looked at once. The walk over them ends with a refusal: 25 where no record is broken. */
static void print_records(const struct lilivrez_trace *trace, const struct lilivrez_frame *frame)
{
    struct lilivrez_record_read r;
    size_t place = frame->start, records = 0;

    for (; (r = lilivrez_next_record_in(trace, frame, &place)).refusal == LILIVREZ_NOT_REFUSED; records++)
        print_record(r);
    if (r.refusal != LILIVREZ_REFUSED_NO_SUCH_RECORD)
        print_refusal(r.refusal, r.offset);
    printf("  records %zu\n", records);
}

/* From the newest frame to the oldest. The walker is its place, and the walk ends with a refusal: 24 where no frame is broken. */
static void print_frames(const struct lilivrez_trace *trace)
{
    struct lilivrez_frame f;
    size_t place = trace->used;

    for (uint64_t frame = 0; (f = lilivrez_walk_in(trace, &place)).refusal == LILIVREZ_NOT_REFUSED; frame++) {
        printf("frame %" PRIu64 ": tracepoint %" PRIu64 ", start %zu, length of the records %zu\n", frame, f.tracepoint, f.start, f.length);
        print_records(trace, &f);
    }
    printf("walk on from %zu\n", place);
    print_refusal(f.refusal, f.offset);
}

/* const16 4096, trace_quick 2, end */
static const uint8_t two_bytes[] = {0x23, 0x10, 0x00, 0x0d, 0x02, 0x27};
/* the same for 4 bytes, of which the working memory has 3 */
static const uint8_t four_bytes[] = {0x23, 0x10, 0x00, 0x0d, 0x04, 0x27};
/* getv 3, const8 1, add, setv 3, tracev 3, end */
static const uint8_t count[] = {0x2c, 0x00, 0x03, 0x22, 0x01, 0x02, 0x2d, 0x00, 0x03, 0x2e, 0x00, 0x03, 0x27};
/* reg 1, ref32, end */
static const uint8_t from_register[] = {0x26, 0x00, 0x01, 0x19, 0x27};
/* const8 9, pick 1, end: one cell, and pick 1 needs two */
static const uint8_t too_few[] = {0x22, 0x09, 0x32, 0x01, 0x27};

int main(void)
{
    static const uint64_t registers[] = {4096, 32768};
    static const uint8_t image[] = {0x7f, 0x45, 0x4c, 0x46, 0x02, 0x01}, work[] = {0x41, 0x00, 0x42};
    static uint8_t buffer[50];
    struct unit u = {
        .target = {.registers = registers,
                   .register_count = sizeof registers / sizeof registers[0],
                   .image = {.first = 32768, .bytes = image, .length = sizeof image},
                   .work = {.first = 4096, .bytes = work, .length = sizeof work}},
        .variables = {0},
        .trace = {.buffer = buffer, .length = sizeof buffer, .used = 0},
    };

    verify("two bytes of working memory", two_bytes, sizeof two_bytes);
    verify("a pick below the stack", too_few, sizeof too_few);

    run(&u, "two bytes of working memory", two_bytes, sizeof two_bytes);
    run(&u, "four bytes of working memory", four_bytes, sizeof four_bytes);
    run(&u, "count in variable 3", count, sizeof count);
    run(&u, "the word that register 1 points to", from_register, sizeof from_register);
    printf("variable 3 is %" PRIu64 ", %zu bytes of the trace buffer are used\n", u.variables[3], u.trace.used);
    run(&u, "the same on the full buffer", from_register, sizeof from_register);
    evaluate(&u, "the same as a condition", from_register, sizeof from_register);

    print_frames(&u.trace);
    printf("read record 1 of frame 1\n");
    print_record(lilivrez_read_in(&u.trace, 1, 1));

    fetch(&u, 32769, 3);
    fetch(&u, 4098, 2);
    return 0;
}

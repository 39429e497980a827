/*
 * The C boundary of the static libraries: zero lengths with and without NULL, slices that end or begin beside memory that
 * faults (the sanitizers do not see inside the archives), random inputs. What is checked here needs no evaluator: every place
 * of `out`, what must stay as it was, the trailer, that the five functions that read frames agree with each other, and that
 * the calls by name tell the same as the plain ones.
 */
#define _DEFAULT_SOURCE
#include <inttypes.h>
#include <stdio.h>
#include <stdlib.h>
#include <string.h>
#include <sys/mman.h>
#include <unistd.h>

#include "lilivrez_agent.h"
#include "lilivrez_frames.h"
#include "lilivrez_verifier.h"

#define MOST (LILIVREZ_BUFFER_BYTES + 4096)
#define REFUSALS 26

static unsigned long met[REFUSALS], evaluated[REFUSALS], met_reading[REFUSALS], met_next[REFUSALS];

#define CHECK(fact)                                                              \
    do {                                                                         \
        if (!(fact)) {                                                           \
            fprintf(stderr, "tests/boundary: line %d: %s\n", __LINE__, #fact);   \
            exit(1);                                                             \
        }                                                                        \
    } while (0)

/* ---- random numbers: xorshift */
static uint64_t state = 0x9e3779b97f4a7c15u;

static uint64_t any(void)
{
    state ^= state << 13;
    state ^= state >> 7;
    state ^= state << 17;
    return state;
}

static size_t below(size_t n)
{
    return (size_t)(any() % n);
}

/* ---- room for one slice, between two pages that fault */
struct room {
    uint8_t *first;
    size_t size;
};

static struct room new_room(void)
{
    size_t page = (size_t)sysconf(_SC_PAGESIZE);
    size_t size = (MOST + page - 1) / page * page;
    uint8_t *p = mmap(NULL, size + 2 * page, PROT_NONE, MAP_PRIVATE | MAP_ANONYMOUS, -1, 0);
    struct room r = {p + page, size};

    CHECK(p != MAP_FAILED && mprotect(r.first, size, PROT_READ | PROT_WRITE) == 0);
    return r;
}

/* So many bytes that end at the last byte of the room or begin at its first; for no bytes a pointer that faults, or NULL. */
static void *slice(struct room r, size_t bytes)
{
    if (bytes == 0 && below(2) == 0)
        return NULL;
    return below(4) == 0 && bytes > 0 ? r.first : r.first + (r.size - bytes);
}

static struct room expressions, registers, images, works, buffers, befores, arrays, outs;

/* ---- expressions: random instructions that mostly have their cells, sometimes damaged */
struct row {
    uint8_t opcode, operands, needed, left;
};

static const struct row rows[] = {
    {0x02, 0, 2, 1}, {0x05, 0, 2, 1}, {0x08, 0, 2, 1}, {0x0c, 0, 2, 0}, {0x0d, 1, 1, 1}, {0x12, 0, 1, 1}, {0x16, 1, 1, 1},
    {0x17, 0, 1, 1}, {0x1a, 0, 1, 1}, {0x20, 2, 1, 0}, {0x21, 2, 0, 0}, {0x22, 1, 0, 1}, {0x23, 2, 0, 1}, {0x25, 8, 0, 1},
    {0x26, 2, 0, 1}, {0x28, 0, 1, 2}, {0x29, 0, 1, 0}, {0x2b, 0, 2, 2}, {0x2c, 2, 0, 1}, {0x2d, 2, 1, 1}, {0x2e, 2, 0, 1},
    {0x2f, 0, 2, 0}, {0x30, 2, 1, 1}, {0x33, 0, 3, 3},
};

static const struct row *const const16 = &rows[12], *const pop = &rows[16];

static void put_operand(uint8_t *e, size_t at, const struct row *row)
{
    for (size_t i = 0; i < row->operands; i++)
        e[at + 1 + i] = (uint8_t)any();
    if (row->operands == 2 && row->opcode != 0x30)
        e[at + 1] = below(16) == 0 ? 1 : 0;
    if (row->opcode == 0x20 || row->opcode == 0x21) {
        e[at + 1] = (uint8_t)((at + 3) >> 8);
        e[at + 2] = (uint8_t)(at + 3 + (below(4) == 0 ? below(8) : 0));
    }
    if (row->opcode >= 0x2c && row->opcode <= 0x2e)
        e[at + 2] = (uint8_t)below(below(50) == 0 ? 66 : 64);
    if (row->opcode == 0x23)
        e[at + 1] = 0x10;
}

static size_t make_expression(uint8_t *e)
{
    size_t end = below(8) == 0 ? 1 + below(1023) : 1 + below(60), at = 0, height = 0;
    int is_deep = below(4) == 0;

    while (at + 10 < end) {
        const struct row *row = &rows[below(sizeof rows / sizeof rows[0])];
        if ((row->needed > height || is_deep) && below(300) != 0)
            row = const16;
        if (height > 63 && below(50) != 0)
            row = pop;
        e[at] = row->opcode;
        put_operand(e, at, row);
        height = height < row->needed ? row->left : height - row->needed + row->left;
        at += 1u + row->operands;
    }
    if (below(20) != 0)
        e[at++] = 0x27;
    if (below(6) == 0 && at > 0)
        e[below(at)] = (uint8_t)any();
    return at;
}

static void make_bytes(uint8_t *p, size_t n)
{
    for (size_t i = 0; i < n; i++)
        p[i] = (uint8_t)(any() & (below(2) == 0 ? 0xff : 1));
}

/* ---- verifying */
static uint32_t check_verify(const uint8_t *e, size_t n, uint64_t out[LILIVREZ_VERIFY_PLACES])
{
    memset(out, 0xa5, LILIVREZ_VERIFY_PLACES * sizeof out[0]);
    uint32_t number = lilivrez_verify(e, n, out);
    struct lilivrez_verdict v = lilivrez_verdict_of(e, n);

    CHECK(v.refusal == number && v.offset == out[LILIVREZ_VERIFY_OFFSET] && v.instructions == out[LILIVREZ_VERIFY_COUNT]);
    CHECK(v.greatest_height == out[LILIVREZ_VERIFY_HEIGHT] && v.longest_walk == out[LILIVREZ_VERIFY_WALK]);
    CHECK(number <= LILIVREZ_REFUSED_RUNS_OFF);
    if (number == LILIVREZ_NOT_REFUSED) {
        CHECK(out[LILIVREZ_VERIFY_OFFSET] == 0);
        CHECK(1 <= out[LILIVREZ_VERIFY_COUNT] && out[LILIVREZ_VERIFY_COUNT] <= n);
        CHECK(out[LILIVREZ_VERIFY_HEIGHT] <= LILIVREZ_STACK_CELLS);
        CHECK(1 <= out[LILIVREZ_VERIFY_WALK] && out[LILIVREZ_VERIFY_WALK] <= out[LILIVREZ_VERIFY_COUNT]);
    } else {
        CHECK(out[LILIVREZ_VERIFY_OFFSET] < n || (number == LILIVREZ_REFUSED_EXPRESSION_SIZE && out[LILIVREZ_VERIFY_OFFSET] == 0));
        CHECK(out[LILIVREZ_VERIFY_COUNT] == 0 && out[LILIVREZ_VERIFY_HEIGHT] == 0 && out[LILIVREZ_VERIFY_WALK] == 0);
    }
    return number;
}

/* ---- what a run and a fetch are given */
struct given {
    uint8_t *expression, *image, *work, *buffer;
    size_t length, count, image_length, work_length, buffer_length, used;
    uint64_t *registers, *variables, image_first, work_first;
    uint16_t tracepoint;
};

static struct lilivrez_target target_of(const struct given *g)
{
    struct lilivrez_target target = {
        .registers = g->registers,
        .register_count = g->count,
        .image = {.first = g->image_first, .bytes = g->image, .length = g->image_length},
        .work = {.first = g->work_first, .bytes = g->work, .length = g->work_length},
    };

    return target;
}

static void make_spans(struct given *g)
{
    g->image_length = below(5) == 0 ? 0 : below(300);
    g->work_length = below(5) == 0 ? 0 : below(40) == 0 ? 65600 : below(300);
    g->image_first = below(8) == 0 ? any() : below(16) == 0 ? 4096 + below(300) : UINT64_MAX - g->image_length + below(3);
    g->work_first = below(20) == 0 ? any() : 4096 + below(256);
    g->image = slice(images, g->image_length);
    g->work = slice(works, g->work_length);
    make_bytes(g->image, g->image_length);
    make_bytes(g->work, g->work_length);
}

static struct given make_given(void)
{
    struct given g;
    uint8_t e[2048];

    make_spans(&g);
    g.length = below(40) == 0 ? 0 : below(200) == 0 ? 1025 : make_expression(e);
    g.expression = slice(expressions, g.length);
    if (g.length > 0 && g.length < 1025)
        memcpy(g.expression, e, g.length);
    g.count = below(100) == 0 ? 257 : below(5) == 0 ? 0 : below(257);
    g.registers = slice(registers, g.count * sizeof g.registers[0]);
    for (size_t i = 0; i < g.count; i++)
        g.registers[i] = below(2) == 0 ? 4096 + below(300) : any();
    g.variables = slice(arrays, LILIVREZ_VARIABLES * sizeof g.variables[0]);
    for (size_t i = 0; i < LILIVREZ_VARIABLES; i++)
        g.variables[i] = any();
    g.buffer_length = below(100) == 0 ? LILIVREZ_BUFFER_BYTES + 1 : below(50) == 0 ? LILIVREZ_BUFFER_BYTES : below(6) == 0 ? 0 : below(400);
    g.buffer = slice(buffers, g.buffer_length);
    make_bytes(g.buffer, g.buffer_length);
    g.used = below(50) == 0 ? g.buffer_length + 1 : below(g.buffer_length / 2 + 1);
    g.tracepoint = (uint16_t)any();
    return g;
}

/* ---- running */
static void check_completed(const struct given *g, const uint8_t *before, const uint64_t *out)
{
    size_t used = (size_t)out[LILIVREZ_RUN_USED], records = used - g->used - 8;
    const uint8_t *trailer = g->buffer + used - 8;

    CHECK(out[LILIVREZ_RUN_OFFSET] == 0 && out[LILIVREZ_RUN_STEPS] >= 1 && out[LILIVREZ_RUN_CELLS] <= 2);
    CHECK(out[LILIVREZ_RUN_CELLS] >= 1 || out[LILIVREZ_RUN_TOP] == 0);
    CHECK(out[LILIVREZ_RUN_CELLS] >= 2 || out[LILIVREZ_RUN_BENEATH] == 0);
    CHECK(g->used + 8 <= used && used <= g->buffer_length);
    CHECK(memcmp(g->buffer + used, before + used, g->buffer_length - used) == 0);
    CHECK(trailer[0] == 0x46 && trailer[1] == 0 && (trailer[2] | trailer[3] << 8) == g->tracepoint);
    CHECK((trailer[4] | (size_t)trailer[5] << 8 | (size_t)trailer[6] << 16 | (size_t)trailer[7] << 24) == records);
}

static void check_refused(const struct given *g, uint32_t number, const uint8_t *before, const uint64_t *variables, const uint64_t *out)
{
    CHECK(number <= LILIVREZ_REFUSED_BUFFER_FULL);
    CHECK(out[LILIVREZ_RUN_USED] == g->used);
    CHECK(out[LILIVREZ_RUN_CELLS] == 0 && out[LILIVREZ_RUN_TOP] == 0 && out[LILIVREZ_RUN_BENEATH] == 0);
    CHECK(memcmp(g->variables, variables, LILIVREZ_VARIABLES * sizeof variables[0]) == 0);
    if (number <= LILIVREZ_REFUSED_BUFFER_BAD) {
        CHECK(out[LILIVREZ_RUN_STEPS] == 0);
        CHECK(g->buffer_length == 0 || memcmp(g->buffer, before, g->buffer_length) == 0);
    }
}

/* The call by name on what the plain call was given, `before` and `variables`, ends as the plain call did: `number`, `out`. */
static void check_run_on(const struct given *g, uint64_t allowance, int is_default, const uint8_t *before, const uint64_t *variables,
                         uint32_t number, const uint64_t *out)
{
    static uint8_t buffer[MOST];
    uint64_t mine[LILIVREZ_VARIABLES];
    struct lilivrez_tracepoint tracepoint = {.number = g->tracepoint, .expression = g->expression, .length = g->length};
    struct lilivrez_target target = target_of(g);
    struct lilivrez_trace trace = {.buffer = buffer, .length = g->buffer_length, .used = g->used};

    memcpy(buffer, before, g->buffer_length);
    memcpy(mine, variables, sizeof mine);
    struct lilivrez_outcome o = is_default ? lilivrez_run_on(&tracepoint, &target, mine, &trace)
                                           : lilivrez_run_on_within(&tracepoint, &target, mine, &trace, allowance);
    CHECK(o.refusal == number && o.offset == out[LILIVREZ_RUN_OFFSET] && o.steps == out[LILIVREZ_RUN_STEPS]);
    CHECK(o.cells == out[LILIVREZ_RUN_CELLS] && o.top == out[LILIVREZ_RUN_TOP] && o.beneath == out[LILIVREZ_RUN_BENEATH]);
    CHECK(trace.buffer == buffer && trace.length == g->buffer_length && trace.used == out[LILIVREZ_RUN_USED]);
    CHECK(memcmp(mine, g->variables, sizeof mine) == 0);
    CHECK(g->buffer_length == 0 || memcmp(buffer, g->buffer, g->buffer_length) == 0);
}

/* As a condition, on 8 bytes of scratch: no room is short but for a record, and the answer is that of the run. */
static void check_evaluate_on(const struct given *g, const uint64_t *variables, uint32_t number, const uint64_t *out)
{
    uint64_t mine[LILIVREZ_VARIABLES];
    struct lilivrez_target target = target_of(g);

    memcpy(mine, variables, sizeof mine);
    struct lilivrez_outcome o = lilivrez_evaluate_on(g->expression, g->length, &target, mine);
    evaluated[o.refusal]++;
    if (number == LILIVREZ_REFUSED_BUFFER_BAD || number == LILIVREZ_REFUSED_BUFFER_FULL || o.refusal == LILIVREZ_REFUSED_BUFFER_FULL)
        return;
    CHECK(o.refusal == number && o.offset == out[LILIVREZ_RUN_OFFSET] && o.steps == out[LILIVREZ_RUN_STEPS]);
    CHECK(o.cells == out[LILIVREZ_RUN_CELLS] && o.top == out[LILIVREZ_RUN_TOP] && o.beneath == out[LILIVREZ_RUN_BENEATH]);
    CHECK(memcmp(mine, g->variables, sizeof mine) == 0);
}

static uint32_t check_run(const struct given *g, uint64_t allowance, int is_default, uint64_t *out)
{
    uint8_t *before = befores.first;
    uint64_t variables[LILIVREZ_VARIABLES];
    uint32_t number;

    if (g->buffer_length > 0)
        memcpy(before, g->buffer, g->buffer_length);
    memcpy(variables, g->variables, sizeof variables);
    memset(out, 0xa5, LILIVREZ_RUN_PLACES * sizeof out[0]);
    if (is_default)
        number = lilivrez_run_default(g->expression, g->length, g->registers, g->count, g->image_first, g->image, g->image_length, g->work_first,
                                      g->work, g->work_length, g->variables, g->buffer, g->buffer_length, g->used, g->tracepoint, out);
    else
        number = lilivrez_run(g->expression, g->length, g->registers, g->count, g->image_first, g->image, g->image_length, g->work_first, g->work,
                              g->work_length, g->variables, g->buffer, g->buffer_length, g->used, g->tracepoint, allowance, out);
    CHECK(number < REFUSALS);
    met[number]++;
    CHECK(out[LILIVREZ_RUN_STEPS] <= allowance);
    if (g->used <= g->buffer_length && g->used > 0)
        CHECK(memcmp(g->buffer, before, g->used) == 0);
    if (number == LILIVREZ_NOT_REFUSED)
        check_completed(g, before, out);
    else
        check_refused(g, number, before, variables, out);
    check_run_on(g, allowance, is_default, before, variables, number, out);
    if (is_default)
        check_evaluate_on(g, variables, number, out);
    return number;
}

/* A run agrees with the verifier, and the run with no allowance with that of 1,024, on the same inputs. */
static void check_runs(void)
{
    struct given g = make_given();
    uint64_t *told = slice(outs, LILIVREZ_VERIFY_PLACES * sizeof told[0]);
    uint32_t verified = check_verify(g.expression, g.length, told);
    uint64_t offset = told[LILIVREZ_VERIFY_OFFSET], walk = told[LILIVREZ_VERIFY_WALK], first[LILIVREZ_RUN_PLACES], variables[LILIVREZ_VARIABLES];
    uint64_t *out = slice(outs, LILIVREZ_RUN_PLACES * sizeof out[0]);
    uint64_t allowance = below(4) == 0 ? below(12) : below(2) == 0 ? walk : LILIVREZ_ALLOWANCE;

    memcpy(variables, g.variables, sizeof variables);
    uint32_t number = check_run(&g, allowance, 0, out);
    if (verified != LILIVREZ_NOT_REFUSED)
        CHECK(number == verified && out[LILIVREZ_RUN_OFFSET] == offset);
    else
        CHECK((number == 0 || number >= 12) && out[LILIVREZ_RUN_STEPS] <= walk && (number != LILIVREZ_REFUSED_ALLOWANCE_SPENT || allowance < walk));
    if (allowance < walk)
        return;
    memcpy(first, out, sizeof first);
    memcpy(g.variables, variables, sizeof variables);
    CHECK(check_run(&g, LILIVREZ_ALLOWANCE, 1, out) == number);
    CHECK(memcmp(first, out, sizeof first) == 0);
}

/* ---- fetching */
static void check_fetch(void)
{
    struct given g;
    uint64_t *out = slice(outs, LILIVREZ_FETCH_PLACES * sizeof out[0]);

    make_spans(&g);
    uint64_t address = below(2) == 0 ? g.image_first + below(300) : 4096 + below(400), size = below(10) == 0 ? any() : below(100);
    memset(out, 0xa5, LILIVREZ_FETCH_PLACES * sizeof out[0]);
    uint32_t number = lilivrez_fetch(g.image_first, g.image, g.image_length, g.work_first, g.work, g.work_length, address, size, out);
    uint64_t index = out[LILIVREZ_FETCH_INDEX];

    g.registers = NULL;
    g.count = 0;
    struct lilivrez_target target = target_of(&g);
    struct lilivrez_fetched f = lilivrez_fetch_from(&target, address, size);
    CHECK(f.refusal == number && f.span == out[LILIVREZ_FETCH_SPAN] && f.length == (f.span == LILIVREZ_SPAN_NONE ? 0 : size));
    CHECK(f.bytes == (f.span == LILIVREZ_SPAN_NONE ? NULL : (f.span == LILIVREZ_SPAN_IMAGE ? g.image : g.work) + index));
    CHECK(number == 0 || number == 12 || number == 13 || number == 19);
    if (number != 0 || size == 0) {
        CHECK(out[LILIVREZ_FETCH_SPAN] == LILIVREZ_SPAN_NONE && index == 0);
    } else if (out[LILIVREZ_FETCH_SPAN] == LILIVREZ_SPAN_IMAGE) {
        CHECK(g.image_first + index == address && index + size <= g.image_length);
    } else {
        CHECK(out[LILIVREZ_FETCH_SPAN] == LILIVREZ_SPAN_WORK);
        CHECK(g.work_first + index == address && index + size <= g.work_length);
    }
}

/* ---- reading: frames that are known, then sometimes damaged */
#define FRAMES 4
#define RECORDS 4

struct written {
    size_t start, length, records;
    uint16_t tracepoint;
};

struct trace {
    uint8_t *buffer;
    size_t length, used, count;
    int is_whole;
    struct written frames[FRAMES]; /* the oldest first */
};

static void put_number(uint8_t *p, uint64_t x, size_t n)
{
    for (size_t i = 0; i < n; i++)
        p[i] = (uint8_t)(x >> 8 * i);
}

static uint64_t number_at(const uint8_t *p, size_t n)
{
    uint64_t x = 0;

    for (size_t i = n; i > 0; i--)
        x = x << 8 | p[i - 1];
    return x;
}

static size_t put_record(uint8_t *p)
{
    size_t n = 1 + below(20);

    if (below(2) == 0) {
        p[0] = 0x56;
        put_number(p + 1, below(64), 4);
        put_number(p + 5, any(), 8);
        return 13;
    }
    p[0] = 0x4d;
    put_number(p + 1, any(), 8);
    put_number(p + 9, n, 2);
    make_bytes(p + 11, n);
    return 11 + n;
}

static size_t put_frame(uint8_t *p, size_t at, struct written *w)
{
    w->start = at;
    w->records = below(RECORDS + 1);
    w->tracepoint = (uint16_t)any();
    for (size_t i = 0; i < w->records; i++)
        at += put_record(p + at);
    w->length = at - w->start;
    put_number(p + at, 0x46, 2);
    put_number(p + at + 2, w->tracepoint, 2);
    put_number(p + at + 4, w->length, 4);
    return at + 8;
}

/* One wrong byte, a used length inside a frame, or one past the end. */
static void damage(struct trace *t)
{
    if (below(8) == 0)
        t->used = t->length + 1 + below(2) * (size_t)any();
    else if (below(4) == 0)
        t->used = below(t->used + 1);
    else if (t->used > 0)
        t->buffer[below(t->used)] = below(2) == 0 ? (uint8_t)any() : (uint8_t)below(4);
    t->is_whole = 0;
}

static struct trace make_trace(void)
{
    uint8_t bytes[FRAMES * (RECORDS * 31 + 8)];
    struct trace t = {.count = below(FRAMES + 1), .is_whole = 1};

    for (size_t i = 0; i < t.count; i++)
        t.used = put_frame(bytes, t.used, &t.frames[i]);
    t.length = below(100) == 0 ? LILIVREZ_BUFFER_BYTES + below(2) : below(3) == 0 ? t.used : t.used + below(50);
    t.is_whole = t.length <= LILIVREZ_BUFFER_BYTES;
    t.buffer = slice(buffers, t.length);
    make_bytes(t.buffer, t.length);
    if (t.used > 0)
        memcpy(t.buffer, bytes, t.used);
    if (below(2) == 0)
        damage(&t);
    return t;
}

static void check_offset(const struct trace *t, uint32_t number, uint64_t offset)
{
    CHECK(number == 15 || (22 <= number && number <= 25));
    CHECK((number == 15) == (t->length > LILIVREZ_BUFFER_BYTES || t->used > t->length));
    if (number == LILIVREZ_REFUSED_BUFFER_BAD || number == LILIVREZ_REFUSED_NO_SUCH_FRAME)
        CHECK(offset == 0);
    else
        CHECK(offset <= t->used);
}

static struct lilivrez_trace trace_of(const struct trace *t)
{
    struct lilivrez_trace trace = {.buffer = t->buffer, .length = t->length, .used = t->used};

    return trace;
}

static uint32_t check_walk(const struct trace *t, size_t place, uint64_t told[LILIVREZ_WALK_PLACES])
{
    uint64_t *out = slice(outs, LILIVREZ_WALK_PLACES * sizeof out[0]);

    memset(out, 0xa5, LILIVREZ_WALK_PLACES * sizeof out[0]);
    uint32_t number = lilivrez_walk(t->buffer, t->length, place, out);
    memcpy(told, out, LILIVREZ_WALK_PLACES * sizeof out[0]);
    struct lilivrez_trace trace = trace_of(t);
    size_t mine = place;
    struct lilivrez_frame f = lilivrez_walk_in(&trace, &mine);
    CHECK(f.refusal == number && f.offset == out[LILIVREZ_WALK_OFFSET] && f.tracepoint == out[LILIVREZ_WALK_TRACEPOINT]);
    CHECK(f.start == out[LILIVREZ_WALK_START] && f.length == out[LILIVREZ_WALK_LENGTH] && mine == out[LILIVREZ_WALK_NEXT]);
    if (number == LILIVREZ_NOT_REFUSED) {
        CHECK(out[LILIVREZ_WALK_OFFSET] == 0 && out[LILIVREZ_WALK_NEXT] == out[LILIVREZ_WALK_START]);
        CHECK(out[LILIVREZ_WALK_START] + out[LILIVREZ_WALK_LENGTH] + 8 == place);
        CHECK(number_at(t->buffer + place - 8, 2) == 0x46 && number_at(t->buffer + place - 6, 2) == out[LILIVREZ_WALK_TRACEPOINT]);
        CHECK(number_at(t->buffer + place - 4, 4) == out[LILIVREZ_WALK_LENGTH]);
        return number;
    }
    check_offset(t, number, out[LILIVREZ_WALK_OFFSET]);
    CHECK(number != LILIVREZ_REFUSED_RECORD_BROKEN && number != LILIVREZ_REFUSED_NO_SUCH_RECORD);
    CHECK((number == LILIVREZ_REFUSED_NO_SUCH_FRAME) == (place == 0 && t->length <= LILIVREZ_BUFFER_BYTES));
    CHECK(number != LILIVREZ_REFUSED_TRAILER_BROKEN || out[LILIVREZ_WALK_OFFSET] == place);
    CHECK(out[LILIVREZ_WALK_TRACEPOINT] == 0 && out[LILIVREZ_WALK_START] == 0 && out[LILIVREZ_WALK_LENGTH] == 0);
    CHECK(out[LILIVREZ_WALK_NEXT] == place);
    return number;
}

static uint32_t check_locate(const struct trace *t, uint64_t frame, uint64_t told[LILIVREZ_LOCATE_PLACES])
{
    uint64_t *out = slice(outs, LILIVREZ_LOCATE_PLACES * sizeof out[0]);

    memset(out, 0xa5, LILIVREZ_LOCATE_PLACES * sizeof out[0]);
    uint32_t number = lilivrez_locate(t->buffer, t->length, t->used, frame, out);
    memcpy(told, out, LILIVREZ_LOCATE_PLACES * sizeof out[0]);
    struct lilivrez_trace trace = trace_of(t);
    struct lilivrez_frame f = lilivrez_locate_in(&trace, frame);
    CHECK(f.refusal == number && f.offset == out[LILIVREZ_LOCATE_OFFSET] && f.tracepoint == out[LILIVREZ_LOCATE_TRACEPOINT]);
    CHECK(f.start == out[LILIVREZ_LOCATE_START] && f.length == out[LILIVREZ_LOCATE_LENGTH]);
    if (number == LILIVREZ_NOT_REFUSED) {
        CHECK(out[LILIVREZ_LOCATE_OFFSET] == 0);
        return number;
    }
    check_offset(t, number, out[LILIVREZ_LOCATE_OFFSET]);
    CHECK(number != LILIVREZ_REFUSED_RECORD_BROKEN && number != LILIVREZ_REFUSED_NO_SUCH_RECORD);
    for (size_t i = 1; i < LILIVREZ_LOCATE_PLACES; i++)
        CHECK(out[i] == 0);
    return number;
}

static uint32_t check_count(const struct trace *t, uint64_t frame, uint64_t told[LILIVREZ_COUNT_PLACES])
{
    uint64_t *out = slice(outs, LILIVREZ_COUNT_PLACES * sizeof out[0]);

    memset(out, 0xa5, LILIVREZ_COUNT_PLACES * sizeof out[0]);
    uint32_t number = lilivrez_count(t->buffer, t->length, t->used, frame, out);
    memcpy(told, out, LILIVREZ_COUNT_PLACES * sizeof out[0]);
    struct lilivrez_trace trace = trace_of(t);
    struct lilivrez_counted c = lilivrez_count_in(&trace, frame);
    CHECK(c.refusal == number && c.offset == out[LILIVREZ_COUNT_OFFSET] && c.tracepoint == out[LILIVREZ_COUNT_TRACEPOINT]);
    CHECK(c.start == out[LILIVREZ_COUNT_START] && c.length == out[LILIVREZ_COUNT_LENGTH] && c.records == out[LILIVREZ_COUNT_RECORDS]);
    if (number == LILIVREZ_NOT_REFUSED) {
        CHECK(out[LILIVREZ_COUNT_OFFSET] == 0);
        return number;
    }
    check_offset(t, number, out[LILIVREZ_COUNT_OFFSET]);
    CHECK(number != LILIVREZ_REFUSED_NO_SUCH_RECORD);
    for (size_t i = 1; i < LILIVREZ_COUNT_PLACES; i++)
        CHECK(out[i] == 0);
    return number;
}

/* What the calls by name tell of a record: `told` are the four numbers from the kind on. */
static void check_told(const struct trace *t, struct lilivrez_record_read r, const uint64_t told[4])
{
    int is_memory = told[0] == LILIVREZ_RECORD_MEMORY, is_variable = told[0] == LILIVREZ_RECORD_VARIABLE;

    CHECK(r.kind == told[0] && r.address == (is_memory ? told[1] : 0));
    CHECK(r.bytes == (is_memory ? t->buffer + told[3] : NULL) && r.length == (is_memory ? told[2] : 0));
    CHECK(r.variable == (is_variable ? told[1] : 0) && r.value == (is_variable ? told[2] : 0));
}

static uint32_t check_read(const struct trace *t, uint64_t frame, uint64_t index, uint64_t told[LILIVREZ_READ_PLACES])
{
    uint64_t *out = slice(outs, LILIVREZ_READ_PLACES * sizeof out[0]);

    memset(out, 0xa5, LILIVREZ_READ_PLACES * sizeof out[0]);
    uint32_t number = lilivrez_read(t->buffer, t->length, t->used, frame, index, out);
    memcpy(told, out, LILIVREZ_READ_PLACES * sizeof out[0]);
    struct lilivrez_trace trace = trace_of(t);
    struct lilivrez_record_read r = lilivrez_read_in(&trace, frame, index);
    CHECK(r.refusal == number && r.offset == out[LILIVREZ_READ_OFFSET] && r.tracepoint == out[LILIVREZ_READ_TRACEPOINT]);
    check_told(t, r, out + LILIVREZ_READ_KIND);
    CHECK(number < REFUSALS);
    met_reading[number]++;
    if (number == LILIVREZ_NOT_REFUSED) {
        CHECK(out[LILIVREZ_READ_OFFSET] == 0);
        return number;
    }
    check_offset(t, number, out[LILIVREZ_READ_OFFSET]);
    for (size_t i = 1; i < LILIVREZ_READ_PLACES; i++)
        CHECK(out[i] == 0);
    return number;
}

static uint32_t check_next(const struct trace *t, size_t end, size_t place, uint64_t told[LILIVREZ_NEXT_RECORD_PLACES])
{
    uint64_t *out = slice(outs, LILIVREZ_NEXT_RECORD_PLACES * sizeof out[0]);

    memset(out, 0xa5, LILIVREZ_NEXT_RECORD_PLACES * sizeof out[0]);
    uint32_t number = lilivrez_next_record(t->buffer, t->length, end, place, out);
    memcpy(told, out, LILIVREZ_NEXT_RECORD_PLACES * sizeof out[0]);
    struct lilivrez_trace trace = trace_of(t);
    struct lilivrez_frame f = {.tracepoint = 7, .start = end / 2, .length = end - end / 2};
    size_t mine = place;
    struct lilivrez_record_read r = lilivrez_next_record_in(&trace, &f, &mine);
    CHECK(r.refusal == number && r.offset == out[LILIVREZ_NEXT_RECORD_OFFSET] && r.tracepoint == (number == 0 ? 7 : 0));
    CHECK(mine == out[LILIVREZ_NEXT_RECORD_NEXT]);
    check_told(t, r, out + LILIVREZ_NEXT_RECORD_KIND);
    CHECK(number < REFUSALS);
    met_next[number]++;
    CHECK((number == LILIVREZ_REFUSED_BUFFER_BAD) == (t->length > LILIVREZ_BUFFER_BYTES || end > t->length));
    if (number == LILIVREZ_NOT_REFUSED) {
        CHECK(out[LILIVREZ_NEXT_RECORD_OFFSET] == 0);
        CHECK(place < out[LILIVREZ_NEXT_RECORD_NEXT] && out[LILIVREZ_NEXT_RECORD_NEXT] <= end);
        return number;
    }
    if (number != LILIVREZ_REFUSED_BUFFER_BAD)
        CHECK(number == (end <= place ? LILIVREZ_REFUSED_NO_SUCH_RECORD : LILIVREZ_REFUSED_RECORD_BROKEN));
    CHECK(out[LILIVREZ_NEXT_RECORD_OFFSET] == (number == LILIVREZ_REFUSED_BUFFER_BAD ? 0 : place));
    for (size_t i = 1; i < LILIVREZ_NEXT_RECORD_NEXT; i++)
        CHECK(out[i] == 0);
    CHECK(out[LILIVREZ_NEXT_RECORD_NEXT] == place);
    return number;
}

/* From one place to the next, up to a refusal, which is told. Returns the number of records. */
static uint64_t check_steps(const struct trace *t, size_t start, size_t end, uint32_t *refused, uint64_t *offset)
{
    uint64_t step[LILIVREZ_NEXT_RECORD_PLACES], records = 0;
    size_t place = start;

    while ((*refused = check_next(t, end, place, step)) == LILIVREZ_NOT_REFUSED) {
        place = (size_t)step[LILIVREZ_NEXT_RECORD_NEXT];
        records++;
    }
    *offset = step[LILIVREZ_NEXT_RECORD_OFFSET];
    return records;
}

/* Any numbers at all, and places within and around the buffer. */
static void check_any_step(const struct trace *t)
{
    uint64_t step[LILIVREZ_NEXT_RECORD_PLACES];
    size_t end = below(8) == 0 ? (size_t)any() : below(t->length + 3), place = below(8) == 0 ? (size_t)any() : below(t->length + 3);

    check_next(t, end, place, step);
}

/*
 * The records of a frame follow each other from its start to its trailer, for the walk over them too. `told` is what
 * was stored of the frame's count.
 */
static void check_records(const struct trace *t, uint64_t frame, const uint64_t told[LILIVREZ_COUNT_PLACES])
{
    uint64_t out[LILIVREZ_READ_PLACES], step[LILIVREZ_NEXT_RECORD_PLACES];
    size_t at = (size_t)told[LILIVREZ_COUNT_START], end = at + (size_t)told[LILIVREZ_COUNT_LENGTH];

    for (uint64_t i = 0; i < told[LILIVREZ_COUNT_RECORDS]; i++) {
        const uint8_t *p = t->buffer + at;
        CHECK(check_read(t, frame, i, out) == LILIVREZ_NOT_REFUSED);
        CHECK(out[LILIVREZ_READ_TRACEPOINT] == told[LILIVREZ_COUNT_TRACEPOINT]);
        CHECK(check_next(t, end, at, step) == LILIVREZ_NOT_REFUSED);
        CHECK(memcmp(out + LILIVREZ_READ_KIND, step + LILIVREZ_NEXT_RECORD_KIND, 4 * sizeof out[0]) == 0);
        if (out[LILIVREZ_READ_KIND] == LILIVREZ_RECORD_MEMORY) {
            CHECK(11 < end - at && p[0] == 0x4d && number_at(p + 1, 8) == out[LILIVREZ_READ_ADDRESS]);
            CHECK(number_at(p + 9, 2) == out[LILIVREZ_READ_LENGTH] && out[LILIVREZ_READ_LENGTH] >= 1);
            CHECK(out[LILIVREZ_READ_INDEX] == at + 11);
            at += 11 + (size_t)out[LILIVREZ_READ_LENGTH];
        } else {
            CHECK(out[LILIVREZ_READ_KIND] == LILIVREZ_RECORD_VARIABLE && out[LILIVREZ_READ_INDEX] == 0);
            CHECK(13 <= end - at && p[0] == 0x56 && number_at(p + 1, 4) == out[LILIVREZ_READ_VARIABLE]);
            CHECK(out[LILIVREZ_READ_VARIABLE] < LILIVREZ_VARIABLES && number_at(p + 5, 8) == out[LILIVREZ_READ_VALUE]);
            at += 13;
        }
        CHECK(at <= end && step[LILIVREZ_NEXT_RECORD_NEXT] == at);
    }
    CHECK(at == end && check_next(t, end, at, step) == LILIVREZ_REFUSED_NO_SUCH_RECORD);
    CHECK(check_read(t, frame, told[LILIVREZ_COUNT_RECORDS] + below(2) * (any() >> 1), out) == LILIVREZ_REFUSED_NO_SUCH_RECORD);
    CHECK(out[LILIVREZ_READ_OFFSET] == told[LILIVREZ_COUNT_START]);
}

/* Locating, counting and reading agree with the step that found the frame: `step` is what it stored. */
static void check_frame(const struct trace *t, uint64_t frame, const uint64_t step[LILIVREZ_WALK_PLACES])
{
    uint64_t found[LILIVREZ_LOCATE_PLACES], told[LILIVREZ_COUNT_PLACES], out[LILIVREZ_READ_PLACES], broken;

    CHECK(check_locate(t, frame, found) == LILIVREZ_NOT_REFUSED && found[LILIVREZ_LOCATE_TRACEPOINT] == step[LILIVREZ_WALK_TRACEPOINT]);
    CHECK(found[LILIVREZ_LOCATE_START] == step[LILIVREZ_WALK_START] && found[LILIVREZ_LOCATE_LENGTH] == step[LILIVREZ_WALK_LENGTH]);
    uint32_t number = check_count(t, frame, told);
    if (number == LILIVREZ_REFUSED_RECORD_BROKEN) {
        uint64_t offset = told[LILIVREZ_COUNT_OFFSET];
        CHECK(step[LILIVREZ_WALK_START] <= offset && offset < step[LILIVREZ_WALK_START] + step[LILIVREZ_WALK_LENGTH]);
        CHECK(check_read(t, frame, below(6), out) == number && out[LILIVREZ_READ_OFFSET] == offset);
        check_steps(t, (size_t)step[LILIVREZ_WALK_START], (size_t)(step[LILIVREZ_WALK_START] + step[LILIVREZ_WALK_LENGTH]), &number, &broken);
        CHECK(number == LILIVREZ_REFUSED_RECORD_BROKEN && broken == offset);
        return;
    }
    CHECK(number == LILIVREZ_NOT_REFUSED);
    CHECK(told[LILIVREZ_COUNT_TRACEPOINT] == step[LILIVREZ_WALK_TRACEPOINT]);
    CHECK(told[LILIVREZ_COUNT_START] == step[LILIVREZ_WALK_START] && told[LILIVREZ_COUNT_LENGTH] == step[LILIVREZ_WALK_LENGTH]);
    check_records(t, frame, told);
    if (t->is_whole) {
        CHECK(frame < t->count);
        const struct written *w = &t->frames[t->count - 1 - frame];
        CHECK(told[LILIVREZ_COUNT_START] == w->start && told[LILIVREZ_COUNT_LENGTH] == w->length);
        CHECK(told[LILIVREZ_COUNT_RECORDS] == w->records && told[LILIVREZ_COUNT_TRACEPOINT] == w->tracepoint);
    }
}

/* Walks to the end. Every frame from there on is refused as the last step was. */
static void check_frames(void)
{
    struct trace t = make_trace();
    uint64_t step[LILIVREZ_WALK_PLACES], found[LILIVREZ_LOCATE_PLACES], told[LILIVREZ_COUNT_PLACES], out[LILIVREZ_READ_PLACES], frame = 0;
    size_t place = t.used;
    uint32_t number;

    if (t.length > 0)
        memcpy(befores.first, t.buffer, t.length);
    while ((number = check_walk(&t, place, step)) == LILIVREZ_NOT_REFUSED) {
        check_frame(&t, frame, step);
        place = (size_t)step[LILIVREZ_WALK_NEXT];
        frame++;
    }
    if (t.is_whole)
        CHECK(number == LILIVREZ_REFUSED_NO_SUCH_FRAME && frame == t.count);
    frame += below(2) * (any() >> 1);
    CHECK(check_locate(&t, frame, found) == number && found[LILIVREZ_LOCATE_OFFSET] == step[LILIVREZ_WALK_OFFSET]);
    CHECK(check_count(&t, frame, told) == number && told[LILIVREZ_COUNT_OFFSET] == step[LILIVREZ_WALK_OFFSET]);
    CHECK(check_read(&t, frame, any(), out) == number && out[LILIVREZ_READ_OFFSET] == step[LILIVREZ_WALK_OFFSET]);
    check_any_step(&t);
    CHECK(t.length == 0 || memcmp(t.buffer, befores.first, t.length) == 0);
}

/* ---- everything empty, and every pointer NULL that may be */
static void check_empty(void)
{
    static const uint8_t end[] = {0x27};
    uint64_t told[LILIVREZ_VERIFY_PLACES], found[LILIVREZ_FETCH_PLACES], out[LILIVREZ_RUN_PLACES], variables[LILIVREZ_VARIABLES] = {0};

    CHECK(check_verify(NULL, 0, told) == LILIVREZ_REFUSED_EXPRESSION_SIZE);
    CHECK(lilivrez_fetch(0, NULL, 0, 0, NULL, 0, 0, 0, found) == LILIVREZ_NOT_REFUSED && found[LILIVREZ_FETCH_SPAN] == LILIVREZ_SPAN_NONE);
    CHECK(lilivrez_fetch(0, NULL, 0, 0, NULL, 0, 0, 1, found) == LILIVREZ_REFUSED_RANGE_NOT_READABLE);
    CHECK(lilivrez_run(NULL, 0, NULL, 0, 0, NULL, 0, 0, NULL, 0, variables, NULL, 0, 0, 0, 0, out) == LILIVREZ_REFUSED_EXPRESSION_SIZE);
    CHECK(lilivrez_run(end, 1, NULL, 0, 0, NULL, 0, 0, NULL, 0, variables, NULL, 0, 0, 0, 0, out) == LILIVREZ_REFUSED_ALLOWANCE_SPENT);
    CHECK(lilivrez_run_default(end, 1, NULL, 0, 0, NULL, 0, 0, NULL, 0, variables, NULL, 0, 0, 0, out) == LILIVREZ_REFUSED_BUFFER_FULL);
    CHECK(lilivrez_run_default(end, 1, NULL, 0, 0, NULL, 0, 0, NULL, 0, variables, NULL, 0, 1, 0, out) == LILIVREZ_REFUSED_BUFFER_BAD);
}

static void check_empty_buffer(void)
{
    uint64_t read[LILIVREZ_READ_PLACES], counted[LILIVREZ_COUNT_PLACES], found[LILIVREZ_LOCATE_PLACES], step[LILIVREZ_WALK_PLACES];

    CHECK(lilivrez_read(NULL, 0, 0, 0, 0, read) == LILIVREZ_REFUSED_NO_SUCH_FRAME);
    CHECK(lilivrez_count(NULL, 0, 0, 0, counted) == LILIVREZ_REFUSED_NO_SUCH_FRAME);
    CHECK(lilivrez_locate(NULL, 0, 0, 0, found) == LILIVREZ_REFUSED_NO_SUCH_FRAME);
    CHECK(lilivrez_walk(NULL, 0, 0, step) == LILIVREZ_REFUSED_NO_SUCH_FRAME && step[LILIVREZ_WALK_NEXT] == 0);
    CHECK(lilivrez_read(NULL, 0, 1, 0, 0, read) == LILIVREZ_REFUSED_BUFFER_BAD);
    CHECK(lilivrez_count(NULL, 0, 1, 0, counted) == LILIVREZ_REFUSED_BUFFER_BAD);
    CHECK(lilivrez_locate(NULL, 0, 1, 0, found) == LILIVREZ_REFUSED_BUFFER_BAD);
    CHECK(lilivrez_walk(NULL, 0, 1, step) == LILIVREZ_REFUSED_BUFFER_BAD && step[LILIVREZ_WALK_NEXT] == 1);
    CHECK(lilivrez_next_record(NULL, 0, 0, 0, read) == LILIVREZ_REFUSED_NO_SUCH_RECORD && read[LILIVREZ_NEXT_RECORD_NEXT] == 0);
    CHECK(lilivrez_next_record(NULL, 0, 0, SIZE_MAX, read) == LILIVREZ_REFUSED_NO_SUCH_RECORD && read[LILIVREZ_NEXT_RECORD_NEXT] == SIZE_MAX);
    CHECK(lilivrez_next_record(NULL, 0, 1, 0, read) == LILIVREZ_REFUSED_BUFFER_BAD && read[LILIVREZ_NEXT_RECORD_NEXT] == 0);
}

/* Prints how often each number was met; one that may be met and was not is a failure of this test. */
static int report(const char *what, const unsigned long *counts, const uint32_t *numbers, size_t n)
{
    int is_met = 1;

    printf("tests/boundary: %s by refusal:", what);
    for (size_t i = 0; i < n; i++)
        printf(" %" PRIu32 ":%lu", numbers[i], counts[numbers[i]]);
    printf("\n");
    for (size_t i = 0; i < n; i++) {
        if (counts[numbers[i]] == 0) {
            fprintf(stderr, "tests/boundary: %s: none with %" PRIu32 ": try more cases\n", what, numbers[i]);
            is_met = 0;
        }
    }
    return is_met;
}

int main(int count, char **words)
{
    unsigned long cases = count > 1 ? strtoul(words[1], NULL, 10) : 100000;
    static const uint32_t of_runs[] = {0, 1, 2, 3, 4, 5, 6, 7, 8, 9, 10, 11, 12, 13, 14, 15, 16, 17, 18, 19, 20, 21};
    static const uint32_t of_conditions[] = {0, 12, 13, 14, 17, 18, 19, 20, 21}, of_readings[] = {0, 15, 22, 23, 24, 25}, of_next[] = {0, 15, 23, 25};
    struct room *rooms[] = {&expressions, &registers, &images, &works, &buffers, &befores, &arrays, &outs};

    for (size_t i = 0; i < sizeof rooms / sizeof rooms[0]; i++)
        *rooms[i] = new_room();
    CHECK(lilivrez_verifier_version() == LILIVREZ_VERSION_NUMBER);
    CHECK(lilivrez_agent_version() == LILIVREZ_VERSION_NUMBER && lilivrez_frames_version() == LILIVREZ_VERSION_NUMBER);
    check_empty();
    check_empty_buffer();
    for (unsigned long i = 0; i < cases; i++) {
        check_runs();
        check_fetch();
        check_frames();
    }
    printf("tests/boundary: %lu cases of running, fetching and reading as expected\n", cases);
    int is_met = report("runs", met, of_runs, sizeof of_runs / sizeof of_runs[0]);
    is_met &= report("conditions", evaluated, of_conditions, sizeof of_conditions / sizeof of_conditions[0]);
    is_met &= report("readings", met_reading, of_readings, sizeof of_readings / sizeof of_readings[0]);
    return report("steps over records", met_next, of_next, sizeof of_next / sizeof of_next[0]) && is_met ? 0 : 1;
}

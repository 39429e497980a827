// Document 01 by hand, for speed: one switch, a static table of rows, no heap. What the verifier promises is not tested
// again.
#include "agent.h"

#include <stdbool.h>
#include <string.h>

// The same source by two compilers: gcc_verify, clang_verify and so on.
#ifdef __clang__
#define AGENT(function) clang_##function
#else
#define AGENT(function) gcc_##function
#endif
verify_function AGENT(verify);
run_function AGENT(run);
fetch_function AGENT(fetch);
read_function AGENT(read);
walk_function AGENT(walk);
next_record_function AGENT(next_record);

enum { MOST_BYTES = 1024, DEPTH = 64, VARIABLES = 64, MOST_JUMPS = MOST_BYTES / 3 };
enum { MEMORY_MARK = 0x4d, VARIABLE_MARK = 0x56, TRAILER_MARK = 0x46 };
enum { MEMORY_HEAD = 11, VARIABLE_SIZE = 13, TRAILER_SIZE = 8, MOST_RECORDED = 65535 };

// ---- the instruction table

enum kind { UNKNOWN, UNSUPPORTED, EXT, VARIABLE, PLAIN, PICK, GOTO, IF_GOTO, END };

struct row {
    uint8_t operands, needed, left, kind;
};

#define BINARY {0, 2, 1, PLAIN}
#define UNARY {0, 1, 1, PLAIN}
#define NONE {0, 0, 0, UNSUPPORTED}

// Opcodes that are not named are unknown.
static const struct row rows[256] = {
    [0x01] = NONE,
    [0x02] = BINARY, [0x03] = BINARY, [0x04] = BINARY, [0x05] = BINARY, [0x06] = BINARY,
    [0x07] = BINARY, [0x08] = BINARY, [0x09] = BINARY, [0x0a] = BINARY, [0x0b] = BINARY,
    [0x0c] = {0, 2, 0, PLAIN},
    [0x0d] = {1, 1, 1, PLAIN},
    [0x0e] = UNARY,
    [0x0f] = BINARY, [0x10] = BINARY, [0x11] = BINARY,
    [0x12] = UNARY,
    [0x13] = BINARY, [0x14] = BINARY, [0x15] = BINARY,
    [0x16] = {1, 1, 1, EXT},
    [0x17] = UNARY, [0x18] = UNARY, [0x19] = UNARY, [0x1a] = UNARY,
    [0x1b] = NONE, [0x1c] = NONE, [0x1d] = NONE, [0x1e] = NONE, [0x1f] = NONE,
    [0x20] = {2, 1, 0, IF_GOTO},
    [0x21] = {2, 0, 0, GOTO},
    [0x22] = {1, 0, 1, PLAIN}, [0x23] = {2, 0, 1, PLAIN}, [0x24] = {4, 0, 1, PLAIN}, [0x25] = {8, 0, 1, PLAIN},
    [0x26] = {2, 0, 1, PLAIN},
    [0x27] = {0, 0, 0, END},
    [0x28] = {0, 1, 2, PLAIN},
    [0x29] = {0, 1, 0, PLAIN},
    [0x2a] = {1, 1, 1, PLAIN},
    [0x2b] = {0, 2, 2, PLAIN},
    [0x2c] = {2, 0, 1, VARIABLE},
    [0x2d] = {2, 1, 1, VARIABLE},
    [0x2e] = {2, 0, 1, VARIABLE},
    [0x2f] = {0, 2, 0, PLAIN},
    [0x30] = {2, 1, 1, PLAIN},
    [0x32] = {1, 1, 2, PICK},
    [0x33] = {0, 3, 3, PLAIN},
    [0x34] = NONE,
};

// ---- numbers in bytes

static inline uint64_t big(const uint8_t *p, unsigned count)
{
    uint64_t number = 0;
    for (unsigned i = 0; i < count; i++)
        number = number << 8 | p[i];
    return number;
}

static inline uint64_t little(const uint8_t *p, unsigned count)
{
    uint64_t number = 0;
    for (unsigned i = 0; i < count; i++)
        number |= (uint64_t)p[i] << 8 * i;
    return number;
}

static inline void put_little(uint8_t *p, uint64_t number, unsigned count)
{
    for (unsigned i = 0; i < count; i++)
        p[i] = (uint8_t)(number >> 8 * i);
}

// ---- verifying

// By offset: no start, a start not reached, reached with two heights, or the height that jumps arrive with.
enum { NO_START = 255, UNREACHED = 254, DIFFERING = 253 };

struct tables {
    uint8_t heights[MOST_BYTES];
    uint16_t distances[MOST_BYTES]; // the longest way here by jumps, where the start is reached
    uint16_t starts[MOST_BYTES];    // in rising order
    uint16_t jumps[MOST_JUMPS];
    size_t jump_count;
};

struct verdict {
    uint32_t number;
    size_t offset;
    size_t count, greatest, longest;
};

static inline struct verdict refused(uint32_t number, size_t offset)
{
    return (struct verdict){.number = number, .offset = offset};
}

// The refusal of pass 1 where the instruction is unknown, unsupported, ext or one with a variable's number, or 0.
static inline uint32_t special_fault(const uint8_t *e, size_t length, size_t at, const struct row *row)
{
    if (row->kind == UNKNOWN)
        return 2;
    if (row->kind == UNSUPPORTED)
        return 3;
    if (length - at <= row->operands)
        return 4;
    return (row->kind == EXT ? e[at + 1] == 0 : big(e + at + 1, 2) >= VARIABLES) ? 5 : 0;
}

// Pass 1. Marks and lists the starts, and notes the jumps.
static inline struct verdict scan(const uint8_t *e, size_t length, struct tables *t)
{
    struct verdict v = {0};
    size_t at = 0;
    t->jump_count = 0;
    while (at < length) {
        const struct row *row = &rows[e[at]];
        if (row->kind < PLAIN) {
            uint32_t number = special_fault(e, length, at, row);
            if (number != 0)
                return refused(number, at);
        } else if (length - at <= row->operands) {
            return refused(4, at);
        } else if (row->kind == GOTO || row->kind == IF_GOTO) {
            t->jumps[t->jump_count++] = (uint16_t)at;
        }
        t->heights[at] = UNREACHED;
        t->starts[v.count++] = (uint16_t)at;
        at += 1 + row->operands;
    }
    return v;
}

// Pass 2.
static inline struct verdict aim(const uint8_t *e, size_t length, const struct tables *t)
{
    for (size_t i = 0; i < t->jump_count; i++) {
        size_t at = t->jumps[i];
        size_t target = big(e + at + 1, 2);
        if (target >= length || t->heights[target] == NO_START)
            return refused(6, at);
        if (target <= at)
            return refused(7, at);
    }
    return (struct verdict){0};
}

static inline void arrive(struct tables *t, size_t to, unsigned height, unsigned distance)
{
    if (t->heights[to] == UNREACHED) {
        t->heights[to] = (uint8_t)height;
        t->distances[to] = (uint16_t)distance;
        return;
    }
    if (t->heights[to] != height)
        t->heights[to] = DIFFERING;
    if (t->distances[to] < distance)
        t->distances[to] = (uint16_t)distance;
}

// Pass 3. Height and distance go along in registers; the tables hold what arrives by jumps.
static inline struct verdict measure(const uint8_t *e, struct tables *t, size_t count)
{
    struct verdict v = {.count = count};
    unsigned height = 0, distance = 0;
    bool flows = true; // whether the start before leads here
    for (size_t i = 0; i < count; i++) {
        size_t at = t->starts[i];
        const struct row *row = &rows[e[at]];
        if (t->heights[at] != UNREACHED) {
            if (t->heights[at] == DIFFERING || (flows && t->heights[at] != height))
                return refused(8, at);
            if (!flows || distance < t->distances[at])
                distance = t->distances[at];
            height = t->heights[at];
            flows = true;
        } else if (!flows) {
            continue;
        }
        if (height < row->needed + (row->kind == PICK ? e[at + 1] : 0u))
            return refused(9, at);
        height = height - row->needed + row->left;
        if (height > DEPTH)
            return refused(10, at);
        if (v.greatest < height)
            v.greatest = height;
        distance++;
        if (row->kind == END) {
            if (v.longest < distance)
                v.longest = distance;
            flows = false;
            continue;
        }
        flows = row->kind != GOTO;
        if (flows && i + 1 == count)
            return refused(11, at);
        if (row->kind >= GOTO)
            arrive(t, big(e + at + 1, 2), height, distance);
    }
    return v;
}

static struct verdict verify(const uint8_t *e, size_t length)
{
    if (length == 0 || length > MOST_BYTES)
        return refused(1, 0);
    struct tables t;
    memset(t.heights, NO_START, length);
    struct verdict v = scan(e, length, &t);
    if (v.number != 0)
        return v;
    struct verdict aimed = aim(e, length, &t);
    if (aimed.number != 0)
        return aimed;
    return measure(e, &t, v.count);
}

uint32_t AGENT(verify)(const uint8_t *expression, size_t length, uint64_t out[4])
{
    struct verdict v = verify(expression, length);
    out[0] = v.offset;
    out[1] = v.count;
    out[2] = v.greatest;
    out[3] = v.longest;
    return v.number;
}

// ---- target memory

struct span {
    uint64_t first;
    const uint8_t *bytes;
    uint64_t length;
};

static inline bool ends_past(struct span s)
{
    return s.length != 0 && UINT64_MAX - s.first < s.length - 1;
}

static inline bool share_address(struct span a, struct span b)
{
    if (a.length == 0 || b.length == 0)
        return false;
    return a.first <= b.first ? b.first - a.first < a.length : a.first - b.first < b.length;
}

static inline uint32_t bad_spans(const struct span spans[2])
{
    if (ends_past(spans[0]) || ends_past(spans[1]))
        return 12;
    if (share_address(spans[0], spans[1]))
        return 13;
    return 0;
}

uint32_t AGENT(fetch)(uint64_t image_first, const uint8_t *image, size_t image_length,
                      uint64_t work_first, const uint8_t *work, size_t work_length,
                      uint64_t address, uint64_t size, uint64_t out[2])
{
    const struct span spans[2] = {{image_first, image, image_length}, {work_first, work, work_length}};
    out[0] = out[1] = 0;
    uint32_t number = bad_spans(spans);
    if (number != 0 || size == 0)
        return number;
    for (int i = 0; i < 2; i++) {
        uint64_t at = address - spans[i].first;
        if (address >= spans[i].first && size <= spans[i].length && at <= spans[i].length - size) {
            out[0] = (uint64_t)i + 1;
            out[1] = at;
            return 0;
        }
    }
    return 19;
}

// The bytes from `address` to the end of the span that holds it, and how many; 0 where none does.
static inline const uint8_t *rest(const struct span spans[2], uint64_t address, uint64_t *count)
{
    for (int i = 0; i < 2; i++) {
        uint64_t at = address - spans[i].first; // wraps below the first address, to more than any length
        if (address >= spans[i].first && at < spans[i].length) {
            *count = spans[i].length - at;
            return spans[i].bytes + at;
        }
    }
    *count = 0;
    return NULL;
}

// ---- records: each writer answers 0 or a refusal's number

struct trace {
    uint8_t *put, *end; // the free part of the buffer
};

static inline uint32_t record_bytes(struct trace *t, uint64_t address, const uint8_t *bytes, size_t count)
{
    if ((size_t)(t->end - t->put) < MEMORY_HEAD + count)
        return 21;
    t->put[0] = MEMORY_MARK;
    put_little(t->put + 1, address, 8);
    put_little(t->put + 9, count, 2);
    memcpy(t->put + MEMORY_HEAD, bytes, count);
    t->put += MEMORY_HEAD + count;
    return 0;
}

static inline uint32_t record_range(struct trace *t, const struct span spans[2], uint64_t address, uint64_t size)
{
    uint64_t readable;
    if (size == 0)
        return 0;
    if (size > MOST_RECORDED)
        return 20;
    const uint8_t *bytes = rest(spans, address, &readable);
    if (readable < size)
        return 19;
    return record_bytes(t, address, bytes, size);
}

static inline uint32_t record_to_zero(struct trace *t, const struct span spans[2], uint64_t address, uint64_t size)
{
    uint64_t readable;
    if (size == 0)
        return 0;
    const uint8_t *bytes = rest(spans, address, &readable);
    uint64_t most = size < MOST_RECORDED ? size : MOST_RECORDED;
    uint64_t limit = most < readable ? most : readable;
    size_t count = 0;
    while (count < limit)
        if (bytes[count++] == 0)
            return record_bytes(t, address, bytes, count);
    if (readable < most)
        return 19;
    if (size > MOST_RECORDED)
        return 20;
    return record_bytes(t, address, bytes, count);
}

static inline uint32_t record_variable(struct trace *t, uint32_t number, uint64_t value)
{
    if (t->end - t->put < VARIABLE_SIZE)
        return 21;
    t->put[0] = VARIABLE_MARK;
    put_little(t->put + 1, number, 4);
    put_little(t->put + 5, value, 8);
    t->put += VARIABLE_SIZE;
    return 0;
}

static inline uint32_t close_frame(struct trace *t, uint16_t tracepoint, size_t length)
{
    if (t->end - t->put < TRAILER_SIZE)
        return 21;
    t->put[0] = TRAILER_MARK;
    t->put[1] = 0;
    put_little(t->put + 2, tracepoint, 2);
    put_little(t->put + 4, length, 4);
    t->put += TRAILER_SIZE;
    return 0;
}

// ---- running

static inline uint64_t divide(uint64_t a, uint64_t b)
{
    return b == UINT64_MAX ? 0 - a : (uint64_t)((int64_t)a / (int64_t)b); // by -1: the least number has no opposite
}

static inline uint64_t remainder_of(uint64_t a, uint64_t b)
{
    return b == UINT64_MAX ? 0 : (uint64_t)((int64_t)a % (int64_t)b);
}

static inline uint64_t extend(uint64_t a, unsigned n)
{
    return n >= 64 ? a : (uint64_t)((int64_t)(a << (64 - n)) >> (64 - n));
}

static inline uint64_t zero_extend(uint64_t a, unsigned n)
{
    return n >= 64 ? a : a & (((uint64_t)1 << n) - 1);
}

static inline uint32_t inputs(const struct span spans[2], size_t registers, size_t buffer, size_t used)
{
    uint32_t number = bad_spans(spans);
    if (number != 0)
        return number;
    if (registers > 256)
        return 14;
    if (buffer > 65536 || used > buffer)
        return 15;
    return 0;
}

// Leaves the loop with a refusal.
#define REFUSE(n) \
    do { \
        number = (n); \
        goto stopped; \
    } while (0)

// A writer's answer: on, or out.
#define TRY(call) \
    do { \
        number = (call); \
        if (number != 0) \
            goto stopped; \
    } while (0)

#define REF(count) \
    do { \
        uint64_t readable; \
        const uint8_t *bytes = rest(spans, top[0], &readable); \
        if (readable < (count)) \
            REFUSE(19); \
        top[0] = little(bytes, (count)); \
        pc += 1; \
    } while (0)

// `top` is the topmost cell; the cell below the lowest is there so that an empty stack has a place to point to.
#define TWO_TO_ONE(value) \
    do { \
        uint64_t a = top[-1], b = top[0]; \
        *--top = (value); \
        pc += 1; \
    } while (0)

uint32_t AGENT(run)(const uint8_t *expression, size_t length, const uint64_t *registers, size_t register_count,
                    uint64_t image_first, const uint8_t *image, size_t image_length,
                    uint64_t work_first, const uint8_t *work, size_t work_length,
                    uint64_t variables[64], uint8_t *buffer, size_t buffer_length, size_t used,
                    uint16_t tracepoint, uint64_t allowance, uint64_t out[6])
{
    memset(out, 0, 6 * sizeof out[0]);
    out[2] = used;
    struct verdict v = verify(expression, length);
    if (v.number != 0) {
        out[0] = v.offset;
        return v.number;
    }
    const struct span spans[2] = {{image_first, image, image_length}, {work_first, work, work_length}};
    uint32_t number = inputs(spans, register_count, buffer_length, used);
    if (number != 0)
        return number;

    uint64_t own[VARIABLES];
    memcpy(own, variables, sizeof own);
    uint64_t cells[DEPTH + 1];
    uint64_t *top = cells;
    const uint8_t *pc = expression;
    struct trace t = {buffer + used, buffer + buffer_length};
    uint64_t steps = 0;

    for (; steps < allowance; steps++) {
        switch (*pc) {
        case 0x02: TWO_TO_ONE(a + b); break;
        case 0x03: TWO_TO_ONE(a - b); break;
        case 0x04: TWO_TO_ONE(a * b); break;
        case 0x05: if (*top == 0) REFUSE(17); TWO_TO_ONE(divide(a, b)); break;
        case 0x06: if (*top == 0) REFUSE(17); TWO_TO_ONE(a / b); break;
        case 0x07: if (*top == 0) REFUSE(17); TWO_TO_ONE(remainder_of(a, b)); break;
        case 0x08: if (*top == 0) REFUSE(17); TWO_TO_ONE(a % b); break;
        case 0x09: TWO_TO_ONE(b < 64 ? a << b : 0); break;
        case 0x0a: TWO_TO_ONE((uint64_t)((int64_t)a >> (b < 64 ? b : 63))); break;
        case 0x0b: TWO_TO_ONE(b < 64 ? a >> b : 0); break;
        case 0x0c: TRY(record_range(&t, spans, top[-1], top[0])); top -= 2; pc += 1; break;
        case 0x0d: TRY(record_range(&t, spans, top[0], pc[1])); pc += 2; break;
        case 0x0e: *top = *top == 0; pc += 1; break;
        case 0x0f: TWO_TO_ONE(a & b); break;
        case 0x10: TWO_TO_ONE(a | b); break;
        case 0x11: TWO_TO_ONE(a ^ b); break;
        case 0x12: *top = ~*top; pc += 1; break;
        case 0x13: TWO_TO_ONE(a == b); break;
        case 0x14: TWO_TO_ONE((int64_t)a < (int64_t)b); break;
        case 0x15: TWO_TO_ONE(a < b); break;
        case 0x16: *top = extend(*top, pc[1]); pc += 2; break;
        case 0x17: REF(1); break;
        case 0x18: REF(2); break;
        case 0x19: REF(4); break;
        case 0x1a: REF(8); break;
        case 0x20: pc = *top-- != 0 ? expression + big(pc + 1, 2) : pc + 3; break;
        case 0x21: pc = expression + big(pc + 1, 2); break;
        case 0x22: *++top = big(pc + 1, 1); pc += 2; break;
        case 0x23: *++top = big(pc + 1, 2); pc += 3; break;
        case 0x24: *++top = big(pc + 1, 4); pc += 5; break;
        case 0x25: *++top = big(pc + 1, 8); pc += 9; break;
        case 0x26: {
            size_t n = big(pc + 1, 2);
            if (n >= register_count)
                REFUSE(18);
            *++top = registers[n];
            pc += 3;
            break;
        }
        case 0x27:
            TRY(close_frame(&t, tracepoint, (size_t)(t.put - buffer) - used));
            memcpy(variables, own, sizeof own);
            out[1] = steps + 1;
            out[2] = (size_t)(t.put - buffer);
            out[3] = top - cells < 2 ? (uint64_t)(top - cells) : 2;
            out[4] = top - cells >= 1 ? top[0] : 0;
            out[5] = top - cells >= 2 ? top[-1] : 0;
            return 0;
        case 0x28: top[1] = top[0]; top++; pc += 1; break;
        case 0x29: top--; pc += 1; break;
        case 0x2a: *top = zero_extend(*top, pc[1]); pc += 2; break;
        case 0x2b: {
            uint64_t b = top[0];
            top[0] = top[-1];
            top[-1] = b;
            pc += 1;
            break;
        }
        case 0x2c: *++top = own[big(pc + 1, 2)]; pc += 3; break;
        case 0x2d: own[big(pc + 1, 2)] = *top; pc += 3; break;
        case 0x2e: {
            size_t n = big(pc + 1, 2);
            TRY(record_variable(&t, (uint32_t)n, own[n]));
            *++top = own[n];
            pc += 3;
            break;
        }
        case 0x2f: TRY(record_to_zero(&t, spans, top[-1], top[0])); top -= 2; pc += 1; break;
        case 0x30: TRY(record_range(&t, spans, top[0], big(pc + 1, 2))); pc += 3; break;
        case 0x32: top[1] = top[-(ptrdiff_t)pc[1]]; top++; pc += 2; break;
        case 0x33: {
            uint64_t a = top[-2], b = top[-1], c = top[0];
            top[-2] = c;
            top[-1] = a;
            top[0] = b;
            pc += 1;
            break;
        }
        default: REFUSE(2); // the verifier has refused it
        }
    }
    number = 16;
stopped:
    out[0] = (size_t)(pc - expression);
    out[1] = steps;
    return number;
}

// ---- reading frames

struct frame {
    uint16_t tracepoint;
    size_t start, length;
};

// The frame that ends at `end`.
static inline uint32_t frame_before(const uint8_t *buffer, size_t end, struct frame *f)
{
    if (end == 0)
        return 24;
    if (end < TRAILER_SIZE)
        return 22;
    const uint8_t *trailer = buffer + end - TRAILER_SIZE;
    if (trailer[0] != TRAILER_MARK || trailer[1] != 0)
        return 22;
    f->length = little(trailer + 4, 4);
    if (f->length > end - TRAILER_SIZE)
        return 22;
    f->tracepoint = (uint16_t)little(trailer + 2, 2);
    f->start = end - TRAILER_SIZE - f->length;
    return 0;
}

uint32_t AGENT(walk)(const uint8_t *buffer, size_t length, size_t end, uint64_t out[5])
{
    memset(out, 0, 5 * sizeof out[0]);
    out[4] = end;
    if (length > 65536 || end > length)
        return 15;
    struct frame f;
    uint32_t number = frame_before(buffer, end, &f);
    if (number != 0) {
        out[0] = end;
        return number;
    }
    out[1] = f.tracepoint;
    out[2] = f.start;
    out[3] = f.length;
    out[4] = f.start;
    return 0;
}

// The size of the record at `p`, of which `left` bytes are there; 0 where it is broken.
static inline size_t record_size(const uint8_t *p, size_t left)
{
    if (p[0] == MEMORY_MARK && left >= MEMORY_HEAD) {
        size_t count = little(p + 9, 2);
        return count != 0 && count <= left - MEMORY_HEAD ? MEMORY_HEAD + count : 0;
    }
    if (p[0] == VARIABLE_MARK && left >= VARIABLE_SIZE)
        return little(p + 1, 4) < VARIABLES ? VARIABLE_SIZE : 0;
    return 0;
}

// The frame with that number, counted from the newest; `end` is left where the frame ends, or where none is.
static inline uint32_t find_frame(const uint8_t *buffer, size_t *end, uint64_t frame, struct frame *f)
{
    for (;; *end = f->start) {
        uint32_t number = frame_before(buffer, *end, f);
        if (number != 0 || frame-- == 0)
            return number;
    }
}

// The offset of the record with that number; the frame's end where there is none, and *broken at a broken record.
static inline size_t find_record(const uint8_t *buffer, const struct frame *f, uint64_t record, bool *broken)
{
    size_t stop = f->start + f->length, chosen = stop;
    uint64_t passed = 0;
    for (size_t at = f->start; at < stop; passed++) {
        size_t size = record_size(buffer + at, stop - at);
        if (size == 0) {
            *broken = true;
            return at;
        }
        if (passed == record)
            chosen = at;
        at += size;
    }
    return chosen;
}

// Kind, address or number, length or value, place of the bytes: of the record that begins at `place`.
static inline void tell_record(const uint8_t *buffer, size_t place, uint64_t out[4])
{
    const uint8_t *p = buffer + place;
    bool is_memory = p[0] == MEMORY_MARK;
    out[0] = is_memory ? 1 : 2;
    out[1] = is_memory ? little(p + 1, 8) : little(p + 1, 4);
    out[2] = is_memory ? little(p + 9, 2) : little(p + 5, 8);
    out[3] = is_memory ? place + MEMORY_HEAD : 0;
}

uint32_t AGENT(next_record)(const uint8_t *buffer, size_t length, size_t end, size_t place, uint64_t out[6])
{
    memset(out, 0, 6 * sizeof out[0]);
    out[5] = place;
    if (length > 65536 || end > length)
        return 15;
    size_t size = place < end ? record_size(buffer + place, end - place) : 0;
    if (size == 0) {
        out[0] = place;
        return place < end ? 23 : 25;
    }
    tell_record(buffer, place, out + 1);
    out[5] = place + size;
    return 0;
}

uint32_t AGENT(read)(const uint8_t *buffer, size_t length, size_t used, uint64_t frame, uint64_t record, uint64_t out[6])
{
    memset(out, 0, 6 * sizeof out[0]);
    if (length > 65536 || used > length)
        return 15;
    struct frame f;
    uint32_t number = find_frame(buffer, &used, frame, &f);
    if (number != 0) {
        out[0] = used;
        return number;
    }
    bool broken = false;
    size_t chosen = find_record(buffer, &f, record, &broken);
    if (broken || chosen == f.start + f.length) {
        out[0] = broken ? chosen : f.start;
        return broken ? 23 : 25;
    }
    out[1] = f.tracepoint;
    tell_record(buffer, chosen, out + 2);
    return 0;
}

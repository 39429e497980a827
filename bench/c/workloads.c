#include "workloads.h"

#include <stdbool.h>
#include <stdlib.h>
#include <string.h>

// ---- the scene: addresses that fit const16, and the stack frame and globals that GDB's expressions below read

enum { WORK = 0x1000, FRAME = 0x1400, SLICES = 0x1500, CHAIN = 0x2000, TEXT = 0x4000, TEXT_STEP = 48, TEXTS = 64 };

struct scene scene = {.image = {.first = 0x404000, .length = 4096}, .work = {.first = WORK, .length = 16384}};

static uint8_t *put_little(uint8_t *p, uint64_t number, int count)
{
    for (int i = 0; i < count; i++)
        *p++ = (uint8_t)(number >> 8 * i);
    return p;
}

static void poke(uint64_t address, uint64_t value, int size)
{
    struct memory *m = address >= scene.image.first ? &scene.image : &scene.work;
    put_little(m->bytes + (address - m->first), value, size);
}

// struct slice of ../gdb/scan.c
static void poke_slice(uint64_t at, uint64_t next)
{
    poke(at, 512, 4);           // width
    poke(at + 4, 512, 4);       // height
    poke(at + 8, 16, 2);        // depth
    poke(at + 10, 5, 1);        // flags
    poke(at + 12, 7, 4);        // origin.x
    poke(at + 24, 5000, 8);     // stamp
    poke(at + 32, next, 8);     // next
    poke(at + 40, TEXT, 8);     // name
    for (int i = 0; i < 8; i++)
        poke(at + 56 + 4 * (unsigned)i, 9, 4); // counts
}

void make_scene(void)
{
    static const char text[] = "half of the rows of a rebuilt slice, and a few m";
    for (int i = 0; i < 16; i++)
        scene.registers[i] = 0x0101010101010101u * (unsigned)i;
    for (int i = 0; i < 64; i++)
        scene.variables[i] = (uint64_t)i * i;
    scene.registers[6] = FRAME; // rbp
    poke(0x404010, 7, 4); // threshold
    poke(FRAME - 8, SLICES + 16, 8); // p
    poke(FRAME - 24, SLICES, 8);     // s
    poke(FRAME - 28, 2, 4);          // row
    poke(FRAME - 40, 100, 8);        // budget
    for (uint64_t i = 0; i < 4; i++)
        poke_slice(SLICES + 16 + 88 * i, SLICES + 16 + 88 * ((i + 1) % 4));
    for (uint64_t i = 0; i < 1023; i++)
        poke(CHAIN + 8 * i, CHAIN + 8 * (i + 1), 8);
    for (uint64_t i = 0; i < TEXTS; i++) {
        size_t size = 4 + i * 7 % 37;
        memcpy(scene.work.bytes + (TEXT - WORK) + i * TEXT_STEP, text, size);
    }
}

// ---- expressions

static void put(struct expression *e, const char *hex)
{
    for (; hex[0] != 0; hex += 2) {
        char pair[3] = {hex[0], hex[1], 0};
        e->bytes[e->length++] = (uint8_t)strtoul(pair, NULL, 16);
    }
}

static void put_number(struct expression *e, uint64_t number, int count)
{
    for (int i = count - 1; i >= 0; i--)
        e->bytes[e->length++] = (uint8_t)(number >> 8 * i);
}

static size_t room(const struct expression *e)
{
    return sizeof e->bytes - e->length;
}

static void start(struct expression *e, const char *name)
{
    e->name = name;
    e->scene = &scene;
    e->length = 0;
}

static void make_jumps(struct expression *e)
{
    while (room(e) >= 14) {
        put(e, "220120"); // taken, over the goto
        put_number(e, e->length + 5, 2);
        put(e, "21");
        put_number(e, e->length + 2, 2);
        put(e, "220020"); // not taken
        put_number(e, e->length + 2, 2);
    }
    put(e, "27");
}

static void make_tracenz(struct expression *e)
{
    for (unsigned i = 0; room(e) >= 7; i++) {
        put(e, "23");
        put_number(e, TEXT + i % TEXTS * TEXT_STEP, 2);
        put(e, "22402f");
    }
    put(e, "27");
}

// `first`, then `again` as often as it fits, then end.
static void repeat(struct expression *e, const char *first, const char *again)
{
    put(e, first);
    while (room(e) > strlen(again) / 2)
        put(e, again);
    put(e, "27");
}

// Compiled by GDB 13.1 over ../gdb/scan.c, `maint agent-eval -at scan.c:11, ..`:
//   p->width * p->height * p->depth > threshold && (p->flags & 4) != 0 && p->next->origin.x + row * 8 < p->next->width
//   && p->next->next->stamp - budget >= 1000 && s->slices[row].counts[2] == p->counts[row] && p->name[0] == 104
static const char condition[] =
    "26000622100222e81608021a19162026000622100222e81608021a22040219162004162026000622100222e81608021a22080218161004162024"
    "004040101916202b1420004921006b26000622100222e81608021a220a021722040f2200130e20006621006b220121006d22002000732100be26"
    "000622100222e81608021a2220021a220c0219162026000622100222d4160802191620220804162002162026000622100222e81608021a222002"
    "1a191620142000b92100be22012100c022002000c621010126000622100222e81608021a2220021a2220021a2218021a164026000622100222c8"
    "1608021a16400316402303e8140e2000fc2101012201210103220020010921016826000622100222d81608021a22100226000622100222d41608"
    "02191620225804022a402238022202220404022a401926000622100222e81608021a22380226000622100222d4160802191620220404022a4019"
    "13200163210168220121016a220020017021019626000622100222e81608021a2228021a2200022a401716082268132001912101962201210198"
    "220027";

// `maint agent -at scan.c:11, s->slices[row].origin`
static const char collection[] =
    "26000622100222d81608020d081a22100226000622100222d41608020d04191620225804022a40220c0222080c27";

// `maint agent-eval -at scan.c:11, p->next->height == 512`
static const char short_condition[] = "26000622100222e81608021a2220021a2204021916202302001327";

void make_run(struct expression *e, int which)
{
    static const char *const names[RUN_COUNT] = {
        "arithmetic: dup, add, const8, mul",
        "shifts: lsh, rsh_signed, rsh_unsigned",
        "division: div and rem, signed and unsigned",
        "division of numbers of 63 bits",
        "jumps: if_goto taken or not, goto",
        "chain of ref64",
        "trace_quick 8",
        "tracenz over strings of 4 to 40 bytes",
        "a condition of GDB's",
        "a collection of GDB's"};
    start(e, names[which]);
    switch (which) {
    case ARITHMETIC: repeat(e, "2203", "2802220704"); break;
    case SHIFTS: repeat(e, "259abcdef012345678", "28220509220c0a22020b22400a11"); break; // by 5, 12, 2 and 64
    case DIVISION: repeat(e, "237abc", "220105220106237fff07237fff08"); break;
    case LONG_DIVISION: repeat(e, "257abcdef012345678", "220105220106257fffffffffffffff07257fffffffffffffff08"); break;
    case JUMPS: make_jumps(e); break;
    case REF64: repeat(e, "232000", "1a"); break;
    case TRACE_QUICK: repeat(e, "232000", "0d08"); break;
    case TRACENZ: make_tracenz(e); break;
    case CONDITION: put(e, condition); break;
    case COLLECTION: put(e, collection); break;
    }
}

void make_end(struct expression *e)
{
    start(e, "the smallest run, `27`");
    put(e, "27");
}

void make_short(struct expression *e)
{
    start(e, "short");
    put(e, short_condition);
}

void make_chain(struct expression *e, size_t bytes)
{
    start(e, "chain");
    put(e, "2203");
    while (e->length + 1 < bytes)
        put(e, "12");
    put(e, "27");
}

void make_bytes(struct expression *e, size_t bytes)
{
    start(e, "bytes");
    put(e, "231000");
    for (int i = 0; i < 4; i++) {
        put(e, "30");
        put_number(e, bytes / 4, 2);
    }
    put(e, "27");
}

void make_quick(struct expression *e, size_t bytes)
{
    start(e, "quick");
    put(e, "232000");
    for (int i = 0; i < QUICK_TIMES; i++) {
        put(e, "0d");
        put_number(e, bytes, 1);
    }
    put(e, "27");
}

// ---- random expressions

uint64_t next_random(uint64_t *seed)
{
    *seed ^= *seed << 13;
    *seed ^= *seed >> 7;
    *seed ^= *seed << 17;
    return *seed;
}

struct choice {
    uint8_t opcode, operands, needed, left;
};

static const struct choice choices[] = {
    {0x02, 0, 2, 1}, {0x03, 0, 2, 1}, {0x04, 0, 2, 1}, {0x05, 0, 2, 1}, {0x06, 0, 2, 1}, {0x07, 0, 2, 1}, {0x08, 0, 2, 1},
    {0x09, 0, 2, 1}, {0x0a, 0, 2, 1}, {0x0b, 0, 2, 1}, {0x0c, 0, 2, 0}, {0x0d, 1, 1, 1}, {0x0e, 0, 1, 1}, {0x0f, 0, 2, 1},
    {0x10, 0, 2, 1}, {0x11, 0, 2, 1}, {0x12, 0, 1, 1}, {0x13, 0, 2, 1}, {0x14, 0, 2, 1}, {0x15, 0, 2, 1}, {0x16, 1, 1, 1},
    {0x17, 0, 1, 1}, {0x18, 0, 1, 1}, {0x19, 0, 1, 1}, {0x1a, 0, 1, 1}, {0x20, 2, 1, 0}, {0x21, 2, 0, 0}, {0x22, 1, 0, 1},
    {0x23, 2, 0, 1}, {0x24, 4, 0, 1}, {0x25, 8, 0, 1}, {0x26, 2, 0, 1}, {0x28, 0, 1, 2}, {0x29, 0, 1, 0}, {0x2a, 1, 1, 1},
    {0x2b, 0, 2, 2}, {0x2c, 2, 0, 1}, {0x2d, 2, 1, 1}, {0x2e, 2, 0, 1}, {0x2f, 0, 2, 0}, {0x30, 2, 1, 1}, {0x32, 1, 1, 2},
    {0x33, 0, 3, 3},
    // addresses of the scene and small sizes, so that memory is often read
    {0x23, 2, 0, 1}, {0x23, 2, 0, 1}, {0x22, 1, 0, 1}, {0x22, 1, 0, 1}, {0x26, 2, 0, 1},
};

static uint64_t random_operand(const struct choice *c, size_t at, int height, uint64_t *seed)
{
    uint64_t r = next_random(seed);
    switch (c->opcode) {
    case 0x16: return 1 + r % 70;
    case 0x20: case 0x21: return at + 3 + (r % 16 == 0 ? r / 16 % 4 : 0); // most go on at the next start
    case 0x23: return WORK + r % 0x4010;
    case 0x26: return r % 32 == 0 ? 16 : r % 16;
    case 0x2c: case 0x2d: case 0x2e: return r % 64;
    case 0x30: return r % 300;
    case 0x32: return r % (unsigned)height;
    default: return r;
    }
}

void make_random(struct expression *e, uint64_t *seed)
{
    start(e, "random");
    uint64_t longest = next_random(seed) % 8 == 0 ? 1000 : 60;
    size_t most = 1 + next_random(seed) % longest;
    bool grows = next_random(seed) % 16 == 0; // until the stack is full
    int height = 0;
    while (e->length < most) {
        const struct choice *c = &choices[next_random(seed) % (sizeof choices / sizeof choices[0])];
        if (height < c->needed || (height - c->needed + c->left > 64 && next_random(seed) % 4 != 0))
            continue;
        if (grows && c->left <= c->needed)
            continue;
        size_t at = e->length;
        uint64_t operand = random_operand(c, at, height, seed);
        e->bytes[e->length++] = c->opcode;
        put_number(e, operand, c->operands);
        height += c->left - c->needed;
    }
    e->bytes[e->length++] = 0x27;
    if (next_random(seed) % 4 == 0) {
        size_t at = next_random(seed) % e->length;
        e->bytes[at] = (uint8_t)(next_random(seed) % 64);
    }
}

// ---- frames, written by hand: more records than an expression of 1,024 bytes can make

// A record of so many bytes of the chain, up to 8.
static uint8_t *put_memory(uint8_t *p, uint64_t address, size_t bytes)
{
    p = put_little(p, 0x4d, 1);
    p = put_little(p, address, 8);
    p = put_little(p, bytes, 2);
    return put_little(p, address + 8, bytes);
}

static uint8_t *put_trailer(uint8_t *p, const uint8_t *frame, uint64_t tracepoint)
{
    uint64_t length = (uint64_t)(p - frame);
    p = put_little(p, 0x46, 2);
    p = put_little(p, tracepoint, 2);
    return put_little(p, length, 4);
}

size_t make_frames(uint8_t *buffer, size_t frames)
{
    uint8_t *p = buffer;
    for (size_t i = 0; i < frames; i++) {
        const uint8_t *frame = p;
        p = put_memory(p, CHAIN, 8);
        p = put_little(p, 0x56, 1);
        p = put_little(p, 3, 4);
        p = put_little(p, scene.variables[3], 8);
        p = put_trailer(p, frame, i);
    }
    return (size_t)(p - buffer);
}

size_t make_empty_frames(uint8_t *buffer, size_t frames)
{
    uint8_t *p = buffer;
    for (size_t i = 0; i < frames; i++)
        p = put_trailer(p, p, i);
    return (size_t)(p - buffer);
}

size_t make_frame(uint8_t *buffer, size_t records, size_t bytes)
{
    uint8_t *p = buffer;
    for (size_t i = 0; i < records; i++)
        p = put_memory(p, CHAIN + 8 * i, bytes);
    return (size_t)(put_trailer(p, buffer, 7) - buffer);
}

/*
 * The libraries' functions on a stack of 8 KB, with a page behind it that nobody may touch: what lilivrez.h says of
 * their stack. Calls that are accepted, refused at each stage, or in doubt, with code that no walk reaches. The answers
 * are document 01's.
 */
#define _GNU_SOURCE
#include <inttypes.h>
#include <signal.h>
#include <stdio.h>
#include <stdlib.h>
#include <string.h>
#include <sys/mman.h>
#include <ucontext.h>
#include <unistd.h>

#include "lilivrez_agent.h"
#include "lilivrez_frames.h"
#include "lilivrez_verifier.h"

enum { PAGE = 4096, STACK = 8192, PATTERN = 0xa5, PLACES = 6 };

struct answer {
    uint32_t number;
    uint64_t out[PLACES];
};

struct call {
    const char *what;
    uint32_t (*perform)(const uint64_t arguments[], uint64_t out[]);
    uint64_t arguments[6];
    struct answer answer;
};

static uint8_t memory[1 << 16], buffer[LILIVREZ_BUFFER_BYTES], frames[2][LILIVREZ_BUFFER_BYTES];
static uint8_t expression[LILIVREZ_EXPRESSION_BYTES + 1];
static size_t expression_length;
static uint64_t registers[LILIVREZ_REGISTERS + 1], variables[LILIVREZ_VARIABLES];

/* ---- the functions, each with the arguments that a row gives */

static uint32_t verify(const uint64_t a[], uint64_t out[])
{
    (void)a;
    return lilivrez_verify(expression, expression_length, out);
}

/* image first, work first, work length, registers, used, allowance */
static uint32_t run(const uint64_t a[], uint64_t out[])
{
    return lilivrez_run(expression, expression_length, registers, a[3], a[0], memory, sizeof memory, a[1], memory, a[2],
                        variables, buffer, sizeof buffer, a[4], 7, a[5], out);
}

static uint32_t run_default(const uint64_t a[], uint64_t out[])
{
    return lilivrez_run_default(expression, expression_length, registers, a[3], a[0], memory, sizeof memory, a[1], memory, a[2],
                                variables, buffer, sizeof buffer, a[4], 7, out);
}

/* image first, work first, work length, address, size */
static uint32_t fetch(const uint64_t a[], uint64_t out[])
{
    return lilivrez_fetch(a[0], memory, sizeof memory, a[1], memory, a[2], a[3], a[4], out);
}

/* which frames, used, frame, record */
static uint32_t read_record(const uint64_t a[], uint64_t out[])
{
    return lilivrez_read(frames[a[0]], sizeof frames[0], a[1], a[2], a[3], out);
}

static uint32_t count(const uint64_t a[], uint64_t out[])
{
    return lilivrez_count(frames[a[0]], sizeof frames[0], a[1], a[2], out);
}

static uint32_t locate(const uint64_t a[], uint64_t out[])
{
    return lilivrez_locate(frames[a[0]], sizeof frames[0], a[1], a[2], out);
}

/* which frames, place */
static uint32_t walk(const uint64_t a[], uint64_t out[])
{
    return lilivrez_walk(frames[a[0]], sizeof frames[0], a[1], out);
}

/* which frames, end, place */
static uint32_t next_record(const uint64_t a[], uint64_t out[])
{
    return lilivrez_next_record(frames[a[0]], sizeof frames[0], a[1], a[2], out);
}

/* ---- one call on the small stack */

static ucontext_t main_context, small_context;
static uint8_t *small_stack;
static const struct call *current;
static struct answer found;
static size_t calls_made, failures;

static void perform_current(void)
{
    found.number = current->perform(current->arguments, found.out);
}

static void on_overflow(int signal_number)
{
    (void)signal_number;
    fprintf(stderr, "tests/stack.c: %s: more than 8 KB of stack\n", current->what);
    _exit(1);
}

static void make_small_stack(void)
{
    static uint8_t other[1 << 16];
    stack_t other_stack = {.ss_sp = other, .ss_size = sizeof other};
    struct sigaction action = {.sa_handler = on_overflow, .sa_flags = SA_ONSTACK};
    uint8_t *place = mmap(NULL, PAGE + STACK, PROT_READ | PROT_WRITE, MAP_PRIVATE | MAP_ANONYMOUS, -1, 0);
    if (place == MAP_FAILED || mprotect(place, PAGE, PROT_NONE) != 0 || sigaltstack(&other_stack, NULL) != 0 ||
        sigaction(SIGSEGV, &action, NULL) != 0) {
        perror("tests/stack.c: a stack");
        exit(1);
    }
    small_stack = place + PAGE;
    memset(small_stack, PATTERN, STACK);
}

static void check(const struct call *c)
{
    current = c;
    memset(&found, 0, sizeof found);
    getcontext(&small_context);
    small_context.uc_stack.ss_sp = small_stack;
    small_context.uc_stack.ss_size = STACK;
    small_context.uc_link = &main_context;
    makecontext(&small_context, perform_current, 0);
    swapcontext(&main_context, &small_context);
    calls_made++;
    if (found.number == c->answer.number && memcmp(found.out, c->answer.out, sizeof found.out) == 0)
        return;
    failures++;
    fprintf(stderr, "tests/stack.c: %s: answered %" PRIu32, c->what, found.number);
    for (int i = 0; i < PLACES; i++)
        fprintf(stderr, " %" PRIu64 "%s", found.out[i], i < PLACES - 1 ? "" : "\n");
}

static size_t most_used(void)
{
    size_t untouched = 0;
    while (untouched < STACK && small_stack[untouched] == PATTERN)
        untouched++;
    return STACK - untouched;
}

/* ---- expressions: verified, and run twice */

#define FOUR_TIMES(text) text text text text
#define FULL FOUR_TIMES(FOUR_TIMES(FOUR_TIMES("2200"))) /* 64 cells */
#define LONG 1024, 0x12                                 /* bit_not as often as it takes */
#define ALL_ONES UINT64_MAX                             /* 0 after so many bit_nots */

/* The bytes of `first`, `fill` as often as it takes, the bytes of `last`; where the length is 0, `first` alone. */
struct expression {
    const char *what, *first;
    size_t length;
    uint8_t fill;
    const char *last;
    struct answer verified, ran; /* `ran` of those that are accepted; a refused one is refused alike */
};

static const struct expression expressions[] = {
    /* accepted */
    {"end alone", "27", 0, 0, "", {0, {0, 1, 0, 1}}, {0, {0, 1, 8}}},
    {"1,024 bytes", "2200", LONG, "27", {0, {0, 1023, 1, 1023}}, {0, {0, 1023, 8, 1, ALL_ONES}}},
    {"64 cells in 1,024 bytes", FULL, LONG, "27", {0, {0, 960, 64, 960}}, {0, {0, 960, 8, 2, ALL_ONES, 0}}},
    {"a jump taken", "220120000822072727", 0, 0, "", {0, {0, 5, 1, 4}}, {0, {0, 3, 8}}},
    {"a variable set and recorded", "22052d00072e000727", 0, 0, "", {0, {0, 4, 2, 4}}, {0, {0, 4, 21, 2, 5, 5}}},
    {"a string of 60,000 bytes", "23100023ea602f27", 0, 0, "", {0, {0, 4, 2, 4}}, {0, {0, 4, 60019}}},
    /* accepted, with code that no walk reaches */
    {"between goto and target", "2100041227", 0, 0, "", {0, {0, 3, 0, 2}}, {0, {0, 2, 8}}},
    {"between goto and target, another height", "210005220727", 0, 0, "", {0, {0, 3, 0, 2}}, {0, {0, 2, 8}}},
    {"after end", "2702", 0, 0, "", {0, {0, 2, 0, 1}}, {0, {0, 1, 8}}},
    {"after end, with a jump", "22012722052000091227", 0, 0, "", {0, {0, 6, 1, 2}}, {0, {0, 2, 8, 1, 1}}},
    {"1,024 bytes, before a target", "2200", LONG, "2103ff1227", {0, {0, 1021, 1, 1020}}, {0, {0, 1020, 8, 1, ALL_ONES}}},
    {"1,024 bytes, after end", "2200", LONG, "270202", {0, {0, 1023, 1, 1021}}, {0, {0, 1021, 8, 1, ALL_ONES}}},
    /* refused by the verifier, at the last byte or at the last instruction of 1,024 bytes */
    {"no bytes", "", 0, 0, "", {1, {0}}, {0, {0}}},
    {"1,025 bytes", "2200", 1025, 0x12, "27", {1, {0}}, {0, {0}}},
    {"unknown", "2200", LONG, "31", {2, {1023}}, {0, {0}}},
    {"unsupported", "2200", LONG, "34", {3, {1023}}, {0, {0}}},
    {"operand cut", "2200", LONG, "22", {4, {1023}}, {0, {0}}},
    {"ext 0", "2200", LONG, "1600", {5, {1022}}, {0, {0}}},
    {"jump to no start", "2200", LONG, "210400", {6, {1021}}, {0, {0}}},
    {"jump back", "2200", LONG, "210000", {7, {1021}}, {0, {0}}},
    {"heights differ", "220022012003ff", LONG, "2827", {8, {1023}}, {0, {0}}},
    {"too few cells", "2200", LONG, "02", {9, {1023}}, {0, {0}}},
    {"too many cells", FULL, LONG, "28", {10, {1023}}, {0, {0}}},
    {"runs off", "2200", LONG, "12", {11, {1023}}, {0, {0}}},
    /* refused by the run */
    {"divisor zero", "220122000527", 0, 0, "", {0, {0, 4, 2, 4}}, {17, {4, 2}}},
    {"register not lent", "26010027", 0, 0, "", {0, {0, 2, 1, 2}}, {18, {0, 0}}},
    {"not readable", "22001a27", 0, 0, "", {0, {0, 3, 1, 3}}, {19, {2, 1}}},
    {"not readable, after two records", "2310000d080dff22001727", 0, 0, "", {0, {0, 6, 2, 6}}, {19, {9, 4}}},
    {"record too long", "23100024000100000c27", 0, 0, "", {0, {0, 4, 2, 4}}, {20, {8, 2}}},
    {"string too long", "23100024000100002f27", 0, 0, "", {0, {0, 4, 2, 4}}, {20, {8, 2}}},
    {"no room for a record", "23100030fff030fff027", 0, 0, "", {0, {0, 4, 1, 4}}, {21, {6, 2}}},
    /* of the runs and frames below: records of 8, 200 and 60,000 bytes */
    {"three records", "2310000d080dc830ea6027", 0, 0, "", {0, {0, 5, 1, 5}}, {0, {0, 5, 60249, 1, 0x1000}}},
};

static size_t put(uint8_t *p, const char *hex)
{
    size_t length = strlen(hex) / 2;
    for (size_t i = 0; i < length; i++) {
        unsigned byte;
        sscanf(hex + 2 * i, "%2x", &byte);
        p[i] = (uint8_t)byte;
    }
    return length;
}

static void check_expression(const struct expression *e)
{
    struct call verifies = {e->what, verify, {0}, e->verified};
    struct call runs = {e->what, run, {0x1000, 0, 0, 256, 0, 1024}, e->verified.number != 0 ? e->verified : e->ran};
    struct call defaults = runs;
    defaults.perform = run_default;
    memset(expression, e->fill, sizeof expression);
    expression_length = put(expression, e->first);
    if (e->length != 0) {
        put(expression + e->length - strlen(e->last) / 2, e->last);
        expression_length = e->length;
    }
    check(&verifies);
    check(&runs);
    check(&defaults);
}

/* ---- all other calls; the expression is the last one above */

enum { WHOLE, BROKEN, USED = 60249, OVER = 65537 };

static const struct call calls[] = {
    {"run: span past the end", run, {UINT64_MAX - 9, 0, 0, 256, 0, 1024}, {12, {0}}},
    {"run: spans share", run, {0x1000, 0x1100, 16, 256, 0, 1024}, {13, {0}}},
    {"run: too many registers", run, {0x1000, 0, 0, 257, 0, 1024}, {14, {0}}},
    {"run: used beyond the buffer", run, {0x1000, 0, 0, 256, OVER, 1024}, {15, {0, 0, OVER}}},
    {"run: allowance spent", run, {0x1000, 0, 0, 256, 0, 3}, {16, {7, 3, 0}}},
    {"run: no room for the trailer", run, {0x1000, 0, 0, 256, 5292, 1024}, {21, {10, 4, 5292}}},
    {"fetch: of the image", fetch, {0x1000, 0, 0, 0x1004, 8}, {0, {1, 4}}},
    {"fetch: all of the image", fetch, {0x1000, 0, 0, 0x1000, 65536}, {0, {1, 0}}},
    {"fetch: of the working memory", fetch, {0x1000, 0x20000, 16, 0x20008, 8}, {0, {2, 8}}},
    {"fetch: no bytes", fetch, {0x1000, 0, 0, 0x1004, 0}, {0, {0, 0}}},
    {"fetch: span past the end", fetch, {UINT64_MAX - 9, 0, 0, 0x1004, 8}, {12, {0}}},
    {"fetch: spans share", fetch, {0x1000, 0x1100, 16, 0x1004, 8}, {13, {0}}},
    {"fetch: not readable", fetch, {0x1000, 0, 0, 0x10ffc, 8}, {19, {0}}},
    {"read: the last record", read_record, {WHOLE, USED, 0, 2}, {0, {0, 7, 1, 0x1000, 60000, 241}}},
    {"read: used beyond the buffer", read_record, {WHOLE, OVER, 0, 0}, {15, {0}}},
    {"read: trailer broken", read_record, {WHOLE, USED - 1, 0, 0}, {22, {USED - 1}}},
    {"read: record broken", read_record, {BROKEN, USED, 0, 0}, {23, {230}}},
    {"read: no such frame", read_record, {WHOLE, USED, 1, 0}, {24, {0}}},
    {"read: no such record", read_record, {WHOLE, USED, 0, 3}, {25, {0}}},
    {"count: three records", count, {WHOLE, USED, 0}, {0, {0, 7, 0, 60241, 3}}},
    {"count: used beyond the buffer", count, {WHOLE, OVER, 0}, {15, {0}}},
    {"count: trailer broken", count, {WHOLE, USED - 1, 0}, {22, {USED - 1}}},
    {"count: record broken", count, {BROKEN, USED, 0}, {23, {230}}},
    {"count: no such frame", count, {WHOLE, USED, 1}, {24, {0}}},
    {"locate: the frame", locate, {WHOLE, USED, 0}, {0, {0, 7, 0, 60241}}},
    {"locate: used beyond the buffer", locate, {WHOLE, OVER, 0}, {15, {0}}},
    {"locate: trailer broken", locate, {WHOLE, USED - 1, 0}, {22, {USED - 1}}},
    {"locate: no such frame", locate, {WHOLE, USED, 1}, {24, {0}}},
    {"walk: over the frame", walk, {WHOLE, USED}, {0, {0, 7, 0, 60241, 0}}},
    {"walk: place beyond the buffer", walk, {WHOLE, OVER}, {15, {0, 0, 0, 0, OVER}}},
    {"walk: trailer broken", walk, {WHOLE, USED - 1}, {22, {USED - 1, 0, 0, 0, USED - 1}}},
    {"walk: nothing left", walk, {WHOLE, 0}, {24, {0, 0, 0, 0, 0}}},
    {"next record: the last one", next_record, {WHOLE, USED - 8, 230}, {0, {0, 1, 0x1000, 60000, 241, USED - 8}}},
    {"next record: end beyond the buffer", next_record, {WHOLE, OVER, 230}, {15, {0, 0, 0, 0, 0, 230}}},
    {"next record: broken", next_record, {BROKEN, USED - 8, 230}, {23, {230, 0, 0, 0, 0, 230}}},
    {"next record: behind the last", next_record, {WHOLE, USED - 8, USED - 8}, {25, {USED - 8, 0, 0, 0, 0, USED - 8}}},
};

int main(void)
{
    make_small_stack();
    memset(memory, 0x41, sizeof memory);
    for (size_t i = 0; i < sizeof expressions / sizeof expressions[0]; i++)
        check_expression(&expressions[i]);
    memcpy(frames[WHOLE], buffer, sizeof buffer);
    memcpy(frames[BROKEN], buffer, sizeof buffer);
    frames[BROKEN][230] = 0; /* the mark of the third record */
    for (size_t i = 0; i < sizeof calls / sizeof calls[0]; i++)
        check(&calls[i]);
    if (failures == 0)
        printf("stack: %zu calls within 8 KB, at most %zu bytes\n", calls_made, most_used());
    return failures != 0;
}

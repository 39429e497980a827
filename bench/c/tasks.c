// The tasks, in the order of the tables, and how one is performed.
#include "bench.h"
#include "lilivrez_agent.h"
#include "lilivrez_frames.h"
#include "lilivrez_verifier.h"

#include <stdio.h>
#include <string.h>

#define WEAK __attribute__((weak)) // null where the compiler was not there
extern WEAK verify_function gcc_verify, clang_verify;
extern WEAK run_function gcc_run, clang_run;
extern WEAK fetch_function gcc_fetch, clang_fetch;
extern WEAK read_function gcc_read, clang_read;
extern WEAK walk_function gcc_walk, clang_walk;
extern WEAK next_record_function gcc_next_record, clang_next_record;

struct agent agents[MOST_AGENTS];
int agent_count;

void set_agents(void)
{
    static const struct agent known[MOST_AGENTS] = {
        {"library", lilivrez_verify, lilivrez_run, lilivrez_fetch, lilivrez_read, lilivrez_walk, lilivrez_next_record},
        {"C by gcc", gcc_verify, gcc_run, gcc_fetch, gcc_read, gcc_walk, gcc_next_record},
        {"C by clang", clang_verify, clang_run, clang_fetch, clang_read, clang_walk, clang_next_record},
    };
    for (int i = 0; i < MOST_AGENTS; i++)
        if (known[i].verify != NULL)
            agents[agent_count++] = known[i];
}

// ---- calls

uint8_t buffers[MOST_AGENTS][65536];
uint64_t variables[MOST_AGENTS][64];
uint8_t frames[65536];
size_t frames_used;

struct given usual(const struct scene *s)
{
    return (struct given){s->image.first, s->work.first, 16, sizeof buffers[0], 0, 1024};
}

uint32_t run(int agent, const struct expression *e, struct given g, uint64_t out[6])
{
    const struct scene *s = e->scene;
    return agents[agent].run(e->bytes, e->length, s->registers, g.registers, g.image_first, s->image.bytes, s->image.length,
                             g.work_first, s->work.bytes, s->work.length, variables[agent], buffers[agent], g.length, g.used, 7,
                             g.allowance, out);
}

uint32_t fetch(int agent, const struct scene *s, uint64_t address, uint64_t size, uint64_t out[2])
{
    return agents[agent].fetch(s->image.first, s->image.bytes, s->image.length, s->work.first, s->work.bytes, s->work.length,
                               address, size, out);
}

// All records of one frame from its start on: answers 25, where the last is passed.
static uint32_t next_each(int agent, size_t start, size_t length, uint64_t out[6])
{
    size_t end = start + length, place = start;
    uint32_t number;
    while ((number = agents[agent].next_record(frames, sizeof frames, end, place, out)) == 0)
        place = out[5];
    return number;
}

// All frames from the newest on: each is walked over, for READ both of its records are read by number, for NEXT all by steps.
static uint32_t read_back(int agent, enum kind kind, uint64_t out[6])
{
    uint64_t place[5];
    size_t end = frames_used;
    while (agents[agent].walk(frames, sizeof frames, end, place) == 0) {
        if (kind == READ) {
            agents[agent].read(frames, sizeof frames, end, 0, 0, out);
            agents[agent].read(frames, sizeof frames, end, 0, 1, out);
        }
        if (kind == NEXT && next_each(agent, place[2], place[3], out) != 25)
            return 23;
        end = place[4];
    }
    return end == 0 ? 0 : 22;
}

// All records of the one frame by their numbers.
static uint32_t read_each(int agent, size_t records, uint64_t out[6])
{
    uint32_t number = 0;
    for (size_t i = 0; i < records && number == 0; i++)
        number = agents[agent].read(frames, sizeof frames, frames_used, 0, i, out);
    return number;
}

void prepare(const struct task *t)
{
    if (t->kind == WALK || t->kind == READ || t->kind == NEXT || t->kind == READ_OLDEST)
        frames_used = make_frames(frames, t->frames);
    if (t->kind == WALK_EMPTY)
        frames_used = make_empty_frames(frames, t->frames);
    if (t->kind == READ_LAST)
        frames_used = make_frame(frames, t->records, 8);
    if (t->kind == READ_EACH || t->kind == NEXT_EACH)
        frames_used = make_frame(frames, t->records, 4);
    if (t->kind == RUN)
        for (int a = 0; a < agent_count; a++)
            memcpy(variables[a], t->members[0]->scene->variables, sizeof variables[a]);
}

uint32_t perform(int agent, const struct task *t, size_t member, uint64_t out[6])
{
    const struct expression *e = t->members[member];
    switch (t->kind) {
    case VERIFY: return agents[agent].verify(e->bytes, e->length, out);
    case RUN: return run(agent, e, usual(e->scene), out);
    case FETCH: return fetch(agent, &scene, t->address, t->size, out);
    case READ_OLDEST: return agents[agent].read(frames, sizeof frames, frames_used, t->frames - 1, 0, out);
    case READ_LAST: return agents[agent].read(frames, sizeof frames, frames_used, 0, t->records - 1, out);
    case READ_EACH: return read_each(agent, t->records, out);
    case NEXT_EACH: return next_each(agent, 0, frames_used - 8, out) == 25 ? 0 : 23;
    default: return read_back(agent, t->kind, out);
    }
}

// ---- tasks, rows and tables

struct task tasks[MOST_TASKS];
struct row rows[MOST_ROWS];
struct table tables[MOST_TABLES];
size_t task_count, table_count;
static size_t row_count;

static struct task *add_task(enum kind kind)
{
    struct task *t = &tasks[task_count++];
    t->kind = kind;
    t->member_count = 1;
    return t;
}

static struct task *add_single(enum kind kind, const struct expression *e)
{
    struct task *t = add_task(kind);
    t->own = *e;
    t->members[0] = &t->own;
    return t;
}

static void add_table(const char *title, const char *what, const char *unit)
{
    tables[table_count++] = (struct table){title, what, unit, row_count, 0};
}

// A row of the table that was added last.
static void add_row(const char *name, size_t units, const struct task *t, const struct task *base)
{
    struct row *r = &rows[row_count++];
    *r = (struct row){.units = units, .task = t, .base = base};
    snprintf(r->name, sizeof r->name, "%s", name);
    tables[table_count - 1].count++;
}

static void add_sized(size_t size, size_t units, const struct task *t, const struct task *base)
{
    char name[24];
    snprintf(name, sizeof name, "%zu", size);
    add_row(name, units, t, base);
}

// What the library tells of it: the instructions of an expression, or those that a run executes.
static size_t told(const struct task *t)
{
    uint64_t out[6];
    prepare(t);
    perform(OURS, t, 0, out);
    return out[1];
}

// ---- hits

struct expression hits[MOST_HITS];
size_t hit_count;

// Those of one kind; HIT_KINDS is all of them.
static void add_hits(enum kind kind, bool again, int hit_kind, const char *name)
{
    struct task *t = add_task(kind);
    t->again = again;
    t->member_count = 0;
    for (size_t i = 0; i < hit_count; i++)
        if (hit_kind == HIT_KINDS || hits[i].kind == hit_kind)
            t->members[t->member_count++] = &hits[i];
    add_row(name, t->member_count, t, NULL);
}

static void add_hit_table(const char *title, enum kind kind, bool again)
{
    static const char *const names[] = {"conditions", "assignments to a trace variable", "collections", "strings", "all of them, mixed"};
    add_table(title, "hits", "expressions");
    for (int i = 0; i <= HIT_KINDS; i++)
        add_hits(kind, again, i, names[i]);
}

static void make_hits(void)
{
    add_hit_table("A hit, verified and run: each expression in turn", RUN, false);
    add_hit_table("A hit, verified and run: each expression again and again", RUN, true);
    add_hit_table("A hit, verified alone: each expression in turn", VERIFY, false);
    add_hit_table("A hit, verified alone: each expression again and again", VERIFY, true);
}

// ---- runs and verifies of their own

static void make_runs(void)
{
    struct task *runs[RUN_COUNT], *verifies[RUN_COUNT];
    struct expression e;
    add_table("Verify and run, per executed bytecode", "workload", "bytecodes");
    for (int i = 0; i < RUN_COUNT; i++) {
        make_run(&e, i);
        runs[i] = add_single(RUN, &e);
        verifies[i] = add_single(VERIFY, &e);
        add_row(e.name, told(runs[i]), runs[i], NULL);
    }
    add_table("Stepping alone (a whole run less a verify), per executed bytecode", "workload", "bytecodes");
    for (int i = 0; i < RUN_COUNT; i++)
        add_row(runs[i]->own.name, told(runs[i]), runs[i], verifies[i]);
    add_table("Whole runs", "workload", "runs");
    make_end(&e);
    add_row(e.name, 1, add_single(RUN, &e), NULL);
}

static void add_verify(const struct expression *e, const char *name)
{
    struct task *t = add_single(VERIFY, e);
    add_row(name, told(t), t, NULL);
}

static void make_verifies(void)
{
    struct expression e;
    add_table("Verify alone, per bytecode of the expression", "workload", "bytecodes");
    make_short(&e);
    add_verify(&e, "27 bytes, a short condition of GDB's");
    make_run(&e, CONDITION);
    add_verify(&e, "409 bytes, the condition of GDB's");
    make_chain(&e, 1024);
    add_verify(&e, "1,024 bytes, one byte each");
    make_run(&e, ARITHMETIC);
    add_verify(&e, "1,023 bytes, arithmetic");
    make_run(&e, JUMPS);
    add_verify(&e, "1,015 bytes, jumps");
}

// ---- fetching and reading

static void add_fetch(const char *name, uint64_t address, uint64_t size)
{
    struct task *t = add_task(FETCH);
    t->address = address;
    t->size = size;
    add_row(name, 1, t, NULL);
}

static void make_fetches(void)
{
    add_table("Fetching", "workload", "calls");
    add_fetch("1 byte of the program image", scene.image.first, 1);
    add_fetch("1 byte of the working memory", scene.work.first, 1);
    add_fetch("8 bytes of the working memory", scene.work.first + 1000, 8);
    add_fetch("64 bytes of the working memory", scene.work.first + 1000, 64);
    add_fetch("1,024 bytes of the working memory", scene.work.first + 1000, 1024);
    add_fetch("1,024 bytes, past its end by one: refused", scene.work.first + scene.work.length - 1023, 1024);
}

static struct task *add_frames(enum kind kind, size_t frame_count)
{
    struct task *t = add_task(kind);
    t->frames = frame_count;
    return t;
}

static void make_reads(void)
{
    add_table("Reading back 1,000 frames of two records, per frame", "workload", "frames");
    add_row("walking over them", 1000, add_frames(WALK, 1000), NULL);
    add_row("walking, and reading both records", 1000, add_frames(READ, 1000), NULL);
    add_row("walking, and stepping over the records", 1000, add_frames(NEXT, 1000), NULL);
}

// ---- growth

enum { GROWTH = 4 };

static void make_growing_expressions(const char *title, const char *what, enum kind kind, void (*make)(struct expression *, size_t), size_t least)
{
    struct expression e;
    add_table(title, what, "calls");
    for (size_t size = least; size < least << GROWTH; size *= 2) {
        make(&e, size);
        add_sized(size, 1, add_single(kind, &e), NULL);
    }
}

static void make_growing_frames(const char *title, enum kind kind, size_t least)
{
    add_table(title, "frames", "calls");
    for (size_t count = least; count < least << GROWTH; count *= 2)
        add_sized(count, 1, add_frames(kind, count), NULL);
}

// Up to 4,096 records, of 15 bytes each, fit in a buffer.
enum { MOST_GROWTH = 7 };

static void make_growing_frame(const char *title, enum kind kind, int growth)
{
    add_table(title, "records", "calls");
    for (size_t records = 64; records < (size_t)64 << growth; records *= 2) {
        struct task *t = add_task(kind);
        t->records = records;
        add_sized(records, 1, t, NULL);
    }
}

static void make_quicks(void)
{
    static const size_t sizes[] = {8, 16, 32, 64, 128, 255};
    struct expression e;
    add_table("Recording: one trace_quick (a whole run less a verify), over the bytes of the record", "bytes", "records");
    for (size_t i = 0; i < sizeof sizes / sizeof sizes[0]; i++) {
        make_quick(&e, sizes[i]);
        add_sized(sizes[i], QUICK_TIMES, add_single(RUN, &e), add_single(VERIFY, &e));
    }
}

void make_tasks(const char *hits_path)
{
    make_scene();
    hit_count = read_hits(hits_path, hits);
    make_hits();
    make_runs();
    make_verifies();
    make_fetches();
    make_reads();
    make_growing_expressions("Growth: verify, over the bytes of the expression", "bytes", VERIFY, make_chain, 128);
    make_growing_expressions("Growth: run, over the bytes of the expression, a step each", "bytes", RUN, make_chain, 128);
    make_growing_expressions("Growth: run of four records, over the bytes recorded", "bytes", RUN, make_bytes, 4096);
    make_growing_frames("Growth: reading back frames of two records, over the frames", READ, 125);
    make_growing_frames("Growth: one read in the oldest frame, over the frames", READ_OLDEST, 125);
    make_growing_frames("Growth: walking over frames without records, over the frames", WALK_EMPTY, 1024);
    make_growing_frame("Growth: one read of the last record, over the records of the frame", READ_LAST, GROWTH);
    make_growing_frame("Growth: all records of a frame, each by its number, over the records", READ_EACH, MOST_GROWTH);
    make_growing_frame("Growth: all records of a frame, by steps, over the records", NEXT_EACH, MOST_GROWTH);
    make_quicks();
}

// What the parts of the benchmark share: the agents that are compared, the tasks that are measured, the tables.
#ifndef BENCH_H
#define BENCH_H

#include "agent.h"
#include "workloads.h"

#include <stdbool.h>

// ---- agents: the library, then the C implementation by each compiler that was there

struct agent {
    const char *name;
    verify_function *verify;
    run_function *run;
    fetch_function *fetch;
    read_function *read;
    walk_function *walk;
    next_record_function *next_record;
};

enum { OURS, MOST_AGENTS = 3 };
extern struct agent agents[MOST_AGENTS];
extern int agent_count;
void set_agents(void);

// ---- one thing to measure

enum kind { VERIFY, RUN, FETCH, WALK, WALK_EMPTY, READ, NEXT, READ_OLDEST, READ_LAST, READ_EACH, NEXT_EACH };

struct task {
    enum kind kind;
    const struct expression *members[MOST_HITS]; // VERIFY, RUN: each of them is called
    size_t member_count;                         // 1 for the other kinds
    bool again;                                  // for the time, a member is called again and again before the next one
    struct expression own;                       // a single member
    uint64_t address, size;                      // FETCH
    size_t frames;                               // WALK, WALK_EMPTY, READ, NEXT, READ_OLDEST
    size_t records;                              // READ_LAST, READ_EACH, NEXT_EACH: of the one frame
    double count[MOST_AGENTS], nanoseconds[MOST_AGENTS];
};

enum { MOST_TASKS = 128 };
extern struct task tasks[MOST_TASKS];
extern size_t task_count;

// A task less its base, divided by the units: one row of a table.
struct row {
    char name[64];
    size_t units;
    const struct task *task, *base;
};

struct table {
    const char *title, *what, *unit; // what the rows' names are, and what the units are
    size_t first, count;             // rows
};

enum { MOST_ROWS = 128, MOST_TABLES = 24 };
extern struct row rows[MOST_ROWS];
extern struct table tables[MOST_TABLES];
extern size_t table_count;

extern struct expression hits[MOST_HITS];
extern size_t hit_count;

void make_tasks(const char *hits_path);

// ---- calls

extern uint8_t buffers[MOST_AGENTS][65536];
extern uint64_t variables[MOST_AGENTS][64];
extern uint8_t frames[65536];
extern size_t frames_used;

// What a run is given beside the expression, its scene and the variables.
struct given {
    uint64_t image_first, work_first;
    size_t registers, length, used;
    uint64_t allowance;
};

struct given usual(const struct scene *s);
uint32_t run(int agent, const struct expression *e, struct given g, uint64_t out[6]);
uint32_t fetch(int agent, const struct scene *s, uint64_t address, uint64_t size, uint64_t out[2]);

void prepare(const struct task *t);                                            // before a task is performed
uint32_t perform(int agent, const struct task *t, size_t member, uint64_t out[6]); // one call, or all frames or records

// ---- the answers must be the same: check.c

int check(void);

#endif

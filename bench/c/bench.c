// The benchmark: `bench check` compares the answers of the library and of the C implementation, `bench count` is run
// under callgrind, `bench table` measures times and prints all. The script ../run does the three.
#include "bench.h"

#include <stdio.h>
#include <stdlib.h>
#include <string.h>
#include <time.h>
#include <ucontext.h>
#include <valgrind/callgrind.h>

// ---- machine instructions: callgrind collects inside the measured functions alone

static void in_turn(int agent, const struct task *t)
{
    uint64_t out[6];
    for (size_t i = 0; i < t->member_count; i++)
        perform(agent, t, i, out);
}

static void count_task(int agent, size_t number)
{
    char label[32];
    snprintf(label, sizeof label, "task-%zu-%d", number, agent);
    in_turn(agent, &tasks[number]); // symbols are bound at the first call
    prepare(&tasks[number]);
    CALLGRIND_ZERO_STATS;
    in_turn(agent, &tasks[number]);
    CALLGRIND_DUMP_STATS_AT(label);
}

static int count(void)
{
    for (size_t i = 0; i < task_count * (size_t)agent_count; i++) {
        prepare(&tasks[i / (size_t)agent_count]);
        count_task((int)(i % (size_t)agent_count), i / (size_t)agent_count);
    }
    return 0;
}

static bool read_counts(const char *path)
{
    FILE *f = fopen(path, "r");
    size_t i;
    int a;
    double n;
    if (f == NULL)
        return false;
    while (fscanf(f, " task-%zu-%d %lf", &i, &a, &n) == 3)
        tasks[i].count[a] = n;
    fclose(f);
    return true;
}

// ---- nanoseconds: the best of several

enum { ROUNDS = 15 };

static double now(void)
{
    struct timespec t;
    clock_gettime(CLOCK_MONOTONIC, &t);
    return (double)t.tv_sec * 1e9 + (double)t.tv_nsec;
}

static void again(int agent, const struct task *t, size_t member, long repeats)
{
    uint64_t out[6];
    for (long i = 0; i < repeats; i++)
        perform(agent, t, member, out);
}

static double once(int agent, const struct task *t, long repeats)
{
    double begin = now();
    for (size_t i = 0; t->again && i < t->member_count; i++)
        again(agent, t, i, repeats);
    for (long i = 0; !t->again && i < repeats; i++)
        in_turn(agent, t);
    return (now() - begin) / (double)repeats;
}

static void measure_round(struct task *t, const long repeats[MOST_AGENTS])
{
    for (int a = 0; a < agent_count; a++) {
        double n = once(a, t, repeats[a]);
        if (t->nanoseconds[a] == 0 || n < t->nanoseconds[a])
            t->nanoseconds[a] = n;
    }
}

static void measure(struct task *t)
{
    long repeats[MOST_AGENTS], least = t->again ? 300 : 1;
    prepare(t);
    for (int a = 0; a < agent_count; a++)
        repeats[a] = least + (long)(5e5 / once(a, t, 3));
    for (int i = 0; i < ROUNDS; i++)
        measure_round(t, repeats);
}

// ---- the stack: the call is made on a stack filled with a pattern

enum { STACK = 1 << 17, PATTERN = 0xa5 };
static uint8_t stack[STACK] __attribute__((aligned(64)));
static ucontext_t outside, inside;
static const struct task *stack_task;
static int stack_agent;

static void stack_body(void)
{
    uint64_t out[6];
    if (stack_task != NULL)
        perform(stack_agent, stack_task, 0, out);
}

static size_t stack_of(int agent, const struct task *t)
{
    memset(stack, PATTERN, sizeof stack);
    getcontext(&inside);
    inside.uc_stack.ss_sp = stack;
    inside.uc_stack.ss_size = sizeof stack;
    inside.uc_link = &outside;
    stack_task = t;
    stack_agent = agent;
    makecontext(&inside, stack_body, 0);
    swapcontext(&outside, &inside);
    size_t untouched = 0;
    while (untouched < sizeof stack && stack[untouched] == PATTERN)
        untouched++;
    return sizeof stack - untouched;
}

static size_t most_stack(int agent)
{
    size_t most = 0, none = stack_of(agent, NULL);
    for (size_t i = 0; i < task_count; i++) {
        size_t n = tasks[i].kind == RUN ? stack_of(agent, &tasks[i]) - none : 0;
        most = n > most ? n : most;
    }
    return most;
}

static void print_stack(void)
{
    printf("\nGreatest stack use of a whole run, with what its caller passes:");
    for (int a = 0; a < agent_count; a++)
        printf(" %zu bytes (%s)%s", most_stack(a), agents[a].name, a + 1 < agent_count ? "," : "\n");
}

// ---- the tables

static void print_hits(void)
{
    uint64_t out[6];
    double bytes = 0, instructions = 0, steps = 0, assigning = 0, count = (double)hit_count;
    for (size_t i = 0; i < hit_count; i++) {
        bytes += (double)hits[i].length;
        assigning += hits[i].kind == ASSIGN_HIT;
        agents[OURS].verify(hits[i].bytes, hits[i].length, out);
        instructions += (double)out[1];
        run(OURS, &hits[i], usual(hits[i].scene), out);
        steps += (double)out[1];
    }
    printf("\nHits: %zu expressions of GDB's; on average %.1f bytes, %.1f instructions, %.1f steps; %.0f %% assign a trace variable\n",
           hit_count, bytes / count, instructions / count, steps / count, 100 * assigning / count);
}

static void print_head(const struct table *t)
{
    static const char *const what[] = {"instructions, ", "ns, "};
    printf("\n### %s\n\n| %s | %s |", t->title, t->what, t->unit);
    for (int i = 0; i < 2 * agent_count; i++)
        printf(" %s%s |", i % agent_count ? "" : what[i / agent_count], agents[i % agent_count].name);
    printf(" ratio |\n|");
    for (int i = 0; i < 3 + 2 * agent_count; i++)
        printf("---|");
    printf("\n");
}

static double spent(const struct task *t, int agent, bool is_time)
{
    if (t == NULL)
        return 0;
    return is_time ? t->nanoseconds[agent] : t->count[agent];
}

static double cost(const struct row *r, int agent, bool is_time)
{
    return (spent(r->task, agent, is_time) - spent(r->base, agent, is_time)) / (double)r->units;
}

// In machine instructions, beside the compiler that needs fewer; above where a printed digit is.
static void print_ratio(const struct row *r)
{
    double ours = cost(r, OURS, false), least = cost(r, 1, false);
    for (int a = 2; a < agent_count; a++)
        least = cost(r, a, false) < least ? cost(r, a, false) : least;
    printf(" %.2f%s |\n", ours / least, ours >= least + 0.05 ? " **above**" : "");
}

static void print_row(const struct row *r)
{
    printf("| %s | %zu |", r->name, r->units);
    for (int i = 0; i < 2 * agent_count; i++)
        printf(" %.1f |", cost(r, i % agent_count, i >= agent_count));
    print_ratio(r);
}

static void print_table(const struct table *t)
{
    print_head(t);
    for (size_t i = t->first; i < t->first + t->count; i++)
        print_row(&rows[i]);
}

static int print_tables(void)
{
    for (size_t i = 0; i < task_count; i++)
        measure(&tasks[i]);
    print_hits();
    for (size_t i = 0; i < table_count; i++)
        print_table(&tables[i]);
    print_stack();
    return 0;
}

int main(int argc, char **argv)
{
    if (argc < 3 || argc > 4) {
        fprintf(stderr, "bench check HITS | bench count HITS | bench table HITS COUNTS\n");
        return 2;
    }
    set_agents();
    make_tasks(argv[2]);
    if (strcmp(argv[1], "check") == 0)
        return check();
    if (strcmp(argv[1], "count") == 0)
        return count();
    return argc == 4 && read_counts(argv[3]) ? print_tables() : 2;
}

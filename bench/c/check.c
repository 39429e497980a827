// The answers of all agents must be the same, byte for byte, on the workloads and on random calls.
#include "bench.h"

#include <stdio.h>
#include <stdlib.h>
#include <string.h>

static void fail(const struct expression *e, const char *what)
{
    printf("the answers differ, or a workload is refused (%s):\n", what);
    for (size_t i = 0; e != NULL && i < e->length; i++)
        printf("%02x", e->bytes[i]);
    printf("\n");
    exit(1);
}

// What each agent has answered.
static uint32_t numbers[MOST_AGENTS];
static uint64_t outs[MOST_AGENTS][6];

static void agree(const struct expression *e, const char *what, size_t places)
{
    for (int a = 1; a < agent_count; a++)
        if (numbers[a] != numbers[OURS] || memcmp(outs[a], outs[OURS], places * sizeof outs[a][0]) != 0)
            fail(e, what);
}

static void agree_on_variables_and_buffer(const struct expression *e)
{
    for (int a = 1; a < agent_count; a++)
        if (memcmp(variables[a], variables[OURS], sizeof variables[a]) != 0 || memcmp(buffers[a], buffers[OURS], sizeof buffers[a]) != 0)
            fail(e, "variables or buffer");
}

static void compare_verify(const struct expression *e)
{
    for (int a = 0; a < agent_count; a++)
        numbers[a] = agents[a].verify(e->bytes, e->length, outs[a]);
    agree(e, "verify", 4);
}

static void compare_run(const struct expression *e, struct given g, unsigned seen[32])
{
    for (int a = 0; a < agent_count; a++) {
        memcpy(variables[a], e->scene->variables, sizeof variables[a]);
        numbers[a] = run(a, e, g, outs[a]);
    }
    agree(e, "run", 6);
    agree_on_variables_and_buffer(e);
    seen[numbers[OURS]]++;
}

static void compare_fetch(uint64_t address, uint64_t size)
{
    for (int a = 0; a < agent_count; a++)
        numbers[a] = fetch(a, &scene, address, size, outs[a]);
    agree(NULL, "fetch", 2);
}

static void compare_reading(size_t end, uint64_t frame, uint64_t record, size_t place)
{
    for (int a = 0; a < agent_count; a++)
        numbers[a] = agents[a].read(frames, sizeof frames, end, frame, record, outs[a]);
    agree(NULL, "read", 6);
    for (int a = 0; a < agent_count; a++)
        numbers[a] = agents[a].walk(frames, sizeof frames, end, outs[a]);
    agree(NULL, "walk", 5);
    for (int a = 0; a < agent_count; a++)
        numbers[a] = agents[a].next_record(frames, sizeof frames, end, place, outs[a]);
    agree(NULL, "next_record", 6);
}

// A member of a workload: the answers agree, and it is not refused, but for fetches.
static void compare_member(const struct task *t, size_t member)
{
    static const size_t places[] = {[VERIFY] = 4, [RUN] = 6, [FETCH] = 2, [READ] = 6, [NEXT] = 6, [READ_OLDEST] = 6, [READ_LAST] = 6, [READ_EACH] = 6, [NEXT_EACH] = 6};
    const struct expression *e = t->members[member];
    for (int a = 0; a < agent_count; a++)
        numbers[a] = perform(a, t, member, outs[a]);
    agree(e, e == NULL ? "workload" : e->name, places[t->kind]);
    if (t->kind == RUN)
        agree_on_variables_and_buffer(e);
    if (numbers[OURS] != 0 && t->kind != FETCH)
        fail(e, e == NULL ? "a workload is refused" : e->name);
}

static void compare_task(const struct task *t)
{
    prepare(t);
    for (size_t i = 0; i < t->member_count; i++)
        compare_member(t, i);
}

// One in so many is what a refusal of 12 to 16 asks for.
static bool one_in(uint64_t *seed, uint64_t many)
{
    return next_random(seed) % many == 0;
}

static struct given random_given(uint64_t *seed)
{
    struct given g = usual(&scene);
    if (one_in(seed, 4))
        g.length = next_random(seed) % 200;
    g.used = next_random(seed) % (g.length + 1) / 2;
    if (one_in(seed, 64))
        g.used = g.length + 1;
    if (one_in(seed, 64))
        g.registers = 257;
    if (one_in(seed, 64))
        g.image_first = g.work_first + next_random(seed) % 20000;
    if (one_in(seed, 64))
        g.work_first = 0 - next_random(seed) % 20000;
    if (one_in(seed, 16))
        g.allowance = next_random(seed) % 20;
    return g;
}

static void check_expressions(uint64_t *seed)
{
    unsigned seen[32] = {0};
    for (int i = 0; i < 300000; i++) {
        struct expression e;
        make_random(&e, seed);
        if (one_in(seed, 256))
            e.length = 0;
        compare_verify(&e);
        compare_run(&e, random_given(seed), seen);
    }
    printf("The answers are the same: the workloads, and 300,000 random expressions. Seen:");
    for (int i = 0; i <= 21; i++)
        printf(" %d: %u%s", i, seen[i], i < 21 ? "," : ".\n");
}

static void check_fetches(uint64_t *seed)
{
    for (int i = 0; i < 200000; i++) {
        const struct memory *m = one_in(seed, 2) ? &scene.image : &scene.work;
        uint64_t size = next_random(seed) >> next_random(seed) % 64;
        compare_fetch(m->first + next_random(seed) % (m->length + 64) - 32, one_in(seed, 8) ? size : size % 5000);
    }
}

static void check_frames(uint64_t *seed)
{
    frames_used = make_frames(frames, 1000);
    for (int i = 0; i < 200000; i++) {
        size_t at = next_random(seed) % frames_used;
        uint8_t kept = frames[at];
        frames[at] = (uint8_t)next_random(seed);
        size_t end = one_in(seed, 4) ? next_random(seed) % 65600 : at + 1 + next_random(seed) % 40;
        compare_reading(end, next_random(seed) % 4, next_random(seed) % 3, at + next_random(seed) % 2 - next_random(seed) % 20);
        frames[at] = kept;
    }
}

int check(void)
{
    uint64_t seed = 20260730;
    memset(buffers, 0, sizeof buffers);
    for (size_t i = 0; i < task_count; i++)
        compare_task(&tasks[i]);
    check_expressions(&seed);
    check_fetches(&seed);
    check_frames(&seed);
    printf("And 200,000 fetches, and 200,000 damaged frames, read and walked over, and their records too.\n");
    return 0;
}

// The stored hits: a line is a program, its registers, a span, bytes of that span, or an expression with its bytes.
#include "workloads.h"

#include <stdio.h>
#include <stdlib.h>
#include <string.h>

enum { PROGRAMS = 8, MOST_LINE = 4096 };

struct reading {
    struct scene *scene;   // of the program that was named last
    struct memory *memory; // the span that was named last
    struct expression *hits;
    size_t programs, count;
    int line;
};

static struct scene scenes[PROGRAMS];

static void expect(int is_so, const struct reading *r)
{
    if (is_so)
        return;
    fprintf(stderr, "the stored hits: line %d cannot be read\n", r->line);
    exit(1);
}

// The bytes of `hex` up to the end of the line.
static size_t read_bytes(const char *hex, uint8_t *bytes, size_t most, const struct reading *r)
{
    size_t count = 0;
    unsigned byte;
    for (; sscanf(hex, "%2x", &byte) == 1; hex += 2) {
        expect(count < most, r);
        bytes[count++] = (uint8_t)byte;
    }
    expect(count > 0, r);
    return count;
}

static void read_registers(const char *text, struct reading *r)
{
    char *end;
    for (int i = 0; i < 16; i++, text = end) {
        r->scene->registers[i] = strtoull(text, &end, 16);
        expect(end != text, r);
    }
}

static void read_span(const char *text, struct memory *memory, struct reading *r)
{
    unsigned long first;
    expect(sscanf(text, "%lx %zx", &first, &memory->length) == 2 && memory->length <= sizeof memory->bytes, r);
    memory->first = first;
    r->memory = memory;
}

static void read_part(const char *text, struct reading *r)
{
    size_t offset = 0;
    int hex = 0;
    expect(r->memory != NULL && sscanf(text, "%zx %n", &offset, &hex) == 1 && offset < r->memory->length, r);
    read_bytes(text + hex, r->memory->bytes + offset, r->memory->length - offset, r);
}

static void read_expression(const char *word, char *text, struct reading *r)
{
    static const char *const words[HIT_KINDS] = {"condition", "assign", "collect", "string"};
    char *arrow = strstr(text, " => ");
    expect(arrow != NULL && r->count < MOST_HITS, r);
    struct expression *e = &r->hits[r->count++];
    while (e->kind < HIT_KINDS && strcmp(word, words[e->kind]) != 0)
        e->kind++;
    expect(e->kind < HIT_KINDS, r);
    *arrow = 0;
    e->name = strdup(text);
    e->scene = r->scene;
    e->length = read_bytes(arrow + strlen(" => "), e->bytes, sizeof e->bytes, r);
}

static void read_line(char *line, struct reading *r)
{
    char word[16];
    int rest = 0;
    if (sscanf(line, "%15s %n", word, &rest) != 1 || line[0] == '#')
        return;
    if (strcmp(word, "program") == 0) {
        expect(r->programs < PROGRAMS, r);
        r->scene = &scenes[r->programs++];
        return;
    }
    expect(r->scene != NULL, r);
    if (line[0] == ' ')
        read_part(line, r);
    else if (strcmp(word, "registers") == 0)
        read_registers(line + rest, r);
    else if (strcmp(word, "image") == 0)
        read_span(line + rest, &r->scene->image, r);
    else if (strcmp(word, "work") == 0)
        read_span(line + rest, &r->scene->work, r);
    else
        read_expression(word, line + rest, r);
}

static void mix(struct expression *hits, size_t count)
{
    uint64_t seed = 20260730;
    for (size_t i = count; i > 1; i--) {
        struct expression *a = &hits[i - 1], *b = &hits[next_random(&seed) % i], kept = *a;
        *a = *b;
        *b = kept;
    }
}

size_t read_hits(const char *path, struct expression hits[MOST_HITS])
{
    char line[MOST_LINE];
    struct reading r = {.hits = hits};
    FILE *f = fopen(path, "r");
    expect(f != NULL, &r);
    for (; fgets(line, sizeof line, f) != NULL; read_line(line, &r))
        r.line++;
    fclose(f);
    expect(r.count > 0, &r);
    mix(hits, r.count);
    return r.count;
}

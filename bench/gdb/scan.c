#include <stdint.h>
struct point { int x, y; };
struct slice { int width, height; short depth; unsigned char flags; struct point origin; long stamp; struct slice *next; char *name; float *data; unsigned counts[8]; };
struct scan { int id; struct slice *first; struct slice slices[4]; long total; };
struct scan *current;
int threshold = 7;
int rebuild(struct scan *s, int row, long budget)
{
    struct slice *p = s->first;
    int sum = 0;
    for (; p; p = p->next)
        sum += p->width * row + (int)budget;
    return sum + threshold;
}
int main(void) { struct scan s = {0}; current = &s; return rebuild(&s, 3, 4); }

// GDB compiled the expressions of ../c/workloads.c over this program, built with `gcc -g -O0 -no-pie`:
// `maint agent-eval -at scan.c:11, ..` for a condition, `maint agent -at scan.c:11, ..` for a collection. Lines are
// counted from the top: keep this note below.

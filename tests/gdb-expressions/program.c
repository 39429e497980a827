// What GDB compiles expressions over: data like that of a scan, all of it in the data section or on the stack.
struct point { int x, y; };
struct slice {
    int width, height;
    short depth;
    unsigned char flags;
    struct point origin;
    long stamp;
    struct slice *next;
    char *name;
    unsigned counts[8];
};
struct scan {
    int id;
    struct slice *first;
    struct slice slices[3];
    long total;
};

static char axial[] = "axial";
static char coronal[] = "coronal";
int threshold = -7;
unsigned long mask = 0xfedcba9876543210;
struct scan scan = {
    .id = 41,
    .first = &scan.slices[1],
    .slices = {
        {512, 512, 12, 3, {5, -6}, 5000, &scan.slices[1], axial, {1, 2, 3, 4, 5, 6, 7, 8}},
        {256, 128, -16, 5, {7, 9}, -4000, &scan.slices[2], coronal, {9, 9, 9, 4000000000, 9, 9, 9, 9}},
        {64, 32, 8, 255, {-1, 1}, 123456789012, &scan.slices[0], axial, {0}},
    },
    .total = 1000000007,
};

static long rebuild(struct scan *s, int row, long budget)
{
    struct slice *p = s->first;
    return p->width * row + budget; // the expressions are evaluated here
}

int main(void)
{
    return rebuild(&scan, 2, 100) == 0;
}

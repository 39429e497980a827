// What GDB compiles expressions over, optimized: locals in registers, a list, a ring, strings behind pointers.
#include <stdint.h>

enum state { WAITING, SERVED, FAILED };
struct patient {
    char name[16];
    uint16_t year;
};
struct request {
    struct request *next;
    const char *protocol;
    struct patient patient;
    uint32_t size;
    int16_t priority;
    uint8_t state;
    uint64_t due;
    const uint16_t *rows;
};
struct ring {
    uint32_t head, tail, mask;
    int32_t levels[8];
};
struct queue {
    struct request *first;
    struct ring ring;
    const char *owner;
    long served;
};

static const uint16_t rows[] = {512, 256, 128, 64};
static struct request third = {0, "spine sagittal", {"Okafor", 1988}, 90000, -2, WAITING, 5200, rows + 2};
static struct request second = {&third, "knee", {"Lindqvist", 2001}, 4096, 1, WAITING, 900, rows + 1};
static struct request first = {&second, "head axial", {"Moreau", 1957}, 262144, 7, SERVED, 1500, rows};
static struct queue requests = {&first, {6, 2, 7, {3, -4, 5, 0, 12, 700000, -8, 1}}, "console 2", 41};
int urgent = 3;
uint64_t horizon = 1000;

__attribute__((noipa)) static void count(struct queue *q)
{
    q->served++;
}

__attribute__((noipa)) static long serve(struct queue *q, unsigned most, long now)
{
    long cost = 0;
    unsigned done = 0;
    for (struct request *r = q->first; r && done < most; r = r->next) {
        int level = q->ring.levels[(q->ring.head + done) & q->ring.mask];
        long wait = (long)r->due - now;
        count(q);
        cost += wait * level + r->priority; // the expressions are evaluated here
        r->state = SERVED;
        done++;
    }
    return cost + most;
}

int main(void)
{
    return serve(&requests, 3, 1000) == 0;
}

// What GDB compiles expressions over: bit fields, unions, enums, numbers of each width, rows of rows, nested members.
#include <stdbool.h>
#include <stdint.h>

enum mode { IDLE, PREPARE, EXPOSE, READ_OUT };
enum { CHANNELS = 4, MODULES = 3, LINES = 4, COLUMNS = 6 };

struct status {
    unsigned ready : 1, fault : 1, mode : 3, gain : 5, column : 12;
    int offset : 7;
};
union sample {
    uint32_t word;
    uint8_t bytes[4];
    struct {
        uint16_t low, high;
    } halves;
};
struct channel {
    int8_t bias;
    uint8_t gain;
    int16_t dark;
    uint16_t bright;
    int32_t sum;
    uint32_t hits;
    int64_t energy;
    uint64_t clock;
    union sample last;
};
struct place {
    short row, column;
};
struct module {
    const char *serial;
    char label[12];
    struct status status;
    struct channel channels[CHANNELS];
    float temperature;
    struct {
        struct place first, last;
    } window;
};
struct detector {
    enum mode mode;
    bool armed;
    struct module *modules[MODULES];
    uint16_t lines[LINES][COLUMNS];
    uint64_t exposures;
    int (*on_fault)(struct detector *);
};

static struct module left = {
    "DM-0417", "left", {1, 0, 2, 17, 1200, -9},
    {{-3, 16, -120, 4000, 81234, 57, -5000000000, 99, {0x12345678}}, {4, 15, 130, 4100, -81234, 58, 6000000000, 100, {0xcafe0102}}},
    21.5f, {{10, 20}, {500, 700}},
};
static struct module right = {
    "DM-0418", "right", {1, 1, 3, 31, 4095, 12},
    {{-128, 255, -32768, 65535, -2147483647, 4294967295u, INT64_MIN, UINT64_MAX, {0x80000001}}, {1, 1, 1, 1, 1, 1, 1, 1, {1}},
     {7, 14, -1, 3900, 1000, 12, 123456789, 101, {0x00ff00ff}}},
    -3.25f, {{-10, -20}, {511, 767}},
};
unsigned short limit = 3950;
long faults = 3;
const char *const mode_names[] = {"idle", "prepare", "expose", "read out"};

static int shut(struct detector *d)
{
    d->armed = false;
    return 1;
}

static struct detector unit = {
    READ_OUT, true, {&left, &right, &left},
    {{1, 2, 3, 4, 5, 6}, {4001, 4002, 4003, 65535, 0, 7}, {9, 9, 9, 9, 9, 9}}, 70000000001, shut,
};

static int read_out(struct detector *d, unsigned module, int line)
{
    struct module *m = d->modules[module];
    struct channel *c = &m->channels[2];
    uint16_t *values = d->lines[line];
    int8_t drift = -5;
    uint64_t total = 0;
    char note[8] = "warm-up";
    for (int column = 3; column < COLUMNS; column++)
        total += values[column] + c->bright - drift; // the expressions are evaluated here
    return (int)total + note[0];
}

int main(void)
{
    return read_out(&unit, 1, 1) > limit && unit.on_fault(&unit) != 0;
}

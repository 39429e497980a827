// What the benchmark runs: expressions, and the registers, memory and variables that they are run with.
#ifndef WORKLOADS_H
#define WORKLOADS_H

#include <stddef.h>
#include <stdint.h>

struct memory {
    uint64_t first;
    size_t length;
    uint8_t bytes[16384];
};

struct scene {
    uint64_t registers[257]; // of which 16 are lent; all for a refusal
    struct memory image, work;
    uint64_t variables[64];
};

struct expression {
    const char *name;
    const struct scene *scene;
    int kind; // of a hit
    size_t length;
    uint8_t bytes[1024];
};

// ---- hits: what GDB compiled over programs at a breakpoint (../gdb/hits.txt)

enum { CONDITION_HIT, ASSIGN_HIT, COLLECT_HIT, STRING_HIT, HIT_KINDS, MOST_HITS = 256 };

// Reads the stored hits, in an order that mixes programs and kinds; the answer is how many. Exits where it cannot.
size_t read_hits(const char *path, struct expression hits[MOST_HITS]);

// ---- made up, with one scene for all of them

extern struct scene scene;
void make_scene(void);

enum { ARITHMETIC, SHIFTS, DIVISION, LONG_DIVISION, JUMPS, REF64, TRACE_QUICK, TRACENZ, CONDITION, COLLECTION, RUN_COUNT };
void make_run(struct expression *e, int which);

enum { QUICK_TIMES = 100 };

void make_end(struct expression *e);                        // `27`
void make_short(struct expression *e);                      // 27 bytes of GDB's
void make_chain(struct expression *e, size_t bytes);        // so many bytes, one step fewer
void make_bytes(struct expression *e, size_t bytes);        // records so many bytes, in four records
void make_quick(struct expression *e, size_t bytes);        // QUICK_TIMES records of so many bytes
void make_random(struct expression *e, uint64_t *seed);     // mostly acceptable, all opcodes

// Fills the buffer with so many frames of a memory and a variable record; the answer is the used length.
size_t make_frames(uint8_t *buffer, size_t frames);

// The same with no records.
size_t make_empty_frames(uint8_t *buffer, size_t frames);

// Fills the buffer with one frame of so many memory records of so many bytes, up to 8; the answer is the used length.
size_t make_frame(uint8_t *buffer, size_t records, size_t bytes);

uint64_t next_random(uint64_t *seed);

#endif

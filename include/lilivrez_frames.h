/*
 * Lilivrez, the frame reader: finds the frames that runs have recorded, and reads their records.
 * Link with liblilivrez_frames.a. What the caller owes, what holds of every function, and the refusals are in
 * lilivrez.h.
 *
 * Each function is given the trace buffer, of at most LILIVREZ_BUFFER_BYTES bytes, and only reads it. Its bytes may be
 * any at all: what is broken is refused. The caller sees to it that no run writes into the buffer meanwhile.
 *
 * Frames are counted from the newest, 0, and the records of a frame from the first written, 0. A call of lilivrez_read,
 * lilivrez_count or lilivrez_locate finds the frame anew, from the newest on, and the first two look at all of its
 * records. To go over all of them, keep the place: lilivrez_walk steps from frame to frame, and lilivrez_next_record
 * from record to record. Then each frame and each record is looked at once.
 *
 * A refusal's offset is an offset in the buffer: for 22 the end of the frame whose trailer is broken, for 23 the first
 * broken record, for 25 the start of the frame, or the place given to lilivrez_next_record; it is 0 for 15 and 24.
 */
#ifndef LILIVREZ_FRAMES_H
#define LILIVREZ_FRAMES_H

#include "lilivrez.h"

#ifdef __cplusplus
extern "C" {
#endif

/* ---- reading records */

/* The kinds of records. */
enum lilivrez_record {
    LILIVREZ_RECORD_NONE = 0,
    LILIVREZ_RECORD_MEMORY = 1,
    LILIVREZ_RECORD_VARIABLE = 2
};

/* What lilivrez_read stores. The kind says which of the names of places 3 to 5 hold. */
enum lilivrez_read_place {
    LILIVREZ_READ_OFFSET = 0,     /* refused: the offset */
    LILIVREZ_READ_TRACEPOINT = 1, /* the frame's tracepoint number */
    LILIVREZ_READ_KIND = 2,       /* the record's kind; none where the reading is refused */
    LILIVREZ_READ_ADDRESS = 3,    /* memory: the address on the target */
    LILIVREZ_READ_LENGTH = 4,     /* memory: the number of bytes, 1 or more */
    LILIVREZ_READ_INDEX = 5,      /* memory: the index, in the buffer, of the first of them; all of them are in the buffer */
    LILIVREZ_READ_VARIABLE = 3,   /* variable: its number, below 64 */
    LILIVREZ_READ_VALUE = 4,      /* variable: its value */
    LILIVREZ_READ_PLACES = 6      /* the size of the array */
};

/* Reads one record. Returns 0, or the refusal: 15 or 22 to 25. */
uint32_t lilivrez_read(const uint8_t *buffer, size_t buffer_length, size_t used,
                       uint64_t frame, uint64_t index,
                       uint64_t out[LILIVREZ_READ_PLACES]);

/* What lilivrez_count stores. */
enum lilivrez_count_place {
    LILIVREZ_COUNT_OFFSET = 0,     /* refused: the offset */
    LILIVREZ_COUNT_TRACEPOINT = 1, /* the frame's tracepoint number */
    LILIVREZ_COUNT_START = 2,      /* the index, in the buffer, of its first byte */
    LILIVREZ_COUNT_LENGTH = 3,     /* the length of its records; the trailer of 8 bytes follows them */
    LILIVREZ_COUNT_RECORDS = 4,    /* the number of its records */
    LILIVREZ_COUNT_PLACES = 5      /* the size of the array */
};

/* Counts the records of one frame. Returns 0, or the refusal: 15 or 22 to 24. */
uint32_t lilivrez_count(const uint8_t *buffer, size_t buffer_length, size_t used,
                        uint64_t frame,
                        uint64_t out[LILIVREZ_COUNT_PLACES]);

/* ---- finding frames */

/* What lilivrez_locate stores. */
enum lilivrez_locate_place {
    LILIVREZ_LOCATE_OFFSET = 0,     /* refused: the offset */
    LILIVREZ_LOCATE_TRACEPOINT = 1, /* the frame's tracepoint number */
    LILIVREZ_LOCATE_START = 2,      /* the index, in the buffer, of its first byte */
    LILIVREZ_LOCATE_LENGTH = 3,     /* the length of its records; they are not looked at */
    LILIVREZ_LOCATE_PLACES = 4      /* the size of the array */
};

/* Finds one frame. Returns 0, or the refusal: 15, 22 or 24. */
uint32_t lilivrez_locate(const uint8_t *buffer, size_t buffer_length, size_t used,
                         uint64_t frame,
                         uint64_t out[LILIVREZ_LOCATE_PLACES]);

/* What lilivrez_walk stores. */
enum lilivrez_walk_place {
    LILIVREZ_WALK_OFFSET = 0,     /* refused: the offset */
    LILIVREZ_WALK_TRACEPOINT = 1, /* the frame's tracepoint number */
    LILIVREZ_WALK_START = 2,      /* the index, in the buffer, of its first byte */
    LILIVREZ_WALK_LENGTH = 3,     /* the length of its records; they are not looked at */
    LILIVREZ_WALK_NEXT = 4,       /* the place after the step: the start of the frame, or the place given where the step is refused */
    LILIVREZ_WALK_PLACES = 5      /* the size of the array */
};

/*
 * One step of a walk over the frames, from the newest to the oldest. Returns 0, or the refusal: 15, 22 or 24.
 *
 * place   where the walker is: at first the used length, then what the step before stored as LILIVREZ_WALK_NEXT. The
 *         library keeps nothing. The frame found ends at the place given, so that each step over a frame leaves a
 *         lower place; 24 tells the end of the walk.
 */
uint32_t lilivrez_walk(const uint8_t *buffer, size_t buffer_length, size_t place,
                       uint64_t out[LILIVREZ_WALK_PLACES]);

/* ---- going over the records of a frame */

/* What lilivrez_next_record stores. The kind says which of the names of places 2 to 4 hold. */
enum lilivrez_next_record_place {
    LILIVREZ_NEXT_RECORD_OFFSET = 0,   /* refused: the offset */
    LILIVREZ_NEXT_RECORD_KIND = 1,     /* the record's kind; none where the step is refused */
    LILIVREZ_NEXT_RECORD_ADDRESS = 2,  /* memory: the address on the target */
    LILIVREZ_NEXT_RECORD_LENGTH = 3,   /* memory: the number of bytes, 1 or more */
    LILIVREZ_NEXT_RECORD_INDEX = 4,    /* memory: the index, in the buffer, of the first of them; all are in the buffer */
    LILIVREZ_NEXT_RECORD_VARIABLE = 2, /* variable: its number, below 64 */
    LILIVREZ_NEXT_RECORD_VALUE = 3,    /* variable: its value */
    LILIVREZ_NEXT_RECORD_NEXT = 5,     /* the next place: behind the record, or the place given where the step is refused */
    LILIVREZ_NEXT_RECORD_PLACES = 6    /* the size of the array */
};

/*
 * One step over the records of a frame, from the first written to the last. Returns 0, or the refusal: 15, 23 or 25.
 *
 * end     where the frame's records end: its start plus the length of its records, as lilivrez_walk, lilivrez_locate
 *         and lilivrez_count store them. 15 where it lies past the buffer.
 * place   where a record begins: at first the frame's start, then what the step before stored as
 *         LILIVREZ_NEXT_RECORD_NEXT. The library keeps nothing. Each step over a record leaves a higher place, at most
 *         the end; 25 tells the end of the walk, and 23 a broken record at the place, behind which none can be found.
 *
 * lilivrez_read of a record by its number looks at all records of the frame, so that reading each of n by its number
 * takes n times n looks; this function looks at one. It tells a broken record only when it comes to it: where a frame
 * with a broken record is to be refused as a whole, call lilivrez_count first.
 *
 * All records of all frames, the newest frame first:
 *
 *     uint64_t frame[LILIVREZ_WALK_PLACES], record[LILIVREZ_NEXT_RECORD_PLACES];
 *     uint32_t refused;
 *     size_t before = used;
 *
 *     while ((refused = lilivrez_walk(buffer, length, before, frame)) == 0) {
 *         size_t place = frame[LILIVREZ_WALK_START];
 *         size_t end = place + frame[LILIVREZ_WALK_LENGTH];
 *
 *         while ((refused = lilivrez_next_record(buffer, length, end, place, record)) == 0) {
 *             use(frame[LILIVREZ_WALK_TRACEPOINT], record);
 *             place = record[LILIVREZ_NEXT_RECORD_NEXT];
 *         }
 *         if (refused != LILIVREZ_REFUSED_NO_SUCH_RECORD)
 *             report(refused, record[LILIVREZ_NEXT_RECORD_OFFSET]);
 *         before = frame[LILIVREZ_WALK_NEXT];
 *     }
 *     if (refused != LILIVREZ_REFUSED_NO_SUCH_FRAME)
 *         report(refused, frame[LILIVREZ_WALK_OFFSET]);
 */
uint32_t lilivrez_next_record(const uint8_t *buffer, size_t buffer_length, size_t end, size_t place,
                              uint64_t out[LILIVREZ_NEXT_RECORD_PLACES]);

/* The version of the archive, as a number like LILIVREZ_VERSION_NUMBER. */
uint32_t lilivrez_frames_version(void);

/* ---- by name: in every struct `refusal` is 0 where the call succeeded; where it is not, only `offset` tells more */

/* A frame that was found. */
struct lilivrez_frame {
    uint32_t refusal;
    uint64_t offset;
    uint64_t tracepoint; /* its number */
    size_t start;        /* the index, in the buffer, of its first byte */
    size_t length;       /* the length of its records; the trailer follows them */
};

static inline struct lilivrez_frame lilivrez_locate_in(const struct lilivrez_trace *trace, uint64_t frame)
{
    uint64_t out[LILIVREZ_LOCATE_PLACES];
    struct lilivrez_frame f;

    f.refusal = lilivrez_locate(trace->buffer, trace->length, trace->used, frame, out);
    f.offset = out[LILIVREZ_LOCATE_OFFSET];
    f.tracepoint = out[LILIVREZ_LOCATE_TRACEPOINT];
    f.start = (size_t)out[LILIVREZ_LOCATE_START];
    f.length = (size_t)out[LILIVREZ_LOCATE_LENGTH];
    return f;
}

/*
 * One step, from *place, which is moved to the start of the frame found, or stays where the step is refused:
 *
 *     size_t place = trace.used;
 *     struct lilivrez_frame f;
 *     while ((f = lilivrez_walk_in(&trace, &place)).refusal == LILIVREZ_NOT_REFUSED)
 *         ..
 */
static inline struct lilivrez_frame lilivrez_walk_in(const struct lilivrez_trace *trace, size_t *place)
{
    uint64_t out[LILIVREZ_WALK_PLACES];
    struct lilivrez_frame f;

    f.refusal = lilivrez_walk(trace->buffer, trace->length, *place, out);
    f.offset = out[LILIVREZ_WALK_OFFSET];
    f.tracepoint = out[LILIVREZ_WALK_TRACEPOINT];
    f.start = (size_t)out[LILIVREZ_WALK_START];
    f.length = (size_t)out[LILIVREZ_WALK_LENGTH];
    *place = (size_t)out[LILIVREZ_WALK_NEXT];
    return f;
}

/* A frame whose records were counted. */
struct lilivrez_counted {
    uint32_t refusal;
    uint64_t offset;
    uint64_t tracepoint;
    size_t start;
    size_t length;
    uint64_t records;
};

static inline struct lilivrez_counted lilivrez_count_in(const struct lilivrez_trace *trace, uint64_t frame)
{
    uint64_t out[LILIVREZ_COUNT_PLACES];
    struct lilivrez_counted c;

    c.refusal = lilivrez_count(trace->buffer, trace->length, trace->used, frame, out);
    c.offset = out[LILIVREZ_COUNT_OFFSET];
    c.tracepoint = out[LILIVREZ_COUNT_TRACEPOINT];
    c.start = (size_t)out[LILIVREZ_COUNT_START];
    c.length = (size_t)out[LILIVREZ_COUNT_LENGTH];
    c.records = out[LILIVREZ_COUNT_RECORDS];
    return c;
}

/* A record that was read. The kind says which of its fields apply; the others are 0 or NULL. */
struct lilivrez_record_read {
    uint32_t refusal;
    uint64_t offset;
    uint64_t tracepoint; /* of its frame */
    enum lilivrez_record kind;
    uint64_t address;     /* memory: the address on the target */
    const uint8_t *bytes; /* memory: the first of the bytes, in the buffer */
    size_t length;        /* memory: their number, 1 or more */
    uint64_t variable;    /* variable: its number, below 64 */
    uint64_t value;       /* variable: its value */
};

/* Of the four numbers that lilivrez_read and lilivrez_next_record store alike, from the kind on. */
static inline struct lilivrez_record_read lilivrez_record_told(const struct lilivrez_trace *trace, uint32_t refusal, uint64_t offset,
                                                               uint64_t tracepoint, const uint64_t told[4])
{
    struct lilivrez_record_read r;

    r.refusal = refusal;
    r.offset = offset;
    r.tracepoint = tracepoint;
    r.kind = (enum lilivrez_record)told[0];
    r.address = r.kind == LILIVREZ_RECORD_MEMORY ? told[1] : 0;
    r.bytes = r.kind == LILIVREZ_RECORD_MEMORY ? trace->buffer + told[3] : NULL;
    r.length = r.kind == LILIVREZ_RECORD_MEMORY ? (size_t)told[2] : 0;
    r.variable = r.kind == LILIVREZ_RECORD_VARIABLE ? told[1] : 0;
    r.value = r.kind == LILIVREZ_RECORD_VARIABLE ? told[2] : 0;
    return r;
}

static inline struct lilivrez_record_read lilivrez_read_in(const struct lilivrez_trace *trace, uint64_t frame, uint64_t index)
{
    uint64_t out[LILIVREZ_READ_PLACES];
    uint32_t refusal = lilivrez_read(trace->buffer, trace->length, trace->used, frame, index, out);

    return lilivrez_record_told(trace, refusal, out[LILIVREZ_READ_OFFSET], out[LILIVREZ_READ_TRACEPOINT], out + LILIVREZ_READ_KIND);
}

/*
 * One step over the records of a frame that was found, from *place, at first the frame's start; it is moved behind the
 * record, or stays where the step is refused:
 *
 *     size_t place = f.start;
 *     struct lilivrez_record_read r;
 *     while ((r = lilivrez_next_record_in(&trace, &f, &place)).refusal == LILIVREZ_NOT_REFUSED)
 *         ..
 */
static inline struct lilivrez_record_read lilivrez_next_record_in(const struct lilivrez_trace *trace, const struct lilivrez_frame *frame,
                                                                  size_t *place)
{
    uint64_t out[LILIVREZ_NEXT_RECORD_PLACES];
    uint32_t refusal = lilivrez_next_record(trace->buffer, trace->length, frame->start + frame->length, *place, out);
    uint64_t tracepoint = refusal == LILIVREZ_NOT_REFUSED ? frame->tracepoint : 0;

    *place = (size_t)out[LILIVREZ_NEXT_RECORD_NEXT];
    return lilivrez_record_told(trace, refusal, out[LILIVREZ_NEXT_RECORD_OFFSET], tracepoint, out + LILIVREZ_NEXT_RECORD_KIND);
}

#ifdef __cplusplus
}
#endif

#endif

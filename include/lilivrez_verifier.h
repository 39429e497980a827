/*
 * Lilivrez, the verifier: does a GDB agent expression run safely, and how long at most?
 * Link with liblilivrez_verifier.a. What the caller owes, what holds of every function, and the refusals are in
 * lilivrez.h.
 */
#ifndef LILIVREZ_VERIFIER_H
#define LILIVREZ_VERIFIER_H

#include "lilivrez.h"

#ifdef __cplusplus
extern "C" {
#endif

/*
 * What lilivrez_verify stores. The height is how many cells the stack holds. A walk is a way that a run may take: the
 * instructions one after the other, from the first on, and after a conditional jump either way.
 */
enum lilivrez_verify_place {
    LILIVREZ_VERIFY_OFFSET = 0, /* refused: the offset, in the expression, of the instruction at fault (0 for refusal 1) */
    LILIVREZ_VERIFY_COUNT = 1,  /* accepted: the number of instructions, reached or not */
    LILIVREZ_VERIFY_HEIGHT = 2, /* accepted: the greatest height of the stack */
    LILIVREZ_VERIFY_WALK = 3,   /* accepted: the number of instructions on the longest walk to an end; no run takes more steps */
    LILIVREZ_VERIFY_PLACES = 4  /* the size of the array */
};

/* Verifies an expression. Returns 0 where it is accepted, else the refusal: 1 to 11. */
uint32_t lilivrez_verify(const uint8_t *expression, size_t expression_length, uint64_t out[LILIVREZ_VERIFY_PLACES]);

/* The version of the archive, as a number like LILIVREZ_VERSION_NUMBER. */
uint32_t lilivrez_verifier_version(void);

/* ---- by name */

/* What lilivrez_verify returns and stores. */
struct lilivrez_verdict {
    uint32_t refusal; /* 0 where the expression is accepted */
    uint64_t offset;  /* refused: as LILIVREZ_VERIFY_OFFSET. The others are 0 then. */
    uint64_t instructions;
    uint64_t greatest_height;
    uint64_t longest_walk;
};

static inline struct lilivrez_verdict lilivrez_verdict_of(const uint8_t *expression, size_t expression_length)
{
    uint64_t out[LILIVREZ_VERIFY_PLACES];
    struct lilivrez_verdict v;

    v.refusal = lilivrez_verify(expression, expression_length, out);
    v.offset = out[LILIVREZ_VERIFY_OFFSET];
    v.instructions = out[LILIVREZ_VERIFY_COUNT];
    v.greatest_height = out[LILIVREZ_VERIFY_HEIGHT];
    v.longest_walk = out[LILIVREZ_VERIFY_WALK];
    return v;
}

#ifdef __cplusplus
}
#endif

#endif

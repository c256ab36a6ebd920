/*
 * Memory that is lent to a function of the archive and that the call may not write to: the machine
 * itself keeps it. So a write is noticed also where it leaves the bytes as they were, which no
 * comparison of them tells.
 */
#ifndef REPLAY_SEALED_H
#define REPLAY_SEALED_H

#include <stddef.h>

#include "lent.h"

/* It has pages of its own, and keeps them: it has to be static. */
struct sealed {
    const char *fault;     /* what is wrong where it is written to, in words */
    struct lent *ours;     /* its pages, as they are filled here; NULL until then */
    struct lent *theirs;   /* the same pages once more, as they are lent: only to be read */
    struct sealed *before; /* what got its pages before it */
};

#define SEALED(fault) \
    { fault, NULL, NULL, NULL }

/* Lends as `lend` does, between guard bytes and aligned alike, what can only be read. */
void *seal(struct sealed *sealed, const void *from, size_t length, size_t align);

/*
 * Runs something. A write to what is sealed ends it, and the answer is what is wrong then; else it
 * is NULL. Any other fault ends the program, as it would have. What is run does not call this.
 */
const char *broken_seal(void (*run)(void *of), void *of);

/* Whether a write to what is sealed is noticed on this machine, or by what emulates one. */
int seals_hold(void);

#endif

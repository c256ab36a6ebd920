/*
 * Memory that is lent to a function of the archive: as many bytes as it may touch, between guard
 * bytes, so that a write past either end is noticed. It is aligned as its type asks, and no better.
 */
#ifndef REPLAY_LENT_H
#define REPLAY_LENT_H

#include <stddef.h>
#include <stdint.h>

#define LENT_ROOM 65600 /* bytes that can be lent: more than a sheet of the lists has */
#define LENT_GUARD 64   /* guard bytes on each side, at least */
#define LENT_BYTES (LENT_GUARD + 8 + LENT_ROOM + LENT_GUARD)

struct lent {
    uint64_t space[LENT_BYTES / 8]; /* words, so that it is aligned */
    uint8_t before[LENT_BYTES];     /* what stood there when it was lent */
    size_t at;                      /* where the lent bytes begin */
    size_t length;
};

/*
 * Lends so many bytes, at most LENT_ROOM: a copy of what is named, or, where that is NULL, bytes
 * that are no answer. Their address is a multiple of `align`, 1, 4 or 8, and, of 1 or 4, not of its
 * double.
 */
void *lend(struct lent *lent, const void *from, size_t length, size_t align);

/* The lent bytes, as they are now. */
const uint8_t *lent_bytes(const struct lent *lent);

/* Whether all the guard bytes are as they were. */
int is_kept(const struct lent *lent);

/* Whether all the lent bytes are, and the guard bytes too. */
int is_untouched(const struct lent *lent);

#endif

#include "lent.h"

#include <stdlib.h>
#include <string.h>

/*
 * No byte of it is 0, and no four of them are a small number, or a float in 0..1: what was not
 * written does not pass for an answer.
 */
static uint8_t filling(size_t i) {
    return (uint8_t)(0x40 | (7 * i & 0x3f));
}

/* The bytes from the first guard byte on, and how many they are with the guard bytes of the end. */
static const uint8_t *all(const struct lent *lent) {
    return (const uint8_t *)lent->space;
}

static size_t size(const struct lent *lent) {
    return lent->at + lent->length + LENT_GUARD;
}

void *lend(struct lent *lent, const void *from, size_t length, size_t align) {
    size_t i;
    if (length > LENT_ROOM) {
        abort();
    }
    lent->at = LENT_GUARD + align;
    lent->length = length;
    for (i = 0; i < size(lent); i++) {
        lent->before[i] = filling(i);
    }
    if (from != NULL) {
        memcpy(lent->before + lent->at, from, length);
    }
    memcpy(lent->space, lent->before, size(lent));
    return (uint8_t *)lent->space + lent->at;
}

const uint8_t *lent_bytes(const struct lent *lent) {
    return all(lent) + lent->at;
}

int is_kept(const struct lent *lent) {
    size_t end = lent->at + lent->length;
    return memcmp(all(lent), lent->before, lent->at) == 0 &&
           memcmp(all(lent) + end, lent->before + end, LENT_GUARD) == 0;
}

int is_untouched(const struct lent *lent) {
    return memcmp(all(lent), lent->before, size(lent)) == 0;
}

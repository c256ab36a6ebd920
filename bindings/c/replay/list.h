/*
 * What the readers of all lists share: the words that a list is made of, what is found wrong with a
 * record, and the tally.
 */
#ifndef REPLAY_LIST_H
#define REPLAY_LIST_H

#include <stddef.h>
#include <stdint.h>

/* ---- words: four bytes, the least first ---- */

uint32_t word_at(const uint8_t *bytes);

float float_of(uint32_t bits);

/* The bits of a float, and of every NaN 7fc00000, as the lists write an answer that is one. */
uint32_t bits_of(float x);

/* ---- what is found ---- */

/* What is wrong with a record: what was found first, in words. Empty where nothing is. */
struct fault {
    char words[160];
};

/* Notes what is wrong, in the format of printf, where something does not hold. */
void must(struct fault *fault, int holds, const char *format, ...);

/* What came of a list. */
struct tally {
    const char *list;    /* its name */
    size_t compared;     /* records that were run through the archive */
    size_t not_exported; /* records of kinds that the archive has no function for */
    size_t differ;
    size_t shown; /* how many more differences are to be shown */
};

/* Counts a difference, and shows it, in the format of printf, if it is one of the first. */
void count_difference(struct tally *tally, const char *format, ...);

/* ---- a list ---- */

/* How many bytes there is room for: more than a list has. */
#define LIST_ROOM 1048576

/*
 * Reads a list into that room, from its path under the root, and answers its length; of a file that
 * cannot be read, 0.
 */
size_t read_list(uint8_t *room, const char *root, const char *path);

/*
 * Counts a difference unless the records end where the list does and are as many as its first word
 * says. A list that fills the room may have more to come.
 */
void must_be_whole(struct tally *tally, const uint8_t *list, size_t length, size_t at,
                   size_t records);

/* A reader: compares every record of a list, and tells what came of it. */
typedef void replay_function(const uint8_t *list, size_t length, struct tally *tally);

replay_function replay_answers; /* answers.c: crates/replay/stdin */
replay_function replay_sheets;  /* sheets.c: crates/sheets/stdin */

#endif

/*
 * The kinds of the list of answers, crates/replay/stdin, each with what the archive answers. The
 * head of crates/replay/src/main.rt says what the inputs and the answers of each kind are.
 */
#ifndef REPLAY_KINDS_H
#define REPLAY_KINDS_H

#include "list.h"

#define MOST_INPUTS 65535 /* words of the inputs, and of the answers: a head cannot say more */
#define MOST_ANSWERS 255

/* What a record asks. */
struct asked {
    const float *x; /* its inputs */
    size_t answers; /* how many words its answers take */
    size_t number;  /* the number of its kind */
};

/* What the archive answers, and what else is wrong with a call. */
struct given {
    uint32_t words[MOST_ANSWERS];
    size_t count;
    struct fault fault;
};

/* Floats as further answers. */
void give_floats(struct given *given, const void *floats, size_t count);

/* A number as a further answer. */
void give_number(struct given *given, size_t number);

typedef void answer_function(const struct asked *asked, struct given *given);

/* A kind. There is no function where the archive has none. */
struct kind {
    uint32_t head; /* 0xKKAAIIII: the kind, how many words the answers take, how many the inputs */
    const char *name;
    answer_function *answer;
    size_t number; /* the rotor, or the count, that the kind stands for; else 0 */
};

#define LAST_KIND \
    { 0, NULL, NULL, 0 }

/* The tables of kinds; the last of each is LAST_KIND. answers.c names them all. */
extern const struct kind quad_kinds[];         /* quad.c */
extern const struct kind frame_kinds[];        /* frames.c */
extern const struct kind row_kinds[];          /* rows.c */
extern const struct kind thrust_floor_kinds[]; /* thrust_floor.c */

/* Makes the quad's state a new one, as it is at the start of the list. */
void start_quad(void);

/* ---- what the two mixes by lent rows share ---- */

/* Lengths, in floats. */
struct lengths {
    size_t rows;
    size_t outputs;
};

/* Lengths that are refused: near those of a record, and over 64 outputs. */
#define REFUSED_LENGTHS 3

struct lengths refused_lengths(size_t outputs, size_t which);

#endif

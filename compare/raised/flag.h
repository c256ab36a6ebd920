/* Which of many calls raise the processor's invalid flag (IEEE 754-2019, 7.2), and at which instruction. */
#ifndef FLAG_H
#define FLAG_H

#include <stdint.h>

/* A call, by its number among some. It has no arithmetic but that of the function that it calls. */
typedef void call_of(uint64_t k);

/*
 * Calls in blocks. A flag stays up until it is cleared, so that one look after a block tells of all its calls; only
 * where that finds it up are they made again, one by one.
 */
struct calls {
    uint64_t blocks;
    uint64_t in_block;
    void (*begin)(uint64_t block); /* makes a block ready */
    call_of *call;
    void (*raises)(uint64_t k); /* is told of each call that raises the flag */
};

/* Makes every call, and answers how many raise the flag. */
uint64_t raised_by(const struct calls *calls);

/* Whether a call raises it. */
int one_raises(call_of *call, uint64_t k);

/* The instruction at which a debugger that stops on the flag stops in a call; NULL where this machine does not tell. */
const void *stops_at(call_of *call, uint64_t k);

#endif

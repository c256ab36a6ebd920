/* Floats by their bit patterns: a signalling NaN stays one, since nothing is computed with it. */
#ifndef PATTERNS_H
#define PATTERNS_H

#include <stdint.h>
#include <string.h>

static inline float float_of(uint32_t bits) {
    float x;
    memcpy(&x, &bits, sizeof x);
    return x;
}

/* The kinds of patterns (IEEE 754-2019, 3.4 and 6.2.1). */
enum kind { FINITE, INFINITE, QUIET_NAN, SIGNALLING_NAN, KINDS };

static inline enum kind kind_of(uint32_t bits) {
    if ((bits >> 23 & 0xff) != 0xff) {
        return FINITE;
    }
    if ((bits & 0x007fffff) == 0) {
        return INFINITE;
    }
    return (bits & 0x00400000) != 0 ? QUIET_NAN : SIGNALLING_NAN;
}

#endif

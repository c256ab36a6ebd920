/*
 * The flag. Nothing is computed in this file, and what is called stands in others, so that no compiler can move
 * arithmetic past a look at the flag.
 *
 * On x86-64 the archive computes with SSE alone, whose flags and masks are in the register MXCSR. C's <fenv.h>, which
 * serves elsewhere, has the older x87's too, and takes ten times as long there.
 */
#define _POSIX_C_SOURCE 200809L
#include "flag.h"

#include <stddef.h>

#if defined(__x86_64__)

#include <setjmp.h>
#include <signal.h>
#include <string.h>
#include <xmmintrin.h>

static void clear(void) {
    _mm_setcsr(_mm_getcsr() & ~(unsigned)_MM_EXCEPT_INVALID);
}

static int raised(void) {
    return (_mm_getcsr() & _MM_EXCEPT_INVALID) != 0;
}

static sigjmp_buf before;
static const void *volatile stopped_at;

static void stop(int number, siginfo_t *info, void *context) {
    (void)number;
    (void)context;
    stopped_at = info->si_addr;
    siglongjmp(before, 1);
}

const void *stops_at(call_of *call, uint64_t k) {
    const unsigned masked = _mm_getcsr() | _MM_MASK_INVALID;
    struct sigaction ours, theirs;
    memset(&ours, 0, sizeof ours);
    ours.sa_sigaction = stop;
    ours.sa_flags = SA_SIGINFO;
    stopped_at = NULL;
    sigaction(SIGFPE, &ours, &theirs);
    if (sigsetjmp(before, 1) == 0) {
        clear();
        _mm_setcsr(_mm_getcsr() & ~(unsigned)_MM_MASK_INVALID);
        call(k);
    }
    _mm_setcsr(masked);
    sigaction(SIGFPE, &theirs, NULL);
    return stopped_at;
}

#else

#include <fenv.h>

static void clear(void) {
    feclearexcept(FE_INVALID);
}

static int raised(void) {
    return fetestexcept(FE_INVALID) != 0;
}

const void *stops_at(call_of *call, uint64_t k) {
    (void)call;
    (void)k;
    return NULL;
}

#endif

int one_raises(call_of *call, uint64_t k) {
    clear();
    call(k);
    return raised();
}

static int block_raises(const struct calls *calls) {
    clear();
    for (uint64_t k = 0; k < calls->in_block; k++) {
        calls->call(k);
    }
    return raised();
}

uint64_t raised_by(const struct calls *calls) {
    uint64_t count = 0;
    for (uint64_t block = 0; block < calls->blocks; block++) {
        calls->begin(block);
        if (!block_raises(calls)) {
            continue;
        }
        for (uint64_t k = 0; k < calls->in_block; k++) {
            if (one_raises(calls->call, k)) {
                count++;
                calls->raises(k);
            }
        }
    }
    return count;
}

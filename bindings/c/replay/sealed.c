#define _GNU_SOURCE /* POSIX, and memfd_create */

#include "sealed.h"

#include <setjmp.h>
#include <signal.h>
#include <stdio.h>
#include <stdlib.h>
#include <sys/mman.h>
#include <unistd.h>

/* Where the system does not give what this needs, nothing can be said of the archive. */
static void need(int holds, const char *what) {
    if (!holds) {
        perror(what);
        abort();
    }
}

/*
 * ---- pages ----
 *
 * They are mapped twice, so that they are filled with no call of the system: with mprotect before
 * and after, a replay took twenty times as long.
 */

#define LARGEST_PAGE 65536 /* a multiple of what machines have, so that whole pages are mapped */
#define PAGES_BYTES ((sizeof(struct lent) / LARGEST_PAGE + 1) * LARGEST_PAGE)

static struct sealed *last; /* what got its pages last: from it on, all that have some */

static void *map(int file, int allowed) {
    void *pages = mmap(NULL, PAGES_BYTES, allowed, MAP_SHARED, file, 0);
    need(pages != MAP_FAILED, "mmap");
    return pages;
}

static void take_pages(struct sealed *sealed) {
    int file = memfd_create("sealed", 0);
    need(file != -1, "memfd_create");
    need(ftruncate(file, PAGES_BYTES) == 0, "ftruncate");
    sealed->ours = map(file, PROT_READ | PROT_WRITE);
    sealed->theirs = map(file, PROT_READ);
    close(file);
    sealed->before = last;
    last = sealed;
}

void *seal(struct sealed *sealed, const void *from, size_t length, size_t align) {
    if (sealed->ours == NULL) {
        take_pages(sealed);
    }
    lend(sealed->ours, from, length, align);
    return (uint8_t *)sealed->theirs->space + sealed->ours->at;
}

/* ---- faults ---- */

static sigjmp_buf start;        /* where it goes on after a run that is ended */
static struct sigaction others; /* what becomes of any other fault */
static const char *broken;      /* what is wrong with the run */

/* What is sealed at an address; NULL where nothing is. */
static const struct sealed *sealed_at(const void *address) {
    const struct sealed *sealed = last;
    while (sealed != NULL && (uintptr_t)address - (uintptr_t)sealed->theirs >= PAGES_BYTES) {
        sealed = sealed->before;
    }
    return sealed;
}

/* What is sealed can be read, so that a fault in it is a write. */
static void on_fault(int number, siginfo_t *info, void *context) {
    const struct sealed *sealed = sealed_at(info->si_addr);
    (void)context;
    if (sealed != NULL) {
        broken = sealed->fault;
        siglongjmp(start, 1);
    }
    sigaction(number, &others, NULL);
    raise(number); /* held back until this returns to where the fault was */
}

const char *broken_seal(void (*run)(void *of), void *of) {
    struct sigaction ours;
    ours.sa_sigaction = on_fault;
    ours.sa_flags = SA_SIGINFO;
    sigemptyset(&ours.sa_mask);
    broken = NULL;
    need(sigaction(SIGSEGV, &ours, &others) == 0, "sigaction");
    if (sigsetjmp(start, 1) == 0) {
        run(of);
    }
    need(sigaction(SIGSEGV, &others, NULL) == 0, "sigaction");
    return broken;
}

/* ---- a trial ---- */

/* Writes a byte as it is. Without volatile the compiler may leave that out. */
static void write_back(void *of) {
    volatile uint8_t *byte = of;
    *byte = *byte;
}

int seals_hold(void) {
    static struct sealed tried = SEALED("the trial");
    return broken_seal(write_back, seal(&tried, NULL, 1, 1)) == tried.fault;
}

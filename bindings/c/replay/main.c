/*
 * Replays the fixed lists of answers through the archive libexported.a: calls the exported
 * functions on the inputs of each record and compares what they answer with what the list says, by
 * bits. Of an answer that is a NaN the list has 7fc00000, and any NaN of ours agrees with it.
 *
 *   replay [ROOT]
 *
 *   ROOT   the folder that the lists' paths begin from: the repository (default: the current one)
 *
 * It prints a line for each of the first differences, a line for each list, and last how much was
 * compared in all and how much of it differs. What is not read never passes: a head that no kind
 * has counts as a difference, and so does a list that is not as many whole records as it says. A
 * write to what a call may only read, or has to leave alone because it refuses, counts as one too,
 * also where it leaves the bytes as they were. Exit status 0 only if nothing differs; 2 is a bad
 * call, or a machine on which such a write is not noticed.
 *
 * `bindings/c/run` builds and runs it.
 */
#include <stdio.h>

#include "list.h"
#include "sealed.h"

struct list {
    const char *path; /* from the root */
    const char *what; /* what it is a list of */
    replay_function *replay;
};

/* All lists. One more is its reader, a file of this folder that list.h names, and a line here. */
static const struct list lists[] = {
    {"crates/replay/stdin", "answers", replay_answers},
    {"crates/sheets/stdin", "sheets", replay_sheets},
};

#define LISTS (sizeof lists / sizeof lists[0])
#define SHOWN 4 /* differences of a list that are shown */

static uint8_t room[LIST_ROOM];

static struct tally replay(const char *root, const struct list *list) {
    struct tally tally = {NULL, 0, 0, 0, SHOWN};
    tally.list = list->path;
    list->replay(room, read_list(room, root, list->path), &tally);
    printf("%s: %u %s compared through the archive, ", list->path, (unsigned)tally.compared,
           list->what);
    if (tally.not_exported > 0) {
        printf("%u of kinds that are not exported, ", (unsigned)tally.not_exported);
    }
    printf("%u differ\n", (unsigned)tally.differ);
    return tally;
}

int main(int argc, char **argv) {
    struct tally tallies[LISTS];
    size_t i, differ = 0;
    if (argc > 2) {
        fprintf(stderr, "usage: replay [ROOT]\n");
        return 2;
    }
    if (!seals_hold()) {
        fprintf(stderr, "replay: a write to sealed memory is not noticed here\n");
        return 2;
    }
    for (i = 0; i < LISTS; i++) {
        tallies[i] = replay(argc == 2 ? argv[1] : ".", &lists[i]);
        differ += tallies[i].differ;
    }
    for (i = 0; i < LISTS; i++) {
        printf("%s%u %s", i == 0 ? "" : " and ", (unsigned)tallies[i].compared, lists[i].what);
    }
    printf(", %u differ\n", (unsigned)differ);
    return differ == 0 ? 0 : 1;
}

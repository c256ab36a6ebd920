/*
 * Spoils the lists, one place at a time, and sees that the readers notice: a bit of an answer,
 * which has to be told as one difference; a head that no kind has; a kind that has no record any
 * more. What is taken for an answer here is read from the lists apart from the readers.
 *
 *   bits ROOT
 *
 * It prints a line for each way of spoiling, and last 'N wrong, M noticed'. Exit status 0 only if M
 * is N.
 */
#include <stdio.h>
#include <string.h>

#include "../replay/list.h"

static uint8_t list[LIST_ROOM];
static size_t length;

static size_t wrong, noticed;

/* ---- a spoiled list ---- */

static size_t differences(const uint8_t *of, size_t its_length, replay_function *replay) {
    struct tally tally = {"", 0, 0, 0, 0};
    replay(of, its_length, &tally);
    return tally.differ;
}

static void note(int is_noticed, const char *what, size_t at) {
    wrong++;
    noticed += is_noticed ? 1 : 0;
    if (!is_noticed) {
        printf("not noticed: %s at byte %u\n", what, (unsigned)at);
    }
}

/* Says how many more there are since the last time. */
static void say(const char *what) {
    static size_t wrong_before, noticed_before;
    printf("%s: %u wrong, %u noticed\n", what, (unsigned)(wrong - wrong_before),
           (unsigned)(noticed - noticed_before));
    wrong_before = wrong;
    noticed_before = noticed;
}

/* ---- the list of answers ---- */

static size_t end_of(size_t at) {
    uint32_t head = word_at(list + at);
    return at + 4 + 4 * (head & 0xffff) + 4 * (head >> 16 & 0xff);
}

static int is_first_of_its_head(size_t at) {
    size_t before;
    for (before = 4; before < at; before = end_of(before)) {
        if (word_at(list + before) == word_at(list + at)) {
            return 0;
        }
    }
    return 1;
}

/* Kind 3 and those from 9 on are functions of the archive. */
static int is_exported(size_t at) {
    uint8_t kind = list[at + 3];
    return kind == 3 || kind >= 9;
}

/* Another bit in each word of the record's answers. */
static void turn_answers(size_t at) {
    static unsigned bit;
    size_t i;
    for (i = at + 4 + 4 * (word_at(list + at) & 0xffff); i < end_of(at); i += 4) {
        uint8_t *byte = &list[i + bit / 8 % 4];
        uint8_t mask = (uint8_t)(1 << bit % 8);
        *byte ^= mask;
        note(differences(list, length, replay_answers) == 1, "an answer", i);
        *byte ^= mask;
        bit += 7;
    }
}

static void change_head(size_t at) {
    list[at + 3] ^= 0x40;
    note(differences(list, length, replay_answers) > 0, "a head", at);
    list[at + 3] ^= 0x40;
}

/* The list without the records of one head, and with the right count. */
static void leave_out(size_t first) {
    static uint8_t shorter[LIST_ROOM];
    size_t at, to = 4;
    uint32_t count = 0;
    int i;
    for (at = 4; at < length; at = end_of(at)) {
        if (word_at(list + at) != word_at(list + first)) {
            memcpy(shorter + to, list + at, end_of(at) - at);
            to += end_of(at) - at;
            count++;
        }
    }
    for (i = 0; i < 4; i++) {
        shorter[i] = (uint8_t)(count >> 8 * i);
    }
    note(differences(shorter, to, replay_answers) > 0, "a kind that is left out", first);
}

static void for_each_head(void (*spoil)(size_t at), int also_inner) {
    size_t at;
    for (at = 4; at < length; at = end_of(at)) {
        if ((also_inner || is_exported(at)) && is_first_of_its_head(at)) {
            spoil(at);
        }
    }
}

static void spoil_answers(void) {
    for_each_head(turn_answers, 0);
    say("a bit in each answer of the first record of each kind");
    for_each_head(change_head, 1);
    say("a head that no kind has");
    for_each_head(leave_out, 1);
    say("a kind left out");
}

/* ---- the list of sheets ---- */

/* The places of the words, and how many bytes they take. */
enum { SHEET = 0, OUTPUT = 4, NUMBER = 8, AFTER = 48, BODY_AT = 84, TEXT = 92, HEAD = 96 };

/* A bit of each byte from one place to another, in a list of the one record. */
static void turn_bytes(uint8_t *record, size_t size, size_t from, size_t to, const char *what) {
    static unsigned bit;
    size_t i;
    for (i = from; i < to; i++) {
        uint8_t mask = (uint8_t)(1 << bit++ % 8);
        record[4 + i] ^= mask;
        note(differences(record, size, replay_sheets) == 1, what, i);
        record[4 + i] ^= mask;
    }
}

/* The answers: number and entry, the state after, the body's place and length, and the output. */
static void turn_sheet(const uint8_t *words, size_t size) {
    static uint8_t record[LIST_ROOM] = {1};
    size_t output = HEAD + word_at(words + SHEET);
    memcpy(record + 4, words, size);
    turn_bytes(record, 4 + size, NUMBER, NUMBER + 8, "a sheet's number or entry");
    turn_bytes(record, 4 + size, AFTER, AFTER + 32, "a sheet's state");
    turn_bytes(record, 4 + size, BODY_AT, BODY_AT + 8, "a sheet's body");
    turn_bytes(record, 4 + size, output, output + word_at(words + OUTPUT), "a sheet's output");
}

/* The first record of each number. */
static void spoil_sheets(void) {
    size_t at, size;
    unsigned done = 0;
    for (at = 4; at < length; at += size) {
        const uint8_t *words = list + at;
        size =
            HEAD + (size_t)word_at(words + SHEET) + word_at(words + OUTPUT) + word_at(words + TEXT);
        if ((done >> word_at(words + NUMBER) & 1) == 0) {
            done |= 1u << word_at(words + NUMBER);
            turn_sheet(words, size);
        }
    }
    say("a bit in each answer byte of the first sheet of each number");
}

/* ---- all lists: one more is how it is spoiled, and a line here ---- */

static const struct {
    const char *path;
    replay_function *replay;
    void (*spoil)(void);
} lists[] = {
    {"crates/replay/stdin", replay_answers, spoil_answers},
    {"crates/sheets/stdin", replay_sheets, spoil_sheets},
};

int main(int argc, char **argv) {
    size_t i;
    if (argc != 2) {
        fprintf(stderr, "usage: bits ROOT\n");
        return 2;
    }
    for (i = 0; i < sizeof lists / sizeof lists[0]; i++) {
        length = read_list(list, argv[1], lists[i].path);
        if (length == 0) {
            return 2;
        }
        if (differences(list, length, lists[i].replay) != 0) {
            fprintf(stderr, "%s differs before it is spoiled\n", lists[i].path);
            return 2;
        }
        lists[i].spoil();
    }
    printf("%u wrong, %u noticed\n", (unsigned)wrong, (unsigned)noticed);
    return noticed == wrong ? 0 : 1;
}

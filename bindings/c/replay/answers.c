/*
 * The walk over the list of answers, record by record. A record is its head, its inputs and its
 * answers.
 */
#include <string.h>

#include "kinds.h"
#include "sealed.h"

/* Functions inside of the library. They are named, so that no record is passed over unseen. */
static const struct kind not_exported[] = {
    {0x01010001, "sanitise", NULL, 0},
    {0x02010001, "limit", NULL, 0},
    {0x04010001, "float and bits", NULL, 0},
    {0x05010002, "clamp_floor", NULL, 0},
    {0x06010001, "scale of 0 motors", NULL, 0},
    {0x06010003, "scale of 1 motor", NULL, 0},
    {0x06010005, "scale of 2 motors", NULL, 0},
    {0x06010007, "scale of 3 motors", NULL, 0},
    {0x06010009, "scale of 4 motors", NULL, 0},
    {0x07010009, "det3", NULL, 0},
    {0x0804000c, "solve3", NULL, 0},
    LAST_KIND,
};

/* All tables of kinds. One more is its file, which kinds.h names, and a line here. */
static const struct kind *const tables[] = {
    not_exported, quad_kinds, frame_kinds, row_kinds, thrust_floor_kinds,
};

#define TABLES (sizeof tables / sizeof tables[0])

/* ---- a record ---- */

static size_t inputs_of(uint32_t head) {
    return head & 0xffff;
}

static size_t answers_of(uint32_t head) {
    return head >> 16 & 0xff;
}

static size_t size_of(uint32_t head) {
    return 4 + 4 * inputs_of(head) + 4 * answers_of(head);
}

/* The kind with the head; none where no table has it. */
static const struct kind *find(uint32_t head) {
    size_t t, k;
    for (t = 0; t < TABLES; t++) {
        for (k = 0; tables[t][k].name != NULL; k++) {
            if (tables[t][k].head == head) {
                return &tables[t][k];
            }
        }
    }
    return NULL;
}

void give_floats(struct given *given, const void *floats, size_t count) {
    size_t i;
    for (i = 0; i < count; i++) {
        float x;
        memcpy(&x, (const uint8_t *)floats + 4 * i, sizeof x);
        give_number(given, bits_of(x));
    }
}

void give_number(struct given *given, size_t number) {
    if (given->count < MOST_ANSWERS) {
        given->words[given->count] = number < UINT32_MAX ? (uint32_t)number : UINT32_MAX;
    }
    given->count++;
}

/* A function of a kind, and what it is run on. */
struct call {
    answer_function *answer;
    struct asked asked;
    struct given *given;
};

static void answer(void *of) {
    const struct call *call = of;
    call->answer(&call->asked, call->given);
}

/* Runs the function of a kind on the inputs of a record. */
static void run(const struct kind *kind, const uint8_t *record, struct given *given) {
    float x[MOST_INPUTS];
    struct call call;
    const char *broken;
    size_t i;
    for (i = 0; i < inputs_of(kind->head); i++) {
        x[i] = float_of(word_at(record + 4 + 4 * i));
    }
    call.answer = kind->answer;
    call.asked.x = x;
    call.asked.answers = answers_of(kind->head);
    call.asked.number = kind->number;
    call.given = given;
    given->count = 0;
    given->fault.words[0] = '\0';
    broken = broken_seal(answer, &call);
    must(&given->fault, broken == NULL, "%s", broken);
}

static void compare(const struct kind *kind, const uint8_t *record, size_t number,
                    struct tally *tally) {
    const uint8_t *answers = record + 4 + 4 * inputs_of(kind->head);
    size_t i, count = answers_of(kind->head);
    struct given given;
    run(kind, record, &given);
    must(&given.fault, given.count == count, "%u answers in the list, ours %u", (unsigned)count,
         (unsigned)given.count);
    for (i = 0; i < count && i < given.count; i++) {
        uint32_t told = word_at(answers + 4 * i);
        must(&given.fault, given.words[i] == told, "answer %u: %08lx in the list, ours %08lx",
             (unsigned)i, (unsigned long)told, (unsigned long)given.words[i]);
    }
    if (given.fault.words[0] != '\0') {
        count_difference(tally, "record %u, %s: %s", (unsigned)number, kind->name,
                         given.fault.words);
    }
    tally->compared++;
}

static void look_at(const uint8_t *record, size_t number, struct tally *tally) {
    const struct kind *kind = find(word_at(record));
    if (kind == NULL) {
        count_difference(tally, "record %u: no kind has the head %08lx", (unsigned)number,
                         (unsigned long)word_at(record));
    } else if (kind->answer == NULL) {
        tally->not_exported++;
    } else {
        compare(kind, record, number, tally);
    }
}

/* ---- the list ---- */

/* Where the record at a place ends; the place itself where no whole record stands there. */
static size_t end_of(const uint8_t *list, size_t length, size_t at) {
    if (length < at + 4 || length - at < size_of(word_at(list + at))) {
        return at;
    }
    return at + size_of(word_at(list + at));
}

static int has_record(const uint8_t *list, size_t length, uint32_t head) {
    size_t at = 4, end;
    while ((end = end_of(list, length, at)) != at) {
        if (word_at(list + at) == head) {
            return 1;
        }
        at = end;
    }
    return 0;
}

/* A kind that no record has would be compared with nothing. */
static void must_have_all_kinds(const uint8_t *list, size_t length, struct tally *tally) {
    size_t t, k;
    for (t = 0; t < TABLES; t++) {
        for (k = 0; tables[t][k].name != NULL; k++) {
            if (!has_record(list, length, tables[t][k].head)) {
                count_difference(tally, "%s: no record is of this kind", tables[t][k].name);
            }
        }
    }
}

void replay_answers(const uint8_t *list, size_t length, struct tally *tally) {
    size_t at = 4, end, records = 0;
    start_quad();
    while ((end = end_of(list, length, at)) != at) {
        look_at(list + at, records, tally);
        records++;
        at = end;
    }
    must_be_whole(tally, list, length, at, records);
    must_have_all_kinds(list, length, tally);
}

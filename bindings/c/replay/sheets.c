/*
 * The list of sheets. A record is 24 words and then bytes, as compare/rooms/sheet/list.rs says: the
 * sheet, the output after a run, and the text that mixrun prints, which is not the archive's. Its
 * floats and words have the least byte first, as the archive's machines have.
 */
#include <string.h>

#include "footspandle.h"
#include "lent.h"
#include "list.h"
#include "sealed.h"

#define HEAD 96          /* bytes of the words */
#define STATE 32         /* bytes of a state */
#define MOST_OUTPUT 2048 /* more bytes than an output of the list has */

/* A record. */
struct record {
    const uint8_t *words;
    const uint8_t *sheet;
    size_t length;
    const uint8_t *output;
    size_t room;
    uint32_t number;
    uint32_t entry;
};

/* The places of the words. */
enum {
    SHEET = 0,        /* the sheet's length */
    OUTPUT = 4,       /* the output's */
    NUMBER = 8,       /* what a run is told */
    ENTRY = 12,       /* the entry that comes with it */
    BEFORE = 16,      /* the state before the run */
    AFTER = 48,       /* the state after it */
    BODY_ENTRY = 80,  /* an entry */
    BODY_AT = 84,     /* where its body begins */
    BODY_LENGTH = 88, /* the body's length */
    TEXT = 92         /* the text's */
};

static struct record read_record(const uint8_t *words) {
    struct record r;
    r.words = words;
    r.length = word_at(words + SHEET);
    r.room = word_at(words + OUTPUT);
    r.number = word_at(words + NUMBER);
    r.entry = word_at(words + ENTRY);
    r.sheet = words + HEAD;
    r.output = r.sheet + r.length;
    return r;
}

/* A number, and the entry that was stored with it. */
static void must_tell(struct fault *fault, const char *which, uint32_t told, uint32_t told_entry,
                      uint32_t number, uint32_t entry) {
    must(fault, number == told && entry == told_entry, "%s: %u at %u in the list, ours %u at %u",
         which, (unsigned)told, (unsigned)told_entry, (unsigned)number, (unsigned)entry);
}

/* ---- the check: what a run is told, but that nothing is too short for it ---- */

static void compare_check(const struct record *r, struct fault *fault) {
    static struct sealed sheet = SEALED("sheet_check wrote to the sheet");
    struct lent entry;
    uint32_t told = r->number == FOOTSPANDLE_SHORT_OUTPUT ? FOOTSPANDLE_ACCEPTED : r->number;
    uint32_t number = footspandle_sheet_check(seal(&sheet, r->sheet, r->length, 1), r->length,
                                              lend(&entry, NULL, 4, 4));
    must_tell(fault, "sheet_check", told, r->entry, number, word_at(lent_bytes(&entry)));
    must(fault, is_kept(&entry), "sheet_check wrote outside of the entry number");
}

/* ---- the bodies ---- */

/* A part of the sheet. */
struct part {
    size_t at;
    size_t length;
};

static const struct part none = {0, 0};

static void must_be_body(const struct record *r, size_t i, struct part told, struct fault *fault) {
    static struct sealed sheet = SEALED("sheet_body wrote to the sheet");
    struct lent at;
    size_t *stored = lend(&at, NULL, sizeof *stored, 8);
    size_t length, begins;
    length = footspandle_sheet_body(seal(&sheet, r->sheet, r->length, 1), r->length, i, stored);
    memcpy(&begins, stored, sizeof begins);
    must(fault, length == told.length && begins == told.at,
         "the body of %lu is %lu bytes at %lu, ours %lu at %lu", (unsigned long)i,
         (unsigned long)told.length, (unsigned long)told.at, (unsigned long)length,
         (unsigned long)begins);
    must(fault, is_kept(&at), "sheet_body wrote outside of the place");
}

/* The body that an entry of an accepted sheet names; in a spoiled list there may be none. */
static struct part named(const struct record *r, size_t i) {
    const uint8_t *entry = r->sheet + 4 + 4 * i;
    struct part part;
    if (r->length < 8 + 4 * i) {
        return none;
    }
    part.at = (size_t)entry[2] | (size_t)entry[3] << 8;
    part.length = entry[0] == FOOTSPANDLE_PLAIN ? 16 : 20;
    return part;
}

/*
 * The body that the list asks for, and that of every entry; of a refused sheet, and past the count,
 * it is empty. The low half of 2^32 alone would name entry 0.
 */
static void compare_bodies(const struct record *r, struct fault *fault) {
    int accepted = r->number == FOOTSPANDLE_ACCEPTED || r->number == FOOTSPANDLE_SHORT_OUTPUT;
    size_t count = r->length < 2 ? 0 : r->sheet[1], i;
    struct part told;
    told.at = word_at(r->words + BODY_AT);
    told.length = word_at(r->words + BODY_LENGTH);
    must_be_body(r, word_at(r->words + BODY_ENTRY), told, fault);
    for (i = 0; i < count; i++) {
        must_be_body(r, i, accepted ? named(r, i) : none, fault);
    }
    must_be_body(r, count, none, fault);
    must_be_body(r, count + 1, none, fault);
    must_be_body(r, (size_t)1 << 32, none, fault);
    must_be_body(r, SIZE_MAX, none, fault);
}

/* ---- the run ---- */

/* What a run may write to. */
struct ran {
    struct lent state, out;
};

/* The output before a run: byte j is j modulo 251. */
static const uint8_t *filled(void) {
    static uint8_t bytes[MOST_OUTPUT];
    size_t j;
    for (j = 0; j < MOST_OUTPUT; j++) {
        bytes[j] = (uint8_t)(j % 251);
    }
    return bytes;
}

/* Runs the sheet on a state and an output that are lent, or sealed. */
static void run_on(const struct record *r, footspandle_quad32 *state, uint8_t *out,
                   struct fault *fault) {
    static struct sealed sheet = SEALED("sheet_run wrote to the sheet");
    struct lent entry;
    uint32_t number = footspandle_sheet_run_quad32(seal(&sheet, r->sheet, r->length, 1), r->length,
                                                   state, out, r->room, lend(&entry, NULL, 4, 4));
    must_tell(fault, "sheet_run", r->number, r->entry, number, word_at(lent_bytes(&entry)));
    must(fault, is_kept(&entry), "sheet_run wrote outside of the entry number");
}

/* Runs the sheet from a state. */
static void run(const struct record *r, const void *from, struct ran *ran, struct fault *fault) {
    run_on(r, lend(&ran->state, from, STATE, 4), lend(&ran->out, filled(), r->room, 1), fault);
    must(fault, is_kept(&ran->state), "sheet_run wrote outside of the state");
    must(fault, is_kept(&ran->out), "sheet_run wrote outside of the output");
}

/* The state afterwards, any NaN aside, and every byte of the output. */
static void compare_run(const struct record *r, struct ran *ran, struct fault *fault) {
    size_t i;
    run(r, r->words + BEFORE, ran, fault);
    for (i = 0; i < STATE; i += 4) {
        uint32_t told = word_at(r->words + AFTER + i);
        uint32_t ours = bits_of(float_of(word_at(lent_bytes(&ran->state) + i)));
        must(fault, told == ours, "float %u of the state: %08lx in the list, ours %08lx",
             (unsigned)i / 4, (unsigned long)told, (unsigned long)ours);
    }
    for (i = 0; i < r->room; i++) {
        must(fault, r->output[i] == lent_bytes(&ran->out)[i],
             "byte %u of the output: %02x in the list, ours %02x", (unsigned)i, r->output[i],
             lent_bytes(&ran->out)[i]);
    }
}

/* ---- a refused run ---- */

/* A state of NaNs, quiet and signalling, of both signs, none of them 7fc00000. */
static const uint32_t odd_nans[8] = {0x7fc12345, 0xff812345, 0x7f800001, 0xffffffff,
                                     0xffc00001, 0xffa54321, 0x7fd54321, 0x7f800002};

/*
 * After a refusal the state's bytes and the output's are those that were lent, the bits of a NaN
 * too, which the list does not tell. They are not written at all, not even as they were.
 */
static void compare_refused(const struct record *r, struct ran *ran, struct fault *fault) {
    static struct sealed state = SEALED("a refused run wrote to the state");
    static struct sealed out = SEALED("a refused run wrote to the output");
    must(fault, is_untouched(&ran->state), "a refused run changed the state");
    must(fault, is_untouched(&ran->out), "a refused run changed the output");
    run(r, odd_nans, ran, fault);
    must(fault, is_untouched(&ran->state), "a refused run changed the bits of a NaN in the state");
    must(fault, is_untouched(&ran->out), "a refused run changed the output");
    run_on(r, seal(&state, odd_nans, STATE, 4), seal(&out, filled(), r->room, 1), fault);
}

/* ---- the list ---- */

/* A record, and what is wrong with it. */
struct compared {
    struct record record;
    struct fault fault;
};

static void run_all(void *of) {
    static struct ran ran;
    struct compared *c = of;
    compare_check(&c->record, &c->fault);
    compare_bodies(&c->record, &c->fault);
    compare_run(&c->record, &ran, &c->fault);
    if (c->record.number != FOOTSPANDLE_ACCEPTED) {
        compare_refused(&c->record, &ran, &c->fault);
    }
}

static void compare(const uint8_t *words, size_t number, struct tally *tally) {
    struct compared c;
    c.record = read_record(words);
    c.fault.words[0] = '\0';
    if (c.record.length > LENT_ROOM || c.record.room > MOST_OUTPUT) {
        must(&c.fault, 0, "there is no room for it here");
    } else {
        const char *broken = broken_seal(run_all, &c);
        must(&c.fault, broken == NULL, "%s", broken);
    }
    if (c.fault.words[0] != '\0') {
        count_difference(tally, "record %u: %s", (unsigned)number, c.fault.words);
    }
    tally->compared++;
}

/* How many bytes the record at a place has; 0 where no whole record stands there. */
static size_t size_of(const uint8_t *list, size_t length, size_t at) {
    size_t size;
    if (length < at + HEAD) {
        return 0;
    }
    size = HEAD + (size_t)word_at(list + at + SHEET) + word_at(list + at + OUTPUT) +
           word_at(list + at + TEXT);
    return size <= length - at ? size : 0;
}

void replay_sheets(const uint8_t *list, size_t length, struct tally *tally) {
    size_t at = 4, size, records = 0;
    while ((size = size_of(list, length, at)) != 0) {
        compare(list + at, records, tally);
        records++;
        at += size;
    }
    must_be_whole(tally, list, length, at, records);
}

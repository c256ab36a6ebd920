/*
 * The kinds of 001: clamp01, and the mix by lent rows.
 */
#include <string.h>

#include "footspandle.h"
#include "kinds.h"
#include "lent.h"
#include "sealed.h"

static struct sealed rows = SEALED("it wrote to the rows");
static struct sealed wrench = SEALED("it wrote to the wrench");

static void clamp01(const struct asked *asked, struct given *given) {
    float x = footspandle_clamp01(asked->x[0]);
    give_floats(given, &x, 1);
}

/* ---- rows that a record has ---- */

struct lengths refused_lengths(size_t outputs, size_t which) {
    const struct lengths each[REFUSED_LENGTHS] = {
        {4 * outputs + 1, outputs},                                       /* a float too many */
        {4 * outputs + 3, outputs + 1},                                   /* one too few */
        {4 * (FOOTSPANDLE_MAX_OUTPUTS + 1), FOOTSPANDLE_MAX_OUTPUTS + 1}, /* over 64 outputs */
    };
    return each[which];
}

/* A call with rows of such lengths, which has to be refused. */
static void run_refused(const float *asked, struct lengths lengths, float *out,
                        struct given *given) {
    uint32_t number = footspandle_mixer_mix(seal(&rows, NULL, 4 * lengths.rows, 4), lengths.rows,
                                            seal(&wrench, asked, 16, 4), out, lengths.outputs);
    must(&given->fault, number == FOOTSPANDLE_BAD_ROWS, "%u floats for %u outputs: it answered %u",
         (unsigned)lengths.rows, (unsigned)lengths.outputs, (unsigned)number);
}

/* Every output has to stay byte for byte, and then not to be written at all. */
static void must_refuse(const float *asked, struct lengths lengths, struct given *given) {
    static struct sealed sealed = SEALED("a refused call wrote to the outputs");
    struct lent out;
    run_refused(asked, lengths, lend(&out, NULL, 4 * lengths.outputs, 4), given);
    must(&given->fault, is_untouched(&out), "a refused call changed the outputs");
    run_refused(asked, lengths, seal(&sealed, NULL, 4 * lengths.outputs, 4), given);
}

/* The inputs are a wrench and rows, four floats for each answer. */
static void mix_rows(const struct asked *asked, struct given *given) {
    size_t outputs = asked->answers, i;
    struct lent out;
    float *written = lend(&out, NULL, 4 * outputs, 4);
    uint32_t number = footspandle_mixer_mix(seal(&rows, asked->x + 4, 16 * outputs, 4), 4 * outputs,
                                            seal(&wrench, asked->x, 16, 4), written, outputs);
    must(&given->fault, number == FOOTSPANDLE_ACCEPTED, "it answered %u", (unsigned)number);
    must(&given->fault, is_kept(&out), "it wrote outside of the outputs");
    give_floats(given, written, outputs);
    for (i = 0; i < REFUSED_LENGTHS; i++) {
        must_refuse(asked->x, refused_lengths(outputs, i), given);
    }
}

/* ---- the two frames: the mix of their own, and the mix by their rows ---- */

typedef void table_function(float *);
typedef void frame_mix(const footspandle_wrench *, float *);

static void mix_frame(const struct asked *asked, struct given *given, table_function *table,
                      frame_mix *mix) {
    size_t outputs = asked->answers;
    struct lent tabled, out, other;
    const footspandle_wrench *w = seal(&wrench, asked->x, sizeof *w, 4);
    float *by_rows = lend(&tabled, NULL, 16 * outputs, 4);
    float *written = lend(&out, NULL, 4 * outputs, 4);
    float *compared = lend(&other, NULL, 4 * outputs, 4);
    mix(w, written);
    table(by_rows);
    footspandle_mixer_mix(seal(&rows, by_rows, 16 * outputs, 4), 4 * outputs, w, compared, outputs);
    must(&given->fault, is_kept(&tabled), "the table wrote outside of its rows");
    must(&given->fault, is_kept(&out) && is_kept(&other), "it wrote outside of the outputs");
    must(&given->fault, memcmp(written, compared, 4 * outputs) == 0, "by its rows it is another");
    give_floats(given, written, outputs);
}

static void mix_hex_x(const struct asked *asked, struct given *given) {
    mix_frame(asked, given, footspandle_hex_x, footspandle_mix_hex_x);
}

static void mix_octo_coax(const struct asked *asked, struct given *given) {
    mix_frame(asked, given, footspandle_octo_coax, footspandle_mix_octo_coax);
}

const struct kind row_kinds[] = {
    {0x03010001, "clamp01", clamp01, 0},
    {0x1e000004, "mixer_mix, 0 outputs", mix_rows, 0},
    {0x1e010008, "mixer_mix, 1 output", mix_rows, 0},
    {0x1e02000c, "mixer_mix, 2 outputs", mix_rows, 0},
    {0x1e030010, "mixer_mix, 3 outputs", mix_rows, 0},
    {0x1e040014, "mixer_mix, 4 outputs", mix_rows, 0},
    {0x1e06001c, "mixer_mix, 6 outputs", mix_rows, 0},
    {0x1e080024, "mixer_mix, 8 outputs", mix_rows, 0},
    {0x1e100044, "mixer_mix, 16 outputs", mix_rows, 0},
    {0x1e3f0100, "mixer_mix, 63 outputs", mix_rows, 0},
    {0x1e400104, "mixer_mix, 64 outputs", mix_rows, 0},
    {0x1f060004, "mix_hex_x", mix_hex_x, 0},
    {0x20080004, "mix_octo_coax", mix_octo_coax, 0},
    LAST_KIND,
};

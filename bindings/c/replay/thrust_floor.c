/*
 * The kinds of thrust-floor by lent rows. The answers are the motors, and then the scale.
 */
#include <string.h>

#include "footspandle.h"
#include "kinds.h"
#include "lent.h"
#include "sealed.h"

static struct sealed rows = SEALED("it wrote to the rows");
static struct sealed wrench = SEALED("it wrote to the wrench");

/* ---- rows that a record has ---- */

/* A call with rows of such lengths, which has to be refused. */
static void run_refused(const float *asked, struct lengths lengths, float *out, float *scale,
                        struct given *given) {
    uint32_t number = footspandle_mixer_mix_thrust_floor(seal(&rows, NULL, 4 * lengths.rows, 4),
                                                         lengths.rows, seal(&wrench, asked, 16, 4),
                                                         asked[4], out, lengths.outputs, scale);
    must(&given->fault, number == FOOTSPANDLE_BAD_ROWS, "%u floats for %u outputs: it answered %u",
         (unsigned)lengths.rows, (unsigned)lengths.outputs, (unsigned)number);
}

/* Every output and the scale have to stay byte for byte, and then not to be written at all. */
static void must_refuse(const float *asked, struct lengths lengths, struct given *given) {
    static struct sealed sealed_out = SEALED("a refused call wrote to the outputs");
    static struct sealed sealed_scale = SEALED("a refused call wrote to the scale");
    struct lent out, scale;
    run_refused(asked, lengths, lend(&out, NULL, 4 * lengths.outputs, 4), lend(&scale, NULL, 4, 4),
                given);
    must(&given->fault, is_untouched(&out), "a refused call changed the outputs");
    must(&given->fault, is_untouched(&scale), "a refused call changed the scale");
    run_refused(asked, lengths, seal(&sealed_out, NULL, 4 * lengths.outputs, 4),
                seal(&sealed_scale, NULL, 4, 4), given);
}

/* The inputs are a wrench, a floor, and rows, four floats for each answer but the scale. */
static void mix_rows(const struct asked *asked, struct given *given) {
    size_t outputs = asked->answers - 1, i;
    struct lent out, scale;
    float *written = lend(&out, NULL, 4 * outputs, 4);
    float *scaled = lend(&scale, NULL, 4, 4);
    uint32_t number = footspandle_mixer_mix_thrust_floor(
        seal(&rows, asked->x + 5, 16 * outputs, 4), 4 * outputs, seal(&wrench, asked->x, 16, 4),
        asked->x[4], written, outputs, scaled);
    must(&given->fault, number == FOOTSPANDLE_ACCEPTED, "it answered %u", (unsigned)number);
    must(&given->fault, is_kept(&out) && is_kept(&scale), "it wrote outside of outputs and scale");
    give_floats(given, written, outputs);
    give_floats(given, scaled, 1);
    for (i = 0; i < REFUSED_LENGTHS; i++) {
        must_refuse(asked->x, refused_lengths(outputs, i), given);
    }
}

/* ---- the two frames: the mix of their own, and the mix by their rows ---- */

typedef void table_function(float *);
typedef float frame_mix(const footspandle_wrench *, float, float *);

static void mix_frame(const struct asked *asked, struct given *given, table_function *table,
                      frame_mix *mix) {
    size_t outputs = asked->answers - 1;
    struct lent tabled, out, other, stored;
    const footspandle_wrench *w = seal(&wrench, asked->x, sizeof *w, 4);
    float *by_rows = lend(&tabled, NULL, 16 * outputs, 4);
    float *written = lend(&out, NULL, 4 * outputs, 4);
    float *compared = lend(&other, NULL, 4 * outputs, 4);
    float scale = mix(w, asked->x[4], written);
    table(by_rows);
    footspandle_mixer_mix_thrust_floor(seal(&rows, by_rows, 16 * outputs, 4), 4 * outputs, w,
                                       asked->x[4], compared, outputs,
                                       lend(&stored, NULL, sizeof scale, 4));
    must(&given->fault, is_kept(&tabled), "the table wrote outside of its rows");
    must(&given->fault, is_kept(&out) && is_kept(&other), "it wrote outside of the outputs");
    must(&given->fault, memcmp(written, compared, 4 * outputs) == 0, "by its rows it is another");
    must(&given->fault, memcmp(&scale, lent_bytes(&stored), sizeof scale) == 0,
         "by its rows it has another scale");
    give_floats(given, written, outputs);
    give_floats(given, &scale, 1);
}

static void mix_hex_x(const struct asked *asked, struct given *given) {
    mix_frame(asked, given, footspandle_hex_x, footspandle_mix_thrust_floor_hex_x);
}

static void mix_octo_coax(const struct asked *asked, struct given *given) {
    mix_frame(asked, given, footspandle_octo_coax, footspandle_mix_thrust_floor_octo_coax);
}

const struct kind thrust_floor_kinds[] = {
    {0x21010005, "mixer_mix_thrust_floor, 0 outputs", mix_rows, 0},
    {0x21020009, "mixer_mix_thrust_floor, 1 output", mix_rows, 0},
    {0x21050015, "mixer_mix_thrust_floor, 4 outputs", mix_rows, 0},
    {0x2107001d, "mixer_mix_thrust_floor, 6 outputs", mix_rows, 0},
    {0x21090025, "mixer_mix_thrust_floor, 8 outputs", mix_rows, 0},
    {0x21400101, "mixer_mix_thrust_floor, 63 outputs", mix_rows, 0},
    {0x21410105, "mixer_mix_thrust_floor, 64 outputs", mix_rows, 0},
    {0x22070005, "mix_thrust_floor_hex_x", mix_hex_x, 0},
    {0x23090005, "mix_thrust_floor_octo_coax", mix_octo_coax, 0},
    LAST_KIND,
};

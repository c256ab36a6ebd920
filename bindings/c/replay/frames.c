/*
 * The kinds of MixerN.
 */
#include <string.h>

#include "footspandle.h"
#include "kinds.h"
#include "lent.h"
#include "sealed.h"

#define MATRIX_BYTES (4 * FOOTSPANDLE_MATRIX_FLOATS)

static struct sealed matrix = SEALED("it wrote to the matrix");

/* A MixerN, as a caller keeps it. */
struct mixer {
    float mix[FOOTSPANDLE_MATRIX_FLOATS];
    size_t n;
};

/* The first 32 inputs as the rows of a MixerN, which has them as they are, a NaN's bits aside. */
static struct mixer new_mixer(const struct asked *asked, struct given *given) {
    static struct sealed rows = SEALED("mixer_n_new wrote to the rows");
    struct mixer mixer;
    struct lent mix;
    struct given told, copied;
    float *written = lend(&mix, NULL, MATRIX_BYTES, 4);
    mixer.n =
        footspandle_mixer_n_new(seal(&rows, asked->x, MATRIX_BYTES, 4), asked->number, written);
    must(&given->fault, is_kept(&mix), "mixer_n_new wrote outside of the matrix");
    told.count = copied.count = 0;
    give_floats(&told, asked->x, FOOTSPANDLE_MATRIX_FLOATS);
    give_floats(&copied, written, FOOTSPANDLE_MATRIX_FLOATS);
    must(&given->fault, memcmp(told.words, copied.words, MATRIX_BYTES) == 0,
         "mixer_n_new has other rows");
    memcpy(mixer.mix, written, MATRIX_BYTES);
    return mixer;
}

/* The command is roll, pitch, yaw and thrust. The answers are eight motors, and what `n` says. */
static void mix_by(const struct mixer *mixer, const float *command, struct given *given) {
    static struct sealed torque = SEALED("it wrote to the torque");
    struct lent motors;
    const float *mix = seal(&matrix, mixer->mix, MATRIX_BYTES, 4);
    float *written = lend(&motors, NULL, 4 * FOOTSPANDLE_MAX_ROTORS, 4);
    footspandle_mixer_n_mix(mix, mixer->n, seal(&torque, command, 12, 4), command[3], written);
    give_floats(given, written, FOOTSPANDLE_MAX_ROTORS);
    give_number(given, footspandle_mixer_n_n(mix, mixer->n));
    must(&given->fault, is_kept(&motors), "it wrote outside of the motors");
}

/* A count that is not made by mixer_n_new is not cut. */
static void mix_n(const struct asked *asked, struct given *given) {
    struct mixer mixer = new_mixer(asked, given);
    size_t n = footspandle_mixer_n_n(seal(&matrix, mixer.mix, MATRIX_BYTES, 4), asked->number);
    must(&given->fault, n == asked->number, "mixer_n_n of %u is another", (unsigned)asked->number);
    mix_by(&mixer, asked->x + FOOTSPANDLE_MATRIX_FLOATS, given);
}

static void mix_quad_x(const struct asked *asked, struct given *given) {
    struct mixer mixer;
    struct lent mix;
    float *written = lend(&mix, NULL, MATRIX_BYTES, 4);
    mixer.n = footspandle_mixer_n_quad_x(written);
    must(&given->fault, is_kept(&mix), "mixer_n_quad_x wrote outside of the matrix");
    memcpy(mixer.mix, written, MATRIX_BYTES);
    mix_by(&mixer, asked->x, given);
}

static void achieved_wrench(const struct asked *asked, struct given *given) {
    static struct sealed motors = SEALED("it wrote to the motors");
    struct mixer mixer = new_mixer(asked, given);
    const float *flown = asked->x + FOOTSPANDLE_MATRIX_FLOATS;
    struct lent wrench;
    footspandle_wrench *written = lend(&wrench, NULL, sizeof *written, 4);
    footspandle_mixer_n_achieved_wrench(seal(&matrix, mixer.mix, MATRIX_BYTES, 4), mixer.n,
                                        seal(&motors, flown, 4 * FOOTSPANDLE_MAX_ROTORS, 4),
                                        written);
    must(&given->fault, is_kept(&wrench), "it wrote outside of the wrench");
    give_floats(given, written, 4);
}

const struct kind frame_kinds[] = {
    {0x18090024, "mixer_n_mix, a count of 0", mix_n, 0},
    {0x19090024, "mixer_n_mix, a count of 4", mix_n, 4},
    {0x1a090024, "mixer_n_mix, a count of 8", mix_n, 8},
    {0x1b090024, "mixer_n_mix, a count of 255", mix_n, 255},
    {0x1c090004, "mixer_n_quad_x", mix_quad_x, 0},
    {0x1d040028, "mixer_n_achieved_wrench", achieved_wrench, 3},
    LAST_KIND,
};

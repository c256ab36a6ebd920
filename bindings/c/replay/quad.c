/*
 * The kinds of the quad. One state is lent to every mix, and each acts on what the record before it
 * left there; the answers are what the readers then say.
 */
#include <string.h>

#include "footspandle.h"
#include "kinds.h"
#include "lent.h"
#include "sealed.h"

static struct lent held;          /* the state, between its guard bytes */
static footspandle_quad32 *state; /* where it stands */

static struct sealed torque = SEALED("it wrote to the torque");

void start_quad(void) {
    state = lend(&held, NULL, sizeof *state, 4);
    footspandle_quad32_new(state);
}

/*
 * The state as the answer, four motors, the scale and three sums: by the readers, which may not
 * write to it, and say just the bits that stand there, those of a NaN too.
 */
static void read_state(struct given *given) {
    static struct sealed copy = SEALED("a reader wrote to the state");
    const footspandle_quad32 *sealed = seal(&copy, state, sizeof *state, 4);
    struct lent motors, sums;
    float *read_motors = lend(&motors, NULL, sizeof state->last_motors, 4);
    float *read_sums = lend(&sums, NULL, sizeof state->last_torque, 4);
    float scale;
    must(&given->fault, is_kept(&held), "it wrote outside of the state");
    footspandle_quad32_last_motors(sealed, read_motors);
    scale = footspandle_quad32_last_torque_scale(sealed);
    footspandle_quad32_last_torque(sealed, read_sums);
    must(&given->fault, is_kept(&motors), "a reader wrote outside of the motors");
    must(&given->fault, is_kept(&sums), "a reader wrote outside of the sums");
    give_floats(given, read_motors, 4);
    give_floats(given, &scale, 1);
    give_floats(given, read_sums, 3);
    must(&given->fault,
         memcmp(read_motors, state->last_motors, sizeof state->last_motors) == 0 &&
             memcmp(&scale, &state->last_torque_scale, sizeof scale) == 0 &&
             memcmp(read_sums, state->last_torque, sizeof state->last_torque) == 0,
         "the readers say other bits than the state's");
}

/* ---- a state that is set or made ---- */

static void set_state(const struct asked *asked, struct given *given) {
    memcpy(state, asked->x, sizeof *state);
    read_state(given);
}

/* NaNs, quiet and signalling, of both signs. That they are read is no answer of the list. */
static void set_nans(struct given *given) {
    static const uint32_t nans[] = {0x7fc00000, 0xffc00001, 0x7f800001, 0xff800001,
                                    0x7fa00000, 0xffffffff, 0xff800004, 0x7f92267e};
    struct given of_nans = *given;
    memcpy(state, nans, sizeof *state);
    read_state(&of_nans);
    given->fault = of_nans.fault;
}

/* A new state, of which what stood there is no part. */
static void new_state(const struct asked *asked, struct given *given) {
    (void)asked;
    set_nans(given);
    footspandle_quad32_new(state);
    read_state(given);
}

/* ---- the mixes: roll, pitch, yaw, thrust and, but for plain, a floor ---- */

static void plain(const struct asked *asked, struct given *given) {
    footspandle_quad32_mix(state, seal(&torque, asked->x, 12, 4), asked->x[3]);
    read_state(given);
}

typedef void floored_mix(footspandle_quad32 *, const float *, float, float);

static void run_floored(const struct asked *asked, struct given *given, floored_mix *mix) {
    mix(state, seal(&torque, asked->x, 12, 4), asked->x[3], asked->x[4]);
    read_state(given);
}

static void thrust_floor(const struct asked *asked, struct given *given) {
    run_floored(asked, given, footspandle_quad32_mix_thrust_floor);
}

static void priority(const struct asked *asked, struct given *given) {
    run_floored(asked, given, footspandle_quad32_mix_priority);
}

static void airmode(const struct asked *asked, struct given *given) {
    run_floored(asked, given, footspandle_quad32_mix_airmode);
}

static void run_rotor_out(footspandle_quad32 *lent_state, size_t failed,
                          const struct asked *asked) {
    footspandle_quad32_mix_rotor_out(lent_state, failed, seal(&torque, asked->x, 12, 4),
                                     asked->x[3], asked->x[4]);
}

static void rotor_out(const struct asked *asked, struct given *given) {
    run_rotor_out(state, asked->number, asked);
    read_state(given);
}

/* With no rotor lost. It is the same at the number 2^32, whose low half alone would name M1. */
static void no_rotor_out(const struct asked *asked, struct given *given) {
    struct lent copy;
    footspandle_quad32 *other = lend(&copy, state, sizeof *other, 4);
    rotor_out(asked, given);
    run_rotor_out(other, (size_t)1 << 32, asked);
    must(&given->fault, memcmp(other, state, sizeof *other) == 0, "it is another with rotor 2^32");
    must(&given->fault, is_kept(&copy), "it wrote outside of the state with rotor 2^32");
}

/* ---- the torque that motors give ---- */

static void torque_signs(const struct asked *asked, struct given *given) {
    static struct sealed motors = SEALED("it wrote to the motors");
    struct lent sums;
    float *written = lend(&sums, NULL, 12, 4);
    footspandle_motors_to_torque_signs(seal(&motors, asked->x, 16, 4), written);
    must(&given->fault, is_kept(&sums), "it wrote outside of the sums");
    give_floats(given, written, 3);
}

const struct kind quad_kinds[] = {
    {0x09080008, "a state that is set", set_state, 0},
    {0x0a080000, "quad_new", new_state, 0},
    {0x0b080004, "quad_mix", plain, 0},
    {0x0c080005, "quad_mix_thrust_floor", thrust_floor, 0},
    {0x0d080005, "quad_mix_priority", priority, 0},
    {0x0e080005, "quad_mix_airmode", airmode, 0},
    {0x10080005, "quad_mix_rotor_out of 0", rotor_out, 0},
    {0x11080005, "quad_mix_rotor_out of 1", rotor_out, 1},
    {0x12080005, "quad_mix_rotor_out of 2", rotor_out, 2},
    {0x13080005, "quad_mix_rotor_out of 3", rotor_out, 3},
    {0x14080005, "quad_mix_rotor_out of 4", no_rotor_out, 4},
    {0x15080005, "quad_mix_rotor_out of 255", no_rotor_out, 255},
    {0x16080005, "quad_mix_rotor_out of the largest", no_rotor_out, SIZE_MAX},
    {0x17030004, "motors_to_torque_signs", torque_signs, 0},
    LAST_KIND,
};

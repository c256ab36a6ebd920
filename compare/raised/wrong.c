/*
 * Functions that raise the invalid flag where they should not, each named wrong_, a number, and the function's name:
 * compare/invalid --wrong compiles the program against one at a time, and sees that it is noticed.
 */
#include <math.h>
#include <stdbool.h>

#include "footspandle.h"

/* Kept from the compiler, which else might leave the comparison out. */
static volatile bool kept;

static void subtracted(float x) {
    kept = x - x == 0.0f;
}

static void ordered(float x) {
    kept = x < 0.0f;
}

/* ---- the finite test: by a difference, by an order, and by a self-comparison alone ---- */

bool wrong_1_probe_is_finite(float x) {
    return x - x == 0.0f;
}

bool wrong_2_probe_is_finite(float x) {
    return x > -INFINITY && x < INFINITY;
}

bool wrong_3_probe_is_finite(float x) {
    return x == x && fabsf(x) != INFINITY;
}

/* ---- mixes that look at an argument before it is treated ---- */

void wrong_1_footspandle_quad32_mix(footspandle_quad32 *state, const float torque[3], float thrust) {
    ordered(thrust);
    footspandle_quad32_mix(state, torque, thrust);
}

void wrong_2_footspandle_quad32_mix(footspandle_quad32 *state, const float torque[3], float thrust) {
    subtracted(torque[2]);
    footspandle_quad32_mix(state, torque, thrust);
}

/* By its state alone: the scale, and a sum. */
void wrong_3_footspandle_quad32_mix(footspandle_quad32 *state, const float torque[3], float thrust) {
    ordered(state->last_torque_scale);
    footspandle_quad32_mix(state, torque, thrust);
}

void wrong_4_footspandle_quad32_mix(footspandle_quad32 *state, const float torque[3], float thrust) {
    subtracted(state->last_torque[2]);
    footspandle_quad32_mix(state, torque, thrust);
}

void wrong_1_footspandle_quad32_mix_thrust_floor(footspandle_quad32 *state, const float torque[3], float thrust,
                                                 float floor) {
    ordered(floor);
    footspandle_quad32_mix_thrust_floor(state, torque, thrust, floor);
}

void wrong_1_footspandle_quad32_mix_priority(footspandle_quad32 *state, const float torque[3], float thrust,
                                             float floor) {
    ordered(torque[0]);
    footspandle_quad32_mix_priority(state, torque, thrust, floor);
}

void wrong_1_footspandle_quad32_mix_airmode(footspandle_quad32 *state, const float torque[3], float thrust,
                                            float idle) {
    subtracted(thrust);
    footspandle_quad32_mix_airmode(state, torque, thrust, idle);
}

void wrong_1_footspandle_quad32_mix_rotor_out(footspandle_quad32 *state, size_t failed, const float torque[3],
                                              float thrust, float floor) {
    ordered(torque[1]);
    footspandle_quad32_mix_rotor_out(state, failed, torque, thrust, floor);
}

/* ---- wrong rules: plain's arithmetic is never invalid, and where a raw sum is over 1 ---- */

int wrong_1_plain_is_invalid(const float torque[3], float thrust) {
    (void)torque;
    (void)thrust;
    return 0;
}

int wrong_2_plain_is_invalid(const float torque[3], float thrust) {
    return thrust + torque[0] + torque[1] + torque[2] > 1.0f;
}

/*
 * A crew's flight in small, through include/footspandle.h: a fresh state, the five mixes on one
 * command, a lost rotor and the torque that is left, other frames, a hard roll on them, rows that are
 * refused, a command sheet with its answers, and a sheet that is refused. It calls every function of
 * the header. `bindings/c/run` builds it, runs it and compares what it prints with example.txt.
 */
#include <inttypes.h>
#include <math.h>
#include <stdio.h>
#include <string.h>

#include "footspandle.h"

/* ---- printing: each number as a decimal, and as the hex digits of its bits ---- */

static void show(const char *what, const float *numbers, size_t count) {
    size_t i;
    printf("%-20s", what);
    for (i = 0; i < count; i++) {
        uint32_t bits;
        memcpy(&bits, &numbers[i], sizeof bits);
        printf(" %.6f (%08" PRIx32 ")", numbers[i], bits);
    }
    printf("\n");
}

/* The four motors, and the recorded scale. */
static void show_state(const char *what, const footspandle_quad32 *state) {
    float numbers[5];
    footspandle_quad32_last_motors(state, numbers);
    numbers[4] = footspandle_quad32_last_torque_scale(state);
    show(what, numbers, 5);
}

/* ---- the quad ---- */

static void fly_quad(void) {
    const float torque[3] = {0.5f, 0.0f, 0.125f}; /* roll, pitch, yaw */
    const float thrust = 0.5f;
    const float floor = 0.125f;
    footspandle_quad32 state;
    float sums[3], stored[3];

    printf("the quad, thrust 0.5, roll 0.5, yaw 0.125, floor 0.125: M1 M2 M3 M4, recorded scale\n");
    footspandle_quad32_new(&state);
    show_state("fresh", &state);
    footspandle_quad32_mix(&state, torque, thrust);
    show_state("plain", &state);
    footspandle_quad32_mix_thrust_floor(&state, torque, thrust, floor);
    show_state("thrust-floor", &state);
    footspandle_quad32_mix_priority(&state, torque, thrust, floor);
    show_state("priority", &state);
    footspandle_quad32_mix_airmode(&state, torque, thrust, floor);
    show_state("airmode", &state);
    footspandle_quad32_mix_rotor_out(&state, 4, torque, thrust, floor);
    show_state("rotor-out, none lost", &state);
    footspandle_quad32_mix_rotor_out(&state, 0, torque, thrust, floor);
    show_state("rotor-out, M1 lost", &state);
    footspandle_motors_to_torque_signs(state.last_motors, sums);
    show("its torque sums", sums, 3);
    footspandle_quad32_last_torque(&state, stored);
    show("stored in the state", stored, 3);
}

/* ---- other frames ---- */

static void fly_matrix(void) {
    const float torque[3] = {0.25f, 0.0f, 0.0f};
    float rows[4 * FOOTSPANDLE_OCTO_ROTORS];
    float matrix[FOOTSPANDLE_MATRIX_FLOATS];
    float motors[FOOTSPANDLE_MAX_ROTORS];
    footspandle_wrench given;
    size_t n;

    n = footspandle_mixer_n_quad_x(matrix);
    footspandle_mixer_n_mix(matrix, n, torque, 0.5f, motors);
    show("MixerN quad_x", motors, n);
    footspandle_mixer_n_achieved_wrench(matrix, n, motors, &given);
    printf("it gives             thrust %.6f, roll %.6f, pitch %.6f, yaw %.6f\n", given.thrust,
           given.roll, given.pitch, given.yaw);
    footspandle_octo_coax(rows);
    n = footspandle_mixer_n_new(rows, 9, matrix);
    printf("MixerN of 9 rotors   has %u\n", (unsigned)footspandle_mixer_n_n(matrix, n));
}

static void fly_rows(void) {
    const footspandle_wrench wrench = {0.5f, 0.25f, 0.0f, 0.0f};
    const float held[3] = {footspandle_clamp01(-0.5f), footspandle_clamp01(2.0f),
                           footspandle_clamp01(NAN)};
    float rows[4 * FOOTSPANDLE_HEX_ROTORS];
    float hex[FOOTSPANDLE_HEX_ROTORS];
    float lent[FOOTSPANDLE_HEX_ROTORS];
    float octo[FOOTSPANDLE_OCTO_ROTORS];
    uint32_t number;

    footspandle_mix_octo_coax(&wrench, octo);
    show("octo_coax, first 4", octo, 4);
    footspandle_mix_hex_x(&wrench, hex);
    show("hex_x", hex, FOOTSPANDLE_HEX_ROTORS);
    footspandle_hex_x(rows);
    number = footspandle_mixer_mix(rows, 24, &wrench, lent, 6);
    printf("its rows, lent       answered %" PRIu32 ", outputs %s\n", number,
           memcmp(lent, hex, sizeof hex) == 0 ? "the same" : "others");
    number = footspandle_mixer_mix(rows, 23, &wrench, lent, 6);
    printf("one float too few    answered %" PRIu32 ", outputs %s\n", number,
           memcmp(lent, hex, sizeof hex) == 0 ? "as they were" : "changed");
    show("-0.5, 2, NaN held", held, 3);
}

/* The mean of the motors. */
static double lift(const float *motors, size_t count) {
    double sum = 0;
    size_t i;
    for (i = 0; i < count; i++) {
        sum += motors[i];
    }
    return sum / (double)count;
}

/* A hard roll, without and with thrust-floor. Its scale stands after the motors. */
static void roll_hard(void) {
    const footspandle_wrench wrench = {0.75f, 0.5f, 0.0f, 0.0f};
    const float floor = 0.125f;
    float rows[4 * FOOTSPANDLE_HEX_ROTORS];
    float alone[FOOTSPANDLE_HEX_ROTORS];
    float hex[FOOTSPANDLE_HEX_ROTORS + 1];
    float lent[FOOTSPANDLE_HEX_ROTORS + 1];
    float octo[FOOTSPANDLE_OCTO_ROTORS + 1];
    uint32_t number;

    footspandle_mix_hex_x(&wrench, alone);
    show("hex_x", alone, 6);
    hex[6] = footspandle_mix_thrust_floor_hex_x(&wrench, floor, hex);
    show("hex_x, thrust-floor", hex, 7);
    printf("the lift             %.6f without it, %.6f with it\n", lift(alone, 6), lift(hex, 6));
    footspandle_hex_x(rows);
    number = footspandle_mixer_mix_thrust_floor(rows, 24, &wrench, floor, lent, 6, &lent[6]);
    printf("hex_x's rows, lent   answered %" PRIu32 ", outputs and scale %s\n", number,
           memcmp(lent, hex, sizeof hex) == 0 ? "the same" : "others");
    number = footspandle_mixer_mix_thrust_floor(rows, 23, &wrench, floor, lent, 6, &lent[6]);
    printf("one float too few    answered %" PRIu32 ", outputs and scale %s\n", number,
           memcmp(lent, hex, sizeof hex) == 0 ? "as they were" : "changed");
    octo[8] = footspandle_mix_thrust_floor_octo_coax(&wrench, floor, octo);
    show("octo, thrust-floor", octo, 9);
}

/* ---- the command sheet ---- */

/*
 * Two entries: thrust-floor, and rotor-out with M2 lost. Both ask for thrust 0.5, roll 0.5 and a floor
 * of 0.25; numbers are little-endian.
 */
static const uint8_t sheet[52] = {
    1, 2, 52, 0,                                /* version, entries, length */
    FOOTSPANDLE_THRUST_FLOOR, 0, 12, 0,         /* kind, rotor byte, where its body begins */
    FOOTSPANDLE_ROTOR_OUT, 1, 32, 0,            /* the same; rotor 1 is M2 */
    0, 0, 0x00, 0x3f, 0, 0, 0x00, 0x3f,         /* body: thrust 0.5, roll 0.5 */
    0, 0, 0x00, 0x00, 0, 0, 0x00, 0x00,         /* pitch 0, yaw 0 */
    0, 0, 0x80, 0x3e,                           /* floor 0.25 */
    0, 0, 0x00, 0x3f, 0, 0, 0x00, 0x3f,         /* the next body */
    0, 0, 0x00, 0x00, 0, 0, 0x00, 0x00,
    0, 0, 0x80, 0x3e};

/* The float whose bits stand in four bytes, the least first. */
static float float_at(const uint8_t *bytes) {
    uint32_t bits = (uint32_t)bytes[0] | (uint32_t)bytes[1] << 8 | (uint32_t)bytes[2] << 16 |
                    (uint32_t)bytes[3] << 24;
    float x;
    memcpy(&x, &bits, sizeof x);
    return x;
}

static void run_sheet(void) {
    uint8_t wrong[sizeof sheet];
    uint8_t out[FOOTSPANDLE_OUTPUT_BYTES];
    footspandle_quad32 state, before;
    uint32_t number, entry;
    size_t at, length, i, j;

    printf("a sheet of two entries, run from a fresh state\n");
    footspandle_quad32_new(&state);
    number = footspandle_sheet_run_quad32(sheet, sizeof sheet, &state, out, sizeof out, &entry);
    printf("run                  answered %" PRIu32 "\n", number);
    for (i = 0; i < 2; i++) {
        char what[32];
        float answer[5];
        for (j = 0; j < 5; j++) {
            answer[j] = float_at(out + FOOTSPANDLE_ANSWER_BYTES * i + 4 * j);
        }
        length = footspandle_sheet_body(sheet, sizeof sheet, i, &at);
        snprintf(what, sizeof what, "entry %u, body %u..%u", (unsigned)i, (unsigned)at,
                 (unsigned)(at + length));
        show(what, answer, 5);
    }
    memcpy(wrong, sheet, sizeof wrong);
    wrong[10] = 33; /* the second body would begin a byte late */
    number = footspandle_sheet_check(wrong, sizeof wrong, &entry);
    printf("a wrong sheet        answered %" PRIu32 " at entry %" PRIu32 "\n", number, entry);
    before = state;
    number = footspandle_sheet_run_quad32(wrong, sizeof wrong, &state, out, sizeof out, &entry);
    printf("run all the same     answered %" PRIu32 " at entry %" PRIu32 ", state %s\n", number,
           entry, memcmp(&state, &before, sizeof state) == 0 ? "as it was" : "changed");
    number = footspandle_sheet_run_quad32(sheet, sizeof sheet, &state, out, 39, &entry);
    printf("an output of 39      answered %" PRIu32 " at entry %" PRIu32 ", state %s\n", number,
           entry, memcmp(&state, &before, sizeof state) == 0 ? "as it was" : "changed");
}

int main(void) {
    fly_quad();
    printf("other frames, thrust 0.5, roll 0.25\n");
    fly_matrix();
    fly_rows();
    printf("a hard roll, thrust 0.75, roll 0.5, floor 0.125: motors, then thrust-floor's scale\n");
    roll_hard();
    run_sheet();
    return 0;
}

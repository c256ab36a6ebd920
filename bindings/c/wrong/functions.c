/*
 * Stand-ins for the functions of the archive: each is the right one, but for the slip that the
 * variable FOOTSPANDLE_SLIP names; with none named all are right. `bindings/c/run --wrong` compiles
 * the replay against them (it calls wrong_X where it would call footspandle_X), and sees that it
 * notices every slip.
 *
 * What is lent is a plain pointer here, where the header says how many floats there are: else the
 * compiler notices some slips itself.
 */
#include <stdlib.h>
#include <string.h>

#include "footspandle.h"

/* ---- slips; wrong/try.sh finds their names in the calls of slip, reads and beside ---- */

/* Whether the slip is the one with a name and then an end. */
static int slip_of(const char *name, const char *end) {
    const char *named = getenv("FOOTSPANDLE_SLIP");
    size_t length = strlen(name);
    return named != NULL && strncmp(named, name, length) == 0 && strcmp(named + length, end) == 0;
}

static int slip(const char *name) {
    return slip_of(name, "");
}

/* Turns a bit of a byte, also of one that is not lent, or only to be read. */
static void turn(const void *place, ptrdiff_t from) {
    *((uint8_t *)(uintptr_t)place + from) ^= 1;
}

/* Writes the very byte that stands there. Without volatile the compiler may leave that out. */
static void write_back(const void *place) {
    volatile uint8_t *byte = (uint8_t *)(uintptr_t)place;
    *byte = *byte;
}

/* Two slips, 'NAME' and 'NAME, as it is', write to what is only lent to be read. */
static void reads(const char *name, const void *place) {
    if (slip(name)) {
        turn(place, 0);
    }
    if (slip_of(name, ", as it is")) {
        write_back(place);
    }
}

/* Two slips: 'NAME, before' and 'NAME, past' write a byte beside what is lent to be written. */
static void beside(const char *name, const void *place, size_t length) {
    if (slip_of(name, ", before")) {
        turn(place, -1);
    }
    if (slip_of(name, ", past")) {
        turn(place, (ptrdiff_t)length);
    }
}

static void exchange(float *a, float *b) {
    float x = *a;
    *a = *b;
    *b = x;
}

/* Writes a NaN back with the bits changed that are named. */
static void change_nan(float *x, uint32_t bits) {
    uint32_t changed;
    memcpy(&changed, x, sizeof changed);
    if (*x != *x) {
        changed |= bits;
        memcpy(x, &changed, sizeof changed);
    }
}

/* ---- the quad ---- */

/* The sums of a state, put into another. */
static void keep_sums(footspandle_quad32 *state, const footspandle_quad32 *before) {
    memcpy(state->last_torque, before->last_torque, sizeof state->last_torque);
}

void wrong_quad32_new(footspandle_quad32 *state) {
    footspandle_quad32 before = *state;
    footspandle_quad32_new(state);
    if (slip("quad_new: the scale stays")) {
        state->last_torque_scale = before.last_torque_scale;
    }
    if (slip("quad_new: the sums stay")) {
        keep_sums(state, &before);
    }
    beside("quad_new: the state", state, sizeof *state);
}

void wrong_quad32_last_motors(const footspandle_quad32 *state, float *motors) {
    footspandle_quad32_last_motors(state, motors);
    if (slip("quad_last_motors: M1 and M4 exchanged")) {
        exchange(&motors[0], &motors[3]);
    }
    if (slip("quad_last_motors: makes a NaN quiet")) {
        change_nan(&motors[2], 0x00400000);
    }
    reads("quad_last_motors: writes to the state", state);
    beside("quad_last_motors: the motors", motors, 16);
}

float wrong_quad32_last_torque_scale(const footspandle_quad32 *state) {
    float scale = footspandle_quad32_last_torque_scale(state);
    if (slip("quad_last_torque_scale: changes the bits of a NaN")) {
        change_nan(&scale, 0x00000002);
    }
    reads("quad_last_torque_scale: writes to the state", state);
    return slip("quad_last_torque_scale: always 1") ? 1 : scale;
}

void wrong_quad32_last_torque(const footspandle_quad32 *state, float *sums) {
    footspandle_quad32_last_torque(state, sums);
    if (slip("quad_last_torque: pitch and yaw exchanged")) {
        exchange(&sums[1], &sums[2]);
    }
    if (slip("quad_last_torque: worked out of the motors")) {
        footspandle_motors_to_torque_signs(state->last_motors, sums);
    }
    if (slip("quad_last_torque: changes the sign of a NaN")) {
        change_nan(&sums[2], 0x80000000);
    }
    reads("quad_last_torque: writes to the state", state);
    beside("quad_last_torque: the sums", sums, 12);
}

void wrong_quad32_mix(footspandle_quad32 *state, const float *torque_body, float thrust) {
    footspandle_quad32 before = *state, copy = *state, *mixed = state;
    if (slip("quad_mix: on a copy of the state")) {
        mixed = &copy;
    }
    footspandle_quad32_mix(mixed, torque_body, thrust);
    if (slip("quad_mix: records a scale")) {
        state->last_torque_scale = 1;
    }
    if (slip("quad_mix: the sums stay")) {
        keep_sums(state, &before);
    }
    reads("quad_mix: writes to the torque", torque_body);
    beside("quad_mix: the state", state, sizeof *state);
}

void wrong_quad32_mix_thrust_floor(footspandle_quad32 *state, const float *torque_body,
                                   float thrust, float floor) {
    footspandle_quad32 before = *state;
    if (slip("quad_mix_thrust_floor: thrust and floor exchanged")) {
        exchange(&thrust, &floor);
    }
    footspandle_quad32_mix_thrust_floor(state, torque_body, thrust, floor);
    if (slip("quad_mix_thrust_floor: no scale recorded")) {
        state->last_torque_scale = before.last_torque_scale;
    }
    if (slip("quad_mix_thrust_floor: the sums stay")) {
        keep_sums(state, &before);
    }
    reads("quad_mix_thrust_floor: writes to the torque", torque_body);
    beside("quad_mix_thrust_floor: the state", state, sizeof *state);
}

void wrong_quad32_mix_priority(footspandle_quad32 *state, const float *torque_body, float thrust,
                               float floor) {
    footspandle_quad32 before = *state;
    if (slip("quad_mix_priority: is thrust-floor")) {
        footspandle_quad32_mix_thrust_floor(state, torque_body, thrust, floor);
    } else {
        footspandle_quad32_mix_priority(state, torque_body, thrust, floor);
    }
    if (slip("quad_mix_priority: the sums stay")) {
        keep_sums(state, &before);
    }
    reads("quad_mix_priority: writes to the torque", torque_body);
    beside("quad_mix_priority: the state", state, sizeof *state);
}

void wrong_quad32_mix_airmode(footspandle_quad32 *state, const float *torque_body, float thrust,
                              float idle) {
    footspandle_quad32 before = *state;
    if (slip("quad_mix_airmode: thrust and idle exchanged")) {
        exchange(&thrust, &idle);
    }
    footspandle_quad32_mix_airmode(state, torque_body, thrust, idle);
    if (slip("quad_mix_airmode: the sums stay")) {
        keep_sums(state, &before);
    }
    reads("quad_mix_airmode: writes to the torque", torque_body);
    beside("quad_mix_airmode: the state", state, sizeof *state);
}

void wrong_quad32_mix_rotor_out(footspandle_quad32 *state, size_t failed, const float *torque_body,
                                float thrust, float floor) {
    footspandle_quad32 before = *state;
    if (slip("quad_mix_rotor_out: rotors from 1")) {
        failed--;
    }
    if (slip("quad_mix_rotor_out: a rotor of 32 bits")) {
        failed &= UINT32_MAX;
    }
    footspandle_quad32_mix_rotor_out(state, failed, torque_body, thrust, floor);
    if (slip("quad_mix_rotor_out: the scale stays")) {
        state->last_torque_scale = before.last_torque_scale;
    }
    if (slip("quad_mix_rotor_out: the sums stay")) {
        keep_sums(state, &before);
    }
    reads("quad_mix_rotor_out: writes to the torque", torque_body);
    beside("quad_mix_rotor_out: the state", state, sizeof *state);
}

void wrong_motors_to_torque_signs(const float *motors, float *sums) {
    footspandle_motors_to_torque_signs(motors, sums);
    if (slip("motors_to_torque_signs: roll and pitch exchanged")) {
        exchange(&sums[0], &sums[1]);
    }
    reads("motors_to_torque_signs: writes to the motors", motors);
    beside("motors_to_torque_signs: the sums", sums, 12);
}

/* ---- MixerN ---- */

size_t wrong_mixer_n_new(const float *rows, size_t n, float *mix) {
    size_t count = footspandle_mixer_n_new(rows, n, mix);
    if (slip("mixer_n_new: only as many rows as the count")) {
        memset(mix + 4 * count, 0, 16 * (8 - count));
    }
    reads("mixer_n_new: writes to the rows", rows);
    beside("mixer_n_new: the matrix", mix, 128);
    return slip("mixer_n_new: the count is not cut") ? n : count;
}

size_t wrong_mixer_n_n(const float *mix, size_t n) {
    size_t count = footspandle_mixer_n_n(mix, n);
    reads("mixer_n_n: writes to the matrix", mix);
    return slip("mixer_n_n: the count is cut") && n > 8 ? 8 : count;
}

size_t wrong_mixer_n_quad_x(float *mix) {
    size_t count = footspandle_mixer_n_quad_x(mix);
    if (slip("mixer_n_quad_x: a fifth row that is not zero")) {
        mix[16] = 1;
    }
    beside("mixer_n_quad_x: the matrix", mix, 128);
    return slip("mixer_n_quad_x: a count of 8") ? 8 : count;
}

void wrong_mixer_n_mix(const float *mix, size_t n, const float *torque_body, float thrust,
                       float *motors) {
    footspandle_mixer_n_mix(mix, n, torque_body, thrust, motors);
    if (slip("mixer_n_mix: only as many motors as the count") && n < 8) {
        memset(motors + n, 0, 4 * (8 - n));
    }
    reads("mixer_n_mix: writes to the matrix", mix);
    reads("mixer_n_mix: writes to the torque", torque_body);
    beside("mixer_n_mix: the motors", motors, 32);
}

void wrong_mixer_n_achieved_wrench(const float *mix, size_t n, const float *motors,
                                   footspandle_wrench *wrench) {
    footspandle_mixer_n_achieved_wrench(mix, n, motors, wrench);
    if (slip("mixer_n_achieved_wrench: thrust and yaw exchanged")) {
        exchange(&wrench->thrust, &wrench->yaw);
    }
    reads("mixer_n_achieved_wrench: writes to the matrix", mix);
    reads("mixer_n_achieved_wrench: writes to the motors", motors);
    beside("mixer_n_achieved_wrench: the wrench", wrench, sizeof *wrench);
}

/* ---- any frame, by lent rows ---- */

float wrong_clamp01(float x) {
    return slip("clamp01: a NaN stays") && x != x ? x : footspandle_clamp01(x);
}

uint32_t wrong_mixer_mix(const float *rows, size_t rows_length, const footspandle_wrench *w,
                         float *out, size_t out_length) {
    uint32_t number = footspandle_mixer_mix(rows, rows_length, w, out, out_length);
    if (slip("mixer_mix: clears the outputs of a refusal") && number != 0) {
        memset(out, 0, 4 * out_length);
    }
    if (slip("mixer_mix: writes the outputs of a refusal as they are") && number != 0 &&
        out_length > 0) {
        write_back(out);
    }
    reads("mixer_mix: writes to the rows", rows);
    reads("mixer_mix: writes to the wrench", w);
    beside("mixer_mix: the outputs", out, 4 * out_length);
    if (slip("mixer_mix: 65 outputs are accepted") && rows_length == 260) {
        return 0;
    }
    return slip("mixer_mix: no outputs are refused") && out_length == 0 ? 10 : number;
}

uint32_t wrong_mixer_mix_thrust_floor(const float *rows, size_t rows_length,
                                      const footspandle_wrench *w, float floor, float *out,
                                      size_t out_length, float *scale) {
    footspandle_wrench asked = *w;
    float unstored, *stored = scale;
    uint32_t number;
    if (slip("mixer_mix_thrust_floor: thrust and floor exchanged")) {
        exchange(&asked.thrust, &floor);
    }
    if (slip("mixer_mix_thrust_floor: no scale stored")) {
        stored = &unstored;
    }
    number = footspandle_mixer_mix_thrust_floor(rows, rows_length, &asked, floor, out, out_length,
                                                stored);
    if (slip("mixer_mix_thrust_floor: a scale stored on a refusal") && number != 0) {
        *scale = 1;
    }
    if (slip("mixer_mix_thrust_floor: a delta left in the outputs of a refusal") && number != 0) {
        turn(out, 0);
    }
    if (slip("mixer_mix_thrust_floor: writes the scale of a refusal as it is") && number != 0) {
        write_back(scale);
    }
    if (slip("mixer_mix_thrust_floor: writes the outputs of a refusal as they are") &&
        number != 0 && out_length > 0) {
        write_back(out);
    }
    reads("mixer_mix_thrust_floor: writes to the rows", rows);
    reads("mixer_mix_thrust_floor: writes to the wrench", w);
    beside("mixer_mix_thrust_floor: the outputs", out, 4 * out_length);
    beside("mixer_mix_thrust_floor: the scale", scale, 4);
    if (slip("mixer_mix_thrust_floor: 65 outputs are accepted") && rows_length == 260) {
        return 0;
    }
    return slip("mixer_mix_thrust_floor: no outputs are refused") && out_length == 0 ? 10 : number;
}

void wrong_hex_x(float *rows) {
    footspandle_hex_x(rows);
    if (slip("hex_x: rotors 1 and 2 turn the other way")) {
        exchange(&rows[3], &rows[7]);
    }
    beside("hex_x: the rows", rows, 96);
}

void wrong_octo_coax(float *rows) {
    footspandle_octo_coax(rows);
    if (slip("octo_coax: rotors 1 and 2 turn the other way")) {
        exchange(&rows[3], &rows[7]);
    }
    beside("octo_coax: the rows", rows, 128);
}

void wrong_mix_hex_x(const footspandle_wrench *w, float *out) {
    footspandle_mix_hex_x(w, out);
    if (slip("mix_hex_x: rotors 5 and 6 exchanged")) {
        exchange(&out[4], &out[5]);
    }
    reads("mix_hex_x: writes to the wrench", w);
    beside("mix_hex_x: the outputs", out, 24);
}

void wrong_mix_octo_coax(const footspandle_wrench *w, float *out) {
    footspandle_mix_octo_coax(w, out);
    if (slip("mix_octo_coax: rotors 7 and 8 exchanged")) {
        exchange(&out[6], &out[7]);
    }
    reads("mix_octo_coax: writes to the wrench", w);
    beside("mix_octo_coax: the outputs", out, 32);
}

float wrong_mix_thrust_floor_hex_x(const footspandle_wrench *w, float floor, float *out) {
    float scale = footspandle_mix_thrust_floor_hex_x(w, floor, out);
    reads("mix_thrust_floor_hex_x: writes to the wrench", w);
    beside("mix_thrust_floor_hex_x: the outputs", out, 24);
    return slip("mix_thrust_floor_hex_x: always the scale 1") ? 1 : scale;
}

float wrong_mix_thrust_floor_octo_coax(const footspandle_wrench *w, float floor, float *out) {
    float scale;
    if (slip("mix_thrust_floor_octo_coax: the floor counts as 0")) {
        floor = 0;
    }
    scale = footspandle_mix_thrust_floor_octo_coax(w, floor, out);
    reads("mix_thrust_floor_octo_coax: writes to the wrench", w);
    beside("mix_thrust_floor_octo_coax: the outputs", out, 32);
    return scale;
}

/* ---- the command sheet ---- */

uint32_t wrong_sheet_check(const uint8_t *sheet, size_t sheet_length, uint32_t *entry) {
    uint32_t before = *entry;
    uint32_t number = footspandle_sheet_check(sheet, sheet_length, entry);
    if (slip("sheet_check: no entry stored")) {
        *entry = before;
    }
    if (slip("sheet_check: no entry stored where it is accepted") && number == 0) {
        *entry = before;
    }
    reads("sheet_check: writes to the sheet", sheet);
    beside("sheet_check: the entry number", entry, 4);
    return number;
}

size_t wrong_sheet_body(const uint8_t *sheet, size_t sheet_length, size_t i, size_t *at) {
    size_t before = *at, length;
    if (slip("sheet_body: an entry of 32 bits")) {
        i &= UINT32_MAX;
    }
    length = footspandle_sheet_body(sheet, sheet_length, i, at);
    if (slip("sheet_body: no place stored for an empty body") && length == 0) {
        *at = before;
    }
    if (slip("sheet_body: a place of 32 bits")) {
        memcpy((uint8_t *)at + 4, (uint8_t *)&before + 4, 4);
    }
    reads("sheet_body: writes to the sheet", sheet);
    beside("sheet_body: the place", at, 8);
    return slip("sheet_body: every body of 20 bytes") && length == 16 ? 20 : length;
}

/* What a run does wrong where it is refused. */
static void run_refused(uint32_t number, footspandle_quad32 *state, uint8_t *out,
                        size_t out_length) {
    if (slip("sheet_run: a refusal makes a NaN of the state quiet")) {
        change_nan(&state->last_motors[2], 0x00400000);
    }
    if (slip("sheet_run: a refusal changes the sign of a NaN of the state")) {
        change_nan(&state->last_motors[0], 0x80000000);
    }
    if (slip("sheet_run: a refusal changes the bits of a scale that is a NaN")) {
        change_nan(&state->last_torque_scale, 0x00000002);
    }
    if (slip("sheet_run: a refusal changes the bits of a sum that is a NaN")) {
        change_nan(&state->last_torque[2], 0x00000004);
    }
    if (slip("sheet_run: a refusal makes the state new")) {
        footspandle_quad32_new(state);
    }
    if (slip("sheet_run: a refusal works the sums out")) {
        footspandle_motors_to_torque_signs(state->last_motors, state->last_torque);
    }
    if (slip("sheet_run: a refusal touches the output") && out_length > 0) {
        turn(out, (ptrdiff_t)(out_length - 1));
    }
    if (slip("sheet_run: a refusal writes the state as it is")) {
        write_back(state);
    }
    if (slip("sheet_run: a refusal writes the scale of the state as it is")) {
        write_back(&state->last_torque_scale);
    }
    if (slip("sheet_run: a refusal writes the last sum of the state as it is")) {
        write_back(&state->last_torque[2]);
    }
    if (slip("sheet_run: a short output is refused, and the state written as it is") &&
        number == FOOTSPANDLE_SHORT_OUTPUT) {
        write_back(state);
    }
    if (slip("sheet_run: a refusal writes the output as it is") && out_length > 0) {
        write_back(out);
    }
    if (slip("sheet_run: a refusal writes the last byte of the output as it is") &&
        out_length > 0) {
        write_back(out + out_length - 1);
    }
}

uint32_t wrong_sheet_run_quad32(const uint8_t *sheet, size_t sheet_length,
                                footspandle_quad32 *state, uint8_t *out, size_t out_length,
                                uint32_t *entry) {
    footspandle_quad32 from = *state, copy = *state, *run = state;
    uint32_t before = *entry, number;
    if (slip("sheet_run: on a copy of the state")) {
        run = &copy;
    }
    number = footspandle_sheet_run_quad32(sheet, sheet_length, run, out, out_length, entry);
    if (slip("sheet_run: the sums stay") && number == 0) {
        keep_sums(state, &from);
    }
    if (slip("sheet_run: no entries, and the sums worked out") && number == 0 && sheet[1] == 0) {
        footspandle_motors_to_torque_signs(state->last_motors, state->last_torque);
    }
    if (slip("sheet_run: no entry stored")) {
        *entry = before;
    }
    if (slip("sheet_run: no entry stored where it is accepted") && number == 0) {
        *entry = before;
    }
    if (slip("sheet_run: clears the output past the answers") && number == 0) {
        size_t answers = (size_t)FOOTSPANDLE_ANSWER_BYTES * sheet[1];
        memset(out + answers, 0, out_length - answers);
    }
    if (number != 0) {
        run_refused(number, state, out, out_length);
    }
    reads("sheet_run: writes to the sheet", sheet);
    beside("sheet_run: the state", state, sizeof *state);
    beside("sheet_run: the output", out, out_length);
    beside("sheet_run: the entry number", entry, 4);
    return number;
}

/*
 * footspandle.h: the rotor allocator for C and C++, as the archive libexported.a has it.
 *
 * Follows the names and argument orders of relay-mix-quad and relay-mix-multi (Apache-2.0, see
 * NOTICE); changed: declared for C; a mix changes a lent state, which keeps the torque of its motors
 * too; rows and outputs are lent.
 *
 * Each function has a contract in the crate `exported`, which is proved, and which the comments here
 * put into words. It determines the answer, and every byte that is written, for every input: every
 * bit pattern of every float, every count, and every run of bytes as a sheet. A function reads and
 * writes nothing but what it is lent, does not fault, and ends. It keeps nothing between calls, so
 * that threads may call it at any time, each with memory of its own.
 *
 * The proof is about the Rattle code; that compiler and processor do what the code says is taken for
 * granted. The arithmetic is IEEE 754-2019 binary32, each operation rounded once to the nearest, ties
 * to even, none fused. That the answers are those of the Rust, by bits, is compared by running both
 * (docs/COMPARISON.md).
 *
 * `compare/archive exported` proves the crate, builds the archive and prints its folder. A program
 * links it as it stands (cc program.c libexported.a). It needs no other library.
 *
 *
 * What the caller owes
 *
 * The proof begins where the call does. These it takes for granted, and no function can test them:
 *
 * 1. A pointer is not null, is aligned for its type, and points to as many elements as its type or
 *    the length beside it says. Where the length is 0 nothing is read, but it still is not null.
 * 2. What a function writes to (a pointer that is not to const, and is marked FOOTSPANDLE_WRITTEN)
 *    overlaps nothing else that the same call is lent. What is only read may overlap.
 * 3. Nothing else writes to what is lent, nor reads what is written, while the call runs.
 * 4. All that is lent to be read, and a state, has been written before: footspandle_quad32_new makes
 *    a state. Outputs need no value before the call.
 * 5. The processor is in the mode that a program starts in: it rounds to nearest, neither flushes
 *    small results to zero nor takes small numbers for zero, and no floating-point exception traps.
 *    A program that gcc links with -ffast-math starts in another mode.
 *    (A debugger may stop on the invalid flag all the same: docs/COMPARISON.md, 'The invalid flag', has what
 *    raises it. On x86-64 none of the NaNs and infinities tried as arguments of the quad's mixes does where +0
 *    in its place would not.)
 * 6. There is room for a call: at most 372 bytes of stack (x86-64; compare/stack prints it for each
 *    function). Some of them can lie under the stack pointer, in the 128 bytes that the System V ABI keeps
 *    from interrupts. Nothing is allocated anywhere else.
 *
 *
 * Words
 *
 * treated: a NaN or an infinity becomes +0; any other number stays.
 * limited: treated; then under 0 becomes +0 and over 1 becomes 1. A -0 stays -0.
 * floor:   the least command of a motor that runs. Every function that takes one limits it first,
 *          so that a floor which is a NaN or an infinity counts as 0; "the floor" is that.
 * thrust:  the collective, meant from 0 to 1. Every number is taken.
 * torque:  torque_body is roll, pitch and yaw, in that order, meant from -1 to 1. Every number is
 *          taken.
 * row:     what thrust, roll, pitch and yaw each count for one rotor, in that order. The quad's are
 *          M1 1,-1,1,-1; M2 1,-1,-1,1; M3 1,1,-1,-1; M4 1,1,1,1.
 * delta:   what the torque asks of one motor: its roll, pitch and yaw products, summed, treated.
 * fits:    the collective plus each delta, taken exactly, lies from the floor to 1.
 *
 * The rules themselves, operation by operation, are definitions in crates/rules/specs, and the
 * promises are in crates/rules/specs/Promises.antt.
 *
 * A NaN: the contracts say where an answer is a NaN, and not which one of its many bit patterns it
 * is. Such answers are named at the functions; there are no others (docs/NAN.md).
 */
#ifndef FOOTSPANDLE_H
#define FOOTSPANDLE_H

#include <stddef.h>
#include <stdint.h>

/*
 * The mark of what a function writes to, which overlaps nothing else of the call (rule 2): restrict, by the
 * name that the language has for it. It stands after the * of a pointer, or in the brackets of an array,
 * so that the array's size stays in sight; in brackets only C99 takes it, hence the second name.
 */
#if defined(__STDC_VERSION__) && __STDC_VERSION__ >= 199901L && !defined(__cplusplus)
#define FOOTSPANDLE_WRITTEN restrict
#define FOOTSPANDLE_WRITTEN_ARRAY restrict
#elif defined(__GNUC__) || defined(_MSC_VER)
#define FOOTSPANDLE_WRITTEN __restrict
#define FOOTSPANDLE_WRITTEN_ARRAY
#else
#define FOOTSPANDLE_WRITTEN
#define FOOTSPANDLE_WRITTEN_ARRAY
#endif

#ifdef __cplusplus
extern "C" {
#endif

/* ---- sizes ------------------------------------------------------------------------------------ */

#define FOOTSPANDLE_QUAD_MOTORS 4     /* motors of the quad */
#define FOOTSPANDLE_MAX_ROTORS 8      /* rows of a MixerN, and its motors */
#define FOOTSPANDLE_MATRIX_FLOATS 32  /* floats of those rows */
#define FOOTSPANDLE_HEX_ROTORS 6      /* rotors of hex_x; four floats each */
#define FOOTSPANDLE_OCTO_ROTORS 8     /* rotors of octo_coax; four floats each */
#define FOOTSPANDLE_MAX_OUTPUTS 64    /* outputs of one mix by lent rows, at most */
#define FOOTSPANDLE_MAX_ENTRIES 64    /* entries of a sheet, at most */
#define FOOTSPANDLE_ANSWER_BYTES 20   /* bytes of an entry's answer in the output of a run */
#define FOOTSPANDLE_OUTPUT_BYTES 1280 /* room for 64 answers: such an output is never too short */

/* ---- types ------------------------------------------------------------------------------------ */

/*
 * The quad's state: the motors of the last mix, the torque scale that the last thrust-floor or
 * rotor-out recorded, and the torque that the last motors give. The contracts hold for a state of any
 * bits.
 *
 * A state that calls reach from footspandle_quad32_new holds the sums that
 * footspandle_motors_to_torque_signs gives of its motors, by bits: after new, after every mix, whatever
 * the state before was, and after a sheet's run, accepted or refused. That is proved
 * (crates/exported/proofs/Torque.antt).
 *
 * The 32 in the names is the size of a state in bytes. What was compiled for a state of another size
 * asks for other names and does not link, where else a function would write past the end of a smaller
 * state. Whoever changes the size changes the names: bindings/declarations holds the one to the other.
 */
typedef struct footspandle_quad32 {
    float last_motors[FOOTSPANDLE_QUAD_MOTORS]; /* M1 to M4 */
    float last_torque_scale;
    float last_torque[3]; /* roll, pitch and yaw sums of last_motors */
} footspandle_quad32;

/* What is asked of a frame, or what it gives: a collective thrust, and a torque about each axis. */
typedef struct footspandle_wrench {
    float thrust;
    float roll;
    float pitch;
    float yaw;
} footspandle_wrench;

/*
 * The archive takes a state as the struct of the Rattle code, which is laid out as C lays it out
 * (`#[repr(C)]`), a wrench as four floats that touch, and a count as 64 bits.
 */
typedef char footspandle_quad32_is_32_bytes[sizeof(footspandle_quad32) == 32 ? 1 : -1];
typedef char footspandle_wrench_is_16_bytes[sizeof(footspandle_wrench) == 16 ? 1 : -1];
typedef char footspandle_size_is_8_bytes[sizeof(size_t) == 8 ? 1 : -1];

/*
 * The numbers of refusals, in the words of docs/REFUSALS.md. Where more than one applies to a call, the
 * first here is given, those about an entry being tried entry by entry.
 */
enum footspandle_number {
    FOOTSPANDLE_ACCEPTED = 0,     /* nothing is refused */
    FOOTSPANDLE_TOO_SHORT = 1,    /* the sheet has under 4 bytes */
    FOOTSPANDLE_BAD_VERSION = 2,  /* the version is not 1 */
    FOOTSPANDLE_TOO_MANY = 3,     /* there are over 64 entries */
    FOOTSPANDLE_BAD_LENGTH = 4,   /* the length field is not the length of the sheet, or the contents do not fit in that */
    FOOTSPANDLE_BAD_KIND = 5,     /* an entry's kind is over 4 */
    FOOTSPANDLE_BAD_ROTOR = 6,    /* an entry's rotor byte is not 0, and its kind is not 4 */
    FOOTSPANDLE_BAD_OFFSET = 7,   /* an entry's body does not begin at the end of the one before it (the first: of the contents) */
    FOOTSPANDLE_BAD_END = 8,      /* the sheet does not end at the end of the last body (with no entries: of the contents) */
    FOOTSPANDLE_SHORT_OUTPUT = 9, /* the output has under 20 bytes for each entry */
    FOOTSPANDLE_BAD_ROWS = 10     /* there are over 64 outputs, or rows that are not four floats for each */
};

/* The kinds of a sheet's entries. */
enum footspandle_kind {
    FOOTSPANDLE_PLAIN = 0,
    FOOTSPANDLE_THRUST_FLOOR = 1,
    FOOTSPANDLE_PRIORITY = 2,
    FOOTSPANDLE_AIRMODE = 3,
    FOOTSPANDLE_ROTOR_OUT = 4
};

/* ---- the quad --------------------------------------------------------------------------------- */

/*
 * Makes a fresh state: four motors of +0, the scale 1, and three sums of +0. What stood there does not
 * matter.
 */
void footspandle_quad32_new(footspandle_quad32 *FOOTSPANDLE_WRITTEN state);

/*
 * Copies the state's motors, which are those of the last mix; in a fresh state four +0. A motor is a
 * NaN only where the state was given one: no mix stores a NaN.
 */
void footspandle_quad32_last_motors(const footspandle_quad32 *state,
                                    float motors[FOOTSPANDLE_WRITTEN_ARRAY 4]);

/*
 * The state's recorded scale: thrust-floor records the scale that it gave the torque at, rotor-out
 * records 1, the other mixes leave what is there. It is a NaN only where the state was given one.
 */
float footspandle_quad32_last_torque_scale(const footspandle_quad32 *state);

/*
 * Copies the three sums that stand in the state, roll, pitch and yaw, which are those of the last
 * motors; in a fresh state three +0. Nothing is worked out: of a state that a caller made, of any bits,
 * what stands there is copied, whatever its motors are. A sum is a NaN only where the state was given
 * one: no mix stores a NaN, since its motors lie in 0..1.
 */
void footspandle_quad32_last_torque(const footspandle_quad32 *state, float sums[FOOTSPANDLE_WRITTEN_ARRAY 3]);

/*
 * The five mixes. Each takes a state, a command, and writes its answer, four motors, to
 * state->last_motors, and the sums that footspandle_motors_to_torque_signs gives of these to
 * state->last_torque; what stood in both before does not matter. Every motor lies in 0..1 for every
 * command, so that none is a NaN, nor is a sum. A NaN or an infinity in the torque asks for no torque
 * on that axis, and as a thrust it asks for no thrust. Where the recorded scale stays and is a NaN,
 * which only a caller can have put there, it may be another NaN afterwards.
 */

/*
 * Plain: keeps the torque as far as no motor would go under 0, and gives up thrust. There is no
 * floor: a motor may stop. Thrust and torque are treated, and each motor's raw sum is its row times
 * them. If the largest is over 1, what it has over 1 is taken from all; then a motor under 0, or not
 * finite, is +0, and one over 1 is 1.
 * Promised: every motor lies in 0..1. A raw sum that overflows to +infinity makes all four +0. Where
 * the largest raw sum is over 1 and up to 2^24, each motor that has it is exactly 1.
 * The recorded scale stays.
 */
void footspandle_quad32_mix(footspandle_quad32 *FOOTSPANDLE_WRITTEN state, const float torque_body[3],
                            float thrust);

/*
 * Thrust-floor: keeps the thrust, and gives up torque by one scale. The collective is the limited
 * thrust, or the floor where the thrust is under it. The scale starts at 1, and each motor whose delta
 * is over 1e-6 in size limits it to the room that the delta has, to 1 or to the floor, by the delta.
 * Promised: every motor lies from the floor to 1. A command that fits is not cut: each motor is the
 * exact sum of collective and delta, rounded once, zero's sign aside, so that no float is nearer to
 * that sum, and the scale is 1. A larger delta never gets a smaller motor.
 * The scale that the deltas were multiplied by, in 0..1 (it may be -0), is recorded.
 */
void footspandle_quad32_mix_thrust_floor(footspandle_quad32 *FOOTSPANDLE_WRITTEN state,
                                         const float torque_body[3], float thrust, float floor);

/*
 * Priority: keeps the thrust, lifted to the floor as in thrust-floor, and gives up torque in two
 * groups, yaw, and roll and pitch; a motor's part of a group is the sum of its products, treated. The
 * yaw's scale is found first, with roll and pitch in full, and then the scale of these, with the yaw
 * as scaled.
 * Promised: every motor lies from the floor to 1. A command is not cut if it fits in both orders (the
 * collective plus one group, rounded, and then plus the other exactly, lies from the floor to 1, for
 * every motor): each motor then is collective plus roll and pitch plus yaw, rounded at each sum, so
 * that no float is nearer to the second.
 * The recorded scale stays.
 */
void footspandle_quad32_mix_priority(footspandle_quad32 *FOOTSPANDLE_WRITTEN state, const float torque_body[3],
                                     float thrust, float floor);

/*
 * Airmode: keeps the torque as far as it fits between the idle floor and 1, and moves the thrust up
 * or down for it. The collective is the limited thrust, even under the idle floor. Where the spread of
 * the deltas, the largest less the least, is over 1e-6 and wider than idle to 1, all are scaled by the
 * room over the spread; a spread that overflows counts as 0, so that nothing is scaled. Then, if the
 * lowest motor is under idle, all are shifted up to bring it there, or else, if the highest is over 1,
 * down to bring it there. What then still lies outside idle to 1 is cut: over 1 to 1, and what is under
 * idle or not finite to idle, so that an overflow gives idle and not 1.
 * Promised: every motor lies from the idle floor to 1. A command that fits is not cut: each motor is
 * the exact sum of collective and delta, rounded once, zero's sign aside, so that no float is nearer
 * to that sum.
 * The recorded scale stays.
 */
void footspandle_quad32_mix_airmode(footspandle_quad32 *FOOTSPANDLE_WRITTEN state, const float torque_body[3],
                                    float thrust, float idle);

/*
 * Rotor-out: thrust, roll and pitch on the three rotors that are left where `failed` is 0 to 3 (M1 to
 * M4). A number of 4 or more means that none is lost: nothing is scaled then, and each motor is cut
 * alone. Yaw is dropped. Roll and pitch count as limited to -8..8, and thrust as limited; it is not lifted
 * to the floor. The three rotors that are left are to give three times the thrust together, where four
 * gave four times it, and with it roll and pitch, which share one scale, found as in thrust-floor. What
 * yaw that gives is not looked at.
 * Promised: a lost rotor is +0, and every other motor lies from the floor to 1. Of the torque nothing
 * is promised: a floor over 0 lifts the rotor opposite to the lost one, which tilts the aircraft, and
 * can turn the roll or pitch that was asked for round (docs/DIFFERENCES.md, F17 and F18).
 * The recorded scale becomes 1, whatever was given.
 */
void footspandle_quad32_mix_rotor_out(footspandle_quad32 *FOOTSPANDLE_WRITTEN state, size_t failed,
                                      const float torque_body[3], float thrust, float floor);

/*
 * The roll, pitch and yaw that four motors give by the quad's rows: sums from +0 on, M1 first, and
 * not signs. Motors are taken as they are, so that a sum is a NaN where a motor is one or infinities
 * cancel, and infinite where it overflows. Motors in 0..1 lead to neither.
 * Those of a mix's motors stand in the state: footspandle_quad32_last_torque reads them.
 */
void footspandle_motors_to_torque_signs(const float motors[4], float sums[FOOTSPANDLE_WRITTEN_ARRAY 3]);

/* ---- MixerN: a frame of up to eight rotors ---------------------------------------------------- */

/*
 * A MixerN is its matrix, eight rows of four floats, and a count, which the caller keeps. No mix reads
 * the count: all eight rows are used, whatever it is, so that a row of a rotor that is not there should
 * be four zeros.
 */

/* Copies the rows as they are, NaNs among them, and answers the count n, a count over 8 as 8. */
size_t footspandle_mixer_n_new(const float rows[32], size_t n, float mix[FOOTSPANDLE_WRITTEN_ARRAY 32]);

/* The count of a MixerN: n itself, also over 8, since only footspandle_mixer_n_new cuts it. */
size_t footspandle_mixer_n_n(const float mix[32], size_t n);

/* Writes the quad's four rows and four rows of +0, and answers the count 4. */
size_t footspandle_mixer_n_quad_x(float mix[FOOTSPANDLE_WRITTEN_ARRAY 32]);

/*
 * Torque and thrust to eight motors. Thrust and torque are treated; each row's sum is treated; if the
 * largest is over 1, what it has over 1 is taken from all; then each is limited. There is no floor.
 * Promised: every motor lies in 0..1, for every matrix. With the rows of quad_x the first four are
 * those of footspandle_quad32_mix, by bits, unless a raw sum of that one is +infinity.
 * All eight motors are written, also those past the count.
 */
void footspandle_mixer_n_mix(const float mix[32], size_t n, const float torque_body[3], float thrust,
                             float motors[FOOTSPANDLE_WRITTEN_ARRAY 8]);

/*
 * The thrust, roll, pitch and yaw that eight motors give by the matrix: sums from +0 on. Motors are
 * treated and the matrix is not, so that a sum is a NaN where its operations lead to one: a NaN in the
 * matrix, an infinity in it times zero, or infinities that cancel, those of an overflow among them.
 */
void footspandle_mixer_n_achieved_wrench(const float mix[32], size_t n, const float motors[8],
                                         footspandle_wrench *FOOTSPANDLE_WRITTEN wrench);

/* ---- any frame, by lent rows ------------------------------------------------------------------ */

/* x held to 0..1: a NaN gives +0, +infinity 1, -infinity +0; a -0 stays. The answer is never a NaN. */
float footspandle_clamp01(float x);

/*
 * A wrench to the commands of the rotors, by their rows: one run of floats, four (thrust, roll,
 * pitch, yaw) for each output. Both lengths count floats. Each output is its row's sum of four
 * products, held to 0..1 by itself as clamp01 does. Nothing is treated: a sum that is a NaN gives +0,
 * and one of +infinity gives 1. There is no floor.
 * Answers 0, and then every output lies in 0..1, for every row and wrench. Over 64 outputs, or
 * rows_length other than 4 * out_length, is refused with 10, and the outputs stay as they were. No
 * outputs with no rows are accepted, and nothing is written; rows and out must not be NULL even then.
 */
uint32_t footspandle_mixer_mix(const float *rows, size_t rows_length, const footspandle_wrench *w,
                               float *FOOTSPANDLE_WRITTEN out, size_t out_length);

/*
 * Thrust-floor for any frame: keeps the thrust, and gives up torque by one scale over all rotors. Rows
 * and lengths are as in footspandle_mixer_mix, but a row's thrust is not read: every rotor has the same
 * collective, the limited thrust, or the floor where the thrust is under it. Each torque is treated, so
 * that a NaN or an infinity asks for none on its axis. The scale is found as in
 * footspandle_quad32_mix_thrust_floor, over all rotors; each output is the collective plus the scaled
 * delta, held to floor..1.
 * Answers 0, and then every output and *scale are written. Promised, for every row, wrench and floor:
 * every output lies from the floor to 1. A command that fits is not cut: each output is the exact sum
 * of collective and delta, rounded once, zero's sign aside, so that no float is nearer to that sum,
 * and the scale is 1. A larger delta never gets a smaller output. The scale lies in 0..1 (it may be
 * -0). With the quad's four rows, outputs and scale are those of footspandle_quad32_mix_thrust_floor, by
 * bits. Of the lift, the mean of the outputs, nothing is promised: that it stays, up to rounding, where
 * the deltas cancel, as hex_x's and octo_coax's do, is arithmetic and not proved.
 * What footspandle_mixer_mix refuses with 10 is refused so here, and the outputs and *scale stay as they
 * were. No outputs with no rows are accepted: nothing is written to out, and the scale is 1.
 * scale must not be NULL, also where it is not wanted, nor rows and out, also where there are none.
 * While the call runs, out holds the deltas for a time (rule 3 of what the caller owes).
 */
uint32_t footspandle_mixer_mix_thrust_floor(const float *rows, size_t rows_length, const footspandle_wrench *w,
                                            float floor, float *FOOTSPANDLE_WRITTEN out, size_t out_length,
                                            float *FOOTSPANDLE_WRITTEN scale);

/*
 * Writes the six rows of hex_x, as the two mixes take them, each number as the nearest float:
 * thrust 1, and roll, pitch, yaw -1,0,1; 1,0,-1; 0.5,-0.866,1; -0.5,0.866,-1; -0.5,-0.866,-1;
 * 0.5,0.866,1.
 */
void footspandle_hex_x(float rows[FOOTSPANDLE_WRITTEN_ARRAY 24]);

/*
 * The same of octo_coax, eight rows: thrust 1, and roll, pitch, yaw -0.707,0.707,1; -0.707,0.707,-1;
 * 0.707,-0.707,1; 0.707,-0.707,-1; 0.707,0.707,-1; 0.707,0.707,1; -0.707,-0.707,-1; -0.707,-0.707,1.
 */
void footspandle_octo_coax(float rows[FOOTSPANDLE_WRITTEN_ARRAY 32]);

/* footspandle_mixer_mix by the rows of hex_x, which cannot be refused: every output lies in 0..1. */
void footspandle_mix_hex_x(const footspandle_wrench *w, float out[FOOTSPANDLE_WRITTEN_ARRAY 6]);

/* The same by the rows of octo_coax. */
void footspandle_mix_octo_coax(const footspandle_wrench *w, float out[FOOTSPANDLE_WRITTEN_ARRAY 8]);

/*
 * footspandle_mixer_mix_thrust_floor by the rows of hex_x, which cannot be refused: answers the scale,
 * and what is promised there is promised here.
 */
float footspandle_mix_thrust_floor_hex_x(const footspandle_wrench *w, float floor,
                                         float out[FOOTSPANDLE_WRITTEN_ARRAY 6]);

/* The same by the rows of octo_coax. */
float footspandle_mix_thrust_floor_octo_coax(const footspandle_wrench *w, float floor,
                                             float out[FOOTSPANDLE_WRITTEN_ARRAY 8]);

/* ---- the command sheet ------------------------------------------------------------------------ */

/*
 * A sheet is bytes, of which nothing is trusted. Numbers are little-endian.
 *
 *   1 byte    version, 1
 *   1 byte    k, how many entries, 0 to 64
 *   2 bytes   the length of the whole sheet
 *   4 bytes for each entry: kind; rotor byte (kind 4: 0 to 3 is the lost rotor M1 to M4, 4 to 255
 *             none is lost; any other kind: 0); two bytes, where its body begins in the sheet
 *   16 or 20 bytes for each entry, its body: floats thrust, roll, pitch, yaw and, except for plain,
 *             floor. Bodies stand in the order of the entries and touch
 *
 * The functions that judge a sheet answer 0 where it is accepted, and else the number of the first
 * refusal that applies (enum footspandle_number), and they store the entry that it comes with, counted
 * from 0. 5, 6 and 7 come with the entry that they are about, and are tried entry by entry; with any
 * other number 0 is stored.
 */

/*
 * Whether a sheet is accepted: answers 0 or a number about the sheet (9 is about an output), and stores
 * the entry at entry_number.
 * entry_number must not be NULL, also where it is not wanted, nor the sheet, also where it has no bytes.
 */
uint32_t footspandle_sheet_check(const uint8_t *sheet, size_t sheet_length, uint32_t *FOOTSPANDLE_WRITTEN entry_number);

/*
 * The body of entry i as a part of the sheet: answers its length, 16 or 20, and stores where it
 * begins in the sheet; it ends within the sheet. For a sheet that footspandle_sheet_check refuses, and
 * for an i that is not under the count of entries, the part is empty: 0 is answered, and 0 is stored.
 * at must not be NULL, also where it is not wanted, nor the sheet, also where it has no bytes.
 */
size_t footspandle_sheet_body(const uint8_t *sheet, size_t sheet_length, size_t i,
                              size_t *FOOTSPANDLE_WRITTEN at);

/*
 * Runs a sheet from a state: its commands as calls of the mixes, one after another. Answers 0,
 * or what footspandle_sheet_check does of a refused sheet, or 9, and stores the entry at entry_number.
 * On 0 the state is that after the last call, and the answer of entry i stands in the bytes 20i to
 * 20i + 19 of the output: four motors and then the recorded scale after that call, each as the bits
 * of its float, little-endian (a NaN, which only the scale of the lent state can be, as 7fc00000).
 * The bytes past the last answer stay as they were. Each answer keeps what its mix promises.
 * The state's sums are those of the last call's motors, and stand in no answer. Where the sheet has no
 * entries there is no call, and they stay, as the motors and the scale do.
 * On any other number the output and the state are as they were, byte by byte.
 * entry_number must not be NULL, also where it is not wanted, nor sheet and out, also where they have no bytes.
 */
uint32_t footspandle_sheet_run_quad32(const uint8_t *sheet, size_t sheet_length,
                                      footspandle_quad32 *FOOTSPANDLE_WRITTEN state,
                                      uint8_t *FOOTSPANDLE_WRITTEN out, size_t out_length,
                                      uint32_t *FOOTSPANDLE_WRITTEN entry_number);

#ifdef __cplusplus
}
#endif

#undef FOOTSPANDLE_WRITTEN
#undef FOOTSPANDLE_WRITTEN_ARRAY

#endif

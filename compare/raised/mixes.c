#include "mixes.h"

#include <inttypes.h>
#include <stdio.h>

#include "flag.h"
#include "footspandle.h"
#include "patterns.h"
#include "rules.h"

#define COUNT(table) (sizeof(table) / sizeof(table)[0])

/* ---- special values --------------------------------------------------------------------------- */

/*
 * Arguments: both zeros, the least number, numbers of flight, the largest, the infinities, and NaNs, three that are
 * quiet and three that signal, of either sign and with few and with many digits set.
 */
static const uint32_t arguments[] = {
    0x00000000, 0x80000000, 0x00000001, 0x3e800000, 0x3f800000, 0xbf800000, 0x7f7fffff, 0xff7fffff,
    0x7f800000, 0xff800000, 0x7fc00000, 0xffc00001, 0x7fffffff, 0x7f800001, 0xff800001, 0xffbfffff,
};

/*
 * States: a signalling NaN, a quiet one or an infinity in each of eight places, four motors, the scale and three sums,
 * which differ by place; and last a fresh state. The motors and the scale have every combination; a sum is of the kind
 * that the motor of its number is of, since every combination of eight would take 27 times as long.
 */
enum { SUMS = 5, STATE = 8 };
enum { STORED = 3, STORED_QUICK = 2, STATES = 3 * 3 * 3 * 3 * 3 + 1, STATES_QUICK = 2 * 2 * 2 * 2 * 2 + 1 };
static const uint32_t stored[STATE][STORED] = {
    {0x7f800001, 0x7fc00000, 0x7f800000}, {0xff800001, 0xffc00000, 0xff800000}, {0x7fbfffff, 0x7fffffff, 0x7f800000},
    {0xffbfffff, 0xffffffff, 0xff800000}, {0x7fa00000, 0x7fc00001, 0x7f800000}, {0xffa00000, 0xffc00001, 0xff800000},
    {0x7f800002, 0x7fe00000, 0x7f800000}, {0xff800002, 0xffe00000, 0xff800000},
};

/* Rotor-out's rotors: the four, and two numbers by which none is lost. */
static const size_t rotors[] = {0, 1, 2, 3, 4, SIZE_MAX};

/* The next digit of a number that picks from tables. */
static size_t digit(uint64_t *number, size_t base) {
    const size_t next = (size_t)(*number % base);
    *number /= base;
    return next;
}

/* ---- a mix ------------------------------------------------------------------------------------ */

/* A command's numbers: torque, thrust, floor. */
enum { THRUST = 3, FLOOR = 4, COMMAND = 5 };

typedef void mix(footspandle_quad32 *state, size_t rotor, const float command[COMMAND]);

static void plain(footspandle_quad32 *state, size_t rotor, const float command[COMMAND]) {
    (void)rotor;
    footspandle_quad32_mix(state, command, command[THRUST]);
}

static void thrust_floor(footspandle_quad32 *state, size_t rotor, const float command[COMMAND]) {
    (void)rotor;
    footspandle_quad32_mix_thrust_floor(state, command, command[THRUST], command[FLOOR]);
}

static void priority(footspandle_quad32 *state, size_t rotor, const float command[COMMAND]) {
    (void)rotor;
    footspandle_quad32_mix_priority(state, command, command[THRUST], command[FLOOR]);
}

static void airmode(footspandle_quad32 *state, size_t rotor, const float command[COMMAND]) {
    (void)rotor;
    footspandle_quad32_mix_airmode(state, command, command[THRUST], command[FLOOR]);
}

static void rotor_out(footspandle_quad32 *state, size_t rotor, const float command[COMMAND]) {
    footspandle_quad32_mix_rotor_out(state, rotor, command, command[THRUST], command[FLOOR]);
}

/* ---- a block: one command, from every state --------------------------------------------------- */

struct input {
    uint32_t command[COMMAND];
    uint32_t state[STATE];
    size_t rotor;
};

static mix *mixed;
static int has_floor, has_rotor;
static footspandle_quad32 states[STATES];
static struct input at; /* the command at hand; its state is filled in for a call that raises the flag */
static float command[COMMAND];
static int invalid_by_the_rules;

/* Why a call can raise the flag, and which of it was seen of the command at hand. */
enum why { BY_THE_RULES, BY_NUMBERS, BY_SIGNALLING, BY_QUIET_OR_INFINITE, WHYS };
static int seen[WHYS];

static void make_states(size_t values, size_t count) {
    for (uint64_t n = 0; n < count - 1; n++) {
        uint64_t rest = n;
        size_t value[STATE];
        uint32_t bits[STATE];
        for (int i = 0; i < STATE; i++) {
            value[i] = i < SUMS ? digit(&rest, values) : value[i - SUMS];
            bits[i] = stored[i][value[i]];
        }
        memcpy(&states[n], bits, sizeof states[n]);
    }
    footspandle_quad32_new(&states[count - 1]);
}

static uint64_t commands(void) {
    uint64_t count = has_rotor ? COUNT(rotors) : 1;
    for (int i = 0; i < (has_floor ? COMMAND : FLOOR); i++) {
        count *= COUNT(arguments);
    }
    return count;
}

/* Whether the command's numbers alone raise the flag, from a state of zeros and from a fresh one: each asked once. */
enum { NOT_ASKED = -1 };
static int numbers_raise[2];

static void begin(uint64_t block) {
    for (int i = 0; i < COMMAND; i++) {
        at.command[i] = i < FLOOR || has_floor ? arguments[digit(&block, COUNT(arguments))] : 0;
    }
    at.rotor = rotors[has_rotor ? digit(&block, COUNT(rotors)) : 0];
    memcpy(command, at.command, sizeof command);
    invalid_by_the_rules = mixed == plain && plain_is_invalid(command, command[THRUST]);
    numbers_raise[0] = numbers_raise[1] = NOT_ASKED;
    memset(seen, 0, sizeof seen);
}

static void call(uint64_t k) {
    footspandle_quad32 state = states[k];
    mixed(&state, at.rotor, command);
}

/* ---- why a call raises the flag --------------------------------------------------------------- */

static const char *const because[WHYS] = {
    "by the rules' own arithmetic",
    "by numbers: with +0 for each NaN and infinity it is raised too",
    "by a signalling NaN",
    "by a quiet NaN or an infinity",
};
static uint64_t of_why[WHYS];
static struct input first[WHYS];

/*
 * The instructions at which a debugger stops, each with how many commands; the last place is for any more. Only every
 * 16th command is asked for its own, since a stop takes as long as thousands of calls.
 */
enum { PLACES = 8, ASKED = 16 };
static uint64_t commands_of[WHYS];
static struct {
    const void *at;
    uint64_t commands;
} stops[WHYS][PLACES];

static void note_stop(enum why w, const void *at_instruction) {
    int place = 0;
    while (place < PLACES - 1 && stops[w][place].commands != 0 && stops[w][place].at != at_instruction) {
        place++;
    }
    stops[w][place].at = at_instruction;
    stops[w][place].commands++;
}

static struct input other;

static void call_other(uint64_t k) {
    footspandle_quad32 state;
    float numbers[COMMAND];
    (void)k;
    memcpy(&state, other.state, sizeof state);
    memcpy(numbers, other.command, sizeof numbers);
    mixed(&state, other.rotor, numbers);
}

/* Whether the call at hand raises the flag with +0 in the place of each number of this kind and those after it. */
static int raises_without(enum kind kind) {
    other = at;
    for (int i = 0; i < COMMAND; i++) {
        other.command[i] = kind_of(at.command[i]) >= kind ? 0 : at.command[i];
    }
    for (int i = 0; i < STATE; i++) {
        other.state[i] = kind_of(at.state[i]) >= kind ? 0 : at.state[i];
    }
    return one_raises(call_other, 0);
}

static int numbers_alone_raise(void) {
    const int fresh = kind_of(at.state[0]) == FINITE;
    if (numbers_raise[fresh] == NOT_ASKED) {
        numbers_raise[fresh] = raises_without(INFINITE);
    }
    return numbers_raise[fresh];
}

static enum why why(void) {
    if (invalid_by_the_rules) {
        return BY_THE_RULES;
    }
    if (numbers_alone_raise()) {
        return BY_NUMBERS;
    }
    return raises_without(SIGNALLING_NAN) ? BY_QUIET_OR_INFINITE : BY_SIGNALLING;
}

static void raises(uint64_t k) {
    memcpy(at.state, &states[k], sizeof at.state);
    const enum why w = why();
    if (of_why[w]++ == 0) {
        first[w] = at;
    }
    if (!seen[w] && commands_of[w]++ % ASKED == 0) {
        note_stop(w, stops_at(call, k));
    }
    seen[w] = 1;
}

/* ---- what is printed -------------------------------------------------------------------------- */

static void print_numbers(const char *name, const uint32_t *bits, int count) {
    printf(" %s", name);
    for (int i = 0; i < count; i++) {
        printf(" %08" PRIx32, bits[i]);
    }
}

static void print_why(enum why w) {
    printf("    %" PRIu64 " %s, first", of_why[w], because[w]);
    print_numbers("torque", first[w].command, 3);
    print_numbers("thrust", first[w].command + THRUST, 1);
    if (has_floor) {
        print_numbers("floor", first[w].command + FLOOR, 1);
    }
    if (has_rotor) {
        printf(" rotor %zu", first[w].rotor);
    }
    print_numbers("state", first[w].state, STATE);
    printf("\n");
    for (int place = 0; place < PLACES; place++) {
        if (stops[w][place].at != NULL) {
            printf("        %" PRIu64 " of every %dth command, at %p\n", stops[w][place].commands, ASKED,
                   stops[w][place].at);
        }
    }
}

/* How many calls the rules' own arithmetic makes raise the flag. */
static uint64_t expected_of(const struct calls *calls) {
    uint64_t count = 0;
    for (uint64_t block = 0; block < calls->blocks; block++) {
        begin(block);
        count += invalid_by_the_rules ? calls->in_block : 0;
    }
    return count;
}

static int count(const char *name, mix *function, int takes_floor, int takes_rotor, int quick) {
    mixed = function;
    has_floor = takes_floor;
    has_rotor = takes_rotor;
    const struct calls calls = {commands(), quick ? STATES_QUICK : STATES, begin, call, raises};
    make_states(quick ? STORED_QUICK : STORED, calls.in_block);
    const uint64_t raised = raised_by(&calls);
    printf("%s: %" PRIu64 " calls, %" PRIu64 " raise it\n", name, calls.blocks * calls.in_block, raised);
    for (int w = 0; w < WHYS; w++) {
        if (of_why[w] != 0) {
            print_why(w);
        }
    }
    return of_why[BY_QUIET_OR_INFINITE] == 0 && (function != plain || raised == expected_of(&calls));
}

int count_mix(int quick) {
    return count("mix", plain, 0, 0, quick);
}

int count_mix_thrust_floor(int quick) {
    return count("mix_thrust_floor", thrust_floor, 1, 0, quick);
}

int count_mix_priority(int quick) {
    return count("mix_priority", priority, 1, 0, quick);
}

int count_mix_airmode(int quick) {
    return count("mix_airmode", airmode, 1, 0, quick);
}

int count_mix_rotor_out(int quick) {
    return count("mix_rotor_out", rotor_out, 1, 1, quick);
}

/*
 * A roll that grows, on hex_x: with each motor clamped alone, as footspandle_mix_hex_x has it, which takes
 * no floor, and with thrust-floor, which cuts the torque by one scale. A line for each has the roll that is
 * asked; the six motors; the lift, which is their mean; the roll that they give; and the scale.
 * `examples/hard_roll` builds it, runs it and compares what it prints with hard_roll.txt, and
 * docs/pictures/draw makes a picture of that.
 */
#include <stdio.h>

#include "footspandle.h"

#define MOTORS FOOTSPANDLE_HEX_ROTORS
#define THRUST 0.75f
#define FLOOR 0.125f
#define STEPS 16

/* The mean of the motors. */
static double lift_of(const float motors[MOTORS]) {
    double sum = 0;
    int i;
    for (i = 0; i < MOTORS; i++) {
        sum += motors[i];
    }
    return sum / MOTORS;
}

/* The roll that the motors give, by what roll counts for each: what was asked, where none is cut. */
static double roll_of(const float rows[4 * MOTORS], const float motors[MOTORS]) {
    double sum = 0, squares = 0;
    int i;
    for (i = 0; i < MOTORS; i++) {
        double counts = rows[4 * i + 1];
        sum += counts * motors[i];
        squares += counts * counts;
    }
    return sum / squares;
}

/* A line but for the scale and its end. */
static void show(float roll, const char *mix, const float motors[MOTORS]) {
    float rows[4 * MOTORS];
    int i;
    printf("%.4f  %-12s", roll, mix);
    for (i = 0; i < MOTORS; i++) {
        printf(" %.6f", motors[i]);
    }
    footspandle_hex_x(rows);
    printf("  %.6f  %.6f  ", lift_of(motors), roll_of(rows, motors));
}

int main(void) {
    int step;

    printf("hex_x, thrust %g, floor %g: the roll asked and given (alone: each motor clamped by itself)\n",
           THRUST, FLOOR);
    printf("asked   mix          M1       M2       M3       M4       M5       M6        "
           "lift      given     scale\n");
    for (step = 0; step <= STEPS; step++) {
        const footspandle_wrench w = {THRUST, (float)step / STEPS, 0.0f, 0.0f};
        float motors[MOTORS], scale;
        footspandle_mix_hex_x(&w, motors);
        show(w.roll, "alone", motors);
        printf("none\n");
        scale = footspandle_mix_thrust_floor_hex_x(&w, FLOOR, motors);
        show(w.roll, "thrust-floor", motors);
        printf("%.6f\n", scale);
    }
    return 0;
}

/*
 * Document 01: "Plain: raw sum of four products in row order. If the largest is over 1, largest - 1 is taken from all."
 * Where a raw sum is +infinity, so is what is taken, and infinity less infinity is invalid (IEEE 754-2019, 7.2 d).
 *
 * No other operation of the five mixes is: torque, thrust and floor are treated first, hence finite. A sum that goes on
 * from a finite number by finite ones can overflow, and is no NaN; what can overflow is treated, or held between the
 * floor and 1, before it is used again. No limit is a quotient of two zeros, since its delta is over small.
 */
#include "rules.h"

#include <math.h>

/* "Treated torque or thrust: NaN and infinities become +0." */
static float treated(float x) {
    return isfinite(x) ? x : 0.0f;
}

int plain_is_invalid(const float torque[3], float thrust) {
    /* "Rows (thrust, roll, pitch, yaw): M1 1,-1,1,-1; M2 1,-1,-1,1; M3 1,1,-1,-1; M4 1,1,1,1." */
    static const float rows[4][4] = {{1, -1, 1, -1}, {1, -1, -1, 1}, {1, 1, -1, -1}, {1, 1, 1, 1}};
    for (int motor = 0; motor < 4; motor++) {
        float raw = rows[motor][0] * treated(thrust);
        for (int axis = 0; axis < 3; axis++) {
            raw += rows[motor][1 + axis] * treated(torque[axis]);
        }
        if (raw == INFINITY) {
            return 1;
        }
    }
    return 0;
}

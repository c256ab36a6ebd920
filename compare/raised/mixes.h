/* The five mixes of the quad. */
#ifndef MIXES_H
#define MIXES_H

/*
 * Each tries every combination of special values in every argument and in the state's motors and scale, with the like
 * in its sums, prints how many calls raise the flag and why, and answers whether that is as it has to be. No call
 * raises it by a quiet NaN or an infinity; and plain raises it exactly where its own rule does. With quick there are
 * fewer states.
 */
int count_mix(int quick);
int count_mix_thrust_floor(int quick);
int count_mix_priority(int quick);
int count_mix_airmode(int quick);
int count_mix_rotor_out(int quick);

#endif

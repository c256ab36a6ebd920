/* The functions of one number. */
#ifndef NUMBERS_H
#define NUMBERS_H

/*
 * Each prints how many patterns raise the flag, by their kinds, and answers whether that is as it has to be: for the
 * finite test it is none. With quick only the patterns whose bits 8 to 15 are clear are tried.
 */
int count_is_finite(int quick);
int count_sanitise(int quick);
int count_limit(int quick);
int count_clamp_floor(int quick);

#endif

/*
 * Counts the calls of a function that raise the processor's invalid flag.
 *
 *   raised FUNCTION [--quick]
 *
 * Exit status 0 only if the counts that are held to something are as they have to be; a bad call is 2.
 */
#include <stdio.h>
#include <string.h>

#include "mixes.h"
#include "numbers.h"

static const struct {
    const char *name;
    int (*count)(int quick);
} functions[] = {
    {"is_finite", count_is_finite},
    {"sanitise", count_sanitise},
    {"limit", count_limit},
    {"clamp_floor", count_clamp_floor},
    {"mix", count_mix},
    {"mix_thrust_floor", count_mix_thrust_floor},
    {"mix_priority", count_mix_priority},
    {"mix_airmode", count_mix_airmode},
    {"mix_rotor_out", count_mix_rotor_out},
};

int main(int words, char **word) {
    const int quick = words == 3 && strcmp(word[2], "--quick") == 0;
    for (size_t i = 0; i < sizeof functions / sizeof functions[0]; i++) {
        if (words == 2 + quick && strcmp(word[1], functions[i].name) == 0) {
            return functions[i].count(quick) ? 0 : 1;
        }
    }
    fprintf(stderr, "usage: raised FUNCTION [--quick]\n");
    return 2;
}

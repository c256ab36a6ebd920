#include "list.h"

#include <stdarg.h>
#include <stdio.h>
#include <string.h>

uint32_t word_at(const uint8_t *bytes) {
    return (uint32_t)bytes[0] | (uint32_t)bytes[1] << 8 | (uint32_t)bytes[2] << 16 |
           (uint32_t)bytes[3] << 24;
}

float float_of(uint32_t bits) {
    float x;
    memcpy(&x, &bits, sizeof x);
    return x;
}

uint32_t bits_of(float x) {
    uint32_t bits;
    memcpy(&bits, &x, sizeof bits);
    return (bits & 0x7fffffff) > 0x7f800000 ? 0x7fc00000 : bits;
}

void must(struct fault *fault, int holds, const char *format, ...) {
    va_list words;
    if (holds || fault->words[0] != '\0') {
        return;
    }
    va_start(words, format);
    vsnprintf(fault->words, sizeof fault->words, format, words);
    va_end(words);
}

void count_difference(struct tally *tally, const char *format, ...) {
    va_list words;
    tally->differ++;
    if (tally->shown == 0) {
        return;
    }
    tally->shown--;
    printf("%s, ", tally->list);
    va_start(words, format);
    vprintf(format, words);
    va_end(words);
    printf("\n");
}

size_t read_list(uint8_t *room, const char *root, const char *path) {
    char name[4096];
    size_t length;
    FILE *file;
    snprintf(name, sizeof name, "%s/%s", root, path);
    file = fopen(name, "rb");
    if (file == NULL) {
        perror(name);
        return 0;
    }
    length = fread(room, 1, LIST_ROOM, file);
    fclose(file);
    return length;
}

void must_be_whole(struct tally *tally, const uint8_t *list, size_t length, size_t at,
                   size_t records) {
    if (length < 4 || length >= LIST_ROOM || at != length || records != word_at(list)) {
        count_difference(tally, "%u bytes: not as many whole records as it says", (unsigned)length);
    }
}

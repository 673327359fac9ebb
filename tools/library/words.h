/* words.h: the words of a line of standard input, and numbers and bytes as words of the answer. */
#ifndef WORDS_H
#define WORDS_H

#include "guarded.h"

#include <inttypes.h>

static char *line; /* what is left of it */

static inline char *word(void) {
    char *found = strsep(&line, " \n");
    must(found != NULL && *found != 0, "a line is too short");
    return found;
}

static inline long long number(void) { return strtoll(word(), NULL, 10); }

/* The blocks of a header: its cards, each after a /, with ~ for a blank. */
static inline uint8_t *cards(char *text, size_t *len) {
    size_t i, count = 0;
    char *card;
    uint8_t *made;
    for (card = text; *card != 0; card++) count += *card == '/';
    *len = (count + 35) / 36 * 2880;
    made = memset(malloc(*len), ' ', *len);
    strsep(&text, "/");
    for (count = 0; (card = strsep(&text, "/")) != NULL; count++)
        for (i = 0; card[i] != 0; i++) made[80 * count + i] = card[i] == '~' ? ' ' : (uint8_t)card[i];
    return made;
}

/* The bytes that the line has here. */
static inline uint8_t *bytes(size_t *len) {
    char *digits = word();
    size_t i;
    uint8_t *made;
    if (*digits == '/') return cards(digits, len);
    *len = *digits == '-' ? 0 : strlen(digits) / 2;
    made = malloc(*len + 1);
    for (i = 0; i < *len; i++) {
        unsigned value;
        must(sscanf(digits + 2 * i, "%2x", &value) == 1, "no hexadecimal digits");
        made[i] = (uint8_t)value;
    }
    return made;
}

/* The numbers that the line has here. */
static inline int32_t *numbers(size_t *count) {
    size_t i;
    int32_t *made;
    *count = (size_t)number();
    made = malloc(4 * *count + 4);
    for (i = 0; i < *count; i++) made[i] = (int32_t)number();
    return made;
}

/* The room for bytes that the line has here, or this one. */
static inline size_t room_or(size_t usual) { return line != NULL && *line != 0 ? (size_t)number() : usual; }

static inline void print_bytes(const uint8_t *data, size_t len) {
    size_t i;
    putchar(' ');
    if (len == 0) putchar('-');
    for (i = 0; i < len; i++) printf("%02x", data[i]);
}

static inline void print_numbers(const int32_t *data, size_t count) {
    size_t i;
    printf(" %zu", count);
    for (i = 0; i < count; i++) printf(" %" PRId32, data[i]);
}

#endif

/* The words of a call: numbers, lists and bytes (docs/CASES.md). A word that is none stops the program with status 2. */
#ifndef WORDS_H
#define WORDS_H

#include <ctype.h>
#include <errno.h>
#include <stdint.h>
#include <stdio.h>
#include <stdlib.h>
#include <string.h>

/* No more places, values or codes are lent or given, and no more bytes. */
enum { MOST = 256, MOST_BYTES = 65537 };

static unsigned long line_number;

static void stop(const char *what) {
    fprintf(stderr, "through_c: line %lu: %s\n", line_number, what);
    exit(2);
}

static uint32_t number(const char *word) {
    char *end;
    errno = 0;
    unsigned long value = strtoul(word, &end, 10);
    if (*word < '0' || *word > '9' || *end != 0 || errno != 0 || value > UINT32_MAX)
        stop("a number is none");
    return (uint32_t)value;
}

static size_t at_most(size_t most, const char *word) {
    uint32_t value = number(word);
    if (value > most)
        stop("too many places or bytes");
    return value;
}

/* What is ahead of the next comma, or NULL behind the last. strtok_r would pass over an empty one, which must be refused. */
static char *next(char **rest) {
    char *one = *rest, *comma = one == NULL ? NULL : strchr(one, ',');
    *rest = comma == NULL ? NULL : comma + 1;
    if (comma != NULL)
        *comma = 0;
    return one;
}

static size_t list(char *word, uint32_t values[MOST]) {
    size_t n = 0;
    if (strcmp(word, "-") == 0)
        return 0;
    for (char *one = next(&word); one != NULL; one = next(&word)) {
        if (n == MOST)
            stop("too many values");
        values[n++] = number(one);
    }
    return n;
}

static unsigned digit(char sign) {
    const char *digits = "0123456789abcdef", *at = memchr(digits, tolower((unsigned char)sign), 16);
    if (at == NULL)
        stop("a digit is none");
    return (unsigned)(at - digits);
}

/* Pairs of digits, so many times over but at least once, go behind the first n bytes; the answer is how many there are then. */
static size_t piece(const char *digits, size_t times, uint8_t *out, size_t n) {
    size_t pairs = strlen(digits) / 2;
    if (strlen(digits) % 2 != 0 || pairs == 0 || times == 0 || times > MOST_BYTES || pairs * times > MOST_BYTES - n)
        stop("odd, no or too many digits");
    for (size_t k = 0; k < pairs * times; k++)
        out[n + k] = (uint8_t)(digit(digits[k % pairs * 2]) * 16 + digit(digits[k % pairs * 2 + 1]));
    return n + pairs * times;
}

/* Pieces with commas between them: `16*AA,BF35`. */
static size_t bytes(char *word, uint8_t out[MOST_BYTES]) {
    size_t n = 0;
    if (strcmp(word, "-") == 0)
        return 0;
    for (char *one = next(&word); one != NULL; one = next(&word)) {
        char *star = strchr(one, '*');
        if (star != NULL)
            *star = 0;
        n = star == NULL ? piece(one, 1, out, n) : piece(star + 1, number(one), out, n);
    }
    return n;
}

#endif

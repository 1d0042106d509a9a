/* Makes the calls of cases (docs/CASES.md) by include/tolimbar.h alone, and prints each whose answer is not the one behind its bar.
 * Every lent array has marks on both sides of it: a call that touches one of these, or changes what it was lent to read, differs.
 * Calls of the leaves are passed over and counted, since C has no function for them.
 * Exits with 0 where all agree, 1 where one differs or there is none, and 2 at a line that is no case. */
#define _POSIX_C_SOURCE 200809L
#include <stdarg.h>
#include <stdbool.h>

#include "tolimbar.h"
#include "words.h"

/* Marks on each side of what is lent, a line's bytes and its end, and more words than a call has. */
enum { AROUND = 16, TEXT = 4096 + 1, WORDS = 8 };

/* The answer, as a case has it. */
static char told[TEXT];
static size_t told_len;

static void put(const char *format, ...) {
    va_list values;
    va_start(values, format);
    int n = vsnprintf(told + told_len, TEXT - told_len, format, values);
    va_end(values);
    if (n < 0 || (size_t)n >= TEXT - told_len)
        stop("the answer is too long");
    told_len += (size_t)n;
}

static void put_bytes(const uint8_t *bytes, size_t n) {
    for (size_t k = 0; k < n; k++)
        put("%02X", bytes[k]);
}

static void put_list(const uint32_t *values, size_t n) {
    for (size_t k = 0; k < n; k++)
        put(k == 0 ? "%u" : ",%u", values[k]);
}

static void put_bits(float degrees) {
    uint32_t bits;
    memcpy(&bits, &degrees, sizeof bits);
    put(" %08X", bits);
}

/* What is lent is in the middle: AROUND marks, the lent part, and AROUND marks. */
static uint8_t byte_space[AROUND + MOST_BYTES + AROUND];
static uint32_t place_space[AROUND + MOST + AROUND];
static uint8_t *const lent_bytes = byte_space + AROUND;
static uint32_t *const lent_places = place_space + AROUND;

static uint8_t byte_mark(size_t k) { return (uint8_t)(208 + k % 47); }

static uint32_t place_mark(size_t k) { return 4000000000u + (uint32_t)k; }

/* So many bytes and places are to be lent. */
static void mark(size_t n_bytes, size_t n_places) {
    for (size_t k = 0; k < n_bytes + AROUND; k++)
        lent_bytes[k] = byte_mark(k);
    for (size_t k = 0; k < n_places + AROUND; k++)
        lent_places[k] = place_mark(k);
    memset(byte_space, 0xD0, sizeof(uint8_t) * AROUND);
    memset(place_space, 0xD0, sizeof(uint32_t) * AROUND);
}

static const char AROUND_IT[] = " and what is around it";

/* Nothing but the lent arrays was touched, of so many bytes and places. */
static void hold_around(size_t n_bytes, size_t n_places) {
    bool held = true;
    for (size_t k = 0; k < AROUND; k++) {
        held = held && byte_space[k] == 0xD0 && place_space[k] == 0xD0D0D0D0u;
        held = held && lent_bytes[n_bytes + k] == byte_mark(n_bytes + k);
        held = held && lent_places[n_places + k] == place_mark(n_places + k);
    }
    if (!held)
        put("%s", AROUND_IT);
}

/* What was lent to be read is as it was. */
static void hold(const void *lent, const void *kept, size_t size) {
    if (memcmp(lent, kept, size) != 0)
        put(" and what it was to read");
}

/* A frame as a call has it, beside the lent one. */
static uint8_t kept_frame[MOST_BYTES];

static size_t lend_frame(char *word, size_t room) {
    size_t n = bytes(word, kept_frame);
    mark(n, room);
    memcpy(lent_bytes, kept_frame, n);
    return n;
}

static tolimbar_reading read_frame(uint32_t satellite, char *word, size_t room) {
    size_t n = lend_frame(word, room);
    tolimbar_reading answer = tolimbar_read(satellite, lent_bytes, n, lent_places, room);
    hold(lent_bytes, kept_frame, n);
    hold_around(n, room);
    return answer;
}

static void ask_read(char **words) {
    size_t room = at_most(MOST, words[2]), end = room;
    tolimbar_reading answer = read_frame(number(words[1]), words[3], room);
    put("%u %u %u ", answer.refusal, answer.type, answer.count);
    while (end > 0 && lent_places[end - 1] == place_mark(end - 1))
        end--;
    put_list(lent_places, end);
    put("+%zu", room - end);
}

static void ask_write(char **words) {
    uint32_t kept[MOST];
    size_t output = at_most(MOST_BYTES, words[3]), end = output, n = list(words[4], kept);
    mark(output, n);
    memcpy(lent_places, kept, n * sizeof *kept);
    tolimbar_writing answer = tolimbar_write(number(words[1]), number(words[2]), lent_places, n, lent_bytes, output);
    put("%u %u ", answer.refusal, answer.answer);
    while (end > 0 && lent_bytes[end - 1] == byte_mark(end - 1))
        end--;
    put_bytes(lent_bytes, end);
    put("+%zu", output - end);
    hold(lent_places, kept, n * sizeof *kept);
    hold_around(output, n);
}

static void ask_edit(char **words) {
    size_t n = lend_frame(words[4], 0);
    tolimbar_writing answer = tolimbar_edit(number(words[1]), lent_bytes, n, number(words[2]), number(words[3]));
    put("%u %u ", answer.refusal, answer.answer);
    if (memcmp(lent_bytes, kept_frame, n) == 0)
        put("=");
    else
        put_bytes(lent_bytes, n);
    hold_around(n, 0);
}

/* Where there are no degrees, 0.0 is written, but their place stays. */
static void ask_temperature(char **words) {
    const float before = -1234.5f;
    float degrees[3] = {before, before, before};
    tolimbar_told answer = tolimbar_temperature(number(words[1]), degrees + 1);
    put("%u %u", answer.refusal, answer.kind);
    bool there = answer.kind == TOLIMBAR_KIND_DEGREES;
    put_bits(there ? degrees[1] : 0.0f);
    if (degrees[0] != before || degrees[2] != before || (!there && degrees[1] != before))
        put("%s", AROUND_IT);
}

/* Of lent codes, of which there are so many. */
static void summarise(const uint32_t *codes, size_t n) {
    const float before = -1234.5f;
    float degrees[4] = {before, before, before, before};
    uint32_t kept[MOST], counts[3] = {9999, 9999, 9999};
    memcpy(kept, codes, n * sizeof *codes);
    tolimbar_day answer = tolimbar_summary(codes, n, degrees + 1, counts + 1);
    put("%u %u", answer.refusal, answer.place);
    put_bits(degrees[1]);
    put_bits(degrees[2]);
    put(" %u", counts[1]);
    hold(codes, kept, n * sizeof *codes);
    if (degrees[0] != before || degrees[3] != before || counts[0] != 9999 || counts[2] != 9999)
        put("%s", AROUND_IT);
}

static void ask_summary(char **words) {
    uint32_t codes[MOST];
    size_t n = list(words[1], codes);
    mark(0, n);
    memcpy(lent_places, codes, n * sizeof *codes);
    summarise(lent_places, n);
    hold_around(0, n);
}

/* The ten temperatures are the last ten values. */
static void ask_day(char **words) {
    tolimbar_reading answer = read_frame(number(words[1]), words[2], TOLIMBAR_MOST_FIELDS);
    if (answer.refusal != TOLIMBAR_ACCEPTED)
        put("%u 0 00000000 00000000 0", answer.refusal);
    else if (answer.type == 2)
        summarise(lent_places + answer.count - TOLIMBAR_SENSORS, TOLIMBAR_SENSORS);
    else
        put("no temperatures");
    for (size_t k = answer.count; k < TOLIMBAR_MOST_FIELDS; k++)
        if (lent_places[k] != place_mark(k))
            put("%s", AROUND_IT);
}

static const struct {
    const char *name;
    size_t words;
    void (*ask)(char **words);
} calls[] = {{"read", 4, ask_read},          {"write", 5, ask_write},     {"edit", 5, ask_edit},
             {"temperature", 2, ask_temperature}, {"summary", 2, ask_summary}, {"day", 3, ask_day}};

/* The calls of the leaves, which C has not. */
static const char *const leaves[] = {"checksum ", "scramble ", "unscramble ", "field ", "replace ", "satellite "};

static bool is_of_leaf(const char *line) {
    const char *call = line + strspn(line, "! ");
    for (size_t k = 0; k < sizeof leaves / sizeof *leaves; k++)
        if (strncmp(call, leaves[k], strlen(leaves[k])) == 0)
            return true;
    return false;
}

static void ask(const char *call) {
    static char text[TEXT];
    char *words[WORDS], *saved;
    size_t n = 0;
    strcpy(text, call);
    for (char *word = strtok_r(text, " ", &saved); word != NULL && n < WORDS; word = strtok_r(NULL, " ", &saved))
        words[n++] = word;
    told_len = 0;
    for (size_t k = 0; k < sizeof calls / sizeof *calls; k++)
        if (n == calls[k].words && strcmp(words[0], calls[k].name) == 0) {
            calls[k].ask(words);
            return;
        }
    stop("it is no call");
}

/* A control has a wrong answer, which must not agree with the right one. */
static bool agrees(char *line) {
    bool control = line[0] == '!';
    char *call = line + (control ? strspn(line, "! ") : 0), *bar = strstr(call, " | ");
    if (bar == NULL || strlen(call) >= TEXT)
        stop("it has no answer, or is too long");
    *bar = 0;
    ask(call);
    bool same = strcmp(told, bar + 3) == 0;
    if (same == control)
        printf("line %lu: %s%s\n    expected %s\n    answered %s\n", line_number, control ? "! " : "", call, bar + 3, told);
    return same != control;
}

int main(void) {
    unsigned long made = 0, differ = 0, passed_over = 0;
    char *line = NULL;
    size_t size = 0;
    for (ssize_t n; (n = getline(&line, &size, stdin)) > 0;) {
        line_number++;
        if (line[n - 1] == '\n')
            line[n - 1] = 0;
        if (line[0] == '#' || line[0] == 0)
            continue;
        if (is_of_leaf(line)) {
            passed_over++;
            continue;
        }
        made++;
        differ += agrees(line) ? 0 : 1;
    }
    free(line);
    if (made == 0)
        stop("there are no cases");
    if (passed_over > 0)
        printf("%lu calls of the leaves are passed over\n", passed_over);
    printf("%lu cases, %lu differ\n", made, differ);
    return differ != 0;
}

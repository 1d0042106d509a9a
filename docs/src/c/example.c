/* Reads a frame, edits one of its fields, and reads it again, by include/tolimbar.h alone. Then an edit that is refused. */
#include <stdio.h>
#include <stdlib.h>

#include "tolimbar.h"

/* Type 2 of HADES-D: ten temperatures, with the codes 80 to 89. */
static uint8_t frame[] = {0xAA, 0xAA, 0xAA, 0xAA, 0xAA, 0xAA, 0xAA, 0xAA, 0xBF, 0x35, 0x28, 0xD0,
                          0x5C, 0x3F, 0xBE, 0xB0, 0x61, 0x08, 0x77, 0x5B, 0x17, 0x2E, 0xC2};

static void print_frame(void) {
    printf("frame");
    for (size_t k = 0; k < sizeof frame; k++)
        printf(" %02X", frame[k]);
    printf("\n");
}

static void stop(const char *call, uint32_t refusal) {
    printf("%s: refused %u\n", call, refusal);
    exit(1);
}

static void print_temperature(uint32_t field, uint32_t code) {
    float degrees[1];
    tolimbar_told told = tolimbar_temperature(code, degrees);
    if (told.kind == TOLIMBAR_KIND_DEGREES)
        printf("field %u: code %u, %.1f degrees\n", field, code, degrees[0]);
    else if (told.kind == TOLIMBAR_KIND_SENSOR_ERROR)
        printf("field %u: code %u, sensor error\n", field, code);
    else
        printf("field %u: code %u, refused %u\n", field, code, told.refusal);
}

static void print_readings(void) {
    uint32_t room[TOLIMBAR_MOST_FIELDS];
    tolimbar_reading told = tolimbar_read(TOLIMBAR_HADES_D, frame, sizeof frame, room, TOLIMBAR_MOST_FIELDS);
    if (told.refusal != TOLIMBAR_ACCEPTED)
        stop("reading", told.refusal);
    printf("type %u, %u fields\n", told.type, told.count);
    for (uint32_t field = 0; field < told.count; field++)
        print_temperature(field, room[field]);
    float degrees[2];
    uint32_t counts[1];
    tolimbar_day day = tolimbar_summary(room + told.count - TOLIMBAR_SENSORS, TOLIMBAR_SENSORS, degrees, counts);
    if (day.refusal != TOLIMBAR_ACCEPTED)
        stop("the summary", day.refusal);
    printf("coldest %.1f, warmest %.1f, %u sensors answered\n", degrees[0], degrees[1], counts[0]);
}

static void edit(uint32_t field, uint32_t value) {
    tolimbar_writing told = tolimbar_edit(TOLIMBAR_HADES_D, frame, sizeof frame, field, value);
    if (told.refusal == TOLIMBAR_ACCEPTED)
        printf("field %u to %u: edited\n", field, value);
    else if (told.refusal == TOLIMBAR_REFUSED_VALUE)
        printf("field %u to %u: refused, the value does not fit field %u\n", field, value, told.answer);
    else
        stop("editing", told.refusal);
}

int main(void) {
    print_frame();
    print_readings();
    edit(3, 70);
    print_frame();
    print_readings();
    edit(9, 256);
    print_frame();
    return 0;
}

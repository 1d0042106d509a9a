/* Tolimbar: frames of small satellites into numbers, numbers into frames, one field edited, temperatures read.
 *
 * Five functions, proved to do what is said here for every input: they answer for all of it, end, keep nothing from the call
 * before, and touch nothing but the arrays that are lent to them. The archive needs memcpy and memset of the C library, and no more.
 *
 * A satellite is named by its number in every call, and never told by the address in a frame: UNNE-1 and UNNE-1B send the same one.
 * What cannot be accepted is refused with a number, that of the first test that fails, and a refused call leaves every array that was
 * lent to it as it was; tolimbar_summary alone writes zeros on a refusal.
 *
 * What is lent: an array is a pointer and how many elements it has. Arrays that are lent to one call do not overlap, and nothing
 * else writes to them before it returns. Where a length is 0 the pointer is not followed, and may be null; no other may. Calls may
 * be made at once from several threads, each with arrays of its own. */
#ifndef TOLIMBAR_H
#define TOLIMBAR_H

#include <stddef.h>
#include <stdint.h>

#ifdef __cplusplus
extern "C" {
#endif

/* The version of this header: CHANGELOG.md says what each one adds and changes. */
#define TOLIMBAR_VERSION_MAJOR 1u
#define TOLIMBAR_VERSION_MINOR 1u

/* The satellites. */
#define TOLIMBAR_HADES_D 0u
#define TOLIMBAR_HADES_ICM 1u
#define TOLIMBAR_MARIA_G 2u
#define TOLIMBAR_UNNE_1 3u
#define TOLIMBAR_HADES_R 4u
#define TOLIMBAR_UNNE_1B 5u
#define TOLIMBAR_HADES_SA 6u

/* What is refused. */
#define TOLIMBAR_ACCEPTED 0u
#define TOLIMBAR_REFUSED_SATELLITE 1u /* satellite number above 6 */
#define TOLIMBAR_REFUSED_SHORT 2u     /* fewer bytes than training, sync, size byte if any, and type byte */
#define TOLIMBAR_REFUSED_PREAMBLE 3u  /* training or sync differs */
#define TOLIMBAR_REFUSED_ADDRESS 4u   /* address is another's */
#define TOLIMBAR_REFUSED_TYPE 5u      /* type not carried by this satellite */
#define TOLIMBAR_REFUSED_SIZE 6u      /* size byte differs from the table; HADES-SA alone has one */
#define TOLIMBAR_REFUSED_LENGTH 7u    /* buffer length is not the frame's length */
#define TOLIMBAR_REFUSED_ROOM 8u      /* room for values is less than the field count */
#define TOLIMBAR_REFUSED_CHECKSUM 9u  /* checksum differs */
#define TOLIMBAR_REFUSED_VALUES 10u   /* number of values is not the field count, or number of codes not ten */
#define TOLIMBAR_REFUSED_VALUE 11u    /* a value does not fit its field, or a code is above 255 */
#define TOLIMBAR_REFUSED_OUTPUT 12u   /* output shorter than the frame */
#define TOLIMBAR_REFUSED_FIELD 13u    /* no field of that number */

/* The kinds of a temperature's reading. Kinds may be added; those that are here keep their numbers. */
#define TOLIMBAR_KIND_NONE 0u
#define TOLIMBAR_KIND_DEGREES 1u
#define TOLIMBAR_KIND_SENSOR_ERROR 2u

/* A room of so many places is enough for every type, and an output of so many bytes for every frame. */
#define TOLIMBAR_MOST_FIELDS 95u
#define TOLIMBAR_MOST_BYTES 153u

/* How many temperatures there are: panels A to E, EPS, TX, TX2, RX, CPU. */
#define TOLIMBAR_SENSORS 10u

/* The refusal's number; of an accepted frame its type and how many fields it has, otherwise 0 and 0. */
typedef struct {
    uint32_t refusal;
    uint32_t type;
    uint32_t count;
} tolimbar_reading;

/* The refusal's number; of an accepted call the frame's length. With refusal 11, the number of the field that its value does not fit,
 * in writing the lowest; with every other refusal 0. Field 0 is a field too: the refusal tells, not the answer. */
typedef struct {
    uint32_t refusal;
    uint32_t answer;
} tolimbar_writing;

/* The refusal's number, and the kind of reading. */
typedef struct {
    uint32_t refusal;
    uint32_t kind;
} tolimbar_told;

/* The refusal's number; with refusal 11, the lowest place of a code above 255, otherwise 0. */
typedef struct {
    uint32_t refusal;
    uint32_t place;
} tolimbar_day;

/* Reads a frame that this satellite sent. Tests 1 to 9 in that order, 6 for HADES-SA only. The values of its fields, in the order of
 * the satellite's table, fill as many places of the room; later places stay. The ten temperatures of a frame of type 2 are its last
 * ten values. (docs/FORMAT.md has the tables. `./tolimbar layouts` lists the types that each satellite carries, and
 * `./tolimbar fields SATELLITE TYPE` each field's number, name, first bit and width.) */
tolimbar_reading tolimbar_read(uint32_t satellite, const uint8_t *frame, size_t frame_len, uint32_t *room, size_t room_len);

/* Writes the frame of this satellite's type that carries these values. Tests 1, 5, 10, 11, 12. The frame fills as many bytes of the
 * output; later bytes stay. */
tolimbar_writing tolimbar_write(uint32_t satellite, uint32_t type, const uint32_t *values, size_t values_len, uint8_t *output,
                                size_t output_len);

/* Edits one field, counted from 0, of a frame that this satellite sent. Tests 1 to 7, 9, 13, 11. The frame written afresh with that
 * field alone replaced takes the old one's place. */
tolimbar_writing tolimbar_edit(uint32_t satellite, uint8_t *frame, size_t frame_len, uint32_t field, uint32_t value);

/* Reads one code. 0 to 254 stand for code - 80 half degrees, -40.0 to 87.0: kind 1, and the degrees, exactly, are put in their place.
 * 255 is a sensor error: accepted, kind 2. A code above 255 is refused with 11, kind 0. Where the kind is not 1, there are no
 * degrees, and their place stays. */
tolimbar_told tolimbar_temperature(uint32_t code, float degrees[1]);

/* Sums up the day's ten codes. Tests 10 (there are ten), then 11 (each is at most 255). Into degrees go the coldest and the warmest,
 * into counts how many sensors answered: a 255 is a sensor that did not, and is left out of all three. With none answering, and on a
 * refusal, they are 0.0, 0.0 and 0. Every 0.0 is plus zero. */
tolimbar_day tolimbar_summary(const uint32_t *codes, size_t codes_len, float degrees[2], uint32_t counts[1]);

#ifdef __cplusplus
}
#endif

#endif

/*
 * The reader of SAF-TE pages, for C and C++.
 *
 * A host has two pages of a shelf, the configuration page and another one, and
 * asks for part `number` of a run of parts (the first is part 0): where it
 * stands, how many bytes it takes, and its bytes. docs/reader.md has the pages,
 * the runs and the rules.
 *
 * safte_part and safte_place are proved: what is said of them here holds for
 * every input that a caller may give. They ask of the caller, and cannot test:
 *
 *   - a pointer to bytes is good for the length that follows it. A null pointer
 *     may be given with length 0, and with no other;
 *   - `place` and `width` point to numbers, and are never null;
 *   - nothing that a call may write (`out`, `place`, `width`) overlaps anything
 *     else that it is given.
 *
 * safte_part_checked and safte_place_checked, at the end of this file, answer
 * the same and ask less: they test for null pointers, and what they are given
 * may overlap in any way. They are C and are not proved.
 *
 * No call keeps anything, allocates anything or changes anything but what it is
 * said to write. Several threads may call at once.
 *
 * Link with libreader_c.a; nothing else is needed.
 */
#ifndef SAFTE_READER_H
#define SAFTE_READER_H

#include <stddef.h>
#include <stdint.h>
#include <string.h>

#ifdef __cplusplus
extern "C" {
#endif

/* What a call answers. The first that applies is given. */
enum safte_answer {
    /* The part is there; its place, width and bytes are written. */
    SAFTE_FOUND = 0,
    /* The configuration page is under 64 bytes, or a count is out of range. */
    SAFTE_CONFIGURATION = 7,
    /* The page ends before the run does. */
    SAFTE_SHORT = 8,
    /* The part number is not below the number of parts, or there is no such run. */
    SAFTE_NUMBER = 9,
    /* The bytes are no part of the run's kind. */
    SAFTE_NO_PART = 10,
    /* The part is there, and `out` has fewer bytes than it. */
    SAFTE_NO_ROOM = 100,
    /* From the checked calls alone: a pointer is null that may not be. It comes before all else. */
    SAFTE_NULL = 101
};

/* The runs. Any other number is a run that the reader does not know: it has no parts. */
enum safte_run {
    SAFTE_FANS = 0,         /* status page, 1 byte each */
    SAFTE_SUPPLIES = 1,     /* status page, 1 byte each */
    SAFTE_IDS = 2,          /* status page, 1 byte each */
    SAFTE_TEMPERATURES = 3, /* status page, 1 byte each */
    SAFTE_SLOTS = 4,        /* slot page, 4 bytes each */
    SAFTE_COUNTS = 5        /* insertion page, 2 bytes each, the high one first */
};

/* No part takes more bytes: a buffer of so many is never answered by SAFTE_NO_ROOM. */
#define SAFTE_WIDEST 4

/*
 * Where a part stands. At 0, `*place` is its place in the page, counted from 0,
 * and `*width` how many bytes it takes from there on. At any other answer both
 * are as they were.
 */
uint32_t safte_place(const uint8_t *config, size_t config_length,
                     const uint8_t *page, size_t page_length,
                     uint32_t run, uint32_t number,
                     uint32_t *place, uint32_t *width);

/*
 * The same, and the part's bytes. At 0 they stand in the first `*width` bytes of
 * `out`, and the other bytes of `out` are as they were. At any other answer
 * `out`, `*place` and `*width` are all as they were.
 */
uint32_t safte_part(const uint8_t *config, size_t config_length,
                    const uint8_t *page, size_t page_length,
                    uint32_t run, uint32_t number,
                    uint8_t *out, size_t out_length,
                    uint32_t *place, uint32_t *width);

/* safte_place; or SAFTE_NULL, and nothing is written. */
static inline uint32_t safte_place_checked(const uint8_t *config, size_t config_length,
                                           const uint8_t *page, size_t page_length,
                                           uint32_t run, uint32_t number,
                                           uint32_t *place, uint32_t *width)
{
    uint32_t at = 0, size = 0, answer;
    if ((!config && config_length) || (!page && page_length) || !place || !width)
        return SAFTE_NULL;
    answer = safte_place(config, config_length, page, page_length, run, number, &at, &size);
    if (answer == SAFTE_FOUND) {
        *place = at;
        *width = size;
    }
    return answer;
}

/* safte_part; or SAFTE_NULL, and nothing is written. */
static inline uint32_t safte_part_checked(const uint8_t *config, size_t config_length,
                                          const uint8_t *page, size_t page_length,
                                          uint32_t run, uint32_t number,
                                          uint8_t *out, size_t out_length,
                                          uint32_t *place, uint32_t *width)
{
    uint8_t bytes[SAFTE_WIDEST] = {0};
    size_t room = out_length < SAFTE_WIDEST ? out_length : SAFTE_WIDEST;
    uint32_t at = 0, size = 0, answer;
    if ((!config && config_length) || (!page && page_length) || (!out && out_length) || !place || !width)
        return SAFTE_NULL;
    answer = safte_part(config, config_length, page, page_length, run, number, bytes, room, &at, &size);
    if (answer == SAFTE_FOUND) {
        memcpy(out, bytes, size);
        *place = at;
        *width = size;
    }
    return answer;
}

#ifdef __cplusplus
}
#endif

#endif

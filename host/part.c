/*
 * Asks the reader every kind of question and holds each answer to what
 * docs/reader.md says. Ends 0 only if every one was as expected.
 */
#include "../include/safte_reader.h"

#include <inttypes.h>
#include <stdio.h>

/* 2 fans, 3 supplies, 4 slots, 2 temperature sensors, 1 thermostat. */
static const uint8_t config[64] = {2, 3, 4, 1, 2, 1, 1};

/* Fans at 0, supplies at 2, IDs at 5, door and speaker at 9, temperatures at 11; 03h is no supply. */
static const uint8_t status[16] = {0x00, 0x80, 0x11, 0x03, 0x21, 7, 6, 5, 4, 1, 0, 0x52, 0x53, 0, 0, 0};

/* Slot 1 has both rebuild flags, slot 2 a reserved bit. */
static const uint8_t slots[17] = {0xfb, 0x03, 0, 0x05, 0x04, 0x02, 0, 0x02, 0, 0x04, 0, 0x02, 0x80, 0, 0, 0x04, 0};

static const uint8_t counted[8] = {0x00, 0x01, 0xff, 0xfe, 0, 0, 0x12, 0x34};

/* What `place`, `width` and each byte of `out` hold before a call. */
enum { OLD_PLACE = 4711, OLD_WIDTH = 815, OLD_BYTE = 0xee, ROOM = 8 };

struct call {
    const char *what;
    const uint8_t *config;
    size_t config_length;
    const uint8_t *page;
    size_t page_length;
    uint32_t run, number;
    size_t room;
    /* expected */
    uint32_t answer, place, width;
    uint8_t bytes[4];
};

static unsigned asked, failed;

static void expect(const char *what, const char *of, uint32_t expected, uint32_t found)
{
    asked++;
    if (expected == found)
        return;
    failed++;
    printf("FAILED %s: %s is %" PRIu32 ", not %" PRIu32 "\n", what, of, found, expected);
}

/* The part's bytes stand at the front of `out`, and all else is as it was. */
static void expect_bytes(const struct call *c, const uint8_t *out)
{
    for (uint32_t k = 0; k < ROOM; k++)
        expect(c->what, "a byte", c->answer == 0 && k < c->width ? c->bytes[k] : OLD_BYTE, out[k]);
}

static void expect_numbers(const struct call *c, uint32_t answer, uint32_t place, uint32_t width)
{
    expect(c->what, "the answer", c->answer, answer);
    expect(c->what, "the place", c->answer == 0 ? c->place : OLD_PLACE, place);
    expect(c->what, "the width", c->answer == 0 ? c->width : OLD_WIDTH, width);
}

static void ask_part(const struct call *c, int checked)
{
    uint8_t out[ROOM];
    uint32_t place = OLD_PLACE, width = OLD_WIDTH, answer;
    memset(out, OLD_BYTE, sizeof out);
    answer = (checked ? safte_part_checked : safte_part)(
        c->config, c->config_length, c->page, c->page_length, c->run, c->number, out, c->room, &place, &width);
    expect_numbers(c, answer, place, width);
    expect_bytes(c, out);
}

static void ask_place(const struct call *c, int checked)
{
    uint32_t place = OLD_PLACE, width = OLD_WIDTH, answer;
    answer = (checked ? safte_place_checked : safte_place)(
        c->config, c->config_length, c->page, c->page_length, c->run, c->number, &place, &width);
    expect_numbers(c, answer, place, width);
}

/* Asked by each of the four calls; those for a place have no buffer that could be too small. */
static void ask(const struct call *c)
{
    struct call place = *c;
    if (place.answer == SAFTE_NO_ROOM)
        place.answer = SAFTE_FOUND;
    for (int checked = 0; checked < 2; checked++) {
        ask_part(c, checked);
        ask_place(&place, checked);
    }
}

#define STATUS config, 64, status, 16
#define SLOTS config, 64, slots, 17
#define COUNTED config, 64, counted, 8

static const struct call calls[] = {
    /* the first and the last part of each run */
    {"fan 0", STATUS, SAFTE_FANS, 0, 8, 0, 0, 1, {0x00}},
    {"fan 1", STATUS, SAFTE_FANS, 1, 8, 0, 1, 1, {0x80}},
    {"supply 0", STATUS, SAFTE_SUPPLIES, 0, 8, 0, 2, 1, {0x11}},
    {"supply 2", STATUS, SAFTE_SUPPLIES, 2, 8, 0, 4, 1, {0x21}},
    {"id 0", STATUS, SAFTE_IDS, 0, 8, 0, 5, 1, {7}},
    {"id 3", STATUS, SAFTE_IDS, 3, 8, 0, 8, 1, {4}},
    {"temperature 0", STATUS, SAFTE_TEMPERATURES, 0, 8, 0, 11, 1, {0x52}},
    {"temperature 1", STATUS, SAFTE_TEMPERATURES, 1, 8, 0, 12, 1, {0x53}},
    {"slot 0", SLOTS, SAFTE_SLOTS, 0, 8, 0, 0, 4, {0xfb, 0x03, 0, 0x05}},
    {"slot 3", SLOTS, SAFTE_SLOTS, 3, 8, 0, 12, 4, {0x80, 0, 0, 0x04}},
    {"count 0", COUNTED, SAFTE_COUNTS, 0, 8, 0, 0, 2, {0x00, 0x01}},
    {"count 1", COUNTED, SAFTE_COUNTS, 1, 8, 0, 2, 2, {0xff, 0xfe}},
    {"count 3", COUNTED, SAFTE_COUNTS, 3, 8, 0, 6, 2, {0x12, 0x34}},
    /* 7 */
    {"configuration of 63 bytes", config, 63, status, 16, SAFTE_FANS, 0, 8, 7, 0, 0, {0}},
    {"no configuration", NULL, 0, status, 16, SAFTE_FANS, 0, 8, 7, 0, 0, {0}},
    {"7 before 9", config, 63, status, 16, 6, 0, 8, 7, 0, 0, {0}},
    /* 8 */
    {"status page cut in the fans", config, 64, status, 1, SAFTE_FANS, 0, 8, 8, 0, 0, {0}},
    {"status page cut in the supplies", config, 64, status, 4, SAFTE_SUPPLIES, 0, 8, 8, 0, 0, {0}},
    {"status page cut in the ids", config, 64, status, 8, SAFTE_IDS, 0, 8, 8, 0, 0, {0}},
    {"status page cut in the temperatures", config, 64, status, 12, SAFTE_TEMPERATURES, 0, 8, 8, 0, 0, {0}},
    {"slot page cut", config, 64, slots, 15, SAFTE_SLOTS, 0, 8, 8, 0, 0, {0}},
    {"insertion page cut", config, 64, counted, 7, SAFTE_COUNTS, 0, 8, 8, 0, 0, {0}},
    {"no page", config, 64, NULL, 0, SAFTE_COUNTS, 0, 8, 8, 0, 0, {0}},
    {"8 before 9", config, 64, counted, 7, SAFTE_COUNTS, 4, 8, 8, 0, 0, {0}},
    {"slot page that ends with its run", config, 64, slots, 16, SAFTE_SLOTS, 3, 8, 0, 12, 4, {0x80, 0, 0, 0x04}},
    {"status page that ends with the temperatures", config, 64, status, 13, SAFTE_TEMPERATURES, 1, 8, 0, 12, 1, {0x53}},
    /* 9 */
    {"fan 2", STATUS, SAFTE_FANS, 2, 8, 9, 0, 0, {0}},
    {"supply 3", STATUS, SAFTE_SUPPLIES, 3, 8, 9, 0, 0, {0}},
    {"id 4", STATUS, SAFTE_IDS, 4, 8, 9, 0, 0, {0}},
    {"temperature 2", STATUS, SAFTE_TEMPERATURES, 2, 8, 9, 0, 0, {0}},
    {"slot 4", SLOTS, SAFTE_SLOTS, 4, 8, 9, 0, 0, {0}},
    {"count 4", COUNTED, SAFTE_COUNTS, 4, 8, 9, 0, 0, {0}},
    {"the highest number", COUNTED, SAFTE_COUNTS, UINT32_MAX, 8, 9, 0, 0, {0}},
    {"run 6", STATUS, 6, 0, 8, 9, 0, 0, {0}},
    {"run 256", STATUS, 256, 0, 8, 9, 0, 0, {0}},
    {"the highest run, no page", config, 64, NULL, 0, UINT32_MAX, 0, 8, 9, 0, 0, {0}},
    /* 10 */
    {"supply 1, 03h", STATUS, SAFTE_SUPPLIES, 1, 8, 10, 0, 0, {0}},
    {"slot 1, both rebuild flags", SLOTS, SAFTE_SLOTS, 1, 8, 10, 0, 0, {0}},
    {"slot 2, a reserved bit", SLOTS, SAFTE_SLOTS, 2, 8, 10, 0, 0, {0}},
    {"fan 1 of another page", config, 64, counted, 8, SAFTE_FANS, 1, 8, 0, 1, 1, {0x01}},
    {"fan 0 of another page", config, 64, slots, 17, SAFTE_FANS, 0, 8, 10, 0, 0, {0}},
    /* 100, and a buffer just large enough; a fault comes first */
    {"slot 0 into 4 bytes", SLOTS, SAFTE_SLOTS, 0, 4, 0, 0, 4, {0xfb, 0x03, 0, 0x05}},
    {"slot 0 into 3 bytes", SLOTS, SAFTE_SLOTS, 0, 3, 100, 0, 4, {0}},
    {"count 1 into 2 bytes", COUNTED, SAFTE_COUNTS, 1, 2, 0, 2, 2, {0xff, 0xfe}},
    {"count 1 into 1 byte", COUNTED, SAFTE_COUNTS, 1, 1, 100, 2, 2, {0}},
    {"fan 1 into 1 byte", STATUS, SAFTE_FANS, 1, 1, 0, 1, 1, {0x80}},
    {"fan 1 into no byte", STATUS, SAFTE_FANS, 1, 0, 100, 1, 1, {0}},
    {"slot 1 into 3 bytes", SLOTS, SAFTE_SLOTS, 1, 3, 10, 0, 0, {0}},
    {"slot 4 into 3 bytes", SLOTS, SAFTE_SLOTS, 4, 3, 9, 0, 0, {0}},
    {"cut slot page into 3 bytes", config, 64, slots, 15, SAFTE_SLOTS, 0, 3, 8, 0, 0, {0}},
    {"short configuration into 3 bytes", config, 63, slots, 17, SAFTE_SLOTS, 0, 3, 7, 0, 0, {0}},
};

/* Each count at its limits and past them: 7, or 9 for a run that is unknown. */
static void ask_limits(void)
{
    static const struct {
        uint8_t counts[7];
        uint32_t answer;
    } rows[] = {
        {{16, 8, 14, 0, 15, 0, 15}, 9}, {{0, 0, 1, 0, 0, 0, 0}, 9},  {{17, 0, 1, 0, 0, 0, 0}, 7},
        {{0, 9, 1, 0, 0, 0, 0}, 7},     {{0, 0, 0, 0, 0, 0, 0}, 7},  {{0, 0, 15, 0, 0, 0, 0}, 7},
        {{0, 0, 1, 0, 16, 0, 0}, 7},    {{0, 0, 1, 0, 0, 0, 16}, 7}, {{0, 0, 1, 255, 0, 255, 0}, 9},
    };
    for (size_t k = 0; k < sizeof rows / sizeof *rows; k++) {
        uint8_t limits[64] = {0};
        struct call c = {"limits of a configuration", limits, 64, NULL, 0, 6, 0, 8, 0, 0, 0, {0}};
        memcpy(limits, rows[k].counts, sizeof rows[k].counts);
        c.answer = rows[k].answer;
        ask(&c);
    }
}

/* Of the largest shelf the last temperature stands at 16 + 8 + 14 + 2 + 14 and the last slot at 4 * 13. */
static void ask_largest(void)
{
    static const uint8_t largest[64] = {16, 8, 14, 0, 15, 0, 15};
    uint8_t page[58] = {0};
    struct call temperature = {"last temperature", largest, 64, page, 58, SAFTE_TEMPERATURES, 14, 8, 0, 54, 1, {0x2a}};
    struct call slot = {"last slot", largest, 64, page, 57, SAFTE_SLOTS, 13, 8, 0, 52, 4, {0x01, 0, 0, 0x03}};
    page[54] = 0x2a;
    ask(&temperature);
    page[52] = 0x01;
    page[54] = 0;
    page[55] = 0x03;
    ask(&slot);
}

/* A null buffer of length 0: no room for a part that is there, and nothing for a fault. */
static void ask_null_out(void)
{
    uint32_t place = OLD_PLACE, width = OLD_WIDTH;
    expect("null out", "the answer", 100, safte_part(STATUS, SAFTE_FANS, 0, NULL, 0, &place, &width));
    expect("null out", "the answer", 9, safte_part(STATUS, SAFTE_FANS, 2, NULL, 0, &place, &width));
    expect("null out", "the answer", 100, safte_part_checked(STATUS, SAFTE_FANS, 0, NULL, 0, &place, &width));
    expect("null out", "the place", OLD_PLACE, place);
    expect("null out", "the width", OLD_WIDTH, width);
}

/* The checked calls answer 101 to each null pointer that may not be, before any fault, and write nothing. */
static void ask_null(void)
{
    uint8_t out[4] = {OLD_BYTE, OLD_BYTE, OLD_BYTE, OLD_BYTE};
    uint32_t place = OLD_PLACE, width = OLD_WIDTH;
    const uint32_t answers[] = {
        safte_part_checked(NULL, 64, status, 16, 0, 0, out, 4, &place, &width),
        safte_part_checked(config, 64, NULL, 16, 0, 0, out, 4, &place, &width),
        safte_part_checked(STATUS, 0, 0, NULL, 4, &place, &width),
        safte_part_checked(STATUS, 0, 0, out, 4, NULL, &width),
        safte_part_checked(STATUS, 0, 0, out, 4, &place, NULL),
        safte_part_checked(STATUS, 6, 0, out, 4, &place, NULL),
        safte_place_checked(NULL, 64, status, 16, 0, 0, &place, &width),
        safte_place_checked(config, 64, NULL, 16, 0, 0, &place, &width),
        safte_place_checked(STATUS, 0, 0, NULL, &width),
        safte_place_checked(STATUS, 0, 0, &place, NULL),
        safte_place_checked(STATUS, 6, 0, &place, NULL),
    };
    for (size_t k = 0; k < sizeof answers / sizeof *answers; k++)
        expect("null pointer", "the answer", 101, answers[k]);
    for (size_t k = 0; k < sizeof out; k++)
        expect("null pointer", "a byte", OLD_BYTE, out[k]);
    expect("null pointer", "the place", OLD_PLACE, place);
    expect("null pointer", "the width", OLD_WIDTH, width);
}

/* The checked call may be given a buffer that lies in the page: slot 0 moved one byte on. */
static void ask_overlapping(void)
{
    uint8_t page[17];
    static const uint8_t after[6] = {0xfb, 0xfb, 0x03, 0, 0x05, 0x02};
    uint32_t place = OLD_PLACE, width = OLD_WIDTH;
    memcpy(page, slots, sizeof page);
    expect("overlap", "the answer", 0, safte_part_checked(config, 64, page, 17, SAFTE_SLOTS, 0, page + 1, 4, &place, &width));
    for (size_t k = 0; k < sizeof after; k++)
        expect("overlap", "a byte", after[k], page[k]);
    expect("overlap", "the place", 0, place);
    expect("overlap", "the width", 4, width);
}

int main(void)
{
    for (size_t k = 0; k < sizeof calls / sizeof *calls; k++)
        ask(&calls[k]);
    ask_limits();
    ask_largest();
    ask_null_out();
    ask_null();
    ask_overlapping();
    printf("%u values as expected, %u not\n", asked - failed, failed);
    return failed ? 1 : 0;
}

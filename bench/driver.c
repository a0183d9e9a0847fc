/* Asks for parts of a shelf, by the proved call or by the one written by hand: driver proved|hand RUN|all */
#include "../include/safte_reader.h"

#include <inttypes.h>
#include <stdio.h>
#include <stdlib.h>

uint32_t hand_part(const uint8_t *config, size_t config_length,
                   const uint8_t *page, size_t page_length,
                   uint32_t run, uint32_t number,
                   uint8_t *out, size_t out_length,
                   uint32_t *place, uint32_t *width);

enum { ROUNDS = 100, FANS = 4, SUPPLIES = 2, SLOTS = 14, SENSORS = 3 };

static const uint32_t counts[] = {FANS, SUPPLIES, SLOTS, SENSORS, SLOTS, SLOTS};

int main(int argc, char **argv)
{
    uint8_t config[64] = {FANS, SUPPLIES, SLOTS, 0, SENSORS};
    uint8_t status[FANS + SUPPLIES + SLOTS + SENSORS + 5] = {0, 1, 2, 0x80, 0x11, 0x80};
    uint8_t slots[4 * SLOTS + 1] = {0};
    uint8_t counted[2 * SLOTS] = {0};
    const uint8_t *pages[] = {status, status, status, status, slots, counted};
    const size_t lengths[] = {sizeof status, sizeof status, sizeof status, sizeof status, sizeof slots, sizeof counted};
    int hand = argc > 1 && !strcmp(argv[1], "hand");
    int all = argc < 3 || !strcmp(argv[2], "all");
    uint32_t only = all ? 0 : (uint32_t)atoi(argv[2]);
    uint32_t calls = 0, sum = 0;
    for (uint32_t k = 0; k < SLOTS; k++) {
        slots[4 * k] = (uint8_t)k;
        slots[4 * k + 3] = (uint8_t)(2 + k % 4);
        counted[2 * k + 1] = (uint8_t)k;
    }
    /* every part of every run, and the number past its last */
    for (int round = 0; round < ROUNDS; round++)
        for (uint32_t run = 0; run < 6; run++)
            for (uint32_t number = 0; (all || run == only) && number <= counts[run]; number++) {
                uint8_t out[4] = {0};
                uint32_t place = 0, width = 0;
                uint32_t answer = hand
                    ? hand_part(config, 64, pages[run], lengths[run], run, number, out, 4, &place, &width)
                    : safte_part(config, 64, pages[run], lengths[run], run, number, out, 4, &place, &width);
                calls++;
                sum = sum * 31 + answer + place + width + out[0] + 3u * out[1] + 5u * out[2] + 7u * out[3];
            }
    printf("%" PRIu32 " %" PRIu32 "\n", calls, sum);
    return 0;
}

/* Replays six requests at a capacity of 100 bytes and prints both ratios: cc ratios.c libsnailstamp.a */
#include "../include/snailstamp.h"
#include <inttypes.h>
#include <stdio.h>

static int refused(uint64_t answer) {
    printf("refused %" PRIu64 "\n", snailstamp_number(answer));
    return 1;
}

int main(void) {
    uint16_t place[16], file[8], cost[8], queue[8];
    uint32_t size[8], freq[8], events[64];
    uint64_t key[8], stamp[8], tally[SNAILSTAMP_TALLY_WORDS];
    double ratios[2];

    /* Unit 7, policy 1, 100 bytes, 8 places, 16 file numbers. */
    uint64_t answer = snailstamp_fresh(7, 1, 100, 8, 16, tally, SNAILSTAMP_TALLY_WORDS, place, 16, file, 8, size, 8, cost,
                                       8, freq, 8, key, 8, stamp, 8, queue, 8);
    if (snailstamp_number(answer) != 0) {
        return refused(answer);
    }

    /* Before the first request there is nothing to divide by. */
    answer = snailstamp_ratios(tally, SNAILSTAMP_TALLY_WORDS, ratios, 2);
    if (snailstamp_number(answer) != 0) {
        refused(answer);
    }

    /* Files 1, 2, 1, 3, 2 and 4, size and cost after each number; 128 takes two bytes. */
    const uint8_t part[] = {1, 64, 4, 2, 32, 1, 1, 64, 4, 3, 16, 1, 2, 32, 1, 4, 0x80, 1, 1};
    answer = snailstamp_carry_on(7, tally, SNAILSTAMP_TALLY_WORDS, place, 16, file, 8, size, 8, cost, 8, freq, 8, key, 8,
                                 stamp, 8, queue, 8, part, sizeof part, events, 64);
    if (snailstamp_number(answer) != 0) {
        return refused(answer);
    }

    /* One of six requests hit, and 64 of 336 bytes. */
    answer = snailstamp_ratios(tally, SNAILSTAMP_TALLY_WORDS, ratios, 2);
    if (snailstamp_number(answer) != 0) {
        return refused(answer);
    }
    printf("hit ratio %.4f\nbyte hit ratio %.4f\n", ratios[0], ratios[1]);
    return 0;
}

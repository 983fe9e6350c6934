/* Replays four requests at a capacity of 100 bytes and says what hit: cc hits.c libsnailstamp.a */
#include "../include/snailstamp.h"
#include <inttypes.h>
#include <stdio.h>

int main(void) {
    uint16_t place[16], file[8], cost[8], queue[8];
    uint32_t size[8], freq[8], events[64];
    uint64_t key[8], stamp[8], tally[SNAILSTAMP_TALLY_WORDS];

    /* Unit 7, policy 1, 100 bytes, 8 places, 16 file numbers; whatever the tables hold now is forgotten. */
    uint64_t answer = snailstamp_fresh(7, 1, 100, 8, 16, tally, SNAILSTAMP_TALLY_WORDS, place, 16, file, 8, size, 8, cost,
                                       8, freq, 8, key, 8, stamp, 8, queue, 8);
    if (snailstamp_number(answer) != 0) {
        printf("refused %" PRIu64 "\n", snailstamp_number(answer));
        return 1;
    }

    /* Files 1, 2, 1 and 1 again, cut anew: size and cost after each number. */
    const uint8_t part[] = {1, 64, 4, 2, 32, 1, 1, 64, 4, 1, 80, 4};
    answer = snailstamp_carry_on(7, tally, SNAILSTAMP_TALLY_WORDS, place, 16, file, 8, size, 8, cost, 8, freq, 8, key, 8,
                                 stamp, 8, queue, 8, part, sizeof part, events, 64);
    if (snailstamp_number(answer) != 0) {
        printf("refused %" PRIu64 " at %" PRIu64 "\n", snailstamp_number(answer), snailstamp_value(answer));
        return 1;
    }

    static const char *const kinds[] = {"", "hit", "admit", "big", "low", "evict", "stale"};
    for (uint64_t i = 0; i < snailstamp_value(answer); i++) {
        printf("%s %u\n", kinds[events[i] / 32768], (unsigned)(events[i] % 32768));
    }
    printf("requests %" PRIu64 " hits %" PRIu64 " dropped %" PRIu64, tally[8], tally[9], tally[17]);
    printf(" lifts %" PRIu64 "\n", tally[18]);
    return 0;
}

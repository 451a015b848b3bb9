/* The six units on the bench: builds their index and asks it. */
#include "../include/ngolishepa.h"

#include <stdio.h>

/* an index is its head and three areas, lent to every question */
#define INDEX built.head, tracks, 6, words, 1, directory, 1

int main(void)
{
    const uint16_t tracks[] = {0, 0, 1, 0, 1, 0}; /* of units 1 to 6 */
    const uint16_t needs[] = {2, 1, 3, 1, 4, 2, 5, 2, 5, 3, 6, 1, 6, 3, 6, 4};
    uint64_t words[1];                                /* 2n(k-1) = 12 bits */
    uint16_t directory[1], work[6 * 2], list[6] = {0};

    if (ngolishepa_version() != NGOLISHEPA_VERSION)
        return 1; /* compiled with another header than the archive's */
    ngolishepa_built built = ngolishepa_build(6, 2, tracks, 6, needs, 16, words, 1, directory, 1, work, 12);
    printf("refusal %u, %u bits\n", built.refusal.number, built.bits);
    printf("6 needs 1: %s\n", ngolishepa_needs(INDEX, 6, 1).yes ? "yes" : "no");
    printf("1 is a direct step of 6: %s\n", ngolishepa_is_step(INDEX, 6, 1).yes ? "yes" : "no");
    unsigned count = ngolishepa_steps_up(INDEX, 1, list, 6, 0).number;
    printf("%u units have 1 as a direct step: %u %u\n", count, list[0], list[1]);
    printf("stage of 6: %u\n", ngolishepa_stage(INDEX, 6).number);
    return 0;
}

/* The bench under every test from outside: seeded dice, cases counted, and each failure told with the command that repeats it. */
#ifndef TRIAL_H
#define TRIAL_H

#include <stdbool.h>
#include <stddef.h>
#include <stdint.h>

/* ---- dice: the same throws from the same seed, everywhere */

struct dice {
    uint64_t state;
};

struct dice dice_of(uint64_t seed);
uint64_t throw64(struct dice *d);
/* 0 to bound - 1; 0 for a bound of 0 */
size_t below(struct dice *d, size_t bound);
/* least to most, both in */
size_t between(struct dice *d, size_t least, size_t most);
bool chance(struct dice *d, unsigned percent);

/* ---- trials */

/* Runs the case of each seed from 1 to count, or of the one seed that is given as the program's argument; every EVERYth with EVERY in
 * the environment. A case that crashes, or does not end, is told by its seed. */
void trials(int argc, char **argv, const char *name, uint64_t count, void (*one)(uint64_t seed));
/* prints 'N passed, M failed' and answers main's status */
int trials_end(void);

/* the running case is wrong: printed with its seed, once a case in full */
void wrong(const char *format, ...) __attribute__((format(printf, 1, 2)));

/* A whole run must have met this so many times, or it says little: counted as a case of its own, where all seeds are run. */
void must_have_met(const char *what, unsigned long times, unsigned long least);

#endif

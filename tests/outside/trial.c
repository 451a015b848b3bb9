/* The bench under every test from outside: see trial.h. */
#include "trial.h"

#include <inttypes.h>
#include <signal.h>
#include <stdarg.h>
#include <stdio.h>
#include <stdlib.h>
#include <unistd.h>

enum { SECONDS_A_CASE = 120 };

static const char *trial_name;
static uint64_t running_seed;
static unsigned wrongs_of_case;
static unsigned long passed, failed;
static bool whole_run;

struct dice dice_of(uint64_t seed)
{
    return (struct dice){seed * 0x9e3779b97f4a7c15u};
}

/* splitmix64 */
uint64_t throw64(struct dice *d)
{
    uint64_t z = d->state += 0x9e3779b97f4a7c15u;
    z = (z ^ z >> 30) * 0xbf58476d1ce4e5b9u;
    z = (z ^ z >> 27) * 0x94d049bb133111ebu;
    return z ^ z >> 31;
}

size_t below(struct dice *d, size_t bound)
{
    return bound == 0 ? 0 : throw64(d) % bound;
}

size_t between(struct dice *d, size_t least, size_t most)
{
    return least + below(d, most - least + 1);
}

bool chance(struct dice *d, unsigned percent)
{
    return below(d, 100) < percent;
}

void wrong(const char *format, ...)
{
    va_list values;
    if (wrongs_of_case++ > 0)
        return;
    printf("FAILED %s, seed %" PRIu64 " (again: tests/outside/run %s %" PRIu64 "): ", trial_name, running_seed, trial_name, running_seed);
    va_start(values, format);
    vprintf(format, values);
    va_end(values);
    printf("\n");
}

/* a crash, or no end: the seed is all that can still be told */
static void give_up(int signal)
{
    wrong("%s", signal == SIGALRM ? "the case did not end in time" : "the case crashed");
    printf("%lu passed, %lu failed\n", passed, failed + 1);
    fflush(stdout);
    _exit(1);
}

static void run_case(uint64_t seed, void (*one)(uint64_t seed))
{
    running_seed = seed;
    wrongs_of_case = 0;
    alarm(SECONDS_A_CASE);
    one(seed);
    alarm(0);
    if (wrongs_of_case == 0)
        passed++;
    else
        failed++;
}

void trials(int argc, char **argv, const char *name, uint64_t count, void (*one)(uint64_t seed))
{
    const char *every = getenv("EVERY");
    uint64_t stride = every == NULL ? 1 : strtoull(every, NULL, 10);
    trial_name = name;
    whole_run = argc < 2 && stride <= 1;
    signal(SIGSEGV, give_up);
    signal(SIGBUS, give_up);
    signal(SIGILL, give_up);
    signal(SIGFPE, give_up);
    signal(SIGABRT, give_up);
    signal(SIGALRM, give_up);
    if (argc > 1)
        run_case(strtoull(argv[1], NULL, 10), one);
    else
        for (uint64_t seed = 1; seed <= count; seed += stride > 0 ? stride : 1)
            run_case(seed, one);
}

void must_have_met(const char *what, unsigned long times, unsigned long least)
{
    if (!whole_run)
        return;
    if (times >= least) {
        passed++;
        return;
    }
    failed++;
    printf("FAILED %s: met %s %lu times, not %lu\n", trial_name, what, times, least);
}

int trials_end(void)
{
    printf("%lu passed, %lu failed\n", passed, failed);
    return failed > 0 || passed == 0;
}

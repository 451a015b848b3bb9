/* Listings broken in one to four ways, with areas long enough or not: which refusal comes first, where, and that it writes what it may. */
#include "held.h"
#include "make.h"

enum { CASES = 60000 };

static struct course course;
static struct walk walk;
static struct store store;
static unsigned long met[8], met_by_part[9], full_lists;

/* W, n·k, or a length near it; whatever it is for a listing out of the limits */
static size_t some_length(struct dice *d, size_t needed)
{
    size_t most = 40000;
    needed = needed > most ? most : needed;
    if (chance(d, 80))
        return needed + (chance(d, 30) ? below(d, 20) : 0);
    return chance(d, 70) && needed > 0 ? needed - 1 : below(d, needed + 1);
}

static void hold_parts(struct dice *d)
{
    uint16_t units[] = {0, 1, 2, (uint16_t)course.n, (uint16_t)between(d, 1, 20), 1024, 1025, 65535};
    for (unsigned i = 0; i < 8; i++) {
        hold_part(course.needs, course.needs_len, units[i]);
        met_by_part[reference_part(course.needs, course.needs_len, units[i]).refusal.number]++;
    }
}

/* every pair of 129 units, cut at or just past the limit of needs */
static void fill_to_the_limit(struct dice *d)
{
    size_t wanted = 2 * (NEEDS + below(d, 4));
    course.n = course.tracks_len = 129;
    course.k = 1;
    course.needs_len = 0;
    for (unsigned u = 1; u <= 129; u++) {
        course.tracks[u - 1] = 0;
        for (unsigned v = 1; v < u && course.needs_len < wanted; v++) {
            course.needs[course.needs_len++] = (uint16_t)u;
            course.needs[course.needs_len++] = (uint16_t)v;
        }
    }
    full_lists += wanted > 2 * NEEDS;
}

static void one(uint64_t seed)
{
    struct dice d = dice_of(seed);
    held_from(seed);
    if (seed % 200 == 0)
        fill_to_the_limit(&d);
    else
        make_course(&d, (enum shape)(seed % SHAPES), seed % 50 == 1 ? UNITS : 12, &course);
    for (size_t ways = below(&d, 5); ways > 0; ways--)
        break_listing(&d, &course);
    if (chance(&d, 35) && course.tracks_len == course.n && course.n > 0)
        make_unsound(&d, &course);
    struct listing l = listing_of(&course);
    size_t w = l.k > 0 ? reference_words(l.n, l.k) : 0;
    hold_listing(&l);
    hold_parts(&d);
    met[hold_build(&l, some_length(&d, w), some_length(&d, w), some_length(&d, (size_t)l.n * l.k), &store, &walk).number]++;
}

int main(int argc, char **argv)
{
    static const char *const refusals[] = {"accepted listings", "refusal 1", "refusal 2", "refusal 3",
                                           "refusal 4",         "refusal 5", "refusal 6", "refusal 7"};
    trials(argc, argv, "broken", CASES, one);
    for (unsigned number = 0; number < 8; number++)
        must_have_met(refusals[number], met[number], 800);
    for (unsigned number = 0; number < 9; number++)
        if (number == 0 || number == 1 || number == 4 || number == 5 || number == 8)
            must_have_met("each refusal of the part of a list", met_by_part[number], 800);
    must_have_met("lists past the limit of needs", full_lists, 100);
    return trials_end();
}

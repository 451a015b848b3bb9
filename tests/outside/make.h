/* Random courses of many shapes, and ways to break a listing. */
#ifndef MAKE_H
#define MAKE_H

#include "reference.h"
#include "trial.h"

enum { ROOM_TRACKS = UNITS + 70, ROOM_NEEDS = 2 * NEEDS + 70 }; /* entries: also for lists that are too long */

/* a listing that a test may alter */
struct course {
    unsigned n, k;
    uint16_t tracks[ROOM_TRACKS];
    size_t tracks_len;
    uint16_t needs[ROOM_NEEDS];
    size_t needs_len;
};

struct listing listing_of(const struct course *c);

enum shape {
    SINGLE,    /* n = 1 */
    CHAIN,     /* k = 1 */
    APART,     /* k = n: every unit its own track */
    WIDE,      /* few needs, many tracks */
    NEAR,      /* needs to units a little below */
    DENSE,     /* most pairs listed */
    REDUNDANT, /* every path listed as a need as well */
    LADDER,    /* no listed need within a track: its soundness goes through others */
    MIXED,     /* anything */
    SHAPES
};

/* a course of at most so many units that meets no refusal: its tracks are chains, found greedily */
void make_course(struct dice *d, enum shape shape, unsigned most_units, struct course *c);

/* some units moved to other tracks, or some needs dropped: it may meet refusal 7 and no other before it */
void make_unsound(struct dice *d, struct course *c);

/* one random change that may bring one of the refusals 1 to 5 */
void break_listing(struct dice *d, struct course *c);

#endif

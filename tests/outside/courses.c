/* Random courses, most of them sound: every call on them against the reference, and the reference's paths against its vectors. */
#include "held.h"
#include "make.h"

enum { SMALL = 6000, MIDDLE = 2000, LARGE = 400 }; /* cases */

static struct course course;
static struct walk walk;
static struct store store;
static struct dice dice;
static unsigned long accepted, unsound, limit_sized;

/* a unit to ask about, now and then none */
static uint16_t some_unit(unsigned n)
{
    uint16_t odd[] = {0, (uint16_t)n, (uint16_t)(n + 1), 65535, 1, 1024, 1025};
    return chance(&dice, 6) ? odd[below(&dice, 7)] : (uint16_t)between(&dice, 1, n);
}

static void hold_parts(const struct listing *l, bool all)
{
    uint16_t edges[] = {0, 1, (uint16_t)(l->n + 1), 1024, 1025, 32768, 65535};
    for (unsigned i = 0; i < 7; i++)
        hold_part(l->needs, l->needs_len, edges[i]);
    for (unsigned i = 1; i <= (all ? l->n : 8u); i++)
        hold_part(l->needs, l->needs_len, all ? (uint16_t)i : some_unit(l->n));
}

/* what 01 says of a built index: its vectors give what the paths give */
static void hold_reading(const struct reading *r)
{
    if (r->fault != 0) {
        wrong("the reference builds an index that is not whole: %u", r->fault);
        return;
    }
    for (unsigned u = 1; u <= walk.n; u++)
        for (unsigned q = 0; q < walk.k; q++)
            if (r->low[u][q] != walk.low[u][q] || r->high[u][q] != walk.high[u][q])
                wrong("the vectors give low %u, high %u of unit %u, track %u; the paths %u, %u", r->low[u][q], r->high[u][q], u, q,
                      walk.low[u][q], walk.high[u][q]);
}

static void hold_pair_by_paths(const struct reading *r, unsigned u, unsigned v)
{
    struct question needs = {10, (uint16_t)u, (uint16_t)v, 0, 0}, step = {11, (uint16_t)u, (uint16_t)v, 0, 0};
    if (reference_answer(r, &needs, NULL).number != walk.needs[u][v] || reference_answer(r, &step, NULL).number != walk_step(&walk, u, v))
        wrong("the vectors and the paths differ on the pair %u, %u", u, v);
}

static void hold_stage_by_paths(const struct reading *r, unsigned u)
{
    struct question stage = {16, (uint16_t)u, 0, 0, 0};
    if (reference_answer(r, &stage, NULL).number != walk_stage(&walk, u))
        wrong("the vectors and the paths differ on the stage of %u", u);
}

static void ask_everything(const struct reading *r)
{
    unsigned n = walk.n, k = walk.k;
    for (unsigned u = 0; u <= n + 1; u++) {
        for (unsigned v = 0; v <= n + 1; v++) {
            hold_question(10, (uint16_t)u, (uint16_t)v);
            hold_question(11, (uint16_t)u, (uint16_t)v);
            if (u >= 1 && u <= n && v >= 1 && v <= n)
                hold_pair_by_paths(r, u, v);
        }
        for (unsigned kind = 12; kind <= 15; kind++)
            hold_lists(kind, (uint16_t)u);
        hold_question(16, (uint16_t)u, 0);
        if (u >= 1 && u <= n)
            hold_stage_by_paths(r, u);
        for (unsigned q = 0; q <= k; q++) {
            hold_question(17, (uint16_t)u, (uint16_t)q);
            hold_question(18, (uint16_t)u, (uint16_t)q);
        }
    }
}

static void ask_samples(const struct reading *r, unsigned rounds)
{
    for (unsigned i = 0; i < rounds; i++) {
        uint16_t u = some_unit(walk.n), v = some_unit(walk.n), q = (uint16_t)below(&dice, walk.k + 1u);
        hold_question(10, u, v);
        hold_question(11, u, v);
        if (u >= 1 && u <= walk.n && v >= 1 && v <= walk.n)
            hold_pair_by_paths(r, u, v);
        hold_lists(12 + (unsigned)below(&dice, 4), u);
        hold_question(17, u, q);
        hold_question(18, u, q);
        if (i % 8 == 0)
            hold_question(16, u, 0);
        /* direct steps are rare: one of them */
        uint16_t steps[UNITS];
        unsigned count = u >= 1 && u <= walk.n ? reference_list(r, 14, u, steps) : 0;
        if (count > 0)
            hold_question(11, u, steps[below(&dice, count)]);
    }
}

static void hold_course(unsigned rounds)
{
    struct listing l = listing_of(&course);
    size_t w = reference_words(l.n, l.k), roomy = chance(&dice, 50) ? below(&dice, 20) : 0;
    hold_listing(&l);
    hold_parts(&l, rounds == 0);
    ngolishepa_refusal refusal =
        hold_build(&l, w + roomy, w + below(&dice, roomy + 1), (size_t)l.n * l.k + below(&dice, 5 * roomy + 1), &store, &walk);
    if (refusal.number != 0) {
        unsound += refusal.number == 7;
        return;
    }
    accepted++;
    limit_sized += l.n > 900 && l.k == TRACKS;
    struct index x = index_of(&store);
    const struct reading *r = hold_index(&x);
    hold_reading(r);
    if (rounds == 0)
        ask_everything(r);
    else
        ask_samples(r, rounds);
}

static void one(uint64_t seed)
{
    bool large = seed > SMALL + MIDDLE, middle = seed > SMALL;
    dice = dice_of(seed);
    held_from(seed);
    make_course(&dice, (enum shape)(seed % SHAPES), large ? UNITS : middle ? 200 : 14, &course);
    if (chance(&dice, 25))
        make_unsound(&dice, &course);
    hold_course(large ? 100 : middle ? 40 : 0);
}

int main(int argc, char **argv)
{
    trials(argc, argv, "courses", SMALL + MIDDLE + LARGE, one);
    must_have_met("accepted courses", accepted, 5000);
    must_have_met("unsound tracks", unsound, 500);
    must_have_met("courses of the largest size", limit_sized, 10);
    return trials_end();
}

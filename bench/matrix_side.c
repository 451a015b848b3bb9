/* The side of bit matrices, see side.h: nothing is judged when they are asked. */
#include "matrix.h"
#include "side.h"

static matrix made;
static uint16_t units[MAX_UNITS];
static const plain_room ROOM = {units, MAX_UNITS, 0};

/* kinds 10 and 11, and kinds 12 to 15, in the order of their numbers */
static const matrix_row *const pairs[] = {made.needed, made.steps};
static const matrix_row *const lists[] = {made.needed, made.needing, made.steps, made.steps_up};

static uint32_t build(void)
{
    plain_listing listing = {given.tracks, given.needs, given.n, given.needs_len, given.n, given.k};
    return matrix_build(&listing, &made).number;
}

static void prepare(void)
{
}

BATCH(all_builds, 1, build())
BATCH(all_pairs, PAIRS, matrix_bit(pairs[kind - 10], U, V))
BATCH(all_lists, UNITS, matrix_list(&made, lists[kind - 12][U - 1], ROOM).number)
BATCH(all_stages, STAGES, made.stages[U - 1])

static uint32_t ask(unsigned kind, bool judged, uint16_t u, uint16_t v, uint16_t *to)
{
    (void)judged;
    if (kind <= 11)
        return matrix_bit(pairs[kind - 10], u, v);
    if (kind <= 15)
        return matrix_list(&made, lists[kind - 12][u - 1], (plain_room){to, MAX_UNITS, 0}).number;
    return made.stages[u - 1];
}

static const side table = {SIDE, all_builds, prepare, {NULL}, {all_pairs, all_lists, all_stages}, ask, NULL, NULL};
SHOW(table)

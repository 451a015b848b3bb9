/* The side of plain C, see side.h. */
#include "side.h"

typedef plain_answer pair(const plain_index *, uint16_t, uint16_t);
typedef plain_answer list(const plain_index *, uint16_t, plain_room);
typedef bool inner_pair(const plain_index *, const plain_starts *, uint16_t, uint16_t);
typedef plain_answer inner_list(const plain_index *, const plain_starts *, uint16_t, plain_room);

/* kinds 10 and 11, and kinds 12 to 15, in the order of their numbers */
static pair *const pairs[] = {plain_needs, plain_is_step};
static inner_pair *const inner_pairs[] = {plain_inner_needs, plain_inner_is_step};
static list *const lists[] = {plain_needed, plain_needing, plain_steps, plain_steps_up};
static inner_list *const inner_lists[] = {plain_inner_needed, plain_inner_needing, plain_inner_steps,
                                          plain_inner_steps_up};

static areas filled;
static plain_index made;
static plain_starts starts;
static uint16_t units[MAX_UNITS];
static const plain_room ROOM = {units, MAX_UNITS, 0};

static uint32_t build(void)
{
    plain_listing listing = {given.tracks, given.needs, given.n, given.needs_len, given.n, given.k};
    plain_areas lent = {filled.words, filled.directory, filled.work, MAX_WORDS, MAX_WORDS, MAX_WORK};
    return plain_build(&listing, &lent, &made.head).number;
}

static void prepare(void)
{
    made = (plain_index){made.head, given.tracks, filled.directory, filled.words, given.n, MAX_WORDS, MAX_WORDS};
    plain_fill_starts(&made.head, &starts);
}

BATCH(all_builds, 1, build())
BATCH(all_pairs, PAIRS, pairs[kind - 10](&made, U, V).number)
BATCH(all_lists, UNITS, lists[kind - 12](&made, U, ROOM).number)
BATCH(all_stages, STAGES, plain_stage(&made, U).number)
BATCH(all_inner_pairs, PAIRS, inner_pairs[kind - 10](&made, &starts, U, V))
BATCH(all_inner_lists, UNITS, inner_lists[kind - 12](&made, &starts, U, ROOM).number)
BATCH(all_inner_stages, STAGES, plain_inner_stage(&made, &starts, U))

static uint32_t ask(unsigned kind, bool judged, uint16_t u, uint16_t v, uint16_t *to)
{
    plain_room room = {to, MAX_UNITS, 0};
    if (kind <= 11)
        return judged ? pairs[kind - 10](&made, u, v).number : inner_pairs[kind - 10](&made, &starts, u, v);
    if (kind <= 15)
        return judged ? lists[kind - 12](&made, u, room).number : inner_lists[kind - 12](&made, &starts, u, room).number;
    return judged ? plain_stage(&made, u).number : plain_inner_stage(&made, &starts, u);
}

static const side table = {SIDE,
                           all_builds,
                           prepare,
                           {all_pairs, all_lists, all_stages},
                           {all_inner_pairs, all_inner_lists, all_inner_stages},
                           ask,
                           &filled,
                           &made.head};
SHOW(table)

/* The side of the library, as a C program links it, with the inner forms: see side.h. */
#include "inner.h"
#include "side.h"

typedef ngolishepa_pair_answer pair(ngolishepa_head, const uint16_t *, size_t, const uint64_t *, size_t, const uint16_t *,
                                    size_t, uint16_t, uint16_t);
typedef ngolishepa_number_answer list(ngolishepa_head, const uint16_t *, size_t, const uint64_t *, size_t,
                                      const uint16_t *, size_t, uint16_t, uint16_t *, size_t, size_t);
typedef bool inner_pair(const uint16_t *, size_t, const uint64_t *, size_t, const uint16_t *, size_t, const uint16_t *,
                        const uint32_t *, size_t, uint16_t, uint16_t);
typedef ngolishepa_number_answer inner_list(const uint16_t *, size_t, const uint64_t *, size_t, const uint16_t *, size_t,
                                            const uint16_t *, const uint32_t *, size_t, uint16_t, uint16_t *, size_t,
                                            size_t);

/* kinds 10 and 11, and kinds 12 to 15, in the order of their numbers */
static pair *const pairs[] = {ngolishepa_needs, ngolishepa_is_step};
static inner_pair *const inner_pairs[] = {ngolishepa_inner_needs, ngolishepa_inner_is_step};
static list *const lists[] = {ngolishepa_needed, ngolishepa_needing, ngolishepa_steps, ngolishepa_steps_up};
static inner_list *const inner_lists[] = {ngolishepa_inner_needed, ngolishepa_inner_needing, ngolishepa_inner_steps,
                                          ngolishepa_inner_steps_up};

static areas filled;
static ngolishepa_head head;
static uint32_t starts[66];
static uint16_t units[MAX_UNITS];

#define INDEX given.tracks, given.n, filled.words, MAX_WORDS, filled.directory, MAX_WORDS
#define INNER INDEX, head.lens, starts, head.k

static uint32_t build(void)
{
    ngolishepa_built made = ngolishepa_build(given.n, given.k, given.tracks, given.n, given.needs, given.needs_len,
                                             filled.words, MAX_WORDS, filled.directory, MAX_WORDS, filled.work, MAX_WORK);
    head = made.head;
    return made.refusal.number;
}

static void prepare(void)
{
    ngolishepa_inner_starts(head.lens, head.k, starts);
}

BATCH(all_builds, 1, build())
BATCH(all_pairs, PAIRS, pairs[kind - 10](head, INDEX, U, V).yes)
BATCH(all_lists, UNITS, lists[kind - 12](head, INDEX, U, units, MAX_UNITS, 0).number)
BATCH(all_stages, STAGES, ngolishepa_stage(head, INDEX, U).number)
BATCH(all_inner_pairs, PAIRS, inner_pairs[kind - 10](INNER, U, V))
BATCH(all_inner_lists, UNITS, inner_lists[kind - 12](INNER, U, units, MAX_UNITS, 0).number)
BATCH(all_inner_stages, STAGES, ngolishepa_inner_stage(INNER, U))

static uint32_t ask(unsigned kind, bool judged, uint16_t u, uint16_t v, uint16_t *to)
{
    if (kind <= 11)
        return judged ? pairs[kind - 10](head, INDEX, u, v).yes : inner_pairs[kind - 10](INNER, u, v);
    if (kind <= 15)
        return judged ? lists[kind - 12](head, INDEX, u, to, MAX_UNITS, 0).number
                      : inner_lists[kind - 12](INNER, u, to, MAX_UNITS, 0).number;
    return judged ? ngolishepa_stage(head, INDEX, u).number : ngolishepa_inner_stage(INNER, u);
}

static const side table = {SIDE,
                           all_builds,
                           prepare,
                           {all_pairs, all_lists, all_stages},
                           {all_inner_pairs, all_inner_lists, all_inner_stages},
                           ask,
                           &filled,
                           &head};
SHOW(table)

/* Baseline (b), see matrix.h. */
#include "matrix.h"

#include <string.h>

static inline void set_bit(matrix_row row, unsigned v)
{
    row[(v - 1) / 64] |= (uint64_t)1 << (v - 1) % 64;
}

static inline void join(uint64_t *restrict to, const uint64_t *restrict from)
{
    for (unsigned j = 0; j < ROW; j++)
        to[j] |= from[j];
}

static unsigned highest(const matrix_row row)
{
    for (unsigned j = ROW; j > 0; j--)
        if (row[j - 1])
            return 64 * j - (unsigned)__builtin_clzll(row[j - 1]);
    return 0;
}

/* What the listed units need lies further down; a listed unit that is not among it is a direct step. The pairs ascend, so
 * the rows of smaller units are ready. */
static void fill_down(const plain_listing *l, matrix *m)
{
    const uint16_t *pair = l->needs, *end = l->needs + l->needs_len;
    for (unsigned u = 1; u <= l->n; u++) {
        matrix_row listed = {0}, beyond = {0};
        for (; pair < end && pair[0] == u; pair += 2) {
            set_bit(listed, pair[1]);
            join(beyond, m->needed[pair[1] - 1]);
        }
        for (unsigned j = 0; j < ROW; j++) {
            m->needed[u - 1][j] = listed[j] | beyond[j];
            m->steps[u - 1][j] = listed[j] & ~beyond[j];
        }
        unsigned step = highest(m->steps[u - 1]);
        m->stages[u - 1] = step ? m->stages[step - 1] + 1 : 1;
    }
}

/* the same from the last pair down, where the rows of greater units are ready */
static void fill_up(const plain_listing *l, matrix *m)
{
    memset(m->needing, 0, sizeof *m->needing * l->n);
    memset(m->steps_up, 0, sizeof *m->steps_up * l->n);
    for (const uint16_t *pair = l->needs + l->needs_len; pair > l->needs;) {
        pair -= 2;
        join(m->needing[pair[1] - 1], m->needing[pair[0] - 1]);
        set_bit(m->needing[pair[1] - 1], pair[0]);
        if (matrix_bit(m->steps, pair[0], pair[1]))
            set_bit(m->steps_up[pair[1] - 1], pair[0]);
    }
}

plain_refusal matrix_build(const plain_listing *l, matrix *m)
{
    unsigned last[MAX_TRACKS] = {0};
    plain_refusal r = plain_check_listing(l);
    if (r.number)
        return r;
    m->n = l->n;
    fill_down(l, m);
    for (unsigned u = 1; u <= l->n; u++) {
        unsigned before = last[l->tracks[u - 1]];
        if (before && !matrix_bit(m->needed, u, before))
            return (plain_refusal){7, u};
        last[l->tracks[u - 1]] = u;
    }
    fill_up(l, m);
    return (plain_refusal){0, 0};
}

plain_answer matrix_list(const matrix *m, const matrix_row row, plain_room room)
{
    unsigned words = (m->n + 63) / 64, count = 0;
    for (unsigned j = 0; j < words; j++)
        count += (unsigned)__builtin_popcountll(row[j]);
    if (room.place > room.len || count > room.len - room.place)
        return (plain_answer){{10, count}, 0};
    uint16_t *out = room.list + room.place;
    for (unsigned j = 0; j < words; j++)
        for (uint64_t w = row[j]; w; w &= w - 1)
            *out++ = (uint16_t)(64 * j + 1 + (unsigned)__builtin_ctzll(w));
    return (plain_answer){{0, 0}, count};
}

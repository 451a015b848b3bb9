/* An independent reading of document 01: see reference.h. Nothing here is quick, so that each line can be held against 01's words. */
#include "reference.h"

#include <string.h>

static ngolishepa_refusal refused(unsigned number, size_t place)
{
    return (ngolishepa_refusal){number, (uint32_t)place};
}

/* ---- a listing */

static bool bad_pair(const uint16_t *needs, size_t pair, unsigned n)
{
    unsigned u = needs[2 * pair], v = needs[2 * pair + 1];
    return u < 1 || u > n || v < 1 || v > n || v >= u;
}

static bool above_the_one_before(const uint16_t *needs, size_t pair)
{
    unsigned u = needs[2 * pair], v = needs[2 * pair + 1], before_u = needs[2 * pair - 2], before_v = needs[2 * pair - 1];
    return u > before_u || (u == before_u && v > before_v);
}

/* refusals 4 and 5: every pair is judged by 4 before any is judged by 5 */
static ngolishepa_refusal judge_pairs(const uint16_t *needs, size_t pairs, unsigned n)
{
    for (size_t i = 0; i < pairs; i++)
        if (bad_pair(needs, i, n))
            return refused(4, i);
    for (size_t i = 1; i < pairs; i++)
        if (!above_the_one_before(needs, i))
            return refused(5, i);
    return refused(0, 0);
}

ngolishepa_refusal reference_listing(const struct listing *l)
{
    if (l->n < 1 || l->n > UNITS || l->k < 1 || l->k > TRACKS)
        return refused(1, 0);
    if (l->tracks_len != l->n || l->needs_len % 2 != 0 || l->needs_len / 2 > NEEDS)
        return refused(1, 0);
    for (unsigned u = 1; u <= l->n; u++)
        if (l->tracks[u - 1] >= l->k)
            return refused(2, u);
    for (unsigned q = 0; q < l->k; q++) {
        unsigned length = 0;
        for (unsigned u = 1; u <= l->n; u++)
            length += l->tracks[u - 1] == q;
        if (length == 0)
            return refused(3, q);
    }
    return judge_pairs(l->needs, l->needs_len / 2, l->n);
}

ngolishepa_part_answer reference_part(const uint16_t *needs, size_t needs_len, uint16_t unit)
{
    ngolishepa_part_answer part = {{0, 0}, 0, 0};
    if (unit < 1 || unit > UNITS)
        part.refusal = refused(8, 1);
    else if (needs_len % 2 != 0 || needs_len / 2 > NEEDS)
        part.refusal = refused(1, 0);
    else
        part.refusal = judge_pairs(needs, needs_len / 2, UNITS);
    if (part.refusal.number != 0)
        return part;
    for (size_t i = 0; i < needs_len / 2; i++) {
        part.start += needs[2 * i] < unit ? 2 : 0;
        part.count += needs[2 * i] == unit ? 2 : 0;
    }
    return part;
}

/* ---- the course by its paths */

/* every unit that a path of one or more listed needs leads to from u, depth first; from[u] is the index of u's first pair */
static void visit(const uint16_t *needs, const size_t *from, unsigned u, bool *found)
{
    for (size_t i = from[u]; i < from[u + 1]; i++) {
        unsigned v = needs[2 * i + 1];
        if (!found[v]) {
            found[v] = true;
            visit(needs, from, v, found);
        }
    }
}

static void walk_paths(const struct listing *l, struct walk *w)
{
    static size_t from[UNITS + 2];
    size_t pair = 0;
    for (unsigned u = 0; u <= UNITS + 1; u++) {
        while (pair < l->needs_len / 2 && l->needs[2 * pair] < u)
            pair++;
        from[u] = pair;
    }
    for (unsigned u = 1; u <= l->n; u++) {
        memset(w->needs[u], 0, sizeof w->needs[u]);
        visit(l->needs, from, u, w->needs[u]);
    }
}

/* positions, lengths and the unit at each position, of a track list whose entries are all below 32 */
static void place_units(const uint16_t *tracks, unsigned n, unsigned *track, unsigned *position, unsigned *lens,
                        unsigned unit_at[TRACKS][UNITS + 2])
{
    memset(lens, 0, TRACKS * sizeof *lens);
    memset(unit_at, 0, TRACKS * sizeof unit_at[0]);
    for (unsigned u = 1; u <= n; u++) {
        track[u] = tracks[u - 1];
        position[u] = ++lens[track[u]];
        unit_at[track[u]][position[u]] = u;
    }
}

void reference_walk(const struct listing *l, struct walk *w)
{
    w->n = l->n;
    w->k = l->k;
    place_units(l->tracks, l->n, w->track, w->position, w->lens, w->unit_at);
    walk_paths(l, w);
    for (unsigned u = 1; u <= w->n; u++)
        for (unsigned q = 0; q < w->k; q++) {
            w->low[u][q] = 0;
            w->high[u][q] = w->lens[q] + 1;
            for (unsigned i = 1; i <= w->lens[q]; i++)
                if (w->needs[u][w->unit_at[q][i]])
                    w->low[u][q] = i;
            for (unsigned i = w->lens[q]; i >= 1; i--)
                if (w->needs[w->unit_at[q][i]][u])
                    w->high[u][q] = i;
        }
}

bool walk_step(const struct walk *w, unsigned u, unsigned v)
{
    if (!w->needs[u][v])
        return false;
    for (unsigned between = 1; between <= w->n; between++)
        if (w->needs[u][between] && w->needs[between][v])
            return false;
    return true;
}

unsigned walk_stage(const struct walk *w, unsigned u)
{
    for (unsigned v = u - 1; v >= 1; v--)
        if (walk_step(w, u, v))
            return 1 + walk_stage(w, v);
    return 1;
}

ngolishepa_refusal walk_soundness(const struct walk *w)
{
    for (unsigned u = 1; u <= w->n; u++)
        if (w->position[u] > 1 && !w->needs[u][w->unit_at[w->track[u]][w->position[u] - 1]])
            return refused(7, u);
    return refused(0, 0);
}

/* ---- the build */

size_t reference_words(unsigned n, unsigned k)
{
    return (2 * (size_t)n * (k - 1) + 63) / 64;
}

/* vector p,q from bit x on; where the next vector starts */
static size_t write_vector(uint64_t *words, size_t x, const struct walk *w, unsigned p, unsigned q)
{
    unsigned zeros = 0;
    for (unsigned i = 1; i <= w->lens[p]; i++) {
        for (; zeros < w->low[w->unit_at[p][i]][q]; zeros++)
            x++;
        words[x / 64] |= (uint64_t)1 << x % 64;
        x++;
    }
    return x + (w->lens[q] - zeros);
}

static void write_index(const struct walk *w, const struct areas *a)
{
    size_t count = reference_words(w->n, w->k), x = 0;
    unsigned ones = 0;
    for (size_t j = 0; j < count; j++)
        a->words[j] = 0;
    for (unsigned p = 0; p < w->k; p++)
        for (unsigned q = 0; q < w->k; q++)
            if (p != q)
                x = write_vector(a->words, x, w, p, q);
    for (size_t j = 0; j < count; j++) {
        a->directory[j] = (uint16_t)ones;
        for (size_t bit = 0; bit < 64; bit++)
            ones += reference_bit(a->words, 64 * j + bit);
    }
}

ngolishepa_built reference_build(const struct listing *l, const struct areas *a, struct walk *w)
{
    ngolishepa_built built;
    memset(&built, 0, sizeof built);
    built.refusal = reference_listing(l);
    if (built.refusal.number != 0)
        return built;
    size_t count = reference_words(l->n, l->k);
    if (a->words_len < count || a->directory_len < count || a->work_len < (size_t)l->n * l->k) {
        built.refusal = refused(6, 0);
        return built;
    }
    reference_walk(l, w);
    for (unsigned u = 1; u <= w->n; u++)
        for (unsigned q = 0; q < w->k; q++)
            a->work[(u - 1) * w->k + q] = (uint16_t)w->low[u][q];
    built.refusal = walk_soundness(w);
    if (built.refusal.number != 0)
        return built;
    write_index(w, a);
    for (unsigned q = 0; q < w->k; q++)
        built.head.lens[q] = (uint16_t)w->lens[q];
    built.head.n = l->n;
    built.head.k = l->k;
    built.bits = 2 * (uint32_t)l->n * (l->k - 1u);
    return built;
}

/* ---- any index */

size_t reference_start(const ngolishepa_head *head, unsigned p, unsigned q)
{
    size_t x = 0;
    for (unsigned a = 0; a < head->k; a++)
        for (unsigned b = 0; b < head->k; b++) {
            if (a == p && b == q)
                return x;
            if (a != b)
                x += (size_t)head->lens[a] + head->lens[b];
        }
    return x;
}

bool reference_bit(const uint64_t *words, size_t x)
{
    return words[x / 64] >> x % 64 & 1;
}

static bool lengths_true(const struct index *x)
{
    for (unsigned q = 0; q < TRACKS; q++) {
        unsigned length = 0;
        for (unsigned u = 1; u <= x->head.n; u++)
            length += x->tracks[u - 1] == q;
        if (x->head.lens[q] != length || (q < x->head.k) != (length >= 1))
            return false;
    }
    return true;
}

static bool directory_true(const struct index *x, size_t count)
{
    unsigned ones = 0;
    for (size_t j = 0; j < count; j++) {
        if (x->directory[j] != ones)
            return false;
        for (size_t bit = 0; bit < 64; bit++)
            ones += reference_bit(x->words, 64 * j + bit);
    }
    return true;
}

static bool vectors_true(const struct index *x)
{
    size_t start = 0;
    for (unsigned p = 0; p < x->head.k; p++)
        for (unsigned q = 0; q < x->head.k; q++) {
            if (p == q)
                continue;
            unsigned ones = 0, length = x->head.lens[p] + x->head.lens[q];
            for (unsigned y = 0; y < length; y++)
                ones += reference_bit(x->words, start + y);
            if (ones != x->head.lens[p])
                return false;
            start += length;
        }
    return true;
}

unsigned reference_fault(const struct index *x)
{
    if (x->head.n < 1 || x->head.n > UNITS || x->head.k < 1 || x->head.k > TRACKS)
        return 1;
    if (x->tracks_len != x->head.n)
        return 2;
    for (unsigned u = 1; u <= x->head.n; u++)
        if (x->tracks[u - 1] >= x->head.k)
            return 2;
    if (!lengths_true(x))
        return 3;
    size_t count = reference_words(x->head.n, x->head.k);
    if (x->words_len < count || x->directory_len < count)
        return 4;
    for (size_t y = 2 * (size_t)x->head.n * (x->head.k - 1u); y < 64 * count; y++)
        if (reference_bit(x->words, y))
            return 5;
    if (!directory_true(x, count))
        return 6;
    return vectors_true(x) ? 0 : 7;
}

void reference_read(const struct index *x, struct reading *r)
{
    r->fault = reference_fault(x);
    r->n = x->head.n;
    r->k = x->head.k;
    if (r->fault != 0)
        return;
    place_units(x->tracks, r->n, r->track, r->position, r->lens, r->unit_at);
    for (unsigned u = 1; u <= r->n; u++) {
        r->low[u][r->track[u]] = r->position[u] - 1;
        r->high[u][r->track[u]] = r->position[u] + 1;
    }
    size_t at = 0;
    for (unsigned p = 0; p < r->k; p++)
        for (unsigned q = 0; q < r->k; q++) {
            unsigned ones = 0, zeros = 0;
            for (unsigned place = 1; p != q && place <= r->lens[p] + r->lens[q]; place++)
                if (reference_bit(x->words, at++)) {
                    ones++;
                    r->low[r->unit_at[p][ones]][q] = place - ones;
                } else {
                    zeros++;
                    r->high[r->unit_at[q][zeros]][p] = place - zeros + 1;
                }
        }
}

static bool needs(const struct reading *r, unsigned u, unsigned v)
{
    return r->position[v] <= r->low[u][r->track[v]];
}

static bool step(const struct reading *r, unsigned u, unsigned v)
{
    if (!needs(r, u, v))
        return false;
    for (unsigned p = 0; p < r->k; p++)
        if (!(r->low[u][p] < r->high[v][p]))
            return false;
    return true;
}

static unsigned stage(const struct reading *r, unsigned u)
{
    unsigned stages = 1;
    for (unsigned v = u - 1; v >= 1; v--)
        if (step(r, u, v)) {
            stages++;
            u = v;
        }
    return stages;
}

unsigned reference_list(const struct reading *r, unsigned kind, unsigned u, uint16_t *list)
{
    unsigned count = 0;
    for (unsigned v = 1; v <= r->n; v++) {
        bool in = kind == 12 ? needs(r, u, v) : kind == 13 ? needs(r, v, u) : kind == 14 ? step(r, u, v) : step(r, v, u);
        if (in)
            list[count++] = (uint16_t)v;
    }
    return count;
}

static ngolishepa_refusal judge_arguments(const struct reading *r, const struct question *q)
{
    if (q->u < 1 || q->u > r->n)
        return refused(8, 1);
    if ((q->kind == 10 || q->kind == 11) && (q->second < 1 || q->second > r->n))
        return refused(8, 2);
    if ((q->kind == 17 || q->kind == 18) && q->second >= r->k)
        return refused(8, 2);
    return refused(0, 0);
}

static struct answer answer_list(const struct reading *r, const struct question *q, uint16_t *list)
{
    uint16_t units[UNITS];
    unsigned count = reference_list(r, q->kind, q->u, units);
    if (q->place > q->list_len || q->list_len - q->place < count)
        return (struct answer){refused(10, count), 0};
    for (unsigned i = 0; i < count; i++)
        list[q->place + i] = units[i];
    return (struct answer){refused(0, 0), count};
}

struct answer reference_answer(const struct reading *r, const struct question *q, uint16_t *list)
{
    struct answer a = {refused(9, 0), 0};
    if (r->fault != 0)
        return a;
    a.refusal = judge_arguments(r, q);
    if (a.refusal.number != 0)
        return a;
    if (q->kind >= 12 && q->kind <= 15)
        return answer_list(r, q, list);
    if (q->kind == 10)
        a.number = needs(r, q->u, q->second);
    else if (q->kind == 11)
        a.number = step(r, q->u, q->second);
    else if (q->kind == 16)
        a.number = stage(r, q->u);
    else if (q->kind == 17)
        a.number = r->unit_at[q->second][r->low[q->u][q->second]];
    else
        a.number = r->unit_at[q->second][r->high[q->u][q->second]];
    return a;
}

/* Baseline (a), see plain.h: the listing checked, the index built and judged, the questions. TUNED swaps in three
 * functions written for what gcc makes of them: counting and raising in blocks that become vectors, selecting by a table. */
#include "plain.h"

#include <string.h>

#define BYTES 0x0101010101010101u
#define HIGHS 0x8080808080808080u /* TUNED */

static const plain_refusal FINE = {0, 0};
static const plain_refusal NOT_WHOLE = {9, 0};

/* ---- words */

static inline uint64_t byte_counts(uint64_t w)
{
    w -= (w >> 1) & 0x5555555555555555u;
    w = (w & 0x3333333333333333u) + ((w >> 2) & 0x3333333333333333u);
    return (w + (w >> 4)) & 0x0f0f0f0f0f0f0f0fu;
}

/* plain x86-64 has no POPCNT: the compiler's builtin would be a call for each word */
static inline unsigned ones(uint64_t w)
{
    return (unsigned)(byte_counts(w) * BYTES >> 56);
}

#ifdef TUNED
/* places of the ones of each byte, filled before main */
static uint8_t ones_of_byte[256][8];

__attribute__((constructor)) static void fill_ones_of_byte(void)
{
    for (unsigned byte = 0; byte < 256; byte++)
        for (unsigned bit = 0, found = 0; bit < 8; bit++)
            if (byte >> bit & 1)
                ones_of_byte[byte][found++] = (uint8_t)bit;
}

/* place, from 0, of the r-th one, from 1: its byte by the sums of the bytes before, then the table */
static inline unsigned select_in_word(uint64_t w, unsigned r)
{
    uint64_t sums = byte_counts(w) * BYTES;
    uint64_t below = ~((sums | HIGHS) - r * BYTES) & HIGHS;
    unsigned byte = (unsigned)((below >> 7) * BYTES >> 56) * 8;
    unsigned before = (unsigned)((sums << 8) >> byte & 0xff);
    return byte + ones_of_byte[w >> byte & 0xff][r - before - 1];
}
#else
/* place, from 0, of the r-th one, from 1: by halves */
static inline unsigned select_in_word(uint64_t w, unsigned r)
{
    unsigned at = 0;
    for (unsigned width = 32; width > 0; width /= 2) {
        unsigned below = ones(w & (((uint64_t)1 << width) - 1));
        if (below < r) {
            r -= below;
            w >>= width;
            at += width;
        }
    }
    return at;
}
#endif

static inline size_t words_of(unsigned n, unsigned k)
{
    return ((size_t)2 * n * (k - 1) + 63) / 64;
}

/* ---- a listing */

static bool in_range(unsigned n, unsigned k)
{
    return n >= 1 && n <= MAX_UNITS && k >= 1 && k <= MAX_TRACKS;
}

static plain_refusal check_tracks(const plain_listing *l)
{
    uint32_t seen = 0;
    for (unsigned u = 1; u <= l->n; u++) {
        if (l->tracks[u - 1] >= l->k)
            return (plain_refusal){2, u};
        seen |= (uint32_t)1 << l->tracks[u - 1];
    }
    uint32_t missing = ~seen & (0xffffffffu >> (32 - l->k));
    return missing ? (plain_refusal){3, (uint32_t)__builtin_ctz(missing)} : FINE;
}

static plain_refusal check_pairs(const plain_listing *l)
{
    uint32_t last = 0, unordered = 0;
    for (uint32_t i = 0; i < l->needs_len / 2; i++) {
        uint32_t u = l->needs[2 * i], v = l->needs[2 * i + 1], key = u << 16 | v;
        if (v < 1 || v >= u || u > l->n)
            return (plain_refusal){4, i};
        if (key <= last && !unordered)
            unordered = i;
        last = key;
    }
    return unordered ? (plain_refusal){5, unordered} : FINE;
}

plain_refusal plain_check_listing(const plain_listing *l)
{
    if (!in_range(l->n, l->k) || l->tracks_len != l->n || l->needs_len % 2 || l->needs_len / 2 > MAX_NEEDS)
        return (plain_refusal){1, 0};
    plain_refusal r = check_tracks(l);
    return r.number ? r : check_pairs(l);
}

/* ---- the build */

#ifdef TUNED
static inline void keep_greater(int16_t *restrict row, const int16_t *restrict from, unsigned count)
{
    for (unsigned q = 0; q < count; q++) {
        int16_t here = row[q], there = from[q];
        row[q] = here < there ? there : here;
    }
}

/* Each entry of a row to the greater of two: by eights, which the compiler turns into vectors. The numbers are 1,024 at
 * most, so they are compared as signed ones, which plain x86-64 can do eight at a time. */
static inline void raise_row(uint16_t *row, const uint16_t *from, unsigned k)
{
    unsigned q = 0;
    for (; q + 8 <= k; q += 8)
        keep_greater((int16_t *)row + q, (const int16_t *)from + q, 8);
    keep_greater((int16_t *)row + q, (const int16_t *)from + q, k - q);
}
#else
/* each entry of a row to the greater of two */
static inline void raise_row(uint16_t *row, const uint16_t *from, unsigned k)
{
    for (unsigned q = 0; q < k; q++)
        if (row[q] < from[q])
            row[q] = from[q];
}
#endif

/* The work area, by the row recurrence; answers the first unit of an unsound track, or 0. A row has its unit's own
 * position in its own track while the rows above it are made, and its low there at the end. */
static unsigned fill_rows(const plain_listing *l, uint16_t *work, const uint16_t *position)
{
    unsigned k = l->k, unsound = 0;
    const uint16_t *pair = l->needs, *end = l->needs + l->needs_len;
    uint16_t own[MAX_UNITS];
    memset(work, 0, sizeof *work * l->n * k);
    for (unsigned u = 1; u <= l->n; u++) {
        uint16_t *row = work + (u - 1) * k;
        for (; pair < end && pair[0] == u; pair += 2)
            raise_row(row, work + (pair[1] - 1) * k, k);
        unsigned t = l->tracks[u - 1];
        own[u - 1] = row[t];
        if (row[t] + 1 != position[u - 1] && !unsound)
            unsound = u;
        row[t] = position[u - 1];
    }
    for (unsigned u = 1; u <= l->n; u++)
        work[(u - 1) * k + l->tracks[u - 1]] = own[u - 1];
    return unsound;
}

/* where the vectors of track p begin, as if there were one for p itself, of no bits */
static void vector_starts(const plain_head *head, const plain_starts *s, unsigned p, uint32_t at[MAX_TRACKS])
{
    uint32_t next = p * head->n + (head->k - 2u) * s->before[p];
    for (unsigned q = 0; q < head->k; q++) {
        at[q] = next;
        next += q == p ? 0 : head->lens[p] + head->lens[q];
    }
}

static void set_bits(const plain_listing *l, const plain_head *head, const uint16_t *position, const uint16_t *work,
                     uint64_t *words)
{
    unsigned k = l->k;
    plain_starts s;
    uint32_t at[MAX_TRACKS][MAX_TRACKS];
    plain_fill_starts(head, &s);
    for (unsigned p = 0; p < k; p++)
        vector_starts(head, &s, p, at[p]);
    for (unsigned u = 1; u <= l->n; u++) {
        unsigned p = l->tracks[u - 1], i = position[u - 1];
        const uint16_t *low = work + (u - 1) * k;
        for (unsigned q = 0; q < k; q++) {
            uint32_t bit = at[p][q] + low[q] + i - 1;
            if (q != p)
                words[bit / 64] |= (uint64_t)1 << bit % 64;
        }
    }
}

plain_refusal plain_build(const plain_listing *l, const plain_areas *a, plain_head *head)
{
    uint16_t position[MAX_UNITS];
    memset(head, 0, sizeof *head);
    plain_refusal r = plain_check_listing(l);
    if (r.number)
        return r;
    size_t w = words_of(l->n, l->k);
    if (a->words_len < w || a->directory_len < w || a->work_len < (size_t)l->n * l->k)
        return (plain_refusal){6, 0};
    plain_head made = {{0}, l->n, l->k};
    for (unsigned u = 1; u <= l->n; u++)
        position[u - 1] = ++made.lens[l->tracks[u - 1]];
    unsigned unsound = fill_rows(l, a->work, position);
    if (unsound)
        return (plain_refusal){7, unsound};
    memset(a->words, 0, sizeof *a->words * w);
    set_bits(l, &made, position, a->work, a->words);
    unsigned sum = 0;
    for (size_t j = 0; j < w; j++) {
        a->directory[j] = (uint16_t)sum;
        sum += ones(a->words[j]);
    }
    *head = made;
    return FINE;
}

/* ---- an index judged */

void plain_fill_starts(const plain_head *head, plain_starts *s)
{
    s->before[0] = 0;
    for (unsigned p = 0; p < head->k; p++)
        s->before[p + 1] = s->before[p] + head->lens[p];
}

static inline unsigned rank(const plain_index *x, uint32_t bit)
{
    return x->directory[bit / 64] + ones(x->words[bit / 64] & (((uint64_t)1 << bit % 64) - 1));
}

static bool tracks_whole(const plain_index *x)
{
    uint16_t count[MAX_TRACKS] = {0};
    if (!in_range(x->head.n, x->head.k) || x->tracks_len != x->head.n)
        return false;
    for (unsigned u = 1; u <= x->head.n; u++) {
        if (x->tracks[u - 1] >= x->head.k)
            return false;
        count[x->tracks[u - 1]]++;
    }
    for (unsigned q = 0; q < x->head.k; q++)
        if (count[q] == 0)
            return false;
    return memcmp(count, x->head.lens, sizeof count) == 0;
}

/* spare bits, the directory and the ones of all vectors together */
static bool words_whole(const plain_index *x, size_t w)
{
    unsigned bits = 2u * x->head.n * (x->head.k - 1u), wrong = x->directory[0];
    for (size_t j = 0; j + 1 < w; j++)
        wrong |= (uint16_t)(x->directory[j + 1] - x->directory[j]) ^ ones(x->words[j]);
    wrong |= (x->directory[w - 1] + ones(x->words[w - 1])) ^ bits / 2;
    return !wrong && (bits % 64 == 0 || x->words[w - 1] >> bits % 64 == 0);
}

/* each vector has its ones: so many stand before the start of each */
static bool vectors_whole(const plain_index *x)
{
    unsigned k = x->head.k, wrong = 0;
    uint32_t start = 0, before = 0;
    for (unsigned p = 0; p < k; p++) {
        unsigned len = x->head.lens[p];
        for (unsigned q = 0; q < k; q++) {
            if (q == p)
                continue;
            wrong |= rank(x, start) ^ before;
            start += len + x->head.lens[q];
            before += len;
        }
    }
    return !wrong;
}

bool plain_judge(const plain_index *x, plain_starts *s)
{
    if (!tracks_whole(x))
        return false;
    size_t w = words_of(x->head.n, x->head.k);
    if (x->words_len < w || x->directory_len < w)
        return false;
    if (w && (!words_whole(x, w) || !vectors_whole(x)))
        return false;
    plain_fill_starts(&x->head, s);
    return true;
}

/* ---- positions and bounds, of an index known to be whole */

typedef struct {
    unsigned p, i;
} place;

#ifdef TUNED
/* entries equal to t among the first count; blocks of a fixed size, which the compiler turns into vectors */
static unsigned count_track(const uint16_t *tracks, size_t count, uint16_t t)
{
    unsigned total = 0;
    size_t v = 0;
    for (; v + 64 <= count; v += 64) {
        uint16_t here = 0;
        for (unsigned j = 0; j < 64; j++)
            here += tracks[v + j] == t;
        total += here;
    }
    for (; v < count; v++)
        total += tracks[v] == t;
    return total;
}
#else
/* entries equal to t among the first count */
static unsigned count_track(const uint16_t *tracks, size_t count, uint16_t t)
{
    unsigned total = 0;
    for (size_t v = 0; v < count; v++)
        total += tracks[v] == t;
    return total;
}
#endif

static inline place place_of(const plain_index *x, unsigned u)
{
    uint16_t p = x->tracks[u - 1];
    return (place){p, count_track(x->tracks, u - 1, p) + 1};
}

/* first bit of vector p,q, and the ones in all vectors before it */
typedef struct {
    uint32_t bit, ones;
} start;

static inline start start_of(const plain_index *x, const plain_starts *s, unsigned p, unsigned q)
{
    unsigned n = x->head.n, k = x->head.k, len = x->head.lens[p], after = q > p;
    uint32_t before = s->before[p];
    return (start){p * n + (k - 2) * before + s->before[q] + (q - 2 * after) * len, (k - 1) * before + (q - after) * len};
}

/* whether the unit at a, position i, needs the unit at b, position j: the i-th one stands after the j-th zero, so among
 * the first i + j - 1 bits there are fewer than i ones */
static inline bool reaches(const plain_index *x, const plain_starts *s, place a, place b)
{
    if (a.p == b.p)
        return b.i < a.i;
    start v = start_of(x, s, a.p, b.p);
    return rank(x, v.bit + a.i + b.i - 1) - v.ones < a.i;
}

/* place, from 0, of the r-th one (or zero), from 1, of all the words, known to lie in bits first to end */
static inline uint32_t select_bit(const plain_index *x, uint32_t first, uint32_t end, uint32_t r, bool zeros)
{
    uint32_t j = first / 64, more = (end - 1) / 64 - j;
    while (more) {
        uint32_t half = (more + 1) / 2, at = j + half;
        uint32_t passed = zeros ? 64 * at - x->directory[at] : x->directory[at];
        j = passed < r ? at : j;
        more -= half;
    }
    uint32_t passed = zeros ? 64 * j - x->directory[j] : x->directory[j];
    return 64 * j + select_in_word(zeros ? ~x->words[j] : x->words[j], r - passed);
}

static inline unsigned low(const plain_index *x, const plain_starts *s, place u, unsigned q)
{
    if (q == u.p)
        return u.i - 1;
    start v = start_of(x, s, u.p, q);
    uint32_t end = v.bit + x->head.lens[u.p] + x->head.lens[q];
    return select_bit(x, v.bit, end, v.ones + u.i, false) - v.bit + 1 - u.i;
}

static inline unsigned high(const plain_index *x, const plain_starts *s, place u, unsigned q)
{
    if (q == u.p)
        return u.i + 1;
    start v = start_of(x, s, q, u.p);
    uint32_t end = v.bit + x->head.lens[u.p] + x->head.lens[q];
    return select_bit(x, v.bit, end, v.bit - v.ones + u.i, true) - v.bit + 2 - u.i;
}

/* ---- the questions, of an index known to be whole */

bool plain_inner_needs(const plain_index *x, const plain_starts *s, uint16_t u, uint16_t v)
{
    if (x->tracks[u - 1] == x->tracks[v - 1])
        return v < u;
    return reaches(x, s, place_of(x, u), place_of(x, v));
}

/* low(u, p) < high(v, p) says that the unit at low(u, p) does not need v; v's own track and u's, where that costs no
 * select, are tried first */
bool plain_inner_is_step(const plain_index *x, const plain_starts *s, uint16_t u, uint16_t v)
{
    place a = place_of(x, u), b = place_of(x, v);
    if (!reaches(x, s, a, b))
        return false;
    if (b.i < x->head.lens[b.p] && reaches(x, s, a, (place){b.p, b.i + 1}))
        return false;
    if (a.i > 1 && reaches(x, s, (place){a.p, a.i - 1}, b))
        return false;
    for (unsigned p = 0; p < x->head.k; p++) {
        if (p == a.p || p == b.p)
            continue;
        unsigned i = low(x, s, a, p);
        if (i && reaches(x, s, (place){p, i}, b))
            return false;
    }
    return true;
}

static plain_answer counted(uint32_t count)
{
    return (plain_answer){FINE, count};
}

static bool fits(plain_room room, uint32_t count)
{
    return room.place <= room.len && count <= room.len - room.place;
}

static plain_answer no_room(uint32_t count)
{
    return (plain_answer){{10, count}, 0};
}

/* the first low(u, q) units of each track q: as many are left to write as the count says, so no entry past it is touched */
plain_answer plain_inner_needed(const plain_index *x, const plain_starts *s, uint16_t u, plain_room room)
{
    uint32_t left[MAX_TRACKS], count = 0, done = 0;
    place a = place_of(x, u);
    for (unsigned q = 0; q < x->head.k; q++)
        count += left[q] = low(x, s, a, q);
    if (!fits(room, count))
        return no_room(count);
    uint16_t *list = room.list + room.place;
    for (unsigned v = 1; done < count; v++) {
        uint32_t *here = &left[x->tracks[v - 1]];
        if (*here) {
            --*here;
            list[done++] = (uint16_t)v;
        }
    }
    return counted(count);
}

/* the units of each track q from high(u, q) on, written from the last down */
plain_answer plain_inner_needing(const plain_index *x, const plain_starts *s, uint16_t u, plain_room room)
{
    uint32_t left[MAX_TRACKS], count = 0;
    place a = place_of(x, u);
    for (unsigned q = 0; q < x->head.k; q++)
        count += left[q] = x->head.lens[q] + 1 - high(x, s, a, q);
    if (!fits(room, count))
        return no_room(count);
    uint16_t *list = room.list + room.place;
    uint32_t open = count;
    for (unsigned v = x->head.n; open > 0; v--) {
        uint32_t *here = &left[x->tracks[v - 1]];
        if (*here) {
            --*here;
            list[--open] = (uint16_t)v;
        }
    }
    return counted(count);
}

typedef struct {
    place at;
    uint16_t unit;
} candidate;

/* the units at the wanted positions, 0 for none, ascending; answers their count */
static unsigned collect(const plain_index *x, const uint16_t wanted[], candidate found[])
{
    uint32_t left[MAX_TRACKS], count = 0, done = 0;
    for (unsigned q = 0; q < x->head.k; q++) {
        left[q] = wanted[q];
        count += wanted[q] != 0;
    }
    for (unsigned v = 1; done < count; v++) {
        unsigned q = x->tracks[v - 1];
        if (--left[q] == 0)
            found[done++] = (candidate){{q, wanted[q]}, (uint16_t)v};
    }
    return done;
}

static plain_answer write_kept(const candidate kept[], unsigned count, plain_room room)
{
    if (!fits(room, count))
        return no_room(count);
    for (unsigned c = 0; c < count; c++)
        room.list[room.place + c] = kept[c].unit;
    return counted(count);
}

/* the unit at low(u, q) of each track q, where no other of them needs it; the nearest to u lies between most often */
plain_answer plain_inner_steps(const plain_index *x, const plain_starts *s, uint16_t u, plain_room room)
{
    uint16_t wanted[MAX_TRACKS];
    candidate found[MAX_TRACKS], kept[MAX_TRACKS];
    place a = place_of(x, u);
    for (unsigned q = 0; q < x->head.k; q++)
        wanted[q] = (uint16_t)low(x, s, a, q);
    unsigned count = collect(x, wanted, found), steps = 0;
    for (unsigned c = 0; c < count; c++) {
        unsigned w = count;
        while (w > 0 && (w - 1 == c || !reaches(x, s, found[w - 1].at, found[c].at)))
            w--;
        if (w == 0)
            kept[steps++] = found[c];
    }
    return write_kept(kept, steps, room);
}

/* the unit at high(u, q) of each track q, where it needs no other of them */
plain_answer plain_inner_steps_up(const plain_index *x, const plain_starts *s, uint16_t u, plain_room room)
{
    uint16_t wanted[MAX_TRACKS];
    candidate found[MAX_TRACKS], kept[MAX_TRACKS];
    place a = place_of(x, u);
    for (unsigned q = 0; q < x->head.k; q++) {
        unsigned i = high(x, s, a, q);
        wanted[q] = (uint16_t)(i <= x->head.lens[q] ? i : 0);
    }
    unsigned count = collect(x, wanted, found), steps = 0;
    for (unsigned c = 0; c < count; c++) {
        unsigned w = 0;
        while (w < count && (w == c || !reaches(x, s, found[c].at, found[w].at)))
            w++;
        if (w == count)
            kept[steps++] = found[c];
    }
    return write_kept(kept, steps, room);
}

/* ---- the stage */

/* the units in order of track and position, and each unit's position: both conversions, since a stage asks for many */
typedef struct {
    uint16_t unit[MAX_UNITS], position[MAX_UNITS];
} conversions;

static void convert(const plain_index *x, const plain_starts *s, conversions *c)
{
    uint32_t next[MAX_TRACKS];
    memcpy(next, s->before, sizeof next);
    for (unsigned v = 1; v <= x->head.n; v++) {
        unsigned q = x->tracks[v - 1];
        c->unit[next[q]++] = (uint16_t)v;
        c->position[v - 1] = (uint16_t)(next[q] - s->before[q]);
    }
}

static bool lies_between(const plain_index *x, const plain_starts *s, const uint16_t lows[], place v)
{
    for (unsigned p = 0; p < x->head.k; p++)
        if (lows[p] && p != v.p && reaches(x, s, (place){p, lows[p]}, v))
            return true;
    return false;
}

/* the highest-numbered direct step of u below it, or 0: the candidates from the nearest down */
static unsigned top_step(const plain_index *x, const plain_starts *s, const conversions *c, unsigned u)
{
    uint16_t lows[MAX_TRACKS], units[MAX_TRACKS];
    place a = {x->tracks[u - 1], c->position[u - 1]};
    for (unsigned q = 0; q < x->head.k; q++) {
        lows[q] = (uint16_t)low(x, s, a, q);
        units[q] = lows[q] ? c->unit[s->before[q] + lows[q] - 1] : 0;
    }
    for (unsigned below = u;;) {
        unsigned best = 0, track = 0;
        for (unsigned q = 0; q < x->head.k; q++)
            if (units[q] > best && units[q] < below) {
                best = units[q];
                track = q;
            }
        if (best == 0 || !lies_between(x, s, lows, (place){track, lows[track]}))
            return best;
        below = best;
    }
}

uint32_t plain_inner_stage(const plain_index *x, const plain_starts *s, uint16_t u)
{
    conversions c;
    uint32_t stage = 1;
    convert(x, s, &c);
    for (unsigned v = top_step(x, s, &c, u); v; v = top_step(x, s, &c, v))
        stage++;
    return stage;
}

/* ---- the questions, of any index: refusal 9, then 8, then what the inner form says */

static plain_refusal admit(const plain_index *x, plain_starts *s, unsigned u, unsigned v)
{
    if (!plain_judge(x, s))
        return NOT_WHOLE;
    if (u < 1 || u > x->head.n)
        return (plain_refusal){8, 1};
    return v < 1 || v > x->head.n ? (plain_refusal){8, 2} : FINE;
}

plain_answer plain_needs(const plain_index *x, uint16_t u, uint16_t v)
{
    plain_starts s;
    plain_refusal r = admit(x, &s, u, v);
    return r.number ? (plain_answer){r, 0} : counted(plain_inner_needs(x, &s, u, v));
}

plain_answer plain_is_step(const plain_index *x, uint16_t u, uint16_t v)
{
    plain_starts s;
    plain_refusal r = admit(x, &s, u, v);
    return r.number ? (plain_answer){r, 0} : counted(plain_inner_is_step(x, &s, u, v));
}

plain_answer plain_needed(const plain_index *x, uint16_t u, plain_room room)
{
    plain_starts s;
    plain_refusal r = admit(x, &s, u, 1);
    return r.number ? (plain_answer){r, 0} : plain_inner_needed(x, &s, u, room);
}

plain_answer plain_needing(const plain_index *x, uint16_t u, plain_room room)
{
    plain_starts s;
    plain_refusal r = admit(x, &s, u, 1);
    return r.number ? (plain_answer){r, 0} : plain_inner_needing(x, &s, u, room);
}

plain_answer plain_steps(const plain_index *x, uint16_t u, plain_room room)
{
    plain_starts s;
    plain_refusal r = admit(x, &s, u, 1);
    return r.number ? (plain_answer){r, 0} : plain_inner_steps(x, &s, u, room);
}

plain_answer plain_steps_up(const plain_index *x, uint16_t u, plain_room room)
{
    plain_starts s;
    plain_refusal r = admit(x, &s, u, 1);
    return r.number ? (plain_answer){r, 0} : plain_inner_steps_up(x, &s, u, room);
}

plain_answer plain_stage(const plain_index *x, uint16_t u)
{
    plain_starts s;
    plain_refusal r = admit(x, &s, u, 1);
    return r.number ? (plain_answer){r, 0} : counted(plain_inner_stage(x, &s, u));
}

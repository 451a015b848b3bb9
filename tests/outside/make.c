/* Random courses of many shapes, and ways to break a listing: see make.h. */
#include "make.h"

#include <string.h>

struct listing listing_of(const struct course *c)
{
    return (struct listing){(uint16_t)c->n, (uint16_t)c->k, c->tracks, c->tracks_len, c->needs, c->needs_len};
}

/* ---- a sound course, unit by unit */

struct plan {
    unsigned n, most_tracks;
    unsigned least_listed, most_listed; /* needs that a unit lists */
    unsigned reach;                     /* how far below it looks for them */
    unsigned new_track;                 /* percent: a unit starts a track though it could go on with one */
    bool all_paths;                     /* every path is listed as a need as well */
};

/* what is known while a course grows */
static bool listed[UNITS + 1];               /* by the unit at hand */
static bool leads_to[UNITS + 1][UNITS + 1];  /* by paths */
static unsigned last_of[TRACKS];             /* unit of each track */

static void list_need(unsigned u, unsigned v)
{
    listed[v] = true;
    leads_to[u][v] = true;
    for (unsigned w = 1; w < v; w++)
        leads_to[u][w] |= leads_to[v][w];
}

/* leaves room for one more need of this unit and of each above it */
static void list_some(struct dice *d, const struct plan *p, const struct course *c, unsigned u)
{
    unsigned reach = u - 1 < p->reach ? u - 1 : p->reach;
    size_t wanted = between(d, p->least_listed, p->most_listed), room = NEEDS - c->needs_len / 2 - (c->n - u + 1);
    memset(listed, 0, sizeof listed);
    memset(leads_to[u], 0, sizeof leads_to[u]);
    for (size_t i = 0; i < wanted && i < room && reach > 0; i++)
        list_need(u, u - 1 - (unsigned)below(d, reach));
}

/* the track that u goes on with, or a new one; where neither is to be had, a listed need makes one fit */
static unsigned choose_track(struct dice *d, const struct plan *p, struct course *c, unsigned u)
{
    unsigned fits[TRACKS], count = 0;
    for (unsigned q = 0; q < c->k; q++)
        if (leads_to[u][last_of[q]])
            fits[count++] = q;
    bool room = c->k < p->most_tracks;
    if (count > 0 && !(room && chance(d, p->new_track)))
        return fits[below(d, count)];
    if (room)
        return c->k++;
    unsigned q = (unsigned)below(d, c->k);
    list_need(u, last_of[q]);
    return q;
}

static void rename_tracks(struct dice *d, struct course *c)
{
    unsigned name[TRACKS] = {0};
    for (unsigned q = 0; q < c->k; q++) {
        size_t other = below(d, q + 1);
        name[q] = name[other];
        name[other] = q;
    }
    for (unsigned u = 1; u <= c->n; u++)
        c->tracks[u - 1] = (uint16_t)name[c->tracks[u - 1]];
}

static void grow(struct dice *d, const struct plan *p, struct course *c)
{
    c->n = p->n;
    c->k = 0;
    c->tracks_len = c->n;
    c->needs_len = 0;
    for (unsigned u = 1; u <= c->n; u++) {
        list_some(d, p, c, u);
        unsigned q = choose_track(d, p, c, u);
        c->tracks[u - 1] = (uint16_t)q;
        last_of[q] = u;
        for (unsigned v = 1; v < u; v++)
            if (p->all_paths ? leads_to[u][v] : listed[v]) {
                c->needs[c->needs_len++] = (uint16_t)u;
                c->needs[c->needs_len++] = (uint16_t)v;
            }
    }
    rename_tracks(d, c);
}

static unsigned least(unsigned a, unsigned b)
{
    return a < b ? a : b;
}

static struct plan plan_of(struct dice *d, enum shape shape, unsigned most_units)
{
    unsigned n = chance(d, 30) ? most_units : (unsigned)between(d, 1, most_units), few = (unsigned)between(d, 1, 9);
    unsigned some = chance(d, 30) ? TRACKS : (unsigned)between(d, 1, TRACKS);
    /* no course of up to 128 units has more than 8,192 pairs */
    unsigned small = least(n, 128), tiny = least(n, TRACKS);
    switch (shape) {
    case SINGLE: return (struct plan){1, some, 0, 0, 1, 0, false};
    case CHAIN: return (struct plan){n, 1, 0, few / 2, n, 0, false};
    case APART: return (struct plan){tiny, TRACKS, 0, few, n, 100, false};
    case WIDE: return (struct plan){n, some, 0, 1, n, 30, false};
    case NEAR: return (struct plan){n, some, 1, few, 2 * few, 20, false};
    case DENSE: return (struct plan){small, some, small / 2, 2 * small, small, 60, false};
    case REDUNDANT: return (struct plan){small, few, 0, few, small, 10, true};
    case LADDER: return (struct plan){n, some, 1, 1, 1, 50, false};
    default: return (struct plan){n, some, 0, (unsigned)below(d, 14), (unsigned)between(d, 1, n), (unsigned)below(d, 101), false};
    }
}

void make_course(struct dice *d, enum shape shape, unsigned most_units, struct course *c)
{
    struct plan p = plan_of(d, shape, most_units);
    grow(d, &p, c);
}

/* ---- what breaks it */

static void drop_pair(struct course *c, size_t pair)
{
    c->needs_len -= 2;
    memmove(c->needs + 2 * pair, c->needs + 2 * pair + 2, (c->needs_len - 2 * pair) * sizeof *c->needs);
}

static void insert_pair(struct course *c, size_t pair, unsigned u, unsigned v)
{
    memmove(c->needs + 2 * pair + 2, c->needs + 2 * pair, (c->needs_len - 2 * pair) * sizeof *c->needs);
    c->needs[2 * pair] = (uint16_t)u;
    c->needs[2 * pair + 1] = (uint16_t)v;
    c->needs_len += 2;
}

void make_unsound(struct dice *d, struct course *c)
{
    for (size_t i = between(d, 1, 3); i > 0; i--) {
        size_t pairs = c->needs_len / 2, a = below(d, c->n), b = below(d, c->n);
        if (chance(d, 50) && pairs > 0)
            drop_pair(c, below(d, pairs));
        else {
            uint16_t track = c->tracks[a];
            c->tracks[a] = c->tracks[b];
            c->tracks[b] = track;
        }
    }
}

/* a number at or past some edge */
static unsigned edge(struct dice *d, unsigned limit)
{
    unsigned edges[] = {0, 1, limit - 1, limit, limit + 1, 2 * limit, 32768, 65535};
    return edges[below(d, sizeof edges / sizeof *edges)] & 65535;
}

static void break_counts(struct dice *d, struct course *c)
{
    switch (below(d, 7)) {
    case 0: c->n = edge(d, UNITS); break;
    case 1: c->n++; break;
    case 2: c->k = edge(d, TRACKS); break;
    case 3: c->k += chance(d, 50) ? 1 : 65535; break;
    case 4: c->tracks_len = below(d, c->tracks_len); break;
    case 5:
        if (c->tracks_len < ROOM_TRACKS)
            c->tracks[c->tracks_len++] = (uint16_t)below(d, c->k + 1u);
        break;
    default:
        if (c->needs_len < ROOM_NEEDS)
            c->needs[c->needs_len++] = (uint16_t)below(d, c->n + 1u);
    }
}

static void break_tracks(struct dice *d, struct course *c)
{
    if (c->tracks_len == 0)
        return;
    size_t u = below(d, c->tracks_len), other = below(d, c->tracks_len);
    if (chance(d, 50))
        c->tracks[u] = (uint16_t)edge(d, c->k);
    else
        for (size_t i = 0, from = c->tracks[u], to = c->tracks[other]; i < c->tracks_len; i++)
            if (c->tracks[i] == from)
                c->tracks[i] = (uint16_t)to;
}

static void break_pairs(struct dice *d, struct course *c)
{
    size_t pairs = c->needs_len / 2, i = below(d, pairs), j = below(d, pairs), last = c->needs_len - 2;
    if (pairs == 0 || pairs > NEEDS) {
        insert_pair(c, 0, edge(d, c->n), edge(d, c->n));
        return;
    }
    unsigned u = c->needs[2 * i], v = c->needs[2 * i + 1];
    switch (below(d, 6)) {
    case 0: c->needs[2 * i] = (uint16_t)edge(d, c->n); break;
    case 1: c->needs[2 * i + 1] = (uint16_t)edge(d, chance(d, 50) ? c->n : u); break;
    case 2: insert_pair(c, i, u, v); break;
    case 3: insert_pair(c, i, u, v + 1); break;
    case 4: insert_pair(c, j, u, v); break;
    default: /* the last pair, where a single pass might stop too early */
        c->needs[last] = (uint16_t)edge(d, c->n);
        break;
    }
}

void break_listing(struct dice *d, struct course *c)
{
    size_t way = below(d, 100);
    if (way < 20)
        break_counts(d, c);
    else if (way < 45)
        break_tracks(d, c);
    else if (c->needs_len < ROOM_NEEDS - 2)
        break_pairs(d, c);
}

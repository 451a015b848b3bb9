/* The library's calls held to the reference: see held.h. */
#include "held.h"

#include <string.h>

#include "lend.h"
#include "trial.h"

enum { LONG = 140000 }; /* entries of the longest list that is lent */

static struct area tracks, needs, words, directory, work, list;
static struct dice dice;
static struct reading reading;
static struct index asked;

void held_from(uint64_t seed)
{
    if (tracks.room == NULL) {
        tracks = area_of(LONG * sizeof(uint16_t));
        needs = area_of(LONG * sizeof(uint16_t));
        words = area_of(LONG * sizeof(uint64_t));
        directory = area_of(LONG * sizeof(uint16_t));
        work = area_of(LONG * sizeof(uint16_t));
        list = area_of(LONG * sizeof(uint16_t));
    }
    lendings_from(seed);
    dice = dice_of(~seed);
}

static void lend16(struct area *a, size_t entries, const uint16_t *from)
{
    lend(a, entries * sizeof(uint16_t), from, chance(&dice, 50));
}

static void hold_area(const char *call, const char *name, const struct area *a, size_t entry_bytes)
{
    if (!area_kept(a))
        wrong("%s: entry %ld of the %s (%zu entries) is not what it must be", call, first_changed(a, entry_bytes), name,
              a->length / entry_bytes);
}

static void hold_refusal(const char *call, ngolishepa_refusal is, ngolishepa_refusal must)
{
    if (is.number != must.number || is.place != must.place)
        wrong("%s: refusal %u at %u, must be %u at %u", call, is.number, is.place, must.number, must.place);
}

/* ---- a listing */

static void lend_listing(const struct listing *l)
{
    lend16(&tracks, l->tracks_len, l->tracks);
    lend16(&needs, l->needs_len, l->needs);
}

static void hold_lent_listing(const char *call)
{
    hold_area(call, "track list", &tracks, sizeof(uint16_t));
    hold_area(call, "need list", &needs, sizeof(uint16_t));
}

void hold_listing(const struct listing *l)
{
    lend_listing(l);
    ngolishepa_refusal is = ngolishepa_check_listing(l->n, l->k, lent(&tracks), l->tracks_len, lent(&needs), l->needs_len);
    hold_refusal("check_listing", is, reference_listing(l));
    hold_lent_listing("check_listing");
}

void hold_part(const uint16_t *need_list, size_t needs_len, uint16_t unit)
{
    lend16(&needs, needs_len, need_list);
    ngolishepa_part_answer is = ngolishepa_part(lent(&needs), needs_len, unit), must = reference_part(need_list, needs_len, unit);
    hold_refusal("part", is.refusal, must.refusal);
    if (is.count != must.count || is.start != must.start)
        wrong("part of unit %u: %zu entries from %zu, must be %zu from %zu", unit, is.count, is.start, must.count, must.start);
    hold_area("part", "need list", &needs, sizeof(uint16_t));
}

/* ---- the build */

static void hold_head(ngolishepa_head is, ngolishepa_head must)
{
    if (is.n != must.n || is.k != must.k)
        wrong("build: head of n %u, k %u, must be %u, %u", is.n, is.k, must.n, must.k);
    for (unsigned q = 0; q < TRACKS; q++)
        if (is.lens[q] != must.lens[q])
            wrong("build: length of track %u is %u, must be %u", q, is.lens[q], must.lens[q]);
}

static size_t least(size_t a, size_t b)
{
    return a < b ? a : b;
}

static void keep_index(struct store *s, ngolishepa_head head, const struct listing *l)
{
    s->head = head;
    s->tracks_len = l->tracks_len;
    s->words_len = least(words.length / sizeof(uint64_t), STORE);
    s->directory_len = least(directory.length / sizeof(uint16_t), STORE);
    memcpy(s->tracks, must_hold(&tracks), s->tracks_len * sizeof(uint16_t));
    memcpy(s->words, must_hold(&words), s->words_len * sizeof(uint64_t));
    memcpy(s->directory, must_hold(&directory), s->directory_len * sizeof(uint16_t));
}

ngolishepa_refusal hold_build(const struct listing *l, size_t words_len, size_t directory_len, size_t work_len, struct store *s, struct walk *w)
{
    lend_listing(l);
    lend(&words, words_len * sizeof(uint64_t), NULL, chance(&dice, 50));
    lend16(&directory, directory_len, NULL);
    lend16(&work, work_len, NULL);
    struct areas kept = {must_hold(&words), words_len, must_hold(&directory), directory_len, must_hold(&work), work_len};
    ngolishepa_built must = reference_build(l, &kept, w);
    ngolishepa_built is = ngolishepa_build(l->n, l->k, lent(&tracks), l->tracks_len, lent(&needs), l->needs_len, lent(&words), words_len,
                                           lent(&directory), directory_len, lent(&work), work_len);
    hold_refusal("build", is.refusal, must.refusal);
    hold_head(is.head, must.head);
    if (is.bits != must.bits)
        wrong("build: %u bits, must be %u", is.bits, must.bits);
    hold_lent_listing("build");
    hold_area("build", "words", &words, sizeof(uint64_t));
    hold_area("build", "directory", &directory, sizeof(uint16_t));
    hold_area("build", "work area", &work, sizeof(uint16_t));
    if (must.refusal.number == 0)
        keep_index(s, must.head, l);
    return must.refusal;
}

/* ---- any index */

static void hold_lent_index(const char *call)
{
    hold_area(call, "track list", &tracks, sizeof(uint16_t));
    hold_area(call, "words", &words, sizeof(uint64_t));
    hold_area(call, "directory", &directory, sizeof(uint16_t));
}

struct index index_of(const struct store *s)
{
    return (struct index){s->head, s->tracks, s->tracks_len, s->words, s->words_len, s->directory, s->directory_len};
}

const struct reading *hold_index(const struct index *x)
{
    lend16(&tracks, x->tracks_len, x->tracks);
    lend(&words, x->words_len * sizeof(uint64_t), x->words, chance(&dice, 50));
    lend16(&directory, x->directory_len, x->directory);
    asked = (struct index){x->head, lent(&tracks), x->tracks_len, lent(&words), x->words_len, lent(&directory), x->directory_len};
    reference_read(&asked, &reading);
    ngolishepa_refusal is = ngolishepa_check_index(asked.head, asked.tracks, asked.tracks_len, asked.words, asked.words_len,
                                                   asked.directory, asked.directory_len);
    hold_refusal("check_index", is, (ngolishepa_refusal){reading.fault == 0 ? 0 : 9, 0});
    hold_lent_index("check_index");
    return &reading;
}

/* ---- questions */

#define INDEX asked.head, asked.tracks, asked.tracks_len, asked.words, asked.words_len, asked.directory, asked.directory_len

static struct answer of_pair(ngolishepa_pair_answer a)
{
    unsigned char yes;
    memcpy(&yes, &a.yes, 1); /* as it was answered, even where it is neither true nor false */
    return (struct answer){a.refusal, yes};
}

static struct answer of_number(ngolishepa_number_answer a)
{
    return (struct answer){a.refusal, a.number};
}

static struct answer library_answer(const struct question *q)
{
    uint16_t *to = lent(&list);
    switch (q->kind) {
    case 10: return of_pair(ngolishepa_needs(INDEX, q->u, q->second));
    case 11: return of_pair(ngolishepa_is_step(INDEX, q->u, q->second));
    case 12: return of_number(ngolishepa_needed(INDEX, q->u, to, q->list_len, q->place));
    case 13: return of_number(ngolishepa_needing(INDEX, q->u, to, q->list_len, q->place));
    case 14: return of_number(ngolishepa_steps(INDEX, q->u, to, q->list_len, q->place));
    case 15: return of_number(ngolishepa_steps_up(INDEX, q->u, to, q->list_len, q->place));
    case 16: return of_number(ngolishepa_stage(INDEX, q->u));
    case 17: return of_number(ngolishepa_unit_low(INDEX, q->u, q->second));
    default: return of_number(ngolishepa_unit_high(INDEX, q->u, q->second));
    }
}

static struct answer hold_answer(const struct question *q)
{
    lend16(&list, q->list_len, NULL);
    struct answer must = reference_answer(&reading, q, must_hold(&list)), is = library_answer(q);
    if (is.refusal.number != must.refusal.number || is.refusal.place != must.refusal.place || is.number != must.number)
        wrong("kind %u of %u, %u, list of %zu from %zu: refusal %u at %u, answer %u, must be refusal %u at %u, answer %u (index: fault %u)",
              q->kind, q->u, q->second, q->list_len, q->place, is.refusal.number, is.refusal.place, is.number, must.refusal.number,
              must.refusal.place, must.number, reading.fault);
    hold_area("question", "list", &list, sizeof(uint16_t));
    hold_lent_index("question");
    return must;
}

struct answer hold_question(unsigned kind, uint16_t u, uint16_t second)
{
    struct question q = {kind, u, second, 0, 0};
    return hold_answer(&q);
}

struct answer hold_list(unsigned kind, uint16_t u, size_t list_len, size_t place)
{
    struct question q = {kind, u, 0, list_len, place};
    return hold_answer(&q);
}

void hold_lists(unsigned kind, uint16_t u)
{
    uint16_t units[UNITS];
    size_t count = 0, place = below(&dice, 9);
    if (reading.fault == 0 && u >= 1 && u <= reading.n)
        count = reference_list(&reading, kind, u, units);
    hold_list(kind, u, count, 0);
    hold_list(kind, u, place + count, place);
    hold_list(kind, u, place + count + 1 + below(&dice, 9), place);
    if (count > 0)
        hold_list(kind, u, place + count - 1, place);
    hold_list(kind, u, place, place);
    hold_list(kind, u, place, place + 1);
    hold_list(kind, u, place, SIZE_MAX - below(&dice, UNITS));
}

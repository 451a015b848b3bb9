/* Indexes that no build made: built ones and random whole ones, altered in up to three ways, judged and asked, against the two formulas. */
#include <string.h>

#include "held.h"
#include "make.h"

enum { SMALL = 45000, MIDDLE = 6000, LARGE = 1500 }; /* cases */

static struct course course;
static struct walk walk;
static struct store store;
static struct dice dice;
static unsigned long met[8], altered_whole;

/* ---- indexes to alter */

static void set_bit(size_t x, bool one)
{
    uint64_t mask = (uint64_t)1 << x % 64;
    store.words[x / 64] = one ? store.words[x / 64] | mask : store.words[x / 64] & ~mask;
}

static size_t words_of_head(void)
{
    size_t w = store.head.k == 0 ? 0 : reference_words(store.head.n, store.head.k);
    return w < STORE ? w : STORE;
}

/* the directory made true for the words as they are */
static void correct_directory(void)
{
    unsigned ones = 0;
    for (size_t j = 0; j < words_of_head(); j++) {
        store.directory[j] = (uint16_t)ones;
        for (size_t x = 64 * j; x < 64 * (j + 1); x++)
            ones += reference_bit(store.words, x);
    }
}

/* vector p,q with its ones anywhere */
static void shuffle_vector(unsigned p, unsigned q)
{
    size_t start = reference_start(&store.head, p, q), length = (size_t)store.head.lens[p] + store.head.lens[q];
    for (size_t i = 0; i < length; i++) {
        size_t j = below(&dice, i + 1);
        bool one = i < store.head.lens[p], other = reference_bit(store.words, start + j);
        set_bit(start + i, j == i ? one : other);
        if (j != i)
            set_bit(start + j, one);
    }
}

/* any whole index: random tracks, and every vector at random; now and then whole but for a track without a unit */
static void random_whole(unsigned most_units)
{
    memset(&store, 0, sizeof store);
    unsigned n = (unsigned)between(&dice, 1, most_units), k = (unsigned)between(&dice, 1, n < TRACKS ? n : TRACKS);
    unsigned without = k > 1 && chance(&dice, 10) ? (unsigned)below(&dice, k) : k;
    store.head.n = (uint16_t)n;
    store.head.k = (uint16_t)k;
    for (unsigned u = 1; u <= n; u++) {
        unsigned q = u <= k ? u - 1 : (unsigned)below(&dice, k);
        q = q == without ? (q + 1) % k : q;
        size_t other = below(&dice, u);
        store.tracks[u - 1] = store.tracks[other];
        store.tracks[other] = (uint16_t)q;
        store.head.lens[q]++;
    }
    store.tracks_len = n;
    store.words_len = store.directory_len = reference_words(n, k);
    for (unsigned p = 0; p < k; p++)
        for (unsigned q = 0; q < k; q++)
            if (p != q)
                shuffle_vector(p, q);
    correct_directory();
}

static bool built(enum shape shape, unsigned most_units)
{
    make_course(&dice, shape, most_units, &course);
    struct listing l = listing_of(&course);
    size_t w = reference_words(l.n, l.k);
    return hold_build(&l, w + below(&dice, 3), w + below(&dice, 3), (size_t)l.n * l.k, &store, &walk).number == 0;
}

/* ---- alterations that may keep it whole */

static bool two_tracks(unsigned *p, unsigned *q)
{
    unsigned k = store.head.k;
    if (k < 2 || k > TRACKS)
        return false;
    *p = (unsigned)below(&dice, k);
    *q = (*p + (unsigned)between(&dice, 1, k - 1)) % k;
    return true;
}

static void shuffle_some_vector(void)
{
    unsigned p, q;
    struct index x = index_of(&store);
    if (!two_tracks(&p, &q) || reference_fault(&x) != 0)
        return;
    shuffle_vector(p, q);
    correct_directory();
}

/* two neighbouring bits exchanged: within a vector, or across its edge */
static void exchange_bits(void)
{
    size_t bits = 64 * words_of_head();
    if (bits < 2)
        return;
    size_t x = below(&dice, bits - 1);
    bool first = reference_bit(store.words, x);
    set_bit(x, reference_bit(store.words, x + 1));
    set_bit(x + 1, first);
    if (chance(&dice, 70))
        correct_directory();
}

static void exchange_tracks_of_units(void)
{
    if (store.tracks_len < 2)
        return;
    size_t a = below(&dice, store.tracks_len), b = below(&dice, store.tracks_len);
    uint16_t track = store.tracks[a];
    store.tracks[a] = store.tracks[b];
    store.tracks[b] = track;
}

static void exchange_words(void)
{
    size_t w = words_of_head();
    if (w < 2)
        return;
    size_t a = below(&dice, w), b = below(&dice, w);
    uint64_t word = store.words[a];
    store.words[a] = store.words[b];
    store.words[b] = word;
    correct_directory();
}

/* what stands past the W entries is looked at by nobody */
static void lengthen_areas(void)
{
    for (size_t more = between(&dice, 1, 3); more > 0; more--) {
        if (store.words_len < STORE)
            store.words[store.words_len++] = throw64(&dice);
        if (store.directory_len < STORE)
            store.directory[store.directory_len++] = (uint16_t)throw64(&dice);
    }
}

/* ---- alterations that break it, most of the time */

static void flip_bit(void)
{
    size_t bits = 64 * words_of_head();
    if (bits == 0)
        return;
    size_t x = below(&dice, bits);
    set_bit(x, !reference_bit(store.words, x));
    if (chance(&dice, 60))
        correct_directory();
}

/* a one moved from a vector to another: the count over all of them stays */
static void move_one_to_other_vector(void)
{
    size_t bits = 64 * words_of_head(), one = below(&dice, bits), zero = below(&dice, bits);
    if (bits == 0 || !reference_bit(store.words, one) || reference_bit(store.words, zero))
        return;
    set_bit(one, false);
    set_bit(zero, true);
    correct_directory();
}

static void set_spare_bit(void)
{
    size_t used = 2 * (size_t)store.head.n * (store.head.k - 1u), all = 64 * words_of_head();
    if (used >= all)
        return;
    set_bit(chance(&dice, 30) ? used : chance(&dice, 30) ? all - 1 : between(&dice, used, all - 1), true);
    correct_directory();
}

static void change_directory(void)
{
    size_t w = words_of_head(), j = chance(&dice, 30) ? w - 1 : below(&dice, w);
    if (w == 0)
        return;
    store.directory[j] += (uint16_t)(chance(&dice, 60) ? (chance(&dice, 50) ? 1 : 65535) : below(&dice, 65536));
}

static void change_lengths(void)
{
    unsigned p, q = (unsigned)below(&dice, TRACKS);
    if (chance(&dice, 50) && two_tracks(&p, &q)) { /* their sum stays */
        store.head.lens[p]--;
        store.head.lens[q]++;
    } else if (chance(&dice, 30))
        store.head.lens[q] = (uint16_t)throw64(&dice);
    else
        store.head.lens[q] += chance(&dice, 50) ? 1 : 65535;
}

static void change_counts(void)
{
    static const uint16_t edges[] = {0, 1, 31, 32, 33, 1023, 1024, 1025, 32767, 32768, 65535};
    uint16_t *field = chance(&dice, 50) ? &store.head.n : &store.head.k;
    *field = (uint16_t)(chance(&dice, 50) ? edges[below(&dice, 11)] : *field + (chance(&dice, 50) ? 1 : 65535));
}

/* a unit in another track, with true lengths half of the time */
static void change_track(void)
{
    if (store.tracks_len == 0)
        return;
    uint16_t *track = &store.tracks[below(&dice, store.tracks_len)], before = *track;
    *track = (uint16_t)(chance(&dice, 70) ? below(&dice, store.head.k + 1u) : throw64(&dice));
    if (chance(&dice, 50) && before < TRACKS && *track < TRACKS) {
        store.head.lens[before]--;
        store.head.lens[*track]++;
    }
}

static void shorten_an_area(void)
{
    size_t w = words_of_head();
    switch (below(&dice, 3)) {
    case 0: store.words_len = w > 0 && chance(&dice, 70) ? w - 1 : below(&dice, w + 1); break;
    case 1: store.directory_len = w > 0 && chance(&dice, 70) ? w - 1 : below(&dice, w + 1); break;
    default:
        if (store.tracks_len > 0 && chance(&dice, 50))
            store.tracks_len--;
        else if (store.tracks_len < STORE)
            store.tracks[store.tracks_len++] = (uint16_t)below(&dice, store.head.k + 1u);
    }
}

static void alter(void)
{
    static void (*const ways[])(void) = {
        shuffle_some_vector, exchange_bits, exchange_tracks_of_units, exchange_words, lengthen_areas, flip_bit, move_one_to_other_vector,
        set_spare_bit, change_directory, change_lengths, change_counts, change_track, shorten_an_area,
    };
    ways[below(&dice, sizeof ways / sizeof *ways)]();
}

/* ---- the questions */

static void ask(uint16_t u, uint16_t v, uint16_t q)
{
    hold_question(10, u, v);
    hold_question(11, u, v);
    hold_question(16, u, 0);
    hold_question(17, u, q);
    hold_question(18, u, q);
}

static void ask_everything(unsigned n, unsigned k)
{
    for (unsigned u = 0; u <= n + 1; u++) {
        for (unsigned v = 0; v <= n + 1; v++)
            ask((uint16_t)u, (uint16_t)v, (uint16_t)((u + v) % (k + 1)));
        for (unsigned q = 0; q <= k; q++) {
            hold_question(17, (uint16_t)u, (uint16_t)q);
            hold_question(18, (uint16_t)u, (uint16_t)q);
        }
        for (unsigned kind = 12; kind <= 15; kind++)
            hold_lists(kind, (uint16_t)u);
    }
}

static void ask_samples(unsigned n, unsigned k, unsigned rounds)
{
    for (unsigned i = 0; i < rounds; i++) {
        uint16_t u = (uint16_t)(chance(&dice, 5) ? throw64(&dice) : below(&dice, n + 2u)), v = (uint16_t)below(&dice, n + 2u);
        ask(u, v, (uint16_t)below(&dice, k + 1u));
        hold_lists(12 + (unsigned)below(&dice, 4), u);
    }
}

static void one(uint64_t seed)
{
    bool large = seed > SMALL + MIDDLE, middle = seed > SMALL;
    unsigned most_units = large ? UNITS : middle ? 150 : 10;
    dice = dice_of(seed);
    held_from(seed);
    if (chance(&dice, 40) || !built((enum shape)(seed % SHAPES), most_units))
        random_whole(most_units);
    size_t ways = below(&dice, 4);
    for (size_t i = 0; i < ways; i++)
        alter();
    struct index x = index_of(&store);
    const struct reading *r = hold_index(&x);
    met[r->fault]++;
    altered_whole += r->fault == 0 && ways > 0;
    if (r->fault == 0 && !middle)
        ask_everything(r->n, r->k);
    else
        ask_samples(r->n, r->k, r->fault == 0 ? 20 : 4);
}

int main(int argc, char **argv)
{
    static const char *const faults[] = {"whole indexes",      "n or k out of range", "bad track lists",  "bad lengths",
                                         "short areas",        "spare bits",          "bad directories",  "bad vectors"};
    trials(argc, argv, "altered", SMALL + MIDDLE + LARGE, one);
    for (unsigned fault = 0; fault < 8; fault++)
        must_have_met(faults[fault], met[fault], 500);
    must_have_met("whole indexes that were altered", altered_whole, 5000);
    return trials_end();
}

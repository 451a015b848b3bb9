/* The edges that document 01 names, each with its outcome as it is written there: P1 to P12, every limit and one past it, areas and lists that
 * end exactly and one entry short, the order of the refusals. A case's seed is its number in the table at the end. */
#include <string.h>

#include "held.h"
#include "make.h"

static struct walk walk;
static struct store store;

/* ---- saying what must be */

static void must(bool holds, const char *what)
{
    if (!holds)
        wrong("%s", what);
}

static void must_refuse(ngolishepa_refusal is, unsigned number, unsigned place, const char *what)
{
    if (is.number != number || is.place != place)
        wrong("%s: refusal %u at %u, 01 says %u at %u", what, is.number, is.place, number, place);
}

static void must_answer(struct answer is, unsigned number, const char *what)
{
    must_refuse(is.refusal, 0, 0, what);
    if (is.number != number)
        wrong("%s: %u, 01 says %u", what, is.number, number);
}

/* a build with areas exactly long enough, and the listing's check */
static ngolishepa_refusal build(const struct listing *l)
{
    size_t w = l->k > 0 ? reference_words(l->n, l->k) : 0, rows = (size_t)l->n * l->k;
    hold_listing(l);
    return hold_build(l, w < 2000 ? w : 2000, w < 2000 ? w : 2000, rows < 70000 ? rows : 70000, &store, &walk);
}

static const struct reading *judge(void)
{
    struct index x = index_of(&store);
    return hold_index(&x);
}

/* ---- the six units on the bench */

static const uint16_t six_tracks[] = {0, 0, 1, 0, 1, 0};
static const uint16_t six_needs[] = {2, 1, 3, 1, 4, 2, 5, 2, 5, 3, 6, 1, 6, 3, 6, 4};
static const struct listing six = {6, 2, six_tracks, 6, six_needs, 16};

static const struct reading *build_six(void)
{
    must_refuse(build(&six), 0, 0, "the six units");
    return judge();
}

static bool bits_are(size_t start, const char *bits)
{
    for (size_t i = 0; bits[i] != 0; i++)
        if (reference_bit(store.words, start + i) != (bits[i] == '1'))
            return false;
    return true;
}

static void the_six_index(void)
{
    const struct reading *r = build_six();
    must(bits_are(reference_start(&store.head, 0, 1), "111010"), "P1: vector 0,1 is 111010");
    must(bits_are(reference_start(&store.head, 1, 0), "010100"), "P2: vector 1,0 is 010100");
    must(store.words[0] == 663 && store.directory[0] == 0, "P3: the one word is 663");
    must(__builtin_popcountll(store.words[0]) == 6, "P3: with six ones");
    must(r->high[3][0] == 4, "P8: high(3, 0) is 4");
    must(r->high[2][1] == 2, "P9: high(2, 1) is 2");
    must(r->low[4][1] == 0, "P10: low(4, 1) is 0");
}

static void the_six_questions(void)
{
    uint16_t units[6];
    const struct reading *r = build_six();
    must_answer(hold_question(10, 6, 1), 1, "P4: 6 needs 1");
    must_answer(hold_question(11, 6, 1), 0, "P5: direct step (6, 1)");
    must_answer(hold_question(11, 5, 2), 1, "P6: direct step (5, 2)");
    must_answer(hold_question(10, 2, 2), 0, "P7: 2 needs 2");
    must_answer(hold_question(18, 3, 0), 6, "P8: the unit at high(3, 0)");
    must_answer(hold_question(18, 2, 1), 5, "P9: the unit at high(2, 1)");
    must_answer(hold_question(17, 4, 1), 0, "P10: no unit at low(4, 1)");
    must_answer(hold_list(15, 1, 2, 0), 2, "P11: direct steps up from 1");
    must(reference_list(r, 15, 1, units) == 2 && units[0] == 2 && units[1] == 3, "P11: 2, 3");
    must_answer(hold_question(16, 6, 0), 4, "stage of 6: over 4, 2 and 1");
    must_answer(hold_question(11, 4, 2), 1, "the last but one of a track is a direct step");
    must_answer(hold_question(11, 6, 4), 1, "a missing high is the length plus 1");
}

/* unit 1 alone */
static void the_single_unit(void)
{
    static const uint16_t track[] = {0};
    struct listing l = {1, 1, track, 1, track, 0};
    must_refuse(build(&l), 0, 0, "P12: n = 1, k = 1, no needs");
    must(store.words_len == 0 && store.directory_len == 0 && store.head.lens[0] == 1, "P12: 0 bits");
    judge();
    must_answer(hold_question(10, 1, 1), 0, "1 needs 1");
    must_answer(hold_question(16, 1, 0), 1, "stage of 1");
    must_answer(hold_list(12, 1, 0, 0), 0, "what 1 needs");
    must_answer(hold_question(17, 1, 0), 0, "low of 1 in its own track");
    must_answer(hold_question(18, 1, 0), 0, "high of 1 in its own track");
}

/* ---- unsound tracks */

static void an_unsound_track(void)
{
    static const uint16_t tracks[] = {0, 0, 1}, needs[] = {3, 1};
    static const uint16_t lows[] = {0, 0, 0, 0, 1, 0};
    uint64_t words[1] = {77};
    uint16_t directory[1] = {88}, work[7] = {9, 9, 9, 9, 9, 9, 9};
    struct listing l = {3, 2, tracks, 3, needs, 2};
    must_refuse(build(&l), 7, 2, "tracks {1,2},{3} with only need (3,1)");
    ngolishepa_built b = ngolishepa_build(3, 2, tracks, 3, needs, 2, words, 1, directory, 1, work, 7);
    must(b.refusal.number == 7 && b.refusal.place == 2, "refusal 7 at 2");
    must(memcmp(work, lows, sizeof lows) == 0 && work[6] == 9, "refusal 7 writes the lows");
    must(words[0] == 77 && directory[0] == 88, "refusal 7 writes no index area");
}

/* a path between neighbours of a track is enough; and no row is left out after refusal 7 */
static void soundness_by_paths(void)
{
    static const uint16_t tracks[] = {0, 1, 0, 1}, over[] = {2, 1, 3, 2, 4, 3}, apart[] = {2, 1, 4, 2, 4, 3};
    struct listing l = {4, 2, tracks, 4, over, 6};
    must_refuse(build(&l), 0, 0, "neighbours of a track without a listed need");
    l.needs = apart;
    must_refuse(build(&l), 7, 3, "3 does not need 1");
    must(walk.low[4][0] == 2 && walk.low[4][1] == 1, "rows past the fault are written");
}

/* ---- limits of the table */

static struct course course;

/* n units in k tracks in turn, each needing the one before it in its track, and then as many pairs as wanted */
static struct listing turns(unsigned n, unsigned k, size_t pairs)
{
    size_t spare = pairs - (n - (n < k ? n : k));
    course.n = n;
    course.k = k;
    course.tracks_len = n;
    course.needs_len = 0;
    for (unsigned u = 1; u <= n; u++) {
        course.tracks[u - 1] = (uint16_t)((u - 1) % k);
        for (unsigned v = 1; v < u; v++) {
            if (u - v != k && spare == 0)
                continue;
            spare -= u - v != k;
            course.needs[course.needs_len++] = (uint16_t)u;
            course.needs[course.needs_len++] = (uint16_t)v;
        }
    }
    return listing_of(&course);
}

static void most_needs(void)
{
    struct listing l = turns(1024, 32, 8192);
    must(l.needs_len == 16384, "8,192 needs");
    must_refuse(build(&l), 0, 0, "8,192 needs");
    must(reference_words(1024, 32) == NGOLISHEPA_MAX_WORDS && 1024 * 32 == NGOLISHEPA_MAX_WORK, "the header's room");
    judge();
    must_answer(hold_question(10, 1024, 992), 1, "1,024 needs 992");
    must_answer(hold_question(16, 1024, 0), hold_question(16, 992, 0).number + 1, "1,024 stands a stage above 992");
    for (unsigned kind = 12; kind <= 15; kind++)
        hold_lists(kind, 1024);
    hold_part(l.needs, l.needs_len, 1024);
}

static void one_need_too_many(void)
{
    struct listing l = turns(1024, 32, 8193);
    must(l.needs_len == 16386, "8,193 needs");
    must_refuse(build(&l), 1, 0, "8,193 needs");
    hold_part(l.needs, l.needs_len, 1024);
    must_refuse(reference_part(l.needs, l.needs_len, 1024).refusal, 1, 0, "the part of 8,193 needs");
    must_refuse(reference_part(l.needs, l.needs_len, 1025).refusal, 8, 1, "8 goes before 1");
    l = turns(129, 1, 8192);
    must_refuse(build(&l), 0, 0, "8,192 needs of 129 units");
    l = turns(129, 1, 8193);
    must_refuse(build(&l), 1, 0, "8,193 needs of 129 units");
}

static void tracks_at_the_limit(void)
{
    struct listing l = turns(40, 32, 20);
    must_refuse(build(&l), 0, 0, "k = 32");
    judge();
    must_answer(hold_question(17, 33, 0), 1, "low in the own track");
    must_answer(hold_question(18, 8, 31), 0, "no high");
    must_refuse(hold_question(17, 33, 32).refusal, 8, 2, "track 32 of 32");
    l = turns(40, 33, 20);
    must_refuse(build(&l), 1, 0, "k = 33");
    l.k = 0;
    must_refuse(build(&l), 1, 0, "k = 0");
    l.k = 65535;
    must_refuse(build(&l), 1, 0, "k = 65,535");
    l = turns(32, 32, 0);
    must_refuse(build(&l), 0, 0, "k = n = 32");
    must(store.words_len == 31, "1,984 bits are 31 words");
}

static void units_at_the_limit(void)
{
    struct listing l = turns(1024, 1, 1023);
    must_refuse(build(&l), 0, 0, "n = 1,024");
    judge();
    must_answer(hold_question(16, 1024, 0), 1024, "a chain's last stage");
    must_answer(hold_question(17, 1024, 0), 1023, "the last but one of 1,024");
    must_answer(hold_question(18, 1023, 0), 1024, "the last of 1,024");
    must_answer(hold_question(18, 1024, 0), 0, "nothing above the last");
    must_answer(hold_list(12, 1024, 1023, 0), 1023, "all below");
    must_answer(hold_list(13, 1, 1024, 1), 1023, "all above");
    must_refuse(hold_question(16, 1025, 0).refusal, 8, 1, "unit 1,025 of 1,024");
    l = turns(1025, 1, 1024);
    must_refuse(build(&l), 1, 0, "n = 1,025");
    l.n = 0;
    l.tracks_len = 0;
    must_refuse(build(&l), 1, 0, "n = 0");
    l.n = 65535;
    must_refuse(build(&l), 1, 0, "n = 65,535");
}

/* ---- areas */

static void hold_areas(unsigned n, unsigned k)
{
    struct listing l = turns(n, k, n - k);
    size_t w = reference_words(n, k), rows = (size_t)n * k;
    must_refuse(hold_build(&l, w, w, rows, &store, &walk), 0, 0, "areas exactly long enough");
    judge();
    must_refuse(hold_build(&l, w + 3, w + 5, rows + 7, &store, &walk), 0, 0, "areas longer than needed");
    judge();
    must_refuse(hold_build(&l, w, w, rows - 1, &store, &walk), 6, 0, "a work area one entry short");
    if (w > 0) {
        must_refuse(hold_build(&l, w - 1, w, rows, &store, &walk), 6, 0, "words one entry short");
        must_refuse(hold_build(&l, w, w - 1, rows, &store, &walk), 6, 0, "a directory one entry short");
        must_refuse(hold_build(&l, 0, 0, 0, &store, &walk), 6, 0, "no areas");
    }
}

static void areas_end_exactly(void)
{
    hold_areas(1, 1);
    hold_areas(7, 1);
    hold_areas(6, 2);
    hold_areas(31, 2);
    hold_areas(32, 2); /* 64 bits */
    hold_areas(33, 2);
    hold_areas(32, 3); /* 128 bits */
    hold_areas(32, 32);
    hold_areas(1024, 2);
    hold_areas(1024, 32);
}

/* an index whose areas are one entry short, exact, or longer */
static void index_areas_end_exactly(void)
{
    build_six();
    struct index x = index_of(&store);
    must(hold_index(&x)->fault == 0, "areas of W entries");
    x.words_len = 0;
    must(hold_index(&x)->fault == 4, "no words");
    hold_question(10, 0, 0);
    x.words_len = 1;
    x.directory_len = 0;
    must(hold_index(&x)->fault == 4, "no directory");
    hold_list(15, 1, 2, 0);
    x.directory_len = 1;
    x.tracks_len = 5;
    must(hold_index(&x)->fault == 2, "a track list one entry short");
    x.tracks_len = 7;
    must(hold_index(&x)->fault == 2, "a track list one entry long");
}

/* n units in k tracks in turn, with no vector filled yet */
static void index_in_turns(unsigned n, unsigned k)
{
    memset(&store, 0, sizeof store);
    store.head.n = (uint16_t)n;
    store.head.k = (uint16_t)k;
    store.tracks_len = n;
    store.words_len = store.directory_len = k > 0 ? reference_words(n, k) : 0;
    for (unsigned u = 1; u <= n; u++) {
        store.tracks[u - 1] = (uint16_t)((u - 1) % k);
        store.head.lens[(u - 1) % k]++;
    }
}

/* every vector with its ones before its zeros, and a true directory */
static void ones_first(void)
{
    unsigned ones = 0;
    for (unsigned p = 0; p < store.head.k; p++)
        for (unsigned q = 0; q < store.head.k; q++)
            for (size_t i = 0, x = reference_start(&store.head, p, q); p != q && i < store.head.lens[p]; i++)
                store.words[(x + i) / 64] |= (uint64_t)1 << (x + i) % 64;
    for (size_t j = 0; j < store.words_len; j++) {
        store.directory[j] = (uint16_t)ones;
        ones += (unsigned)__builtin_popcountll(store.words[j]);
    }
}

static void must_be_at_fault(unsigned fault, const char *what)
{
    must(judge()->fault == fault, what);
    hold_question(10, 1, 1);
    hold_question(11, 3, 2);
    hold_question(17, 3, 1);
    hold_lists(12, 3);
    hold_lists(15, 1);
}

/* each condition of a whole index broken with every other kept, so far as that can be */
static void one_condition_broken(void)
{
    index_in_turns(1024, 2);
    ones_first();
    must_be_at_fault(0, "n = 1,024");
    index_in_turns(1025, 2);
    ones_first();
    must_be_at_fault(1, "n = 1,025");
    index_in_turns(1025, 1);
    must_be_at_fault(1, "n = 1,025, k = 1");
    index_in_turns(0, 0);
    must_be_at_fault(1, "nothing at all");
    index_in_turns(4, 2);
    store.head.k = 3;
    store.words_len = store.directory_len = 1;
    ones_first();
    must_be_at_fault(3, "a track without a unit");
    index_in_turns(4, 2);
    store.tracks[3] = 2;
    store.head.lens[1] = 1;
    ones_first();
    must_be_at_fault(2, "a track entry of k that no length counts");
    store.tracks[3] = 40;
    must_be_at_fault(2, "a track entry past the last length");
    index_in_turns(40, 32);
    store.head.k = 33;
    must_be_at_fault(1, "k = 33");
}

/* lengths that 16 bits do not hold */
static void lengths_past_65535(void)
{
    static uint16_t many[131072 + 16];
    static uint64_t words[65537];
    memset(many, 0, sizeof many);
    memcpy(many, six_needs, sizeof six_needs);
    struct listing l = six;
    l.needs = many;
    l.needs_len = 131072 + 16;
    must_refuse(build(&l), 1, 0, "a need list of 131,088 entries");
    hold_part(l.needs, l.needs_len, 6);
    l = six;
    memcpy(many, six_tracks, sizeof six_tracks);
    l.tracks = many;
    l.tracks_len = 65536 + 6;
    must_refuse(build(&l), 1, 0, "a track list of 65,542 entries");
    must_refuse(hold_build(&six, 65536, 65536, 65536, &store, &walk), 0, 0, "areas of 65,536 entries");
    build_six();
    struct index x = index_of(&store);
    words[0] = store.words[0];
    x.words = words;
    x.words_len = 65537;
    must(hold_index(&x)->fault == 0, "words of 65,537 entries");
    must_answer(hold_list(13, 1, 70000, 65536), 5, "a place past 65,535");
    must_refuse(hold_list(13, 1, 65536 + 4, 65536).refusal, 10, 5, "one entry short past 65,535");
    x.tracks = many;
    x.tracks_len = 65536 + 6;
    must(hold_index(&x)->fault == 2, "an index with a track list of 65,542 entries");
}

/* ---- lists */

static void lists_end_exactly(void)
{
    build_six();
    for (size_t place = 0; place < 5; place++) {
        must_answer(hold_list(15, 1, place + 2, place), 2, "a list that ends exactly at the end");
        must_refuse(hold_list(15, 1, place + 1, place).refusal, 10, 2, "one entry past the end");
        must_refuse(hold_list(15, 1, place, place).refusal, 10, 2, "no entry left");
        must_answer(hold_list(12, 1, place, place), 0, "room enough for an empty answer");
        must_refuse(hold_list(12, 1, place, place + 1).refusal, 10, 0, "an empty answer past the end");
        must_refuse(hold_list(13, 1, place, place + 1).refusal, 10, 5, "an answer past the end");
    }
    must_refuse(hold_list(13, 1, 8, SIZE_MAX).refusal, 10, 5, "the greatest place");
    must_refuse(hold_list(13, 1, 8, SIZE_MAX - 4).refusal, 10, 5, "a place that would overflow");
    must_refuse(hold_list(14, 1, 8, SIZE_MAX).refusal, 10, 0, "the greatest place, nothing to write");
}

/* ---- arguments */

static void arguments_at_the_edges(void)
{
    static const uint16_t edges[] = {0, 1, 6, 7, 65535};
    build_six();
    for (unsigned i = 0; i < 5; i++)
        for (unsigned j = 0; j < 5; j++) {
            uint16_t u = edges[i], v = edges[j], q = edges[j] == 6 ? 2 : edges[j];
            bool good = u == 1 || u == 6;
            unsigned place = !good ? 1 : v == 1 || v == 6 ? 0 : 2, in_tracks = !good ? 1 : q < 2 ? 0 : 2;
            for (unsigned kind = 10; kind <= 11; kind++)
                must_refuse(hold_question(kind, u, v).refusal, place > 0 ? 8 : 0, place, "a pair at the edges");
            for (unsigned kind = 17; kind <= 18; kind++)
                must_refuse(hold_question(kind, u, q).refusal, in_tracks > 0 ? 8 : 0, in_tracks, "a unit and a track at the edges");
            must_refuse(hold_question(16, u, 0).refusal, good ? 0 : 8, good ? 0 : 1, "a stage at the edges");
            for (unsigned kind = 12; kind <= 15; kind++)
                must_refuse(hold_list(kind, u, 9, 0).refusal, good ? 0 : 8, good ? 0 : 1, "a list at the edges");
        }
}

static void parts_at_the_edges(void)
{
    for (unsigned unit = 0; unit <= 7; unit++)
        hold_part(six_needs, 16, (uint16_t)unit);
    hold_part(six_needs, 0, 6);
    ngolishepa_part_answer p = ngolishepa_part(six_needs, 16, 6);
    must(p.start == 10 && p.count == 6, "the part of 6 is its three pairs");
    p = ngolishepa_part(six_needs, 16, 1);
    must(p.start == 0 && p.count == 0, "the empty part of 1 lies before the pairs of 2");
    p = ngolishepa_part(six_needs, 16, 7);
    must(p.start == 16 && p.count == 0, "the empty part of 7 lies at the end");
    must_refuse(ngolishepa_part(six_needs, 16, 1).refusal, 0, 0, "a unit without pairs");
    must_refuse(ngolishepa_part(six_needs, 16, 1024).refusal, 0, 0, "unit 1,024");
    must_refuse(ngolishepa_part(six_needs, 16, 1025).refusal, 8, 1, "unit 1,025");
    must_refuse(ngolishepa_part(six_needs, 15, 0).refusal, 8, 1, "8 goes before 1");
    must_refuse(ngolishepa_part(six_needs, 15, 6).refusal, 1, 0, "an odd list");
    static const uint16_t edges[] = {1024, 1023, 1024, 1024}, order[] = {3, 2, 2, 1, 1025, 1};
    must_refuse(ngolishepa_part(edges, 2, 1024).refusal, 0, 0, "pair 1,024, 1,023");
    must_refuse(ngolishepa_part(edges, 4, 1024).refusal, 4, 1, "pair 1,024, 1,024");
    must_refuse(ngolishepa_part(order, 6, 3).refusal, 4, 2, "a 4 goes before a 5 that stands earlier");
    must_refuse(ngolishepa_part(order, 4, 3).refusal, 5, 1, "a pair below the one before");
}

/* ---- the order of the refusals */

static void listing_order(void)
{
    static const uint16_t ok[] = {0, 1, 0}, high[] = {0, 2, 5}, none[] = {1, 1, 1}, both[] = {1, 1, 2};
    static const uint16_t late4[] = {3, 1, 3, 1, 1, 2}, twice[] = {2, 1, 3, 2, 3, 2}, fine[] = {2, 1, 3, 2}, apart[] = {2, 1};
    struct listing l = {3, 2, high, 3, late4, 5};
    must_refuse(build(&l), 1, 0, "1 before 2");
    l.needs_len = 6;
    must_refuse(build(&l), 2, 2, "2 before 4, at the smallest unit");
    l.tracks = both;
    must_refuse(build(&l), 2, 3, "2 before 3");
    l.tracks = none;
    must_refuse(build(&l), 3, 0, "3 before 4");
    l.k = 4;
    l.tracks = ok;
    must_refuse(build(&l), 3, 2, "k greater than n is refusal 3, at the smallest track");
    l.k = 2;
    must_refuse(build(&l), 4, 2, "4 before an earlier 5");
    l.needs = twice;
    must_refuse(hold_build(&l, 0, 0, 0, &store, &walk), 5, 2, "5 before 6: a repeated pair");
    l.needs = apart;
    l.needs_len = 2;
    must_refuse(hold_build(&l, 1, 1, 5, &store, &walk), 6, 0, "6 before 7");
    must_refuse(build(&l), 7, 3, "7");
    l.needs = fine;
    l.needs_len = 4;
    must_refuse(build(&l), 0, 0, "none");
}

/* 9, 8, 10 */
static void question_order(void)
{
    build_six();
    must_refuse(hold_list(13, 7, 0, 9).refusal, 8, 1, "8 before 10");
    store.directory[0] = 1;
    must(judge()->fault == 6, "a false directory");
    must_refuse(hold_list(13, 7, 0, 9).refusal, 9, 0, "9 before 8 and 10");
    must_refuse(hold_question(10, 0, 0).refusal, 9, 0, "9 before 8");
    must_refuse(hold_question(18, 6, 2).refusal, 9, 0, "9 before 8");
}

static void (*const cases[])(void) = {
    the_six_index, the_six_questions, the_single_unit, an_unsound_track, soundness_by_paths, most_needs, one_need_too_many,
    tracks_at_the_limit, units_at_the_limit, areas_end_exactly, index_areas_end_exactly, one_condition_broken, lengths_past_65535,
    lists_end_exactly, arguments_at_the_edges, parts_at_the_edges, listing_order, question_order,
};

static void one(uint64_t seed)
{
    held_from(seed);
    if (seed >= 1 && seed <= sizeof cases / sizeof *cases)
        cases[seed - 1]();
    else
        wrong("no such case");
}

int main(int argc, char **argv)
{
    trials(argc, argv, "bounds", sizeof cases / sizeof *cases, one);
    return trials_end();
}

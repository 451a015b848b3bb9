/* What a caller in C relies on beside the answers: the version, the layout of every struct, and areas of no entries lent as null pointers.
 * A case's seed is its number in the table at the end. */
#include <string.h>

#include "../../include/ngolishepa.h"
#include "trial.h"

static void must(bool holds, const char *what)
{
    if (!holds)
        wrong("%s", what);
}

static void must_refuse(ngolishepa_refusal is, unsigned number, unsigned place, const char *what)
{
    if (is.number != number || is.place != place)
        wrong("%s: refusal %u at %u, must be %u at %u", what, is.number, is.place, number, place);
}

/* ---- the version: whoever changes a number of this section counts NGOLISHEPA_VERSION on, in the header and in the archive */

static void version(void)
{
    must(NGOLISHEPA_VERSION == 1, "these layouts are version 1");
    must(ngolishepa_version() == NGOLISHEPA_VERSION, "the archive has the header's version");
}

#define STANDS(type, field, at, bytes) \
    _Static_assert(offsetof(type, field) == (at) && sizeof((type){0}.field) == (bytes), #type "." #field)

STANDS(ngolishepa_refusal, number, 0, 4);
STANDS(ngolishepa_refusal, place, 4, 4);
_Static_assert(sizeof(ngolishepa_refusal) == 8, "ngolishepa_refusal");
STANDS(ngolishepa_head, lens, 0, 64);
STANDS(ngolishepa_head, n, 64, 2);
STANDS(ngolishepa_head, k, 66, 2);
_Static_assert(sizeof(ngolishepa_head) == 68, "ngolishepa_head");
STANDS(ngolishepa_built, head, 0, 68);
STANDS(ngolishepa_built, bits, 68, 4);
STANDS(ngolishepa_built, refusal, 72, 8);
_Static_assert(sizeof(ngolishepa_built) == 80, "ngolishepa_built");
STANDS(ngolishepa_pair_answer, refusal, 0, 8);
STANDS(ngolishepa_pair_answer, yes, 8, 1);
_Static_assert(sizeof(ngolishepa_pair_answer) == 12, "ngolishepa_pair_answer");
STANDS(ngolishepa_number_answer, refusal, 0, 8);
STANDS(ngolishepa_number_answer, number, 8, 4);
_Static_assert(sizeof(ngolishepa_number_answer) == 12, "ngolishepa_number_answer");
STANDS(ngolishepa_part_answer, refusal, 0, 8);
STANDS(ngolishepa_part_answer, start, 8, 8);
STANDS(ngolishepa_part_answer, count, 16, 8);
_Static_assert(sizeof(ngolishepa_part_answer) == 24, "ngolishepa_part_answer");

/* ---- the layouts as the archive writes and reads them: byte by byte, lowest first */

static uint64_t bytes_at(const void *answer, size_t at, size_t bytes)
{
    uint64_t number = 0;
    for (size_t i = bytes; i-- > 0;)
        number = number << 8 | ((const unsigned char *)answer)[at + i];
    return number;
}

static const uint16_t six_tracks[] = {0, 0, 1, 0, 1, 0};
static const uint16_t six_needs[] = {2, 1, 3, 1, 4, 2, 5, 2, 5, 3, 6, 1, 6, 3, 6, 4};

static void answers_are_laid_out(void)
{
    uint64_t words[1];
    uint16_t directory[1], work[12], list[6];
    ngolishepa_built b = ngolishepa_build(6, 2, six_tracks, 6, six_needs, 16, words, 1, directory, 1, work, 12);
    must(bytes_at(&b, 0, 2) == 4 && bytes_at(&b, 2, 2) == 2 && bytes_at(&b, 4, 2) == 0 && bytes_at(&b, 62, 2) == 0, "lengths 4 and 2");
    must(bytes_at(&b, 64, 2) == 6 && bytes_at(&b, 66, 2) == 2 && bytes_at(&b, 68, 4) == 12, "n, k and the bits");
    must(bytes_at(&b, 72, 4) == 0 && bytes_at(&b, 76, 4) == 0, "no refusal of the build");
    ngolishepa_pair_answer p = ngolishepa_needs(b.head, six_tracks, 6, words, 1, directory, 1, 6, 1);
    must(bytes_at(&p, 0, 4) == 0 && bytes_at(&p, 4, 4) == 0 && bytes_at(&p, 8, 1) == 1, "yes");
    p = ngolishepa_needs(b.head, six_tracks, 6, words, 1, directory, 1, 6, 7);
    must(bytes_at(&p, 0, 4) == 8 && bytes_at(&p, 4, 4) == 2 && bytes_at(&p, 8, 1) == 0, "unit 7 of 6");
    ngolishepa_number_answer a = ngolishepa_needed(b.head, six_tracks, 6, words, 1, directory, 1, 6, list, 6, 0);
    must(bytes_at(&a, 0, 4) == 0 && bytes_at(&a, 4, 4) == 0 && bytes_at(&a, 8, 4) == 4, "6 needs four units");
    a = ngolishepa_needed(b.head, six_tracks, 6, words, 1, directory, 1, 6, list, 6, 3);
    must(bytes_at(&a, 0, 4) == 10 && bytes_at(&a, 4, 4) == 4 && bytes_at(&a, 8, 4) == 0, "room for three of four");
    ngolishepa_part_answer t = ngolishepa_part(six_needs, 16, 6);
    must(bytes_at(&t, 0, 4) == 0 && bytes_at(&t, 4, 4) == 0 && bytes_at(&t, 8, 8) == 10 && bytes_at(&t, 16, 8) == 6, "the part of 6");
    b = ngolishepa_build(6, 2, six_tracks, 6, six_needs + 2, 12, words, 1, directory, 1, work, 12);
    must(bytes_at(&b, 72, 4) == 7 && bytes_at(&b, 76, 4) == 2 && bytes_at(&b, 64, 4) == 0 && bytes_at(&b, 68, 4) == 0, "2 does not need 1");
    ngolishepa_refusal r = ngolishepa_check_listing(6, 2, six_tracks, 6, six_needs, 15);
    must(bytes_at(&r, 0, 4) == 1 && bytes_at(&r, 4, 4) == 0, "an odd need list");
}

/* ---- areas of no entries, each a null pointer */

static void one_track_without_words(void)
{
    static const uint16_t tracks[] = {0, 0, 0}, needs[] = {2, 1, 3, 2};
    uint16_t work[3], list[2] = {7, 7};
    must_refuse(ngolishepa_check_listing(3, 1, tracks, 3, needs, 4), 0, 0, "a chain of three");
    ngolishepa_built b = ngolishepa_build(3, 1, tracks, 3, needs, 4, NULL, 0, NULL, 0, work, 3);
    must_refuse(b.refusal, 0, 0, "a chain of three, built");
    must(b.bits == 0 && b.head.n == 3 && b.head.k == 1 && b.head.lens[0] == 3, "its head");
    must(work[0] == 0 && work[1] == 1 && work[2] == 2, "its lows");
#define CHAIN b.head, tracks, 3, NULL, 0, NULL, 0
    must_refuse(ngolishepa_check_index(CHAIN), 0, 0, "it is whole");
    must(ngolishepa_needs(CHAIN, 3, 1).yes && !ngolishepa_needs(CHAIN, 1, 3).yes, "3 needs 1");
    must(ngolishepa_is_step(CHAIN, 3, 2).yes && !ngolishepa_is_step(CHAIN, 3, 1).yes, "2 is a direct step of 3");
    must(ngolishepa_needed(CHAIN, 3, list, 2, 0).number == 2 && list[0] == 1 && list[1] == 2, "3 needs 1 and 2");
    must(ngolishepa_needing(CHAIN, 1, list, 2, 0).number == 2 && list[0] == 2 && list[1] == 3, "2 and 3 need 1");
    must(ngolishepa_steps(CHAIN, 3, list, 2, 1).number == 1 && list[0] == 2 && list[1] == 2, "the step of 3");
    must(ngolishepa_steps_up(CHAIN, 2, list, 2, 0).number == 1 && list[0] == 3, "the step up of 2");
    must(ngolishepa_stage(CHAIN, 3).number == 3, "the stage of 3");
    must(ngolishepa_unit_low(CHAIN, 3, 0).number == 2 && ngolishepa_unit_high(CHAIN, 3, 0).number == 0, "low and high of 3");
    must_refuse(ngolishepa_needs(CHAIN, 4, 1).refusal, 8, 1, "unit 4 of 3");
    must_refuse(ngolishepa_unit_low(CHAIN, 3, 1).refusal, 8, 2, "track 1 of 1");
}

/* unit 1 alone: no needs, and lists without room for any */
static void one_unit_without_needs(void)
{
    static const uint16_t tracks[] = {0};
    uint16_t work[1];
    must_refuse(ngolishepa_check_listing(1, 1, tracks, 1, NULL, 0), 0, 0, "one unit");
    ngolishepa_built b = ngolishepa_build(1, 1, tracks, 1, NULL, 0, NULL, 0, NULL, 0, work, 1);
    must_refuse(b.refusal, 0, 0, "one unit, built");
#define ALONE b.head, tracks, 1, NULL, 0, NULL, 0
    must_refuse(ngolishepa_needed(ALONE, 1, NULL, 0, 0).refusal, 0, 0, "it needs none");
    must_refuse(ngolishepa_needing(ALONE, 1, NULL, 0, 0).refusal, 0, 0, "none needs it");
    must_refuse(ngolishepa_steps(ALONE, 1, NULL, 0, 0).refusal, 0, 0, "no step");
    must_refuse(ngolishepa_steps_up(ALONE, 1, NULL, 0, 0).refusal, 0, 0, "no step up");
    must_refuse(ngolishepa_needed(ALONE, 1, NULL, 0, 1).refusal, 10, 0, "a place past a list of no entries");
    ngolishepa_part_answer t = ngolishepa_part(NULL, 0, 1);
    must(t.refusal.number == 0 && t.start == 0 && t.count == 0, "the part of 1 in no needs");
}

/* every area at once */
static void nothing_lent(void)
{
    ngolishepa_head none = {{0}, 0, 0}, six = {{4, 2}, 6, 2};
    must_refuse(ngolishepa_check_listing(0, 0, NULL, 0, NULL, 0), 1, 0, "no units");
    must_refuse(ngolishepa_check_listing(6, 2, NULL, 0, NULL, 0), 1, 0, "no track list");
    must_refuse(ngolishepa_build(6, 2, NULL, 0, NULL, 0, NULL, 0, NULL, 0, NULL, 0).refusal, 1, 0, "nothing to build");
    must_refuse(ngolishepa_build(6, 2, six_tracks, 6, six_needs, 16, NULL, 0, NULL, 0, NULL, 0).refusal, 6, 0, "no room to build");
    must_refuse(ngolishepa_part(NULL, 0, 0).refusal, 8, 1, "the part of unit 0");
#define NOTHING(head) head, NULL, 0, NULL, 0, NULL, 0
    for (int i = 0; i < 2; i++) {
        ngolishepa_head head = i == 0 ? none : six;
        must_refuse(ngolishepa_check_index(NOTHING(head)), 9, 0, "no index");
        must_refuse(ngolishepa_needs(NOTHING(head), 6, 1).refusal, 9, 0, "kind 10 of no index");
        must_refuse(ngolishepa_is_step(NOTHING(head), 6, 1).refusal, 9, 0, "kind 11 of no index");
        must_refuse(ngolishepa_needed(NOTHING(head), 6, NULL, 0, 0).refusal, 9, 0, "kind 12 of no index");
        must_refuse(ngolishepa_needing(NOTHING(head), 6, NULL, 0, 0).refusal, 9, 0, "kind 13 of no index");
        must_refuse(ngolishepa_steps(NOTHING(head), 6, NULL, 0, 0).refusal, 9, 0, "kind 14 of no index");
        must_refuse(ngolishepa_steps_up(NOTHING(head), 6, NULL, 0, 0).refusal, 9, 0, "kind 15 of no index");
        must_refuse(ngolishepa_stage(NOTHING(head), 6).refusal, 9, 0, "kind 16 of no index");
        must_refuse(ngolishepa_unit_low(NOTHING(head), 6, 1).refusal, 9, 0, "kind 17 of no index");
        must_refuse(ngolishepa_unit_high(NOTHING(head), 6, 1).refusal, 9, 0, "kind 18 of no index");
    }
    /* with a track list: the areas alone are not there */
    must_refuse(ngolishepa_check_index(six, six_tracks, 6, NULL, 0, NULL, 0), 9, 0, "no words and no directory");
}

/* needs_len counts numbers: the count of pairs given instead builds half the course, without a refusal where it is even */
static void half_a_need_list(void)
{
    static const uint16_t tracks[] = {0, 0, 1}, needs[] = {2, 1, 3, 1};
    uint64_t words[1];
    uint16_t directory[1], work[6];
    for (size_t numbers = 4; numbers >= 2; numbers -= 2) {
        ngolishepa_built b = ngolishepa_build(3, 2, tracks, 3, needs, numbers, words, 1, directory, 1, work, 6);
        must_refuse(b.refusal, 0, 0, "the need list, and its first half");
        must(ngolishepa_needs(b.head, tracks, 3, words, 1, directory, 1, 3, 1).yes == (numbers == 4), "3 needs 1 by the second half");
    }
    must_refuse(ngolishepa_build(3, 2, tracks, 3, needs, 3, words, 1, directory, 1, work, 6).refusal, 1, 0, "an odd half");
}

static void (*const cases[])(void) = {
    version, answers_are_laid_out, one_track_without_words, one_unit_without_needs, nothing_lent, half_a_need_list,
};

static void one(uint64_t seed)
{
    if (seed >= 1 && seed <= sizeof cases / sizeof *cases)
        cases[seed - 1]();
    else
        wrong("no such case");
}

int main(int argc, char **argv)
{
    trials(argc, argv, "caller", sizeof cases / sizeof *cases, one);
    return trials_end();
}

/* The prerequisite index of Ngolishepa, for C: every public call of the box.
 *
 * Words. A course has n units, numbered from 1, in k tracks, numbered from 0. A listing is a track list (one entry a
 * unit, in unit order) and a need list (u, v, u, v and so on, pairs strictly ascending, v below u). An index is a head,
 * the track list that it was built from, the words and the directory.
 *
 * Every call ends, on every input, with an answer or a numbered refusal; none looks at anything but its arguments, keeps
 * anything or takes memory, and none calls anything but the memcpy and memset that a compiler puts in. No call trusts an
 * index: each question judges it first. But a whole index need not be one that was built: whoever stores an index keeps a
 * checksum beside it, since altered words may still make a whole index.
 *
 * Areas are lent as a pointer and a count of entries, so needs_len is twice the count of pairs: half of a need list, where
 * that is even, builds half the course without a word. What a caller owes, since C cannot tell: each pointer is aligned for
 * its entries and good for its count, and an area that a call writes does not overlap another area of that call. The
 * pointer of an area of no entries may be anything, null too. Where k is 1, words and directory have none. Nothing past the
 * entries named below is ever written.
 */
#ifndef NGOLISHEPA_H
#define NGOLISHEPA_H

#include <stdbool.h>
#include <stddef.h>
#include <stdint.h>

#ifdef __cplusplus
extern "C" {
#endif

/* Changes with the layout of a struct below. The archive tells its own by ngolishepa_version: a caller for which the two
 * differ was compiled with another header than the archive's. */
#define NGOLISHEPA_VERSION 1

enum {
    NGOLISHEPA_MAX_UNITS = 1024,
    NGOLISHEPA_MAX_TRACKS = 32,
    NGOLISHEPA_MAX_NEEDS = 8192, /* pairs */
    NGOLISHEPA_MAX_BITS = 63488,
    /* entries that are enough for every course */
    NGOLISHEPA_MAX_WORDS = 992,
    NGOLISHEPA_MAX_WORK = 32768
};

/* The number of a refusal; 0 is none. */
enum {
    NGOLISHEPA_FINE = 0,
    NGOLISHEPA_OUT_OF_LIMITS = 1,  /* n, k or the need count outside the limits, or a list of the wrong length; place 0 */
    NGOLISHEPA_NO_SUCH_TRACK = 2,  /* a track entry of k or more; place: the smallest such unit */
    NGOLISHEPA_EMPTY_TRACK = 3,    /* a track without a unit; place: the smallest such track */
    NGOLISHEPA_BAD_PAIR = 4,       /* u or v not 1 to n, or v not below u; place: the first such pair, from 0 */
    NGOLISHEPA_PAIR_ORDER = 5,     /* a pair not above the one before it; place: the first such pair, from 0 */
    NGOLISHEPA_SHORT_AREA = 6,     /* words or directory below W entries, or work below n * k; place 0 */
    NGOLISHEPA_UNSOUND_TRACK = 7,  /* place: the smallest unit that does not need the unit before it in its track */
    NGOLISHEPA_BAD_ARGUMENT = 8,   /* a unit not 1 to n, or a track of k or more; place: 1 or 2, the first bad argument */
    NGOLISHEPA_NOT_WHOLE = 9,      /* the index is not whole; place 0 */
    NGOLISHEPA_SHORT_LIST = 10     /* fewer entries from the named place on than the answer has; place: the answer's count */
};

/* number 0 and place 0 where nothing was refused */
typedef struct {
    uint32_t number;
    uint32_t place;
} ngolishepa_refusal;

/* the length of each track, 0 beyond the last, and the counts of units and tracks */
typedef struct {
    uint16_t lens[32];
    uint16_t n;
    uint16_t k;
} ngolishepa_head;

/* refused: every field of the head 0, bits 0 */
typedef struct {
    ngolishepa_head head;
    uint32_t bits;
    ngolishepa_refusal refusal;
} ngolishepa_built;

/* refused: yes is false */
typedef struct {
    ngolishepa_refusal refusal;
    bool yes;
} ngolishepa_pair_answer;

/* refused: number is 0 */
typedef struct {
    ngolishepa_refusal refusal;
    uint32_t number;
} ngolishepa_number_answer;

/* The entries from start on, count of them, of the lent need list. A part of no entries starts where the unit's pairs would
 * stand: at the first pair of a greater unit, or at the end of the list. Refused: both 0. */
typedef struct {
    ngolishepa_refusal refusal;
    size_t start;
    size_t count;
} ngolishepa_part_answer;

/* ---- the version */

/* NGOLISHEPA_VERSION as the archive has it. Costs nothing. */
uint32_t ngolishepa_version(void);

/* ---- a listing */

/* Checks a listing: refusals 1 to 5, in the order of their numbers. Writes nothing. Costs two passes over each list. */
ngolishepa_refusal ngolishepa_check_listing(uint16_t n, uint16_t k, const uint16_t *tracks, size_t tracks_len,
                                            const uint16_t *needs, size_t needs_len);

/* Where in the need list the pairs stand that begin with the unit. Refusals 8 (place 1), 1, 4 or 5, in that order, for
 * n = 1,024. Writes nothing. Costs four passes over the list. */
ngolishepa_part_answer ngolishepa_part(const uint16_t *needs, size_t needs_len, uint16_t unit);

/* ---- the index */

/* Checks a listing and builds its index: refusals 1 to 7, in the order of their numbers. With W = 2n(k-1)/64 rounded up
 * it writes the first W entries of the words and of the directory, and the first n * k of the work area, where entry
 * (u-1) * k + q becomes low(u, q). Refusals 1 to 6 write nothing; refusal 7 writes the work area alone. Costs k steps a
 * need, and one for each bit of the index. */
ngolishepa_built ngolishepa_build(uint16_t n, uint16_t k, const uint16_t *tracks, size_t tracks_len, const uint16_t *needs,
                                  size_t needs_len, uint64_t *words, size_t words_len, uint16_t *directory,
                                  size_t directory_len, uint16_t *work, size_t work_len);

/* Judges any index: refusal 9 where it is not whole. Writes nothing. Costs two passes over the track list, one over the
 * first W entries of each area, and one look for each of the k * (k-1) vectors. */
ngolishepa_refusal ngolishepa_check_index(ngolishepa_head head, const uint16_t *tracks, size_t tracks_len,
                                          const uint64_t *words, size_t words_len, const uint16_t *directory,
                                          size_t directory_len);

/* ---- the questions: refusal 9, then 8; each judges the index first, which costs what ngolishepa_check_index costs, and
 * then finds its units in the track list, in one pass up to each. A look counts the ones before a bit, by one entry of the
 * directory and one word; a select finds a one or a zero by its number, by halving the directory and then a word. */

/* Kind 10: u needs v. Beside the judging it costs one look. */
ngolishepa_pair_answer ngolishepa_needs(ngolishepa_head head, const uint16_t *tracks, size_t tracks_len,
                                        const uint64_t *words, size_t words_len, const uint16_t *directory,
                                        size_t directory_len, uint16_t u, uint16_t v);

/* Kind 11: v is a direct step of u. Beside the judging it costs at most k selects and k looks. */
ngolishepa_pair_answer ngolishepa_is_step(ngolishepa_head head, const uint16_t *tracks, size_t tracks_len,
                                          const uint64_t *words, size_t words_len, const uint16_t *directory,
                                          size_t directory_len, uint16_t u, uint16_t v);

/* Kinds 12 to 15, the lists: the units are written ascending into list[place], list[place + 1] and so on, and answered
 * by their count. Refusal 10, after 9 and 8, where they find no room; a place equal to the length is room for none, a
 * place past it for not even that. A refusal writes nothing. */

/* Kind 12: the units that u needs. Beside the judging it costs k selects and one pass over the track list. */
ngolishepa_number_answer ngolishepa_needed(ngolishepa_head head, const uint16_t *tracks, size_t tracks_len,
                                           const uint64_t *words, size_t words_len, const uint16_t *directory,
                                           size_t directory_len, uint16_t u, uint16_t *list, size_t list_len, size_t place);

/* Kind 13: the units that need u. Costs as kind 12. */
ngolishepa_number_answer ngolishepa_needing(ngolishepa_head head, const uint16_t *tracks, size_t tracks_len,
                                            const uint64_t *words, size_t words_len, const uint16_t *directory,
                                            size_t directory_len, uint16_t u, uint16_t *list, size_t list_len, size_t place);

/* Kind 14: the direct steps of u. Beside the judging it costs k selects, at most k * k looks and one pass over the track
 * list. */
ngolishepa_number_answer ngolishepa_steps(ngolishepa_head head, const uint16_t *tracks, size_t tracks_len,
                                          const uint64_t *words, size_t words_len, const uint16_t *directory,
                                          size_t directory_len, uint16_t u, uint16_t *list, size_t list_len, size_t place);

/* Kind 15: the units that have u as a direct step. Costs as kind 14. */
ngolishepa_number_answer ngolishepa_steps_up(ngolishepa_head head, const uint16_t *tracks, size_t tracks_len,
                                             const uint64_t *words, size_t words_len, const uint16_t *directory,
                                             size_t directory_len, uint16_t u, uint16_t *list, size_t list_len, size_t place);

/* Kind 16: the stage of u. Beside the judging it costs as kind 14 for each stage on the way down. */
ngolishepa_number_answer ngolishepa_stage(ngolishepa_head head, const uint16_t *tracks, size_t tracks_len,
                                          const uint64_t *words, size_t words_len, const uint16_t *directory,
                                          size_t directory_len, uint16_t u);

/* Kind 17: the unit at low(u, q), the last of track q that u needs; 0 if none. Beside the judging it costs one select and
 * one pass over the track list. */
ngolishepa_number_answer ngolishepa_unit_low(ngolishepa_head head, const uint16_t *tracks, size_t tracks_len,
                                             const uint64_t *words, size_t words_len, const uint16_t *directory,
                                             size_t directory_len, uint16_t u, uint16_t q);

/* Kind 18: the unit at high(u, q), the first of track q that needs u; 0 if none. Costs as kind 17. */
ngolishepa_number_answer ngolishepa_unit_high(ngolishepa_head head, const uint16_t *tracks, size_t tracks_len,
                                              const uint64_t *words, size_t words_len, const uint16_t *directory,
                                              size_t directory_len, uint16_t u, uint16_t q);

#ifdef __cplusplus
}
#endif

#endif

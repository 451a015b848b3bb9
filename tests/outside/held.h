/* The library's calls held to the reference: what each answers, and every byte of every area that it was lent. What differs is told by wrong(). */
#ifndef HELD_H
#define HELD_H

#include "reference.h"

enum { STORE = 1100 }; /* entries of each area of a store */

/* an index that a test may alter */
struct store {
    ngolishepa_head head;
    uint16_t tracks[STORE];
    size_t tracks_len;
    uint64_t words[STORE];
    size_t words_len;
    uint16_t directory[STORE];
    size_t directory_len;
};

/* at the start of each case: how areas are lent from here on follows from the seed */
void held_from(uint64_t seed);

void hold_listing(const struct listing *l);
void hold_part(const uint16_t *needs, size_t needs_len, uint16_t unit);

/* The build with areas of these lengths: its refusal. Accepted: s is the index, w the course by its paths, and the index's areas are as
 * long as they were lent, or as a store is. */
ngolishepa_refusal hold_build(const struct listing *l, size_t words_len, size_t directory_len, size_t work_len, struct store *s, struct walk *w);

struct index index_of(const struct store *s);
/* judges the index, and keeps it lent for the questions that follow; how the reference reads it */
const struct reading *hold_index(const struct index *x);

/* a question without a list: kinds 10, 11, 16, 17 and 18; second is 0 for kind 16; the answer that it must have */
struct answer hold_question(unsigned kind, uint16_t u, uint16_t second);
/* kinds 12 to 15, with a list of this length, from this place; the answer that it must have */
struct answer hold_list(unsigned kind, uint16_t u, size_t list_len, size_t place);
/* kinds 12 to 15, with lists just long enough, one entry too short, longer, and places at and past the end */
void hold_lists(unsigned kind, uint16_t u);

#endif

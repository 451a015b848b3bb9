/* Baseline (a): document 01's own layout, vectors and directory, in plain C.
 *
 * The same areas, answers and refusals as include/ngolishepa.h. Two forms of each question: plain_NAME judges the index
 * first, plain_inner_NAME trusts an index that was judged once and takes the starts that were worked out then.
 */
#ifndef PLAIN_H
#define PLAIN_H

#include <stdbool.h>
#include <stddef.h>
#include <stdint.h>

enum { MAX_UNITS = 1024, MAX_TRACKS = 32, MAX_NEEDS = 8192, MAX_WORDS = 992, MAX_WORK = MAX_UNITS * MAX_TRACKS };

typedef struct {
    uint32_t number, place;
} plain_refusal;

typedef struct {
    uint16_t lens[MAX_TRACKS];
    uint16_t n, k;
} plain_head;

/* n, k and the two lists, as lent */
typedef struct {
    const uint16_t *tracks, *needs;
    size_t tracks_len, needs_len;
    uint16_t n, k;
} plain_listing;

/* what a build writes */
typedef struct {
    uint64_t *words;
    uint16_t *directory, *work;
    size_t words_len, directory_len, work_len;
} plain_areas;

typedef struct {
    plain_head head;
    const uint16_t *tracks, *directory;
    const uint64_t *words;
    size_t tracks_len, words_len, directory_len;
} plain_index;

/* units in the tracks before each track: all that the place of a vector needs beside the lengths */
typedef struct {
    uint32_t before[MAX_TRACKS + 1];
} plain_starts;

/* a yes or no, a count or a stage in number; 0 where refused */
typedef struct {
    plain_refusal refusal;
    uint32_t number;
} plain_answer;

/* where an answer list begins and how many entries it may take */
typedef struct {
    uint16_t *list;
    size_t len, place;
} plain_room;

/* refusals 1 to 5 */
plain_refusal plain_check_listing(const plain_listing *l);

/* refusals 1 to 7; fills the head where it accepts and clears it where it refuses */
plain_refusal plain_build(const plain_listing *l, const plain_areas *a, plain_head *head);

void plain_fill_starts(const plain_head *head, plain_starts *s);

/* whether the index is whole; fills the starts where it is */
bool plain_judge(const plain_index *x, plain_starts *s);

plain_answer plain_needs(const plain_index *x, uint16_t u, uint16_t v);
plain_answer plain_is_step(const plain_index *x, uint16_t u, uint16_t v);
plain_answer plain_needed(const plain_index *x, uint16_t u, plain_room room);
plain_answer plain_needing(const plain_index *x, uint16_t u, plain_room room);
plain_answer plain_steps(const plain_index *x, uint16_t u, plain_room room);
plain_answer plain_steps_up(const plain_index *x, uint16_t u, plain_room room);
plain_answer plain_stage(const plain_index *x, uint16_t u);

bool plain_inner_needs(const plain_index *x, const plain_starts *s, uint16_t u, uint16_t v);
bool plain_inner_is_step(const plain_index *x, const plain_starts *s, uint16_t u, uint16_t v);
plain_answer plain_inner_needed(const plain_index *x, const plain_starts *s, uint16_t u, plain_room room);
plain_answer plain_inner_needing(const plain_index *x, const plain_starts *s, uint16_t u, plain_room room);
plain_answer plain_inner_steps(const plain_index *x, const plain_starts *s, uint16_t u, plain_room room);
plain_answer plain_inner_steps_up(const plain_index *x, const plain_starts *s, uint16_t u, plain_room room);
uint32_t plain_inner_stage(const plain_index *x, const plain_starts *s, uint16_t u);

#endif

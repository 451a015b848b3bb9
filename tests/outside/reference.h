/* An independent reading of document 01, written from its words alone and as plain as can be: what every call must answer and write. */
#ifndef REFERENCE_H
#define REFERENCE_H

#include "../../include/ngolishepa.h"

enum { UNITS = 1024, TRACKS = 32, NEEDS = 8192 };

/* ---- a listing */

struct listing {
    uint16_t n, k;
    const uint16_t *tracks;
    size_t tracks_len;
    const uint16_t *needs;
    size_t needs_len;
};

ngolishepa_refusal reference_listing(const struct listing *l);
ngolishepa_part_answer reference_part(const uint16_t *needs, size_t needs_len, uint16_t unit);

/* ---- the course by its paths, for a listing without refusals 1 to 5 */

struct walk {
    unsigned n, k;
    unsigned track[UNITS + 1], position[UNITS + 1]; /* by unit */
    unsigned lens[TRACKS];
    unsigned unit_at[TRACKS][UNITS + 2]; /* by track and position; 0 outside the track */
    bool needs[UNITS + 1][UNITS + 1];
    unsigned low[UNITS + 1][TRACKS], high[UNITS + 1][TRACKS];
};

void reference_walk(const struct listing *l, struct walk *w);
bool walk_step(const struct walk *w, unsigned u, unsigned v);
unsigned walk_stage(const struct walk *w, unsigned u);
/* refusal 7, or none */
ngolishepa_refusal walk_soundness(const struct walk *w);

/* ---- the build */

struct areas {
    uint64_t *words;
    size_t words_len;
    uint16_t *directory;
    size_t directory_len;
    uint16_t *work;
    size_t work_len;
};

size_t reference_words(unsigned n, unsigned k); /* W */
/* writes what a build writes; w is filled where refusals 1 to 6 are not met */
ngolishepa_built reference_build(const struct listing *l, const struct areas *a, struct walk *w);

/* ---- any index */

struct index {
    ngolishepa_head head;
    const uint16_t *tracks;
    size_t tracks_len;
    const uint64_t *words;
    size_t words_len;
    const uint16_t *directory;
    size_t directory_len;
};

/* where vector p,q starts among the bits */
size_t reference_start(const ngolishepa_head *head, unsigned p, unsigned q);
bool reference_bit(const uint64_t *words, size_t x);
/* the first of the seven conditions of a whole index that does not hold; 0: whole */
unsigned reference_fault(const struct index *x);

/* a whole index by the two formulas; of any other the fault alone */
struct reading {
    unsigned fault, n, k;
    unsigned track[UNITS + 1], position[UNITS + 1];
    unsigned lens[TRACKS];
    unsigned unit_at[TRACKS][UNITS + 2];
    unsigned low[UNITS + 1][TRACKS], high[UNITS + 1][TRACKS];
};

void reference_read(const struct index *x, struct reading *r);

/* second: v for kinds 10 and 11, the track for 17 and 18; list_len and place for kinds 12 to 15 */
struct question {
    unsigned kind;
    uint16_t u, second;
    size_t list_len, place;
};

/* number: 1 is yes and 0 no for kinds 10 and 11, the count for kinds 12 to 15; refused: 0 */
struct answer {
    ngolishepa_refusal refusal;
    unsigned number;
};

/* writes what a list question writes */
struct answer reference_answer(const struct reading *r, const struct question *q, uint16_t *list);
/* kind 12 to 15's units into list, which has room for all; their count */
unsigned reference_list(const struct reading *r, unsigned kind, unsigned u, uint16_t *list);

#endif

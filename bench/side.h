/* A side of the benchmark: one implementation, made into objects that show no name and stand in the section "sides". So the
 * same calls can be linked several times: by two compilers, from the archives before and after a change, at several places.
 */
#ifndef SIDE_H
#define SIDE_H

#include "plain.h"

enum { PAIRS = 2048, UNITS = 1024, STAGES = 64, PAGE = 4096 };

/* The course that all sides build, and what they are asked: pairs for kinds 10 and 11, their greater units for the others. */
typedef struct {
    uint16_t tracks[MAX_UNITS], needs[2 * MAX_NEEDS];
    size_t needs_len;
    uint16_t n, k;
    struct {
        uint16_t u, v;
    } asked[PAIRS];
} task;

extern task given;

/* What a build fills, at the start of a page, so that all sides find theirs alike. */
typedef struct {
    _Alignas(PAGE) uint64_t words[MAX_WORDS];
    uint16_t directory[MAX_WORDS], work[MAX_WORK];
} areas;

/* Does all the work of its row once, and answers the sum of the answers, so that none is left out as unused. */
typedef uint64_t batch(unsigned kind);

enum { ASK_PAIRS, ASK_LISTS, ASK_STAGES, FORMS };

typedef struct {
    const char *name;
    /* builds the course; the sum is the number of its refusal */
    batch *build;
    /* after a build: works out once what the inner forms take */
    void (*prepare)(void);
    /* with the index judged before each question, and without; none where the side has no such form */
    batch *checked[FORMS], *inner[FORMS];
    /* one answer: yes, a count with its list, or a stage */
    uint32_t (*ask)(unsigned kind, bool judged, uint16_t u, uint16_t v, uint16_t *list);
    /* what the build filled, and its head; none for matrices */
    const areas *filled;
    const void *head;
} side;

#define SHOW(table) static const side *const shown __attribute__((section("sides"), used)) = &table;

#define BATCH(name, count, answer)             \
    static uint64_t name(unsigned kind)        \
    {                                          \
        uint64_t sum = 0;                      \
        (void)kind;                            \
        for (unsigned c = 0; c < (count); c++) \
            sum += (answer);                   \
        return sum;                            \
    }

#define U given.asked[c].u
#define V given.asked[c].v

#endif

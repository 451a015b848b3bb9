/* The benchmark's driver: makes three courses, sees that all sides answer alike, times them in turn, prints the tables.
 *
 * Usage: bench COURSE_FILES -- OUR_PROGRAM GCC_PROGRAM CLANG_PROGRAM [PROGRAM_BEFORE]. Ends with 1 where a bar is missed,
 * 2 where it could not measure.
 */
#define _GNU_SOURCE
#include "side.h"

#include <fcntl.h>
#include <libgen.h>
#include <spawn.h>
#include <stdio.h>
#include <stdlib.h>
#include <string.h>
#include <sys/resource.h>
#include <sys/wait.h>
#include <time.h>

/* repetitions are for each copy of a side */
enum { REPETITIONS = 15, PROGRAM_REPETITIONS = 21, COPIES = 4 };

/* each opponent by gcc, then by clang */
enum { OURS, PLAIN, TUNED = PLAIN + 2, MATRIX = TUNED + 2, BEFORE = MATRIX + 2, SIDES };

static const char *const NAMES[SIDES] = {"ours",        "plain_gcc",  "plain_clang",  "tuned_gcc",
                                         "tuned_clang", "matrix_gcc", "matrix_clang", "before"};

/* what was linked; the linker names the ends of the section */
extern const side *const __start_sides[], *const __stop_sides[];

/* the copies of each side, which differ in their place alone; none of BEFORE where nothing is compared with */
static const side *sides[SIDES][COPIES];

static const struct {
    uint16_t n, k;
    unsigned pairs;
} SHAPES[] = {{1024, 32, 8192}, {1024, 8, 3000}, {100, 6, 250}};

/* the bars: how many times the time of the faster opponent ours may take; no bar is 0 */
static const double BAR_CHECKED = 1.0, BAR_INNER = 1.2, BAR_BUILD = 1.5, BAR_PROGRAM = 1.5, NO_BAR = 0;

task given;

static void give_up(const char *why)
{
    fprintf(stderr, "bench: %s\n", why);
    exit(2);
}

static void find_sides(void)
{
    unsigned found[SIDES] = {0};
    for (const side *const *x = __start_sides; x < __stop_sides; x++)
        for (unsigned s = 0; s < SIDES; s++)
            if (strcmp((*x)->name, NAMES[s]) == 0 && found[s] < COPIES)
                sides[s][found[s]++] = *x;
    for (unsigned s = 0; s < SIDES; s++)
        if (found[s] != COPIES && (s != BEFORE || found[s]))
            give_up("a side lacks a copy");
}

/* ---- courses */

static uint64_t seed = 0x9e3779b97f4a7c15u;

static unsigned random_below(unsigned limit)
{
    seed ^= seed << 13;
    seed ^= seed >> 7;
    seed ^= seed << 17;
    return (unsigned)((seed >> 20) % limit);
}

/* tracks at random, each unit on the one before it in its track, then pairs at random, at most 96 units apart */
static void make_course(uint16_t n, uint16_t k, unsigned pairs)
{
    static bool listed[MAX_UNITS + 1][MAX_UNITS + 1];
    unsigned last[MAX_TRACKS] = {0}, count = 0;
    memset(listed, 0, sizeof listed);
    for (unsigned u = 1; u <= n; u++) {
        unsigned t = u <= k ? u - 1 : random_below(k), previous = last[t];
        given.tracks[u - 1] = (uint16_t)t;
        last[t] = u;
        listed[u][previous] = previous != 0;
        count += previous != 0;
    }
    while (count < pairs) {
        unsigned u = 2 + random_below(n - 1u), v = u > 96 ? u - 1 - random_below(96) : 1 + random_below(u - 1);
        count += !listed[u][v];
        listed[u][v] = true;
    }
    uint16_t *next = given.needs;
    for (unsigned u = 1; u <= n; u++)
        for (unsigned v = 1; v < u; v++)
            if (listed[u][v]) {
                *next++ = (uint16_t)u;
                *next++ = (uint16_t)v;
            }
    given.needs_len = 2 * (size_t)pairs;
    given.n = n;
    given.k = k;
}

/* every second pair is a listed one, so that yes and no both come; the others have the greater unit first */
static void make_questions(void)
{
    for (unsigned c = 0; c < PAIRS; c++) {
        unsigned pair = random_below((unsigned)given.needs_len / 2);
        unsigned u = 2 + random_below(given.n - 1u), v = 1 + random_below(u - 1);
        given.asked[c].u = c % 2 ? given.needs[2 * pair] : (uint16_t)u;
        given.asked[c].v = c % 2 ? given.needs[2 * pair + 1] : (uint16_t)v;
    }
}

/* ---- all sides answer alike, or there is nothing to time */

/* What stood before a change may have had another right answer: that is said, once, and timed all the same. */
static void agree(bool alike, unsigned s, const char *what)
{
    static const char *said;
    if (alike || (s == BEFORE && said == what))
        return;
    fprintf(stderr, "bench: %s differs in %s\n", NAMES[s], what);
    said = what;
    if (s != BEFORE)
        exit(2);
}

/* that a side accepts the course, and fills what ours fills */
static void agree_on_build(unsigned s, unsigned copy)
{
    const side *x = sides[s][copy], *o = sides[OURS][0];
    size_t n = given.n, k = given.k, w = (2 * n * (k - 1) + 63) / 64;
    agree(x->build(0) == 0, s, "accepting the course");
    x->prepare();
    if (!x->filled)
        return;
    agree(memcmp(x->head, o->head, sizeof(plain_head)) == 0, s, "the head");
    agree(memcmp(x->filled->words, o->filled->words, w * sizeof(uint64_t)) == 0, s, "the words");
    agree(memcmp(x->filled->directory, o->filled->directory, w * sizeof(uint16_t)) == 0, s, "the directory");
    agree(memcmp(x->filled->work, o->filled->work, n * k * sizeof(uint16_t)) == 0, s, "the work area");
}

/* every pair in the inner form; the checked form is seen to on the pairs that are asked */
static void agree_on_pairs(unsigned s, unsigned kind)
{
    const side *x = sides[s][0], *m = sides[MATRIX][0];
    for (uint16_t u = 1; u <= given.n; u++)
        for (uint16_t v = 1; v <= given.n; v++)
            agree(x->ask(kind, false, u, v, NULL) == m->ask(kind, false, u, v, NULL), s, "a pair, inner");
    for (unsigned c = 0; c < PAIRS; c++) {
        uint16_t u = given.asked[c].u, v = given.asked[c].v;
        agree(x->ask(kind, true, u, v, NULL) == m->ask(kind, false, u, v, NULL), s, "a pair, checked");
    }
}

/* every unit's lists and stage */
static void agree_on_units(unsigned s, unsigned kind)
{
    uint16_t list[MAX_UNITS], right[MAX_UNITS];
    for (uint16_t u = 1; u <= given.n; u++) {
        uint32_t number = sides[MATRIX][0]->ask(kind, false, u, 0, right);
        size_t size = kind <= 15 ? number * sizeof *right : 0;
        for (unsigned judged = 0; judged <= 1; judged++) {
            memset(list, 0, sizeof list);
            agree(sides[s][0]->ask(kind, judged, u, 0, list) == number, s, "a count or a stage");
            agree(memcmp(list, right, size) == 0, s, "a list");
        }
    }
}

/* the copies of a side are the same code, so one of each is asked; the sums of the rows are compared for all */
static void set_up(unsigned shape)
{
    make_course(SHAPES[shape].n, SHAPES[shape].k, SHAPES[shape].pairs);
    make_questions();
    for (unsigned s = 0; s < SIDES; s++)
        for (unsigned copy = 0; sides[s][0] && copy < COPIES; copy++)
            agree_on_build(s, copy);
    for (unsigned s = 0; s < SIDES; s++)
        for (unsigned kind = 10; sides[s][0] && kind <= 16; kind++)
            (kind <= 11 ? agree_on_pairs : agree_on_units)(s, kind);
}

/* ---- the tables */

/* near: nearer to the bar than two runs are to each other */
static unsigned met, missed, near;

static unsigned faster(const double ns[SIDES], unsigned by_gcc)
{
    return ns[by_gcc] <= ns[by_gcc + 1] ? by_gcc : by_gcc + 1;
}

/* a whole number with commas */
static void print_number(double x)
{
    char digits[32], text[48], *to = text;
    int count = snprintf(digits, sizeof digits, "%.0f", x);
    for (int c = 0; c < count; c++) {
        *to++ = digits[c];
        if (c + 1 < count && (count - c - 1) % 3 == 0)
            *to++ = ',';
    }
    *to = 0;
    printf(" %10s |", text);
}

static void print_ratio(double x, double to)
{
    if (to <= 0)
        printf(" %10s |", "");
    else if (x / to < 100)
        printf(" %10.2f |", x / to);
    else
        print_number(x / to);
}

static void print_heading(const char *opponent, const char *others)
{
    printf("\n| %-14s | ours, ns | %s, ns | by | ratio | bar |%s%s\n", "", opponent, others,
           sides[BEFORE][0] ? " before, ns | after / before |" : "");
    printf("| --- | ---: | ---: | --- | ---: | --- |%s%s\n", *others ? " ---: | ---: |" : "",
           sides[BEFORE][0] ? " ---: | ---: |" : "");
}

/* ours against the opponent that is at PLAIN or at MATRIX */
static void print_row(const char *what, const double ns[SIDES], unsigned opponent, double bar)
{
    unsigned best = faster(ns, opponent);
    double ratio = ns[OURS] / ns[best];
    printf("| %-14s |", what);
    print_number(ns[OURS]);
    print_number(ns[best]);
    printf(" %-5s | %5.2f |", best == opponent ? "gcc" : "clang", ratio);
    if (bar == NO_BAR) {
        printf(" %14s |", "");
    } else {
        printf(" %3.1f %-10s |", bar, ratio <= bar ? "met" : "**missed**");
        met += ratio <= bar;
        missed += ratio > bar;
        near += ratio > bar - 0.03 && ratio < bar + 0.03;
    }
    if (opponent == PLAIN) {
        print_ratio(ns[OURS], ns[faster(ns, TUNED)]);
        print_ratio(ns[OURS], ns[faster(ns, MATRIX)]);
    }
    if (sides[BEFORE][0]) {
        print_number(ns[BEFORE]);
        print_ratio(ns[OURS], ns[BEFORE]);
    }
    printf("\n");
    fflush(stdout);
}

/* ---- times */

/* processor time, since no side waits for anything: what else the machine does then counts for little */
static double now(void)
{
    struct timespec t;
    clock_gettime(CLOCK_PROCESS_CPUTIME_ID, &t);
    return (double)t.tv_sec * 1e9 + (double)t.tv_nsec;
}

static int ascending(const void *a, const void *b)
{
    double x = *(const double *)a, y = *(const double *)b;
    return (x > y) - (x < y);
}

static double median(double *times, unsigned count)
{
    qsort(times, count, sizeof *times, ascending);
    return times[count / 2];
}

typedef struct {
    const char *what;
    unsigned kind, count;
    bool judged;
    double bar;
} row;

static batch *batch_of(const side *x, const row *r)
{
    unsigned form = r->kind <= 11 ? ASK_PAIRS : r->kind <= 15 ? ASK_LISTS : ASK_STAGES;
    if (!x || r->kind == 0)
        return x ? x->build : NULL;
    return r->judged ? x->checked[form] : x->inner[form];
}

/* rounds that take about half a millisecond, so that the clock's own time is lost in them */
static unsigned rounds_of(batch *run, unsigned kind)
{
    double start = now();
    run(kind);
    double took = now() - start;
    return took > 5e5 ? 1 : (unsigned)(5e5 / (took + 1)) + 1;
}

/* the time of one round, after one that fills the caches; the sum of each must be the right one */
static double time_rounds(batch *run, unsigned kind, unsigned rounds, uint64_t right, unsigned s)
{
    uint64_t sum = run(kind);
    double start = now();
    for (unsigned c = 0; c < rounds; c++)
        sum += run(kind);
    double took = now() - start;
    agree(sum == (rounds + 1) * right, s, "the sum of a row");
    return took / rounds;
}

static void time_row(const row *r)
{
    static double times[SIDES][COPIES][REPETITIONS];
    unsigned rounds[SIDES] = {0};
    double ns[SIDES] = {0};
    uint64_t right = batch_of(sides[OURS][0], r)(r->kind);
    for (unsigned s = 0; s < SIDES; s++)
        if (batch_of(sides[s][0], r))
            rounds[s] = rounds_of(batch_of(sides[s][0], r), r->kind);
    for (unsigned again = 0; again < REPETITIONS; again++)
        for (unsigned turn = 0; turn < SIDES * COPIES; turn++) {
            unsigned s = (again + turn) % SIDES, copy = turn / SIDES;
            if (rounds[s])
                times[s][copy][again] = time_rounds(batch_of(sides[s][copy], r), r->kind, rounds[s], right, s);
        }
    for (unsigned s = 0; s < SIDES; s++)
        for (unsigned copy = 0; rounds[s] && copy < COPIES; copy++)
            ns[s] += median(times[s][copy], REPETITIONS) / COPIES / r->count;
    print_row(r->what, ns, PLAIN, r->bar);
}

static void time_course(unsigned shape)
{
    const row rows[] = {
        {"build", 0, 1, false, BAR_BUILD},
        {"10 checked", 10, PAIRS, true, BAR_CHECKED},
        {"11 checked", 11, PAIRS, true, BAR_CHECKED},
        {"12 checked", 12, UNITS, true, BAR_CHECKED},
        {"13 checked", 13, UNITS, true, BAR_CHECKED},
        {"14 checked", 14, UNITS, true, BAR_CHECKED},
        {"15 checked", 15, UNITS, true, BAR_CHECKED},
        {"16 checked", 16, STAGES, true, NO_BAR},
        {"10 inner", 10, PAIRS, false, BAR_INNER},
        {"11 inner", 11, PAIRS, false, BAR_INNER},
        {"12 inner", 12, UNITS, false, BAR_INNER},
        {"13 inner", 13, UNITS, false, BAR_INNER},
        {"14 inner", 14, UNITS, false, BAR_INNER},
        {"15 inner", 15, UNITS, false, BAR_INNER},
        {"16 inner", 16, STAGES, false, NO_BAR},
    };
    set_up(shape);
    printf("\nn = %u, k = %u, %u needs\n", SHAPES[shape].n, SHAPES[shape].k, SHAPES[shape].pairs);
    print_heading("plain C", " ratio to tuned C | ratio to matrices |");
    for (size_t r = 0; r < sizeof rows / sizeof *rows; r++)
        time_row(&rows[r]);
}

/* ---- the programs */

static double ns_of(struct timeval t)
{
    return (double)t.tv_sec * 1e9 + (double)t.tv_usec * 1e3;
}

/* one run of a program on a course file, what it prints dropped */
static double time_program(const char *program, const char *course)
{
    posix_spawn_file_actions_t files;
    char *const words[] = {(char *)program, NULL}, *const none[] = {NULL};
    struct rusage used;
    pid_t id;
    int status;
    if (posix_spawn_file_actions_init(&files) || posix_spawn_file_actions_addopen(&files, 0, course, O_RDONLY, 0) ||
        posix_spawn_file_actions_addopen(&files, 1, "/dev/null", O_WRONLY, 0))
        give_up("cannot prepare a program");
    if (posix_spawn(&id, program, &files, NULL, words, none) || wait4(id, &status, 0, &used) != id || status)
        give_up("a program did not run");
    posix_spawn_file_actions_destroy(&files);
    return ns_of(used.ru_utime) + ns_of(used.ru_stime);
}

static void time_programs(const char *const programs[SIDES], char *course, double bar)
{
    static double times[SIDES][PROGRAM_REPETITIONS];
    double ns[SIDES] = {0};
    for (unsigned again = 0; again < PROGRAM_REPETITIONS; again++)
        for (unsigned s = 0; s < SIDES; s++)
            if (programs[s])
                times[s][again] = time_program(programs[s], course);
    for (unsigned s = 0; s < SIDES; s++)
        if (programs[s])
            ns[s] = median(times[s], PROGRAM_REPETITIONS);
    print_row(basename(course), ns, MATRIX, bar);
}

int main(int count, char **words)
{
    int files = 1;
    find_sides();
    while (files < count && strcmp(words[files], "--"))
        files++;
    if (files == 1 || count - files < 4)
        give_up("usage: bench COURSE_FILES -- OUR_PROGRAM GCC_PROGRAM CLANG_PROGRAM [PROGRAM_BEFORE]");
    const char *const programs[SIDES] = {[OURS] = words[files + 1],
                                         [MATRIX] = words[files + 2],
                                         [MATRIX + 1] = words[files + 3],
                                         [BEFORE] = sides[BEFORE][0] ? words[files + 4] : NULL};
    printf("processor ns a call, means over %d places of medians of %d interleaved repetitions (programs: medians of %d)\n", COPIES,
           REPETITIONS, PROGRAM_REPETITIONS);
    for (unsigned shape = 0; shape < sizeof SHAPES / sizeof *SHAPES; shape++)
        time_course(shape);
    printf("\nthe course program, 65,535 lines a file\n");
    print_heading("C with matrices", "");
    for (int file = 1; file < files; file++)
        time_programs(programs, words[file], file == 1 ? BAR_PROGRAM : NO_BAR);
    printf("\n%u bars met, %u missed; %u ratios are nearer than 0.03 to their bar\n", met, missed, near);
    return missed ? 1 : 0;
}

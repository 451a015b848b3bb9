/* The course program on whole, mutated and random course files, against an independent reading of "Course files". The words that start the program
 * are in the environment's COURSE, one space between; it is run at the root of the repository. */
#include <stdio.h>
#include <stdlib.h>
#include <string.h>

#include "feed.h"
#include "make.h"

enum { RANDOM_FILES = 600, WORDS = 8 };

static char *program[WORDS + 1];
static struct text file, printed, must;
static struct course course;
static unsigned long met[13], met_built; /* cases in which this refusal, or an index, is printed */

/* ---- files */

static void frame(struct text *t, unsigned kind, unsigned first, unsigned second)
{
    char line[32];
    text_add(t, line, (size_t)snprintf(line, sizeof line, "%02u%04x%04x\n", kind % 100, first & 65535, second & 65535));
}

static void frames_of_listing(struct text *t, const struct course *c)
{
    frame(t, 1, c->n, c->k);
    for (unsigned u = 1; u <= c->tracks_len; u++)
        frame(t, 2, u, c->tracks[u - 1]);
    for (size_t i = 0; i + 1 < c->needs_len; i += 2)
        frame(t, 3, c->needs[i], c->needs[i + 1]);
    frame(t, 4, (unsigned)(c->needs_len / 2), 0);
}

/* a question of any kind, about units and tracks that are there, most of the time */
static void random_question(struct dice *d, struct text *t, const struct course *c)
{
    unsigned kind = (unsigned)between(d, 10, 18), second = 0;
    if (kind <= 11)
        second = (unsigned)below(d, c->n + 2u);
    else if (kind >= 17)
        second = (unsigned)below(d, c->k + 1u);
    frame(t, kind, (unsigned)below(d, c->n + (chance(d, 10) ? 2u : 1u)), second);
}

static void read_file(struct text *t, const char *path)
{
    char bytes[4096];
    size_t count;
    FILE *from = fopen(path, "rb");
    if (from == NULL) {
        perror(path);
        exit(2);
    }
    while ((count = fread(bytes, 1, sizeof bytes, from)) > 0)
        text_add(t, bytes, count);
    fclose(from);
}

/* ---- mutations of a file of eleven bytes a line; each makes the i-th */

enum { LINE = 11 };

static const unsigned char others[] = "0123456789abcdef" /* digits, and bytes that stand next to them or look like them: */
                                      "/:`gAFG@ \n\r\t\0\x7f\x80\xb0\xff";
enum { OTHERS = sizeof others - 1 };

static void whole(const struct text *base, size_t i)
{
    (void)i;
    text_add(&file, base->bytes, base->count);
}

static void byte_replaced(const struct text *base, size_t i)
{
    whole(base, 0);
    unsigned char by = others[i % OTHERS], *at = (unsigned char *)file.bytes + i / OTHERS;
    *at = *at == by ? (unsigned char)(by ^ 1) : by;
}

static void cut(const struct text *base, size_t i)
{
    text_add(&file, base->bytes, i);
}

static void line_dropped(const struct text *base, size_t i)
{
    text_add(&file, base->bytes, i * LINE);
    text_add(&file, base->bytes + (i + 1) * LINE, base->count - (i + 1) * LINE);
}

static void line_doubled(const struct text *base, size_t i)
{
    text_add(&file, base->bytes, (i + 1) * LINE);
    text_add(&file, base->bytes + i * LINE, base->count - i * LINE);
}

static void lines_swapped(const struct text *base, size_t i)
{
    whole(base, 0);
    memcpy(file.bytes + i * LINE, base->bytes + (i + 1) * LINE, LINE);
    memcpy(file.bytes + (i + 1) * LINE, base->bytes + i * LINE, LINE);
}

static void line_cut(const struct text *base, size_t i)
{
    size_t line = i / (LINE - 1), length = i % (LINE - 1);
    text_add(&file, base->bytes, line * LINE + length);
    text_add(&file, base->bytes + (line + 1) * LINE - 1, base->count - (line + 1) * LINE + 1);
}

static void byte_inserted(const struct text *base, size_t i)
{
    text_add(&file, base->bytes, i);
    text_add(&file, &others[i % OTHERS], 1);
    text_add(&file, base->bytes + i, base->count - i);
}

struct mutation {
    void (*make)(const struct text *base, size_t i);
    size_t per_byte, per_line; /* how many there are */
    bool sampled;              /* of a longer file, one in `share` */
};

static const struct mutation mutations[] = {
    {byte_replaced, OTHERS, 0, true}, {cut, 1, 0, false},           {line_dropped, 0, 1, false}, {line_doubled, 0, 1, false},
    {lines_swapped, 0, 1, false},     {line_cut, 0, LINE - 1, true}, {byte_inserted, 1, 0, true},
};
enum { MUTATIONS = sizeof mutations / sizeof *mutations };

struct base {
    struct text text;
    size_t share;
};

static struct base bases[3];

static size_t all_of(const struct mutation *m, const struct base *b)
{
    size_t all = m->per_byte * b->text.count + m->per_line * (b->text.count / LINE);
    return m->make == lines_swapped ? all - 1 : all;
}

static size_t chosen_of(const struct mutation *m, const struct base *b)
{
    return m->sampled ? all_of(m, b) / b->share : all_of(m, b);
}

/* the file of this case, if it is one of the mutated ones; else how many cases further on it is */
static bool make_mutated(uint64_t *at)
{
    for (unsigned b = 0; b < 3; b++)
        for (unsigned m = 0; m < MUTATIONS; m++) {
            size_t chosen = chosen_of(&mutations[m], &bases[b]);
            if (*at < chosen) {
                /* one in `share`, at random among its neighbours, so that every byte and every line is hit */
                size_t share = mutations[m].sampled ? bases[b].share : 1;
                struct dice d = dice_of(*at);
                mutations[m].make(&bases[b].text, *at * share + below(&d, share));
                return true;
            }
            *at -= chosen;
        }
    return false;
}

/* ---- files at the edges */

/* n = 1,024, k = 32, 8,192 needs, and questions up to line 65,535 */
static void longest_file(void)
{
    struct dice d = dice_of(65535);
    course = (struct course){.n = 1024, .k = 32, .tracks_len = 1024};
    for (unsigned u = 1; u <= 1024; u++) {
        course.tracks[u - 1] = (uint16_t)((u - 1) % 32);
        for (unsigned v = u > 34 ? u - 34 : 1; v < u; v++)
            if (u - v == 32 || (course.needs_len < 2 * 7200 && chance(&d, 30))) {
                course.needs[course.needs_len++] = (uint16_t)u;
                course.needs[course.needs_len++] = (uint16_t)v;
            }
    }
    frames_of_listing(&file, &course);
    while (file.count < 65535 * LINE)
        frame(&file, 10 + (unsigned)below(&d, 2), (unsigned)between(&d, 1, 1024), (unsigned)between(&d, 1, 1024));
}

static void head_at_an_edge(size_t i)
{
    static const unsigned ns[] = {0, 1, 1024, 1025, 65535}, ks[] = {0, 1, 32, 33, 65535};
    frame(&file, 1, ns[i % 5], ks[i / 5]);
    text_add(&file, "no frame\n", i % 2 == 0 ? 9 : 0);
}

/* every pair of 129 units in turn, the last one wrong or not, and an end or not */
static void needs_at_the_limit(unsigned pairs, unsigned last_v, bool end)
{
    frame(&file, 1, 129, 1);
    for (unsigned u = 1; u <= 129; u++)
        frame(&file, 2, u, 0);
    unsigned count = 0;
    for (unsigned u = 2; u <= 129; u++)
        for (unsigned v = 1; v < u && count < pairs; v++, count++)
            frame(&file, 3, u, count + 1 == pairs ? last_v : v);
    if (!end)
        return;
    frame(&file, 4, count, 0);
    frame(&file, 12, 129, 0);
}

enum { HEADS = 25, EDGES = HEADS + 12 };

static void make_edge(size_t i)
{
    if (i < HEADS) {
        head_at_an_edge(i);
        return;
    }
    i -= HEADS;
    if (i < 5)
        longest_file();
    switch (i) {
    case 0: break;
    case 1: frame(&file, 10, 1, 1); break;
    case 2: text_add(&file, "1000010001", 10); break;
    case 3: text_add(&file, "\n", 1); break;
    case 4: text_add(&file, "1000010001 \n", 12); break;
    case 5: needs_at_the_limit(8192, 64, true); break;
    case 6: needs_at_the_limit(8193, 65, true); break;
    case 7: needs_at_the_limit(8193, 0, true); break;
    case 8: needs_at_the_limit(8193, 65, false); break;
    case 9: needs_at_the_limit(8193, 0, false); break;
    case 10: break; /* the empty file */
    default: /* a line of a million bytes */
        for (unsigned n = 0; n < 100000; n++)
            text_add(&file, "0100010001", 10);
    }
}

/* ---- random files */

static void make_random(uint64_t i)
{
    struct dice d = dice_of(i);
    make_course(&d, (enum shape)(i % SHAPES), i % 10 == 0 ? 120 : 16, &course);
    if (chance(&d, 15))
        make_unsound(&d, &course);
    for (size_t ways = chance(&d, 30) ? between(&d, 1, 2) : 0; ways > 0; ways--)
        break_listing(&d, &course);
    frames_of_listing(&file, &course);
    for (size_t questions = below(&d, 60); questions > 0; questions--)
        random_question(&d, &file, &course);
}

/* ---- a case */

static void count_what_is_met(void)
{
    bool seen[13] = {false};
    for (size_t at = 0; at + 10 <= must.count; at++)
        if (memcmp(must.bytes + at, "refused ", 8) == 0)
            seen[(must.bytes[at + 8] - '0') * 10 + must.bytes[at + 9] - '0'] = true;
    for (unsigned number = 1; number <= 12; number++)
        met[number] += seen[number];
    met_built += must.count >= 6 && memcmp(must.bytes, "built ", 6) == 0;
}

static void one(uint64_t seed)
{
    uint64_t at = seed - 1;
    struct dice d = dice_of(seed);
    text_clear(&file);
    text_clear(&printed);
    text_clear(&must);
    if (!make_mutated(&at)) {
        if (at < EDGES)
            make_edge(at);
        else
            make_random(at);
    }
    course_prints((const unsigned char *)file.bytes, file.count, &must);
    count_what_is_met();
    size_t piece = chance(&d, 10) && file.count < 10000 ? between(&d, 1, 40) : 1 << 20;
    enum fed fed = feed(program, &file, piece, &printed);
    if (fed != ENDED)
        wrong("the program %s", fed == STUCK ? "did not end" : "crashed");
    else if (printed.count != must.count || memcmp(printed.bytes, must.bytes, must.count) != 0) {
        size_t same = 0;
        while (same < printed.count && same < must.count && printed.bytes[same] == must.bytes[same])
            same++;
        wrong("a file of %zu bytes: after %zu bytes that are right it printed '%.*s', must print '%.*s'", file.count, same,
              (int)(printed.count - same < 60 ? printed.count - same : 60), printed.bytes + same,
              (int)(must.count - same < 60 ? must.count - same : 60), must.bytes + same);
    }
}

static void make_bases(void)
{
    struct dice d = dice_of(40);
    read_file(&bases[0].text, "samples/printed.course");
    read_file(&bases[1].text, "samples/six.course");
    do
        make_course(&d, MIXED, 40, &course);
    while (course.n < 30 || course.k < 4 || course.needs_len < 60);
    frames_of_listing(&bases[2].text, &course);
    for (unsigned i = 0; i < 100; i++)
        random_question(&d, &bases[2].text, &course);
    bases[0].share = 1;
    bases[1].share = 8;
    bases[2].share = 16;
}

int main(int argc, char **argv)
{
    char *words = getenv("COURSE");
    if (words == NULL) {
        fprintf(stderr, "COURSE names no program\n");
        return 2;
    }
    for (unsigned i = 0; i < WORDS && (program[i] = strtok(i == 0 ? words : NULL, " ")) != NULL;)
        i++;
    make_bases();
    uint64_t count = EDGES + RANDOM_FILES;
    for (unsigned b = 0; b < 3; b++)
        for (unsigned m = 0; m < MUTATIONS; m++)
            count += chosen_of(&mutations[m], &bases[b]);
    trials(argc, argv, "course_files", count, one);
    must_have_met("files that build", met_built, 2000);
    for (unsigned number = 1; number <= 12; number++)
        if (number != 6 && number != 9 && number != 10)
            must_have_met("each refusal of the program", met[number], 40);
    return trials_end();
}

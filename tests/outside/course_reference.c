/* An independent reading of document 01's "Course files": see course_reference.h. The answers are by the course's paths, and by no vector. */
#include "course_reference.h"

#include <stdarg.h>
#include <stdio.h>
#include <stdlib.h>
#include <string.h>

#include "reference.h"

enum { LINES = 65535, DIGITS = 10 };

/* ---- text */

void text_add(struct text *t, const void *bytes, size_t count)
{
    if (t->count + count > t->room) {
        t->room = 2 * (t->count + count) + 1024;
        t->bytes = realloc(t->bytes, t->room);
        if (t->bytes == NULL)
            exit(2);
    }
    memcpy(t->bytes + t->count, bytes, count);
    t->count += count;
}

void text_clear(struct text *t)
{
    t->count = 0;
}

__attribute__((format(printf, 2, 3))) static void print(struct text *out, const char *format, ...)
{
    char line[64];
    va_list values;
    va_start(values, format);
    int count = vsnprintf(line, sizeof line, format, values);
    va_end(values);
    text_add(out, line, (size_t)count);
}

/* ---- frames */

struct frame {
    char kind[3]; /* the two digits as they are written */
    unsigned first, second;
};

static int digit(unsigned char c)
{
    const char *digits = "0123456789abcdef", *at = c == 0 ? NULL : strchr(digits, c);
    return at == NULL ? -1 : (int)(at - digits);
}

/* a line without its line feed: whether it is a frame, and which */
static bool read_frame(const unsigned char *line, size_t count, struct frame *f)
{
    unsigned value[DIGITS];
    if (count != DIGITS)
        return false;
    for (unsigned i = 0; i < DIGITS; i++) {
        if (digit(line[i]) < 0)
            return false;
        value[i] = (unsigned)digit(line[i]);
    }
    memcpy(f->kind, line, 2);
    f->kind[2] = 0;
    f->first = value[2] * 4096 + value[3] * 256 + value[4] * 16 + value[5];
    f->second = value[6] * 4096 + value[7] * 256 + value[8] * 16 + value[9];
    return true;
}

static bool is_kind(const struct frame *f, const char *kind)
{
    return strcmp(f->kind, kind) == 0;
}

/* ---- the order of frames */

struct card {
    bool head_read, built;
    unsigned n, k;
    uint16_t tracks[UNITS];
    size_t tracks_len;
    uint16_t needs[2 * NEEDS];
    size_t needs_len;
};

static struct card card;
static struct walk walk;

static bool refuse(struct text *out, unsigned number, size_t place)
{
    print(out, "refused %02u %08zx\n", number, place);
    return false;
}

/* each of these: whether the program goes on after the frame */

static bool take_head(const struct frame *f, size_t line, struct text *out)
{
    if (!is_kind(f, "01"))
        return refuse(out, 12, line);
    if (f->first < 1 || f->first > UNITS || f->second < 1 || f->second > TRACKS)
        return refuse(out, 1, 0);
    card.head_read = true;
    card.n = f->first;
    card.k = f->second;
    return true;
}

static bool take_track(const struct frame *f, size_t line, struct text *out)
{
    if (!is_kind(f, "02") || f->first != card.tracks_len + 1)
        return refuse(out, 12, line);
    card.tracks[card.tracks_len++] = (uint16_t)f->second;
    return true;
}

static bool take_end(const struct frame *f, size_t line, struct text *out)
{
    if (f->first != card.needs_len / 2 || f->second != 0)
        return refuse(out, 12, line);
    struct listing l = {(uint16_t)card.n, (uint16_t)card.k, card.tracks, card.tracks_len, card.needs, card.needs_len};
    ngolishepa_refusal r = reference_listing(&l);
    if (r.number == 0) {
        reference_walk(&l, &walk);
        r = walk_soundness(&walk);
    }
    if (r.number != 0)
        return refuse(out, r.number, r.place);
    card.built = true;
    print(out, "built %08x\n", 2 * card.n * (card.k - 1));
    return true;
}

static bool take_need(const struct frame *f, size_t line, struct text *out)
{
    if (is_kind(f, "04"))
        return take_end(f, line, out);
    if (!is_kind(f, "03"))
        return refuse(out, 12, line);
    if (card.needs_len == 2 * NEEDS)
        return refuse(out, 1, 0);
    card.needs[card.needs_len++] = (uint16_t)f->first;
    card.needs[card.needs_len++] = (uint16_t)f->second;
    return true;
}

/* ---- questions */

static bool in_list(unsigned kind, unsigned u, unsigned v)
{
    switch (kind) {
    case 12: return walk.needs[u][v];
    case 13: return walk.needs[v][u];
    case 14: return walk_step(&walk, u, v);
    default: return walk_step(&walk, v, u);
    }
}

static void print_list(unsigned kind, unsigned u, struct text *out)
{
    unsigned units[UNITS], count = 0;
    for (unsigned v = 1; v <= card.n; v++)
        if (in_list(kind, u, v))
            units[count++] = v;
    print(out, "%04x", count);
    for (unsigned i = 0; i < count; i++)
        print(out, " %04x", units[i]);
    print(out, "\n");
}

static bool is_unit(unsigned u)
{
    return u >= 1 && u <= card.n;
}

static void answer(unsigned kind, unsigned first, unsigned second, struct text *out)
{
    bool pair = kind <= 11, track = kind >= 17;
    if (!is_unit(first))
        refuse(out, 8, 1);
    else if ((pair && !is_unit(second)) || (track && second >= card.k))
        refuse(out, 8, 2);
    else if (pair)
        print(out, (kind == 10 ? walk.needs[first][second] : walk_step(&walk, first, second)) ? "yes\n" : "no\n");
    else if (kind <= 15)
        print_list(kind, first, out);
    else if (kind == 16)
        print(out, "%04x\n", walk_stage(&walk, first));
    else
        print(out, "%04x\n", walk.unit_at[second][kind == 17 ? walk.low[first][second] : walk.high[first][second]]);
}

static bool take_question(const struct frame *f, size_t line, struct text *out)
{
    static const char *const kinds[] = {"10", "11", "12", "13", "14", "15", "16", "17", "18"};
    unsigned i = 0;
    while (i < 9 && !is_kind(f, kinds[i]))
        i++;
    bool filler = i >= 2 && i <= 6;
    if (i == 9 || (filler && f->second != 0))
        return refuse(out, 12, line);
    answer(10 + i, f->first, f->second, out);
    return true;
}

/* ---- the file */

static bool take_frame(const struct frame *f, size_t line, struct text *out)
{
    if (line > LINES)
        return refuse(out, 12, line);
    if (card.built)
        return take_question(f, line, out);
    if (!card.head_read)
        return take_head(f, line, out);
    if (card.tracks_len < card.n)
        return take_track(f, line, out);
    return take_need(f, line, out);
}

void course_prints(const unsigned char *file, size_t count, struct text *out)
{
    size_t line = 1, at = 0;
    card.head_read = card.built = false;
    card.tracks_len = card.needs_len = 0;
    for (; at < count; line++) {
        const unsigned char *feed = memchr(file + at, '\n', count - at);
        struct frame f;
        if (feed == NULL || !read_frame(file + at, (size_t)(feed - (file + at)), &f)) {
            refuse(out, 11, line);
            return;
        }
        if (!take_frame(&f, line, out))
            return;
        at = (size_t)(feed - file) + 1;
    }
    if (!card.built)
        refuse(out, 12, line);
}

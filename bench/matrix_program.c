/* The course program once more, with bit matrices: the same course files, the same printed lines and refusals. */
#include "matrix.h"

#include <string.h>
#include <unistd.h>

enum { MAX_LINES = 65535, LINE = 11, BLOCK = 64 * 1024, LONGEST = 5 * (MAX_UNITS + 1) };

typedef struct {
    unsigned kind, a, b;
} frame;

typedef struct {
    uint16_t tracks[MAX_UNITS], needs[2 * MAX_NEEDS];
    plain_listing listing;
    unsigned tracks_read, needs_read;
    bool built;
    matrix index;
    matrix_row members[MAX_TRACKS];
} course;

static course card;
static char out[BLOCK + LONGEST];
static size_t out_len;

/* ---- printing */

static void flush(void)
{
    for (size_t done = 0; done < out_len;) {
        ssize_t wrote = write(1, out + done, out_len - done);
        if (wrote <= 0)
            _exit(1);
        done += (size_t)wrote;
    }
    out_len = 0;
}

static inline void put(const char *text, size_t len)
{
    memcpy(out + out_len, text, len);
    out_len += len;
}

static void put_hex(uint32_t number, int digits)
{
    for (int shift = 4 * digits - 4; shift >= 0; shift -= 4)
        out[out_len++] = "0123456789abcdef"[number >> shift & 15];
}

static void end_line(void)
{
    out[out_len++] = '\n';
    if (out_len >= BLOCK)
        flush();
}

static void put_refusal(plain_refusal r)
{
    char number[2] = {(char)('0' + r.number / 10), (char)('0' + r.number % 10)};
    put("refused ", 8);
    put(number, 2);
    put(" ", 1);
    put_hex(r.place, 8);
    end_line();
}

static void put_units(const matrix_row row)
{
    uint16_t units[MAX_UNITS];
    plain_answer list = matrix_list(&card.index, row, (plain_room){units, MAX_UNITS, 0});
    put_hex(list.number, 4);
    for (unsigned c = 0; c < list.number; c++) {
        put(" ", 1);
        put_hex(units[c], 4);
    }
    end_line();
}

static void put_number(unsigned number)
{
    put_hex(number, 4);
    end_line();
}

static void put_yes(bool yes)
{
    static const char WORDS[2][4] = {"no", "yes"};
    memcpy(out + out_len, WORDS[yes], 4);
    out_len += yes ? 3 : 2;
    end_line();
}

/* ---- the questions */

/* the last unit of track q in a row, or the first; 0 if none */
static unsigned last_common(const matrix_row row, unsigned q)
{
    for (unsigned j = ROW; j > 0; j--) {
        uint64_t w = row[j - 1] & card.members[q][j - 1];
        if (w)
            return 64 * j - (unsigned)__builtin_clzll(w);
    }
    return 0;
}

static unsigned first_common(const matrix_row row, unsigned q)
{
    for (unsigned j = 0; j < ROW; j++) {
        uint64_t w = row[j] & card.members[q][j];
        if (w)
            return 64 * j + 1 + (unsigned)__builtin_ctzll(w);
    }
    return 0;
}

/* which of the two numbers names no unit or no track, or 0 */
static unsigned bad_argument(frame f)
{
    if (f.a < 1 || f.a > card.listing.n)
        return 1;
    if (f.kind <= 0x11)
        return f.b < 1 || f.b > card.listing.n ? 2 : 0;
    return f.kind >= 0x17 && f.b >= card.listing.k ? 2 : 0;
}

static void answer(frame f)
{
    const matrix *m = &card.index;
    unsigned row = f.a - 1;
    switch (f.kind) {
    case 0x10: put_yes(matrix_bit(m->needed, f.a, f.b)); break;
    case 0x11: put_yes(matrix_bit(m->steps, f.a, f.b)); break;
    case 0x12: put_units(m->needed[row]); break;
    case 0x13: put_units(m->needing[row]); break;
    case 0x14: put_units(m->steps[row]); break;
    case 0x15: put_units(m->steps_up[row]); break;
    case 0x16: put_number(m->stages[row]); break;
    case 0x17: put_number(last_common(m->needed[row], f.b)); break;
    case 0x18: put_number(first_common(m->needing[row], f.b)); break;
    }
}

/* ---- the order of frames: each answers the refusal that stops the program, or number 0 */

static const plain_refusal GO_ON = {0, 0};

static plain_refusal question(frame f, uint32_t line)
{
    if (f.kind < 0x10 || f.kind > 0x18 || (f.kind >= 0x12 && f.kind <= 0x16 && f.b))
        return (plain_refusal){12, line};
    unsigned bad = bad_argument(f);
    if (bad)
        put_refusal((plain_refusal){8, bad});
    else
        answer(f);
    return GO_ON;
}

static plain_refusal head(frame f, uint32_t line)
{
    if (f.kind != 0x01)
        return (plain_refusal){12, line};
    if (f.a < 1 || f.a > MAX_UNITS || f.b < 1 || f.b > MAX_TRACKS)
        return (plain_refusal){1, 0};
    card.listing = (plain_listing){card.tracks, card.needs, f.a, 0, (uint16_t)f.a, (uint16_t)f.b};
    return GO_ON;
}

static plain_refusal track(frame f, uint32_t line)
{
    if (f.kind != 0x02 || f.a != card.tracks_read + 1)
        return (plain_refusal){12, line};
    card.tracks[card.tracks_read++] = (uint16_t)f.b;
    return GO_ON;
}

static plain_refusal need(frame f)
{
    if (card.needs_read == MAX_NEEDS)
        return (plain_refusal){1, 0};
    card.needs[2 * card.needs_read] = (uint16_t)f.a;
    card.needs[2 * card.needs_read++ + 1] = (uint16_t)f.b;
    return GO_ON;
}

static plain_refusal end_of_listing(frame f, uint32_t line)
{
    if (f.kind != 0x04 || f.a != card.needs_read || f.b)
        return (plain_refusal){12, line};
    card.listing.needs_len = 2 * card.needs_read;
    plain_refusal r = matrix_build(&card.listing, &card.index);
    if (r.number)
        return r;
    for (unsigned u = 0; u < card.listing.n; u++)
        card.members[card.tracks[u]][u / 64] |= (uint64_t)1 << u % 64;
    card.built = true;
    put("built ", 6);
    put_hex(2u * card.listing.n * (card.listing.k - 1u), 8);
    end_line();
    return GO_ON;
}

static plain_refusal take(frame f, uint32_t line)
{
    if (line > MAX_LINES)
        return (plain_refusal){12, line};
    if (card.built)
        return question(f, line);
    if (!card.listing.n)
        return head(f, line);
    if (card.tracks_read < card.listing.n)
        return track(f, line);
    return f.kind == 0x03 ? need(f) : end_of_listing(f, line);
}

/* ---- reading */

/* A line of eleven bytes as a frame, unless it is none. */
static bool read_frame(const unsigned char *line, frame *f)
{
    static const signed char values[256] = {
        ['0'] = 1, ['1'] = 2, ['2'] = 3, ['3'] = 4, ['4'] = 5, ['5'] = 6, ['6'] = 7, ['7'] = 8,
        ['8'] = 9, ['9'] = 10, ['a'] = 11, ['b'] = 12, ['c'] = 13, ['d'] = 14, ['e'] = 15, ['f'] = 16,
    };
    uint64_t number = 0;
    int worst = line[LINE - 1] == '\n' ? 0 : -1;
    for (unsigned c = 0; c < LINE - 1; c++) {
        int digit = values[line[c]] - 1;
        worst |= digit;
        number = number << 4 | (unsigned)(digit & 15);
    }
    *f = (frame){(unsigned)(number >> 32), number >> 16 & 0xffff, number & 0xffff};
    return worst >= 0;
}

/* A good line has eleven bytes and any other stops the program, so the input is taken by elevens. */
static plain_refusal take_all(void)
{
    static unsigned char block[BLOCK];
    size_t len = 0;
    uint32_t line = 0;
    for (;;) {
        ssize_t got = read(0, block + len, sizeof block - len);
        if (got < 0)
            _exit(1);
        len += (size_t)got;
        size_t at = 0;
        for (; len - at >= LINE; at += LINE) {
            frame f;
            line++;
            if (!read_frame(block + at, &f))
                return (plain_refusal){11, line};
            plain_refusal r = take(f, line);
            if (r.number)
                return r;
        }
        memmove(block, block + at, len - at);
        len -= at;
        if (got == 0)
            break;
    }
    if (len)
        return (plain_refusal){11, line + 1};
    return card.built ? GO_ON : (plain_refusal){12, line + 1};
}

int main(void)
{
    plain_refusal r = take_all();
    if (r.number)
        put_refusal(r);
    flush();
    return 0;
}

/* Areas as they are lent to a call: see lend.h. */
#include "lend.h"

#include <stdio.h>
#include <stdlib.h>
#include <string.h>
#include <sys/mman.h>

enum { PAGE = 65536 }; /* a multiple of every machine's page */

struct area area_of(size_t bytes)
{
    struct area a = {NULL, NULL, 0, 0, 0, true};
    a.bytes = (bytes + 2 * GUARD + PAGE - 1) / PAGE * PAGE;
    unsigned char *memory = mmap(NULL, a.bytes + 2 * PAGE, PROT_NONE, MAP_PRIVATE | MAP_ANONYMOUS, -1, 0);
    a.kept = malloc(a.bytes);
    if (memory == MAP_FAILED || a.kept == NULL || mprotect(memory + PAGE, a.bytes, PROT_READ | PROT_WRITE) != 0) {
        perror("memory for an area");
        exit(2);
    }
    a.room = memory + PAGE;
    return a;
}

static uint64_t salt;

void lendings_from(uint64_t seed)
{
    salt = seed;
}

static void noise(unsigned char *bytes, size_t count)
{
    for (size_t i = 0; i < count; i++) {
        salt = salt * 6364136223846793005u + 1442695040888963407u;
        bytes[i] = (unsigned char)(salt >> 56);
    }
}

void lend(struct area *a, size_t bytes, const void *from, bool fenced)
{
    a->length = bytes;
    a->start = a->bytes - bytes - (fenced ? 0 : GUARD);
    a->nowhere = bytes == 0 && !fenced;
    noise(a->room + a->start - GUARD, GUARD);
    noise(a->room + a->start + bytes, fenced ? 0 : GUARD);
    if (from == NULL)
        noise(a->room + a->start, bytes);
    else
        memcpy(a->room + a->start, from, bytes);
    memcpy(a->kept + a->start - GUARD, a->room + a->start - GUARD, a->bytes - (a->start - GUARD));
}

void *lent(const struct area *a)
{
    return a->nowhere ? NULL : a->room + a->start;
}

void *must_hold(const struct area *a)
{
    return a->kept + a->start;
}

bool area_kept(const struct area *a)
{
    size_t from = a->start - GUARD;
    return memcmp(a->room + from, a->kept + from, a->bytes - from) == 0;
}

long first_changed(const struct area *a, size_t entry_bytes)
{
    size_t at = a->start - GUARD;
    while (at < a->bytes && a->room[at] == a->kept[at])
        at++;
    return ((long)at - (long)a->start - (at < a->start ? (long)entry_bytes - 1 : 0)) / (long)entry_bytes;
}

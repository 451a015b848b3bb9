/* Areas as they are lent to a call. Each stands between guard entries or right before a page that nobody may touch, and beside it is kept
 * what every byte of it must be after the call, so that nothing but the named entries can change unseen. */
#ifndef LEND_H
#define LEND_H

#include <stdbool.h>
#include <stddef.h>
#include <stdint.h>

enum { GUARD = 64 }; /* bytes kept before and after an area */

struct area {
    unsigned char *room, *kept; /* the memory, and what it must hold */
    size_t bytes;               /* of the memory, whole pages */
    size_t start, length;       /* the lent part, in bytes */
    bool nowhere;               /* it has no entries, and is lent as a null pointer */
};

/* what is noise from here on follows from the seed */
void lendings_from(uint64_t seed);

/* memory for an area of at most so many bytes, with a forbidden page at each end */
struct area area_of(size_t bytes);

/* Lends so many bytes, with contents copied from `from`, or as they are lent from NULL: noise. Fenced: the area ends where the forbidden
 * page begins, so that reading past its end is caught too. No bytes: a null pointer, or fenced the forbidden page itself. */
void lend(struct area *a, size_t bytes, const void *from, bool fenced);

/* the lent part, for the call; and what it must hold, for the reference to write */
void *lent(const struct area *a);
void *must_hold(const struct area *a);

/* every byte of the area and of its guards is what it must be */
bool area_kept(const struct area *a);
/* the first entry, of so many bytes, that is not; before the area: negative */
long first_changed(const struct area *a, size_t entry_bytes);

#endif

/* An independent reading of document 01's "Course files": what the course program prints for any bytes on its standard input. */
#ifndef COURSE_REFERENCE_H
#define COURSE_REFERENCE_H

#include <stddef.h>

/* text that grows */
struct text {
    char *bytes;
    size_t count, room;
};

void text_add(struct text *t, const void *bytes, size_t count);
void text_clear(struct text *t);

/* adds what the program prints */
void course_prints(const unsigned char *file, size_t count, struct text *out);

#endif

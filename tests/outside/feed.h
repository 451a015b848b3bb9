/* A program run on given bytes, through pipes. */
#ifndef FEED_H
#define FEED_H

#include "course_reference.h"

enum fed { ENDED, CRASHED, STUCK };

/* Runs the program (its words, and NULL) with the file on its standard input, written in pieces of so many bytes, and adds what it prints. One
 * that prints nothing and reads nothing for a long time is ended: stuck. */
enum fed feed(char *const *program, const struct text *file, size_t piece, struct text *out);

#endif

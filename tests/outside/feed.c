/* A program run on given bytes, through pipes: see feed.h. */
#define _GNU_SOURCE
#include "feed.h"

#include <errno.h>
#include <fcntl.h>
#include <poll.h>
#include <signal.h>
#include <spawn.h>
#include <stdbool.h>
#include <stdio.h>
#include <stdlib.h>
#include <sys/wait.h>
#include <unistd.h>

enum { PATIENCE = 60000 }; /* milliseconds */

extern char **environ;

static void need(bool holds, const char *what)
{
    if (!holds) {
        perror(what);
        exit(2);
    }
}

/* the program with its standard input and output on our pipes, whose other ends are to and from */
static pid_t start(char *const *program, int *to, int *from)
{
    int in[2], out[2];
    pid_t child;
    posix_spawn_file_actions_t actions;
    need(pipe2(in, O_CLOEXEC) == 0 && pipe2(out, O_CLOEXEC) == 0, "pipes");
    need(posix_spawn_file_actions_init(&actions) == 0, "spawn");
    need(posix_spawn_file_actions_adddup2(&actions, in[0], 0) == 0, "spawn");
    need(posix_spawn_file_actions_adddup2(&actions, out[1], 1) == 0, "spawn");
    errno = posix_spawnp(&child, program[0], &actions, NULL, program, environ);
    need(errno == 0, program[0]);
    posix_spawn_file_actions_destroy(&actions);
    close(in[0]);
    close(out[1]);
    need(fcntl(in[1], F_SETFL, O_NONBLOCK) == 0, "pipes");
    *to = in[1];
    *from = out[0];
    return child;
}

/* writes a piece; whether there is more to write to this reader */
static bool write_piece(int to, const struct text *file, size_t piece, size_t *at)
{
    size_t left = file->count - *at;
    ssize_t done = write(to, file->bytes + *at, left < piece ? left : piece);
    if (done > 0)
        *at += (size_t)done;
    return *at < file->count && (done >= 0 || errno == EAGAIN);
}

/* whether there is more to come */
static bool read_some(int from, struct text *out)
{
    char bytes[65536];
    ssize_t done = read(from, bytes, sizeof bytes);
    if (done > 0)
        text_add(out, bytes, (size_t)done);
    return done > 0;
}

enum fed feed(char *const *program, const struct text *file, size_t piece, struct text *out)
{
    int to, from, status;
    size_t at = 0;
    bool stuck = false, reading = true;
    signal(SIGPIPE, SIG_IGN); /* a program that stops leaves the rest of its input unread */
    pid_t child = start(program, &to, &from);
    while (reading && !stuck) {
        struct pollfd ends[2] = {{from, POLLIN, 0}, {to, POLLOUT, 0}};
        stuck = poll(ends, to < 0 ? 1 : 2, PATIENCE) <= 0;
        if (to >= 0 && ends[1].revents != 0 && !write_piece(to, file, piece, &at)) {
            close(to);
            to = -1;
        }
        if (ends[0].revents != 0)
            reading = read_some(from, out);
    }
    if (stuck)
        kill(child, SIGKILL);
    if (to >= 0)
        close(to);
    close(from);
    need(waitpid(child, &status, 0) == child, "wait");
    return stuck ? STUCK : WIFEXITED(status) ? ENDED : CRASHED;
}

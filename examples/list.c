/* Lists a console capture from standard input through clp.h: the records of each line, as soon as the line has ended. Where reading or writing fails it
 * says so on standard error, with the number of lines listed, and ends with status 1. */
#define _POSIX_C_SOURCE 200809L
#include <errno.h>
#include <poll.h>
#include <stdio.h>
#include <stdlib.h>
#include <string.h>
#include <unistd.h>
#include "clp.h"

static uint8_t part[65536];             /* what was read of the capture */
static uint8_t buffer[CLP_LINE_BYTES];  /* the joiner's line buffer */
static uint8_t room[CLP_READING_BYTES]; /* one line's records */
static uint8_t text[65536];             /* text that waits to be written */
static size_t waiting;                  /* how many bytes of it */
static unsigned long long listed;       /* lines whose text has been written */
static unsigned long long added;        /* lines whose text waits */

/* Ends the program: what failed, how far it came, and why. */
static void fail(const char *what, const char *why)
{
    fprintf(stderr, "list: %s failed after %llu lines: %s\n", what, listed, why);
    exit(1);
}

/* After a call that failed: comes back where it was interrupted, and, where it would have had to wait, when it need not. Ends the program otherwise; without
 * a word where nobody reads the output any more. */
static void again(const char *what, int fd, short events)
{
    struct pollfd one = {fd, events, 0};
    if (errno == EINTR)
        return;
    if (errno == EPIPE)
        exit(1);
    if (errno != EAGAIN && errno != EWOULDBLOCK)
        fail(what, strerror(errno));
    poll(&one, 1, -1);
}

/* Writes all that waits. */
static void flush(void)
{
    size_t done = 0;
    while (done < waiting) {
        ssize_t put = write(STDOUT_FILENO, text + done, waiting - done);
        if (put < 0)
            again("writing", STDOUT_FILENO, POLLOUT);
        else
            done += (size_t)put;
    }
    waiting = 0;
    listed += added;
    added = 0;
}

/* Adds the text of the records that stand at the room's start to what waits, which is written where little room is left. */
static void add(uint64_t length)
{
    if (sizeof text - waiting < CLP_TEXT_BYTES)
        flush();
    clp_answer t = clp_records_text(room, length, text + waiting, sizeof text - waiting);
    if (t.number != 0)
        fail("listing", "records were refused");
    waiting += t.value;
}

int main(void)
{
    uint64_t state = 0;
    for (;;) {
        ssize_t got = read(STDIN_FILENO, part, sizeof part);
        if (got == 0)
            break;
        if (got < 0) {
            again("reading", STDIN_FILENO, POLLIN);
            continue;
        }
        size_t at = 0;
        while (at < (size_t)got) {
            clp_joined a = clp_list(state, buffer, sizeof buffer, part + at, (size_t)got - at, room, sizeof room);
            if (a.number != 0)
                fail("listing", "joining was refused");
            state = a.state;
            at += a.used;
            if (a.value != CLP_NONE) {
                add(a.value);
                added++;
            }
        }
        flush();
    }
    clp_answer end = clp_list_end(state, room, sizeof room);
    if (end.value > 0)
        add(end.value);
    flush();
    return 0;
}

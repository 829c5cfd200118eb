/* Runs a lister, or clpexplain, with its input or its output at a pipe or a socket, and says on standard error where it does not do as it should.
 *     pipes live PROGRAM             each line's records come while the input is still open
 *     pipes pauses PROGRAM           a non-blocking input with pauses: no line is lost, and the lister sleeps meanwhile
 *     pipes stops PROGRAM            reads that are interrupted: the lister is stopped while it reads, and goes on
 *     pipes slow PROGRAM CAPTURE     a non-blocking output that is full: what comes out goes to standard output
 *     pipes held PROGRAM CAPTURE     writes that are interrupted, likewise
 *     pipes parts PROGRAM CAPTURE    the capture in small parts, one to each read
 *     pipes memory PROGRAM CAPTURE   how many kB of stack and of resident memory were most, once all of the capture is read */
#define _GNU_SOURCE
#include <errno.h>
#include <fcntl.h>
#include <poll.h>
#include <signal.h>
#include <stdio.h>
#include <stdlib.h>
#include <string.h>
#include <sys/ioctl.h>
#include <sys/prctl.h>
#include <sys/resource.h>
#include <sys/socket.h>
#include <sys/time.h>
#include <sys/wait.h>
#include <unistd.h>

enum { PATIENCE = 10000 }; /* milliseconds that an event is waited for */

static pid_t child;

/* The text of a line `show`, of `cd`, of a blank one, and of a cut. */
static struct {
    const char *show, *cd, *blank, *cut;
} text = {"verb 10\n", "verb 1\n", "blank\n", "cut\n"};

static void fail(const char *what)
{
    fprintf(stderr, "pipes: %s\n", what);
    if (child > 0)
        kill(child, SIGKILL);
    exit(1);
}

static void nap(int milliseconds)
{
    poll(NULL, 0, milliseconds);
}

/* Both ends of a pipe or of a socket, which a program that is started does not inherit. */
static void ends(int fds[2], int flags)
{
    if (pipe2(fds, O_CLOEXEC | flags) != 0)
        fail("no pipe");
}

static void sockets(int fds[2])
{
    if (socketpair(AF_UNIX, SOCK_STREAM | SOCK_CLOEXEC, 0, fds) != 0)
        fail("no socket");
}

static void nonblocking(int fd)
{
    if (fcntl(fd, F_SETFL, fcntl(fd, F_GETFL) | O_NONBLOCK) != 0)
        fail("a descriptor can't be made non-blocking");
}

/* With a time limit on a socket, a call that waits there fails with EINTR where the process is stopped and goes on. */
static void limited(int fd)
{
    struct timeval limit = {1000, 0};
    if (setsockopt(fd, SOL_SOCKET, SO_RCVTIMEO, &limit, sizeof limit) != 0 || setsockopt(fd, SOL_SOCKET, SO_SNDTIMEO, &limit, sizeof limit) != 0)
        fail("a socket can't be given a time limit");
}

static void start(const char *program, int in, int out)
{
    child = fork();
    if (child < 0)
        fail("no process");
    if (child > 0)
        return;
    prctl(PR_SET_PDEATHSIG, SIGKILL);
    signal(SIGPIPE, SIG_DFL);
    dup2(in, STDIN_FILENO);
    dup2(out, STDOUT_FILENO);
    execl(program, program, (char *)NULL);
    _exit(127);
}

static void give(int fd, const char *bytes)
{
    size_t n = strlen(bytes);
    if (write(fd, bytes, n) != (ssize_t)n)
        fail("the input takes nothing more");
}

/* The next bytes that come are these. */
static void expect(int fd, const char *bytes)
{
    size_t n = strlen(bytes);
    char got[256];
    for (size_t at = 0; at < n;) {
        struct pollfd one = {fd, POLLIN, 0};
        if (poll(&one, 1, PATIENCE) <= 0)
            fail("no records came while the input was open");
        ssize_t k = read(fd, got, n - at);
        if (k == 0)
            fail("the output ended too early");
        if (k < 0 || memcmp(got, bytes + at, (size_t)k) != 0)
            fail("other bytes came than expected");
        at += (size_t)k;
    }
}

/* No more bytes come, and the lister ends well; tells how many milliseconds of the processor it took. */
static long ended(int fd)
{
    char one;
    struct rusage used;
    int status;
    if (fd >= 0 && read(fd, &one, 1) != 0)
        fail("more bytes came than expected");
    if (wait4(child, &status, 0, &used) != child || !WIFEXITED(status) || WEXITSTATUS(status) != 0)
        fail("the lister did not end well");
    return (used.ru_utime.tv_sec + used.ru_stime.tv_sec) * 1000 + (used.ru_utime.tv_usec + used.ru_stime.tv_usec) / 1000;
}

/* What the system says of the lister, from a key on. */
static const char *known(const char *key)
{
    static char said[8192];
    char name[64];
    snprintf(name, sizeof name, "/proc/%ld/status", (long)child);
    FILE *f = fopen(name, "r");
    if (f == NULL)
        fail("there is no /proc to look at the lister");
    size_t n = fread(said, 1, sizeof said - 1, f);
    fclose(f);
    said[n] = 0;
    const char *at = strstr(said, key);
    return at == NULL ? "" : at + strlen(key);
}

/* Waits until the lister sleeps. */
static void asleep(void)
{
    for (int i = 0; i < PATIENCE; i++) {
        if (strncmp(known("\nState:"), "\tS", 2) == 0)
            return;
        nap(1);
    }
    fail("the lister does not come to rest");
}

/* Stops the lister while it waits, and lets it go on. */
static void interrupt(void)
{
    int status;
    asleep();
    kill(child, SIGSTOP);
    if (waitpid(child, &status, WUNTRACED) != child || !WIFSTOPPED(status))
        fail("the lister ended too early");
    kill(child, SIGCONT);
}

/* All that comes goes to standard output. */
static void pass_on(int fd)
{
    static char bytes[65536];
    ssize_t n;
    while ((n = read(fd, bytes, sizeof bytes)) > 0)
        if (write(STDOUT_FILENO, bytes, (size_t)n) != n)
            fail("standard output takes nothing more");
    if (n < 0)
        fail("the output can't be read");
}

static void live(const char *program)
{
    int in[2], out[2];
    ends(in, 0);
    ends(out, 0);
    start(program, in[0], out[1]);
    close(out[1]);
    give(in[1], "show\n");
    expect(out[0], text.show);
    give(in[1], "c");
    give(in[1], "d\r");
    expect(out[0], text.cd);
    give(in[1], "\nshow\n\nsh");
    expect(out[0], text.show);
    expect(out[0], text.blank);
    close(in[1]);
    expect(out[0], text.cut);
    ended(out[0]);
}

static void pauses(const char *program)
{
    int in[2], out[2];
    ends(in, 0);
    ends(out, 0);
    nonblocking(in[0]);
    start(program, in[0], out[1]);
    close(out[1]);
    for (int i = 0; i < 6; i++) {
        nap(50);
        give(in[1], "show\nc");
        expect(out[0], text.show);
        nap(50);
        give(in[1], "d\n");
        expect(out[0], text.cd);
    }
    close(in[1]);
    if (ended(out[0]) > 300)
        fail("the lister does not sleep while it waits");
}

static void stops(const char *program)
{
    int in[2], out[2];
    sockets(in);
    ends(out, 0);
    limited(in[0]);
    start(program, in[0], out[1]);
    close(out[1]);
    for (int i = 0; i < 5; i++) {
        interrupt();
        give(in[1], "show\n");
        expect(out[0], text.show);
    }
    close(in[1]);
    ended(out[0]);
}

/* The output is not read until it is full; then a little at a time, and then all of it. */
static void slow(const char *program, int capture)
{
    int out[2], there = 0, before = -1;
    char bytes[1000];
    ends(out, 0);
    nonblocking(out[1]);
    start(program, capture, out[1]);
    close(out[1]);
    for (int i = 0; i < PATIENCE / 20 && (there == 0 || there != before); i++) {
        before = there;
        nap(20);
        ioctl(out[0], FIONREAD, &there);
    }
    if (there < 4096)
        fail("the capture does not fill the output");
    for (int i = 0; i < 50; i++) {
        ssize_t n = read(out[0], bytes, sizeof bytes);
        if (n <= 0)
            fail("the output ended too early");
        if (write(STDOUT_FILENO, bytes, (size_t)n) != n)
            fail("standard output takes nothing more");
        nap(2);
    }
    pass_on(out[0]);
    ended(-1);
}

static void held(const char *program, int capture)
{
    int out[2], room = 16384;
    sockets(out);
    limited(out[1]);
    if (setsockopt(out[1], SOL_SOCKET, SO_SNDBUF, &room, sizeof room) != 0)
        fail("a socket can't be given little room");
    start(program, capture, out[1]);
    close(out[1]);
    for (int i = 0; i < 5; i++)
        interrupt();
    pass_on(out[0]);
    ended(-1);
}

/* A pipe of packets, so that each read gets one part. */
static void parts(const char *program, int capture)
{
    int in[2];
    char bytes[64];
    ssize_t n;
    ends(in, O_DIRECT);
    start(program, in[0], STDOUT_FILENO);
    close(in[0]);
    for (size_t size = 1; (n = read(capture, bytes, size)) > 0; size = size % 61 + 1)
        if (write(in[1], bytes, (size_t)n) != n)
            fail("the input takes nothing more");
    close(in[1]);
    ended(-1);
}

static void memory(const char *program, int capture)
{
    int in[2], there = 1;
    static char bytes[4096];
    ssize_t n;
    ends(in, 0);
    start(program, in[0], open("/dev/null", O_WRONLY | O_CLOEXEC));
    close(in[0]);
    while ((n = read(capture, bytes, sizeof bytes)) > 0)
        if (write(in[1], bytes, (size_t)n) != n)
            fail("the input takes nothing more");
    for (int i = 0; i < PATIENCE && there > 0; i++) {
        nap(1);
        ioctl(in[1], FIONREAD, &there);
    }
    asleep();
    long stack = atol(known("\nVmStk:"));
    printf("%ld %ld\n", stack, atol(known("\nVmHWM:")));
    close(in[1]);
    ended(-1);
}

int main(int count, char **words)
{
    int capture = -1;
    if (count < 3 || (count > 3 && (capture = open(words[3], O_RDONLY | O_CLOEXEC)) < 0))
        fail("usage: pipes WHAT PROGRAM [CAPTURE]");
    signal(SIGPIPE, SIG_IGN);
    if (strstr(words[2], "clpexplain") != NULL) {
        text.show = "show\n  verb show\n";
        text.cd = "cd\n  verb cd\n";
        text.blank = "  blank\n";
        text.cut = "  cut: the capture ends inside a line\n";
    }
    if (strcmp(words[1], "live") == 0)
        live(words[2]);
    else if (strcmp(words[1], "pauses") == 0)
        pauses(words[2]);
    else if (strcmp(words[1], "stops") == 0)
        stops(words[2]);
    else if (capture >= 0 && strcmp(words[1], "slow") == 0)
        slow(words[2], capture);
    else if (capture >= 0 && strcmp(words[1], "held") == 0)
        held(words[2], capture);
    else if (capture >= 0 && strcmp(words[1], "parts") == 0)
        parts(words[2], capture);
    else if (capture >= 0 && strcmp(words[1], "memory") == 0)
        memory(words[2], capture);
    else
        fail("usage: pipes WHAT PROGRAM [CAPTURE]");
    return 0;
}

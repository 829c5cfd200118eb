/* What the kit's library os asks of C, for a machine that the kit has no object of it for: the words that a program was started with, and errno. */
#include <errno.h>
#include <stddef.h>
#include <stdint.h>
#include <string.h>
#include <sys/types.h>

int32_t rattle_errno(void);
void rattle_set_errno(int32_t error);
size_t rattle_arg_count(void);
ssize_t rattle_arg(size_t i, uint8_t *room, size_t length);

static size_t count;
static char **words;

/* glibc hands a constructor what it hands main. */
__attribute__((constructor)) static void keep(int argc, char **argv)
{
    count = (size_t)argc;
    words = argv;
}

int32_t rattle_errno(void)
{
    return errno;
}

void rattle_set_errno(int32_t error)
{
    errno = error;
}

size_t rattle_arg_count(void)
{
    return count;
}

/* Word i at the room's start, and its length; -1 where there is no such word, -2 where it does not fit, and then the room is full of it. */
ssize_t rattle_arg(size_t i, uint8_t *room, size_t length)
{
    if (i >= count)
        return -1;
    size_t own = strlen(words[i]);
    memcpy(room, words[i], own < length ? own : length);
    return own <= length ? (ssize_t)own : -2;
}

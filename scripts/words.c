/* The words that a program was started with, and errno, as the toolchain's library hands them on: for programs that scripts/native builds. */
#include <errno.h>
#include <stddef.h>
#include <stdint.h>
#include <string.h>
#include <sys/types.h>

static size_t count;
static char **words;

__attribute__((constructor)) static void keep(int argc, char **argv) {
    count = (size_t)argc;
    words = argv;
}

size_t rattle_arg_count(void) { return count; }

/* The length of word i, put at the start of buf; -1 where there is no such word, -2 where it does not fit. */
ssize_t rattle_arg(size_t i, uint8_t *buf, size_t room) {
    if (i >= count) return -1;
    size_t length = strlen(words[i]);
    memcpy(buf, words[i], length < room ? length : room);
    return length <= room ? (ssize_t)length : -2;
}

int rattle_errno(void) { return errno; }

void rattle_set_errno(int error) { errno = error; }

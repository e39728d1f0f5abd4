/* What the program for ARM64 gets of its process, for which the toolchain has C for x86-64 alone: the words of its command, and the number of the
 * last error. They do what the toolchain's do on x86-64, and tests/library compares the two. This is C and no part of what is proved. */
#include <errno.h>
#include <stddef.h>
#include <string.h>
#include <sys/types.h>

static size_t count;
static char **words;

/* glibc hands the words to such a function before it calls main. */
__attribute__((constructor)) static void keep(int argc, char **argv) {
    count = argc > 0 ? (size_t)argc : 0;
    words = argv;
}

ssize_t rattle_arg(size_t place, char *buffer, size_t length);
int rattle_errno(void);
void rattle_set_errno(int number);

/* Puts a word at the start of a buffer, without the null byte at its end, and returns its length: -1 if there is none at this place, and -2 if
 * it doesn't fit, and the buffer has its first bytes. The program's name is at place 0. */
ssize_t rattle_arg(size_t place, char *buffer, size_t length) {
    if (place >= count || words[place] == NULL)
        return -1;
    size_t whole = strlen(words[place]);
    memcpy(buffer, words[place], whole < length ? whole : length);
    return whole <= length ? (ssize_t)whole : -2;
}

/* The number of this thread's last error. */
int rattle_errno(void) {
    return errno;
}

/* Sets that number. */
void rattle_set_errno(int number) {
    errno = number;
}

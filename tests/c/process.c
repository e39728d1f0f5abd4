/* Prints what a program gets of its process: process WORD.. It stands outside what is proved.
 *
 * What gets it is the toolchain's C, or packaging/os_arm64.c. So two of these that print the same return the same. */
#include <errno.h>
#include <stddef.h>
#include <stdio.h>
#include <string.h>
#include <sys/types.h>

ssize_t rattle_arg(size_t place, char *buffer, size_t length);
int rattle_errno(void);
void rattle_set_errno(int number);

enum { ROOM = 16 };

/* What is put into a buffer of this length. Bytes behind it have to stay. */
static void tell_word(size_t place, size_t length) {
    char buffer[ROOM];
    memset(buffer, '.', ROOM);
    ssize_t told = rattle_arg(place, buffer, length);
    printf("word %zu in %zu bytes: %zd %.*s\n", place, length, told, ROOM, buffer);
}

static void tell_error(int number) {
    errno = number;
    printf("error %d: %d", number, rattle_errno());
    rattle_set_errno(number + 1);
    printf(", and then %d\n", errno);
}

int main(int count, char **words) {
    char name[4096];
    ssize_t told = rattle_arg(0, name, sizeof name);
    printf("name: %s\n", told == (ssize_t)strlen(words[0]) && memcmp(name, words[0], (size_t)told) == 0 ? "right" : "wrong");
    for (size_t place = 1; place <= (size_t)count + 1; place++)
        for (size_t length = 0; length <= ROOM; length++)
            tell_word(place, length);
    tell_error(0);
    tell_error(EAGAIN);
    tell_error(ENOENT);
    return 0;
}

/* What the toolchain has in C for x86-64 alone, for the program that tools/arm64 makes: memory, and
   the words and variables that a program is called with. Each function has the name, the parameters
   and the answers of the toolchain's own. */
#include <errno.h>
#include <stddef.h>
#include <stdlib.h>
#include <string.h>

/* Whether there is memory, and where. */
struct given {
    long is_there;
    void *place;
};

static char nothing[16];

static struct given as_given(void *place) {
    return (struct given){place != NULL, place ? place : nothing};
}

struct given rattle_alloc(size_t size, size_t align) {
    return as_given(malloc(size ? size : align));
}

struct given rattle_realloc(void *place, size_t kept, size_t size, size_t align) {
    (void)kept;
    return as_given(realloc(place, size ? size : align));
}

void rattle_dealloc(void *place) { free(place); }

int rattle_errno(void) { return errno; }

void rattle_set_errno(int number) { errno = number; }

extern char **environ;
static size_t count;
static char **words;

__attribute__((constructor)) static void keep(int its_count, char **its_words) {
    count = (size_t)its_count;
    words = its_words;
}

/* The length of a text that is copied as far as there is room, -2 where there isn't enough, and -1
   where there is no text. */
static long copied(const char *text, unsigned char *to, size_t room) {
    size_t length = text ? strlen(text) : 0;
    if (!text) return -1;
    memcpy(to, text, length < room ? length : room);
    return length <= room ? (long)length : -2;
}

long rattle_arg(size_t number, unsigned char *to, size_t room) {
    return copied(number < count ? words[number] : NULL, to, room);
}

long rattle_env(const char *name, unsigned char *to, size_t room) {
    return copied(getenv(name), to, room);
}

long rattle_env_at(size_t number, unsigned char *to, size_t room) {
    size_t each = 0;
    while (environ[each] && each < number) each++;
    return copied(environ[each], to, room);
}

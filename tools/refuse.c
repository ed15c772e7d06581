// Refuses one call for memory of the program that it is loaded into: the one whose number, from 1, is in
// the environment as REFUSE, and where REFUSE_REST is set all later ones too. At the end it writes to the
// standard error how many calls there were and how many of them it refused. tools/refuse-memory uses it.
#include <stdio.h>
#include <stdlib.h>

extern void *__libc_malloc(size_t);
extern void *__libc_calloc(size_t, size_t);
extern void *__libc_realloc(void *, size_t);
extern void *__libc_memalign(size_t, size_t);

static unsigned long calls, refused;

static int refuses(void) {
    const char *number = getenv("REFUSE");
    unsigned long first = number ? strtoul(number, 0, 10) : 0;
    calls += 1;
    int now = first != 0 && (calls == first || (calls > first && getenv("REFUSE_REST")));
    refused += now;
    return now;
}

void *malloc(size_t n) { return refuses() ? 0 : __libc_malloc(n); }
void *calloc(size_t n, size_t m) { return refuses() ? 0 : __libc_calloc(n, m); }
void *realloc(void *p, size_t n) { return refuses() ? 0 : __libc_realloc(p, n); }
void *aligned_alloc(size_t a, size_t n) { return refuses() ? 0 : __libc_memalign(a, n); }

__attribute__((destructor)) static void tell(void) {
    fprintf(stderr, "calls %lu refused %lu\n", calls, refused);
}

/* Lets the allocation fail whose number FAIL_AT says; tells on descriptor 3 that it came, and at the end how many there were. */
#include <stdio.h>
#include <stdlib.h>
#include <unistd.h>

void *__libc_malloc(size_t size);
void *__libc_realloc(void *old, size_t size);

static long calls, fails;

__attribute__((constructor)) static void begin(void) {
    const char *at = getenv("FAIL_AT");
    calls = 0;
    fails = at ? atol(at) : 0;
}

__attribute__((destructor)) static void end(void) {
    dprintf(3, "%ld\n", calls);
}

static int refuses(void) {
    static const char told[] = "refused\n";
    if (++calls != fails)
        return 0;
    return write(3, told, sizeof told - 1) != 0;
}

void *malloc(size_t size) {
    return refuses() ? NULL : __libc_malloc(size);
}

void *realloc(void *old, size_t size) {
    return refuses() ? NULL : __libc_realloc(old, size);
}

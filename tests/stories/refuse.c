// Refuses one call of the C library's heap, the REFUSE-th, and says so on descriptor 9; at the end
// it says there how many calls there were.
#define _GNU_SOURCE
#include <dlfcn.h>
#include <errno.h>
#include <stdio.h>
#include <stdlib.h>
#include <unistd.h>

static long refused = -1, calls;

static int refuses(void) {
    if (refused == -1) {
        const char *n = getenv("REFUSE");
        refused = n ? atol(n) : 0;
    }
    if (++calls != refused) return 0;
    write(9, "refused ", 8);
    errno = ENOMEM;
    return 1;
}

__attribute__((destructor)) static void tell(void) { dprintf(9, "%ld", calls); }

#define REAL(name) ((__typeof__(&name))dlsym(RTLD_NEXT, #name))

void *malloc(size_t n) {
    return refuses() ? NULL : REAL(malloc)(n);
}

void *realloc(void *p, size_t n) {
    return refuses() ? NULL : REAL(realloc)(p, n);
}

void *aligned_alloc(size_t a, size_t n) {
    return refuses() ? NULL : REAL(aligned_alloc)(a, n);
}

int posix_memalign(void **p, size_t a, size_t n) {
    return refuses() ? ENOMEM : REAL(posix_memalign)(p, a, n);
}

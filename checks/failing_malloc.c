/* A preloaded malloc of which one request is refused, for checks/memory. FAIL_AT: which, from 1; 0: none.
   For each request a byte is written to the file that COUNT_TO names: the programs end by _exit. */
#define _GNU_SOURCE
#include <dlfcn.h>
#include <errno.h>
#include <fcntl.h>
#include <stdatomic.h>
#include <stdlib.h>
#include <unistd.h>

static atomic_long requests;
static long refused;
static int count = -1;

static int is_refused(void) {
    if (count >= 0 && write(count, ".", 1) != 1) abort();
    if (atomic_fetch_add(&requests, 1) + 1 != refused) return 0;
    errno = ENOMEM;
    return 1;
}

#define REAL(name) \
    static __typeof__(&name) real; \
    if (!real) real = (__typeof__(&name))dlsym(RTLD_NEXT, #name);

void *malloc(size_t size) {
    REAL(malloc)
    return is_refused() ? NULL : real(size);
}

void *realloc(void *old, size_t size) {
    REAL(realloc)
    return is_refused() ? NULL : real(old, size);
}

void *aligned_alloc(size_t align, size_t size) {
    REAL(aligned_alloc)
    return is_refused() ? NULL : real(align, size);
}

int posix_memalign(void **out, size_t align, size_t size) {
    REAL(posix_memalign)
    return is_refused() ? ENOMEM : real(out, align, size);
}

__attribute__((constructor)) static void begin(void) {
    const char *at = getenv("FAIL_AT"), *path = getenv("COUNT_TO");
    refused = at ? atol(at) : 0;
    atomic_store(&requests, 0);
    if (path) count = open(path, O_WRONLY | O_CREAT | O_TRUNC | O_APPEND, 0600);
}

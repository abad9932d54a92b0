/* Preloaded by .ci/refusals: refuses one request for memory of the program that it is loaded into.
 * REFUSE_AT is the number of the request, counted from 1 over malloc, calloc, realloc,
 * aligned_alloc and posix_memalign; with 0 none is refused. Where it is refused, one byte is
 * written to the descriptor REFUSE_TO. Requests before main are not counted. */
#include <errno.h>
#include <stdatomic.h>
#include <stdlib.h>
#include <unistd.h>

extern void *__libc_malloc(size_t size);
extern void *__libc_calloc(size_t count, size_t size);
extern void *__libc_realloc(void *old, size_t size);
extern void *__libc_memalign(size_t alignment, size_t size);

static atomic_ulong asked;
static unsigned long refuse_at;
static int refuse_to;

__attribute__((constructor)) static void begin(void) {
    const char *at = getenv("REFUSE_AT"), *to = getenv("REFUSE_TO");
    refuse_to = to ? atoi(to) : -1;
    refuse_at = at ? strtoul(at, NULL, 10) : 0;
}

static int is_refused(void) {
    if (refuse_at == 0 || atomic_fetch_add(&asked, 1) + 1 != refuse_at)
        return 0;
    if (write(refuse_to, "x", 1) != 1)
        abort();
    errno = ENOMEM;
    return 1;
}

void *malloc(size_t size) {
    return is_refused() ? NULL : __libc_malloc(size);
}

void *calloc(size_t count, size_t size) {
    return is_refused() ? NULL : __libc_calloc(count, size);
}

void *realloc(void *old, size_t size) {
    return is_refused() ? NULL : __libc_realloc(old, size);
}

void *aligned_alloc(size_t alignment, size_t size) {
    return is_refused() ? NULL : __libc_memalign(alignment, size);
}

int posix_memalign(void **made, size_t alignment, size_t size) {
    if (is_refused())
        return ENOMEM;
    *made = __libc_memalign(alignment, size);
    return *made ? 0 : ENOMEM;
}

// Loaded in front of the C library by refused_memory.py: counts the requests for memory, and refuses the one whose number,
// from 1, is in REFUSED. Where it comes to that one, it makes the file that REACHED names.
#include <errno.h>
#include <fcntl.h>
#include <stdatomic.h>
#include <stdlib.h>
#include <unistd.h>

extern void *__libc_malloc(size_t size);
extern void *__libc_calloc(size_t count, size_t size);
extern void *__libc_realloc(void *old, size_t size);
extern void *__libc_memalign(size_t alignment, size_t size);

static atomic_long counted;
static long refused;

static int refuses(void) {
    if (atomic_fetch_add(&counted, 1) + 1 != refused)
        return 0;
    const char *name = getenv("REACHED");
    if (name != NULL)
        close(open(name, O_WRONLY | O_CREAT, 0600));
    errno = ENOMEM;
    return 1;
}

void *malloc(size_t size) {
    return refuses() ? NULL : __libc_malloc(size);
}

void *calloc(size_t count, size_t size) {
    return refuses() ? NULL : __libc_calloc(count, size);
}

void *realloc(void *old, size_t size) {
    return refuses() ? NULL : __libc_realloc(old, size);
}

void *aligned_alloc(size_t alignment, size_t size) {
    return refuses() ? NULL : __libc_memalign(alignment, size);
}

int posix_memalign(void **at, size_t alignment, size_t size) {
    if (refuses())
        return ENOMEM;
    *at = __libc_memalign(alignment, size);
    return *at == NULL ? ENOMEM : 0;
}

__attribute__((constructor)) static void begin(void) {
    const char *number = getenv("REFUSED");
    atomic_store(&counted, 0);
    refused = number == NULL ? 0 : atol(number);
}

// Put before the C library (LD_PRELOAD), it lets an allocation fail and counts them all.
// FAILING_AT names the first that fails, from 1; with 0, or without it, none does.
// FAILING_LAST names the last that fails.
// FAILING_COUNT names a file of at least 8 bytes, whose first 8 are the count.
#include <errno.h>
#include <fcntl.h>
#include <stddef.h>
#include <stdlib.h>
#include <sys/mman.h>
#include <unistd.h>

void *__libc_malloc(size_t size);
void *__libc_calloc(size_t count, size_t size);
void *__libc_realloc(void *old, size_t size);
void *__libc_memalign(size_t alignment, size_t size);

static unsigned long none;
static unsigned long *counted = &none;
static unsigned long first, last;

__attribute__((constructor)) static void begin(void) {
    const char *at = getenv("FAILING_AT"), *until = getenv("FAILING_LAST"), *name = getenv("FAILING_COUNT");
    int file = name ? open(name, O_RDWR) : -1;
    if (file >= 0) {
        void *page = mmap(NULL, sizeof none, PROT_READ | PROT_WRITE, MAP_SHARED, file, 0);
        if (page != MAP_FAILED) counted = page;
        close(file);
    }
    first = at ? strtoul(at, NULL, 10) : 0;
    last = until ? strtoul(until, NULL, 10) : first;
}

static int fails(void) {
    unsigned long number = ++*counted;
    return first != 0 && first <= number && number <= last;
}

void *malloc(size_t size) {
    return fails() ? (errno = ENOMEM, NULL) : __libc_malloc(size);
}

void *calloc(size_t count, size_t size) {
    return fails() ? (errno = ENOMEM, NULL) : __libc_calloc(count, size);
}

void *realloc(void *old, size_t size) {
    return fails() ? (errno = ENOMEM, NULL) : __libc_realloc(old, size);
}

void *memalign(size_t alignment, size_t size) {
    return fails() ? (errno = ENOMEM, NULL) : __libc_memalign(alignment, size);
}

void *aligned_alloc(size_t alignment, size_t size) {
    return memalign(alignment, size);
}

int posix_memalign(void **place, size_t alignment, size_t size) {
    void *found = memalign(alignment, size);
    if (found == NULL) return ENOMEM;
    *place = found;
    return 0;
}

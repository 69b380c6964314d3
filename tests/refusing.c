/* A malloc that refuses some calls. Preloaded into a program, it counts the calls of malloc, calloc, realloc and their like, and refuses
 * those from the number in REFUSE_FROM to that in REFUSE_TO, counted from 1. REFUSE_COUNT names a file of eight bytes for the count, which
 * is known so in whatever way the program ends. */
#include <errno.h>
#include <fcntl.h>
#include <stdatomic.h>
#include <stdbool.h>
#include <stddef.h>
#include <stdint.h>
#include <stdlib.h>
#include <sys/mman.h>
#include <unistd.h>

extern void *__libc_malloc(size_t size);
extern void *__libc_calloc(size_t count, size_t size);
extern void *__libc_realloc(void *old, size_t size);
extern void *__libc_memalign(size_t alignment, size_t size);

static uint64_t first, last;
static _Atomic uint64_t *counted;

static uint64_t number_in(const char *name) {
    const char *text = getenv(name);
    return text ? strtoull(text, NULL, 10) : 0;
}

__attribute__((constructor)) static void start(void) {
    const char *name = getenv("REFUSE_COUNT");
    int file = name ? open(name, O_RDWR | O_CLOEXEC) : -1;
    void *place = mmap(NULL, sizeof *counted, PROT_READ | PROT_WRITE, MAP_SHARED, file, 0);
    if (place == MAP_FAILED || close(file) != 0) {
        _exit(70);
    }
    first = number_in("REFUSE_FROM");
    last = number_in("REFUSE_TO");
    counted = place;
}

/* Counts a call, and says whether it is refused. */
static bool is_refused(void) {
    if (!counted) {
        return false;
    }
    uint64_t number = atomic_fetch_add(counted, 1) + 1;
    if (number < first || last < number) {
        return false;
    }
    errno = ENOMEM;
    return true;
}

void *malloc(size_t size) {
    return is_refused() ? NULL : __libc_malloc(size);
}

void *calloc(size_t count, size_t size) {
    return is_refused() ? NULL : __libc_calloc(count, size);
}

void *realloc(void *old, size_t size) {
    return is_refused() ? NULL : __libc_realloc(old, size);
}

void *memalign(size_t alignment, size_t size) {
    return is_refused() ? NULL : __libc_memalign(alignment, size);
}

void *aligned_alloc(size_t alignment, size_t size) {
    return memalign(alignment, size);
}

int posix_memalign(void **place, size_t alignment, size_t size) {
    void *made = memalign(alignment, size);
    if (!made) {
        return ENOMEM;
    }
    *place = made;
    return 0;
}

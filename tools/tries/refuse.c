/* Counts the allocations of a program, and refuses one of them:
 *
 *     LD_PRELOAD=refuse.so REFUSE=N COUNT=FILE PROGRAM WORDS ..
 *
 * The Nth call of malloc, calloc, realloc and the like answers that there is no memory; 0 or no REFUSE refuses none.
 * FILE, of eight bytes at least, then holds how many calls there were, the least significant byte first. Calls that
 * the C library makes for itself count too. */
#define _GNU_SOURCE
#include <errno.h>
#include <fcntl.h>
#include <stdatomic.h>
#include <stddef.h>
#include <stdlib.h>
#include <sys/mman.h>
#include <unistd.h>

extern void *__libc_malloc(size_t);
extern void *__libc_calloc(size_t, size_t);
extern void *__libc_realloc(void *, size_t);
extern void *__libc_memalign(size_t, size_t);

static _Atomic long until_mapped;
static _Atomic long *calls = &until_mapped;
static long refused;

__attribute__((constructor)) static void begin(void) {
    const char *number = getenv("REFUSE"), *name = getenv("COUNT");
    if (name) {
        int file = open(name, O_RDWR);
        if (file >= 0) {
            void *at = mmap(NULL, sizeof(long), PROT_READ | PROT_WRITE, MAP_SHARED, file, 0);
            close(file);
            if (at != MAP_FAILED) {
                calls = at;
                atomic_store(calls, 0);
            }
        }
    }
    refused = number ? atol(number) : 0;
}

static int is_refused(void) {
    if (atomic_fetch_add(calls, 1) + 1 != refused)
        return 0;
    errno = ENOMEM;
    return 1;
}

void *malloc(size_t size) { return is_refused() ? NULL : __libc_malloc(size); }

void *calloc(size_t count, size_t size) { return is_refused() ? NULL : __libc_calloc(count, size); }

void *realloc(void *old, size_t size) { return is_refused() ? NULL : __libc_realloc(old, size); }

void *memalign(size_t alignment, size_t size) { return is_refused() ? NULL : __libc_memalign(alignment, size); }

void *aligned_alloc(size_t alignment, size_t size) { return memalign(alignment, size); }

int posix_memalign(void **to, size_t alignment, size_t size) {
    void *found = memalign(alignment, size);
    if (!found)
        return ENOMEM;
    *to = found;
    return 0;
}

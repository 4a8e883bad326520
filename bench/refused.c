/* Refuses memory to a process that is started with this library in LD_PRELOAD, for bench/refused.

   REFUSED is a number N: the Nth call for memory, counted from 1, answers that there is none. With two points behind it, as 7.., each call from
   the Nth on does. A refused call is told by a byte on the descriptor that REFUSED_TOLD names. */
#define _GNU_SOURCE
#include <errno.h>
#include <stdatomic.h>
#include <stdlib.h>
#include <string.h>
#include <unistd.h>

extern void *__libc_malloc(size_t);
extern void *__libc_calloc(size_t, size_t);
extern void *__libc_realloc(void *, size_t);
extern void *__libc_memalign(size_t, size_t);

static atomic_long calls;
static long first;
static int from_then_on, told = -1;

__attribute__((constructor)) static void read_words(void) {
    const char *word = getenv("REFUSED"), *descriptor = getenv("REFUSED_TOLD");
    if (descriptor)
        told = atoi(descriptor);
    if (word) {
        from_then_on = strstr(word, "..") != NULL;
        atomic_store(&calls, 0);
        first = atol(word);
    }
}

static int is_refused(void) {
    long call = atomic_fetch_add(&calls, 1) + 1;
    if (first == 0 || call < first || (call > first && !from_then_on))
        return 0;
    if (call == first && told >= 0 && write(told, "r", 1) != 1)
        abort();
    errno = ENOMEM;
    return 1;
}

void *malloc(size_t size) { return is_refused() ? NULL : __libc_malloc(size); }

void *calloc(size_t count, size_t size) { return is_refused() ? NULL : __libc_calloc(count, size); }

void *realloc(void *place, size_t size) { return is_refused() ? NULL : __libc_realloc(place, size); }

void *memalign(size_t alignment, size_t size) { return is_refused() ? NULL : __libc_memalign(alignment, size); }

void *aligned_alloc(size_t alignment, size_t size) { return memalign(alignment, size); }

int posix_memalign(void **place, size_t alignment, size_t size) {
    void *made = memalign(alignment, size);
    if (made)
        *place = made;
    return made ? 0 : ENOMEM;
}

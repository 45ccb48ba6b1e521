// Refuses one request for memory of the program that it is loaded into, before the C library (LD_PRELOAD).
//   REFUSE=K       the K-th request from the program's start on, by whichever thread, is refused
//   REFUSE_LATER=  where this is set, every later one too
//   REFUSED_TO=FD  a byte is written there when the K-th comes
#include <errno.h>
#include <stdatomic.h>
#include <stddef.h>
#include <stdlib.h>
#include <unistd.h>

void *__libc_malloc(size_t size);
void *__libc_calloc(size_t count, size_t size);
void *__libc_realloc(void *old, size_t size);

static atomic_long made;
static long refused;
static int later, told = -1;

__attribute__((constructor)) static void begin(void) {
    const char *k = getenv("REFUSE"), *to = getenv("REFUSED_TO");
    if (k) refused = atol(k) + atomic_load(&made);
    later = getenv("REFUSE_LATER") != NULL;
    if (to) told = atoi(to);
}

static int is_refused(void) {
    long n = atomic_fetch_add(&made, 1) + 1;
    if (!refused || n < refused || (n > refused && !later)) return 0;
    if (n == refused && told >= 0 && write(told, "K", 1) != 1) _exit(70);
    errno = ENOMEM;
    return 1;
}

void *malloc(size_t size) { return is_refused() ? NULL : __libc_malloc(size); }
void *calloc(size_t count, size_t size) { return is_refused() ? NULL : __libc_calloc(count, size); }
void *realloc(void *old, size_t size) { return is_refused() ? NULL : __libc_realloc(old, size); }

/* Refuses one request for memory: the one of the number in the environment's REFUSE, counted from 1 over all threads. It is preloaded
   into the program by bench/refuse, and writes a byte to descriptor REFUSED when it has done so. */
#include <errno.h>
#include <stdatomic.h>
#include <stdlib.h>
#include <unistd.h>

void *__libc_malloc(size_t);
void *__libc_calloc(size_t, size_t);
void *__libc_realloc(void *, size_t);
void *__libc_memalign(size_t, size_t);

static atomic_long requests;
static long refused = -1;
static int told = -1;

static long number(const char *name) {
    const char *text = getenv(name);
    return text ? atol(text) : 0;
}

__attribute__((constructor)) static void begin(void) {
    told = (int)number("REFUSED");
    refused = number("REFUSE");
    atomic_store(&requests, 0);
}

static int refuses(void) {
    if (refused < 1 || atomic_fetch_add(&requests, 1) + 1 != refused) return 0;
    errno = ENOMEM;
    return write(told, "", 1) == 1;
}

void *malloc(size_t size) { return refuses() ? NULL : __libc_malloc(size); }
void *calloc(size_t count, size_t size) { return refuses() ? NULL : __libc_calloc(count, size); }
void *realloc(void *old, size_t size) { return refuses() ? NULL : __libc_realloc(old, size); }
void *memalign(size_t align, size_t size) { return refuses() ? NULL : __libc_memalign(align, size); }
void *aligned_alloc(size_t align, size_t size) { return refuses() ? NULL : __libc_memalign(align, size); }

int posix_memalign(void **place, size_t align, size_t size) {
    void *block = refuses() ? NULL : __libc_memalign(align, size);
    if (!block) return ENOMEM;
    *place = block;
    return 0;
}

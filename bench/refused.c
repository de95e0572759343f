// Preloaded by bench/refused: the call for memory with the number REFUSE, from 0, gets none, and then the file MARK is
// made. Only calls of the program's own thread are counted; it has no other.
#include <errno.h>
#include <fcntl.h>
#include <stdlib.h>
#include <unistd.h>

extern void *__libc_malloc(size_t size);
extern void *__libc_calloc(size_t count, size_t size);
extern void *__libc_realloc(void *old, size_t size);
extern void *__libc_memalign(size_t alignment, size_t size);

static long calls = 0;
static long number = -1;
static const char *mark = NULL;

__attribute__((constructor)) static void begin(void) {
    const char *told = getenv("REFUSE");
    mark = getenv("MARK");
    number = told == NULL ? -1 : atol(told);
    calls = 0;
}

static int is_refused(void) {
    if (mark == NULL || calls++ != number)
        return 0;
    close(open(mark, O_CREAT | O_WRONLY, 0644));
    errno = ENOMEM;
    return 1;
}

void *malloc(size_t size) { return is_refused() ? NULL : __libc_malloc(size); }

void *calloc(size_t count, size_t size) { return is_refused() ? NULL : __libc_calloc(count, size); }

void *realloc(void *old, size_t size) { return is_refused() ? NULL : __libc_realloc(old, size); }

void *memalign(size_t alignment, size_t size) { return is_refused() ? NULL : __libc_memalign(alignment, size); }

void *aligned_alloc(size_t alignment, size_t size) { return memalign(alignment, size); }

int posix_memalign(void **at, size_t alignment, size_t size) {
    *at = memalign(alignment, size);
    return *at == NULL ? ENOMEM : 0;
}

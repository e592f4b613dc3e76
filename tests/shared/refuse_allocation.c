/* Preloaded before a program, refuses the allocation whose number, counted from 1, stands in REFUSE_ALLOCATION, and
   says so by making the file that REFUSED_FILE names. It takes itself and both names out of the environment before the
   program begins, so what the program starts has all its memory, and the environment that it would have. */
#define _GNU_SOURCE
#include <dlfcn.h>
#include <errno.h>
#include <fcntl.h>
#include <stdlib.h>
#include <unistd.h>

static unsigned long count, refused;
static const char *refused_file;
static int has_begun;

__attribute__((constructor)) static void begin(void) {
    if (has_begun) return;
    has_begun = 1;
    const char *number = getenv("REFUSE_ALLOCATION");
    refused = number == NULL ? 0 : strtoul(number, NULL, 10);
    refused_file = getenv("REFUSED_FILE");
    unsetenv("LD_PRELOAD");
    unsetenv("REFUSE_ALLOCATION");
    unsetenv("REFUSED_FILE");
}

static int is_refused(void) {
    begin();
    if (++count != refused) return 0;
    if (refused_file != NULL) close(open(refused_file, O_WRONLY | O_CREAT, 0600));
    errno = ENOMEM;
    return 1;
}

void *malloc(size_t size) {
    static void *(*next)(size_t);
    if (next == NULL) next = (void *(*)(size_t))dlsym(RTLD_NEXT, "malloc");
    return is_refused() ? NULL : next(size);
}

void *realloc(void *old, size_t size) {
    static void *(*next)(void *, size_t);
    if (next == NULL) next = (void *(*)(void *, size_t))dlsym(RTLD_NEXT, "realloc");
    return is_refused() ? NULL : next(old, size);
}

int posix_memalign(void **made, size_t alignment, size_t size) {
    static int (*next)(void **, size_t, size_t);
    if (next == NULL) next = (int (*)(void **, size_t, size_t))dlsym(RTLD_NEXT, "posix_memalign");
    return is_refused() ? ENOMEM : next(made, alignment, size);
}

void *aligned_alloc(size_t alignment, size_t size) {
    static void *(*next)(size_t, size_t);
    if (next == NULL) next = (void *(*)(size_t, size_t))dlsym(RTLD_NEXT, "aligned_alloc");
    return is_refused() ? NULL : next(alignment, size);
}

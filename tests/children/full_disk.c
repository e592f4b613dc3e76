/* Preloaded before a program, has its disk full from the call on whose number, counted from 1, stands in FULL_FROM: to make a
   file or a folder, to write to a file, or to rename one fails. It says so by making the file that FULL_FILE names. It takes
   itself and both names out of the environment before the program begins, so what the program starts has room, and the
   environment that it would have. */
#define _GNU_SOURCE
#include <dlfcn.h>
#include <errno.h>
#include <fcntl.h>
#include <stdarg.h>
#include <stdlib.h>
#include <sys/stat.h>
#include <unistd.h>

static unsigned long count, full;
static const char *full_file;
static int has_begun;

static void begin(void) {
    if (has_begun) return;
    has_begun = 1;
    const char *number = getenv("FULL_FROM");
    full = number == NULL ? 0 : strtoul(number, NULL, 10);
    full_file = getenv("FULL_FILE");
    unsetenv("LD_PRELOAD");
    unsetenv("FULL_FROM");
    unsetenv("FULL_FILE");
}

__attribute__((constructor)) static void begin_first(void) { begin(); }

static void *next(const char *name) { return dlsym(RTLD_NEXT, name); }

static int is_full(void) {
    begin();
    if (full == 0 || ++count < full) return 0;
    int (*make)(const char *, int, ...) = (int (*)(const char *, int, ...))next("open");
    if (count == full && full_file != NULL) close(make(full_file, O_WRONLY | O_CREAT, 0600));
    errno = ENOSPC;
    return 1;
}

int open(const char *path, int flags, ...) {
    va_list rest;
    va_start(rest, flags);
    mode_t mode = flags & O_CREAT ? va_arg(rest, mode_t) : 0;
    va_end(rest);
    if (flags & O_CREAT && is_full()) return -1;
    return ((int (*)(const char *, int, ...))next("open"))(path, flags, mode);
}

int mkdir(const char *path, mode_t mode) {
    return is_full() ? -1 : ((int (*)(const char *, mode_t))next("mkdir"))(path, mode);
}

int rename(const char *from, const char *to) {
    return is_full() ? -1 : ((int (*)(const char *, const char *))next("rename"))(from, to);
}

ssize_t write(int file, const void *bytes, size_t size) {
    if (file > 2 && is_full()) return -1;
    return ((ssize_t (*)(int, const void *, size_t))next("write"))(file, bytes, size);
}

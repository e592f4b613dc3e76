/* Preloaded before a program, meddles at one of its calls, as the environment says, and then goes on with the call.
   KILL_AT_WAIT=N: behind the Nth time that the program waited for the disk, it is killed.
   SWAP_AT_OPEN=NAME: before the file of that name is opened to be read, a fifo takes its place, which somebody may write to.
   REMOVE_AT_LOCK=NAME: before a file is locked, the file of that name is removed.
   It takes itself out of the environment, so what the program starts is left alone. */
#define _GNU_SOURCE
#include <dlfcn.h>
#include <fcntl.h>
#include <signal.h>
#include <stdarg.h>
#include <stdlib.h>
#include <string.h>
#include <sys/stat.h>
#include <unistd.h>

static unsigned long waits, kill_at;
static const char *swapped, *removed;

__attribute__((constructor)) static void begin(void) {
    const char *number = getenv("KILL_AT_WAIT");
    kill_at = number == NULL ? 0 : strtoul(number, NULL, 10);
    swapped = getenv("SWAP_AT_OPEN");
    removed = getenv("REMOVE_AT_LOCK");
    unsetenv("LD_PRELOAD");
}

static int waited(const char *name, int file) {
    int (*next)(int) = (int (*)(int))dlsym(RTLD_NEXT, name);
    int answer = next(file);
    if (++waits == kill_at) raise(SIGKILL);
    return answer;
}

int fsync(int file) { return waited("fsync", file); }

int fdatasync(int file) { return waited("fdatasync", file); }

int flock(int file, int operation) {
    int (*next)(int, int) = (int (*)(int, int))dlsym(RTLD_NEXT, "flock");
    if (removed != NULL && unlink(removed) != 0) abort();
    return next(file, operation);
}

int open(const char *path, int flags, ...) {
    int (*next)(const char *, int, ...) = (int (*)(const char *, int, ...))dlsym(RTLD_NEXT, "open");
    va_list rest;
    va_start(rest, flags);
    mode_t mode = flags & O_CREAT ? va_arg(rest, mode_t) : 0;
    va_end(rest);
    if (swapped != NULL && strcmp(path, swapped) == 0 && (flags & O_ACCMODE) == O_RDONLY) {
        /* Its other end stays open, so that to open it doesn't wait, and to read it does. */
        if (unlink(path) != 0 || mkfifo(path, 0600) != 0 || next(path, O_RDWR) < 0) abort();
    }
    return next(path, flags, mode);
}

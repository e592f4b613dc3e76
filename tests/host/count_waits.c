/* Preloaded before a program, puts a byte at the end of the file that WAITS_FILE names for each time that it waits for the
   disk. */
#define _GNU_SOURCE
#include <dlfcn.h>
#include <fcntl.h>
#include <stdlib.h>
#include <unistd.h>

static int waited(const char *name, int file) {
    const char *place = getenv("WAITS_FILE");
    int (*next)(int) = (int (*)(int))dlsym(RTLD_NEXT, name);
    int waits = place == NULL ? -1 : open(place, O_WRONLY | O_CREAT | O_APPEND, 0600);
    if (waits >= 0) {
        if (write(waits, "w", 1) != 1) abort();
        close(waits);
    }
    return next(file);
}

int fsync(int file) { return waited("fsync", file); }

int fdatasync(int file) { return waited("fdatasync", file); }

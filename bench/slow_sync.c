/* Has each fsync of a program take SYNC_MICROSECONDS longer, as on a slow disk. Loaded into the program by LD_PRELOAD: see syncs.py. */
#define _GNU_SOURCE
#include <dlfcn.h>
#include <stdlib.h>
#include <time.h>

static long microseconds;
static int (*real)(int);

__attribute__((constructor)) static void begin(void) {
    const char *word = getenv("SYNC_MICROSECONDS");
    microseconds = word ? strtol(word, 0, 10) : 0;
    real = (int (*)(int))dlsym(RTLD_NEXT, "fsync");
}

int fsync(int file) {
    struct timespec pause = {microseconds / 1000000, microseconds % 1000000 * 1000};
    if (microseconds > 0)
        nanosleep(&pause, 0);
    return real(file);
}

/* Has each sync take so many microseconds longer as SYNC_TAKES says, as on a disk that has no memory of its own. */
#define _GNU_SOURCE
#include <dlfcn.h>
#include <stdlib.h>
#include <time.h>

static int slowed(const char *name, int file) {
    int (*call)(int) = (int (*)(int))dlsym(RTLD_NEXT, name);
    const char *takes = getenv("SYNC_TAKES");
    long microseconds = takes ? atol(takes) : 0;
    struct timespec time = {microseconds / 1000000, microseconds % 1000000 * 1000};
    int answer = call(file);
    nanosleep(&time, NULL);
    return answer;
}

int fsync(int file) { return slowed("fsync", file); }

int fdatasync(int file) { return slowed("fdatasync", file); }

/* Has calls on a disk fail that a program makes: tools/trials/stored builds it and says how it is called.
 *
 * FAIL_FILE names a file. The calls that open it or its folder, and those on what was opened so, are numbered from 1. The
 * one of the number FAIL_AT fails, with a + after it all from there on, with the error FAIL_WITH, and the file FAIL_MARK is
 * made; a write that fails has written half of its bytes. Where SHORT is set each read and write of the file does at most so
 * many bytes. */
#define _GNU_SOURCE
#include <dlfcn.h>
#include <errno.h>
#include <fcntl.h>
#include <stdarg.h>
#include <stdatomic.h>
#include <stdio.h>
#include <stdlib.h>
#include <string.h>
#include <sys/stat.h>
#include <unistd.h>

static _Atomic long made;
static long failing, error, most;
static int for_ever;
static const char *file;
static char folder[4096];
static _Atomic int watched = -1, its_folder = -1;

static int (*real_openat)(int, const char *, int, ...);
static ssize_t (*real_pwrite)(int, const void *, size_t, off_t);
static ssize_t (*real_pread)(int, void *, size_t, off_t);
static int (*real_truncate)(int, off_t);
static int (*real_datasync)(int);
static int (*real_sync)(int);
static int (*real_flock)(int, int);
static int (*real_statx)(int, const char *, int, unsigned, struct statx *);

static long number(const char *name, long otherwise) {
    const char *text = getenv(name);
    return text ? strtol(text, NULL, 10) : otherwise;
}

__attribute__((constructor)) static void begin(void) {
    real_openat = dlsym(RTLD_NEXT, "openat64");
    real_pwrite = dlsym(RTLD_NEXT, "pwrite64");
    real_pread = dlsym(RTLD_NEXT, "pread64");
    real_truncate = dlsym(RTLD_NEXT, "ftruncate64");
    real_datasync = dlsym(RTLD_NEXT, "fdatasync");
    real_sync = dlsym(RTLD_NEXT, "fsync");
    real_flock = dlsym(RTLD_NEXT, "flock");
    real_statx = dlsym(RTLD_NEXT, "statx");
    file = getenv("FAIL_FILE");
    if (!file) return;
    const char *end = strrchr(file, '/');
    snprintf(folder, sizeof folder, "%.*s", end ? (int)(end - file) : 1, end ? file : ".");
    const char *at = getenv("FAIL_AT");
    failing = number("FAIL_AT", 0);
    for_ever = at && strchr(at, '+') != NULL;
    error = number("FAIL_WITH", EIO);
    most = number("SHORT", 0);
}

/* Whether this call fails, which is counted. */
static int fails(void) {
    long now = atomic_fetch_add(&made, 1) + 1;
    if (now != failing && !(for_ever && now > failing)) return 0;
    const char *mark = getenv("FAIL_MARK");
    if (mark) close(real_openat(AT_FDCWD, mark, O_CREAT | O_WRONLY | O_CLOEXEC, 0644));
    errno = error;
    return 1;
}

static int is_ours(int fd) {
    return fd >= 0 && (fd == watched || fd == its_folder);
}

static int open_any(int at, const char *path, int flags, mode_t mode) {
    int is_file = file && !strcmp(path, file), is_folder = file && !strcmp(path, folder);
    if (!is_file && !is_folder) return real_openat(at, path, flags, mode);
    if (fails()) return -1;
    int fd = real_openat(at, path, flags, mode);
    if (is_file) watched = fd;
    if (is_folder) its_folder = fd;
    return fd;
}

#define MODE mode_t mode = 0; if (flags & O_CREAT) { va_list l; va_start(l, flags); mode = va_arg(l, mode_t); va_end(l); }
int open(const char *path, int flags, ...) { MODE return open_any(AT_FDCWD, path, flags, mode); }
int open64(const char *path, int flags, ...) { MODE return open_any(AT_FDCWD, path, flags, mode); }
int openat(int at, const char *path, int flags, ...) { MODE return open_any(at, path, flags, mode); }
int openat64(int at, const char *path, int flags, ...) { MODE return open_any(at, path, flags, mode); }

static size_t fewer(size_t count) { return most > 0 && (size_t)most < count ? (size_t)most : count; }

static ssize_t put(int fd, const void *bytes, size_t count, off_t at) {
    if (!is_ours(fd)) return real_pwrite(fd, bytes, count, at);
    if (fails()) {
        int e = errno;
        real_pwrite(fd, bytes, count / 2, at);
        errno = e;
        return -1;
    }
    return real_pwrite(fd, bytes, fewer(count), at);
}
ssize_t pwrite(int fd, const void *bytes, size_t count, off_t at) { return put(fd, bytes, count, at); }
ssize_t pwrite64(int fd, const void *bytes, size_t count, off_t at) { return put(fd, bytes, count, at); }

static ssize_t get(int fd, void *bytes, size_t count, off_t at) {
    if (!is_ours(fd)) return real_pread(fd, bytes, count, at);
    return fails() ? -1 : real_pread(fd, bytes, fewer(count), at);
}
ssize_t pread(int fd, void *bytes, size_t count, off_t at) { return get(fd, bytes, count, at); }
ssize_t pread64(int fd, void *bytes, size_t count, off_t at) { return get(fd, bytes, count, at); }

static int cut(int fd, off_t len) { return is_ours(fd) && fails() ? -1 : real_truncate(fd, len); }
int ftruncate(int fd, off_t len) { return cut(fd, len); }
int ftruncate64(int fd, off_t len) { return cut(fd, len); }

int fdatasync(int fd) { return is_ours(fd) && fails() ? -1 : real_datasync(fd); }
int fsync(int fd) { return is_ours(fd) && fails() ? -1 : real_sync(fd); }
int flock(int fd, int how) { return is_ours(fd) && fails() ? -1 : real_flock(fd, how); }
int statx(int fd, const char *restrict path, int flags, unsigned mask, struct statx *restrict into) {
    return is_ours(fd) && fails() ? -1 : real_statx(fd, path, flags, mask, into);
}

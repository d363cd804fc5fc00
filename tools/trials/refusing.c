/* Refuses memory to a program that it is loaded before: tools/trials/memory builds it and says how it is called.
 *
 * REFUSE is the number of the request that is refused, counted from 1, with a + behind it where all after it are refused
 * too; COUNT names a file of eight bytes, where the requests are counted. */
#include <errno.h>
#include <fcntl.h>
#include <stdatomic.h>
#include <stddef.h>
#include <stdlib.h>
#include <sys/mman.h>
#include <unistd.h>

extern void *__libc_malloc(size_t size);
extern void *__libc_calloc(size_t count, size_t size);
extern void *__libc_realloc(void *block, size_t size);

static _Atomic long *made;
static long refused;
static int for_ever;

__attribute__((constructor)) static void begin(void) {
    const char *number = getenv("REFUSE");
    const char *name = getenv("COUNT");
    if (!number || !name) {
        return;
    }
    char *end;
    refused = strtol(number, &end, 10);
    for_ever = *end == '+';
    int file = open(name, O_RDWR);
    void *at = mmap(NULL, sizeof *made, PROT_READ | PROT_WRITE, MAP_SHARED, file, 0);
    close(file);
    made = at == MAP_FAILED ? NULL : at;
}

static int refuses(void) {
    if (!made) {
        return 0;
    }
    long number = atomic_fetch_add(made, 1) + 1;
    if (number != refused && !(for_ever && number > refused)) {
        return 0;
    }
    errno = ENOMEM;
    return 1;
}

void *malloc(size_t size) {
    return refuses() ? NULL : __libc_malloc(size);
}

void *calloc(size_t count, size_t size) {
    return refuses() ? NULL : __libc_calloc(count, size);
}

void *realloc(void *block, size_t size) {
    return refuses() ? NULL : __libc_realloc(block, size);
}

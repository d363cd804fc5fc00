// Appends records to a file by plain calls: each record by two writes and two syncs, as a kept file is appended to, or by
// one write and one sync. usage: plain FILE COUNT SYNCS
#include <fcntl.h>
#include <stdio.h>
#include <stdlib.h>
#include <string.h>
#include <unistd.h>

enum { LENGTHS = 997 };

static void end(const char *what) {
    perror(what);
    exit(1);
}

static void put(int file, const char *bytes, size_t count, off_t at) {
    if (pwrite(file, bytes, count, at) != (ssize_t)count) end("pwrite");
}

static void sync_data(int file) {
    if (fdatasync(file)) end("fdatasync");
}

// The line of a record, with what stands before and behind it: its length.
static size_t lay(char *into, unsigned number) {
    int head = sprintf(into, "+%u ", number);
    size_t letters = number % LENGTHS;
    memset(into + head, 'x', letters);
    memcpy(into + head + letters, "\n-", 2);
    return (size_t)head + letters + 2;
}

int main(int count, char **words) {
    if (count != 4) return 2;
    int file = open(words[1], O_RDWR | O_CREAT, 0666);
    if (file < 0) end("open");
    unsigned records = (unsigned)atol(words[2]);
    int is_twice = atoi(words[3]) == 2;
    const char *header = "cutroom journal 1\n-";
    put(file, header, strlen(header), 0);
    sync_data(file);
    off_t gate = (off_t)strlen(header) - 1;
    for (unsigned number = 0; number < records; number++) {
        char bytes[LENGTHS + 32];
        size_t length = lay(bytes, number);
        if (is_twice) {
            put(file, bytes + 1, length - 1, gate + 1);
            sync_data(file);
            put(file, bytes, 1, gate);
        } else {
            put(file, bytes, length, gate);
        }
        sync_data(file);
        gate += (off_t)length - 1;
    }
    return 0;
}

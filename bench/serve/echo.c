/* A bare server to compare with: it waits for so many connections at 127.0.0.1 and sends each line back that comes, with one
   write a line, in a thread of its own for each connection. It prints its port.

   usage: echo STATIONS */
#include <netinet/in.h>
#include <netinet/tcp.h>
#include <pthread.h>
#include <stdio.h>
#include <stdlib.h>
#include <string.h>
#include <sys/socket.h>
#include <unistd.h>

static void put(int line, const char *bytes, size_t count)
{
    while (count > 0) {
        ssize_t n = write(line, bytes, count);
        if (n <= 0)
            return;
        bytes += n;
        count -= n;
    }
}

static void *serve(void *given)
{
    int line = (int)(long)given;
    char buffer[8192], kept[8192];
    size_t held = 0;
    ssize_t n;
    while ((n = read(line, buffer, sizeof buffer)) > 0) {
        char *at = buffer, *end = buffer + n, *lf;
        while ((lf = memchr(at, '\n', end - at))) {
            if (held > 0) {
                memcpy(kept + held, at, lf + 1 - at);
                put(line, kept, held + (lf + 1 - at));
                held = 0;
            } else {
                put(line, at, lf + 1 - at);
            }
            at = lf + 1;
        }
        memcpy(kept + held, at, end - at);
        held += end - at;
    }
    shutdown(line, SHUT_WR);
    return NULL;
}

int main(int count, char **words)
{
    int stations = count > 1 ? atoi(words[1]) : 1;
    int one = 1, hall = socket(AF_INET, SOCK_STREAM, 0);
    struct sockaddr_in at = {.sin_family = AF_INET, .sin_addr.s_addr = htonl(INADDR_LOOPBACK)};
    socklen_t size = sizeof at;
    pthread_t threads[64];
    bind(hall, (struct sockaddr *)&at, sizeof at);
    listen(hall, 64);
    getsockname(hall, (struct sockaddr *)&at, &size);
    printf("listening at 127.0.0.1:%d\n", ntohs(at.sin_port));
    fflush(stdout);
    for (int i = 0; i < stations; i++) {
        int line = accept(hall, NULL, NULL);
        setsockopt(line, IPPROTO_TCP, TCP_NODELAY, &one, sizeof one);
        pthread_create(&threads[i], NULL, serve, (void *)(long)line);
    }
    for (int i = 0; i < stations; i++)
        pthread_join(threads[i], NULL);
    return 0;
}

/* So many clients at once, each over a connection of its own, and how long they waited.

   usage: clients PORT CLIENTS COUNT edit|set|pour

   With `edit` each is a station that sends COUNT edits of its own track, the next when the reply is there. With `set` each
   sends as many commands SET to redis, with the entry of that edit as the value. With `pour` all but the last pour their
   edits, without waiting, and the last asks `point` again and again until they have all their replies. It prints how many
   edits were timed, the seconds until the last had its reply, and the median wait, that of the 99th of a hundred, and the
   longest, in microseconds: of the edits, and with `pour` of the questions, with their number. */
#include <netinet/in.h>
#include <netinet/tcp.h>
#include <pthread.h>
#include <stdatomic.h>
#include <stdio.h>
#include <stdlib.h>
#include <string.h>
#include <sys/socket.h>
#include <time.h>
#include <unistd.h>

enum kind { EDIT, SET, POUR };

struct client {
    int line, number, asks;
    size_t waited;
    double *waits, ended;
    char kept[65536];
    size_t held;
};

static enum kind kind;
static size_t count;
static int many;
static _Atomic int pouring;
static pthread_barrier_t ready;
static double began;

static double now(void)
{
    struct timespec t;
    clock_gettime(CLOCK_MONOTONIC, &t);
    return t.tv_sec + t.tv_nsec / 1e9;
}

static void fail(const char *why)
{
    fprintf(stderr, "clients: %s\n", why);
    exit(1);
}

static void put(int line, const char *bytes, size_t size)
{
    while (size > 0) {
        ssize_t n = write(line, bytes, size);
        if (n <= 0)
            fail("a write failed");
        bytes += n;
        size -= n;
    }
}

/* The request of this number. */
static size_t request(struct client *c, size_t number, char *into, size_t room)
{
    char edit[200];
    snprintf(edit, sizeof edit, "overwrite %d 0 @0 %zu 50", c->number, number % 1000);
    if (kind != SET)
        return snprintf(into, room, "%s\n", edit);
    char key[40], entry[260];
    int keyed = snprintf(key, sizeof key, "station:%d", c->number);
    int spelled = snprintf(entry, sizeof entry, "%d %zu %s", c->number, number + 1, edit);
    return snprintf(into, room, "*3\r\n$3\r\nSET\r\n$%d\r\n%s\r\n$%d\r\n%s\r\n", keyed, key, spelled, entry);
}

/* Reads one reply, which has to begin with this. */
static void reply(struct client *c, const char *wanted)
{
    for (;;) {
        char *lf = memchr(c->kept, '\n', c->held);
        if (lf) {
            if (strncmp(c->kept, wanted, strlen(wanted)) != 0)
                fail("another reply");
            c->held -= lf + 1 - c->kept;
            memmove(c->kept, lf + 1, c->held);
            return;
        }
        ssize_t n = read(c->line, c->kept + c->held, sizeof c->kept - c->held);
        if (n <= 0)
            fail("a client was left without its reply");
        c->held += n;
    }
}

static void *pour(void *given)
{
    struct client *c = given;
    char line[600];
    for (size_t k = 0; k < count; k++)
        put(c->line, line, request(c, k, line, sizeof line));
    return NULL;
}

/* One request after another, each when the reply to the one before is there. */
static void one_by_one(struct client *c)
{
    char line[600];
    for (size_t k = 0; k < count; k++) {
        size_t size = request(c, k, line, sizeof line);
        double sent = now();
        put(c->line, line, size);
        reply(c, kind == SET ? "+OK" : "ok ");
        c->waits[c->waited++] = now() - sent;
    }
}

static void poured(struct client *c)
{
    pthread_t writer;
    pthread_create(&writer, NULL, pour, c);
    for (size_t k = 0; k < count; k++)
        reply(c, "ok ");
    pthread_join(writer, NULL);
    pouring--;
}

static void ask(struct client *c, size_t room)
{
    while (pouring > 0 && c->waited < room) {
        double sent = now();
        put(c->line, "point\n", 6);
        reply(c, "point ");
        c->waits[c->waited++] = now() - sent;
    }
}

static void *work(void *given)
{
    struct client *c = given;
    if (pthread_barrier_wait(&ready) == PTHREAD_BARRIER_SERIAL_THREAD)
        began = now();
    pthread_barrier_wait(&ready);
    if (c->asks)
        ask(c, 1 << 22);
    else if (kind == POUR)
        poured(c);
    else
        one_by_one(c);
    c->ended = now();
    shutdown(c->line, SHUT_WR);
    while (read(c->line, c->kept, sizeof c->kept) > 0) {
    }
    return NULL;
}

static int above(const void *a, const void *b)
{
    double x = *(const double *)a, y = *(const double *)b;
    return (x > y) - (x < y);
}

int main(int words, char **word)
{
    if (words != 5)
        fail("usage: clients PORT CLIENTS COUNT edit|set|pour");
    many = atoi(word[2]);
    count = atol(word[3]);
    kind = word[4][0] == 'e' ? EDIT : word[4][0] == 's' ? SET : POUR;
    pouring = many - 1;
    struct sockaddr_in at = {.sin_family = AF_INET, .sin_addr.s_addr = htonl(INADDR_LOOPBACK), .sin_port = htons(atoi(word[1]))};
    struct client *all = calloc(many, sizeof *all);
    pthread_t threads[64];
    pthread_barrier_init(&ready, NULL, many);
    for (int i = 0; i < many; i++) {
        struct client *c = &all[i];
        int one = 1;
        c->number = i;
        c->asks = kind == POUR && i == many - 1;
        c->waits = calloc(c->asks ? 1 << 22 : count, sizeof *c->waits);
        c->line = socket(AF_INET, SOCK_STREAM, 0);
        if (connect(c->line, (struct sockaddr *)&at, sizeof at) != 0)
            fail("no connection");
        setsockopt(c->line, IPPROTO_TCP, TCP_NODELAY, &one, sizeof one);
    }
    for (int i = 0; i < many; i++)
        pthread_create(&threads[i], NULL, work, &all[i]);
    size_t timed = 0, edits = 0;
    double last = 0, *waits = calloc((1 << 22) + many * count, sizeof *waits);
    for (int i = 0; i < many; i++) {
        struct client *c = &all[i];
        pthread_join(threads[i], NULL);
        if (!c->asks && c->ended > last)
            last = c->ended;
        edits += c->asks ? 0 : count;
        memcpy(waits + timed, c->waits, c->waited * sizeof *waits);
        timed += c->waited;
    }
    if (timed == 0)
        fail("nothing was timed");
    qsort(waits, timed, sizeof *waits, above);
    printf("%zu %.6f %.1f %.1f %.1f %zu\n", edits, last - began, waits[timed / 2] * 1e6, waits[timed * 99 / 100] * 1e6,
           waits[timed - 1] * 1e6, timed);
    return 0;
}

/* So many stations at once, each over a connection of its own and with lines of its own, and how long they waited.

   usage: stations PORT STATIONS one|poured FOLDER [CREW]

   Station s first sends the lines of FOLDER/before.s, and when every station has its replies to these, all send the lines
   of FOLDER/lines.s: one at a time, each after the reply to the one before, or poured, all as fast as the line takes them.
   It prints how many lines were timed, the seconds until the last station had its last reply, how many replies did not begin
   with `ok`, and for lines one at a time the median wait, that of the 999th of a thousand, and the longest, in microseconds.
   With CREW, a file with a line NAME KEY for each station, station s first sits down as line s says, and leaves at the end. */
#include <netinet/in.h>
#include <netinet/tcp.h>
#include <pthread.h>
#include <stdio.h>
#include <stdlib.h>
#include <string.h>
#include <sys/socket.h>
#include <time.h>
#include <unistd.h>

struct station {
    int line, poured;
    char *before, *lines;
    size_t before_size, lines_size, before_count, count, others;
    double *waits, ended;
    char kept[1 << 20], member[128];
    size_t held, at;
};

static pthread_barrier_t ready;
static double began;

static double now(void)
{
    struct timespec t;
    clock_gettime(CLOCK_MONOTONIC, &t);
    return t.tv_sec + t.tv_nsec / 1e9;
}

static char *whole(const char *folder, const char *name, int station, size_t *size, size_t *count)
{
    char path[4096];
    snprintf(path, sizeof path, "%s/%s.%d", folder, name, station);
    FILE *file = fopen(path, "rb");
    if (!file) {
        fprintf(stderr, "no %s\n", path);
        exit(1);
    }
    fseek(file, 0, SEEK_END);
    *size = ftell(file);
    rewind(file);
    char *bytes = malloc(*size + 1);
    if (fread(bytes, 1, *size, file) != *size)
        exit(1);
    fclose(file);
    *count = 0;
    for (size_t i = 0; i < *size; i++)
        *count += bytes[i] == '\n';
    return bytes;
}

static void put(int line, const char *bytes, size_t count)
{
    while (count > 0) {
        ssize_t n = write(line, bytes, count);
        if (n <= 0) {
            perror("write");
            exit(1);
        }
        bytes += n;
        count -= n;
    }
}

/* Reads one reply, and whether it begins with `ok`. */
static int reply(struct station *s)
{
    size_t seen = s->at;
    for (;;) {
        char *lf = memchr(s->kept + seen, '\n', s->held - seen);
        if (lf) {
            int good = s->kept[s->at] == 'o' && s->kept[s->at + 1] == 'k';
            s->at = lf + 1 - s->kept;
            if (s->at == s->held)
                s->at = s->held = 0;
            return good;
        }
        seen = s->held;
        if (s->at > 0) {
            memmove(s->kept, s->kept + s->at, s->held - s->at);
            s->held -= s->at;
            seen -= s->at;
            s->at = 0;
        }
        ssize_t n = read(s->line, s->kept + s->held, sizeof s->kept - s->held);
        if (n <= 0) {
            fprintf(stderr, "a station was left without its reply\n");
            exit(1);
        }
        s->held += n;
    }
}

static void *pour(void *given)
{
    struct station *s = given;
    put(s->line, s->lines, s->lines_size);
    return NULL;
}

static void *pour_before(void *given)
{
    struct station *s = given;
    put(s->line, s->before, s->before_size);
    return NULL;
}

/* Sits down on the seat that is this station's. */
static void sit(struct station *s)
{
    char line[160];
    put(s->line, line, snprintf(line, sizeof line, "sit %s 0\n", s->member));
    reply(s);
}

static void *work(void *given)
{
    struct station *s = given;
    pthread_t writer;
    if (s->member[0])
        sit(s);
    pthread_create(&writer, NULL, pour_before, s);
    for (size_t i = 0; i < s->before_count; i++)
        reply(s);
    pthread_join(writer, NULL);
    if (pthread_barrier_wait(&ready) == PTHREAD_BARRIER_SERIAL_THREAD)
        began = now();
    pthread_barrier_wait(&ready);
    if (s->poured) {
        pthread_create(&writer, NULL, pour, s);
        for (size_t i = 0; i < s->count; i++)
            s->others += !reply(s);
        s->ended = now();
        pthread_join(writer, NULL);
    } else {
        char *at = s->lines;
        for (size_t i = 0; i < s->count; i++) {
            char *lf = memchr(at, '\n', s->lines + s->lines_size - at);
            double sent = now();
            put(s->line, at, lf + 1 - at);
            s->others += !reply(s);
            s->waits[i] = now() - sent;
            at = lf + 1;
        }
        s->ended = now();
    }
    if (s->member[0])
        put(s->line, "/leave\n", 7);
    else
        shutdown(s->line, SHUT_WR);
    while (read(s->line, s->kept, sizeof s->kept) > 0) {
    }
    return NULL;
}

static int above(const void *a, const void *b)
{
    double x = *(const double *)a, y = *(const double *)b;
    return (x > y) - (x < y);
}

int main(int count, char **words)
{
    if (count != 5 && count != 6) {
        fprintf(stderr, "usage: stations PORT STATIONS one|poured FOLDER [CREW]\n");
        return 1;
    }
    FILE *crew = count == 6 ? fopen(words[5], "r") : NULL;
    int stations = atoi(words[2]), one = 1;
    struct sockaddr_in at = {.sin_family = AF_INET, .sin_addr.s_addr = htonl(INADDR_LOOPBACK), .sin_port = htons(atoi(words[1]))};
    struct station *all = calloc(stations, sizeof *all);
    pthread_t threads[64];
    size_t lines = 0, others = 0;
    pthread_barrier_init(&ready, NULL, stations);
    for (int i = 0; i < stations; i++) {
        struct station *s = &all[i];
        s->poured = words[3][0] == 'p';
        s->before = whole(words[4], "before", i, &s->before_size, &s->before_count);
        s->lines = whole(words[4], "lines", i, &s->lines_size, &s->count);
        s->waits = calloc(s->count, sizeof *s->waits);
        s->line = socket(AF_INET, SOCK_STREAM, 0);
        if (connect(s->line, (struct sockaddr *)&at, sizeof at) != 0) {
            perror("connect");
            return 1;
        }
        setsockopt(s->line, IPPROTO_TCP, TCP_NODELAY, &one, sizeof one);
        if (crew && fgets(s->member, sizeof s->member, crew))
            s->member[strcspn(s->member, "\n")] = 0;
        lines += s->count;
    }
    for (int i = 0; i < stations; i++)
        pthread_create(&threads[i], NULL, work, &all[i]);
    double last = 0;
    double *waits = calloc(lines, sizeof *waits);
    size_t many = 0;
    for (int i = 0; i < stations; i++) {
        pthread_join(threads[i], NULL);
        others += all[i].others;
        if (all[i].ended > last)
            last = all[i].ended;
        for (size_t k = 0; k < all[i].count; k++)
            waits[many++] = all[i].waits[k];
    }
    qsort(waits, many, sizeof *waits, above);
    printf("%zu %.6f %zu %.1f %.1f %.1f\n", lines, last - began, others, waits[many / 2] * 1e6, waits[many * 999 / 1000] * 1e6, waits[many - 1] * 1e6);
    return 0;
}

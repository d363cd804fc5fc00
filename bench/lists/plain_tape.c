/* Plays a decision list at 24 frames a second, non-drop, as a plain program would, and prints its tape's text. It
   knows cuts and dissolves on V, A and A2, and ends with 1 at a line that it can't read or at an overlap. */

#include <stdio.h>
#include <stdlib.h>
#include <string.h>

struct event {
    int channel, place, count, frames; /* frames of its dissolve */
    char left[33], right[33];
    int left_source, source;
};

static struct event *events;
static size_t count, room;

static int frame_of(const char *label) {
    int h, m, s, f;
    if (sscanf(label, "%2d:%2d:%2d:%2d", &h, &m, &s, &f) != 4 || h > 23 || m > 59 || s > 59 || f > 23)
        exit(1);
    return ((h * 60 + m) * 60 + s) * 24 + f;
}

static int channel_of(const char *word) {
    return strcmp(word, "V") == 0 ? 0 : strcmp(word, "A") == 0 ? 1 : strcmp(word, "A2") == 0 ? 2 : (exit(1), 0);
}

/* One line; `cut` keeps the cut of no length that a dissolve follows. */
static void read_line(char *line, struct event *cut) {
    char *words[9];
    int n = 0;
    for (char *word = strtok(line, " \t\r\n"); word && n < 9; word = strtok(NULL, " \t\r\n"))
        words[n++] = word;
    if (n == 0 || words[0][0] == '*' || strcmp(words[0], "TITLE:") == 0 || strcmp(words[0], "FCM:") == 0)
        return;
    int is_dissolve = n == 9 && words[3][0] == 'D';
    if (!is_dissolve && (n != 8 || words[3][0] != 'C'))
        exit(1);
    char **times = words + n - 4;
    int source = frame_of(times[0]), source_out = frame_of(times[1]);
    int in = frame_of(times[2]), out = frame_of(times[3]);
    struct event event = {channel_of(words[2]), in, out - in, is_dissolve ? atoi(words[4]) : 0, "", "", 0, source};
    if (event.count < 0 || source_out - source != event.count || strlen(words[1]) > 32)
        exit(1);
    strcpy(event.right, words[1]);
    if (event.count == 0) {
        *cut = event;
        return;
    }
    if (is_dissolve) {
        strcpy(event.left, cut->right);
        event.left_source = cut->source;
    }
    if (count == room) {
        room = room ? 2 * room : 1024;
        events = realloc(events, room * sizeof *events);
        if (!events)
            exit(1);
    }
    events[count++] = event;
}

static int by_place(const void *one, const void *two) {
    const struct event *a = one, *b = two;
    return a->channel != b->channel ? a->channel - b->channel : a->place < b->place ? -1 : a->place > b->place;
}

/* The run of pictures that is not printed yet. */
static int run_channel, run_place, run_count, run_source;
static char run_reel[33];

static void end_run(void) {
    static const char *names[] = {"V", "A", "A2"};
    if (run_count && strcmp(run_reel, "BL") != 0)
        printf("%s %d %d %s %d\n", names[run_channel], run_place, run_count, run_reel, run_source);
    run_count = 0;
}

static void print_side(const char *reel, int source) {
    if (strcmp(reel, "BL") == 0)
        printf(" BL");
    else
        printf(" %s %d", reel, source);
}

static int overlap(const struct event *one, const struct event *two) {
    return one->channel == two->channel && one->place + one->count > two->place;
}

static void play(const struct event *event) {
    static const char *names[] = {"V", "A", "A2"};
    int place = event->place + event->frames, source = event->source + event->frames;
    int rest = event->count - event->frames;
    if (event->frames) {
        end_run();
        printf("%s %d %d mix", names[event->channel], event->place, event->frames);
        print_side(event->left, event->left_source);
        print_side(event->right, event->source);
        printf(" 1 %d\n", event->frames + 1);
    }
    if (run_count && run_channel == event->channel && run_place + run_count == place
        && run_source + run_count == source && strcmp(run_reel, event->right) == 0) {
        run_count += rest;
        return;
    }
    end_run();
    run_channel = event->channel, run_place = place, run_count = rest, run_source = source;
    strcpy(run_reel, event->right);
}

int main(int argc, char **argv) {
    FILE *file = argc == 2 ? fopen(argv[1], "r") : NULL;
    static char line[1 << 16];
    struct event cut;
    memset(&cut, 0, sizeof cut);
    while (file && fgets(line, sizeof line, file))
        read_line(line, &cut);
    qsort(events, count, sizeof *events, by_place);
    for (size_t at = 0; at < count; at++) {
        if (at && overlap(&events[at - 1], &events[at]))
            return 1;
        play(&events[at]);
    }
    end_run();
    return file ? 0 : 1;
}

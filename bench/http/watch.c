// Measures how long an event takes to those who watch. `watch PORT WATCHERS EVENTS PAUSE WATCH CREATE`: WATCH and CREATE are files with the
// bytes of two requests; a run of seven '#' in CREATE becomes a number. So many connections send WATCH, and one thread reads what comes over
// all of them; another sends CREATE so many times, PAUSE microseconds apart. Prints, in microseconds after the reply of a create has come:
// the median over all frames, the median of the last frame of each create, and the greatest. A frame that came before the reply counts as 0.
#include <arpa/inet.h>
#include <netinet/tcp.h>
#include <pthread.h>
#include <stdatomic.h>
#include <stdio.h>
#include <stdlib.h>
#include <string.h>
#include <sys/epoll.h>
#include <sys/resource.h>
#include <time.h>
#include <unistd.h>

struct watcher {
    int stream, seen, has_begun;
    char before;
};

static struct sockaddr_in address = {.sin_family = AF_INET};
static char watch[65536], create[65536];
static size_t watch_length, create_length;
static int watchers, events;
static double *came, *replied;
static struct watcher *all;
static atomic_int ready;

static double now(void) {
    struct timespec at;
    clock_gettime(CLOCK_MONOTONIC, &at);
    return (double)at.tv_sec * 1e6 + (double)at.tv_nsec / 1e3;
}

static void nap(long microseconds) {
    struct timespec pause = {.tv_sec = microseconds / 1000000, .tv_nsec = microseconds % 1000000 * 1000};
    nanosleep(&pause, NULL);
}

static int asked(const char *text, size_t length) {
    int stream = socket(AF_INET, SOCK_STREAM, 0), one = 1;
    setsockopt(stream, IPPROTO_TCP, TCP_NODELAY, &one, sizeof one);
    if (connect(stream, (struct sockaddr *)&address, sizeof address) || write(stream, text, length) != (ssize_t)length) exit(3);
    return stream;
}

// A frame ends with a brace and a newline, which stand together nowhere else in a reply of a watch.
static int take(int number) {
    struct watcher *it = &all[number];
    char buffer[65536];
    ssize_t count = read(it->stream, buffer, sizeof buffer);
    if (count <= 0) exit(4);
    double at = now();
    if (!it->has_begun) atomic_fetch_add(&ready, it->has_begun = 1);
    int before = it->seen;
    for (ssize_t i = 0; i < count; it->before = buffer[i++])
        if (buffer[i] == '\n' && it->before == '}' && it->seen < events) came[(size_t)number * (size_t)events + (size_t)it->seen++] = at;
    return before < events && it->seen == events;
}

static void *look(void *poll) {
    struct epoll_event found[256];
    for (int left = watchers; left > 0;)
        for (int i = epoll_wait(*(int *)poll, found, 256, -1) - 1; i >= 0; i--) left -= take(found[i].data.u32);
    return NULL;
}

static void make(int number) {
    char text[sizeof create], digits[16], buffer[65536], *place = memcpy(text, create, create_length);
    snprintf(digits, sizeof digits, "%07d", number);
    if ((place = memmem(text, create_length, "#######", 7))) memcpy(place, digits, 7);
    int stream = asked(text, create_length);
    if (read(stream, buffer, sizeof buffer) < 12 || buffer[9] != '2') exit(5);
    replied[number] = now();
    while (read(stream, buffer, sizeof buffer) > 0) {}
    close(stream);
}

static size_t read_file(const char *path, char *into) {
    FILE *file = fopen(path, "rb");
    size_t length = file ? fread(into, 1, 65536, file) : 0;
    if (!length) exit(2);
    fclose(file);
    return length;
}

static int rising(const void *one, const void *other) {
    double a = *(const double *)one, b = *(const double *)other;
    return (a > b) - (a < b);
}

static void open_many(void) {
    struct rlimit most;
    getrlimit(RLIMIT_NOFILE, &most);
    most.rlim_cur = most.rlim_max;
    setrlimit(RLIMIT_NOFILE, &most);
}

int main(int count, char **words) {
    if (count != 7) return 2;
    address.sin_port = htons((unsigned short)atoi(words[1]));
    address.sin_addr.s_addr = htonl(INADDR_LOOPBACK);
    watchers = atoi(words[2]), events = atoi(words[3]);
    watch_length = read_file(words[5], watch), create_length = read_file(words[6], create);
    size_t frames = (size_t)watchers * (size_t)events;
    came = calloc(frames, sizeof *came), replied = calloc((size_t)events, sizeof *replied), all = calloc((size_t)watchers, sizeof *all);
    double *last = calloc((size_t)events, sizeof *last);
    open_many();
    int poll = epoll_create1(0);
    for (int i = 0; i < watchers; i++) {
        struct epoll_event of = {.events = EPOLLIN, .data.u32 = (unsigned)i};
        all[i].stream = asked(watch, watch_length);
        epoll_ctl(poll, EPOLL_CTL_ADD, all[i].stream, &of);
    }
    pthread_t reader;
    pthread_create(&reader, NULL, look, &poll);
    while (atomic_load(&ready) < watchers) nap(1000);
    for (int i = 0; i < events; i++) nap(atol(words[4])), make(i);
    pthread_join(reader, NULL);
    for (size_t i = 0; i < frames; i++) {
        size_t event = i % (size_t)events;
        came[i] = came[i] > replied[event] ? came[i] - replied[event] : 0;
        if (came[i] > last[event]) last[event] = came[i];
    }
    qsort(came, frames, sizeof *came, rising), qsort(last, (size_t)events, sizeof *last, rising);
    printf("%.0f %.0f %.0f\n", came[frames / 2], last[events / 2], last[events - 1]);
    return 0;
}

// Sends requests over new connections and counts the replies. `load PORT CLIENTS SECONDS REQUEST`: REQUEST is a file with the bytes
// of a request; each run of seven '#' in it becomes a number, another one for each request. Prints how many replies came whole (the
// connection was closed after a status line of 2xx), how many did not, and the seconds.
#include <arpa/inet.h>
#include <netinet/tcp.h>
#include <pthread.h>
#include <stdatomic.h>
#include <stdio.h>
#include <stdlib.h>
#include <string.h>
#include <time.h>
#include <unistd.h>

static struct sockaddr_in address = {.sin_family = AF_INET};
static char request[65536];
static size_t request_length;
static atomic_long asked, answered, failed;
static double until;

static double now(void) {
    struct timespec at;
    clock_gettime(CLOCK_MONOTONIC, &at);
    return (double)at.tv_sec + (double)at.tv_nsec / 1e9;
}

static int is_answered(const char *text, size_t length, char *buffer, size_t room) {
    int stream = socket(AF_INET, SOCK_STREAM, 0), one = 1;
    setsockopt(stream, IPPROTO_TCP, TCP_NODELAY, &one, sizeof one);
    size_t came = 0;
    int good = 0;
    if (!connect(stream, (struct sockaddr *)&address, sizeof address) && write(stream, text, length) == (ssize_t)length) {
        for (;;) {
            ssize_t count = read(stream, buffer, room);
            if (count <= 0) break;
            if (came == 0) good = count > 10 && buffer[9] == '2';
            came += (size_t)count;
        }
    }
    close(stream);
    return good && came > 0;
}

static void *ask(void *nothing) {
    (void)nothing;
    char text[sizeof request], number[16];
    char *buffer = malloc(1 << 20);
    memcpy(text, request, request_length);
    while (now() < until) {
        snprintf(number, sizeof number, "%07ld", atomic_fetch_add(&asked, 1));
        for (const char *place = request; (place = memmem(place, request_length - (size_t)(place - request), "#######", 7)); place += 7)
            memcpy(text + (place - request), number, 7);
        if (is_answered(text, request_length, buffer, 1 << 20)) atomic_fetch_add(&answered, 1);
        else atomic_fetch_add(&failed, 1);
    }
    free(buffer);
    return NULL;
}

int main(int count, char **words) {
    if (count != 5) return 2;
    address.sin_port = htons((unsigned short)atoi(words[1]));
    address.sin_addr.s_addr = htonl(INADDR_LOOPBACK);
    FILE *file = fopen(words[4], "rb");
    if (!file) return 1;
    request_length = fread(request, 1, sizeof request, file);
    int clients = atoi(words[2]);
    double began = now();
    until = began + atof(words[3]);
    pthread_t *threads = malloc(sizeof *threads * (size_t)clients);
    for (int client = 0; client < clients; client++) pthread_create(&threads[client], NULL, ask, NULL);
    for (int client = 0; client < clients; client++) pthread_join(threads[client], NULL);
    printf("%ld %ld %.6f\n", atomic_load(&answered), atomic_load(&failed), now() - began);
}

// What the loopback and the kernel allow: accepts connections, reads a head and the body that it announces, writes a fixed reply,
// and closes. `limit PORT LENGTH THREADS`: a reply of LENGTH bytes of body, by so many threads on one listener.
#include <arpa/inet.h>
#include <netinet/tcp.h>
#include <pthread.h>
#include <stdio.h>
#include <stdlib.h>
#include <string.h>
#include <strings.h>
#include <unistd.h>

static int listener;
static char *reply;
static size_t reply_length;

static long announced(const char *head) {
    const char *field = strcasestr(head, "\r\ncontent-length:");
    return field ? atol(field + 17) : 0;
}

static void serve(int stream) {
    char buffer[65536];
    size_t filled = 0;
    for (;;) {
        ssize_t count = read(stream, buffer + filled, sizeof buffer - 1 - filled);
        if (count <= 0) break;
        filled += (size_t)count;
        buffer[filled] = 0;
        const char *end = strstr(buffer, "\r\n\r\n");
        if (end && filled >= (size_t)(end + 4 - buffer) + (size_t)announced(buffer)) {
            for (size_t sent = 0; sent < reply_length;) {
                ssize_t wrote = write(stream, reply + sent, reply_length - sent);
                if (wrote <= 0) break;
                sent += (size_t)wrote;
            }
            break;
        }
    }
    close(stream);
}

static void *accept_all(void *nothing) {
    (void)nothing;
    for (;;) {
        int stream = accept(listener, NULL, NULL), one = 1;
        if (stream < 0) continue;
        setsockopt(stream, IPPROTO_TCP, TCP_NODELAY, &one, sizeof one);
        serve(stream);
    }
    return NULL;
}

int main(int count, char **words) {
    if (count != 4) return 2;
    size_t length = (size_t)atol(words[2]);
    char head[256];
    int head_length = snprintf(head, sizeof head, "HTTP/1.1 200 OK\r\nContent-Type: application/json\r\nContent-Length: %zu\r\nConnection: close\r\n\r\n", length);
    reply_length = (size_t)head_length + length;
    reply = malloc(reply_length);
    memcpy(reply, head, (size_t)head_length);
    memset(reply + head_length, ' ', length);
    struct sockaddr_in address = {.sin_family = AF_INET, .sin_port = htons((unsigned short)atoi(words[1])), .sin_addr = {htonl(INADDR_LOOPBACK)}};
    int one = 1;
    listener = socket(AF_INET, SOCK_STREAM, 0);
    setsockopt(listener, SOL_SOCKET, SO_REUSEADDR, &one, sizeof one);
    socklen_t size = sizeof address;
    if (bind(listener, (struct sockaddr *)&address, size) || listen(listener, 128)) return 1;
    getsockname(listener, (struct sockaddr *)&address, &size);
    printf("listening 127.0.0.1:%d\n", ntohs(address.sin_port));
    fflush(stdout);
    for (int thread = 1; thread < atoi(words[3]); thread++) {
        pthread_t started;
        pthread_create(&started, NULL, accept_all, NULL);
    }
    accept_all(NULL);
}

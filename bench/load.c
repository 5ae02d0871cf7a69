/* Requests over connections that are kept: each connection, in a thread of its own, sends one, waits for its whole
 * reply, and sends the next, for some seconds.
 *
 *   cc -O2 -pthread -o load load.c
 *   ./load PORT CONNECTIONS SECONDS query     GET /buckets/logs, answered with 200
 *   ./load PORT CONNECTIONS SECONDS TAG       puts of objects under keys of their own from TAG on, answered with 201
 *
 * Prints one line: replies, seconds, replies/s, p50/p99 in microseconds from the send to the end of the reply. Ends
 * with 1 where a reply has another status. The server is at 127.0.0.1.
 */
#include <arpa/inet.h>
#include <netinet/tcp.h>
#include <pthread.h>
#include <stdint.h>
#include <stdio.h>
#include <stdlib.h>
#include <string.h>
#include <sys/socket.h>
#include <time.h>
#include <unistd.h>

#define PUT_OBJECT                                                                                                     \
    "PUT /buckets/logs/objects/%s-%03d-%07zu HTTP/1.1\r\nHost: office\r\nContent-Length: 13\r\n\r\n{\"size\":1000}"
#define GET_BUCKET "GET /buckets/logs HTTP/1.1\r\nHost: office\r\n\r\n"

static int port;
static double seconds;
static const char *work;

typedef struct {
    int number;
    uint32_t *nanoseconds;
    size_t replies;
} Client;

static uint64_t now_ns(void) {
    struct timespec t;
    clock_gettime(CLOCK_MONOTONIC, &t);
    return (uint64_t)t.tv_sec * 1000000000u + (uint64_t)t.tv_nsec;
}

static void must(int ok, const char *what) {
    if (!ok) {
        perror(what);
        exit(1);
    }
}

static int connected(void) {
    struct sockaddr_in at = {.sin_family = AF_INET, .sin_port = htons((uint16_t)port)};
    int one = 1, fd = socket(AF_INET, SOCK_STREAM, 0);
    at.sin_addr.s_addr = htonl(INADDR_LOOPBACK);
    must(fd >= 0 && connect(fd, (struct sockaddr *)&at, sizeof at) == 0, "connect");
    must(setsockopt(fd, IPPROTO_TCP, TCP_NODELAY, &one, sizeof one) == 0, "setsockopt");
    return fd;
}

/* Reads one reply to its end, and nothing follows it. */
static void read_reply(int fd, const char *status) {
    char held[65536];
    size_t size = 0, whole = 0;
    while (whole == 0 || size < whole) {
        ssize_t got = recv(fd, held + size, sizeof held - 1 - size, 0);
        must(got > 0, "recv");
        size += (size_t)got;
        held[size] = 0;
        char *end = strstr(held, "\r\n\r\n");
        if (whole == 0 && end != NULL) {
            char *length = strstr(held, "content-length: ");
            if (length == NULL || length > end || strncmp(held + 9, status, 3) != 0) {
                fprintf(stderr, "wanted %s: %s\n", status, held);
                exit(1);
            }
            whole = (size_t)(end - held) + 4 + strtoul(length + 16, NULL, 10);
        }
    }
}

static void *keep_busy(void *argument) {
    Client *client = argument;
    int fd = connected(), puts = strcmp(work, "query") != 0;
    size_t room = 1024;
    uint64_t begin = now_ns(), until = begin + (uint64_t)(seconds * 1e9);
    client->nanoseconds = malloc(room * sizeof(uint32_t));
    while (begin < until) {
        char asked[512];
        int n = puts ? snprintf(asked, sizeof asked, PUT_OBJECT, work, client->number, client->replies)
                     : snprintf(asked, sizeof asked, GET_BUCKET);
        must(send(fd, asked, (size_t)n, MSG_NOSIGNAL) == n, "send");
        read_reply(fd, puts ? "201" : "200");
        uint64_t end = now_ns(), took = end - begin;
        if (client->replies == room) {
            room *= 2;
            client->nanoseconds = realloc(client->nanoseconds, room * sizeof(uint32_t));
            must(client->nanoseconds != NULL, "realloc");
        }
        client->nanoseconds[client->replies++] = took < UINT32_MAX ? (uint32_t)took : UINT32_MAX;
        begin = end;
    }
    close(fd);
    return NULL;
}

static int by_value(const void *a, const void *b) {
    uint32_t x = *(const uint32_t *)a, y = *(const uint32_t *)b;
    return x < y ? -1 : x > y;
}

int main(int argc, char **argv) {
    if (argc != 5 || atoi(argv[2]) < 1 || atoi(argv[2]) > 64) {
        fprintf(stderr, "usage: load PORT CONNECTIONS SECONDS query|TAG\n");
        return 2;
    }
    int connections = atoi(argv[2]);
    port = atoi(argv[1]);
    seconds = atof(argv[3]);
    work = argv[4];
    pthread_t threads[64];
    Client clients[64] = {0};
    uint64_t begin = now_ns();
    for (int i = 0; i < connections; i++) {
        clients[i].number = i;
        must(pthread_create(&threads[i], NULL, keep_busy, &clients[i]) == 0, "pthread_create");
    }
    size_t replies = 0;
    for (int i = 0; i < connections; i++) {
        pthread_join(threads[i], NULL);
        replies += clients[i].replies;
    }
    double took = (double)(now_ns() - begin) / 1e9;
    uint32_t *all = malloc(replies * sizeof(uint32_t));
    size_t filled = 0;
    for (int i = 0; i < connections; i++) {
        memcpy(all + filled, clients[i].nanoseconds, clients[i].replies * sizeof(uint32_t));
        filled += clients[i].replies;
    }
    qsort(all, replies, sizeof(uint32_t), by_value);
    printf("replies %zu seconds %.3f per_second %.0f p50_us %.1f p99_us %.1f\n", replies, took, (double)replies / took,
           all[replies / 2] / 1e3, all[replies * 99 / 100] / 1e3);
    return 0;
}

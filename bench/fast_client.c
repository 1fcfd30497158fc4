/* A plain client for `serve.sh aggregates`: it sends the requests of so many aggregates and does nothing else.
 *
 * Usage: fast_client BEGIN LANES COUNT (PORT FILE) ..
 *
 * Each lane is a thread, and COUNT aggregates are dealt out to them in turn. From BEGIN on, in nanoseconds since 1970, a lane does its aggregates one after
 * another: for each it sends the bytes of each FILE to its PORT on 127.0.0.1, over a connection of its own, and reads the response to its end. It prints the
 * moment at which the last response ended, and ends with status 1 and a line where a response is not of status 200. */
#define _GNU_SOURCE
#include <arpa/inet.h>
#include <errno.h>
#include <netinet/tcp.h>
#include <pthread.h>
#include <stdint.h>
#include <stdio.h>
#include <stdlib.h>
#include <string.h>
#include <sys/prctl.h>
#include <sys/socket.h>
#include <time.h>
#include <unistd.h>

#define MOST_LANES 64
#define MOST_REQUESTS 8
#define MOST_BYTES 65536
#define SECOND 1000000000LL

struct request {
    struct sockaddr_in to;
    char bytes[MOST_BYTES];
    size_t length;
};

struct lane {
    pthread_t thread;
    size_t aggregates;
    int64_t ended;
};

static struct request requests[MOST_REQUESTS];
static struct lane lanes[MOST_LANES];
static size_t request_count;
static int64_t begin;

static _Noreturn void stop(const char *what) {
    fprintf(stderr, "fast_client: %s: %s\n", what, strerror(errno));
    exit(1);
}

static int connected(const struct request *request) {
    int file = socket(AF_INET, SOCK_STREAM | SOCK_CLOEXEC, 0), yes = 1;
    if (file < 0 || setsockopt(file, IPPROTO_TCP, TCP_NODELAY, &yes, sizeof yes) != 0 ||
        connect(file, (const struct sockaddr *)&request->to, sizeof request->to) != 0) {
        stop("a connection");
    }
    return file;
}

static void round_trip(const struct request *request) {
    char response[MOST_BYTES];
    size_t length = 0;
    ssize_t got;
    int file = connected(request);
    if (send(file, request->bytes, request->length, MSG_NOSIGNAL) != (ssize_t)request->length) {
        stop("a request");
    }
    while ((got = recv(file, response + length, sizeof response - length, 0)) > 0) {
        length += got;
    }
    errno = got < 0 ? errno : EPROTO;
    if (got < 0 || length < 12 || memcmp(response, "HTTP/1.1 200", 12) != 0) {
        stop("a response");
    }
    close(file);
}

static void *run(void *given) {
    struct lane *lane = given;
    struct timespec until = {begin / SECOND, begin % SECOND}, now;
    while (clock_nanosleep(CLOCK_REALTIME, TIMER_ABSTIME, &until, NULL) != 0) {
    }
    for (size_t i = 0; i < lane->aggregates * request_count; i++) {
        round_trip(&requests[i % request_count]);
    }
    clock_gettime(CLOCK_REALTIME, &now);
    lane->ended = now.tv_sec * SECOND + now.tv_nsec;
    return NULL;
}

static void read_request(struct request *request, const char *port, const char *path) {
    FILE *file = fopen(path, "rb");
    if (file == NULL) {
        stop(path);
    }
    request->length = fread(request->bytes, 1, sizeof request->bytes, file);
    if (ferror(file) || request->length == 0 || request->length == sizeof request->bytes) {
        stop(path);
    }
    fclose(file);
    request->to = (struct sockaddr_in){.sin_family = AF_INET, .sin_port = htons(atoi(port)), .sin_addr.s_addr = htonl(INADDR_LOOPBACK)};
}

int main(int count, char **words) {
    size_t lane_count = count > 5 ? strtoul(words[2], NULL, 10) : 0, aggregates = count > 5 ? strtoul(words[3], NULL, 10) : 0;
    request_count = (count - 4) / 2;
    if (count < 6 || count % 2 || lane_count < 1 || lane_count > MOST_LANES || aggregates < 1 || request_count > MOST_REQUESTS) {
        fprintf(stderr, "usage: fast_client BEGIN LANES COUNT (PORT FILE) ..\n");
        return 2;
    }
    begin = strtoll(words[1], NULL, 10);
    for (size_t i = 0; i < request_count; i++) {
        read_request(&requests[i], words[4 + 2 * i], words[5 + 2 * i]);
    }
    /* A wait may end so many nanoseconds late, in each thread that is made from here on. */
    prctl(PR_SET_TIMERSLACK, 1);
    lane_count = lane_count < aggregates ? lane_count : aggregates;
    for (size_t i = 0; i < lane_count; i++) {
        lanes[i].aggregates = aggregates / lane_count + (i < aggregates % lane_count);
        errno = pthread_create(&lanes[i].thread, NULL, run, &lanes[i]);
        if (errno != 0) {
            stop("a thread");
        }
    }
    int64_t ended = 0;
    for (size_t i = 0; i < lane_count; i++) {
        pthread_join(lanes[i].thread, NULL);
        ended = lanes[i].ended > ended ? lanes[i].ended : ended;
    }
    printf("%lld\n", (long long)ended);
    return 0;
}

/* The beacon node and the signing service of `serve.sh aggregates` (fast_peers.py): one process, with a thread and a port on 127.0.0.1 for each.
 *
 * Usage: fast_peers CONTROL ..
 *
 * Each word is the number of a socket that the driver hands down, and makes a thread, which shares nothing with the others. Over the socket go messages:
 * 8 bytes of length, the lowest first, and a text. The thread's first message is its port. The message `take` is answered by what was asked since the last
 * one: for each request a line of the nanoseconds since 1970 at which its connection was accepted and at which the last byte of its answer was handed over,
 * its status, method and target, and the length of its body; and then the body. Any other message is a table of what to answer (fast_answers.c), which takes
 * the place of the last one, and is answered by an empty message. The process ends once a socket of the driver is closed; and with status 1 and a line where
 * the system fails it. */
#define _GNU_SOURCE
#include <arpa/inet.h>
#include <errno.h>
#include <pthread.h>
#include <stdio.h>
#include <stdlib.h>
#include <string.h>
#include <sys/epoll.h>
#include <sys/socket.h>
#include <sys/timerfd.h>
#include <time.h>
#include <unistd.h>

#include "fast_answers.h"

#define SOCKETS 4096
#define SECOND 1000000000LL

/* A connection: what was read, the answer, and up to where that was sent. */
struct link {
    int is_watched;
    int64_t begun, due;
    struct text in, out;
    struct request request;
    struct answer answer;
    size_t sent;
};

/* All that a thread has. Signatures wait in the order in which they were asked for, since each waits equally long. */
struct server {
    int control, listening, timer, watching;
    struct table table;
    struct text noted;
    struct link links[SOCKETS];
    int waiting[SOCKETS], fresh[SOCKETS];
    size_t first_waiting, waiting_count;
};

static int64_t nanoseconds(clockid_t clock) {
    struct timespec now;
    clock_gettime(clock, &now);
    return now.tv_sec * SECOND + now.tv_nsec;
}

/* ---- connections */

static void watch(struct server *server, int file, int how, uint32_t events) {
    struct epoll_event event = {.events = events, .data.fd = file};
    if (epoll_ctl(server->watching, how, file, &event) != 0) {
        stop("epoll_ctl");
    }
}

/* Watches a connection for one kind of events, or for none, so that the other side cannot keep the thread busy. */
static void watch_link(struct server *server, int file, uint32_t events) {
    struct link *link = &server->links[file];
    if (events || link->is_watched) {
        watch(server, file, !events ? EPOLL_CTL_DEL : link->is_watched ? EPOLL_CTL_MOD : EPOLL_CTL_ADD, events);
    }
    link->is_watched = events != 0;
}

static void end_link(struct server *server, int file) {
    struct link *link = &server->links[file];
    close(file);
    link->is_watched = 0;
    link->in.length = link->out.length = 0;
}

static void note(struct server *server, const struct link *link, int64_t ended) {
    const struct request *asked = &link->request;
    char line[160];
    int length = snprintf(line, sizeof line, "%lld %lld %d ", (long long)link->begun, (long long)ended, link->answer.status);
    put(&server->noted, line, length);
    put(&server->noted, asked->method.from, asked->method.length);
    put(&server->noted, " ", 1);
    put(&server->noted, asked->target.from, asked->target.length);
    length = snprintf(line, sizeof line, " %zu\n", asked->body.length);
    put(&server->noted, line, length);
    put(&server->noted, asked->body.from, asked->body.length);
}

/* Sends what is left of an answer, and waits where the system does not take it all. Once it is sent it is noted. */
static void send_on(struct server *server, int file) {
    struct link *link = &server->links[file];
    while (link->sent < link->out.length) {
        ssize_t sent = send(file, link->out.bytes + link->sent, link->out.length - link->sent, MSG_NOSIGNAL);
        if (sent < 0 && errno == EAGAIN) {
            watch_link(server, file, EPOLLOUT);
            return;
        }
        if (sent < 0) {
            end_link(server, file);
            return;
        }
        link->sent += sent;
    }
    note(server, link, nanoseconds(CLOCK_REALTIME));
    end_link(server, file);
}

/* ---- signatures that wait */

static struct link *next_due(struct server *server) {
    return server->waiting_count ? &server->links[server->waiting[server->first_waiting]] : NULL;
}

/* Sets the timer to a moment, or to none. A timer that is set anew is no longer ready. */
static void set_timer(struct server *server) {
    struct link *next = next_due(server);
    int64_t due = next ? next->due : 0;
    struct itimerspec at = {.it_value = {due / SECOND, due % SECOND}};
    if (timerfd_settime(server->timer, TFD_TIMER_ABSTIME, &at, NULL) != 0) {
        stop("timerfd_settime");
    }
}

static void wait_for_due(struct server *server, int file, int64_t due) {
    watch_link(server, file, 0);
    server->links[file].due = due;
    server->waiting[(server->first_waiting + server->waiting_count++) % SOCKETS] = file;
    if (server->waiting_count == 1) {
        set_timer(server);
    }
}

/* Sends the answers whose moment has come. */
static void give_due(struct server *server) {
    struct link *next;
    int given = 0;
    while ((next = next_due(server)) != NULL && next->due <= nanoseconds(CLOCK_MONOTONIC)) {
        int file = server->waiting[server->first_waiting];
        server->first_waiting = (server->first_waiting + 1) % SOCKETS;
        server->waiting_count--;
        send_on(server, file);
        given = 1;
    }
    if (given) {
        set_timer(server);
    }
}

/* ---- requests */

static void answer(struct server *server, int file) {
    struct link *link = &server->links[file];
    int64_t due = nanoseconds(CLOCK_MONOTONIC) + server->table.delay;
    link->answer = answer_to(&link->request, &server->table, &link->out);
    link->sent = link->answer.from;
    if (link->answer.is_signature && server->table.delay > 0) {
        wait_for_due(server, file, due);
    } else {
        send_on(server, file);
    }
}

/* Reads on, and answers once all is there. */
static void read_on(struct server *server, int file) {
    struct link *link = &server->links[file];
    int whole = 0;
    while (whole == 0) {
        make_room(&link->in, 16384);
        ssize_t got = recv(file, link->in.bytes + link->in.length, link->in.room - link->in.length, 0);
        if (got < 0 && errno == EAGAIN) {
            watch_link(server, file, EPOLLIN);
            return;
        }
        link->in.length += got > 0 ? got : 0;
        whole = got > 0 ? find_parts(&link->in, &link->request) : -1;
    }
    if (whole > 0) {
        answer(server, file);
    } else {
        end_link(server, file);
    }
}

/* Accepts all that wait before any of them is read, so that the moments are those at which they came. */
static void accept_all(struct server *server) {
    int file, count = 0;
    while (count < SOCKETS && (file = accept4(server->listening, NULL, NULL, SOCK_NONBLOCK | SOCK_CLOEXEC)) >= 0) {
        if (file >= SOCKETS) {
            errno = EMFILE;
            stop("a connection");
        }
        server->links[file].begun = nanoseconds(CLOCK_REALTIME);
        server->fresh[count++] = file;
    }
    if (count < SOCKETS && errno != EAGAIN && errno != ECONNABORTED && errno != EINTR) {
        stop("accept");
    }
    for (int i = 0; i < count; i++) {
        read_on(server, server->fresh[i]);
    }
}

/* ---- the driver */

/* Reads so many bytes from the driver. Where that is gone the process ends. */
static void hear(int file, void *into, size_t length) {
    for (size_t had = 0; had < length;) {
        ssize_t got = recv(file, (char *)into + had, length - had, 0);
        if (got <= 0) {
            exit(0);
        }
        had += got;
    }
}

static void say(int file, const void *from, size_t length) {
    for (size_t had = 0; had < length;) {
        ssize_t sent = send(file, (const char *)from + had, length - had, MSG_NOSIGNAL);
        if (sent < 0) {
            exit(0);
        }
        had += sent;
    }
}

static void tell(int file, const char *text, uint64_t length) {
    say(file, &length, sizeof length);
    say(file, text, length);
}

static void obey(struct server *server) {
    uint64_t length;
    hear(server->control, &length, sizeof length);
    char *told = calloc(1, length + 1);
    if (told == NULL) {
        stop("memory");
    }
    hear(server->control, told, length);
    if (strcmp(told, "take") == 0) {
        free(told);
        tell(server->control, server->noted.bytes, server->noted.length);
        server->noted.length = 0;
    } else {
        take_table(&server->table, told);
        tell(server->control, "", 0);
    }
}

/* ---- the whole */

/* Listens at a port of the system's choice, and tells the driver which. */
static void listen_somewhere(struct server *server) {
    int file = socket(AF_INET, SOCK_STREAM | SOCK_NONBLOCK | SOCK_CLOEXEC, 0);
    struct sockaddr_in address = {.sin_family = AF_INET, .sin_addr.s_addr = htonl(INADDR_LOOPBACK)};
    socklen_t length = sizeof address;
    if (file < 0 || bind(file, (struct sockaddr *)&address, length) != 0 || listen(file, SOCKETS) != 0 ||
        getsockname(file, (struct sockaddr *)&address, &length) != 0) {
        stop("a port to listen at");
    }
    char port[16];
    server->listening = file;
    tell(server->control, port, snprintf(port, sizeof port, "%u", ntohs(address.sin_port)));
}

static void handle(struct server *server, int file) {
    if (file == server->control) {
        obey(server);
    } else if (file == server->listening) {
        accept_all(server);
    } else if (file != server->timer && server->links[file].out.length) {
        send_on(server, file);
    } else if (file != server->timer) {
        read_on(server, file);
    }
}

static void *serve(void *given) {
    struct server *server = given;
    server->watching = epoll_create1(EPOLL_CLOEXEC);
    server->timer = timerfd_create(CLOCK_MONOTONIC, TFD_NONBLOCK | TFD_CLOEXEC);
    if (server->watching < 0 || server->timer < 0) {
        stop("epoll and a timer");
    }
    listen_somewhere(server);
    watch(server, server->control, EPOLL_CTL_ADD, EPOLLIN);
    watch(server, server->listening, EPOLL_CTL_ADD, EPOLLIN);
    watch(server, server->timer, EPOLL_CTL_ADD, EPOLLIN);
    for (;;) {
        struct epoll_event events[64];
        int ready = epoll_wait(server->watching, events, 64, -1);
        if (ready < 0 && errno != EINTR) {
            stop("epoll_wait");
        }
        give_due(server);
        for (int i = 0; i < ready; i++) {
            handle(server, events[i].data.fd);
        }
    }
}

int main(int count, char **words) {
    if (count < 2) {
        fprintf(stderr, "usage: fast_peers CONTROL ..\n");
        return 2;
    }
    for (int i = 1; i < count; i++) {
        struct server *server = calloc(1, sizeof *server);
        pthread_t thread;
        if (server == NULL) {
            stop("memory");
        }
        server->control = atoi(words[i]);
        errno = pthread_create(&thread, NULL, serve, server);
        if (errno != 0) {
            stop("a thread");
        }
    }
    for (;;) {
        pause();
    }
}

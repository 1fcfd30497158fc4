/* The beacon node and the signing service of `year.sh` as a process of their own, with one thread and two ports on 127.0.0.1.
 *
 * Usage: year_peers GENESIS_TIME KEYS LIMIT PERIOD CLOCK COUNTS NOTES LINES
 *
 * The words are those of year_answers.c, and LINES is a pipe with a name, to which the program writes. It prints the port of the node and
 * that of the service, and ends by a signal. A fault of its own ends it with status 126 and a line. */
#define _GNU_SOURCE
#include <errno.h>
#include <fcntl.h>
#include <netinet/in.h>
#include <netinet/tcp.h>
#include <signal.h>
#include <stdint.h>
#include <stdio.h>
#include <string.h>
#include <sys/epoll.h>
#include <sys/prctl.h>
#include <sys/socket.h>
#include <time.h>
#include <unistd.h>

#include "year_answers.h"

#define MOST_BYTES (32 * 1024 * 1024)
#define SOCKETS 4096

/* A connection: what was read of its request, and what is left of the answer. */
struct link {
    int is_signer;
    int64_t begun;
    struct text in, out;
    size_t sent;
};

static int waiting;
static struct link links[SOCKETS];

/* ---- connections */

static void end_link(int file) {
    close(file);
    links[file].in.length = links[file].out.length = links[file].sent = 0;
}

static void break_link(int file, const char *what) {
    note_fault(what);
    end_link(file);
}

static void wait_for(int file, int how, uint32_t events) {
    struct epoll_event event = {.events = events, .data.fd = file};
    if (epoll_ctl(waiting, how, file, &event) != 0 && !(how == EPOLL_CTL_ADD && errno == EEXIST)) {
        stop("epoll_ctl");
    }
}

/* Answers a whole request. Gives 0 where a part of the answer has to wait. */
static int give(int file, const char *body, const char *end) {
    struct link *link = &links[file];
    size_t all;
    const char *from = answer_to(link->is_signer, &link->in, body, end, &all);
    if (from == NULL) {
        break_link(file, "a request without a target");
        return 1;
    }
    ssize_t sent = send(file, from, all, MSG_NOSIGNAL);
    if (sent < 0 && errno != EAGAIN) {
        break_link(file, "an answer that could not be sent");
        return 1;
    }
    if ((size_t)(sent < 0 ? 0 : sent) == all) {
        counts[REQUESTS]++;
        counts[BUSY] += nanoseconds(CLOCK_MONOTONIC) - link->begun;
        end_link(file);
        return 1;
    }
    link->out.length = link->sent = 0;
    put(&link->out, from + (sent < 0 ? 0 : sent), all - (sent < 0 ? 0 : sent));
    return 0;
}

/* Reads on, and answers once all is there. Gives 0 where more has to come, or to go. */
static int read_on(int file) {
    struct link *link = &links[file];
    for (;;) {
        make_room(&link->in, 16384);
        ssize_t got = recv(file, link->in.bytes + link->in.length, link->in.room - link->in.length, 0);
        if (got < 0 && errno == EAGAIN) {
            return 0;
        }
        if (got <= 0) {
            /* The driver looks with a connection of its own whether a port is there; and a program that is killed breaks off. */
            if (got < 0 || link->in.length) {
                break_link(file, "a request that broke off");
            } else {
                end_link(file);
            }
            return 1;
        }
        link->in.length += got;
        const char *body, *end;
        if (is_whole(&link->in, &body, &end)) {
            if (give(file, body, end)) {
                return 1;
            }
            wait_for(file, EPOLL_CTL_ADD, EPOLLOUT);
            wait_for(file, EPOLL_CTL_MOD, EPOLLOUT);
            return 0;
        }
        if (link->in.length > MOST_BYTES) {
            break_link(file, "a request that is too long");
            return 1;
        }
    }
}

static void send_on(int file) {
    struct link *link = &links[file];
    ssize_t sent = send(file, link->out.bytes + link->sent, link->out.length - link->sent, MSG_NOSIGNAL);
    if (sent < 0 && errno == EAGAIN) {
        return;
    }
    if (sent < 0) {
        break_link(file, "an answer that could not be sent");
        return;
    }
    link->sent += sent;
    if (link->sent == link->out.length) {
        counts[REQUESTS]++;
        counts[BUSY] += nanoseconds(CLOCK_MONOTONIC) - link->begun;
        end_link(file);
    }
}

static void accept_all(int listening, int is_signer) {
    for (;;) {
        int file = accept4(listening, NULL, NULL, SOCK_NONBLOCK | SOCK_CLOEXEC);
        if (file < 0) {
            if (errno == EAGAIN || errno == ECONNABORTED || errno == EINTR) {
                return;
            }
            stop("accept");
        }
        if (file >= SOCKETS) {
            errno = EMFILE;
            stop("too many connections");
        }
        links[file].is_signer = is_signer;
        links[file].begun = nanoseconds(CLOCK_MONOTONIC);
        if (!read_on(file) && links[file].out.length == 0) {
            wait_for(file, EPOLL_CTL_ADD, EPOLLIN);
        }
    }
}

/* A port of the system's choice, whose connections are accepted once their first bytes are there. */
static int listen_at(uint16_t *port) {
    int file = socket(AF_INET, SOCK_STREAM | SOCK_NONBLOCK | SOCK_CLOEXEC, 0), room = 4 * 1024 * 1024, seconds = 1;
    struct sockaddr_in address = {.sin_family = AF_INET, .sin_addr.s_addr = htonl(INADDR_LOOPBACK)};
    socklen_t length = sizeof address;
    if (file < 0 || bind(file, (struct sockaddr *)&address, length) != 0 || listen(file, 4096) != 0 || getsockname(file, (struct sockaddr *)&address, &length) != 0) {
        stop("a port to listen at");
    }
    /* These make it faster, and where the system refuses them it is right all the same. */
    setsockopt(file, IPPROTO_TCP, TCP_DEFER_ACCEPT, &seconds, sizeof seconds);
    setsockopt(file, SOL_SOCKET, SO_SNDBUF, &room, sizeof room);
    *port = ntohs(address.sin_port);
    return file;
}

/* ---- the program's lines */

static void take_lines(int file) {
    char some[65536];
    ssize_t got = read(file, some, sizeof some);
    if (got < 0 && errno == EAGAIN) {
        return;
    }
    if (got <= 0) {
        stop("the pipe of lines");
    }
    take_output(some, got);
}

/* ---- the whole */

int main(int count, char **words) {
    prctl(PR_SET_PDEATHSIG, SIGKILL);
    if (count != 9) {
        fprintf(stderr, "usage: year_peers GENESIS_TIME KEYS LIMIT PERIOD CLOCK COUNTS NOTES LINES\n");
        return 2;
    }
    char *answers[ANSWER_WORDS] = {words[1], words[2], words[3], words[4], words[5], words[6], words[7], "year_peers"};
    begin_answers(answers);
    /* Opened for writing too, so that it does not end with the program. */
    int lines = open(words[8], O_RDWR | O_NONBLOCK | O_CLOEXEC);
    if (lines < 0) {
        stop(words[8]);
    }
    uint16_t node_port, signer_port;
    int node = listen_at(&node_port), signer = listen_at(&signer_port);
    waiting = epoll_create1(EPOLL_CLOEXEC);
    if (waiting < 0) {
        stop("epoll_create1");
    }
    wait_for(node, EPOLL_CTL_ADD, EPOLLIN);
    wait_for(signer, EPOLL_CTL_ADD, EPOLLIN);
    wait_for(lines, EPOLL_CTL_ADD, EPOLLIN);
    printf("%u %u\n", node_port, signer_port);
    fflush(stdout);
    for (;;) {
        struct epoll_event events[64];
        int ready = epoll_wait(waiting, events, 64, -1);
        if (ready < 0 && errno != EINTR) {
            stop("epoll_wait");
        }
        for (int i = 0; i < ready; i++) {
            int file = events[i].data.fd;
            if (file == node || file == signer) {
                accept_all(file, file == signer);
            } else if (file == lines) {
                take_lines(file);
            } else if (links[file].out.length) {
                send_on(file);
            } else {
                links[file].begun = nanoseconds(CLOCK_MONOTONIC);
                read_on(file);
            }
        }
    }
}

/* The peers of `year.sh` inside the program: loaded in front of the C library into it (LD_PRELOAD), with year_clock.c, and into nothing else.
 *
 * YEAR_PEERS has the words of year_answers.c and the ports of the beacon node and of the signing service, with spaces between them. A
 * connection to one of the two ports on 127.0.0.1 reaches no other process: what is sent there is kept until the request is whole, the answer
 * is read from memory, and then the connection is at its end. What the program writes to standard output is read here as well, and goes
 * nowhere else. All other calls are the system's. So a vote takes no round trips, and a year takes hours in place of a day. */
#define _GNU_SOURCE
#include <arpa/inet.h>
#include <errno.h>
#include <netinet/in.h>
#include <pthread.h>
#include <stdatomic.h>
#include <stdlib.h>
#include <string.h>
#include <sys/socket.h>
#include <sys/syscall.h>
#include <sys/uio.h>
#include <time.h>
#include <unistd.h>

#include "year_answers.h"

#define FILES 4096
#define MOST_BYTES (32 * 1024 * 1024)
#define NODE 1
#define SIGNER 2
/* What is kept of a connection that ended, for the next one. */
#define MOST_KEPT 65536

/* A connection: whose it is (or nothing: it is the system's), what was sent of its request, and the answer. */
struct link {
    _Atomic int peer;
    int is_answered;
    int64_t begun;
    struct text in, out;
    size_t read;
};

static struct link links[FILES];
static uint16_t node_port, signer_port;
static pthread_mutex_t turn = PTHREAD_MUTEX_INITIALIZER;

__attribute__((constructor)) static void begin(void) {
    static char text[4096];
    const char *set = getenv("YEAR_PEERS");
    char *words[ANSWER_WORDS + 1], *rest = text;
    if (set == NULL || strlen(set) >= sizeof text) {
        errno = EINVAL;
        stop("YEAR_PEERS");
    }
    strcpy(text, set);
    for (int i = 0; i <= ANSWER_WORDS; i++) {
        words[i] = strsep(&rest, " ");
        if (words[i] == NULL) {
            errno = EINVAL;
            stop("YEAR_PEERS");
        }
    }
    node_port = atoi(words[ANSWER_WORDS - 1]);
    signer_port = atoi(words[ANSWER_WORDS]);
    words[ANSWER_WORDS - 1] = "year_inside";
    begin_answers(words);
}

/* The connection of this number, where it is one to the peers. */
static struct link *link_of(int file) {
    return file >= 0 && file < FILES && atomic_load_explicit(&links[file].peer, memory_order_relaxed) ? &links[file] : NULL;
}

static void forget(struct text *text) {
    if (text->room > MOST_KEPT) {
        free(text->bytes);
        *text = (struct text){0};
    }
    text->length = 0;
}

/* ---- what the program sends, and what it reads */

static void answer_whole(struct link *link) {
    const char *body, *end;
    if (link->is_answered || !is_whole(&link->in, &body, &end)) {
        return;
    }
    size_t length;
    pthread_mutex_lock(&turn);
    const char *answer = answer_to(link->peer == SIGNER, &link->in, body, end, &length);
    if (answer) {
        put(&link->out, answer, length);
        counts[REQUESTS]++;
        counts[BUSY] += nanoseconds(CLOCK_MONOTONIC) - link->begun;
    } else {
        note_fault("a request without a target");
    }
    pthread_mutex_unlock(&turn);
    link->is_answered = 1;
}

static ssize_t take(struct link *link, const struct iovec *pieces, int count) {
    size_t taken = 0;
    if (link->in.length == 0) {
        link->begun = nanoseconds(CLOCK_MONOTONIC);
    }
    for (int i = 0; i < count; i++) {
        put(&link->in, pieces[i].iov_base, pieces[i].iov_len);
        taken += pieces[i].iov_len;
    }
    if (link->in.length > MOST_BYTES) {
        errno = EMSGSIZE;
        stop("a request that is too long");
    }
    answer_whole(link);
    return taken;
}

static ssize_t give(struct link *link, void *bytes, size_t length, int flags) {
    if (!link->is_answered) {
        errno = EAGAIN;
        return -1;
    }
    size_t left = link->out.length - link->read;
    length = length < left ? length : left;
    memcpy(bytes, link->out.bytes + link->read, length);
    if (!(flags & MSG_PEEK)) {
        link->read += length;
    }
    return length;
}

static void take_lines(const struct iovec *pieces, int count) {
    pthread_mutex_lock(&turn);
    for (int i = 0; i < count; i++) {
        take_output(pieces[i].iov_base, pieces[i].iov_len);
    }
    pthread_mutex_unlock(&turn);
}

static ssize_t length_of(const struct iovec *pieces, int count) {
    ssize_t length = 0;
    for (int i = 0; i < count; i++) {
        length += pieces[i].iov_len;
    }
    return length;
}

/* ---- the calls of the C library */

int connect(int file, const struct sockaddr *address, socklen_t length) {
    const struct sockaddr_in *there = (const struct sockaddr_in *)address;
    if (file >= 0 && file < FILES && length >= sizeof *there && there->sin_family == AF_INET && there->sin_addr.s_addr == htonl(INADDR_LOOPBACK)) {
        uint16_t port = ntohs(there->sin_port);
        if (port == node_port || port == signer_port) {
            links[file].peer = port == node_port ? NODE : SIGNER;
            return 0;
        }
    }
    return syscall(SYS_connect, file, address, length);
}

int getpeername(int file, struct sockaddr *restrict address, socklen_t *restrict length) {
    struct link *link = link_of(file);
    if (link == NULL) {
        return syscall(SYS_getpeername, file, address, length);
    }
    struct sockaddr_in there = {.sin_family = AF_INET, .sin_port = htons(link->peer == NODE ? node_port : signer_port), .sin_addr.s_addr = htonl(INADDR_LOOPBACK)};
    memcpy(address, &there, *length < sizeof there ? *length : sizeof there);
    *length = sizeof there;
    return 0;
}

ssize_t send(int file, const void *bytes, size_t length, int flags) {
    struct link *link = link_of(file);
    struct iovec piece = {(void *)bytes, length};
    return link ? take(link, &piece, 1) : syscall(SYS_sendto, file, bytes, length, flags, NULL, 0);
}

ssize_t sendto(int file, const void *bytes, size_t length, int flags, const struct sockaddr *address, socklen_t size) {
    struct link *link = link_of(file);
    struct iovec piece = {(void *)bytes, length};
    return link ? take(link, &piece, 1) : syscall(SYS_sendto, file, bytes, length, flags, address, size);
}

ssize_t sendmsg(int file, const struct msghdr *message, int flags) {
    struct link *link = link_of(file);
    return link ? take(link, message->msg_iov, message->msg_iovlen) : syscall(SYS_sendmsg, file, message, flags);
}

ssize_t writev(int file, const struct iovec *pieces, int count) {
    struct link *link = link_of(file);
    if (file == STDOUT_FILENO) {
        take_lines(pieces, count);
        return length_of(pieces, count);
    }
    return link ? take(link, pieces, count) : syscall(SYS_writev, file, pieces, count);
}

ssize_t write(int file, const void *bytes, size_t length) {
    struct link *link = link_of(file);
    struct iovec piece = {(void *)bytes, length};
    if (file == STDOUT_FILENO) {
        take_lines(&piece, 1);
        return length;
    }
    return link ? take(link, &piece, 1) : syscall(SYS_write, file, bytes, length);
}

ssize_t recv(int file, void *bytes, size_t length, int flags) {
    struct link *link = link_of(file);
    return link ? give(link, bytes, length, flags) : syscall(SYS_recvfrom, file, bytes, length, flags, NULL, NULL);
}

ssize_t recvfrom(int file, void *restrict bytes, size_t length, int flags, struct sockaddr *restrict address, socklen_t *restrict size) {
    struct link *link = link_of(file);
    return link ? give(link, bytes, length, flags) : syscall(SYS_recvfrom, file, bytes, length, flags, address, size);
}

ssize_t read(int file, void *bytes, size_t length) {
    struct link *link = link_of(file);
    return link ? give(link, bytes, length, 0) : syscall(SYS_read, file, bytes, length);
}

ssize_t readv(int file, const struct iovec *pieces, int count) {
    struct link *link = link_of(file);
    return link && count > 0 ? give(link, pieces[0].iov_base, pieces[0].iov_len, 0) : syscall(SYS_readv, file, pieces, count);
}

int shutdown(int file, int how) {
    return link_of(file) ? 0 : syscall(SYS_shutdown, file, how);
}

int close(int file) {
    struct link *link = link_of(file);
    if (link) {
        forget(&link->in);
        forget(&link->out);
        link->read = link->is_answered = 0;
        link->peer = 0;
    }
    return syscall(SYS_close, file);
}

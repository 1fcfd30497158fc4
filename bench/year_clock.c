/* The driven clock of `year.sh`: loaded in front of the C library into the program (LD_PRELOAD), and into nothing else.
 *
 * The file that YEAR_CLOCK names has eight bytes: how many nanoseconds the driven clock is ahead of the system's. A sleep of 2 milliseconds
 * or more takes no time, and moves the driven clock to where it would have ended. A shorter one sleeps, and moves nothing; so does one of
 * whole milliseconds, 64 at most, by which the program looks whether a connection came. While nobody
 * sleeps the driven clock runs as the system's does. The file outlasts the program, so that the next run goes on from there, and others
 * may read it meanwhile. The monotonic clock stays the system's, and so do the limits of sockets and the waits for a lock, which are futexes. */
#define _GNU_SOURCE
#include <errno.h>
#include <fcntl.h>
#include <signal.h>
#include <stdatomic.h>
#include <stdint.h>
#include <stdlib.h>
#include <string.h>
#include <sys/mman.h>
#include <sys/prctl.h>
#include <sys/syscall.h>
#include <sys/time.h>
#include <time.h>
#include <unistd.h>

#define SECOND 1000000000LL
#define SHORTEST (2 * 1000000LL)
#define LOOK (64 * 1000000LL)
#define LONGEST (INT64_MAX / 4)

static _Atomic int64_t *ahead;

static void stop(const char *why) {
    static const char front[] = "year_clock: ";
    if (write(2, front, sizeof front - 1) < 0 || write(2, why, strlen(why)) < 0 || write(2, "\n", 1) < 0) {
        _exit(126);
    }
    _exit(126);
}

/* The system is asked by its own calls: to look the C library's functions up would be one more thing that can fail. */
static int system_time(clockid_t clock, struct timespec *time) {
    return syscall(SYS_clock_gettime, clock, time);
}

/* Sleeps, and gives 0 or the number of an error. */
static int system_sleep(clockid_t clock, int flags, const struct timespec *asked, struct timespec *left) {
    return syscall(SYS_clock_nanosleep, clock, flags, asked, left) == 0 ? 0 : errno;
}

__attribute__((constructor)) static void begin(void) {
    if (ahead != NULL) {
        return;
    }
    const char *path = getenv("YEAR_CLOCK");
    if (path == NULL) {
        stop("YEAR_CLOCK is not set");
    }
    int file = open(path, O_RDWR | O_CLOEXEC);
    if (file < 0) {
        stop("the file that YEAR_CLOCK names cannot be opened");
    }
    void *mapped = mmap(NULL, sizeof *ahead, PROT_READ | PROT_WRITE, MAP_SHARED, file, 0);
    if (mapped == MAP_FAILED) {
        stop("the file that YEAR_CLOCK names cannot be mapped");
    }
    close(file);
    ahead = mapped;
    /* The program ends with the driver, whatever ends that. */
    prctl(PR_SET_PDEATHSIG, SIGKILL);
}

/* Constructors of other libraries may ask for the time before this one's ran. */
static void be_ready(void) {
    if (ahead == NULL) {
        begin();
    }
}

static int64_t span_of(const struct timespec *time) {
    return time->tv_sec >= LONGEST / SECOND ? LONGEST : time->tv_sec * SECOND + time->tv_nsec;
}

/* It sleeps, and moves nothing. */
static int is_short(int64_t span) {
    return span < SHORTEST || (span <= LOOK && span % 1000000 == 0);
}

static struct timespec time_of(int64_t span) {
    return (struct timespec){.tv_sec = span / SECOND, .tv_nsec = span % SECOND};
}

static int64_t system_now(void) {
    struct timespec now;
    if (system_time(CLOCK_REALTIME, &now) != 0) {
        stop("the system's clock cannot be read");
    }
    return span_of(&now);
}

/* Moves the driven clock on to where it is after so long. Of two that sleep at the same time the longer sleep counts. */
static void pass(int64_t span) {
    int64_t now = system_now();
    int64_t seen = atomic_load(ahead);
    int64_t until = now + seen + span;
    while (now + seen < until && !atomic_compare_exchange_weak(ahead, &seen, until - now)) {
    }
}

static int is_driven(clockid_t clock) {
    return clock == CLOCK_REALTIME || clock == CLOCK_REALTIME_COARSE;
}

static int is_time(const struct timespec *time) {
    return time->tv_sec >= 0 && time->tv_nsec >= 0 && time->tv_nsec < SECOND;
}

int clock_gettime(clockid_t clock, struct timespec *time) {
    be_ready();
    int done = system_time(clock, time);
    if (done == 0 && is_driven(clock)) {
        *time = time_of(span_of(time) + atomic_load(ahead));
    }
    return done;
}

int gettimeofday(struct timeval *restrict time, void *restrict zone) {
    (void)zone;
    be_ready();
    int64_t now = system_now() + atomic_load(ahead);
    time->tv_sec = now / SECOND;
    time->tv_usec = now % SECOND / 1000;
    return 0;
}

time_t time(time_t *kept) {
    be_ready();
    time_t now = (system_now() + atomic_load(ahead)) / SECOND;
    if (kept != NULL) {
        *kept = now;
    }
    return now;
}

int nanosleep(const struct timespec *asked, struct timespec *left) {
    be_ready();
    if (!is_time(asked) || is_short(span_of(asked))) {
        int fault = system_sleep(CLOCK_REALTIME, 0, asked, left);
        if (fault != 0) {
            errno = fault;
            return -1;
        }
        return 0;
    }
    pass(span_of(asked));
    return 0;
}

/* A sleep until a moment of the driven clock is one of what is left to it. One until a moment of another clock is the system's. */
int clock_nanosleep(clockid_t clock, int flags, const struct timespec *asked, struct timespec *left) {
    be_ready();
    if (!is_time(asked)) {
        return system_sleep(clock, flags, asked, left);
    }
    int64_t span = span_of(asked);
    if (flags & TIMER_ABSTIME) {
        if (!is_driven(clock)) {
            return system_sleep(clock, flags, asked, left);
        }
        span -= system_now() + atomic_load(ahead);
        if (span <= 0) {
            return 0;
        }
    }
    if (!is_short(span)) {
        pass(span);
        return 0;
    }
    struct timespec rest = time_of(span);
    return system_sleep(CLOCK_MONOTONIC, 0, &rest, flags & TIMER_ABSTIME ? NULL : left);
}

int usleep(useconds_t asked) {
    struct timespec span = time_of(asked * 1000LL);
    return nanosleep(&span, NULL);
}

unsigned sleep(unsigned asked) {
    struct timespec span = time_of(asked * SECOND);
    return nanosleep(&span, NULL) == 0 ? 0 : asked;
}

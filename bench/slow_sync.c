/* A disk whose syncs take long, for `waiting.sh`: loaded in front of the C library into a program (LD_PRELOAD). Nothing is synced. Each sync takes as
   many microseconds as SYNC_MICROSECONDS says, 10,000 where it is not set, and adds a byte to the file that SYNCS names. */
#define _GNU_SOURCE
#include <fcntl.h>
#include <stdlib.h>
#include <time.h>
#include <unistd.h>

static void count(void) {
    const char *name = getenv("SYNCS");
    int file = name ? open(name, O_WRONLY | O_APPEND | O_CREAT, 0600) : -1;
    if (file >= 0) {
        if (write(file, "+", 1) != 1) {
            abort();
        }
        close(file);
    }
}

static int take_time(void) {
    const char *told = getenv("SYNC_MICROSECONDS");
    long long left = (told ? atoll(told) : 10000) * 1000;
    struct timespec until;
    count();
    clock_gettime(CLOCK_MONOTONIC, &until);
    until.tv_nsec += left % 1000000000;
    until.tv_sec += left / 1000000000 + until.tv_nsec / 1000000000;
    until.tv_nsec %= 1000000000;
    while (clock_nanosleep(CLOCK_MONOTONIC, TIMER_ABSTIME, &until, NULL) != 0) {
    }
    return 0;
}

int fsync(int file) {
    (void)file;
    return take_time();
}

int fdatasync(int file) {
    (void)file;
    return take_time();
}

/* A clock that is set while the program runs, for `trouble.sh`: loaded in front of the C library into the program (LD_PRELOAD). The file that
 * STEP_CLOCK names has eight bytes: by how many nanoseconds the clock that the program reads is ahead of the system's. */
#define _GNU_SOURCE
#include <fcntl.h>
#include <stdatomic.h>
#include <stdint.h>
#include <stdlib.h>
#include <sys/mman.h>
#include <sys/syscall.h>
#include <time.h>
#include <unistd.h>

#define SECOND 1000000000LL

static _Atomic int64_t *ahead;

static void begin(void) {
    const char *path = getenv("STEP_CLOCK");
    int file = path == NULL ? -1 : open(path, O_RDWR | O_CLOEXEC);
    void *mapped = file < 0 ? MAP_FAILED : mmap(NULL, sizeof *ahead, PROT_READ | PROT_WRITE, MAP_SHARED, file, 0);
    if (mapped == MAP_FAILED) {
        _exit(126);
    }
    close(file);
    ahead = mapped;
}

int clock_gettime(clockid_t clock, struct timespec *time) {
    if (ahead == NULL) {
        begin();
    }
    int done = syscall(SYS_clock_gettime, clock, time);
    if (done == 0 && (clock == CLOCK_REALTIME || clock == CLOCK_REALTIME_COARSE)) {
        int64_t now = time->tv_sec * SECOND + time->tv_nsec + atomic_load(ahead);
        *time = (struct timespec){.tv_sec = now / SECOND, .tv_nsec = now % SECOND};
    }
    return done;
}

/* Refuses memory to a program: loaded in front of the C library into it (LD_PRELOAD), and into nothing else.
 *
 * Of its allocations, those of the C library within its calls among them, the one of the number NO_MEMORY is refused, from 1, and with NO_MEMORY_ON
 * all after it, too. The file that NO_MEMORY_COUNT names has eight bytes: how many there were. */
#define _GNU_SOURCE
#include <errno.h>
#include <fcntl.h>
#include <stdatomic.h>
#include <stdint.h>
#include <stdlib.h>
#include <sys/mman.h>
#include <unistd.h>

extern void *__libc_malloc(size_t);
extern void *__libc_calloc(size_t, size_t);
extern void *__libc_realloc(void *, size_t);
extern void *__libc_memalign(size_t, size_t);

static _Atomic uint64_t *count;
static uint64_t refused;
static int goes_on;

__attribute__((constructor)) static void begin(void) {
    const char *path = getenv("NO_MEMORY_COUNT"), *number = getenv("NO_MEMORY");
    int file = path == NULL ? -1 : open(path, O_RDWR | O_CLOEXEC);
    void *mapped = file < 0 ? MAP_FAILED : mmap(NULL, sizeof *count, PROT_READ | PROT_WRITE, MAP_SHARED, file, 0);
    if (mapped == MAP_FAILED || number == NULL) {
        static const char why[] = "no_memory: NO_MEMORY and a file of eight bytes, NO_MEMORY_COUNT, are wanted\n";
        (void)!write(2, why, sizeof why - 1);
        _exit(126);
    }
    close(file);
    refused = strtoull(number, NULL, 10);
    goes_on = getenv("NO_MEMORY_ON") != NULL;
    count = mapped;
}

static int refuses(void) {
    if (count == NULL) {
        return 0;
    }
    uint64_t number = atomic_fetch_add(count, 1) + 1;
    if (refused == 0 || number < refused || (number > refused && !goes_on)) {
        return 0;
    }
    errno = ENOMEM;
    return 1;
}

void *malloc(size_t size) { return refuses() ? NULL : __libc_malloc(size); }

void *calloc(size_t items, size_t size) { return refuses() ? NULL : __libc_calloc(items, size); }

void *realloc(void *block, size_t size) { return refuses() ? NULL : __libc_realloc(block, size); }

void *aligned_alloc(size_t alignment, size_t size) { return refuses() ? NULL : __libc_memalign(alignment, size); }

int posix_memalign(void **block, size_t alignment, size_t size) {
    void *given = refuses() ? NULL : __libc_memalign(alignment, size);
    if (given == NULL) {
        return ENOMEM;
    }
    *block = given;
    return 0;
}

/* Runs a program once for each line of its input: the words of its own command line, with the file that the line names as standard input and
   the file after a tab as standard output; what it says on standard error is dropped. Writes a line for each: the status (256 and more: a
   signal), the microseconds of processor time, the microseconds that went by, and the greatest resident memory in KiB. Being small itself,
   it does not hide what the program takes. A run of more than five minutes is ended. */
#define _GNU_SOURCE
#include <fcntl.h>
#include <stdio.h>
#include <string.h>
#include <sys/resource.h>
#include <sys/time.h>
#include <sys/wait.h>
#include <time.h>
#include <unistd.h>

static long micros(void) {
    struct timespec now;
    clock_gettime(CLOCK_MONOTONIC, &now);
    return now.tv_sec * 1000000L + now.tv_nsec / 1000;
}

static void begin(char **words, const char *in, const char *out) {
    int reading = open(in, O_RDONLY), writing = open(out, O_WRONLY | O_CREAT | O_TRUNC, 0600), nowhere = open("/dev/null", O_WRONLY);
    if (reading < 0 || writing < 0 || nowhere < 0 || dup2(reading, 0) < 0 || dup2(writing, 1) < 0 || dup2(nowhere, 2) < 0)
        _exit(99);
    close(reading), close(writing), close(nowhere);
    alarm(300);
    execv(words[0], words);
    _exit(99);
}

int main(int count, char **words) {
    char line[4096];
    if (count < 2)
        return 2;
    while (fgets(line, sizeof line, stdin)) {
        char *in = strtok(line, "\t\n"), *out = strtok(NULL, "\t\n");
        if (!in || !out)
            return 2;
        long begun = micros();
        pid_t child = fork();
        if (child == 0)
            begin(words + 1, in, out);
        int status;
        struct rusage used;
        if (child < 0 || wait4(child, &status, 0, &used) != child)
            return 1;
        long spent = (used.ru_utime.tv_sec + used.ru_stime.tv_sec) * 1000000L + used.ru_utime.tv_usec + used.ru_stime.tv_usec;
        printf("%d %ld %ld %ld\n", WIFEXITED(status) ? WEXITSTATUS(status) : 256 + WTERMSIG(status), spent, micros() - begun, used.ru_maxrss);
        fflush(stdout);
    }
    return 0;
}

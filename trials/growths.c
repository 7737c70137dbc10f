// Preloaded into a run of stratbench by trials: numbers the growths of memory from 1 and refuses some of them, and
// gives standard input in pieces that end at given places. Read from the environment:
//
//   GROWTHS_REFUSED  two numbers "FIRST LAST": the growths from FIRST to LAST are refused
//   INPUT_ENDS       numbers, rising: no read of standard input goes past the next of these places
//   GROWTHS_LOG      a file: before each read of standard input, and at the end, a line "READ GROWTHS WRITTEN" is added
//                    to it, how many bytes of standard input were read, how many growths asked for and how many bytes
//                    written to standard output so far; at the end also "peak" and the most memory that the run took, in KB

#include <errno.h>
#include <fcntl.h>
#include <stdio.h>
#include <stdlib.h>
#include <string.h>
#include <sys/syscall.h>
#include <unistd.h>

extern void *__libc_malloc(size_t);
extern void *__libc_realloc(void *, size_t);

static unsigned long growths, first, last, given, written;
static const char *ends;
static int log_file = -1;

static void note(void) {
    char line[96];
    if (log_file >= 0)
        syscall(SYS_write, log_file, line, snprintf(line, sizeof line, "%lu %lu %lu\n", given, growths, written));
}

__attribute__((constructor)) static void begin(void) {
    const char *refused = getenv("GROWTHS_REFUSED"), *log = getenv("GROWTHS_LOG");
    ends = getenv("INPUT_ENDS");
    if (log)
        log_file = open(log, O_WRONLY | O_CREAT | O_APPEND | O_CLOEXEC, 0600);
    if (refused)
        sscanf(refused, "%lu %lu", &first, &last);
}

__attribute__((destructor)) static void end(void) {
    char status[4096];
    int file = log_file >= 0 ? open("/proc/self/status", O_RDONLY) : -1;
    long got = file >= 0 ? syscall(SYS_read, file, status, sizeof status - 1) : 0;
    status[got > 0 ? got : 0] = 0;
    char *peak = strstr(status, "VmHWM:");
    char line[32];
    note();
    if (peak)
        syscall(SYS_write, log_file, line, snprintf(line, sizeof line, "peak %ld\n", strtol(peak + 6, NULL, 10)));
}

static int is_refused(void) {
    growths++;
    if (!first || growths < first || growths > last)
        return 0;
    errno = ENOMEM;
    return 1;
}

void *malloc(size_t size) { return is_refused() ? NULL : __libc_malloc(size); }

void *realloc(void *block, size_t size) { return is_refused() ? NULL : __libc_realloc(block, size); }

ssize_t write(int file, const void *bytes, size_t count) {
    ssize_t taken = syscall(SYS_write, file, bytes, count);
    if (file == 1 && taken > 0)
        written += taken;
    return taken;
}

ssize_t read(int file, void *bytes, size_t count) {
    if (file == 0) {
        note();
        while (ends && *ends) {
            char *rest;
            unsigned long place = strtoul(ends, &rest, 10);
            if (place > given) {
                if (count > place - given)
                    count = place - given;
                break;
            }
            ends = rest > ends ? rest : NULL;
        }
    }
    ssize_t got = syscall(SYS_read, file, bytes, count);
    if (file == 0 && got > 0)
        given += got;
    return got;
}

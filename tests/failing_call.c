/* Preloaded into the checker, lets one read or write of its process fail, and counts both. The calls behind the failing one are served.

   READ_FAILS=N, WRITE_FAILS=N  the Nth of these calls fails, counted from 1; none where it is 0
   FAILS_WITH=NUMBER            with the error of this number; where it is 0 it moves no byte
   READ_MOST=N, WRITE_MOST=N    a call moves at most so many bytes; any number where it is 0
   OPEN_FAILS=PATH              this path cannot be opened
   CALLS_TOLD=FILE              where the process writes at its end how often it read and wrote, and how many bytes its reads gave of standard
                                input and of other files */
#define _GNU_SOURCE
#include <errno.h>
#include <fcntl.h>
#include <stdarg.h>
#include <stdio.h>
#include <stdlib.h>
#include <string.h>
#include <sys/syscall.h>
#include <unistd.h>

struct calls {
    long made, fails, most;
};

static struct calls reads, writes;
static long error, input_bytes, file_bytes;

static long number(const char *name) {
    const char *word = getenv(name);
    return word ? strtol(word, NULL, 10) : 0;
}

__attribute__((constructor)) static void begin(void) {
    reads = (struct calls){0, number("READ_FAILS"), number("READ_MOST")};
    writes = (struct calls){0, number("WRITE_FAILS"), number("WRITE_MOST")};
    error = number("FAILS_WITH");
}

__attribute__((destructor)) static void end(void) {
    char text[96];
    int length = snprintf(text, sizeof text, "%ld %ld %ld %ld", reads.made, writes.made, input_bytes, file_bytes);
    const char *file = getenv("CALLS_TOLD");
    int told = file ? open(file, O_WRONLY | O_CREAT | O_TRUNC, 0600) : -1;
    if (told < 0 || syscall(SYS_write, told, text, (size_t)length) != length) _exit(125);
}

static ssize_t call(struct calls *calls, long number, int file, void *bytes, size_t count) {
    calls->made++;
    if (calls->made == calls->fails) {
        errno = (int)error;
        return error ? -1 : 0;
    }
    if (calls->most && count > (size_t)calls->most) count = (size_t)calls->most;
    return syscall(number, file, bytes, count);
}

ssize_t read(int file, void *bytes, size_t count) {
    ssize_t given = call(&reads, SYS_read, file, bytes, count);
    if (given > 0) *(file == STDIN_FILENO ? &input_bytes : &file_bytes) += given;
    return given;
}

ssize_t write(int file, const void *bytes, size_t count) {
    return call(&writes, SYS_write, file, (void *)bytes, count);
}

int open(const char *path, int flags, ...) {
    const char *closed = getenv("OPEN_FAILS");
    va_list words;
    va_start(words, flags);
    unsigned mode = flags & O_CREAT ? va_arg(words, unsigned) : 0;
    va_end(words);
    if (closed && strcmp(path, closed) == 0) {
        errno = EACCES;
        return -1;
    }
    return (int)syscall(SYS_openat, AT_FDCWD, path, flags, mode);
}

int open64(const char *path, int flags, ...) __attribute__((alias("open")));

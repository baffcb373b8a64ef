/* Stands for each header of macOS that the C file includes. */
#ifndef STAND_IN_H
#define STAND_IN_H
#include <stddef.h>
#include <stdint.h>

typedef long ssize_t;

int *__error(void);
#define errno (*__error())
enum {
    EPERM = 1, ENOENT = 2, EINTR = 4, EIO = 5, ENXIO = 6, EBADF = 9, EDEADLK = 11, ENOMEM = 12, EACCES = 13, EFAULT = 14, EBUSY = 16,
    EEXIST = 17, ENODEV = 19, ENOTDIR = 20, EISDIR = 21, EINVAL = 22, ENFILE = 23, EMFILE = 24, ENOTTY = 25, EFBIG = 27, ENOSPC = 28,
    ESPIPE = 29, EROFS = 30, EPIPE = 32, ERANGE = 34, EAGAIN = 35, ECONNRESET = 54, ETIMEDOUT = 60, ELOOP = 62, ENAMETOOLONG = 63, ENOSYS = 78
};
#define ETXTBSY 26
#define ESTALE 70
#define EDQUOT 69
#define EOVERFLOW 84

#define O_RDONLY 0
#define O_NOCTTY 0x20000
#define O_CLOEXEC 0x1000000
int open(const char *, int, ...);
ssize_t read(int, void *, size_t);
ssize_t write(int, const void *, size_t);
int close(int);

#define SIGPIPE 13
#define SIG_IGN ((void (*)(int))1)
void (*signal(int, void (*)(int)))(int);

void *malloc(size_t);
void *realloc(void *, size_t);
void *calloc(size_t, size_t);
void free(void *);
void exit(int);
void *memcpy(void *, const void *, size_t);
void *memmove(void *, const void *, size_t);
void *memset(void *, int, size_t);
void *memchr(const void *, int, size_t);
size_t strlen(const char *);
#endif

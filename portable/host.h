#if __SIZEOF_POINTER__ != 8 && !defined(__wasm32__)
#error "checktestdata needs a system of 64 bits, or WebAssembly"
#endif
#if __BYTE_ORDER__ != __ORDER_LITTLE_ENDIAN__
#error "checktestdata needs a little-endian processor"
#endif
#ifndef __GNUC__
#error "checktestdata needs GCC or clang as its compiler"
#endif

/* What the proved program calls of the system, and how it is called. */
#include <stddef.h>
#include <stdint.h>
#include <stdlib.h>
#include <string.h>

/* With -DCTD_PART=0 to 3 the file is compiled in four parts, side by side. They share what is else local to the file. */
#ifndef CTD_PART
#define IN_PART(n) 1
#define SHARED static
#elif defined(_WIN32)
#define IN_PART(n) (CTD_PART == (n))
#define SHARED
#else
#define IN_PART(n) (CTD_PART == (n))
#define SHARED __attribute__((visibility("hidden")))
#endif

/* Opens a file to read it: its number, or -1. Reads and writes a part: how many bytes, or -1. Errors have the numbers of Linux. */
SHARED int32_t ctd_open(const char *path, int32_t flags);
SHARED int64_t ctd_read(int32_t file, void *buffer, uint64_t size);
SHARED int64_t ctd_write(int32_t file, const void *buffer, uint64_t size);
SHARED int32_t ctd_close(int32_t file);
SHARED int32_t ctd_errno(void);
SHARED void ctd_set_errno(int32_t number);

/* Puts a word of the command line at the start of the buffer: its length, -1 where there is none, -2 where it does not fit. */
SHARED int64_t ctd_arg(uint64_t number, void *buffer, uint64_t size);

/* Runs the program with this room for its stack, which has PROGRAM_STACK bytes and is aligned to 16, and gives its status. */
#define PROGRAM_STACK ((size_t)8 << 20)
static int32_t ctd_run(char *stack);

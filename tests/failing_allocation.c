/* Preloaded into the checker, lets one allocation of its process fail, or each from one on.

   FAILS=N          the Nth fails, counted from 1; none where it is 0
   FAILS_ON=1       each after it fails too
   FAILS_TOLD=FILE  where the process writes at its end how often it asked for memory */
#include <errno.h>
#include <fcntl.h>
#include <stddef.h>
#include <stdio.h>
#include <stdlib.h>
#include <unistd.h>

void *__libc_malloc(size_t size);
void *__libc_calloc(size_t count, size_t size);
void *__libc_realloc(void *block, size_t size);
void *__libc_memalign(size_t alignment, size_t size);

static unsigned long first, asked;
static int goes_on;

__attribute__((constructor)) static void begin(void) {
    const char *word = getenv("FAILS");
    first = word ? strtoul(word, NULL, 10) : 0;
    goes_on = getenv("FAILS_ON") != NULL;
    asked = 0;
}

__attribute__((destructor)) static void end(void) {
    char text[24];
    int length = snprintf(text, sizeof text, "%lu", asked);
    const char *file = getenv("FAILS_TOLD");
    int told = file ? open(file, O_WRONLY | O_CREAT | O_TRUNC, 0600) : -1;
    if (told < 0 || write(told, text, (size_t)length) != length) _exit(125);
}

static int fails(void) {
    asked++;
    if (!first || asked < first || (asked > first && !goes_on)) return 0;
    errno = ENOMEM;
    return 1;
}

void *malloc(size_t size) {
    return fails() ? NULL : __libc_malloc(size);
}

void *calloc(size_t count, size_t size) {
    return fails() ? NULL : __libc_calloc(count, size);
}

void *realloc(void *block, size_t size) {
    return fails() ? NULL : __libc_realloc(block, size);
}

void *aligned_alloc(size_t alignment, size_t size) {
    return fails() ? NULL : __libc_memalign(alignment, size);
}

int posix_memalign(void **block, size_t alignment, size_t size) {
    if (fails()) return ENOMEM;
    *block = __libc_memalign(alignment, size);
    return *block ? 0 : ENOMEM;
}

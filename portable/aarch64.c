/* What the object file of the toolchain's aarch64 target lacks: six functions of the toolchain's libos_c.a and liblibc_c.a, which it has for
 * x86-64 alone. No proof covers this file. */
#include <errno.h>
#include <stdint.h>
#include <stdlib.h>
#include <string.h>

/* Whether there is memory, and the place. */
struct block {
    uint64_t is_there;
    void *place;
};

static char nothing[16] __attribute__((aligned(16)));
static size_t word_count;
static char **words;

/* The GNU C library passes the words of the command line. */
__attribute__((constructor)) static void keep_words(int argc, char **argv) {
    word_count = (size_t)argc;
    words = argv;
}

static struct block block_at(void *place) { return place ? (struct block){1, place} : (struct block){0, nothing}; }

/* No alignment is above 16, which is malloc's. */
struct block rattle_alloc(size_t size, size_t align) {
    (void)align;
    return block_at(malloc(size ? size : 1));
}

struct block rattle_realloc(void *old, size_t kept, size_t size, size_t align) {
    (void)kept, (void)align;
    return block_at(realloc(old, size ? size : 1));
}

void rattle_dealloc(void *place) { free(place); }

int32_t rattle_errno(void) { return errno; }

void rattle_set_errno(int32_t number) { errno = number; }

int64_t rattle_arg(size_t number, char *buffer, size_t size) {
    if (number >= word_count) return -1;
    size_t length = strlen(words[number]);
    memcpy(buffer, words[number], length < size ? length : size);
    return length <= size ? (int64_t)length : -2;
}

/* Tests the call itself: a buffer that the text fills, one that is a byte too small, one of no bytes, and several threads at once. Prints
 * ok, or what was wrong. */
#include "checktestdata.h"
#include <pthread.h>
#include <stdio.h>
#include <string.h>

#define MARK 0x5a
#define THREADS 8

static const char words[] = "checktestdata\0--\0program\0testdata";
static const char program[] = "INT(1,10) NEWLINE";
static const char wanted[] = "line 1 column 1: value out of range (program line 1 column 1)\n";

/* Checks the data 50 with a buffer of this size: only as much as the text has may be written, and only if all of it fits. */
static int is_right(size_t size) {
    char out[256], err[1] = {MARK};
    struct checktestdata_lengths lengths = {99, 99};
    memset(out, MARK, sizeof out);
    int status = checktestdata_run(words, sizeof words - 1, program, sizeof program - 1, "50\n", 3, out, size, err, 0, &lengths);
    size_t length = sizeof wanted - 1, written = size < length ? 0 : length;
    if (status != CHECKTESTDATA_REJECTED || lengths.out != length || lengths.err != 0 || err[0] != MARK) return 0;
    if (memcmp(out, wanted, written) != 0) return 0;
    for (size_t i = written; i < sizeof out; i++) {
        if (out[i] != MARK) return 0;
    }
    return 1;
}

static void *repeat(void *result) {
    int *right = result;
    *right = 1;
    for (int i = 0; i < 50; i++) *right &= is_right(256);
    return NULL;
}

int main(void) {
    size_t length = sizeof wanted - 1;
    size_t sizes[] = {0, 1, length - 1, length, length + 1, 256};
    for (size_t i = 0; i < sizeof sizes / sizeof *sizes; i++) {
        if (!is_right(sizes[i])) {
            printf("wrong with a buffer of %zu bytes\n", sizes[i]);
            return 1;
        }
    }
    pthread_t threads[THREADS];
    int right[THREADS];
    for (int i = 0; i < THREADS; i++) pthread_create(&threads[i], NULL, repeat, &right[i]);
    for (int i = 0; i < THREADS; i++) {
        pthread_join(threads[i], NULL);
        if (!right[i]) {
            printf("wrong in a thread\n");
            return 1;
        }
    }
    printf("ok\n");
    return 0;
}

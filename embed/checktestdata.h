/* checktestdata as a library: checks contest test data against a program, both in memory.
 *
 * The library keeps no state, so any number of threads may call it at once. docs/EMBEDDING.md has a guide.
 */
#ifndef CHECKTESTDATA_H
#define CHECKTESTDATA_H

#include <stddef.h>
#include <stdint.h>

#ifdef __cplusplus
extern "C" {
#endif

/* Exit statuses, which are those of the command line. */
enum {
    CHECKTESTDATA_ACCEPTED = 0,  /* the data fit the program */
    CHECKTESTDATA_REJECTED = 1,  /* the data do not fit */
    CHECKTESTDATA_NO_VERDICT = 2 /* the words or the program are wrong, a limit is passed, or memory ran out */
};

/* Every text that the checker writes fits into a buffer of this many bytes. */
#define CHECKTESTDATA_TEXT_SIZE 4096

/* The lengths of the two texts of an answer, in bytes. */
struct checktestdata_lengths {
    size_t out; /* for standard output */
    size_t err; /* for standard error */
};

/* Checks data against a program, as the command line would, and returns the status.
 *
 * words      the words of the command line, with a byte 0 between two of them. The first is the name of the command, the last two stand
 *            for the program and the data: "checktestdata\0-w\0--\0program\0testdata" asks for whitespace mode. No file is opened.
 * program    the text of the program.
 * testdata   the bytes of the data.
 * out, err   buffers for the texts for standard output and standard error. A text is copied to the front of its buffer, without a byte 0
 *            behind it. A text that is longer than its buffer is not copied.
 * lengths    is given the length of each text, also of one that was not copied.
 *
 * No pointer may be NULL, also where its length is 0, and what the call writes (out, err, lengths) may not overlap with anything else.
 */
uint8_t checktestdata_run(const char *words, size_t words_length, const void *program, size_t program_length, const void *testdata,
                          size_t testdata_length, char *out, size_t out_size, char *err, size_t err_size,
                          struct checktestdata_lengths *lengths);

#ifdef __cplusplus
}
#endif

#endif

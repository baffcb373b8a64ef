/* The system for the proved program as a library: its two files and its streams are in memory. No proof covers this file. At its start the
 * program opens a folder once, by whose number it sees that no stream is closed. Then it opens the file of the program, and then that of the
 * data, or it reads the data from standard input.
 *
 * With -DCTD_LINT it is ctd-lint, by the same call, and reads no data. No text of the checker is longer than what is kept of it; of the findings
 * of ctd-lint the first are kept. */
#define FIRST_FILE 3
#define PROGRAM_FILE 4
#ifdef CTD_LINT
#define NAME "ctd-lint"
#define TEXT_SIZE 65536
#else
#define NAME "checktestdata"
#define TEXT_SIZE CHECKTESTDATA_TEXT_SIZE
#endif

/* Bytes that are read, and how many of them were. */
struct given {
    const char *bytes;
    size_t length, taken;
};

/* Bytes that were written. Those for which there is no room are counted. */
struct taken {
    char bytes[TEXT_SIZE];
    size_t length;
};

/* One call of the library. */
struct call {
    struct given words, program, data;
    struct taken out, err;
    int32_t next_file, error;
};

static __thread struct call *call;

SHARED int32_t ctd_errno(void) { return call->error; }

SHARED void ctd_set_errno(int32_t number) { call->error = number; }

SHARED int64_t ctd_arg(uint64_t number, void *buffer, uint64_t size) {
    const char *word = call->words.bytes, *end = word + call->words.length, *zero;
    for (; (zero = memchr(word, 0, (size_t)(end - word))) && number > 0; number--) word = zero + 1;
    if (number > 0) return -1;
    size_t length = (size_t)((zero ? zero : end) - word);
    memcpy(buffer, word, length < size ? length : size);
    return length <= size ? (int64_t)length : -2;
}

SHARED int32_t ctd_open(const char *path, int32_t flags) {
    (void)path, (void)flags;
    return call->next_file++;
}

SHARED int64_t ctd_read(int32_t file, void *buffer, uint64_t size) {
    struct given *from = file == PROGRAM_FILE ? &call->program : &call->data;
    size_t left = from->length - from->taken, count = size < left ? size : left;
    memcpy(buffer, from->bytes + from->taken, count);
    from->taken += count;
    return (int64_t)count;
}

SHARED int64_t ctd_write(int32_t file, const void *buffer, uint64_t size) {
    struct taken *to = file == 1 ? &call->out : &call->err;
    size_t room = to->length < sizeof to->bytes ? sizeof to->bytes - to->length : 0;
    if (room > 0) memcpy(to->bytes + to->length, buffer, size < room ? size : room);
    to->length += size;
    return (int64_t)size;
}

SHARED int32_t ctd_close(int32_t file) {
    (void)file;
    return 0;
}

static size_t give(const struct taken *text, char *to, size_t size) {
    size_t kept = text->length < sizeof text->bytes ? text->length : sizeof text->bytes;
    if (kept <= size) memcpy(to, text->bytes, kept);
    return text->length;
}

#ifndef _WIN32
__attribute__((visibility("default")))
#endif
uint8_t checktestdata_run(const char *words, size_t words_length, const void *program, size_t program_length, const void *testdata,
                          size_t testdata_length, char *out, size_t out_size, char *err, size_t err_size,
                          struct checktestdata_lengths *lengths) {
    static const char no_memory[] = NAME ": out of memory\n";
    struct call this = {.words = {words, words_length, 0},
                        .program = {program, program_length, 0},
                        .data = {testdata, testdata_length, 0},
                        .next_file = FIRST_FILE};
    char *stack = malloc(PROGRAM_STACK);
    int32_t status = CHECKTESTDATA_NO_VERDICT;
    call = &this;
    if (stack) status = ctd_run(stack);
    else ctd_write(2, no_memory, sizeof no_memory - 1);
    free(stack);
    lengths->out = give(&this.out, out, out_size);
    lengths->err = give(&this.err, err, err_size);
    return (uint8_t)status;
}

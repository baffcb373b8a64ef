/* The system for the proved program: files, streams and the command line, of POSIX (Linux, macOS, BSD), WASI and Windows. No proof covers this
 * file. It stands for what the toolchain's std says of the system: a file gives its bytes in order, a write takes a part of what it is given
 * or fails, and an error has a number.
 */
#include <errno.h>
#include <fcntl.h>
#include <sys/stat.h>
#ifdef _WIN32
#define WIN32_LEAN_AND_MEAN
#include <windows.h>
#include <shellapi.h>
#include <io.h>
#else
#include <unistd.h>
#ifndef __wasi__ /* which has no signals */
#include <signal.h>
#endif
#endif

/* The most bytes of one read or write: some systems refuse more than INT_MAX. */
#define MOST_AT_ONCE ((uint64_t)1 << 30)

static size_t word_count;
static char **words;
static int32_t last_error;

/* The number that Linux has for an error of this system: the program knows no others. */
static int32_t linux_error(int number) {
    static const struct {
        int here;
        int32_t there;
    } known[] = {
        {EPERM, 1},   {ENOENT, 2},  {EINTR, 4},   {EIO, 5},     {ENXIO, 6},         {EBADF, 9},   {EAGAIN, 11},     {ENOMEM, 12},
        {EACCES, 13}, {EFAULT, 14}, {EBUSY, 16},  {EEXIST, 17}, {ENODEV, 19},       {ENOTDIR, 20}, {EISDIR, 21},    {EINVAL, 22},
        {ENFILE, 23}, {EMFILE, 24}, {ENOTTY, 25}, {EFBIG, 27},  {ENOSPC, 28},       {ESPIPE, 29}, {EROFS, 30},      {EPIPE, 32},
        {ERANGE, 34}, {EDEADLK, 35}, {ENAMETOOLONG, 36},        {ENOSYS, 38},       {ELOOP, 40},  {ECONNRESET, 104}, {ETIMEDOUT, 110},
#ifdef ETXTBSY
        {ETXTBSY, 26},
#endif
#ifdef EOVERFLOW
        {EOVERFLOW, 75},
#endif
#ifdef ESTALE
        {ESTALE, 116},
#endif
#ifdef EDQUOT
        {EDQUOT, 122},
#endif
    };
    for (size_t i = 0; i < sizeof known / sizeof *known; i++)
        if (known[i].here == number) return known[i].there;
    return 5; /* an error of input or output, whatever the system calls it */
}

static int64_t remember(int64_t result) {
    if (result < 0) last_error = linux_error(errno);
    return result;
}

static int32_t fail_with(int32_t number) {
    last_error = number;
    return -1;
}

SHARED int32_t ctd_errno(void) { return last_error; }

SHARED void ctd_set_errno(int32_t number) { last_error = number; }

SHARED int64_t ctd_arg(uint64_t number, void *buffer, uint64_t size) {
    if (number >= word_count) return -1;
    size_t length = strlen(words[number]);
    memcpy(buffer, words[number], length < size ? length : size);
    return length <= size ? (int64_t)length : -2;
}

#ifdef _WIN32
#define FOLDER 0x40000000 /* no number of a file of the C library */
#define read(file, buffer, size) _read(file, buffer, (unsigned)(size))
#define write(file, buffer, size) _write(file, buffer, (unsigned)(size))
#define close _close

/* The program opens files to read them, and no others. A folder opens too, and its first read fails, as on Linux. */
SHARED int32_t ctd_open(const char *path, int32_t flags) {
    static wchar_t wide[32768];
    if (flags & 3) return fail_with(22);
    if (!MultiByteToWideChar(CP_UTF8, MB_ERR_INVALID_CHARS, path, -1, wide, 32768)) return fail_with(2);
    DWORD kind = GetFileAttributesW(wide);
    if (kind != INVALID_FILE_ATTRIBUTES && kind & FILE_ATTRIBUTE_DIRECTORY) return FOLDER;
    return (int32_t)remember(_wopen(wide, _O_RDONLY | _O_BINARY | _O_NOINHERIT | _O_SEQUENTIAL));
}
#else
#define FOLDER (-2) /* no number of a file */

SHARED int32_t ctd_open(const char *path, int32_t flags) {
    if (flags & 3) return fail_with(22);
    return (int32_t)remember(open(path, O_RDONLY | O_NOCTTY | O_CLOEXEC));
}
#endif

SHARED int64_t ctd_read(int32_t file, void *buffer, uint64_t size) {
    if (file == FOLDER) return fail_with(21);
    int64_t taken = read(file, buffer, size < MOST_AT_ONCE ? size : MOST_AT_ONCE);
#ifdef _WIN32
    if (taken < 0 && errno == EPIPE) return 0; /* the writer of the pipe has ended */
#endif
    return remember(taken);
}

SHARED int64_t ctd_write(int32_t file, const void *buffer, uint64_t size) {
    return remember(write(file, buffer, size < MOST_AT_ONCE ? size : MOST_AT_ONCE));
}

SHARED int32_t ctd_close(int32_t file) { return file == FOLDER ? 0 : (int32_t)remember(close(file)); }

static char program_stack[PROGRAM_STACK] __attribute__((aligned(16)));

#ifdef _WIN32
/* Takes the words of the command line, in UTF-8. One with half of a surrogate pair becomes a byte that is not UTF-8, which the program
 * refuses. */
static void take_words(void) {
    int count;
    wchar_t **given = CommandLineToArgvW(GetCommandLineW(), &count);
    words = given ? calloc((size_t)count + 1, sizeof *words) : NULL;
    if (!words) exit(2);
    for (int i = 0; i < count; i++) {
        int size = WideCharToMultiByte(CP_UTF8, WC_ERR_INVALID_CHARS, given[i], -1, NULL, 0, NULL, NULL);
        words[i] = malloc((size_t)size + 2);
        if (!words[i]) exit(2);
        strcpy(words[i], "\xff");
        if (size) WideCharToMultiByte(CP_UTF8, WC_ERR_INVALID_CHARS, given[i], -1, words[i], size, NULL, NULL);
    }
    word_count = (size_t)count;
}

int main(void) {
    for (int file = 0; file < 3; file++) _setmode(file, _O_BINARY);
    take_words();
    return ctd_run(program_stack);
}
#else
int main(int argc, char **argv) {
#ifdef __wasi__
    /* A process of WASI begins in no folder: who gives it all folders names the one that it stands in. */
    const char *folder = getenv("PWD");
    if (folder) (void)!chdir(folder);
#else
    signal(SIGPIPE, SIG_IGN);
#endif
    word_count = (size_t)argc;
    words = argv;
    return ctd_run(program_stack);
}
#endif

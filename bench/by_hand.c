/* The cases of the benchmark, checked by C written by hand: what somebody would write for one problem instead of a program for the
   checker. It checks what the program of the case checks, and reports no place. Numbers have 64 bits, in `arithmetic` 128.

   by_hand CASE < DATA                          prints `ok` or `no`
   by_hand run FILE PROGRAM WORD.. < DATA       runs a program, and writes to FILE its processor seconds, its peak memory in KB
                                                and its status */
#include <stdint.h>
#include <stdio.h>
#include <stdlib.h>
#include <string.h>
#include <sys/resource.h>
#include <sys/wait.h>
#include <unistd.h>

static unsigned char buffer[1 << 16];
static size_t at, held;

/* The next byte, or -1 at the end. */
static int look(void) {
    if (at == held) {
        ssize_t count = read(0, buffer, sizeof buffer);
        at = 0;
        held = count > 0 ? (size_t)count : 0;
        if (!held) return -1;
    }
    return buffer[at];
}

static void refuse(void) {
    puts("no");
    exit(1);
}

static void byte(int wanted) {
    if (look() != wanted) refuse();
    at++;
}

static void text(const char *wanted) {
    while (*wanted) byte(*wanted++);
}

static void end(void) {
    if (look() != -1) refuse();
}

static int64_t integer(int64_t least, int64_t most) {
    int is_negative = 0, digits = 0, first = 0, next;
    uint64_t size = 0;
    if (look() == '-') {
        is_negative = 1;
        at++;
    }
    while ((next = look()) >= '0' && next <= '9') {
        if (!digits) first = next;
        digits++;
        if (digits < 19) size = size * 10 + (uint64_t)(next - '0');
        at++;
    }
    if (!digits || digits > 18 || (first == '0' && (digits > 1 || is_negative))) refuse();
    int64_t value = is_negative ? -(int64_t)size : (int64_t)size;
    if (value < least || value > most) refuse();
    return value;
}

static int is_blank(int next) { return next == ' ' || next == '\t' || next == '\r' || next == '\v' || next == '\f'; }

static void skip_blanks(void) {
    while (is_blank(look())) at++;
}

static void integers(void) {
    int64_t n = integer(1, 100000000);
    byte('\n');
    for (int64_t i = 0; i < n; i++) {
        if (i) byte(' ');
        integer(0, 1000000000);
    }
    byte('\n');
    end();
}

struct edge {
    int64_t from, to;
};

static int by_ends(const void *left, const void *right) {
    const struct edge *a = left, *b = right;
    if (a->from != b->from) return a->from < b->from ? -1 : 1;
    return a->to != b->to ? (a->to < b->to ? -1 : 1) : 0;
}

static void graph(void) {
    int64_t nodes = integer(1, 1000000);
    byte(' ');
    int64_t count = integer(1, 1000000);
    byte(' ');
    int64_t unique = integer(1, count);
    byte('\n');
    struct edge *edges = malloc(sizeof *edges * (size_t)count);
    for (int64_t i = 0; i < count; i++) {
        edges[i].from = integer(1, nodes);
        byte(' ');
        edges[i].to = integer(1, nodes);
        byte('\n');
    }
    qsort(edges, (size_t)unique, sizeof *edges, by_ends);
    for (int64_t i = 1; i < unique; i++)
        if (!by_ends(edges + i - 1, edges + i)) refuse();
    end();
}

static void words(void) {
    char word[65536];
    for (int is_first = 1; look() != '\n'; is_first = 0) {
        if (!is_first) byte(' ');
        size_t size = 0;
        int next;
        while ((next = look()) >= 'a' && next <= 'z' && size < sizeof word) {
            word[size++] = (char)next;
            at++;
        }
        if (!size) refuse();
    }
    byte('\n');
    end();
}

static void long_string(const char *program) {
    static char source[600000];
    FILE *file = fopen(program, "rb");
    if (!file) refuse();
    size_t read_bytes = fread(source, 1, sizeof source, file);
    fclose(file);
    char *from = memchr(source, '"', read_bytes);
    if (!from) refuse();
    from++;
    size_t size = (size_t)((char *)memchr(from, '"', read_bytes) - from);
    while (look() != '\n') {
        for (size_t done = 0; done < size;) {
            if (look() < 0) refuse();
            size_t run = held - at < size - done ? held - at : size - done;
            if (memcmp(from + done, buffer + at, run)) refuse();
            at += run;
            done += run;
        }
    }
    byte('\n');
    end();
}

static void lines(void) {
    while (look() != -1) {
        int size = 0, next;
        while ((next = look()) >= 'a' && next <= 'z' && size < 1000) {
            size++;
            at++;
        }
        if (!size) refuse();
        byte('\n');
    }
}

static __int128 plus(__int128 a, __int128 b) {
    __int128 sum;
    if (__builtin_add_overflow(a, b, &sum)) refuse();
    return sum;
}

static __int128 times(__int128 a, __int128 b) {
    __int128 product;
    if (__builtin_mul_overflow(a, b, &product)) refuse();
    return product;
}

static void arithmetic(int64_t turns) {
    __int128 s = 1, t = 0, u = 0;
    for (int64_t i = 0; i < turns; i++) {
        s = plus(times(s, 31), i) % 1000003;
        t = plus(plus(t, s / 7), -times(i - s, 2));
        if (s % 2 == 0) u = u + 1;
    }
    if (u < 0) refuse();
    end();
}

static void blanks(void) {
    skip_blanks();
    int64_t n = integer(1, 100000000);
    skip_blanks();
    byte('\n');
    skip_blanks();
    for (int64_t i = 0; i < n; i++) {
        if (i && !is_blank(look())) refuse();
        skip_blanks();
        integer(0, 1000000000);
    }
    skip_blanks();
    byte('\n');
    skip_blanks();
    end();
}

static void small_tests(void) {
    int64_t tests = integer(1, 10000000);
    byte('\n');
    while (tests--) {
        int64_t n = integer(1, 10), last = 0;
        byte(' ');
        text(look() == 'Y' ? "YES" : "NO");
        byte('\n');
        for (int64_t i = 0; i < n; i++) {
            if (i) byte(' ');
            int64_t value = integer(-1000000, 1000000);
            if (i && value <= last) refuse();
            last = value;
        }
        text("\n-- end of case\n");
    }
    end();
}

/* Runs a program as a child, and writes what it used. */
static int run(char **words) {
    pid_t child = fork();
    if (child == 0) {
        execv(words[3], words + 3);
        _exit(127);
    }
    int status;
    struct rusage used;
    if (child < 0 || wait4(child, &status, 0, &used) < 0) return 2;
    FILE *file = fopen(words[2], "w");
    if (!file) return 2;
    double seconds = (double)(used.ru_utime.tv_sec + used.ru_stime.tv_sec);
    seconds += (double)(used.ru_utime.tv_usec + used.ru_stime.tv_usec) / 1e6;
    int code = WIFEXITED(status) ? WEXITSTATUS(status) : 128 + WTERMSIG(status);
    fprintf(file, "%.6f %ld %d\n", seconds, used.ru_maxrss, code);
    return fclose(file) != 0;
}

int main(int count, char **words_given) {
    const char *name = count > 1 ? words_given[1] : "";
    const char *extra = count > 2 ? words_given[2] : "";
    if (!strcmp(name, "run")) return count > 3 ? run(words_given) : 2;
    if (!strcmp(name, "integers")) integers();
    else if (!strcmp(name, "graph")) graph();
    else if (!strcmp(name, "words") || !strcmp(name, "short-words")) words();
    else if (!strcmp(name, "long-string")) long_string(extra);
    else if (!strcmp(name, "lines")) lines();
    else if (!strcmp(name, "arithmetic")) arithmetic(atoll(extra));
    else if (!strcmp(name, "blanks")) blanks();
    else if (!strcmp(name, "small-tests")) small_tests();
    else return 2;
    puts("ok");
    return 0;
}

/* Checks a file of data against a program: check PROGRAM DATA.
 *
 *     cc check.c $(pkg-config --cflags --libs checktestdata) -o check
 */
#include <checktestdata.h>
#include <stdio.h>
#include <stdlib.h>

struct bytes {
    char *start;
    size_t length;
};

static struct bytes read_file(const char *name) {
    struct bytes text = {NULL, 0};
    FILE *file = fopen(name, "rb");
    if (!file || fseek(file, 0, SEEK_END) != 0 || (text.length = (size_t)ftell(file), text.start = malloc(text.length + 1)) == NULL) {
        perror(name);
        exit(CHECKTESTDATA_NO_VERDICT);
    }
    rewind(file);
    if (fread(text.start, 1, text.length, file) != text.length) {
        perror(name);
        exit(CHECKTESTDATA_NO_VERDICT);
    }
    fclose(file);
    return text;
}

int main(int argc, char **argv) {
    static const char words[] = "checktestdata\0--\0program\0testdata";
    char out[CHECKTESTDATA_TEXT_SIZE], err[CHECKTESTDATA_TEXT_SIZE];
    struct checktestdata_lengths lengths;
    if (argc != 3) {
        fputs("usage: check PROGRAM DATA\n", stderr);
        return CHECKTESTDATA_NO_VERDICT;
    }
    struct bytes program = read_file(argv[1]);
    struct bytes testdata = read_file(argv[2]);
    int status = checktestdata_run(words, sizeof words - 1, program.start, program.length, testdata.start, testdata.length, out, sizeof out,
                                   err, sizeof err, &lengths);
    fwrite(out, 1, lengths.out, stdout);
    fwrite(err, 1, lengths.err, stderr);
    free(program.start);
    free(testdata.start);
    return status;
}

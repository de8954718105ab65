/* Says how much space one more rule would take: reads a job file and a field of tag 05 or 06 from the two paths named, and prints `NUMBER F V C L`.
   NUMBER is 0 if there are figures, F is how many fields the file has, and V, C and L are the variables, clauses and literals that the rule would
   add to it, whatever the stores hold. After a refusal NUMBER says why, V, C and L are 0, and F is the field of the file that is refused, if one is.
   Without paths, any number of pairs are read from standard input, each behind two lengths of four bytes, high byte first, and each gets a line.
   Build, after `rt lib` in crates/sumirewha:
     cc -O2 -Iinclude examples/figures.c -Lcrates/sumirewha/out -lsumirewha -o target/figures */
#include "sumirewha.h"

#include <stdio.h>

/* the longest field: its tag, its length, and as many bytes as this can say */
#define FIELD_BYTES (3 + 65535)

/* one byte more than each may have, so that a file or a field that is too long is seen */
static uint8_t file[SUMIREWHA_FILE_BYTES + 1], field[FIELD_BYTES + 1];
static uint32_t lits[SUMIREWHA_LITERALS], ends[SUMIREWHA_ENDS], counts[SUMIREWHA_COUNTS];

static int fail(const char *what) {
    fprintf(stderr, "%s\n", what);
    return 1;
}

static void show_figures(size_t file_len, size_t field_len) {
    uint32_t number = sumirewha_figures(file, file_len, field, field_len, lits, SUMIREWHA_LITERALS, ends, SUMIREWHA_ENDS,
                                        counts, SUMIREWHA_COUNTS);
    printf("%u %u %u %u %u\n", number, counts[0], counts[1], counts[2], counts[3]);
}

static int read_path(const char *path, uint8_t *bytes, size_t most, size_t *len) {
    FILE *from = fopen(path, "rb");
    if (from == NULL) return 0;
    *len = fread(bytes, 1, most, from);
    int is_read = !ferror(from);
    fclose(from);
    return is_read;
}

static int read_length(size_t *len) {
    uint8_t bytes[4];
    if (fread(bytes, 1, 4, stdin) != 4) return 0;
    *len = (size_t)bytes[0] << 24 | (size_t)bytes[1] << 16 | (size_t)bytes[2] << 8 | bytes[3];
    return 1;
}

static int show_pairs(void) {
    size_t file_len, field_len;
    while (read_length(&file_len)) {
        if (!read_length(&field_len) || file_len > sizeof file || field_len > sizeof field) return fail("a length is wrong");
        if (fread(file, 1, file_len, stdin) != file_len || fread(field, 1, field_len, stdin) != field_len)
            return fail("a file or a field is cut short");
        show_figures(file_len, field_len);
    }
    return 0;
}

int main(int argc, char **argv) {
    size_t file_len, field_len;
    if (argc == 1) return show_pairs();
    if (argc != 3) return fail("usage: figures JOB FIELD, or figures < PAIRS");
    if (!read_path(argv[1], file, sizeof file, &file_len)) return fail("cannot read the job file");
    if (!read_path(argv[2], field, sizeof field, &field_len)) return fail("cannot read the field");
    show_figures(file_len, field_len);
    return 0;
}

/* Reads what a solver answers, on standard input, to the job file named: prints how many variables are true, or that there is no assignment, or the
   refusal; then prints the assignment as an answer again and reads that back. Build, after `rt lib` in crates/sumirewha:
     cc -O2 -Iinclude examples/answer.c -Lcrates/sumirewha/out -lsumirewha -o target/answer */
#include "sumirewha.h"

#include <stdio.h>
#include <string.h>

/* one byte more than a job file may have, so that a file that is too long is seen */
static uint8_t file[SUMIREWHA_FILE_BYTES + 1];
static uint32_t lits[SUMIREWHA_LITERALS], ends[SUMIREWHA_ENDS], counts[SUMIREWHA_COUNTS], answer[SUMIREWHA_ANSWER_COUNTS];
/* a solver's text, with room for its comments */
static uint8_t text[2 * SUMIREWHA_ANSWER_BYTES], out[SUMIREWHA_ANSWER_BYTES];
static uint8_t first[SUMIREWHA_VARIABLES], second[SUMIREWHA_VARIABLES];

static uint32_t read_answer(size_t file_len, const uint8_t *from, size_t from_len, uint8_t *assignment) {
    return sumirewha_read_answer(file, file_len, lits, SUMIREWHA_LITERALS, ends, SUMIREWHA_ENDS, from, from_len, assignment, counts[1],
                                 answer, SUMIREWHA_ANSWER_COUNTS);
}

static int fail(const char *what) {
    fprintf(stderr, "%s\n", what);
    return 1;
}

int main(int argc, char **argv) {
    FILE *job = argc == 2 ? fopen(argv[1], "rb") : NULL;
    if (job == NULL) return fail("usage: answer JOB < ANSWER, where JOB is a job file that can be read");
    size_t len = fread(file, 1, sizeof file, job);
    if (ferror(job)) return fail("cannot read the job file");
    fclose(job);
    size_t text_len = fread(text, 1, sizeof text, stdin);
    if (ferror(stdin)) return fail("cannot read standard input");
    if (text_len == sizeof text) return fail("the answer is too long");

    uint32_t number = sumirewha_encode(file, len, lits, SUMIREWHA_LITERALS, ends, SUMIREWHA_ENDS, counts, SUMIREWHA_COUNTS);
    if (number != 0) {
        printf("field %u is refused with number %u\n", counts[0], number);
        return 1;
    }
    number = read_answer(len, text, text_len, first);
    if (number != 0) {
        printf("the answer is refused with number %u\n", number);
        return 1;
    }
    if (answer[1] == 0) {
        printf("none\n");
        return 0;
    }
    uint32_t count = 0;
    for (uint32_t v = 0; v < counts[1]; v++) count += first[v];
    printf("%u of %u variables are true\n", count, counts[1]);

    number = sumirewha_print_answer(file, len, lits, SUMIREWHA_LITERALS, ends, SUMIREWHA_ENDS, first, counts[1], out, sizeof out,
                                    answer, SUMIREWHA_ANSWER_COUNTS);
    if (number != 0) return fail("the print is refused");
    uint32_t size = answer[1];
    if (read_answer(len, out, size, second) != 0 || answer[1] != 1 || memcmp(first, second, counts[1]) != 0)
        return fail("the print reads back as another assignment");
    printf("printed in %u bytes and read back the same\n", size);
    return 0;
}

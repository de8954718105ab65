/* Encodes the job file on standard input by the static library: prints what it takes, its shortest clause, and the first line of its text.
   Build, after `rt lib` in crates/sumirewha:
     cc -O2 -Iinclude examples/embed.c -Lcrates/sumirewha/out -lsumirewha -o target/embed */
#include "sumirewha.h"

#include <stdio.h>

/* one byte more than a job file may have, so that an input that is too long is seen */
static uint8_t file[SUMIREWHA_FILE_BYTES + 1];
static uint32_t lits[SUMIREWHA_LITERALS], ends[SUMIREWHA_ENDS], counts[SUMIREWHA_COUNTS];
static uint8_t text[SUMIREWHA_TEXT_BYTES];

static void show_shortest_clause(void) {
    uint32_t shortest = 0;
    for (uint32_t k = 1; k < counts[2]; k++)
        if (ends[k + 1] - ends[k] < ends[shortest + 1] - ends[shortest]) shortest = k;
    printf("clause %u:", shortest);
    for (uint32_t i = ends[shortest]; i < ends[shortest + 1]; i++)
        printf(" %s%u", lits[i] % 2 ? "not " : "", lits[i] / 2);
    printf("\n");
}

int main(void) {
    size_t len = fread(file, 1, sizeof file, stdin);
    if (ferror(stdin)) {
        fprintf(stderr, "cannot read standard input\n");
        return 1;
    }
    uint32_t number = sumirewha_encode(file, len, lits, SUMIREWHA_LITERALS, ends, SUMIREWHA_ENDS, counts, SUMIREWHA_COUNTS);
    if (number != 0) {
        printf("field %u is refused with number %u\n", counts[0], number);
        return 1;
    }
    printf("%u fields, %u variables, %u clauses, %u literals\n", counts[0], counts[1], counts[2], counts[3]);
    if (counts[2] > 0) show_shortest_clause();

    size_t size = sumirewha_print(file, len, lits, SUMIREWHA_LITERALS, ends, SUMIREWHA_ENDS, text, sizeof text);
    size_t line = 0;
    while (line < size && text[line] != '\n') line++;
    printf("%zu bytes of DIMACS: ", size);
    fwrite(text, 1, line, stdout);
    printf("\n");
    return 0;
}

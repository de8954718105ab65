/* Sumirewha: job files turned into SAT clauses. README.md describes the job file and lists the refusal numbers.

   The archive crates/sumirewha/out/libsumirewha.a, made by `rt lib` in crates/sumirewha, is for x86-64 Linux.

   Every array is lent by the caller as a pointer and a length in entries. It has to have that many entries, the pointer may not be null,
   and arrays of one call may not overlap. Nothing is allocated and nothing is kept between calls.

   Variables count from 0. Literal 2 * v is variable v, literal 2 * v + 1 is its negation. (In DIMACS text variable v is the number v + 1.)
   Switch s of the job file is variable s. */
#ifndef SUMIREWHA_H
#define SUMIREWHA_H

#include <stddef.h>
#include <stdint.h>

/* the longest job file, in bytes; one that is longer is refused with number 18 */
#define SUMIREWHA_FILE_BYTES 8192
/* the stores that the program `cnf` lends, in entries; longer ones, of up to 16,777,216 entries, hold more clauses */
#define SUMIREWHA_LITERALS 8192
#define SUMIREWHA_ENDS 4096
/* the entries of `counts` of sumirewha_encode and sumirewha_figures */
#define SUMIREWHA_COUNTS 4
/* no text is longer, in bytes, where the stores are not longer than these */
#define SUMIREWHA_TEXT_BYTES 65551
/* the entries of `counts` of sumirewha_read_answer and sumirewha_print_answer */
#define SUMIREWHA_ANSWER_COUNTS 2
/* no job has more variables, and no print of an assignment is longer, in bytes */
#define SUMIREWHA_VARIABLES 65535
#define SUMIREWHA_ANSWER_BYTES 458763

#ifdef __cplusplus
extern "C" {
#endif

/* Runs the job file `bytes` and writes its clauses into the stores `lits` and `ends`.

   Answers 0 if every field is accepted, else the number of the first refusal (README.md, "The job file"). As far as `counts` is long, it gets
     counts[0]  accepted: how many fields there are; refused: the index of the field that is refused, from 0
     counts[1]  the variables
     counts[2]  the clauses
     counts[3]  the literals of all clauses
   where the last three are, after a refusal, those of the fields before it, whose clauses stay in the stores.

   Clause k, for k below counts[2], is lits[ends[k]] up to lits[ends[k + 1] - 1]; ends[0] is 0. An empty clause has no literal. Entries of
   the stores behind those in use are as they were. */
uint32_t sumirewha_encode(const uint8_t *bytes, size_t bytes_len, uint32_t *lits, size_t lits_len,
                          uint32_t *ends, size_t ends_len, uint32_t *counts, size_t counts_len);

/* Runs the job file on the stores as sumirewha_encode does, and makes the text that `cnf` prints: the clauses as DIMACS, whose first line
   `p cnf V C` has what sumirewha_encode reports as counts[1] and counts[2], or the line `refused F N`. Every line ends in a line feed, and
   no 0 byte follows.

   Answers the length of the whole text. Where that is at most out_len, the text is the first bytes of `out`, and the bytes behind it are as
   they were. Where it is more, nothing is written to `out`. */
size_t sumirewha_print(const uint8_t *bytes, size_t bytes_len, uint32_t *lits, size_t lits_len,
                       uint32_t *ends, size_t ends_len, uint8_t *out, size_t out_len);

/* Runs the job file on the stores as sumirewha_encode does, then reads `text`, what a solver answers to the DIMACS text: comment lines that
   begin with `c`, one line `s SATISFIABLE` or `s UNSATISFIABLE`, and after the first of these the `v` lines.

   Answers 0 if file and answer are accepted, else a number: that of the file's first refusal; 19 if the text is not such an answer, whole; 20 if
   it does not give each of the job's variables once; 16 if assignment_len is not the number of the variables. The clauses are not tested. As far
   as `counts` is long, it gets
     counts[0]  what sumirewha_encode reports as counts[0]
     counts[1]  1 if an assignment was found; 0 if the solver found none, or after a refusal

   Where an assignment was found, assignment[v] is 1 if variable v is true, and 0 if it is false. Else `assignment` is as it was. */
uint32_t sumirewha_read_answer(const uint8_t *bytes, size_t bytes_len, uint32_t *lits, size_t lits_len,
                               uint32_t *ends, size_t ends_len, const uint8_t *text, size_t text_len,
                               uint8_t *assignment, size_t assignment_len, uint32_t *counts, size_t counts_len);

/* Runs the job file on the stores as sumirewha_encode does, then prints `assignment`, 1 for a variable that is true and 0 for one that is false,
   as a solver's answer: the line `s SATISFIABLE` and one `v` line. Each ends in a line feed, and no 0 byte follows.

   Answers 0 if file and assignment are accepted, else a number: that of the file's first refusal; 16 if assignment_len is not the number of the
   variables, or a byte is neither 0 nor 1; 15 if the text is longer than out_len. The clauses are not tested. As far as `counts` is long, it gets
     counts[0]  what sumirewha_encode reports as counts[0]
     counts[1]  the length of the text; 0 after a refusal

   The text is the first bytes of `out`, and the bytes behind it are as they were. It has at most 18 + 7 * assignment_len bytes. After a refusal
   nothing is written to `out`. */
uint32_t sumirewha_print_answer(const uint8_t *bytes, size_t bytes_len, uint32_t *lits, size_t lits_len,
                                uint32_t *ends, size_t ends_len, const uint8_t *assignment, size_t assignment_len,
                                uint8_t *out, size_t out_len, uint32_t *counts, size_t counts_len);

/* Runs the job file on the stores as sumirewha_encode does, then says how much space one more rule would take: `field` is one field of tag 05 or
   06, tag, length and contents as in a file, and stands behind the file's fields. The 8,192 bytes are the file's alone; the field may have up to
   65,538 bytes. Nothing of the field is written to the stores, and their room does not matter to it.

   Answers 0 if the file is accepted and the field has figures, else a number: that of the file's first refusal; 18 if `field` is not exactly one
   field of tag 05 or 06 with a right length; else the number that the field is refused with. 14 and 15 are the file's only. As far as `counts` is
   long, it gets
     counts[0]  what sumirewha_encode reports as counts[0]: after the file is accepted, the index that the field has behind it
     counts[1]  the variables that the field would add
     counts[2]  the clauses
     counts[3]  the literals of these
   where the last three are 0 after a refusal. With enough space the field, appended to the file, adds exactly these. */
uint32_t sumirewha_figures(const uint8_t *bytes, size_t bytes_len, const uint8_t *field, size_t field_len,
                           uint32_t *lits, size_t lits_len, uint32_t *ends, size_t ends_len,
                           uint32_t *counts, size_t counts_len);

#ifdef __cplusplus
}
#endif

#endif

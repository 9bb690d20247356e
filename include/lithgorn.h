/* Lithgorn: exact analysis-of-variance tables of factorial experiments, for programs in C and C++.

   Link with target/staticlib/liblithgorn.a or target/lib/liblithgorn.so, both for x86-64 Linux:

     gcc my.c -I include -L target/staticlib -llithgorn
     gcc my.c -I include -L target/lib -llithgorn -Wl,-rpath,$PWD/target/lib

   examples/use.c is a whole program. What each call promises, and what of it is proved: docs/CALLS.md and docs/TRUST.md.

   A plan in bytes is field after field: a byte for the tag, two for the length of the body, the body. Numbers have their
   highest byte first. In this order:

     tag 1   once                        levels (2 or 3), and k, the number of base factors A, B, C and so on; a byte each
     tag 2   for each added factor       its word, two bytes, and its sign, a byte, 0 or 1; up to 6, at two levels
     tag 3   for each block word         the word, two bytes; up to 4 at two levels, one at three
     tag 6   once, or not at all if r=1  r, how often each run is made, a byte: 2, 4 or 8

   A word is a set of base letters: bit 0 for A, bit 1 for B. Added factors have the letters after those of base factors.
   With sign 0 an added factor is high where an odd number of the letters of its word are high, with sign 1 where an even
   number are. At three levels a block word is a number to the base 3, A's digit the lowest: 1 + 3 + 2 * 9 for A B C^2.

   Three factors at two levels, a fourth that is D = ABC, two blocks by AB, each run made twice:

     static const uint8_t plan[] = {1, 0, 2,  2, 3,
                                    2, 0, 3,  0, 7, 0,
                                    3, 0, 2,  0, 3,
                                    6, 0, 1,  2};

   A sheet is a plan in bytes, then tag 4 with the readings, four bytes each in two's complement, then tag 5 with the
   marks, a byte each. Its plan is its first bytes, as they stand.

   Order. N is the number of runs, levels to the power k; R is the number of rows, 2 to the power k. A run is a number
   with the level of A as its lowest digit, 0 for low: at two levels (1), a, b, ab, c, ac, bc, abc. Effects are numbered in
   the same way. A row is its set of letters. There are N r readings, at most 1,024, those of a run together: reading j of
   run i stands at place i * r + j. Totals and rows are those of the run sums. At two levels a row has 1 degree; at three it
   has 2 for each of its letters, multiplied, and 2 less where a block word has just these letters.

   Places. A slice is a pointer and its length, counted in places and not in bytes. Each must have just so many:

     readings          N r; of lithgorn_recover and yates_recover N; of lithgorn_read N r or more
     totals, columns   N
     marks, rows       R; a mark is 1 where the row is pooled as error, else 0
     figures, checks   LITHGORN_FIGURES and LITHGORN_CHECKS; only anova_table takes their lengths

   Signs. Totals are low minus high: the total of A is the sum of the readings where A is low, less the sum where it is
   high. Estimates and aliases are high minus low, as journals print them. lithgorn_estimate turns the one into the other.

   Refusals. Every uint8_t answer is LITHGORN_DONE or the number of the refusal, and where it is a refusal nothing that was
   lent has changed. No plan, bytes, length or number is too bad to be handed in. But no call can see whether the pointers
   are right: none may be NULL, and each must lead to so many places as are said, of which those that are not const may be
   written.

   Overlap. Of one call, nothing that is written may overlap anything else that is lent: with readings and totals in one
   memory the answer is 0 and the totals are wrong. LITHGORN_RESTRICT says so to the compiler.

   The calls keep nothing from one call to the next and allocate nothing, so that several threads may call at once.

   Defined here:
     LITHGORN_VERSION .. LITHGORN_MOST_BLOCKINGS   the version, and how many places there are
     LITHGORN_DONE .. LITHGORN_REFUSED_MEETING     answers
     LITHGORN_MEAN .. LITHGORN_LOST                kinds of estimates
     LITHGORN_DENOMINATOR .. LITHGORN_TOTAL_NUMERATOR, LITHGORN_CHECK_TOTALS, LITHGORN_CHECK_READINGS
                                                   places in figures and in checks
     lithgorn_check .. lithgorn_estimate           single figures of a plan in bytes
     lithgorn_blockings                            every way to block a small plan
     lithgorn_pass .. lithgorn_recover             columns
     lithgorn_table, lithgorn_screen               the analysis of variance
     lithgorn_read .. lithgorn_sheet_table         sheets
     yates_pass .. anova_table                     whole plans without bytes: no added factors, no block words */

#ifndef LITHGORN_H
#define LITHGORN_H

#include <stddef.h>
#include <stdint.h>

#if !defined(__cplusplus) && defined(__STDC_VERSION__) && __STDC_VERSION__ >= 199901L
#define LITHGORN_RESTRICT restrict
#elif defined(__GNUC__)
#define LITHGORN_RESTRICT __restrict
#else
#define LITHGORN_RESTRICT
#endif

#ifdef __cplusplus
extern "C" {
#endif

#define LITHGORN_VERSION "1.17"

/* The most readings, runs or rows of a plan; the most bytes of a plan and of a sheet that are not refused; the bytes of a
   text; the places of figures and of checks; and the places that the words of a blocking call take at most. */
#define LITHGORN_MOST_READINGS 1024
#define LITHGORN_MOST_PLAN 65
#define LITHGORN_MOST_SHEET 5187
#define LITHGORN_TEXT 69632
#define LITHGORN_FIGURES 11
#define LITHGORN_CHECKS 2
#define LITHGORN_MOST_BLOCKINGS 3360

/* Answers. The first number that applies is given, in the order 1 to 8, 16, 21, 9 to 14, 17, 18. Every call that takes a
   plan in bytes gives 1 to 8 and 16, and those numbers that are named with it. */
enum lithgorn_answer {
    LITHGORN_DONE = 0,
    LITHGORN_REFUSED_BYTES = 1,            /* no plan or no sheet: a field cut short, a tag unknown, absent, falling or
                                              repeated, a field of a wrong length; in a plan a tag 4 or 5 */
    LITHGORN_REFUSED_LEVELS = 2,           /* levels other than 2 or 3 */
    LITHGORN_REFUSED_FACTORS = 3,          /* k not 1 to 10 at two levels, 1 to 6 at three; of blockings not 2 to 5 */
    LITHGORN_REFUSED_COUNTS = 4,           /* over 6 added factors, over 4 block words; at three levels over 0 and 1 */
    LITHGORN_REFUSED_WORDS = 5,            /* a letter beyond k, an added word under two letters, a sign over 1, an empty
                                              block word; at three levels a block word beyond k, under two letters, or
                                              whose lowest digit that is not 0 is 2 */
    LITHGORN_REFUSED_SAME_WORDS = 6,       /* two added factors with one word */
    LITHGORN_REFUSED_DEPENDENT_BLOCKS = 7, /* block words combine to the empty word */
    LITHGORN_REFUSED_LOST_FACTOR = 8,      /* a factor, base or added, would be lost to blocks */
    LITHGORN_REFUSED_THREE_LEVELS = 9,     /* the call is for two levels */
    LITHGORN_REFUSED_NOT_IN_PLAN = 10,     /* the run, a letter of the effect or the factor is not in the plan */
    LITHGORN_REFUSED_LENGTHS = 11,         /* a slice has not as many places as it must have */
    LITHGORN_REFUSED_LIMIT = 12,           /* a reading beyond 1,000,000 either way at two levels, beyond 100,000 at three;
                                              a value of a pass or step beyond 1,024,000,000; an estimate's total beyond
                                              1,000,000 N r */
    LITHGORN_REFUSED_MARKS = 13,           /* a mark over 1, or mark 1 on the mean or on a row lost to blocks; of screen
                                              also on the row of a main effect */
    LITHGORN_REFUSED_NO_READINGS = 14,     /* no readings have these totals */
    LITHGORN_REFUSED_REPEATS = 16,         /* r not 1, 2, 4 or 8, over 1,024 readings, or a tag 6 that holds 1 */
    LITHGORN_REFUSED_WORD_COUNT = 17,      /* the words of a blocking are not 1 to 3 */
    LITHGORN_REFUSED_COLUMN = 18,          /* the column has fewer places than there are words to write */
    LITHGORN_REFUSED_MEETING = 21          /* a main effect has the row of an interaction of two factors */
};

/* Kinds of estimates. */
enum lithgorn_kind {
    LITHGORN_MEAN = 0,
    LITHGORN_DIFFERENCE = 1,
    LITHGORN_LOST = 2
};

/* Places in figures. A sum of squares is its numerator over the denominator. Kept are the rows that are neither mean nor
   blocks nor error. The total includes the mean: it has N r degrees. */
enum lithgorn_figure {
    LITHGORN_DENOMINATOR = 0,
    LITHGORN_MEAN_DEGREES = 1,
    LITHGORN_MEAN_NUMERATOR = 2,
    LITHGORN_KEPT_DEGREES = 3,
    LITHGORN_KEPT_NUMERATOR = 4,
    LITHGORN_BLOCKS_DEGREES = 5,
    LITHGORN_BLOCKS_NUMERATOR = 6,
    LITHGORN_ERROR_DEGREES = 7,
    LITHGORN_ERROR_NUMERATOR = 8,
    LITHGORN_TOTAL_DEGREES = 9,
    LITHGORN_TOTAL_NUMERATOR = 10
};

/* Places in checks: the sum of the totals, and what it must be by the readings. They are equal. */
enum lithgorn_check_number {
    LITHGORN_CHECK_TOTALS = 0,
    LITHGORN_CHECK_READINGS = 1
};

/* ---- single figures of a plan in bytes ---- */

/* Whether a plan is accepted. 1 to 8, 16. */
uint8_t lithgorn_check(const uint8_t *plan, size_t plan_length);

/* The letters, base and added, that are high in a run, and the run's block. Without block words the block is 0; at three
   levels the set of letters is empty. Besides 10. */
uint8_t lithgorn_run(const uint8_t *LITHGORN_RESTRICT plan, size_t plan_length, size_t run,
                     uint16_t *LITHGORN_RESTRICT high, uint8_t *LITHGORN_RESTRICT block);

/* The base word to which an effect of all factors reduces, and in turned 1 where its sign turns, else 0: the difference of
   the effect is the estimate of the word, negated where it turns. Besides 9, 10. */
uint8_t lithgorn_alias(const uint8_t *LITHGORN_RESTRICT plan, size_t plan_length, uint16_t effect,
                       uint16_t *LITHGORN_RESTRICT word, uint8_t *LITHGORN_RESTRICT turned);

/* From the total of an effect of base letters, of the kind LITHGORN_MEAN the mean, LITHGORN_DIFFERENCE the effect, high
   minus low; the double is exact. An effect that is lost to blocks is LITHGORN_LOST, and the value is not written then.
   Besides 9, 10, 12. */
uint8_t lithgorn_estimate(const uint8_t *LITHGORN_RESTRICT plan, size_t plan_length, uint16_t effect, int64_t total,
                          uint8_t *LITHGORN_RESTRICT kind, double *LITHGORN_RESTRICT value);

/* ---- every way to block a small plan ---- */

/* All lists of so many block words that a two-level plan of 2 to 5 factors may have, one list after the other from the
   first place of the column on, and how many lists there are. 3, 17, 18. */
uint8_t lithgorn_blockings(uint8_t factors, uint8_t words, uint16_t *LITHGORN_RESTRICT column, size_t column_length,
                           size_t *LITHGORN_RESTRICT lists);

/* ---- columns ---- */

/* The pass of a base factor, 0 for A, in place. The passes of all base factors, in any order, turn run sums into totals.
   Besides 10, 11, 12. */
uint8_t lithgorn_pass(const uint8_t *LITHGORN_RESTRICT plan, size_t plan_length, size_t factor,
                      int64_t *LITHGORN_RESTRICT column, size_t column_length);

/* The step of NBS Report 3950, from one column to another. k steps turn run sums into totals. Besides 11, 12. */
uint8_t lithgorn_step(const uint8_t *LITHGORN_RESTRICT plan, size_t plan_length,
                      const int64_t *LITHGORN_RESTRICT from, size_t from_length,
                      int64_t *LITHGORN_RESTRICT to, size_t to_length);

/* The totals of all effects, low minus high. Besides 11, 12. */
uint8_t lithgorn_totals(const uint8_t *LITHGORN_RESTRICT plan, size_t plan_length,
                        const int32_t *LITHGORN_RESTRICT readings, size_t readings_length,
                        int64_t *LITHGORN_RESTRICT totals, size_t totals_length);

/* The N readings that have these totals; where runs are made several times, the N run sums. Besides 11, 14. */
uint8_t lithgorn_recover(const uint8_t *LITHGORN_RESTRICT plan, size_t plan_length,
                         const int64_t *LITHGORN_RESTRICT totals, size_t totals_length,
                         int32_t *LITHGORN_RESTRICT readings, size_t readings_length);

/* ---- the analysis of variance ---- */

/* Totals, the numerators of all rows, figures and checks. Besides 11, 12, 13. */
uint8_t lithgorn_table(const uint8_t *LITHGORN_RESTRICT plan, size_t plan_length,
                       const int32_t *LITHGORN_RESTRICT readings, size_t readings_length,
                       const uint8_t *LITHGORN_RESTRICT marks, size_t marks_length,
                       int64_t *LITHGORN_RESTRICT totals, size_t totals_length,
                       uint64_t *LITHGORN_RESTRICT rows, size_t rows_length,
                       uint64_t figures[LITHGORN_FIGURES], int64_t checks[LITHGORN_CHECKS]);

/* The same, but only of two-level plans in which no main effect has the row of an interaction of two factors. Besides 21,
   9, 11, 12, 13. */
uint8_t lithgorn_screen(const uint8_t *LITHGORN_RESTRICT plan, size_t plan_length,
                        const int32_t *LITHGORN_RESTRICT readings, size_t readings_length,
                        const uint8_t *LITHGORN_RESTRICT marks, size_t marks_length,
                        int64_t *LITHGORN_RESTRICT totals, size_t totals_length,
                        uint64_t *LITHGORN_RESTRICT rows, size_t rows_length,
                        uint64_t figures[LITHGORN_FIGURES], int64_t checks[LITHGORN_CHECKS]);

/* ---- sheets ---- */

/* The readings of a sheet, in the first N r places, and how many of its first bytes are its plan. 1 to 8, 16, 11, 12, 13. */
uint8_t lithgorn_read(const uint8_t *LITHGORN_RESTRICT sheet, size_t sheet_length,
                      int32_t *LITHGORN_RESTRICT readings, size_t readings_length,
                      size_t *LITHGORN_RESTRICT plan_length);

/* How many marks a sheet has: they are its last so many bytes. 0 where the sheet is refused. */
size_t lithgorn_marks(const uint8_t *sheet, size_t sheet_length);

/* The text that the program factab prints of a sheet, in the first bytes, without a zero byte at the end; the answer is its
   length. Of a sheet that is refused it is the line `refused` with the number. */
size_t lithgorn_text(const uint8_t *LITHGORN_RESTRICT sheet, size_t sheet_length,
                     uint8_t text[LITHGORN_TEXT]);

/* The table of a sheet, as lithgorn_table has it. 1 to 8, 16, 11, 12, 13. */
uint8_t lithgorn_sheet_table(const uint8_t *LITHGORN_RESTRICT sheet, size_t sheet_length,
                             int64_t *LITHGORN_RESTRICT totals, size_t totals_length,
                             uint64_t *LITHGORN_RESTRICT rows, size_t rows_length,
                             uint64_t figures[LITHGORN_FIGURES], int64_t checks[LITHGORN_CHECKS]);

/* ---- whole plans without bytes ---- */

/* The pass, the totals, the recovery and the table as above, of a plan by its levels, k and r, with no added factors and no
   block words. 2, 3, 16 and those of the call. */
uint8_t yates_pass(uint8_t levels, uint8_t k, size_t factor, int64_t *column, size_t column_length);

uint8_t yates_totals(uint8_t levels, uint8_t k, uint8_t repeats,
                     const int32_t *LITHGORN_RESTRICT readings, size_t readings_length,
                     int64_t *LITHGORN_RESTRICT totals, size_t totals_length);

uint8_t yates_recover(uint8_t levels, uint8_t k, uint8_t repeats,
                      const int64_t *LITHGORN_RESTRICT totals, size_t totals_length,
                      int32_t *LITHGORN_RESTRICT readings, size_t readings_length);

uint8_t anova_table(uint8_t levels, uint8_t k, uint8_t repeats,
                    const int32_t *LITHGORN_RESTRICT readings, size_t readings_length,
                    const uint8_t *LITHGORN_RESTRICT marks, size_t marks_length,
                    int64_t *LITHGORN_RESTRICT totals, size_t totals_length,
                    uint64_t *LITHGORN_RESTRICT rows, size_t rows_length,
                    uint64_t *LITHGORN_RESTRICT figures, size_t figures_length,
                    int64_t *LITHGORN_RESTRICT checks, size_t checks_length);

#ifdef __cplusplus
}
#endif

#endif

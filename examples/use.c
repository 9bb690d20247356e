/* A whole job with the library, in C: a plan in bytes, its runs, totals and effects; the table of a sheet; and a refusal.

     gcc examples/use.c -I include -L target/staticlib -llithgorn
     ./a.out examples/sixteen_runs.sheet

   It prints examples/use.txt. The readings are those of AMCP 706-112, Data Sample 12-4, in tenths, as if the eight runs had
   been made in two blocks. examples/use.rs and examples/use.py do the same. */
#include <inttypes.h>
#include <lithgorn.h>
#include <stdio.h>
#include <stdlib.h>

enum { RUNS = 8, LETTERS = 16 };

/* Three base factors at two levels, D = ABC, two blocks by AB. */
static const uint8_t plan[] = {1, 0, 2, 2, 3, 2, 0, 3, 0, 7, 0, 3, 0, 2, 0, 3};
static const int32_t readings[RUNS] = {42, 30, 50, 29, 40, 28, 46, 23};

/* The same with A as block word, which is refused: A would be lost to blocks. */
static const uint8_t refused[] = {1, 0, 2, 2, 3, 3, 0, 2, 0, 1};

/* Ends the program where a call is refused that should not be. */
static void want_done(const char *call, uint8_t answer)
{
    if (answer == LITHGORN_DONE)
        return;
    fprintf(stderr, "%s: refused %d\n", call, answer);
    exit(EXIT_FAILURE);
}

/* The letters of a word, or another name where it has none. */
static const char *letters(uint16_t word, const char *none)
{
    static char text[LETTERS + 1];
    int length = 0;
    for (int letter = 0; letter < LETTERS; letter++)
        if (word >> letter & 1)
            text[length++] = (char)('A' + letter);
    text[length] = '\0';
    return length > 0 ? text : none;
}

static void print_runs(void)
{
    for (size_t run = 0; run < RUNS; run++) {
        uint16_t high;
        uint8_t block;
        want_done("lithgorn_run", lithgorn_run(plan, sizeof plan, run, &high, &block));
        printf("run %zu: %s, block %d, reading %" PRId32 "\n", run, letters(high, "(1)"), block, readings[run]);
    }
}

/* The total of a base word, low minus high, and its estimate, high minus low. */
static void print_effect(uint16_t word, int64_t total)
{
    uint8_t kind;
    double value = 0;
    want_done("lithgorn_estimate", lithgorn_estimate(plan, sizeof plan, word, total, &kind, &value));
    printf("%s: total %" PRId64 ", ", letters(word, "mean"), total);
    if (kind == LITHGORN_LOST)
        printf("lost to blocks\n");
    else
        printf("%s %g\n", kind == LITHGORN_MEAN ? "mean" : "effect", value);
}

/* The base word to which the effect of the added factor D reduces. */
static void print_added(void)
{
    uint16_t word;
    uint8_t turned;
    want_done("lithgorn_alias", lithgorn_alias(plan, sizeof plan, 8, &word, &turned));
    printf("D: the effect of %s%s\n", letters(word, "mean"), turned ? ", negated" : "");
}

static void print_effects(void)
{
    int64_t totals[RUNS];
    want_done("lithgorn_totals", lithgorn_totals(plan, sizeof plan, readings, RUNS, totals, RUNS));
    for (uint16_t word = 0; word < RUNS; word++)
        print_effect(word, totals[word]);
}

/* The bytes of a sheet, and how many there are. */
static size_t read_sheet(const char *path, uint8_t sheet[LITHGORN_MOST_SHEET])
{
    FILE *file = fopen(path, "rb");
    if (file == NULL) {
        perror(path);
        exit(EXIT_FAILURE);
    }
    size_t length = fread(sheet, 1, LITHGORN_MOST_SHEET, file);
    fclose(file);
    return length;
}

/* The table of sixteen runs: each row's numerator over the denominator, and the sums. */
static void print_table(const uint8_t *sheet, size_t length)
{
    int64_t totals[16], checks[LITHGORN_CHECKS];
    uint64_t rows[16], figures[LITHGORN_FIGURES];
    want_done("lithgorn_sheet_table", lithgorn_sheet_table(sheet, length, totals, 16, rows, 16, figures, checks));
    uint64_t over = figures[LITHGORN_DENOMINATOR], sum = figures[LITHGORN_TOTAL_NUMERATOR];
    for (uint16_t row = 0; row < 16; row++)
        printf("%s: %" PRIu64 " / %" PRIu64 " = %.4f\n", letters(row, "mean"), rows[row], over,
               (double)rows[row] / (double)over);
    printf("total: %" PRIu64 " degrees, %" PRIu64 " / %" PRIu64 " = %.4f\n", figures[LITHGORN_TOTAL_DEGREES], sum, over,
           (double)sum / (double)over);
    printf("check: %" PRId64 " and %" PRId64 "\n", checks[LITHGORN_CHECK_TOTALS], checks[LITHGORN_CHECK_READINGS]);
}

/* What factab prints of a sheet: its first line. */
static void print_text(const uint8_t *sheet, size_t length)
{
    static uint8_t text[LITHGORN_TEXT];
    size_t end = lithgorn_text(sheet, length, text), line = 0;
    while (line < end && text[line] != '\n')
        line++;
    printf("text: %zu bytes, first %.*s\n", end, (int)line, (const char *)text);
}

int main(int count, char **arguments)
{
    uint8_t sheet[LITHGORN_MOST_SHEET];
    size_t length = read_sheet(count > 1 ? arguments[1] : "examples/sixteen_runs.sheet", sheet);
    printf("plan of %zu bytes: %d\n", sizeof plan, lithgorn_check(plan, sizeof plan));
    print_runs();
    print_effects();
    print_added();
    print_table(sheet, length);
    print_text(sheet, length);
    uint8_t answer = lithgorn_check(refused, sizeof refused);
    printf("block word A: refused %d%s\n", answer, answer == LITHGORN_REFUSED_LOST_FACTOR ? ", a factor would be lost" : "");
    return 0;
}

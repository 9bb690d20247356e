/* The pass, the totals call, the recovery call and the table call in plain C: the same signatures, refusals in the same order, and numbers as
   those of crates/lithgorn_c.
   SIDE is put before the names, so that one program can hold several compilations of this file. */
#include <stddef.h>
#include <stdint.h>

#define JOIN(a, b) a##b
#define WITH(side, name) JOIN(side, name)
#define NAME(name) WITH(SIDE, name)

enum { TWO_READING_LIMIT = 1000000, THREE_READING_LIMIT = 100000, VALUE_LIMIT = 1024000000, MOST_READINGS = 1024 };

static size_t power(size_t base, size_t n)
{
    size_t product = 1;
    while (n-- > 0)
        product *= base;
    return product;
}

static uint8_t plan_number(uint8_t levels, uint8_t k, uint8_t repeats)
{
    if (levels != 2 && levels != 3)
        return 2;
    if (k == 0 || k > (levels == 2 ? 10 : 6))
        return 3;
    if (repeats != 1 && repeats != 2 && repeats != 4 && repeats != 8)
        return 16;
    return power(levels, k) * repeats > MOST_READINGS ? 16 : 0;
}

/* First and second become their sum, and first minus second. */
static void stretch_two(int64_t *restrict first, int64_t *restrict second, size_t spacing)
{
    for (size_t i = 0; i < spacing; i++) {
        int64_t a = first[i], b = second[i];
        first[i] = a + b;
        second[i] = a - b;
    }
}

/* First, middle and third become their sum, first minus third, and first minus twice middle plus third. */
static void stretch_three(int64_t *restrict first, int64_t *restrict middle, int64_t *restrict third, size_t spacing)
{
    for (size_t i = 0; i < spacing; i++) {
        int64_t a = first[i], b = middle[i], c = third[i];
        first[i] = a + b + c;
        middle[i] = a - c;
        third[i] = a - 2 * b + c;
    }
}

static void pass_over(uint8_t levels, size_t spacing, int64_t *column, size_t length)
{
    int64_t *end = column + length;
    if (levels == 2)
        for (int64_t *part = column; part < end; part += 2 * spacing)
            stretch_two(part, part + spacing, spacing);
    else
        for (int64_t *part = column; part < end; part += 3 * spacing)
            stretch_three(part, part + spacing, part + 2 * spacing, spacing);
}

static int64_t run_sum(uint8_t repeats, const int32_t *run)
{
    int64_t sum = 0;
    for (uint8_t j = 0; j < repeats; j++)
        sum += run[j];
    return sum;
}

/* The column becomes the sum of the readings of each run. */
static void take_runs(uint8_t repeats, const int32_t *readings, int64_t *column, size_t runs)
{
    if (repeats == 1)
        for (size_t i = 0; i < runs; i++)
            column[i] = readings[i];
    else
        for (size_t i = 0; i < runs; i++)
            column[i] = run_sum(repeats, readings + i * repeats);
}

/* The run sums become the totals of all effects. */
static void form_totals(uint8_t levels, uint8_t k, int64_t *totals, size_t runs)
{
    size_t spacing = 1;
    for (uint8_t f = 0; f < k; f++) {
        pass_over(levels, spacing, totals, runs);
        spacing *= levels;
    }
}

static int32_t reading_limit(uint8_t levels)
{
    return levels == 2 ? TWO_READING_LIMIT : THREE_READING_LIMIT;
}

static int any_reading_beyond(uint8_t levels, const int32_t *readings, size_t count)
{
    int32_t limit = reading_limit(levels);
    for (size_t i = 0; i < count; i++)
        if (readings[i] > limit || readings[i] < -limit)
            return 1;
    return 0;
}

static int any_value_beyond(const int64_t *column, size_t length)
{
    for (size_t i = 0; i < length; i++)
        if (column[i] > VALUE_LIMIT || column[i] < -VALUE_LIMIT)
            return 1;
    return 0;
}

uint8_t NAME(yates_pass)(uint8_t levels, uint8_t k, size_t factor, int64_t *column, size_t length)
{
    uint8_t number = plan_number(levels, k, 1);
    if (number != 0)
        return number;
    if (factor >= k)
        return 10;
    if (length != power(levels, k))
        return 11;
    if (any_value_beyond(column, length))
        return 12;
    pass_over(levels, power(levels, factor), column, length);
    return 0;
}

uint8_t NAME(yates_totals)(uint8_t levels, uint8_t k, uint8_t repeats, const int32_t *readings, size_t readings_length, int64_t *totals,
                           size_t totals_length)
{
    uint8_t number = plan_number(levels, k, repeats);
    if (number != 0)
        return number;
    size_t runs = power(levels, k);
    if (readings_length != runs * repeats || totals_length != runs)
        return 11;
    if (any_reading_beyond(levels, readings, readings_length))
        return 12;
    take_runs(repeats, readings, totals, runs);
    form_totals(levels, k, totals, runs);
    return 0;
}

/* ---- readings back from totals */

/* First, middle and third become the sums of the rows (2, 3, 1), (2, 0, -2) and (2, -3, 1). */
static void sums_three(int64_t *restrict first, int64_t *restrict middle, int64_t *restrict third, size_t spacing)
{
    for (size_t i = 0; i < spacing; i++) {
        int64_t a = 2 * first[i], b = 3 * middle[i], c = third[i];
        first[i] = a + b + c;
        middle[i] = a - 2 * c;
        third[i] = a - b + c;
    }
}

/* At two levels the sums of a factor are its pass. */
static void sums_over(uint8_t levels, size_t spacing, int64_t *column, size_t length)
{
    if (levels == 2)
        pass_over(levels, spacing, column, length);
    else
        for (int64_t *part = column; part < column + length; part += 3 * spacing)
            sums_three(part, part + spacing, part + 2 * spacing, spacing);
}

/* The totals become the run sums times the denominator, the last factor first. */
static void sum_back(uint8_t levels, int64_t *column, size_t runs)
{
    for (size_t spacing = runs / levels; spacing > 0; spacing /= levels)
        sums_over(levels, spacing, column, runs);
}

uint8_t NAME(yates_recover)(uint8_t levels, uint8_t k, uint8_t repeats, const int64_t *totals, size_t totals_length, int32_t *readings,
                            size_t readings_length)
{
    uint8_t number = plan_number(levels, k, repeats);
    if (number != 0)
        return number;
    size_t runs = power(levels, k);
    if (totals_length != runs || readings_length != runs)
        return 11;
    if (any_value_beyond(totals, runs))
        return 14;

    int64_t column[MOST_READINGS];
    for (size_t i = 0; i < runs; i++)
        column[i] = totals[i];
    sum_back(levels, column, runs);
    int64_t denominator = (int64_t)power(levels == 2 ? 2 : 6, k), limit = (int64_t)repeats * reading_limit(levels);
    for (size_t i = 0; i < runs; i++) {
        int64_t sum = column[i], reading = sum / denominator;
        if (sum % denominator != 0 || reading > limit || reading < -limit)
            return 14;
        column[i] = reading;
    }
    for (size_t i = 0; i < runs; i++)
        readings[i] = (int32_t)column[i];
    return 0;
}

/* ---- the table */

enum { FIGURES = 11, CHECKS = 2 };
enum { KEPT, ERROR, MEAN, BLOCKS, KINDS };

/* The divisors of six three-level factors: entry e is the product of 3, 2 or 6 by the digits of e. */
static const uint32_t divisors[729] = {
    729, 486, 1458, 486, 324, 972, 1458, 972, 2916, 486, 324, 972, 324, 216, 648, 972, 648, 1944, 1458, 972, 2916, 972, 648, 1944, 2916,
    1944, 5832, 486, 324, 972, 324, 216, 648, 972, 648, 1944, 324, 216, 648, 216, 144, 432, 648, 432, 1296, 972, 648, 1944, 648, 432, 1296,
    1944, 1296, 3888, 1458, 972, 2916, 972, 648, 1944, 2916, 1944, 5832, 972, 648, 1944, 648, 432, 1296, 1944, 1296, 3888, 2916, 1944, 5832,
    1944, 1296, 3888, 5832, 3888, 11664, 486, 324, 972, 324, 216, 648, 972, 648, 1944, 324, 216, 648, 216, 144, 432, 648, 432, 1296, 972,
    648, 1944, 648, 432, 1296, 1944, 1296, 3888, 324, 216, 648, 216, 144, 432, 648, 432, 1296, 216, 144, 432, 144, 96, 288, 432, 288, 864,
    648, 432, 1296, 432, 288, 864, 1296, 864, 2592, 972, 648, 1944, 648, 432, 1296, 1944, 1296, 3888, 648, 432, 1296, 432, 288, 864, 1296,
    864, 2592, 1944, 1296, 3888, 1296, 864, 2592, 3888, 2592, 7776, 1458, 972, 2916, 972, 648, 1944, 2916, 1944, 5832, 972, 648, 1944, 648,
    432, 1296, 1944, 1296, 3888, 2916, 1944, 5832, 1944, 1296, 3888, 5832, 3888, 11664, 972, 648, 1944, 648, 432, 1296, 1944, 1296, 3888,
    648, 432, 1296, 432, 288, 864, 1296, 864, 2592, 1944, 1296, 3888, 1296, 864, 2592, 3888, 2592, 7776, 2916, 1944, 5832, 1944, 1296, 3888,
    5832, 3888, 11664, 1944, 1296, 3888, 1296, 864, 2592, 3888, 2592, 7776, 5832, 3888, 11664, 3888, 2592, 7776, 11664, 7776, 23328, 486,
    324, 972, 324, 216, 648, 972, 648, 1944, 324, 216, 648, 216, 144, 432, 648, 432, 1296, 972, 648, 1944, 648, 432, 1296, 1944, 1296, 3888,
    324, 216, 648, 216, 144, 432, 648, 432, 1296, 216, 144, 432, 144, 96, 288, 432, 288, 864, 648, 432, 1296, 432, 288, 864, 1296, 864,
    2592, 972, 648, 1944, 648, 432, 1296, 1944, 1296, 3888, 648, 432, 1296, 432, 288, 864, 1296, 864, 2592, 1944, 1296, 3888, 1296, 864,
    2592, 3888, 2592, 7776, 324, 216, 648, 216, 144, 432, 648, 432, 1296, 216, 144, 432, 144, 96, 288, 432, 288, 864, 648, 432, 1296, 432,
    288, 864, 1296, 864, 2592, 216, 144, 432, 144, 96, 288, 432, 288, 864, 144, 96, 288, 96, 64, 192, 288, 192, 576, 432, 288, 864, 288,
    192, 576, 864, 576, 1728, 648, 432, 1296, 432, 288, 864, 1296, 864, 2592, 432, 288, 864, 288, 192, 576, 864, 576, 1728, 1296, 864, 2592,
    864, 576, 1728, 2592, 1728, 5184, 972, 648, 1944, 648, 432, 1296, 1944, 1296, 3888, 648, 432, 1296, 432, 288, 864, 1296, 864, 2592,
    1944, 1296, 3888, 1296, 864, 2592, 3888, 2592, 7776, 648, 432, 1296, 432, 288, 864, 1296, 864, 2592, 432, 288, 864, 288, 192, 576, 864,
    576, 1728, 1296, 864, 2592, 864, 576, 1728, 2592, 1728, 5184, 1944, 1296, 3888, 1296, 864, 2592, 3888, 2592, 7776, 1296, 864, 2592, 864,
    576, 1728, 2592, 1728, 5184, 3888, 2592, 7776, 2592, 1728, 5184, 7776, 5184, 15552, 1458, 972, 2916, 972, 648, 1944, 2916, 1944, 5832,
    972, 648, 1944, 648, 432, 1296, 1944, 1296, 3888, 2916, 1944, 5832, 1944, 1296, 3888, 5832, 3888, 11664, 972, 648, 1944, 648, 432, 1296,
    1944, 1296, 3888, 648, 432, 1296, 432, 288, 864, 1296, 864, 2592, 1944, 1296, 3888, 1296, 864, 2592, 3888, 2592, 7776, 2916, 1944, 5832,
    1944, 1296, 3888, 5832, 3888, 11664, 1944, 1296, 3888, 1296, 864, 2592, 3888, 2592, 7776, 5832, 3888, 11664, 3888, 2592, 7776, 11664,
    7776, 23328, 972, 648, 1944, 648, 432, 1296, 1944, 1296, 3888, 648, 432, 1296, 432, 288, 864, 1296, 864, 2592, 1944, 1296, 3888, 1296,
    864, 2592, 3888, 2592, 7776, 648, 432, 1296, 432, 288, 864, 1296, 864, 2592, 432, 288, 864, 288, 192, 576, 864, 576, 1728, 1296, 864,
    2592, 864, 576, 1728, 2592, 1728, 5184, 1944, 1296, 3888, 1296, 864, 2592, 3888, 2592, 7776, 1296, 864, 2592, 864, 576, 1728, 2592,
    1728, 5184, 3888, 2592, 7776, 2592, 1728, 5184, 7776, 5184, 15552, 2916, 1944, 5832, 1944, 1296, 3888, 5832, 3888, 11664, 1944, 1296,
    3888, 1296, 864, 2592, 3888, 2592, 7776, 5832, 3888, 11664, 3888, 2592, 7776, 11664, 7776, 23328, 1944, 1296, 3888, 1296, 864, 2592,
    3888, 2592, 7776, 1296, 864, 2592, 864, 576, 1728, 2592, 1728, 5184, 3888, 2592, 7776, 2592, 1728, 5184, 7776, 5184, 15552, 5832, 3888,
    11664, 3888, 2592, 7776, 11664, 7776, 23328, 3888, 2592, 7776, 2592, 1728, 5184, 7776, 5184, 15552, 11664, 7776, 23328, 7776, 5184,
    15552, 23328, 15552, 46656,
};

/* What the totals must add up to. At three levels the column is used for the rounds. */
static int64_t check_number(uint8_t levels, uint8_t k, uint8_t repeats, const int32_t *readings, int64_t *column, size_t runs)
{
    if (levels == 2)
        return (int64_t)runs * run_sum(repeats, readings);
    take_runs(repeats, readings, column, runs);
    for (size_t sets = runs / 3; k > 0; k--, sets /= 3)
        for (size_t i = 0; i < sets; i++)
            column[i] = 3 * column[3 * i] - column[3 * i + 1] + column[3 * i + 2];
    return column[0];
}

static uint64_t sum_of_squares(const int32_t *readings, size_t count)
{
    uint64_t sum = 0;
    for (size_t i = 0; i < count; i++)
        sum += (uint64_t)((int64_t)readings[i] * readings[i]);
    return sum;
}

/* Repeats times the squares of readings about their run's mean, from the squares of all readings and the run sums. */
static uint64_t within_runs(uint8_t repeats, uint64_t squares, const int64_t *run_sums, size_t runs)
{
    if (repeats == 1)
        return 0;
    uint64_t of_sums = 0;
    for (size_t i = 0; i < runs; i++)
        of_sums += (uint64_t)(run_sums[i] * run_sums[i]);
    return repeats * squares - of_sums;
}

/* Numerators and degrees of the kinds of rows, and the sum of the totals. */
struct sums {
    uint64_t numerators[KINDS], degrees[KINDS];
    int64_t totals;
};

/* Row and effect are one number, and all weights are 1. */
static struct sums walk_two(const int64_t *totals, const uint8_t *marks, uint64_t *rows, size_t runs)
{
    struct sums sums = {{0}, {0}, 0};
    for (size_t e = 0; e < runs; e++) {
        int64_t total = totals[e];
        uint64_t numerator = (uint64_t)(total * total);
        unsigned kind = marks[e];
        rows[e] = numerator;
        sums.numerators[kind] += numerator;
        sums.degrees[kind]++;
        sums.totals += total;
    }
    /* The mean is no kept effect, though its mark is 0. */
    sums.numerators[MEAN] = rows[0];
    sums.degrees[MEAN] = 1;
    sums.numerators[KEPT] -= rows[0];
    sums.degrees[KEPT]--;
    return sums;
}

/* A row adds the effects of its letters; each is weighed by the denominator over its divisor. The divisor is the entry over 3 for each
   factor missing, so the weight is the denominator times these over the entry. */
static struct sums walk_three(uint8_t k, const int64_t *totals, const uint8_t *marks, uint64_t *rows, size_t runs, size_t row_count)
{
    struct sums sums = {{0}, {0}, 0};
    uint16_t row_of[729];
    uint32_t over = (uint32_t)(runs * row_count);
    for (uint8_t f = k; f < 6; f++)
        over *= 3;
    for (size_t row = 0; row < row_count; row++)
        rows[row] = 0;
    row_of[0] = 0;
    for (size_t e = 0; e < runs; e++) {
        size_t row = 2 * row_of[e / 3] + (e % 3 != 0);
        row_of[e] = (uint16_t)row;
        int64_t total = totals[e];
        uint64_t numerator = (uint64_t)(total * total) * (over / divisors[e]);
        unsigned kind = row == 0 ? MEAN : marks[row];
        rows[row] += numerator;
        sums.numerators[kind] += numerator;
        sums.degrees[kind]++;
        sums.totals += total;
    }
    return sums;
}

uint8_t NAME(anova_table)(uint8_t levels, uint8_t k, uint8_t repeats, const int32_t *readings, size_t readings_length,
                          const uint8_t *marks, size_t marks_length, int64_t *totals, size_t totals_length, uint64_t *rows,
                          size_t rows_length, uint64_t *figures, size_t figures_length, int64_t *checks, size_t checks_length)
{
    uint8_t number = plan_number(levels, k, repeats);
    if (number != 0)
        return number;
    if (figures_length != FIGURES || checks_length != CHECKS)
        return 11;
    size_t runs = power(levels, k), count = runs * repeats, row_count = (size_t)1 << k;
    if (readings_length != count || totals_length != runs || rows_length != row_count || marks_length != row_count)
        return 11;
    if (any_reading_beyond(levels, readings, count))
        return 12;
    for (size_t row = 0; row < row_count; row++)
        if (marks[row] > 1)
            return 13;
    if (marks[0] == 1)
        return 13;

    checks[1] = check_number(levels, k, repeats, readings, totals, runs);
    take_runs(repeats, readings, totals, runs);
    uint64_t squares = sum_of_squares(readings, count), within = within_runs(repeats, squares, totals, runs);
    form_totals(levels, k, totals, runs);
    struct sums sums = levels == 2 ? walk_two(totals, marks, rows, runs) : walk_three(k, totals, marks, rows, runs, row_count);
    checks[0] = sums.totals;
    uint64_t over = levels == 2 ? runs : runs * row_count;
    sums.degrees[ERROR] += count - runs;
    sums.numerators[ERROR] += over * within;
    figures[0] = over * repeats;
    static const int order[] = {MEAN, KEPT, BLOCKS, ERROR};
    for (int i = 0; i < KINDS; i++) {
        figures[1 + 2 * i] = sums.degrees[order[i]];
        figures[2 + 2 * i] = sums.numerators[order[i]];
    }
    figures[9] = count;
    figures[10] = figures[0] * squares;
    return 0;
}

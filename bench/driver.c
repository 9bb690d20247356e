/* Times the calls of crates/lithgorn_c beside plain C (plain.c), compiled with -O3 and with -O3 -march=native, in one run.

   Passes: a column is set from the readings, and the pass of each factor is called on it; the setting is counted, on every side alike.
   Totals: one call, from the readings to the totals of all effects.
   Recovery: one call, from totals back to the readings, or to the sums of runs that are made eight times. The readings are taken in many
   orders, and the totals of each in turn, so that no side can learn the signs of one column.
   Tables: one call, from the readings and marks to totals, rows, figures and checks; every third row but the mean is marked. One row has
   runs that are made eight times.
   First every side must give the same answers and columns, also where it refuses. Then the sides take turns in short batches, so that other
   work on the machine falls on all of them; a side's time is that of its fastest batch.

   Writes a line for each call and plan: call, levels, k, repeats, N, and the ns of each side. Exit status: 0, and 2 where the sides differ. */
#define _POSIX_C_SOURCE 200809L
#include <stdint.h>
#include <stdio.h>
#include <stdlib.h>
#include <string.h>
#include <time.h>

typedef uint8_t pass_call(uint8_t levels, uint8_t k, size_t factor, int64_t *column, size_t length);
typedef uint8_t totals_call(uint8_t levels, uint8_t k, uint8_t repeats, const int32_t *readings, size_t readings_length, int64_t *totals,
                            size_t totals_length);
typedef uint8_t recover_call(uint8_t levels, uint8_t k, uint8_t repeats, const int64_t *totals, size_t totals_length, int32_t *readings,
                             size_t readings_length);
typedef uint8_t table_call(uint8_t levels, uint8_t k, uint8_t repeats, const int32_t *readings, size_t readings_length, const uint8_t *marks,
                           size_t marks_length, int64_t *totals, size_t totals_length, uint64_t *rows, size_t rows_length,
                           uint64_t *figures, size_t figures_length, int64_t *checks, size_t checks_length);

pass_call yates_pass, plain_yates_pass, native_yates_pass;
totals_call yates_totals, plain_yates_totals, native_yates_totals;
recover_call yates_recover, plain_yates_recover, native_yates_recover;
table_call anova_table, plain_anova_table, native_anova_table;

enum { RATTLE, PLAIN, NATIVE, SIDES };
static pass_call *const passes[SIDES] = {yates_pass, plain_yates_pass, native_yates_pass};
static totals_call *const totals[SIDES] = {yates_totals, plain_yates_totals, native_yates_totals};
static recover_call *const recovers[SIDES] = {yates_recover, plain_yates_recover, native_yates_recover};
static table_call *const tables[SIDES] = {anova_table, plain_anova_table, native_anova_table};

enum { MOST = 1024, ROOM = MOST + 1, FIGURES = 11, CHECKS = 2, BATCHES = 30, BATCH_NS = 500000 };
static const int64_t TWO_READING_LIMIT = 1000000, THREE_READING_LIMIT = 100000, VALUE_LIMIT = 1024000000;

/* Numbers of repeats, allowed or not. */
static const uint8_t REPEATS[] = {1, 2, 4, 8, 0, 3, 5, 16, 255};
enum { ALLOWED = 4, ALL_REPEATS = sizeof REPEATS / sizeof *REPEATS };

/* One place of each for all sides, so that none has a better one. */
static _Alignas(64) int32_t readings[ROOM];
static _Alignas(64) int64_t values[ROOM], column[ROOM];
static _Alignas(64) uint8_t marks[ROOM];

/* What the recovery call is given, and what it writes. */
static _Alignas(64) int64_t given[ROOM];
static _Alignas(64) int32_t back[ROOM];

/* What the table call writes, with a place more than it is given. */
static _Alignas(64) struct made {
    _Alignas(64) int64_t totals[ROOM];
    _Alignas(64) uint64_t rows[ROOM];
    uint64_t figures[FIGURES + 1];
    int64_t checks[CHECKS + 1];
} made;

static size_t runs_of(unsigned levels, unsigned k)
{
    size_t n = 1;
    while (k-- > 0)
        n *= levels;
    return n;
}

static int64_t reading_limit(unsigned levels)
{
    return levels == 2 ? TWO_READING_LIMIT : THREE_READING_LIMIT;
}

/* Readings within the limit of either level count, from a fixed seed. */
static void take_readings(void)
{
    uint64_t state = 3950;
    for (size_t i = 0; i < ROOM; i++) {
        state = state * 6364136223846793005u + 1442695040888963407u;
        readings[i] = (int32_t)((int64_t)((state >> 33) % (2 * THREE_READING_LIMIT + 1)) - THREE_READING_LIMIT);
        values[i] = readings[i];
    }
}

/* Every row whose number leaves the given rest by 3, but not the mean. */
static void take_marks(size_t rest)
{
    for (size_t row = 0; row < ROOM; row++)
        marks[row] = row > 0 && row % 3 == rest;
}

/* ---- the sides agree */

static long compared;

static void differ(const char *call, unsigned levels, unsigned k)
{
    fprintf(stderr, "driver: the sides differ: %s, %u levels, k = %u\n", call, levels, k);
    exit(2);
}

/* The column that a call leaves is compared whole, also beyond the length that it was given. */
static void compare_pass(unsigned levels, unsigned k, size_t factor, size_t length)
{
    static int64_t wanted[ROOM];
    memcpy(column, values, sizeof column);
    uint8_t number = passes[RATTLE](levels, k, factor, column, length);
    memcpy(wanted, column, sizeof column);
    for (int side = PLAIN; side < SIDES; side++) {
        memcpy(column, values, sizeof column);
        if (passes[side](levels, k, factor, column, length) != number || memcmp(column, wanted, sizeof column) != 0)
            differ("pass", levels, k);
    }
    compared++;
}

static void compare_totals(unsigned levels, unsigned k, unsigned repeats, size_t readings_length, size_t totals_length)
{
    static int64_t wanted[ROOM];
    memset(column, 0x55, sizeof column);
    uint8_t number = totals[RATTLE](levels, k, repeats, readings, readings_length, column, totals_length);
    memcpy(wanted, column, sizeof column);
    for (int side = PLAIN; side < SIDES; side++) {
        memset(column, 0x55, sizeof column);
        if (totals[side](levels, k, repeats, readings, readings_length, column, totals_length) != number ||
            memcmp(column, wanted, sizeof column) != 0)
            differ("totals", levels, k);
    }
    compared++;
}

static void compare_recover(unsigned levels, unsigned k, unsigned repeats, size_t totals_length, size_t readings_length)
{
    static int32_t wanted[ROOM];
    memset(back, 0x55, sizeof back);
    uint8_t number = recovers[RATTLE](levels, k, repeats, given, totals_length, back, readings_length);
    memcpy(wanted, back, sizeof back);
    for (int side = PLAIN; side < SIDES; side++) {
        memset(back, 0x55, sizeof back);
        if (recovers[side](levels, k, repeats, given, totals_length, back, readings_length) != number ||
            memcmp(back, wanted, sizeof back) != 0)
            differ("recover", levels, k);
    }
    compared++;
}

static uint8_t call_table(int side, unsigned levels, unsigned k, unsigned repeats, const size_t lengths[6])
{
    return tables[side](levels, k, repeats, readings, lengths[0], marks, lengths[1], made.totals, lengths[2], made.rows, lengths[3],
                        made.figures, lengths[4], made.checks, lengths[5]);
}

/* All that the call writes is compared, also beyond the lengths that it was given. */
static void compare_table(unsigned levels, unsigned k, unsigned repeats, const size_t lengths[6])
{
    static struct made wanted;
    memset(&made, 0x55, sizeof made);
    uint8_t number = call_table(RATTLE, levels, k, repeats, lengths);
    memcpy(&wanted, &made, sizeof made);
    for (int side = PLAIN; side < SIDES; side++) {
        memset(&made, 0x55, sizeof made);
        if (call_table(side, levels, k, repeats, lengths) != number || memcmp(&made, &wanted, sizeof made) != 0)
            differ("table", levels, k);
    }
    compared++;
}

/* As many as fit, of a number of readings, runs or rows. */
static size_t fitting(size_t count)
{
    return count < MOST ? count : MOST;
}

/* The recovery call is given the totals of the values, by the passes of a plan; where these are refused, the values. */
static void give_totals(unsigned levels, unsigned k)
{
    memcpy(given, values, sizeof given);
    for (size_t factor = 0; factor < k; factor++)
        passes[PLAIN](levels, k, factor, given, fitting(runs_of(levels, k)));
}

/* Recovery from the totals of the values, with each length one too small and one too great; and from others: one total changed, which by 1
   leaves no readings, and by N, if it is the mean's, changes every run by 1; all totals changed, which changes the first run alone; and two
   changed by 1, which can leave the first or the last run as it is, but leaves no readings. */
static void compare_recoveries(unsigned levels, unsigned k, unsigned repeats)
{
    size_t n = fitting(runs_of(levels, k)), last = n == 0 ? 0 : n - 1;
    give_totals(levels, k);
    for (size_t length = last; length <= n + 1; length++) {
        compare_recover(levels, k, repeats, length, n);
        compare_recover(levels, k, repeats, n, length);
    }
    const size_t places[] = {0, 1, n / 2, last};
    const int64_t changes[] = {1, (int64_t)n, (int64_t)runs_of(levels == 2 ? 2 : 6, k)};
    for (size_t c = 0; c < sizeof changes / sizeof *changes; c++)
        for (int sign = -1; sign <= 1; sign += 2) {
            int64_t change = sign * changes[c];
            for (size_t p = 0; p < sizeof places / sizeof *places; p++) {
                given[places[p]] += change;
                compare_recover(levels, k, repeats, n, n);
                given[places[p]] -= change;
            }
            for (size_t i = 0; i < n; i++)
                given[i] += change;
            compare_recover(levels, k, repeats, n, n);
            for (size_t i = 0; i < n; i++)
                given[i] -= change;
        }
    for (int sign = -1; n > 3 && sign <= 1; sign += 2) {
        given[1] += 1;
        given[3] += sign;
        compare_recover(levels, k, repeats, n, n);
        given[1] -= 1;
        given[3] -= sign;
    }
}

/* Values, totals, run sums and readings at a limit and beside it, of either level count, in a plan of k factors. */
static void compare_about_limits(unsigned levels, unsigned k, unsigned repeats)
{
    size_t n = runs_of(levels, k), count = n * repeats, rows = runs_of(2, k);
    const size_t places[] = {0, 1, 17, n - 2, n - 1, n, count - 1, count};
    const size_t lengths[] = {count, rows, n, rows, FIGURES, CHECKS};
    for (size_t p = 0; p < sizeof places / sizeof *places; p++)
        for (int64_t over = -1; over <= 1; over++)
            for (int sign = -1; sign <= 1; sign += 2) {
                size_t at = places[p];
                int64_t about = sign * (VALUE_LIMIT + over);
                int64_t extreme = sign < 0 ? INT64_MIN - (over < 0 ? over : 0) : INT64_MAX - (over > 0 ? over : 0);
                give_totals(levels, k);
                given[at] = about;
                compare_recover(levels, k, repeats, n, n);
                given[at] = extreme;
                compare_recover(levels, k, repeats, n, n);
                for (unsigned of = 2; of <= 3; of++) {
                    values[at] = sign * (repeats * reading_limit(of) + over);
                    give_totals(levels, k);
                    compare_recover(levels, k, repeats, n, n);
                }
                values[at] = about;
                compare_pass(levels, k, 1, n);
                values[at] = extreme;
                compare_pass(levels, k, 1, n);
                values[at] = readings[at];
                int32_t reading = readings[at];
                for (unsigned of = 2; of <= 3; of++) {
                    readings[at] = (int32_t)(sign * (reading_limit(of) + over));
                    compare_totals(levels, k, repeats, count, n);
                    compare_table(levels, k, repeats, lengths);
                }
                readings[at] = sign < 0 ? INT32_MIN : INT32_MAX;
                compare_totals(levels, k, repeats, count, n);
                compare_table(levels, k, repeats, lengths);
                readings[at] = reading;
            }
}

/* Tables of a plan: with several marks, and with each length one too small and one too great. */
static void compare_tables(unsigned levels, unsigned k, unsigned repeats)
{
    size_t runs = runs_of(levels, k), rows = fitting(runs_of(2, k));
    size_t lengths[6] = {fitting(runs * repeats), rows, fitting(runs), rows, FIGURES, CHECKS};
    for (size_t rest = 0; rest <= 3; rest++) {
        take_marks(rest);
        compare_table(levels, k, repeats, lengths);
    }
    for (int i = 0; i < 6; i++) {
        size_t length = lengths[i];
        for (size_t other = length == 0 ? 0 : length - 1; other <= length + 1; other++) {
            lengths[i] = other;
            compare_table(levels, k, repeats, lengths);
        }
        lengths[i] = length;
    }
    for (size_t row = 0; row < rows; row += row < 8 ? 1 : 37)
        for (int mark = 1; mark <= 2; mark++) {
            uint8_t before = marks[row];
            marks[row] = (uint8_t)mark;
            compare_table(levels, k, repeats, lengths);
            marks[row] = before;
        }
}

/* Passes, totals, recovery and tables of a plan, with lengths one too small and one too great; and as many readings as runs. */
static void compare_plan(unsigned levels, unsigned k, unsigned repeats)
{
    size_t n = fitting(runs_of(levels, k)), count = fitting(runs_of(levels, k) * repeats);
    for (size_t length = n == 0 ? 0 : n - 1; length <= n + 1; length++) {
        if (repeats == 1)
            for (size_t factor = 0; factor <= k + 1; factor++)
                compare_pass(levels, k, factor, length);
        compare_totals(levels, k, repeats, count, length);
    }
    for (size_t length = count == 0 ? 0 : count - 1; length <= count + 1; length++)
        compare_totals(levels, k, repeats, length, n);
    compare_totals(levels, k, repeats, n, n);
    compare_recoveries(levels, k, repeats);
    compare_tables(levels, k, repeats);
}

/* All readings at one limit, or at both in turn, where numbers grow largest. */
static void compare_at_limits(unsigned levels, int first, int second)
{
    for (size_t i = 0; i < ROOM; i++)
        readings[i] = (int32_t)((i % 2 == 0 ? first : second) * reading_limit(levels));
    for (unsigned k = 1; k <= (levels == 2 ? 10 : 6); k++)
        for (int i = 0; i < ALLOWED; i++) {
            for (size_t at = 0; at < ROOM; at++)
                values[at] = (int64_t)REPEATS[i] * readings[at];
            compare_recoveries(levels, k, REPEATS[i]);
            compare_tables(levels, k, REPEATS[i]);
        }
}

static void compare_sides(void)
{
    for (unsigned levels = 0; levels <= 5; levels++)
        for (unsigned k = 0; k <= 11; k++)
            for (int i = 0; i < ALL_REPEATS; i++)
                compare_plan(levels, k, REPEATS[i]);
    compare_about_limits(2, 7, 1);
    compare_about_limits(3, 4, 1);
    compare_about_limits(2, 7, 8);
    compare_about_limits(3, 4, 8);
    compare_about_limits(3, 5, 4);
    for (unsigned levels = 2; levels <= 3; levels++) {
        compare_at_limits(levels, -1, -1);
        compare_at_limits(levels, 1, 1);
        compare_at_limits(levels, 1, -1);
    }
    take_readings();
}

/* ---- the times */

static int64_t now(void)
{
    struct timespec t;
    clock_gettime(CLOCK_MONOTONIC, &t);
    return (int64_t)t.tv_sec * 1000000000 + t.tv_nsec;
}

static uint8_t answers;

/* The columns of totals that the timed recovery calls are given in turn. */
enum { COLUMNS = 128 };
static _Alignas(64) int64_t given_in_turn[COLUMNS][MOST];
static size_t turn_of_given;

/* What is timed: the passes of all factors, the totals, the recovery or the table of a plan. */
enum kind { PASSES, TOTALS, RECOVER, TABLE };
struct timed {
    enum kind kind;
    unsigned levels, k, repeats;
};

static void work(const struct timed *of, int side, size_t n)
{
    if (of->kind == PASSES) {
        memcpy(column, values, n * sizeof *column);
        for (size_t factor = 0; factor < of->k; factor++)
            answers |= passes[side](of->levels, of->k, factor, column, n);
    } else if (of->kind == TOTALS) {
        answers |= totals[side](of->levels, of->k, of->repeats, readings, n * of->repeats, column, n);
    } else if (of->kind == RECOVER) {
        answers |= recovers[side](of->levels, of->k, of->repeats, given_in_turn[turn_of_given++ % COLUMNS], n, back, n);
    } else {
        const size_t rows = (size_t)1 << of->k, lengths[6] = {n * of->repeats, rows, n, rows, FIGURES, CHECKS};
        answers |= call_table(side, of->levels, of->k, of->repeats, lengths);
    }
}

/* Their totals, from the readings in one order each. */
static void take_given(const struct timed *of, size_t n)
{
    static int32_t ordered[MOST];
    for (size_t c = 0; c < COLUMNS; c++) {
        for (size_t i = 0; i < MOST; i++)
            ordered[i] = readings[i * (2 * c + 1) % MOST];
        answers |= totals[RATTLE](of->levels, of->k, of->repeats, ordered, n * of->repeats, given_in_turn[c], n);
    }
}

static int64_t batch(const struct timed *of, int side, size_t n, long turns)
{
    int64_t from = now();
    for (long i = 0; i < turns; i++)
        work(of, side, n);
    return now() - from;
}

/* The time of each side in ns. */
static void measure(const struct timed *of, double ns[SIDES])
{
    size_t n = runs_of(of->levels, of->k);
    if (of->kind == RECOVER)
        take_given(of, n);
    long turns[SIDES];
    int64_t least[SIDES];
    for (int side = 0; side < SIDES; side++) {
        turns[side] = 1;
        while (batch(of, side, n, turns[side]) < BATCH_NS)
            turns[side] *= 2;
        least[side] = INT64_MAX;
    }
    for (int b = 0; b < BATCHES; b++)
        for (int turn = 0; turn < SIDES; turn++) {
            int side = (b + turn) % SIDES;
            int64_t t = batch(of, side, n, turns[side]);
            if (t < least[side])
                least[side] = t;
        }
    for (int side = 0; side < SIDES; side++)
        ns[side] = (double)least[side] / turns[side];
}

int main(void)
{
    static const char *const names[] = {"passes", "totals", "recover", "table"};
    static const struct timed all[] = {{PASSES, 2, 10, 1}, {PASSES, 3, 6, 1},  {TOTALS, 2, 10, 1}, {TOTALS, 3, 6, 1}, {RECOVER, 2, 10, 1},
                                       {RECOVER, 3, 6, 1}, {RECOVER, 2, 7, 8}, {TABLE, 2, 10, 1},  {TABLE, 3, 6, 1},  {TABLE, 2, 7, 8}};

    take_readings();
    compare_sides();
    take_marks(0);
    printf("compared %ld\n", compared);
    for (size_t i = 0; i < sizeof all / sizeof *all; i++) {
        const struct timed *of = &all[i];
        double ns[SIDES];
        measure(of, ns);
        printf("%s %u %u %u %zu %.1f %.1f %.1f\n", names[of->kind], of->levels, of->k, of->repeats, runs_of(of->levels, of->k), ns[RATTLE],
               ns[PLAIN], ns[NATIVE]);
    }
    if (answers != 0) {
        fprintf(stderr, "driver: a timed call was refused\n");
        return 2;
    }
    return 0;
}

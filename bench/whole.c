/* Times whole runs of factab, each as a process, beside the table call of crates/lithgorn_c on the same readings and marks.

     whole PROGRAM EMPTY SHEET..

   EMPTY is a file of no bytes: a run on it is the start and the end of a process. Each SHEET is that of a plan with no added factors, no
   block words and no repeats. A run has its sheet as standard input and writes to /dev/null; its time is from before the process is made until it has
   ended. The sheets take turns, a run and a batch of table calls each, so that other work on the machine falls on all of them.

   Writes how often each sheet was run, and a line for each: levels, k, N, bytes, the best and the median time of a run, and the best and the
   median time of a table call, in microseconds; for EMPTY all but the runs are 0. Exit status: 0, and 2 where a sheet cannot be read or a
   run or a call fails. */
#define _POSIX_C_SOURCE 200809L
#include <fcntl.h>
#include <spawn.h>
#include <stdint.h>
#include <stdio.h>
#include <stdlib.h>
#include <string.h>
#include <sys/wait.h>
#include <time.h>

extern char **environ;

uint8_t anova_table(uint8_t levels, uint8_t k, uint8_t repeats, const int32_t *readings, size_t readings_length, const uint8_t *marks,
                    size_t marks_length, int64_t *totals, size_t totals_length, uint64_t *rows, size_t rows_length, uint64_t *figures,
                    size_t figures_length, int64_t *checks, size_t checks_length);

enum { RUNS = 2000, CALLS = 20, MOST = 1024, LONGEST = 5187, MOST_SHEETS = 8, FIGURES = 11, CHECKS = 2 };

static struct sheet {
    char *path;
    size_t bytes;
    uint8_t levels, k;
    size_t runs, rows;
    int32_t readings[MOST];
    uint8_t marks[MOST];
    double run_times[RUNS], call_times[RUNS];
} sheets[MOST_SHEETS];

static void fail(const char *path, const char *why)
{
    fprintf(stderr, "whole: %s: %s\n", path, why);
    exit(2);
}

/* Field 1 is bytes 0 to 4, the readings begin at byte 8, and after them and three bytes more the marks. */
static void take_sheet(struct sheet *sheet, char *path)
{
    static uint8_t bytes[LONGEST + 1];
    FILE *file = fopen(path, "rb");
    if (file == NULL)
        fail(path, "cannot be opened");
    sheet->path = path;
    sheet->bytes = fread(bytes, 1, sizeof bytes, file);
    fclose(file);
    if (sheet->bytes == 0)
        return;
    sheet->levels = bytes[3];
    sheet->k = bytes[4];
    sheet->runs = sheet->rows = 1;
    for (unsigned f = 0; f < sheet->k && sheet->runs <= MOST; f++) {
        sheet->runs *= sheet->levels;
        sheet->rows *= 2;
    }
    if (sheet->runs > MOST || bytes[5] != 4 || sheet->bytes != 5 + 3 + 4 * sheet->runs + 3 + sheet->rows)
        fail(path, "not a sheet without words and repeats");
    for (size_t i = 0; i < sheet->runs; i++) {
        const uint8_t *at = bytes + 8 + 4 * i;
        sheet->readings[i] = (int32_t)((uint32_t)at[0] << 24 | (uint32_t)at[1] << 16 | (uint32_t)at[2] << 8 | at[3]);
    }
    memcpy(sheet->marks, bytes + sheet->bytes - sheet->rows, sheet->rows);
}

static double now(void)
{
    struct timespec t;
    clock_gettime(CLOCK_MONOTONIC, &t);
    return t.tv_sec * 1e6 + t.tv_nsec * 1e-3;
}

static double time_run(char *program, const struct sheet *sheet)
{
    char *const arguments[] = {program, NULL};
    posix_spawn_file_actions_t actions;
    pid_t child;
    int status;
    posix_spawn_file_actions_init(&actions);
    posix_spawn_file_actions_addopen(&actions, 0, sheet->path, O_RDONLY, 0);
    posix_spawn_file_actions_addopen(&actions, 1, "/dev/null", O_WRONLY, 0);
    double from = now();
    if (posix_spawn(&child, program, &actions, NULL, arguments, environ) != 0 || waitpid(child, &status, 0) != child || status != 0)
        fail(program, "a run failed");
    double time = now() - from;
    posix_spawn_file_actions_destroy(&actions);
    return time;
}

/* The time of one call, from a batch of them. */
static double time_call(const struct sheet *sheet)
{
    static int64_t totals[MOST], checks[CHECKS];
    static uint64_t rows[MOST], figures[FIGURES];
    uint8_t answers = 0;
    double from = now();
    for (int i = 0; i < CALLS; i++)
        answers |= anova_table(sheet->levels, sheet->k, 1, sheet->readings, sheet->runs, sheet->marks, sheet->rows, totals, sheet->runs, rows,
                               sheet->rows, figures, FIGURES, checks, CHECKS);
    double time = (now() - from) / CALLS;
    if (answers != 0)
        fail(sheet->path, "a table call was refused");
    return time;
}

static int rising(const void *a, const void *b)
{
    double x = *(const double *)a, y = *(const double *)b;
    return (x > y) - (x < y);
}

int main(int count, char **arguments)
{
    if (count < 3 || count - 2 > MOST_SHEETS)
        fail("usage", "whole PROGRAM EMPTY SHEET..");
    char *program = arguments[1];
    int n = count - 2;
    for (int s = 0; s < n; s++)
        take_sheet(&sheets[s], arguments[s + 2]);
    for (int i = 0; i < RUNS; i++)
        for (int s = 0; s < n; s++) {
            sheets[s].run_times[i] = time_run(program, &sheets[s]);
            sheets[s].call_times[i] = sheets[s].bytes == 0 ? 0 : time_call(&sheets[s]);
        }
    printf("runs %d\n", RUNS);
    for (int s = 0; s < n; s++) {
        struct sheet *own = &sheets[s];
        qsort(own->run_times, RUNS, sizeof(double), rising);
        qsort(own->call_times, RUNS, sizeof(double), rising);
        printf("%u %u %zu %zu %.2f %.2f %.2f %.2f\n", own->levels, own->k, own->runs, own->bytes, own->run_times[0],
               own->run_times[RUNS / 2], own->call_times[0], own->call_times[RUNS / 2]);
    }
    return 0;
}

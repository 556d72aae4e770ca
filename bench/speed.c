/* Measures every worker on every row of a program's lists.
   speed time    a line for each row and size: nanoseconds of each worker in many turns that alternate between them, what one turn in twenty does not
                 exceed and the median
   speed count   the same work once each, for callgrind: its counts are dumped under the names of the lines
   Fails where two workers give different answers. */
#include <stdio.h>
#include <stdlib.h>
#include <string.h>
#include <time.h>
#include <valgrind/callgrind.h>

#include "../include/hailfeather.h"
#include "work.h"

struct work work;

/* The machine's pace changes, for microseconds and for seconds. Turns are short, so that each worker has some that fall whole into one pace; and a row is not
   measured at one go but in many visits, so that a slow second takes a part of every row and not all of one. The least of so many turns
   differs too much from run to run to be of use; docs/PERFORMANCE.md has by how much. */
static const double TURN = 1e5, VISIT = 2.5e7; /* nanoseconds; work that is longer than a turn makes longer visits, for the least number of turns */
enum { LEAST_TURNS = 6, MOST_TURNS = 150, MEASURED = 64 };

/* Of the processor's time for this program: what other programs take between is not counted. */
static double seconds(void)
{
    struct timespec t;
    clock_gettime(CLOCK_THREAD_CPUTIME_ID, &t);
    return (double)t.tv_sec + 1e-9 * (double)t.tv_nsec;
}

static double nanoseconds(task *run, size_t size, long times)
{
    double from = seconds();
    for (long i = 0; i < times; i++)
        run(size);
    return 1e9 * (seconds() - from) / (double)times;
}

static int ascending(const void *a, const void *b)
{
    double left = *(const double *)a, right = *(const double *)b;
    return (left > right) - (left < right);
}

/* The times of a row's turns. */
static struct timed {
    int turns;
    double ns[WORKERS][VISITS * MOST_TURNS]; /* in ascending order once they are printed */
} timed[MEASURED];

/* How often to run in a turn, by the longest of three runs: one that seemed too short would make a turn without end. A first, which may set things up, does
   not count. */
static long times_of(task *run, size_t size)
{
    double once = 1;
    run(size);
    for (int i = 0; i < 3; i++) {
        double ns = nanoseconds(run, size, 1);
        once = ns > once ? ns : once;
    }
    return once > TURN ? 1 : (long)(TURN / once);
}

static void time_row(const struct row *row, size_t size, struct timed *into)
{
    task *runs[WORKERS] = {NULL};
    long times[WORKERS];
    int count = 0;
    for (; workers[count] != NULL; count++)
        if ((runs[count] = workers[count]->tasks[row->kind]) != NULL)
            times[count] = times_of(runs[count], size);
    double end = seconds() + 1e-9 * VISIT;
    for (int turn = 0; turn < LEAST_TURNS || (turn < MOST_TURNS && seconds() < end); turn++, into->turns++)
        for (int i = 0; i < count; i++) {
            int w = turn % 2 == 0 ? i : count - 1 - i; /* in both orders, so that no one is always first */
            into->ns[w][into->turns] = runs[w] == NULL ? 0 : nanoseconds(runs[w], size, times[w]);
        }
}

static void print_row(const struct row *row, size_t size, struct timed *from)
{
    printf("%s;%zu", row->name, size);
    for (int w = 0; workers[w] != NULL; w++) {
        qsort(from->ns[w], (size_t)from->turns, sizeof(double), ascending);
        printf(";%.1f %.1f", from->ns[w][from->turns / 20], from->ns[w][from->turns / 2]);
    }
    printf("\n");
}

static void count_row(const struct row *row, size_t size, struct timed *unused)
{
    (void)unused;
    for (int w = 0; workers[w] != NULL; w++) {
        task *run = workers[w]->tasks[row->kind];
        if (run == NULL)
            continue;
        char title[128];
        snprintf(title, sizeof title, "%s;%zu;%d", row->name, size, w);
        run(size); /* what is set up on the first call is not counted */
        CALLGRIND_ZERO_STATS;
        run(size);
        CALLGRIND_DUMP_STATS_AT(title);
    }
}

/* Runs all that do the row's work once from the same beginning; fails unless what they write is the same. */
static void compare(const struct row *row, size_t size, struct timed *unused)
{
    (void)unused;
    static struct work before, first;
    before = work;
    for (int w = 0; workers[w] != NULL; w++) {
        task *run = workers[w]->tasks[row->kind];
        if (run == NULL || (workers[w]->aside >> row->kind & 1) != 0)
            continue;
        work = before;
        run(size);
        if (w == 0)
            first = work;
        else if (memcmp(&first, &work, sizeof work) != 0) {
            fprintf(stderr, "%s, %zu: %s answers otherwise\n", row->name, size, workers[w]->name);
            exit(1);
        }
    }
}

/* The text that OPENING opens is what SEALING seals. */
static void prepare(enum kind kind, size_t size)
{
    if (kind == OPENING) {
        workers[0]->tasks[SEALING](size);
        memcpy(work.sealed, work.out, size);
        memcpy(work.seal_tag, work.tag, TAG);
    }
    if (kind == PLAN_READ || kind == PLAN_LOOKUP)
        make_plan(size);
    if (kind == HALL_READ || kind == HALL_LOOKUP)
        make_halls(size);
}

static void fill(void)
{
    for (size_t i = 0; i < MOST; i++)
        work.text[i] = (uint8_t)(7 * i + 3);
    for (size_t i = 0; i < KEY; i++)
        work.key[i] = work.drawing_key[i] = (uint8_t)(0x40 + i);
    memcpy(work.name, "bench 01", NAME), memcpy(work.custom, "plan key", CUSTOM);
    for (int w = 0; workers[w] != NULL; w++)
        if (workers[w]->version != NULL && workers[w]->version() != HF_VERSION) {
            fprintf(stderr, "an archive is of version %u, and include/hailfeather.h of %u\n", workers[w]->version(), HF_VERSION);
            exit(1);
        }
}

/* Does a part of the measuring for every row and size. */
static void each(void (*part)(const struct row *, size_t, struct timed *))
{
    struct timed *of = timed;
    for (const struct row *row = rows; row->name != NULL; row++)
        for (int i = 0; i < SIZES && row->sizes[i] > 0; i++) {
            prepare(row->kind, row->sizes[i]);
            part(row, row->sizes[i], of++);
        }
}

int main(int argc, char **argv)
{
    int timing = argc == 2 && !strcmp(argv[1], "time");
    if (!timing && (argc != 2 || strcmp(argv[1], "count") != 0)) {
        fprintf(stderr, "usage: speed time|count\n");
        return 2;
    }
    fill();
    each(compare);
    if (!timing)
        each(count_row);
    for (int visit = 0; timing && visit < visits; visit++)
        each(time_row);
    if (timing)
        each(print_row);
    return 0;
}

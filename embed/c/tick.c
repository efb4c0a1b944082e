/* A scheduler's tick: of some jobs that must not run together, which start now, at most two at once? */
#include "../dine.h"

#include <stdio.h>

enum { JOBS = 4, MOST = 2, RUNS = 2 };

static const char *const names[JOBS] = { "scan", "fax", "copy", "print" };

/* Starts each job that may run now, as long as fewer than `most` run, and returns how many run. */
static size_t tick(dine *table, dine_task *running, size_t count, size_t most)
{
    while (count < most && dine_who_is_next(table, &running[count])
           && dine_begin(table, running[count]) == DINE_DONE)
        count++;
    return count;
}

/* Opens a table in which all jobs are hungry, and the first two in conflict. */
static int opened(dine *table, dine_task *jobs)
{
    if (dine_start(table, JOBS, 1) != DINE_DONE)
        return 0;
    for (int job = 0; job < JOBS; job++)
        if (dine_join(table, &jobs[job]) != DINE_DONE || dine_hungry(table, jobs[job]) != DINE_DONE)
            return 0;
    return dine_conflict(table, jobs[0], jobs[1]) == DINE_DONE;
}

int main(void)
{
    dine table = DINE_CLOSED;
    dine_task jobs[JOBS], running[MOST];
    int left[JOBS] = { RUNS, RUNS, RUNS, RUNS };
    if (!opened(&table, jobs))
        return 1;
    for (int number = 1;; number++) {
        size_t count = tick(&table, running, 0, MOST);
        if (count == 0)
            break;
        printf("tick %d:", number);
        /* Here each job ends before the next tick. */
        for (size_t at = 0; at < count; at++) {
            uint32_t job = running[at].slot;
            printf(" %s", names[job]);
            dine_finish(&table, running[at]);
            if (--left[job] > 0)
                dine_hungry(&table, running[at]);
        }
        putchar('\n');
    }
    dine_end(&table);
    return 0;
}

/* What a call costs from C, beside a lock and an unlock of a mutex of the same run. Nanoseconds of the least of several
   rounds. With a number as its word, the program fails where a call costs more. */
#include "../dine.h"

#include <pthread.h>
#include <stdio.h>
#include <stdlib.h>
#include <time.h>

enum { ROUNDS = 7, MEALS = 1000000 };

static double now(void)
{
    struct timespec t;
    clock_gettime(CLOCK_PROCESS_CPUTIME_ID, &t);
    return (double)t.tv_sec * 1e9 + (double)t.tv_nsec;
}

static double a_call(dine *d, dine_task task)
{
    dine_task newcomer;
    unsigned refused = 0;
    double start = now();
    for (int i = 0; i < MEALS; i++) {
        refused += dine_act(d, DINE_HUNGRY, &task, &task, &newcomer);
        refused += dine_act(d, DINE_BEGIN, &task, &task, &newcomer);
        refused += dine_act(d, DINE_FINISH, &task, &task, &newcomer);
    }
    return refused ? -1 : (now() - start) / (3.0 * MEALS);
}

static double a_lock(pthread_mutex_t *lock)
{
    double start = now();
    for (int i = 0; i < 3 * MEALS; i++) {
        pthread_mutex_lock(lock);
        pthread_mutex_unlock(lock);
    }
    return (now() - start) / (3.0 * MEALS);
}

int main(int words, char **word)
{
    pthread_mutex_t lock = PTHREAD_MUTEX_INITIALIZER;
    dine d = DINE_CLOSED;
    dine_task alone, ends[2];
    double least[3] = { 1e9, 1e9, 1e9 };
    if (dine_start(&d, 64, 256) != DINE_DONE)
        return 1;
    dine_join(&d, &alone);
    for (int i = 0; i < 2; i++)
        dine_join(&d, &ends[i]);
    dine_conflict(&d, ends[0], ends[1]);
    for (int i = 0; i < ROUNDS; i++) {
        double took[3] = { a_call(&d, alone), a_call(&d, ends[0]), a_lock(&lock) };
        for (int k = 0; k < 3; k++)
            least[k] = took[k] < least[k] ? took[k] : least[k];
    }
    dine_end(&d);
    printf("dine_act, a task alone         %6.1f ns a call\n", least[0]);
    printf("dine_act, a task of one edge   %6.1f ns a call\n", least[1]);
    printf("mutex, lock and unlock         %6.1f ns\n", least[2]);
    return least[0] < 0 || (words > 1 && least[0] > strtod(word[1], NULL));
}

/* Threads that take turns: a broker in C, with a time at which a wait ends. */
#include "../dine.h"

#include <pthread.h>
#include <stdio.h>
#include <time.h>

enum { THREADS = 4, MEALS = 500 };

struct broker {
    dine table;
    pthread_mutex_t lock;
    pthread_cond_t turned;
};

/* Waits for the turn of a thinking task, until a time: DINE_DONE if it eats now, DINE_NOT_YET if it thinks again. */
static uint32_t begin_until(struct broker *b, dine_task task, const struct timespec *end)
{
    pthread_mutex_lock(&b->lock);
    uint32_t answer = dine_hungry(&b->table, task);
    if (answer == DINE_DONE) {
        int late = 0;
        while ((answer = dine_begin(&b->table, task)) == DINE_NOT_YET && !late)
            late = pthread_cond_timedwait(&b->turned, &b->lock, end);
        if (answer == DINE_NOT_YET) {
            dine_withdraw(&b->table, task);
            pthread_cond_broadcast(&b->turned);
        }
    }
    pthread_mutex_unlock(&b->lock);
    return answer;
}

/* Ends a meal. The waiting threads try again. */
static void finish(struct broker *b, dine_task task)
{
    pthread_mutex_lock(&b->lock);
    dine_finish(&b->table, task);
    pthread_cond_broadcast(&b->turned);
    pthread_mutex_unlock(&b->lock);
}

static struct broker shared = { DINE_CLOSED, PTHREAD_MUTEX_INITIALIZER, PTHREAD_COND_INITIALIZER };
static dine_task tasks[THREADS];
static struct timespec later, past;
/* Only the task that eats writes it. */
static unsigned meals;

static void *eater(void *task)
{
    for (int meal = 0; meal < MEALS; meal++)
        if (begin_until(&shared, *(dine_task *)task, &later) == DINE_DONE) {
            meals++;
            finish(&shared, *(dine_task *)task);
        }
    return NULL;
}

int main(void)
{
    pthread_t threads[THREADS];
    clock_gettime(CLOCK_REALTIME, &later);
    later.tv_sec += 60;
    dine_start(&shared.table, THREADS, THREADS * (THREADS - 1) / 2);
    for (int at = 0; at < THREADS; at++) {
        dine_join(&shared.table, &tasks[at]);
        for (int other = 0; other < at; other++)
            dine_conflict(&shared.table, tasks[other], tasks[at]);
    }
    for (int at = 0; at < THREADS; at++)
        pthread_create(&threads[at], NULL, eater, &tasks[at]);
    for (int at = 0; at < THREADS; at++)
        pthread_join(threads[at], NULL);
    printf("%u meals\n", meals);

    begin_until(&shared, tasks[0], &later);
    printf("the first eats, and the second gets %u, not yet\n", (unsigned)begin_until(&shared, tasks[1], &past));
    finish(&shared, tasks[0]);
    printf("then it gets %u\n", (unsigned)begin_until(&shared, tasks[1], &past));
    dine_end(&shared.table);
    return 0;
}

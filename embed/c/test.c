/* The library by its header: each call once, each test that the header makes, and eight threads under one lock. */
#include "../dine.h"

#include <pthread.h>
#include <stdio.h>
#include <stdlib.h>

#define CHECK(holds)                                                       \
    do {                                                                   \
        checks++;                                                          \
        if (!(holds)) {                                                    \
            fprintf(stderr, "%s:%d: %s\n", __FILE__, __LINE__, #holds);    \
            exit(1);                                                       \
        }                                                                  \
    } while (0)

enum { THREADS = 8, MEALS = 2000 };

static unsigned checks;
static const dine_task nobody = { 4000, 7 };

static void opens_and_closes(void)
{
    dine d = DINE_CLOSED;
    dine_task a = { 11, 12 };
    CHECK(dine_start(NULL, 1, 1) == DINE_BAD_HANDLE);
    CHECK(dine_start(&d, 0, 1) == DINE_OUT_OF_RANGE && !d.address);
    CHECK(dine_start(&d, 4097, 1) == DINE_OUT_OF_RANGE && !d.address);
    CHECK(dine_start(&d, 1, 0) == DINE_OUT_OF_RANGE && !d.address);
    CHECK(dine_start(&d, 1, 65536) == DINE_OUT_OF_RANGE && !d.address);
    CHECK(dine_join(&d, &a) == DINE_BAD_HANDLE && a.slot == 11 && a.born == 12);
    CHECK(dine_would(&d, DINE_JOIN, a, a) == DINE_BAD_HANDLE && dine_state_of(&d, a) == DINE_BAD_HANDLE);
    CHECK(!dine_may_begin(&d, a) && !dine_who_is_next(&d, &a));
    CHECK(dine_start(&d, 4096, 65535) == DINE_DONE && d.address);
    CHECK(dine_start(&d, 1, 1) == DINE_BAD_HANDLE && d.address);
    dine_end(&d);
    CHECK(!d.address && dine_join(&d, &a) == DINE_BAD_HANDLE);
    dine_end(&d);
    dine_end(NULL);
}

static void refuses_by_number(void)
{
    dine d = DINE_CLOSED;
    dine_task a, b, c, kept = { 1, 2 };
    CHECK(dine_start(&d, 3, 1) == DINE_DONE);
    CHECK(dine_join(&d, &a) == DINE_DONE && dine_join(&d, &b) == DINE_DONE && dine_join(&d, &c) == DINE_DONE);
    CHECK(a.slot == 0 && a.born == 0 && b.slot == 1 && b.born == 1 && c.slot == 2 && c.born == 2);
    CHECK(dine_call(&d, DINE_JOIN, a, a, &kept) == DINE_FULL && kept.slot == 1 && kept.born == 2);
    CHECK(dine_hungry(&d, nobody) == DINE_UNKNOWN);
    CHECK(dine_conflict(&d, a, a) == DINE_SAME);
    CHECK(dine_separate(&d, a, b) == DINE_APART);
    CHECK(dine_has_room(&d));
    CHECK(dine_conflict(&d, a, b) == DINE_DONE && dine_conflict(&d, b, a) == DINE_ALREADY);
    CHECK(!dine_has_room(&d));
    CHECK(dine_conflict(&d, b, c) == DINE_NO_ROOM);
    CHECK(dine_begin(&d, a) == DINE_WRONG_STATE);
    CHECK(dine_hungry(&d, a) == DINE_DONE && dine_begin(&d, a) == DINE_DONE);
    CHECK(dine_hungry(&d, c) == DINE_DONE && dine_begin(&d, c) == DINE_DONE);
    CHECK(dine_conflict(&d, a, c) == DINE_BOTH_EATING);
    CHECK(dine_hungry(&d, b) == DINE_DONE && dine_begin(&d, b) == DINE_NOT_YET);
    CHECK(dine_call(&d, 0, a, b, NULL) == DINE_NO_SUCH_CALL && dine_call(&d, 9, a, b, NULL) == DINE_NO_SUCH_CALL);
    CHECK(dine_would(&d, 77, a, b) == DINE_NO_SUCH_CALL);
    dine_end(&d);
}

static void tells_what_is_so(void)
{
    dine d = DINE_CLOSED;
    dine_task a, b, next = nobody, found[2] = { nobody, nobody };
    size_t count = 0;
    uint32_t tasks = 0, conflicts = 0;
    CHECK(dine_start(&d, 64, 256) == DINE_DONE);
    dine_limits(&d, &tasks, &conflicts);
    CHECK(tasks == 64 && conflicts == 256);
    CHECK(dine_join(&d, &a) == DINE_DONE && dine_join(&d, &b) == DINE_DONE && dine_conflict(&d, a, b) == DINE_DONE);
    CHECK(dine_clock(&d) == 2 && dine_messages(&d) == 0);
    CHECK(dine_state_of(&d, a) == DINE_IS_THINKING && dine_state_of(&d, nobody) == DINE_IS_ABSENT);
    CHECK(!dine_who_is_next(&d, &next) && next.slot == nobody.slot && next.born == nobody.born);
    CHECK(dine_would(&d, DINE_HUNGRY, b, b) == DINE_DONE && dine_state_of(&d, b) == DINE_IS_THINKING);
    CHECK(dine_hungry(&d, b) == DINE_DONE && dine_state_of(&d, b) == DINE_IS_HUNGRY);
    CHECK(dine_may_begin(&d, b) && dine_who_is_next(&d, &next) && next.slot == b.slot && next.born == b.born);
    CHECK(dine_begin(&d, b) == DINE_DONE && dine_state_of(&d, b) == DINE_IS_EATING);
    CHECK(dine_hungry(&d, a) == DINE_DONE && !dine_may_begin(&d, a) && !dine_who_is_next(&d, &next));
    CHECK(dine_neighbours_of(&d, a, found, 2, &count) == DINE_DONE && count == 1);
    CHECK(found[0].slot == b.slot && found[0].born == b.born && found[1].slot == nobody.slot);
    CHECK(dine_neighbours_of(&d, a, NULL, 2, &count) == DINE_NO_SPACE && count == 1);
    CHECK(dine_neighbours_of(&d, nobody, found, 2, NULL) == DINE_UNKNOWN);
    CHECK(dine_blockers_of(&d, nobody, found, 2, NULL) == DINE_UNKNOWN && dine_blockers_of(&d, a, NULL, 2, &count) == DINE_NO_SPACE);
    found[0] = nobody;
    CHECK(dine_blockers_of(&d, a, found, 2, &count) == DINE_DONE && count == 1 && found[0].slot == b.slot && found[0].born == b.born);
    CHECK(dine_blockers_of(&d, b, found, 2, &count) == DINE_DONE && count == 0);
    CHECK(dine_who_is_ready(&d, NULL, 0, &count) == DINE_DONE && count == 0);
    CHECK(dine_withdraw(&d, a) == DINE_DONE && dine_state_of(&d, a) == DINE_IS_THINKING);
    CHECK(dine_finish(&d, b) == DINE_DONE && dine_clock(&d) == 3);
    CHECK(dine_hungry(&d, b) == DINE_DONE && dine_who_is_ready(&d, NULL, 2, &count) == DINE_NO_SPACE && count == 1);
    CHECK(dine_who_is_ready(&d, found, 2, NULL) == DINE_DONE && found[0].slot == b.slot && found[0].born == b.born);
    CHECK(dine_withdraw(&d, b) == DINE_DONE);
    CHECK(dine_separate(&d, b, a) == DINE_DONE && dine_leave(&d, a) == DINE_DONE && dine_leave(&d, a) == DINE_UNKNOWN);
    dine_end(&d);
}

/* ---- eight threads on a ring, under a lock of the program's own */

static dine ring = DINE_CLOSED;
static dine_task seats[THREADS];
static int eats[THREADS];
static unsigned clashes;
static pthread_mutex_t lock = PTHREAD_MUTEX_INITIALIZER;
static pthread_cond_t turned = PTHREAD_COND_INITIALIZER;

static void *eat_often(void *seat)
{
    int i = *(int *)seat;
    for (int meal = 0; meal < MEALS; meal++) {
        pthread_mutex_lock(&lock);
        dine_hungry(&ring, seats[i]);
        while (dine_begin(&ring, seats[i]) == DINE_NOT_YET)
            pthread_cond_wait(&turned, &lock);
        pthread_mutex_unlock(&lock);

        __atomic_store_n(&eats[i], 1, __ATOMIC_SEQ_CST);
        if (__atomic_load_n(&eats[(i + 1) % THREADS], __ATOMIC_SEQ_CST) || __atomic_load_n(&eats[(i + THREADS - 1) % THREADS], __ATOMIC_SEQ_CST))
            __atomic_fetch_add(&clashes, 1, __ATOMIC_SEQ_CST);
        __atomic_store_n(&eats[i], 0, __ATOMIC_SEQ_CST);

        pthread_mutex_lock(&lock);
        dine_finish(&ring, seats[i]);
        pthread_cond_broadcast(&turned);
        pthread_mutex_unlock(&lock);
    }
    return NULL;
}

static void lets_eight_threads_eat(void)
{
    pthread_t threads[THREADS];
    int numbers[THREADS];
    CHECK(dine_start(&ring, THREADS, THREADS) == DINE_DONE);
    for (int i = 0; i < THREADS; i++)
        CHECK(dine_join(&ring, &seats[i]) == DINE_DONE);
    for (int i = 0; i < THREADS; i++)
        CHECK(dine_conflict(&ring, seats[i], seats[(i + 1) % THREADS]) == DINE_DONE);
    for (int i = 0; i < THREADS; i++) {
        numbers[i] = i;
        CHECK(pthread_create(&threads[i], NULL, eat_often, &numbers[i]) == 0);
    }
    for (int i = 0; i < THREADS; i++)
        pthread_join(threads[i], NULL);
    CHECK(clashes == 0);
    CHECK(dine_clock(&ring) == THREADS + (uint64_t)THREADS * MEALS);
    dine_end(&ring);
}

int main(void)
{
    opens_and_closes();
    refuses_by_number();
    tells_what_is_so();
    lets_eight_threads_eat();
    printf("%u checks hold\n", checks);
    return 0;
}

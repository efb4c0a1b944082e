/*
 * The dining arbiter, for C and for whatever calls C.
 *
 * It says which of some tasks may work now. Two tasks in conflict never eat (work) at the same time, they take turns, and
 * conflicts come and go. What it answers is proved; README.md and docs/SPEC.md of the repository say it whole.
 *
 * Two ways to call it:
 *
 *   - dine_start, dine_join .. dine_withdraw, dine_state_of .. and dine_end test the handle, and answer DINE_BAD_HANDLE (or
 *     false, or nothing) where it is null, or closed where it has to be open. They are compiled into the caller.
 *   - dine_open, dine_act, dine_ask .. dine_close are the library's own calls. They test everything but the handle and the
 *     pointers, since they can't.
 *
 * What the caller keeps, for the library's own calls:
 *
 *   - A handle is closed when dine_open is called, and open for all else. `dine d = DINE_CLOSED;` is closed; dine_open opens
 *     it where it answers DINE_DONE, and dine_close closes it. A handle is neither copied nor written by the caller.
 *   - No pointer is null, and each is to what its type says. What is written to (`newcomer`, `next`, `tasks`, `conflicts`, the
 *     handle) is not reached by another argument.
 *   - One call at a time is on a handle. Threads share one under a lock of the program's own. Different handles have nothing in
 *     common.
 *   - No call is made from a signal handler, or in the child of a fork of a program with threads.
 *   - malloc, realloc and free are of one allocator, and align a block to 16.
 *
 * dine_open takes all memory and dine_close gives it back; dine_neighbours, dine_blockers and dine_ready take some and give it
 * back at once.
 */
#ifndef DINE_H
#define DINE_H

#include <stdbool.h>
#include <stddef.h>
#include <stdint.h>

#ifdef __cplusplus
extern "C" {
#endif

/* An arbiter, or none. */
typedef struct dine {
    void *address;
} dine;

#define DINE_CLOSED { 0 }

/* The name of a task: its seat, from 0 to 4,095, and the clock just before it joined. It is never given again. */
typedef struct dine_task {
    uint32_t slot;
    uint64_t born;
} dine_task;

/* What can be asked. A task thinks, grows hungry, eats when it may, and thinks again. */
enum dine_call {
    DINE_JOIN = 1,     /* a new task joins, thinking */
    DINE_LEAVE = 2,    /* a thinking task leaves, and its conflicts go with it */
    DINE_CONFLICT = 3, /* from now on the two tasks never eat at the same time */
    DINE_SEPARATE = 4, /* the two tasks may eat at the same time again */
    DINE_HUNGRY = 5,   /* a thinking task wants to eat */
    DINE_BEGIN = 6,    /* a hungry task begins to eat */
    DINE_FINISH = 7,   /* an eating task thinks again */
    DINE_WITHDRAW = 8  /* a hungry task thinks again, without a meal */
};

/* What is answered. From 1 to 9 a call is refused, and nothing is changed. */
enum dine_answer {
    DINE_DONE = 0,           /* the call was carried out */
    DINE_FULL = 1,           /* as many tasks are present as the limits allow */
    DINE_UNKNOWN = 2,        /* a named task isn't present */
    DINE_SAME = 3,           /* both names are the same */
    DINE_ALREADY = 4,        /* the conflict stands already */
    DINE_APART = 5,          /* there is no such conflict */
    DINE_BOTH_EATING = 6,    /* both tasks eat, so it is too late for a conflict between them */
    DINE_NO_ROOM = 7,        /* as many conflicts stand as the limits allow */
    DINE_WRONG_STATE = 8,    /* the task isn't in the state that the call needs; dine_state tells its state */
    DINE_NOT_YET = 9,        /* a neighbour eats, or a hungry one ate longer ago: try again after some finish */
    DINE_NO_SUCH_CALL = 100, /* no call has this number */
    DINE_CLOCK_ENDED = 101,  /* 2^64 - 1 joins and finishes were accepted */
    DINE_OUT_OF_RANGE = 102, /* the limits are out of their ranges */
    DINE_NO_MEMORY = 103,    /* there is no memory for an arbiter */
    DINE_BAD_HANDLE = 104,   /* said by this header alone: the handle is null, closed, or open at dine_start */
    DINE_NO_SPACE = 105      /* `found` is too short */
};

/* The states that dine_state answers. */
enum dine_task_state {
    DINE_IS_ABSENT = 0,
    DINE_IS_THINKING = 1,
    DINE_IS_HUNGRY = 2,
    DINE_IS_EATING = 3
};

/* ---- the library's own calls */

/* Opens an arbiter for 1 to 4,096 tasks and 1 to 65,535 conflicts at once: DINE_DONE; else DINE_OUT_OF_RANGE or
   DINE_NO_MEMORY, and the handle stays closed. */
uint32_t dine_open(uint32_t tasks, uint32_t conflicts, dine *d);

/* Makes a call, by its number. A join reads neither task, and writes the new task's name to `newcomer`, which no other call
   writes. DINE_CONFLICT and DINE_SEPARATE read both tasks, the others the first one. */
uint32_t dine_act(dine *d, uint32_t call, const dine_task *first, const dine_task *second, dine_task *newcomer);

/* What dine_act would answer now. Nothing is changed. */
uint32_t dine_ask(dine *d, uint32_t call, const dine_task *first, const dine_task *second);

/* The state of a task: an enum dine_task_state. */
uint32_t dine_state(dine *d, const dine_task *task);

/* Whether the task is hungry, and its begin would be accepted. */
bool dine_is_ready(dine *d, const dine_task *task);

/* Writes the ready task whose last meal is the earliest, and answers whether there is one. */
bool dine_next_ready(dine *d, dine_task *next);

/* Writes the tasks that a task is in conflict with to `found`, which has room for `room` of them, in the order in which the
   conflicts were declared, and how many there are to `count`: DINE_DONE. Else DINE_UNKNOWN, DINE_NO_MEMORY, or DINE_NO_SPACE where
   there are more than `room`; of these only the last writes the count. `found` isn't null, also where `room` is 0. */
uint32_t dine_neighbours(dine *d, const dine_task *task, dine_task *found, size_t room, size_t *count);

/* As dine_neighbours, those of these for which a hungry task waits: who eats, and who is hungry with an earlier last meal. There
   are none for a task that isn't hungry, or that may begin. */
uint32_t dine_blockers(dine *d, const dine_task *task, dine_task *found, size_t room, size_t *count);

/* As dine_neighbours, all ready tasks, the one with the earliest last meal first. It doesn't answer DINE_UNKNOWN. */
uint32_t dine_ready(dine *d, dine_task *found, size_t room, size_t *count);

/* Whether one more conflict has room. */
bool dine_has_room(dine *d);

/* How many joins and finishes were accepted. */
uint64_t dine_clock(dine *d);

/* How many messages between neighbours the last call of dine_act took that was accepted or refused: 0 if it was refused. */
uint32_t dine_messages(dine *d);

/* Writes the limits that dine_open was given. */
void dine_limits(dine *d, uint32_t *tasks, uint32_t *conflicts);

/* Gives the memory back. The handle is closed from then on, at null. */
void dine_close(dine *d);

/* ---- the same calls, with the handle tested */

static inline bool dine_is_open(const dine *d)
{
    return d && d->address;
}

static inline uint32_t dine_start(dine *d, uint32_t tasks, uint32_t conflicts)
{
    return !d || d->address ? (uint32_t)DINE_BAD_HANDLE : dine_open(tasks, conflicts, d);
}

/* Makes a call. `newcomer` may be null. */
static inline uint32_t dine_call(dine *d, uint32_t call, dine_task first, dine_task second, dine_task *newcomer)
{
    dine_task joined = { 0, 0 };
    uint32_t answer;
    if (!dine_is_open(d))
        return DINE_BAD_HANDLE;
    answer = dine_act(d, call, &first, &second, &joined);
    if (call == DINE_JOIN && answer == DINE_DONE && newcomer)
        *newcomer = joined;
    return answer;
}

static inline uint32_t dine_join(dine *d, dine_task *newcomer)
{
    dine_task none = { 0, 0 };
    return dine_call(d, DINE_JOIN, none, none, newcomer);
}

static inline uint32_t dine_leave(dine *d, dine_task task)
{
    return dine_call(d, DINE_LEAVE, task, task, NULL);
}

static inline uint32_t dine_conflict(dine *d, dine_task first, dine_task second)
{
    return dine_call(d, DINE_CONFLICT, first, second, NULL);
}

static inline uint32_t dine_separate(dine *d, dine_task first, dine_task second)
{
    return dine_call(d, DINE_SEPARATE, first, second, NULL);
}

static inline uint32_t dine_hungry(dine *d, dine_task task)
{
    return dine_call(d, DINE_HUNGRY, task, task, NULL);
}

static inline uint32_t dine_begin(dine *d, dine_task task)
{
    return dine_call(d, DINE_BEGIN, task, task, NULL);
}

static inline uint32_t dine_finish(dine *d, dine_task task)
{
    return dine_call(d, DINE_FINISH, task, task, NULL);
}

static inline uint32_t dine_withdraw(dine *d, dine_task task)
{
    return dine_call(d, DINE_WITHDRAW, task, task, NULL);
}

static inline uint32_t dine_would(dine *d, uint32_t call, dine_task first, dine_task second)
{
    return dine_is_open(d) ? dine_ask(d, call, &first, &second) : (uint32_t)DINE_BAD_HANDLE;
}

static inline uint32_t dine_state_of(dine *d, dine_task task)
{
    return dine_is_open(d) ? dine_state(d, &task) : (uint32_t)DINE_BAD_HANDLE;
}

static inline bool dine_may_begin(dine *d, dine_task task)
{
    return dine_is_open(d) && dine_is_ready(d, &task);
}

static inline bool dine_who_is_next(dine *d, dine_task *next)
{
    return dine_is_open(d) && next && dine_next_ready(d, next);
}

/* `found` may be null, for no room, and so may `count`: here and in the next two. */
static inline uint32_t dine_neighbours_of(dine *d, dine_task task, dine_task *found, size_t room, size_t *count)
{
    dine_task none = { 0, 0 };
    size_t unread = 0;
    return dine_is_open(d) ? dine_neighbours(d, &task, found ? found : &none, found ? room : 0, count ? count : &unread)
                           : (uint32_t)DINE_BAD_HANDLE;
}

static inline uint32_t dine_blockers_of(dine *d, dine_task task, dine_task *found, size_t room, size_t *count)
{
    dine_task none = { 0, 0 };
    size_t unread = 0;
    return dine_is_open(d) ? dine_blockers(d, &task, found ? found : &none, found ? room : 0, count ? count : &unread)
                           : (uint32_t)DINE_BAD_HANDLE;
}

static inline uint32_t dine_who_is_ready(dine *d, dine_task *found, size_t room, size_t *count)
{
    dine_task none = { 0, 0 };
    size_t unread = 0;
    return dine_is_open(d) ? dine_ready(d, found ? found : &none, found ? room : 0, count ? count : &unread)
                           : (uint32_t)DINE_BAD_HANDLE;
}

/* Closes an open handle, and passes over any other. */
static inline void dine_end(dine *d)
{
    if (dine_is_open(d))
        dine_close(d);
}

#ifdef __cplusplus
}
#endif

#endif

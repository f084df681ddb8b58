/* The transactions of four threads, a session with a context each, behind one mutex of the program's own. Each session waits for a condition variable of
   its own, and for so long as it has patience. A deadlock ends one of the transactions, which is begun again, and a thread kills another one's wait. */
#include "gaz_one.h"

#include <errno.h>
#include <pthread.h>
#include <stdint.h>
#include <stdio.h>
#include <string.h>
#include <time.h>

#define NAME(text) (const uint8_t *)(text), strlen(text)
#define TABLE(name) GAZ_TABLE, NAME("shop"), NAME(name)

enum { THREADS = 4, ROUNDS = 2000, LONG = 60000, SHORT = 10 }; /* the last two are milliseconds */

static struct gaz_one_space space = GAZ_ONE_SPACE_INIT;
static pthread_mutex_t guard = PTHREAD_MUTEX_INITIALIZER; /* held round each call */
static pthread_cond_t turns[THREADS];                     /* the session's wait is settled */
static unsigned counted, wrong;                           /* guarded by the locks alone */

/* The time in so many milliseconds, by the clock of the condition variables. */
static struct timespec in(long milliseconds)
{
    struct timespec at;
    clock_gettime(CLOCK_MONOTONIC, &at);
    at.tv_sec += milliseconds / 1000;
    at.tv_nsec += milliseconds % 1000 * 1000000;
    if (at.tv_nsec >= 1000000000) {
        at.tv_sec += 1;
        at.tv_nsec -= 1000000000;
    }
    return at;
}

/* Wakes the sessions whose waits are settled. The mutex is held. */
static void wake(void)
{
    uint16_t sessions[THREADS] = {0};
    size_t count = 0;
    gaz_one_settled(&space, sessions, THREADS, &count);
    for (size_t at = 0; at < count; at += 1)
        pthread_cond_signal(&turns[sessions[at] - 1]);
}

/* Gets a lock of a table for the transaction, and waits for so many milliseconds. */
static uint32_t acquire(uint16_t who, const char *table, uint8_t mode, long patience, uint64_t *ticket)
{
    struct timespec until = in(patience);
    pthread_mutex_lock(&guard);
    uint32_t code = gaz_one_acquire(&space, who, TABLE(table), mode, GAZ_TRANSACTION, ticket);
    wake(); /* the victims of its searches, also if memory ran out */
    if (code == GAZ_WAITING) {
        while (gaz_one_poll(&space, who) == GAZ_WAITING)
            if (pthread_cond_timedwait(&turns[who - 1], &guard, &until) == ETIMEDOUT)
                gaz_one_time_out(&space, who);
        code = gaz_one_resume(&space, who, ticket);
        wake(); /* the end of a lost wait makes way */
    }
    pthread_mutex_unlock(&guard);
    return code;
}

static void end_transaction(uint16_t who)
{
    pthread_mutex_lock(&guard);
    gaz_one_end_transaction(&space, who);
    wake();
    pthread_mutex_unlock(&guard);
}

/* Counts under the locks of both tables, which are taken in one order or the other. */
static uint32_t count(uint16_t who, unsigned round)
{
    static const char *const tables[] = {"orders", "items"};
    unsigned turn = (who + round) % 2;
    uint64_t ticket = 0;
    uint32_t code = acquire(who, tables[turn], GAZ_SNRW, LONG, &ticket);
    if (code == GAZ_DONE)
        code = acquire(who, tables[1 - turn], GAZ_X, LONG, &ticket);
    if (code == GAZ_DONE)
        counted += 1;
    end_transaction(who);
    return code;
}

static void *work(void *argument)
{
    uint16_t who = (uint16_t)(uintptr_t)argument;
    for (unsigned round = 0; round < ROUNDS; round += 1) {
        uint32_t code;
        while ((code = count(who, round)) == GAZ_VICTIM)
            ;
        if (code != GAZ_DONE)
            return &wrong;
    }
    return NULL;
}

/* Ends the wait of session 2, once it has one. */
static void *kill_second(void *argument)
{
    uint64_t number = 0;
    uint32_t code = GAZ_NOT_KILLED;
    while (code != GAZ_DONE) {
        nanosleep(&(struct timespec){0, 1000000}, NULL);
        pthread_mutex_lock(&guard);
        if (gaz_one_wait_of(&space, 2, &number) == GAZ_DONE)
            code = gaz_one_kill(&space, 2, number);
        wake();
        pthread_mutex_unlock(&guard);
    }
    return argument;
}

static int open_all(void)
{
    pthread_condattr_t by_clock;
    if (pthread_condattr_init(&by_clock) != 0 || pthread_condattr_setclock(&by_clock, CLOCK_MONOTONIC) != 0)
        return 0;
    if (gaz_one_open(&space, 256, THREADS) != GAZ_DONE)
        return 0;
    for (uint16_t who = 1; who <= THREADS; who += 1)
        if (pthread_cond_init(&turns[who - 1], &by_clock) != 0 || gaz_one_context_begin(&space, who) != GAZ_DONE)
            return 0;
    return 1;
}

int main(void)
{
    pthread_t threads[THREADS], killer;
    void *fault = NULL;
    uint64_t ticket = 0;
    if (!open_all())
        return 1;
    for (uintptr_t who = 1; who <= THREADS; who += 1)
        if (pthread_create(&threads[who - 1], NULL, work, (void *)who) != 0)
            return 1;
    for (unsigned at = 0; at < THREADS; at += 1)
        if (pthread_join(threads[at], &fault) != 0 || fault != NULL)
            return 1;
    printf("counted: %u\n", counted);
    printf("1 changes orders: %u\n", acquire(1, "orders", GAZ_X, LONG, &ticket));
    printf("2 waits for it for a while: %u\n", acquire(2, "orders", GAZ_SR, SHORT, &ticket));
    if (pthread_create(&killer, NULL, kill_second, NULL) != 0)
        return 1;
    printf("2 waits, and is killed: %u\n", acquire(2, "orders", GAZ_SR, LONG, &ticket));
    pthread_join(killer, NULL);
    end_transaction(1);
    printf("2 reads it: %u\n", acquire(2, "orders", GAZ_SR, SHORT, &ticket));
    printf("the manager goes: %u\n", gaz_one_close(&space));
    return 0;
}

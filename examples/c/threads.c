/* The same as waiting.c without contexts: the locks of four threads, a session each, behind one mutex of the program's own. Each session waits for a
   condition variable of its own, and for so long as it has patience. */
#include "gaz_one.h"

#include <errno.h>
#include <pthread.h>
#include <stdint.h>
#include <stdio.h>
#include <string.h>
#include <time.h>

#define NAME(text) (const uint8_t *)(text), strlen(text)

enum { THREADS = 4, ROUNDS = 2000, LONG = 60000, SHORT = 10 }; /* the last two are milliseconds */

static struct gaz_one_space space = GAZ_ONE_SPACE_INIT;
static pthread_mutex_t guard = PTHREAD_MUTEX_INITIALIZER; /* held round each call */
static pthread_cond_t turns[THREADS];                     /* the session's wait is settled */
static uint16_t places[2];
static unsigned done, victims, inside, overlaps; /* the last two are guarded by the locks alone */

/* The time in so many milliseconds, by the clock of the condition variables. */
static struct timespec in(long milliseconds)
{
    struct timespec at;
    clock_gettime(CLOCK_MONOTONIC, &at);
    at.tv_sec += milliseconds / 1000;
    at.tv_nsec += milliseconds % 1000 * 1000000;
    if (at.tv_nsec >= 1000000000) {
        at.tv_sec += 1;
        at.tv_nsec -= 1000000000;
    }
    return at;
}

/* Wakes the sessions whose waits are settled. The mutex is held. */
static void wake(void)
{
    uint16_t sessions[THREADS] = {0};
    size_t count = 0;
    gaz_one_settled(&space, sessions, THREADS, &count);
    for (size_t at = 0; at < count; at += 1)
        pthread_cond_signal(&turns[sessions[at] - 1]);
}

/* Waits until the session's wait is settled, and ends it. Whoever begins to wait looks for the deadlocks that this makes. The mutex is held, but not
   while the thread sleeps. */
static uint32_t finish(uint16_t who, long patience, uint64_t *ticket)
{
    struct timespec until = in(patience);
    uint16_t victim = 0;
    uint32_t found;
    while ((found = gaz_one_search(&space, who, &victim)) == GAZ_VICTIM && victim != who)
        ;
    if (found == GAZ_NO_MEMORY)
        gaz_one_time_out(&space, who); /* a deadlock may be left: the wait is given up */
    wake(); /* a victim has to learn of it */
    while (gaz_one_poll(&space, who) == GAZ_WAITING)
        if (pthread_cond_timedwait(&turns[who - 1], &guard, &until) == ETIMEDOUT)
            gaz_one_time_out(&space, who);
    uint32_t code = gaz_one_end(&space, who, ticket);
    wake(); /* the end of a lost wait makes way */
    return code == GAZ_TIMEOUT && found == GAZ_NO_MEMORY ? found : code;
}

static uint32_t lock(uint16_t who, uint16_t place, uint8_t mode, long patience, uint64_t *ticket)
{
    pthread_mutex_lock(&guard);
    uint32_t code = gaz_one_begin(&space, who, place, mode, ticket);
    if (code == GAZ_WAITING)
        code = finish(who, patience, ticket);
    pthread_mutex_unlock(&guard);
    return code;
}

static void unlock(uint16_t who, uint64_t ticket)
{
    pthread_mutex_lock(&guard);
    gaz_one_release(&space, who, ticket);
    wake();
    pthread_mutex_unlock(&guard);
}

static void count(unsigned *counter)
{
    pthread_mutex_lock(&guard);
    *counter += 1;
    pthread_mutex_unlock(&guard);
}

/* Locks both tables in one order or the other, so that deadlocks come all the time. */
static void *work(void *argument)
{
    uint16_t who = (uint16_t)(uintptr_t)argument;
    for (unsigned round = 0; round < ROUNDS; round += 1) {
        unsigned turn = (who + round) % 2;
        uint64_t first = 0, second = 0;
        if (lock(who, places[turn], GAZ_SNRW, LONG, &first) != GAZ_DONE) {
            count(&victims);
            continue;
        }
        if (lock(who, places[1 - turn], GAZ_X, LONG, &second) == GAZ_DONE) {
            inside += 1;
            overlaps += inside != 1;
            inside -= 1;
            unlock(who, second);
            count(&done);
        } else {
            count(&victims);
        }
        unlock(who, first);
    }
    return NULL;
}

static int open_all(void)
{
    pthread_condattr_t by_clock;
    if (pthread_condattr_init(&by_clock) != 0 || pthread_condattr_setclock(&by_clock, CLOCK_MONOTONIC) != 0)
        return 0;
    for (unsigned at = 0; at < THREADS; at += 1)
        if (pthread_cond_init(&turns[at], &by_clock) != 0)
            return 0;
    if (gaz_one_open(&space, 256, THREADS) != GAZ_DONE)
        return 0;
    for (uint16_t who = 1; who <= THREADS; who += 1)
        if (gaz_one_table(&space, who, NAME("shop"), NAME("orders"), &places[0]) != GAZ_DONE
            || gaz_one_table(&space, who, NAME("shop"), NAME("items"), &places[1]) != GAZ_DONE)
            return 0;
    return 1;
}

int main(void)
{
    pthread_t threads[THREADS];
    uint64_t held = 0, wished = 0;
    if (!open_all())
        return 1;
    for (uintptr_t who = 1; who <= THREADS; who += 1)
        if (pthread_create(&threads[who - 1], NULL, work, (void *)who) != 0)
            return 1;
    for (unsigned at = 0; at < THREADS; at += 1)
        pthread_join(threads[at], NULL);
    printf("%u rounds are over\n", done + victims);
    printf("%u of them met another inside\n", overlaps);
    printf("1 changes orders: %u\n", lock(1, places[0], GAZ_X, LONG, &held));
    printf("2 waits for it for a while: %u\n", lock(2, places[0], GAZ_SR, SHORT, &wished));
    unlock(1, held);
    printf("2 reads it: %u\n", lock(2, places[0], GAZ_SR, SHORT, &wished));
    printf("the manager goes: %u\n", gaz_one_close(&space));
    return 0;
}

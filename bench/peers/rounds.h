/* Rounds in which threads do the same work, and what a turn of it takes. */
#ifndef ROUNDS_H
#define ROUNDS_H

#include <pthread.h>
#include <stdio.h>
#include <stdlib.h>
#include <time.h>

enum { ROUNDS = 10, TURNS = 100000, MOST_THREADS = 4 };

/* What is timed: the workload, its name, and a turn of a thread, which is counted from 1. */
struct work {
    const char *workload;
    const char *name;
    void (*turn)(unsigned thread, unsigned turn);
};

/* One thread's part of a round. */
struct part {
    const struct work *work;
    pthread_barrier_t *gate; /* where threads wait for one another, so that all begin at once */
    unsigned thread;
    double spent;
};

static inline void fail(const char *why)
{
    fprintf(stderr, "bench/peers: %s\n", why);
    exit(1);
}

static inline void *come_and_go(void *unused)
{
    return unused;
}

/* Starts a thread and waits for its end. A server has threads, so it takes a mutex by an atomic step. In a process that never had a second thread the C
   library takes it by a plain store. */
static inline void have_threads(void)
{
    pthread_t thread;
    if (pthread_create(&thread, NULL, come_and_go, NULL) != 0 || pthread_join(thread, NULL) != 0)
        fail("a thread can't be started and joined");
}

static inline double now(void)
{
    struct timespec at;
    if (clock_gettime(CLOCK_MONOTONIC, &at) != 0)
        fail("the clock can't be read");
    return (double)at.tv_sec * 1e9 + (double)at.tv_nsec;
}

static inline void *take_part(void *argument)
{
    struct part *part = argument;
    pthread_barrier_wait(part->gate);
    double began = now();
    for (unsigned turn = 0; turn < TURNS; turn += 1)
        part->work->turn(part->thread, turn);
    part->spent = now() - began;
    return NULL;
}

/* A round of so many threads: the nanoseconds of a turn in the thread that took longest. */
static inline double timed(const struct work *work, unsigned threads)
{
    pthread_t others[MOST_THREADS];
    struct part parts[MOST_THREADS];
    pthread_barrier_t gate;
    double longest = 0;
    if (pthread_barrier_init(&gate, NULL, threads) != 0)
        fail("a barrier can't be made");
    for (unsigned i = 0; i < threads; i += 1)
        parts[i] = (struct part){work, &gate, i + 1, 0};
    for (unsigned i = 1; i < threads; i += 1)
        if (pthread_create(&others[i], NULL, take_part, &parts[i]) != 0)
            fail("a thread can't be started");
    take_part(&parts[0]);
    for (unsigned i = 1; i < threads; i += 1)
        if (pthread_join(others[i], NULL) != 0)
            fail("a thread can't be joined");
    pthread_barrier_destroy(&gate);
    for (unsigned i = 0; i < threads; i += 1)
        longest = parts[i].spent > longest ? parts[i].spent : longest;
    return longest / TURNS;
}

static inline int by_size(const void *one, const void *other)
{
    double a = *(const double *)one, b = *(const double *)other;
    return (a > b) - (a < b);
}

/* Prints the least and the median of all rounds of so many threads. The median is the upper of the two in the middle. */
static inline void tell(const struct work *work, unsigned threads)
{
    double rounds[ROUNDS];
    for (int i = 0; i < ROUNDS; i += 1)
        rounds[i] = timed(work, threads);
    qsort(rounds, ROUNDS, sizeof rounds[0], by_size);
    printf("%s peers %u %s_least %.1f\n", work->workload, threads, work->name, rounds[0]);
    printf("%s peers %u %s_median %.1f\n", work->workload, threads, work->name, rounds[ROUNDS / 2]);
}

#endif

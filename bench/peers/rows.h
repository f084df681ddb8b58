/* Rows of figures, which are timed as mdl_bench does it: each figure of a row once in each round, so that other work on the machine affects all alike. */
#ifndef ROWS_H
#define ROWS_H

#include "rounds.h"

#include <sched.h>
#include <stdatomic.h>
#include <stdbool.h>

enum { ROW_ROUNDS = 7, MOST_FIGURES = 8, MOST_SHARES = 64, QUICK = 100 };

/* What counts: of the thread that took longest the time by the clock, or its processor time; or what the turns themselves say, on the mean of all threads. */
enum counted { BY_CLOCK, BY_PROCESSOR, BY_TURNS };

/* What is timed: the workload, the threads, the name, and the turns of each thread in a round. The turns are made by a call that returns what they say of
   their time. Its last argument is `how`, which means what the call wants it to mean. */
struct figure {
    const char *workload;
    unsigned threads;
    const char *name;
    unsigned turns;
    enum counted counted;
    double (*make)(unsigned thread, unsigned turns, int how);
    int how;
    void (*prepare)(int how), (*finish)(int how); /* what is done before and after each round, or NULL */
};

/* One thread's part of a round. */
struct share {
    const struct figure *figure;
    _Atomic unsigned *here; /* how many threads are ready: they look until all are, so that all begin at once */
    unsigned thread, turns;
    double spent;
};

static inline double processor_now(void)
{
    struct timespec at;
    if (clock_gettime(CLOCK_THREAD_CPUTIME_ID, &at) != 0)
        fail("the clock can't be read");
    return (double)at.tv_sec * 1e9 + (double)at.tv_nsec;
}

static inline void *take_share(void *argument)
{
    struct share *share = argument;
    const struct figure *figure = share->figure;
    atomic_fetch_add(share->here, 1);
    while (atomic_load(share->here) < figure->threads)
        sched_yield();
    double used = processor_now(), began = now();
    double told = figure->make(share->thread, share->turns, figure->how);
    double ended = now(), used_then = processor_now();
    share->spent = figure->counted == BY_CLOCK ? ended - began : figure->counted == BY_PROCESSOR ? used_then - used : told;
    return NULL;
}

/* What a turn took in a round, by the threads' shares. */
static inline double told_of(const struct figure *figure, const struct share *shares, unsigned turns)
{
    double longest = 0, all = 0;
    for (unsigned i = 0; i < figure->threads; i += 1) {
        longest = shares[i].spent > longest ? shares[i].spent : longest;
        all += shares[i].spent;
    }
    return (figure->counted == BY_TURNS ? all / figure->threads : longest) / turns;
}

/* A round: the nanoseconds of a turn. */
static inline double round_of(const struct figure *figure, unsigned turns)
{
    pthread_t others[MOST_SHARES];
    struct share shares[MOST_SHARES];
    _Atomic unsigned here = 0;
    if (figure->threads > MOST_SHARES)
        fail("a round has too many threads");
    if (figure->prepare != NULL)
        figure->prepare(figure->how);
    for (unsigned i = 0; i < figure->threads; i += 1)
        shares[i] = (struct share){figure, &here, i, turns, 0};
    for (unsigned i = 1; i < figure->threads; i += 1)
        if (pthread_create(&others[i], NULL, take_share, &shares[i]) != 0)
            fail("a thread can't be started");
    take_share(&shares[0]);
    for (unsigned i = 1; i < figure->threads; i += 1)
        if (pthread_join(others[i], NULL) != 0)
            fail("a thread can't be joined");
    if (figure->finish != NULL)
        figure->finish(figure->how);
    return told_of(figure, shares, turns);
}

/* Times the figures of a row, and prints of each the least and the median round: ROW, the workload, the threads, the name, and the nanoseconds of a turn.
   If `quick` is set there are fewer turns, which shows that they work, and nothing is printed. */
static inline void time_row(const struct figure *figures, unsigned count, bool quick)
{
    double rounds[MOST_FIGURES][ROW_ROUNDS];
    if (count > MOST_FIGURES)
        fail("a row has too many figures");
    for (unsigned round = 0; round < (quick ? 1 : ROW_ROUNDS); round += 1)
        for (unsigned i = 0; i < count; i += 1)
            rounds[i][round] = round_of(&figures[i], quick ? figures[i].turns / QUICK + 1 : figures[i].turns);
    for (unsigned i = 0; i < count && !quick; i += 1) {
        qsort(rounds[i], ROW_ROUNDS, sizeof rounds[i][0], by_size);
        printf("ROW %s %u %s_least %.1f\n", figures[i].workload, figures[i].threads, figures[i].name, rounds[i][0]);
        printf("ROW %s %u %s_median %.1f\n", figures[i].workload, figures[i].threads, figures[i].name, rounds[i][ROW_ROUNDS / 2]);
    }
    fflush(stdout);
}

#endif

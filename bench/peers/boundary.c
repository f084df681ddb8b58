/* What calls cost through the boundary of C, over libgaz_one.a: pairs, each a lock that is taken and given up, and transactions of four locks. Beside
 * them the same at a model of the server's own design, and a mutex that is locked and unlocked.
 *
 * - a_pair, mdl_c_sr: SR of the next of 255 tables, as `try_now_and_release_1` of mdl_bench does in Rattle; of mdl_c_locked_sr a mutex is held round each
 *   call, as threads have to. The threads are sessions of one manager. server_sr takes the same tables at the model, which finds them by
 *   their keys, without pins.
 * - a_pair, .._x: X of a table of the thread's own.
 * - c_transaction: IX of the global lock and SW of three tables of the thread's own, and all are given up. Of .._context a context keeps the tickets, looks
 *   up the keys by their names, and ends the transaction.
 *
 * For each number of threads it prints the least and the median of ten rounds, a line each: the workload, peers, the threads, what it is, and the
 * nanoseconds that a turn takes a thread. */
#include "gaz_one.h"
#include "rounds.h"
#include "server_model.h"

#include <pthread.h>
#include <stdint.h>
#include <stdio.h>
#include <string.h>

enum { TABLES = 255, SESSIONS = 64, LOCKS = 4 };

static struct gaz_one_space space = GAZ_ONE_SPACE_INIT;
static pthread_mutex_t guard = PTHREAD_MUTEX_INITIALIZER; /* held round each call, where there are threads */

/* The places of the tables and of the global lock at the manager, and their keys at the model, where the global lock has the first place. */
static uint16_t places[TABLES], global;
static char names[TABLES][8];
static size_t name_lengths[TABLES];
static char keys[TABLES + 1][LONGEST_KEY] = {{GLOBAL_KEY}};
static size_t key_lengths[TABLES + 1] = {1};

static struct server_session sessions[MOST_THREADS];

/* A call that has to go well. */
static void done(uint32_t code)
{
    if (code != GAZ_DONE)
        fail("a call didn't go well");
}

/* The table of a turn, of which each thread begins with another one; and one of three of the thread's own. */
static unsigned table_of(unsigned thread, unsigned turn)
{
    return (turn + thread * (TABLES / MOST_THREADS)) % TABLES;
}

static unsigned own_table(unsigned thread, unsigned which)
{
    return TABLES - 3 * thread + which;
}

static uint64_t take(unsigned who, uint16_t place, uint8_t mode)
{
    uint64_t ticket = 0;
    done(gaz_one_try(&space, (uint16_t)who, place, mode, &ticket));
    return ticket;
}

static void give_up(unsigned who, uint64_t ticket)
{
    done(gaz_one_release(&space, (uint16_t)who, ticket));
}

static uint64_t locked_take(unsigned who, uint16_t place, uint8_t mode)
{
    pthread_mutex_lock(&guard);
    uint64_t ticket = take(who, place, mode);
    pthread_mutex_unlock(&guard);
    return ticket;
}

static void locked_give_up(unsigned who, uint64_t ticket)
{
    pthread_mutex_lock(&guard);
    give_up(who, ticket);
    pthread_mutex_unlock(&guard);
}

static void mdl_c_sr(unsigned thread, unsigned turn)
{
    give_up(thread, take(thread, places[table_of(thread, turn)], GAZ_SR));
}

static void mdl_c_locked_sr(unsigned thread, unsigned turn)
{
    locked_give_up(thread, locked_take(thread, places[table_of(thread, turn)], GAZ_SR));
}

static void mdl_c_x(unsigned thread, unsigned turn)
{
    (void)turn;
    give_up(thread, take(thread, places[own_table(thread, 0)], GAZ_X));
}

static void mdl_c_locked_x(unsigned thread, unsigned turn)
{
    (void)turn;
    locked_give_up(thread, locked_take(thread, places[own_table(thread, 0)], GAZ_X));
}

static void mdl_c_transaction(unsigned thread, unsigned turn)
{
    uint64_t tickets[LOCKS] = {take(thread, global, GAZ_IX)};
    (void)turn;
    for (unsigned i = 1; i < LOCKS; i += 1)
        tickets[i] = take(thread, places[own_table(thread, i - 1)], GAZ_SW);
    for (unsigned i = 0; i < LOCKS; i += 1)
        give_up(thread, tickets[i]);
}

/* The mutex is held for all locks of the transaction, and then for all releases. */
static void mdl_c_locked_transaction(unsigned thread, unsigned turn)
{
    uint64_t tickets[LOCKS];
    (void)turn;
    pthread_mutex_lock(&guard);
    tickets[0] = take(thread, global, GAZ_IX);
    for (unsigned i = 1; i < LOCKS; i += 1)
        tickets[i] = take(thread, places[own_table(thread, i - 1)], GAZ_SW);
    pthread_mutex_unlock(&guard);
    pthread_mutex_lock(&guard);
    for (unsigned i = 0; i < LOCKS; i += 1)
        give_up(thread, tickets[i]);
    pthread_mutex_unlock(&guard);
}

/* The same by a context, which the sessions from MOST_THREADS + 1 on have. */
static void acquire(uint16_t who, uint8_t kind, unsigned table, uint8_t mode)
{
    uint64_t ticket = 0;
    done(gaz_one_acquire(&space, who, kind, (const uint8_t *)"test", 4, (const uint8_t *)names[table], name_lengths[table], mode, GAZ_TRANSACTION, &ticket));
}

static void context_transaction(unsigned thread)
{
    uint16_t who = (uint16_t)(MOST_THREADS + thread);
    acquire(who, GAZ_GLOBAL, 0, GAZ_IX);
    for (unsigned i = 1; i < LOCKS; i += 1)
        acquire(who, GAZ_TABLE, own_table(thread, i - 1), GAZ_SW);
}

static void mdl_c_context(unsigned thread, unsigned turn)
{
    (void)turn;
    context_transaction(thread);
    done(gaz_one_end_transaction(&space, (uint16_t)(MOST_THREADS + thread)));
}

static void mdl_c_locked_context(unsigned thread, unsigned turn)
{
    (void)turn;
    pthread_mutex_lock(&guard);
    context_transaction(thread);
    pthread_mutex_unlock(&guard);
    pthread_mutex_lock(&guard);
    done(gaz_one_end_transaction(&space, (uint16_t)(MOST_THREADS + thread)));
    pthread_mutex_unlock(&guard);
}

static struct server_ticket *server_take(unsigned thread, unsigned place, enum server_mode mode)
{
    struct server_wish wish = {place, keys[place], key_lengths[place], mode, TRANSACTION};
    return server_acquire(&sessions[thread - 1], LITE_KEY, &wish);
}

static void server_sr(unsigned thread, unsigned turn)
{
    server_release(server_take(thread, table_of(thread, turn) + 1, SR));
}

static void server_x(unsigned thread, unsigned turn)
{
    (void)turn;
    server_release(server_take(thread, own_table(thread, 0) + 1, X));
}

static void server_transaction(unsigned thread, unsigned turn)
{
    struct server_ticket *tickets[LOCKS] = {server_take(thread, GLOBAL_PLACE, IX)};
    (void)turn;
    for (unsigned i = 1; i < LOCKS; i += 1)
        tickets[i] = server_take(thread, own_table(thread, i - 1) + 1, SW);
    for (unsigned i = 0; i < LOCKS; i += 1)
        server_release(tickets[i]);
}

static void mutex(unsigned thread, unsigned turn)
{
    (void)thread, (void)turn;
    pthread_mutex_lock(&guard);
    pthread_mutex_unlock(&guard);
}

/* Whether a session has a context, which looks its keys up itself. */
static bool has_context(uint16_t who)
{
    return who > MOST_THREADS && who <= 2 * MOST_THREADS;
}

/* The keys of the global lock and of all tables. As in mdl_bench, two sessions have SR of the first table: sessions that no thread is. */
static void prepare(void)
{
    done(gaz_one_open(&space, TABLES + 1, SESSIONS));
    for (uint16_t who = 1; who <= SESSIONS; who += 1)
        done(has_context(who) ? gaz_one_context_begin(&space, who) : gaz_one_global(&space, who, &global));
    server_make(GLOBAL_PLACE, keys[GLOBAL_PLACE], key_lengths[GLOBAL_PLACE]);
    for (unsigned i = 0; i < TABLES; i += 1) {
        name_lengths[i] = (size_t)snprintf(names[i], sizeof names[i], "t%u", i);
        for (uint16_t who = 1; who <= SESSIONS; who += 1)
            if (!has_context(who))
                done(gaz_one_table(&space, who, (const uint8_t *)"test", 4, (const uint8_t *)names[i], name_lengths[i], &places[i]));
        key_lengths[i + 1] = (size_t)snprintf(keys[i + 1], LONGEST_KEY, "%ctest%c%s", TABLE_KEY, 0, names[i]);
        server_make(i + 1, keys[i + 1], key_lengths[i + 1]);
    }
    for (unsigned i = 0; i < MOST_THREADS; i += 1)
        server_open(&sessions[i]);
    take(SESSIONS - 1, places[0], GAZ_SR);
    take(SESSIONS, places[0], GAZ_SR);
}

int main(void)
{
    static const struct work alone[] = {
        {"a_pair", "mdl_c_sr", mdl_c_sr}, {"a_pair", "mdl_c_x", mdl_c_x}, {"c_transaction", "mdl_c", mdl_c_transaction},
        {"c_transaction", "mdl_c_context", mdl_c_context}};
    static const struct work shared[] = {
        {"a_pair", "mdl_c_locked_sr", mdl_c_locked_sr}, {"a_pair", "server_sr", server_sr}, {"a_pair", "pthread_mutex", mutex},
        {"a_pair", "mdl_c_locked_x", mdl_c_locked_x},   {"a_pair", "server_x", server_x},   {"c_transaction", "mdl_c_locked", mdl_c_locked_transaction},
        {"c_transaction", "mdl_c_locked_context", mdl_c_locked_context}, {"c_transaction", "server", server_transaction}};
    have_threads();
    prepare();
    for (size_t i = 0; i < sizeof alone / sizeof alone[0]; i += 1)
        tell(&alone[i], 1);
    for (size_t i = 0; i < sizeof shared / sizeof shared[0]; i += 1)
        for (unsigned threads = 1; threads <= MOST_THREADS; threads *= 2)
            tell(&shared[i], threads);
    done(gaz_one_close(&space));
    return 0;
}

/* The workloads of mdl_bench at a model of the server's own design, in rows of the same names.
 *
 * A name begins with how the model finds a lock: lite and pins by its place, lite_key and pins_key by its key; pins and pins_key announce the lock in the
 * session's pins. `steps` are the two atomic steps of a pair alone, and `pthread_rwlock` is the C library's lock for readers and writers.
 *
 * - a_pair: a table is locked in SR and released; of _held_250 the session has SR of 250 other tables, and looks through them. a_request: the same by the
 *   table's key. b_hot: by several threads at one table. c_own: each at a table of its own; of _cpu the processor's time counts.
 * - d_transaction: GLOBAL is locked in IX and three tables in SW, and all are released; on several threads each has tables of its own. Of _context the
 *   tables are found by their keys; of _same all threads have the same; of _cpu the processor's time counts.
 * - x_exclusive: a table is locked in X and released. try_now_and_release: the same, while the session has SU of it, and of _held_250 of 249 other tables.
 *   A session of the model knows all places, so _known_250 is as _known_1.
 * - acquire_and_release: a_request of a session that has SR of so many other tables. lock_and_go_back: a hundred tables are locked and released.
 * - resolve: a lock is found by its key, and no more.
 * - f_grant: X is released for which 8 or 63 sessions wait in SR. As in mdl_bench no thread sleeps: each waiter is told, and the condition of its slot is
 *   signalled. f_pass: they wait for X, and each gets it from the one before and releases it, from the first release to the last.
 * - x_passed: 8 or 63 threads lock the same table in X and release it, again and again. Those that wait sleep.
 * - end_10000: 10,000 tickets of a transaction, 40 of each of 250 tables, are released.
 * - h_again: a lock of a session's own is requested again, beside 0, 9 or 999 others that it has for another duration.
 * - e_mixed: transactions of four threads with the same three tables, and each thread's every ten thousandth is preceded by an ALTER: X of the last table.
 *   `alter` is the mean time of an ALTER. Of _without there is none. Of _8 each transaction has three of eight tables, others after 500 turns, and an ALTER
 *   locks the last of the three.
 *
 * Usage: model          times all rows
 *        model quick    makes a hundredth of the turns once, and prints nothing */
#include "rows.h"
#include "server_model.h"

#include <string.h>

enum { TABLES = 1001, LAST = TABLES - 1, SESSIONS = 64, HELD = 250, GO_BACK = 100, TURNS_AN_ALTER = 10000, MIXED_TABLES = 8, A_BLOCK = 500, OWN_FROM = 100 };

static struct server_session sessions[SESSIONS];
static char keys[TABLES + 1][16];
static size_t key_lengths[TABLES + 1];

/* A word, and a lock of the C library, each with a cache line of its own. */
static _Alignas(LINE) _Atomic uint64_t word;
static _Alignas(LINE) pthread_rwlock_t rwlock = PTHREAD_RWLOCK_INITIALIZER;

/* The place of a table, whose index is counted from 0; and of one of three tables of a thread's own. */
static unsigned table(unsigned index)
{
    return index + 1;
}

static unsigned own_table(unsigned thread, unsigned which)
{
    return table(OWN_FROM + 3 * thread + which);
}

static struct server_wish wish_of(unsigned place, enum server_mode mode, enum server_duration duration)
{
    return (struct server_wish){place, keys[place], key_lengths[place], mode, duration};
}

/* ---- one thread */

/* Locks a table and releases it. */
static void pair(struct server_session *session, int look, unsigned place, enum server_mode mode)
{
    struct server_wish wish = wish_of(place, mode, TRANSACTION);
    server_release(server_acquire(session, (enum server_look)look, &wish));
}

/* The same, as often as there are turns. */
static void pairs(unsigned thread, unsigned turns, int look, unsigned place, enum server_mode mode)
{
    for (unsigned turn = 0; turn < turns; turn += 1)
        pair(&sessions[thread], look, place, mode);
}

static double read_pairs(unsigned thread, unsigned turns, int look)
{
    pairs(thread, turns, look, table(HELD), SR); /* none of those that are held */
    return 0;
}

static double own_pairs(unsigned thread, unsigned turns, int look)
{
    pairs(thread, turns, look, own_table(thread, 2), SR);
    return 0;
}

static double exclusive_pairs(unsigned thread, unsigned turns, int look)
{
    pairs(thread, turns, look, table(0), X);
    return 0;
}

/* The first session locks tables for good: SR of 250, or SU of the first one or of 250. */
static void hold(unsigned count, enum server_mode mode)
{
    for (unsigned i = 0; i < count; i += 1) {
        struct server_wish wish = wish_of(table(i), mode, EXPLICIT);
        server_acquire(&sessions[0], LITE, &wish);
    }
}

static void hold_readers(int how)
{
    (void)how;
    hold(HELD, SR);
}

static void hold_one(int how)
{
    (void)how;
    hold(1, SU);
}

static void hold_many(int how)
{
    (void)how;
    hold(HELD, SU);
}

static void give_all_up(int how)
{
    (void)how;
    for (unsigned duration = 0; duration < DURATIONS; duration += 1)
        server_release_all(&sessions[0], duration);
}

/* So many other tables are locked for another duration, beside the one that is requested again. */
static void hold_beside(int count)
{
    struct server_wish wish = wish_of(table(LAST), SR, TRANSACTION);
    hold((unsigned)count, SR);
    server_acquire(&sessions[0], LITE_KEY, &wish);
}

static void hold_some(int count)
{
    hold((unsigned)count, SR);
}

static double key_pairs(unsigned thread, unsigned turns, int count)
{
    (void)count;
    pairs(thread, turns, LITE_KEY, table(LAST), SR);
    return 0;
}

/* Finds a lock by its key, and no more. */
static double look_ups(unsigned thread, unsigned turns, int look)
{
    struct server_wish wish = wish_of(table(HELD), SR, TRANSACTION);
    for (unsigned turn = 0; turn < turns; turn += 1) {
        if (find(&sessions[thread], (enum server_look)look, &wish)->key_length != wish.key_length)
            fail("another lock is found");
        unpin(&sessions[thread], (enum server_look)look, &wish);
    }
    return 0;
}

/* Locks a hundred tables, and gives all up, as at a savepoint before them. */
static double go_back(unsigned thread, unsigned turns, int look)
{
    for (unsigned turn = 0; turn < turns; turn += 1) {
        for (unsigned i = 0; i < GO_BACK; i += 1) {
            struct server_wish wish = wish_of(table(i), SR, TRANSACTION);
            server_acquire(&sessions[thread], (enum server_look)look, &wish);
        }
        server_release_all(&sessions[thread], TRANSACTION);
    }
    return 0;
}

static double ask_again(unsigned thread, unsigned turns, int how)
{
    struct server_wish wish = wish_of(table(LAST), SR, TRANSACTION);
    struct server_ticket *ticket = sessions[thread].tickets[TRANSACTION];
    (void)how;
    for (unsigned turn = 0; turn < turns; turn += 1)
        if (server_acquire(&sessions[thread], LITE_KEY, &wish) != ticket)
            fail("the own ticket isn't found");
    return 0;
}

/* ---- transactions */

/* Locks GLOBAL and three tables, and releases all, the last one first. All sessions lock tables in this order, so no two wait for each other. */
static void transact(struct server_session *session, int look, const unsigned *tables)
{
    struct server_wish wish = wish_of(GLOBAL_PLACE, IX, TRANSACTION);
    server_acquire(session, (enum server_look)look, &wish);
    for (unsigned i = 0; i < 3; i += 1) {
        wish = wish_of(tables[i], SW, TRANSACTION);
        server_acquire(session, (enum server_look)look, &wish);
    }
    server_release_all(session, TRANSACTION);
}

static double transactions(unsigned thread, unsigned turns, int look)
{
    const unsigned tables[] = {own_table(thread, 0), own_table(thread, 1), own_table(thread, 2)};
    for (unsigned turn = 0; turn < turns; turn += 1)
        transact(&sessions[thread], look, tables);
    return 0;
}

static double same_transactions(unsigned thread, unsigned turns, int look)
{
    const unsigned tables[] = {table(0), table(1), table(2)};
    for (unsigned turn = 0; turn < turns; turn += 1)
        transact(&sessions[thread], look, tables);
    return 0;
}

/* Locks a table in X and releases it. How long that took. */
static double alter(struct server_session *session, int look, unsigned place)
{
    double began = now();
    pair(session, look, place, X);
    return now() - began;
}

/* Returns what all turns would take if each took the mean time of an ALTER. */
static double mixed(unsigned thread, unsigned turns, int look)
{
    const unsigned tables[] = {table(0), table(1), table(2)};
    double spent = 0;
    unsigned alters = 0;
    for (unsigned turn = 0; turn < turns; turn += 1) {
        if (turn % TURNS_AN_ALTER == 0) {
            spent += alter(&sessions[thread], look, tables[2]);
            alters += 1;
        }
        transact(&sessions[thread], look, tables);
    }
    return spent / alters * turns;
}

/* The same with three of eight tables, others after each block of turns. */
static double mixed_over_8(unsigned thread, unsigned turns, int look)
{
    double spent = 0;
    unsigned alters = 0;
    for (unsigned turn = 0; turn < turns; turn += 1) {
        unsigned first = (turn / A_BLOCK + thread + 1) % (MIXED_TABLES - 2);
        const unsigned tables[] = {table(first), table(first + 1), table(first + 2)};
        if (turn % TURNS_AN_ALTER == 0) {
            spent += alter(&sessions[thread], look, tables[2]);
            alters += 1;
        }
        transact(&sessions[thread], look, tables);
    }
    return spent / alters * turns;
}

/* ---- waiters */

/* The first session has X of a table, and others begin to wait for it. */
static struct server_ticket *fill(unsigned waiters, enum server_mode mode)
{
    struct server_wish exclusive = wish_of(table(0), X, TRANSACTION), wish = wish_of(table(0), mode, TRANSACTION);
    struct server_ticket *ticket = server_acquire(&sessions[0], LITE, &exclusive);
    for (unsigned i = 1; i <= waiters; i += 1)
        if (server_begin(&sessions[i], LITE, &wish) != NULL)
            fail("a session that ought to wait has the lock");
    return ticket;
}

/* Times releases that grant so many waiters, without the clock's own time. */
static double grants(unsigned thread, unsigned turns, int waiters)
{
    double spent = 0;
    (void)thread;
    for (unsigned turn = 0; turn < turns; turn += 1) {
        struct server_ticket *ticket = fill((unsigned)waiters, SR);
        double idle = now(), began = now();
        server_release(ticket);
        spent += now() - began - (began - idle);
        for (int i = 1; i <= waiters; i += 1)
            server_release(server_end_wait(&sessions[i]));
    }
    return spent;
}

/* Times chains of releases of X, each of which grants it to the next session, from the first release to the last. */
static double passes(unsigned thread, unsigned turns, int waiters)
{
    double spent = 0;
    (void)thread;
    for (unsigned turn = 0; turn < turns; turn += 1) {
        struct server_ticket *ticket = fill((unsigned)waiters, X);
        double began = now();
        server_release(ticket);
        for (int i = 1; i <= waiters; i += 1)
            server_release(server_end_wait(&sessions[i]));
        spent += now() - began;
    }
    return spent;
}

/* ---- many tickets */

/* Times ends of transactions with so many tickets, which are spread over tables. */
static double ends(unsigned thread, unsigned turns, int tickets)
{
    struct server_session *session = &sessions[thread];
    double spent = 0;
    for (unsigned turn = 0; turn < turns; turn += 1) {
        for (unsigned i = 0; i < HELD; i += 1) {
            struct server_wish wish = wish_of(table(i), SR, TRANSACTION);
            struct server_ticket *ticket = server_acquire(session, LITE, &wish);
            for (unsigned more = (unsigned)tickets / HELD; more > 1; more -= 1)
                server_clone(ticket, TRANSACTION);
        }
        double began = now();
        server_release_all(session, TRANSACTION);
        spent += now() - began;
    }
    return spent;
}

/* ---- without the model */

/* Counts up a word by an exchange, and down again by one step. */
static double steps(unsigned thread, unsigned turns, int how)
{
    (void)thread, (void)how;
    for (unsigned turn = 0; turn < turns; turn += 1) {
        uint64_t found = atomic_load(&word);
        while (!atomic_compare_exchange_strong(&word, &found, found + A_READER))
            ;
        atomic_fetch_sub(&word, A_READER);
    }
    return 0;
}

static double rwlock_pairs(unsigned thread, unsigned turns, int how)
{
    (void)thread, (void)how;
    for (unsigned turn = 0; turn < turns; turn += 1)
        if (pthread_rwlock_rdlock(&rwlock) != 0 || pthread_rwlock_unlock(&rwlock) != 0)
            fail("a pair failed");
    return 0;
}

/* ---- rows */

#define ALONE(workload, name, turns, make, how) {workload, 1, name, turns, BY_CLOCK, make, how, NULL, NULL}
#define AMONG(threads, workload, name, turns, make, how) {workload, threads, name, turns, BY_CLOCK, make, how, NULL, NULL}
#define COUNTED(counted, threads, workload, name, turns, make, how) {workload, threads, name, turns, counted, make, how, NULL, NULL}
#define BESIDE(prepare, workload, name, turns, make, how) {workload, 1, name, turns, BY_CLOCK, make, how, prepare, give_all_up}

static const struct figure pair_row[] = {
    ALONE("a_pair", "lite_pair", 20000, read_pairs, LITE),
    ALONE("a_pair", "pins_pair", 20000, read_pairs, PINNED),
    ALONE("a_pair", "steps_pair", 20000, steps, 0),
    ALONE("a_pair", "pthread_rwlock_pair", 20000, rwlock_pairs, 0),
    ALONE("a_request", "lite_key_request", 20000, read_pairs, LITE_KEY),
    ALONE("a_request", "pins_key_request", 20000, read_pairs, PINNED_KEY),
    BESIDE(hold_readers, "a_pair_held_250", "lite_pair", 2000, read_pairs, LITE),
    BESIDE(hold_readers, "a_pair_held_250", "pins_pair", 2000, read_pairs, PINNED),
};

static const struct figure transaction_row[] = {
    ALONE("d_transaction", "lite_transaction", 5000, transactions, LITE),
    ALONE("d_transaction", "pins_transaction", 5000, transactions, PINNED),
    ALONE("d_transaction_context", "lite_key_transaction", 5000, transactions, LITE_KEY),
    ALONE("d_transaction_context", "pins_key_transaction", 5000, transactions, PINNED_KEY),
};

static const struct figure exclusive_row[] = {
    ALONE("x_exclusive", "lite_pair", 10000, exclusive_pairs, LITE),
    ALONE("x_exclusive", "pins_pair", 10000, exclusive_pairs, PINNED),
    BESIDE(hold_one, "try_now_and_release_known_1", "lite_call", 10000, exclusive_pairs, LITE),
    BESIDE(hold_one, "try_now_and_release_known_1", "pins_call", 10000, exclusive_pairs, PINNED),
    BESIDE(hold_one, "try_now_and_release_known_250", "lite_call", 10000, exclusive_pairs, LITE),
    BESIDE(hold_one, "try_now_and_release_known_250", "pins_call", 10000, exclusive_pairs, PINNED),
    BESIDE(hold_many, "try_now_and_release_held_250", "lite_call", 2000, exclusive_pairs, LITE),
    BESIDE(hold_many, "try_now_and_release_held_250", "pins_call", 2000, exclusive_pairs, PINNED),
};

static const struct figure grant_row[] = {
    COUNTED(BY_TURNS, 1, "f_grant_8", "lite_release", 500, grants, 8),
    COUNTED(BY_TURNS, 1, "f_grant_63", "lite_release", 500, grants, 63),
    COUNTED(BY_TURNS, 1, "f_pass_8", "lite_chain", 500, passes, 8),
    COUNTED(BY_TURNS, 1, "f_pass_63", "lite_chain", 100, passes, 63),
};

static const struct figure passed_row[] = {
    AMONG(8, "x_passed", "lite_pair", 1000, exclusive_pairs, LITE),
    AMONG(8, "x_passed", "pins_pair", 1000, exclusive_pairs, PINNED),
    AMONG(63, "x_passed", "lite_pair", 100, exclusive_pairs, LITE),
    AMONG(63, "x_passed", "pins_pair", 100, exclusive_pairs, PINNED),
};

static const struct figure end_row[] = {
    COUNTED(BY_TURNS, 1, "end_10000_context", "lite_key_end", 3, ends, 10000),
    COUNTED(BY_TURNS, 1, "end_10000_session", "lite_end", 3, ends, 10000),
};

static const struct figure again_row[] = {
    {"h_again_1", 1, "lite_key_call", 20000, BY_CLOCK, ask_again, 0, hold_beside, give_all_up},
    {"h_again_10", 1, "lite_key_call", 20000, BY_CLOCK, ask_again, 9, hold_beside, give_all_up},
    {"h_again_1000", 1, "lite_key_call", 20000, BY_CLOCK, ask_again, 999, hold_beside, give_all_up},
};

static const struct figure held_row[] = {
    BESIDE(hold_some, "acquire_and_release_1", "lite_key_pair", 20000, key_pairs, 1),
    BESIDE(hold_some, "acquire_and_release_10", "lite_key_pair", 20000, key_pairs, 10),
    BESIDE(hold_some, "acquire_and_release_100", "lite_key_pair", 5000, key_pairs, 100),
    BESIDE(hold_some, "acquire_and_release_1000", "lite_key_pair", 500, key_pairs, 1000),
    ALONE("lock_and_go_back_100", "lite_key_turn", 100, go_back, LITE_KEY),
    ALONE("lock_and_go_back_100", "pins_key_turn", 100, go_back, PINNED_KEY),
};

static const struct figure look_up_row[] = {
    ALONE("resolve_known_1", "lite_key_call", 20000, look_ups, LITE_KEY),
    ALONE("resolve_known_1", "pins_key_call", 20000, look_ups, PINNED_KEY),
    ALONE("resolve_known_250", "lite_key_call", 20000, look_ups, LITE_KEY),
    ALONE("resolve_known_250", "pins_key_call", 20000, look_ups, PINNED_KEY),
};

static const struct figure hot_row[] = {
    AMONG(2, "b_hot", "lite_pair", 50000, read_pairs, LITE),
    AMONG(2, "b_hot", "pins_pair", 50000, read_pairs, PINNED),
    AMONG(2, "b_hot", "steps_pair", 50000, steps, 0),
    AMONG(2, "b_hot", "pthread_rwlock_pair", 50000, rwlock_pairs, 0),
    AMONG(4, "b_hot", "lite_pair", 50000, read_pairs, LITE),
    AMONG(4, "b_hot", "pins_pair", 50000, read_pairs, PINNED),
    AMONG(4, "b_hot", "steps_pair", 50000, steps, 0),
    AMONG(4, "b_hot", "pthread_rwlock_pair", 50000, rwlock_pairs, 0),
};

static const struct figure own_row[] = {
    AMONG(1, "c_own", "lite_pair", 100000, own_pairs, LITE),
    AMONG(1, "c_own", "pins_pair", 100000, own_pairs, PINNED),
    AMONG(2, "c_own", "lite_pair", 100000, own_pairs, LITE),
    AMONG(2, "c_own", "pins_pair", 100000, own_pairs, PINNED),
    AMONG(4, "c_own", "lite_pair", 100000, own_pairs, LITE),
    AMONG(4, "c_own", "pins_pair", 100000, own_pairs, PINNED),
};

static const struct figure own_processor_row[] = {
    COUNTED(BY_PROCESSOR, 1, "c_own_cpu", "lite_pair", 100000, own_pairs, LITE),
    COUNTED(BY_PROCESSOR, 1, "c_own_cpu", "pins_pair", 100000, own_pairs, PINNED),
    COUNTED(BY_PROCESSOR, 4, "c_own_cpu", "lite_pair", 100000, own_pairs, LITE),
    COUNTED(BY_PROCESSOR, 4, "c_own_cpu", "pins_pair", 100000, own_pairs, PINNED),
};

static const struct figure crowd_row[] = {
    AMONG(4, "d_transaction", "lite_transaction", 20000, transactions, LITE),
    AMONG(4, "d_transaction", "pins_transaction", 20000, transactions, PINNED),
    AMONG(4, "d_transaction_context", "lite_key_transaction", 20000, transactions, LITE_KEY),
    AMONG(4, "d_transaction_context", "pins_key_transaction", 20000, transactions, PINNED_KEY),
};

static const struct figure same_row[] = {
    AMONG(4, "d_transaction_same_context", "lite_key_transaction", 20000, same_transactions, LITE_KEY),
    AMONG(4, "d_transaction_same_context", "pins_key_transaction", 20000, same_transactions, PINNED_KEY),
};

static const struct figure crowd_processor_row[] = {
    COUNTED(BY_PROCESSOR, 1, "d_transaction_cpu", "lite_transaction", 20000, transactions, LITE),
    COUNTED(BY_PROCESSOR, 1, "d_transaction_cpu", "pins_transaction", 20000, transactions, PINNED),
    COUNTED(BY_PROCESSOR, 4, "d_transaction_cpu", "lite_transaction", 20000, transactions, LITE),
    COUNTED(BY_PROCESSOR, 4, "d_transaction_cpu", "pins_transaction", 20000, transactions, PINNED),
};

static const struct figure mixed_row[] = {
    AMONG(4, "e_mixed", "lite_transaction", 20000, mixed, LITE),
    AMONG(4, "e_mixed", "pins_transaction", 20000, mixed, PINNED),
    AMONG(4, "e_mixed_without", "lite_transaction", 20000, same_transactions, LITE),
    AMONG(4, "e_mixed_without", "pins_transaction", 20000, same_transactions, PINNED),
    COUNTED(BY_TURNS, 4, "e_mixed", "lite_alter", 20000, mixed, LITE),
    COUNTED(BY_TURNS, 4, "e_mixed", "pins_alter", 20000, mixed, PINNED),
};

static const struct figure mixed_over_8_row[] = {
    AMONG(4, "e_mixed_8", "lite_transaction", 20000, mixed_over_8, LITE),
    AMONG(4, "e_mixed_8", "pins_transaction", 20000, mixed_over_8, PINNED),
    COUNTED(BY_TURNS, 4, "e_mixed_8", "lite_alter", 20000, mixed_over_8, LITE),
    COUNTED(BY_TURNS, 4, "e_mixed_8", "pins_alter", 20000, mixed_over_8, PINNED),
};

#define COUNT_OF(row) (sizeof row / sizeof row[0])
#define ROW(row) {row, COUNT_OF(row)}

static const struct {
    const struct figure *figures;
    unsigned count;
} rows[] = {
    ROW(pair_row), ROW(transaction_row), ROW(exclusive_row), ROW(grant_row), ROW(again_row), ROW(held_row), ROW(look_up_row),
    ROW(end_row), ROW(hot_row), ROW(own_row), ROW(own_processor_row), ROW(crowd_row), ROW(crowd_processor_row), ROW(same_row), ROW(mixed_row),
    ROW(mixed_over_8_row), ROW(passed_row),
};

/* Makes GLOBAL's lock and those of all tables, and opens all sessions. */
static void make_all(void)
{
    keys[GLOBAL_PLACE][0] = GLOBAL_KEY;
    key_lengths[GLOBAL_PLACE] = 1;
    for (unsigned place = 1; place <= TABLES; place += 1)
        key_lengths[place] = (size_t)snprintf(keys[place], sizeof keys[place], "%cshop%ct%u", TABLE_KEY, 0, place - 1);
    for (unsigned place = 0; place <= TABLES; place += 1)
        server_make(place, keys[place], key_lengths[place]);
    for (unsigned i = 0; i < SESSIONS; i += 1)
        server_open(&sessions[i]);
}

/* Fails unless all is over. */
static void check_end(void)
{
    for (unsigned place = 0; place <= TABLES; place += 1)
        if (!server_is_free(place))
            fail("a lock isn't free at the end");
    if (atomic_load(&word) != 0 || pthread_rwlock_trywrlock(&rwlock) != 0)
        fail("a pair isn't over");
}

int main(int count, char **arguments)
{
    bool quick = count > 1 && strcmp(arguments[1], "quick") == 0;
    have_threads();
    make_all();
    for (unsigned i = 0; i < COUNT_OF(rows); i += 1)
        time_row(rows[i].figures, rows[i].count, quick);
    check_end();
    return 0;
}

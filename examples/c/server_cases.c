/* The cases that the unit tests of MySQL 5.7 try at the server's own metadata locks (unittest/gunit/mdl-t.cc), written anew over contexts. A case is a
   function named for what it tries. Sessions 1 to 4 have contexts. One thread makes their calls: a session that waits there sleeps here until it is asked.

   What can't be tried so, since the library doesn't have it:
   - the hog and pig tests: with max_write_lock_count, locks that are granted out of turn are counted, and waiting ones get their turn then
   - ForceDMLDeadlockWeight: a session can't be made a victim before others; a search looks at the modes alone
   - the notifications of storage engines before an exclusive lock is granted and after it is released
   - notify_shared_lock and needs_thr_lock_abort: the host asks gaz_one_locks and gaz_one_clashes whom it has to wake
   - the tests that fail an assertion of the server: a context that ends with tickets releases them, and a shared lock that can't be upgraded is refused
   - the tests of MDL_key that cut names that are too long: they are refused
   - the count of locks that nobody uses: a place without pins is given to the next key
   - the tests of threads that race for the fast path of a lock: threads make their calls here one at a time */
#include "gaz_one_all.h"

#include <stdio.h>
#include <string.h>

#define NAME(text) (const uint8_t *)(text), strlen(text)
#define TABLE(name) GAZ_TABLE, NAME("db"), NAME(name)
#define SCHEMA GAZ_SCHEMA, NAME("db"), NAME("")
#define GLOBAL GAZ_GLOBAL, NAME(""), NAME("")
#define COMMIT GAZ_COMMIT, NAME(""), NAME("")
#define USER(name) GAZ_USER_LEVEL_LOCK, NAME(name), NAME("")

enum { PLACES = 16, SESSIONS = 4, ROOM = 8, LONGEST = 255 };

static struct gaz_one_space space = GAZ_ONE_SPACE_INIT;
static unsigned cases, wrong;

static void expect(int line, uint32_t wanted, uint32_t found)
{
    if (found == wanted)
        return;
    wrong += 1;
    printf("line %d: %u, not %u\n", line, found, wanted);
}

/* Makes a call, which ought to return this code. */
#define EXPECT(wanted, call) expect(__LINE__, wanted, call)

/* Checks a fact. */
#define CHECK(fact) expect(__LINE__, true, fact)

/* A lock of a table until the transaction ends: its ticket, or the number of the wait. */
static uint32_t acquire(uint16_t who, const char *table, uint8_t mode, uint64_t *number)
{
    return gaz_one_acquire(&space, who, TABLE(table), mode, GAZ_TRANSACTION, number);
}

/* The same, if it needs no wait. */
static uint32_t try_acquire(uint16_t who, const char *table, uint8_t mode, uint64_t *ticket)
{
    return gaz_one_try_acquire(&space, who, TABLE(table), mode, GAZ_TRANSACTION, ticket);
}

static bool is_owner(uint16_t who, const char *table, uint8_t mode)
{
    return gaz_one_holds(&space, who, TABLE(table), mode) == GAZ_DONE;
}

/* How many tickets a session holds. */
static size_t tickets_of(uint16_t who)
{
    struct gaz_ticket tickets[ROOM];
    size_t count = 0;
    EXPECT(GAZ_DONE, gaz_one_held(&space, who, tickets, ROOM, &count));
    return count;
}

/* Whether the wait of this session alone is settled. */
static bool is_woken(uint16_t who)
{
    uint16_t sessions[SESSIONS] = {0};
    size_t count = 0;
    EXPECT(GAZ_DONE, gaz_one_settled(&space, sessions, SESSIONS, &count));
    return count == 1 && sessions[0] == who;
}

/* A lock in one mode is the session's. Asked for again, it is the same ticket, and it goes with the transaction. */
static void one_lock(uint8_t mode)
{
    uint64_t ticket = 0, again = 0;
    EXPECT(GAZ_DONE, acquire(1, "t1", mode, &ticket));
    CHECK(is_owner(1, "t1", mode));
    EXPECT(GAZ_DONE, try_acquire(1, "t1", mode, &again));
    CHECK(again == ticket && tickets_of(1) == 1);
    EXPECT(GAZ_DONE, gaz_one_end_transaction(&space, 1));
    CHECK(!is_owner(1, "t1", mode) && tickets_of(1) == 0);
}

static void one_shared(void) { one_lock(GAZ_S); }
static void one_shared_high_prio(void) { one_lock(GAZ_SH); }
static void one_shared_read(void) { one_lock(GAZ_SR); }
static void one_shared_write(void) { one_lock(GAZ_SW); }
static void one_shared_write_low_prio(void) { one_lock(GAZ_SWLP); }
static void one_shared_upgradable(void) { one_lock(GAZ_SU); }
static void one_shared_read_only(void) { one_lock(GAZ_SRO); }
static void one_shared_no_write(void) { one_lock(GAZ_SNW); }
static void one_shared_no_read_write(void) { one_lock(GAZ_SNRW); }
static void one_exclusive(void) { one_lock(GAZ_X); }

/* Two locks of one session, one for the transaction and one explicit. Each goes by its own call. */
static void two_shared(void)
{
    uint64_t first = 0, second = 0;
    EXPECT(GAZ_DONE, acquire(1, "t1", GAZ_S, &first));
    EXPECT(GAZ_DONE, gaz_one_acquire(&space, 1, TABLE("t2"), GAZ_S, GAZ_EXPLICIT, &second));
    CHECK(first != second && is_owner(1, "t1", GAZ_S) && is_owner(1, "t2", GAZ_S) && !is_owner(1, "t3", GAZ_S));
    EXPECT(GAZ_DONE, gaz_one_context_release(&space, 1, first));
    CHECK(!is_owner(1, "t1", GAZ_S) && is_owner(1, "t2", GAZ_S));
    EXPECT(GAZ_DONE, gaz_one_end_transaction(&space, 1));
    CHECK(is_owner(1, "t2", GAZ_S));
    EXPECT(GAZ_DONE, gaz_one_context_release(&space, 1, second));
    CHECK(!is_owner(1, "t2", GAZ_S));
}

/* Two sessions read one table, and each has a ticket of its own. */
static void shared_locks_between_contexts(void)
{
    uint64_t ticket = 0;
    EXPECT(GAZ_DONE, try_acquire(1, "t1", GAZ_SR, &ticket));
    EXPECT(GAZ_DONE, try_acquire(2, "t1", GAZ_SR, &ticket));
    CHECK(is_owner(1, "t1", GAZ_SR) && is_owner(2, "t1", GAZ_SR));
    EXPECT(GAZ_DONE, gaz_one_end_transaction(&space, 1));
    CHECK(!is_owner(1, "t1", GAZ_SR) && is_owner(2, "t1", GAZ_SR));
}

/* An upgradable lock becomes exclusive, and its ticket has the same number. */
static void upgrade_shared_upgradable(void)
{
    uint64_t ticket = 0, number = 0;
    EXPECT(GAZ_DONE, acquire(1, "t1", GAZ_SU, &ticket));
    CHECK(!is_owner(1, "t1", GAZ_X));
    EXPECT(GAZ_DONE, gaz_one_context_upgrade(&space, 1, ticket, GAZ_X, &number));
    CHECK(number == ticket && is_owner(1, "t1", GAZ_X) && tickets_of(1) == 1);
}

/* A shared lock can't be upgraded to any mode. (The server fails an assertion.) */
static void die_upgrade_shared(void)
{
    uint64_t ticket = 0, number = 0;
    EXPECT(GAZ_DONE, acquire(1, "t1", GAZ_S, &ticket));
    for (uint8_t mode = GAZ_SNW; mode <= GAZ_X; mode += 1)
        EXPECT(GAZ_NOT_UPGRADABLE, gaz_one_context_upgrade(&space, 1, ticket, mode, &number));
    CHECK(is_owner(1, "t1", GAZ_S) && !is_owner(1, "t1", GAZ_SR));
}

/* A context that ends releases its tickets. (The server fails an assertion.) */
static void die_when_tickets_are_left(void)
{
    uint64_t ticket = 0;
    EXPECT(GAZ_DONE, acquire(1, "t1", GAZ_X, &ticket));
    EXPECT(GAZ_DONE, gaz_one_context_end(&space, 1));
    EXPECT(GAZ_DONE, try_acquire(2, "t1", GAZ_X, &ticket));
}

/* Going back to a savepoint releases what was gained since, of the statement and of the transaction. */
static void save_point(void)
{
    struct gaz_mark mark = {0, 0};
    uint64_t ticket = 0;
    EXPECT(GAZ_DONE, gaz_one_acquire(&space, 1, TABLE("t1"), GAZ_S, GAZ_STATEMENT, &ticket));
    EXPECT(GAZ_DONE, acquire(1, "t2", GAZ_SR, &ticket));
    EXPECT(GAZ_DONE, gaz_one_savepoint(&space, 1, &mark));
    EXPECT(GAZ_DONE, gaz_one_acquire(&space, 1, TABLE("t3"), GAZ_S, GAZ_STATEMENT, &ticket));
    EXPECT(GAZ_DONE, acquire(1, "t4", GAZ_SW, &ticket));
    EXPECT(GAZ_DONE, gaz_one_rollback_to(&space, 1, mark));
    CHECK(is_owner(1, "t1", GAZ_S) && is_owner(1, "t2", GAZ_SR) && !is_owner(1, "t3", GAZ_S) && !is_owner(1, "t4", GAZ_SW));
    EXPECT(GAZ_DONE, gaz_one_end_statement(&space, 1));
    CHECK(!is_owner(1, "t1", GAZ_S) && is_owner(1, "t2", GAZ_SR));
    EXPECT(GAZ_DONE, gaz_one_end_transaction(&space, 1));
    CHECK(tickets_of(1) == 0);
}

/* Going back to a savepoint wakes those who wait for what was gained since. */
static void save_point_makes_way(void)
{
    struct gaz_mark mark = {0, 0};
    uint64_t ticket = 0;
    EXPECT(GAZ_DONE, gaz_one_savepoint(&space, 1, &mark));
    EXPECT(GAZ_DONE, acquire(1, "t1", GAZ_SW, &ticket));
    EXPECT(GAZ_WAITING, acquire(2, "t1", GAZ_X, &ticket));
    EXPECT(GAZ_DONE, gaz_one_rollback_to(&space, 1, mark));
    CHECK(is_woken(2));
    EXPECT(GAZ_DONE, gaz_one_resume(&space, 2, &ticket));
    CHECK(is_owner(2, "t1", GAZ_X));
}

/* Shared locks of all sessions go together. */
static void concurrent_shared(void)
{
    uint64_t ticket = 0;
    for (uint16_t who = 1; who <= SESSIONS; who += 1)
        EXPECT(GAZ_DONE, acquire(who, "t1", GAZ_S, &ticket));
    for (uint16_t who = 1; who <= SESSIONS; who += 1)
        CHECK(is_owner(who, "t1", GAZ_S));
}

/* A session that wants a lock alone waits for one that shares it. */
static void concurrent_shared_exclusive(void)
{
    uint64_t ticket = 0;
    EXPECT(GAZ_DONE, acquire(1, "t1", GAZ_S, &ticket));
    EXPECT(GAZ_WAITING, acquire(2, "t1", GAZ_X, &ticket));
    EXPECT(GAZ_WAITING, gaz_one_resume(&space, 2, &ticket));
    EXPECT(GAZ_DONE, gaz_one_end_transaction(&space, 1));
    CHECK(is_woken(2));
    EXPECT(GAZ_DONE, gaz_one_resume(&space, 2, &ticket));
    CHECK(is_owner(2, "t1", GAZ_X));
}

/* A session that wants to share a lock waits for one that has it alone. */
static void concurrent_exclusive_shared(void)
{
    uint64_t ticket = 0;
    EXPECT(GAZ_DONE, acquire(1, "t1", GAZ_X, &ticket));
    EXPECT(GAZ_WAITING, acquire(2, "t1", GAZ_S, &ticket));
    EXPECT(GAZ_DONE, gaz_one_end_transaction(&space, 1));
    CHECK(is_woken(2));
    EXPECT(GAZ_DONE, gaz_one_resume(&space, 2, &ticket));
    CHECK(is_owner(2, "t1", GAZ_S) && !is_owner(1, "t1", GAZ_S));
}

/* An upgrade waits for another session's shared lock. */
static void concurrent_upgrade(void)
{
    uint64_t ticket = 0, number = 0;
    EXPECT(GAZ_DONE, acquire(1, "t1", GAZ_SU, &ticket));
    EXPECT(GAZ_DONE, acquire(2, "t1", GAZ_S, &number));
    EXPECT(GAZ_WAITING, gaz_one_context_upgrade(&space, 1, ticket, GAZ_X, &number));
    CHECK(!is_owner(1, "t1", GAZ_X) && is_owner(1, "t1", GAZ_SU));
    EXPECT(GAZ_DONE, gaz_one_end_transaction(&space, 2));
    CHECK(is_woken(1));
    EXPECT(GAZ_DONE, gaz_one_resume(&space, 1, &number));
    CHECK(number == ticket && is_owner(1, "t1", GAZ_X) && tickets_of(1) == 1);
}

/* One upgradable lock keeps others of its kind out, and lets readers and writers in. */
static void upgradable_concurrency(void)
{
    uint64_t ticket = 0;
    EXPECT(GAZ_DONE, acquire(1, "t1", GAZ_SU, &ticket));
    EXPECT(GAZ_WOULD_WAIT, try_acquire(2, "t1", GAZ_SU, &ticket));
    EXPECT(GAZ_DONE, try_acquire(3, "t1", GAZ_SR, &ticket));
    EXPECT(GAZ_DONE, try_acquire(4, "t1", GAZ_SW, &ticket));
}

/* While a table is copied (SNW) it is read, and not written. */
static void no_write_concurrency(void)
{
    uint64_t ticket = 0;
    EXPECT(GAZ_DONE, acquire(1, "t1", GAZ_SNW, &ticket));
    EXPECT(GAZ_DONE, try_acquire(2, "t1", GAZ_SR, &ticket));
    EXPECT(GAZ_WOULD_WAIT, try_acquire(3, "t1", GAZ_SW, &ticket));
    EXPECT(GAZ_WOULD_WAIT, try_acquire(4, "t1", GAZ_SWLP, &ticket));
}

/* LOCK TABLES .. WRITE (SNRW) lets only those in who look at a table's definition. */
static void no_read_write_concurrency(void)
{
    uint64_t ticket = 0;
    EXPECT(GAZ_DONE, acquire(1, "t1", GAZ_SNRW, &ticket));
    EXPECT(GAZ_DONE, try_acquire(2, "t1", GAZ_S, &ticket));
    EXPECT(GAZ_DONE, try_acquire(3, "t1", GAZ_SH, &ticket));
    EXPECT(GAZ_WOULD_WAIT, try_acquire(4, "t1", GAZ_SR, &ticket));
}

/* LOCK TABLES .. READ (SRO) lets readers in, and no writers. */
static void read_only_concurrency(void)
{
    uint64_t ticket = 0;
    EXPECT(GAZ_DONE, acquire(1, "t1", GAZ_SRO, &ticket));
    EXPECT(GAZ_DONE, try_acquire(2, "t1", GAZ_SRO, &ticket));
    EXPECT(GAZ_DONE, try_acquire(2, "t1", GAZ_SR, &ticket));
    EXPECT(GAZ_WOULD_WAIT, try_acquire(3, "t1", GAZ_SW, &ticket));
}

/* Those who read wait behind one who waits for the table alone, and not SH, which has priority. */
static void shared_high_prio_overtakes(void)
{
    uint64_t ticket = 0;
    EXPECT(GAZ_DONE, acquire(1, "t1", GAZ_SR, &ticket));
    EXPECT(GAZ_WAITING, acquire(2, "t1", GAZ_X, &ticket));
    EXPECT(GAZ_WOULD_WAIT, try_acquire(3, "t1", GAZ_SR, &ticket));
    EXPECT(GAZ_WOULD_WAIT, try_acquire(3, "t1", GAZ_S, &ticket));
    EXPECT(GAZ_DONE, try_acquire(4, "t1", GAZ_SH, &ticket));
}

/* Of two who wait to write, the one of low priority lets LOCK TABLES .. READ pass, and the other one doesn't. */
static void low_prio_lets_pass(void)
{
    uint64_t ticket = 0;
    EXPECT(GAZ_DONE, acquire(1, "t1", GAZ_SNW, &ticket));
    EXPECT(GAZ_WAITING, acquire(2, "t1", GAZ_SWLP, &ticket));
    EXPECT(GAZ_DONE, try_acquire(3, "t1", GAZ_SRO, &ticket));
    EXPECT(GAZ_DONE, gaz_one_end_transaction(&space, 3));
    EXPECT(GAZ_WAITING, acquire(4, "t1", GAZ_SW, &ticket));
    EXPECT(GAZ_WOULD_WAIT, try_acquire(3, "t1", GAZ_SRO, &ticket));
}

/* Waits are granted in the order of their priority, and those that go together at once. */
static void exclusive_before_shared(void)
{
    uint64_t ticket = 0;
    EXPECT(GAZ_DONE, acquire(1, "t1", GAZ_X, &ticket));
    EXPECT(GAZ_WAITING, acquire(2, "t1", GAZ_SR, &ticket));
    EXPECT(GAZ_WAITING, acquire(3, "t1", GAZ_X, &ticket));
    EXPECT(GAZ_WAITING, acquire(4, "t1", GAZ_SR, &ticket));
    EXPECT(GAZ_DONE, gaz_one_end_transaction(&space, 1));
    CHECK(is_woken(3));
    EXPECT(GAZ_DONE, gaz_one_resume(&space, 3, &ticket));
    EXPECT(GAZ_DONE, gaz_one_end_transaction(&space, 3));
    EXPECT(GAZ_DONE, gaz_one_resume(&space, 2, &ticket));
    EXPECT(GAZ_DONE, gaz_one_resume(&space, 4, &ticket));
}

/* A downgrade lets those in who waited for it. */
static void downgrade_exclusive(void)
{
    uint64_t ticket = 0, number = 0;
    EXPECT(GAZ_DONE, acquire(1, "t1", GAZ_X, &ticket));
    EXPECT(GAZ_WAITING, acquire(2, "t1", GAZ_SR, &number));
    EXPECT(GAZ_DONE, gaz_one_context_downgrade(&space, 1, ticket, GAZ_SNW));
    CHECK(is_woken(2) && is_owner(1, "t1", GAZ_SNW) && !is_owner(1, "t1", GAZ_X));
    EXPECT(GAZ_DONE, gaz_one_resume(&space, 2, &number));
    EXPECT(GAZ_WOULD_WAIT, try_acquire(3, "t1", GAZ_SW, &number));
}

/* A lock that the session has for another duration is cloned: it needs no wait, even behind one who waits for the table alone. */
static void clone_for_another_duration(void)
{
    uint64_t first = 0, second = 0;
    EXPECT(GAZ_DONE, acquire(1, "t1", GAZ_SW, &first));
    EXPECT(GAZ_WAITING, acquire(2, "t1", GAZ_X, &second));
    EXPECT(GAZ_DONE, gaz_one_try_acquire(&space, 1, TABLE("t1"), GAZ_SR, GAZ_STATEMENT, &second));
    CHECK(first != second && tickets_of(1) == 2);
    EXPECT(GAZ_DONE, gaz_one_end_statement(&space, 1));
    CHECK(is_owner(1, "t1", GAZ_SW) && tickets_of(1) == 1);
}

/* A stronger lock serves as a weaker one, and a weaker one not as a stronger. */
static void stronger_lock_is_enough(void)
{
    uint64_t first = 0, second = 0;
    EXPECT(GAZ_DONE, acquire(1, "t1", GAZ_SW, &first));
    EXPECT(GAZ_DONE, acquire(1, "t1", GAZ_SR, &second));
    CHECK(second == first && tickets_of(1) == 1);
    EXPECT(GAZ_DONE, acquire(1, "t1", GAZ_SU, &second));
    CHECK(second != first && tickets_of(1) == 2);
}

/* Explicit tickets outlast the transaction, and each is released by itself. */
static void explicit_duration(void)
{
    uint64_t first = 0, second = 0;
    EXPECT(GAZ_DONE, gaz_one_acquire(&space, 1, TABLE("t1"), GAZ_SR, GAZ_EXPLICIT, &first));
    EXPECT(GAZ_DONE, gaz_one_acquire(&space, 1, TABLE("t1"), GAZ_SR, GAZ_EXPLICIT, &second));
    CHECK(second != first);
    EXPECT(GAZ_DONE, gaz_one_end_transaction(&space, 1));
    EXPECT(GAZ_DONE, gaz_one_context_release(&space, 1, first));
    CHECK(is_owner(1, "t1", GAZ_SR));
    EXPECT(GAZ_DONE, gaz_one_context_release(&space, 1, second));
    CHECK(!is_owner(1, "t1", GAZ_SR));
}

/* HANDLER .. OPEN: a lock of the statement becomes explicit, and UNLOCK TABLES makes it one of the transaction. */
static void set_lock_duration(void)
{
    uint64_t ticket = 0;
    EXPECT(GAZ_DONE, gaz_one_acquire(&space, 1, TABLE("t1"), GAZ_S, GAZ_STATEMENT, &ticket));
    EXPECT(GAZ_DONE, gaz_one_set_duration(&space, 1, ticket, GAZ_EXPLICIT));
    EXPECT(GAZ_DONE, gaz_one_end_transaction(&space, 1));
    CHECK(is_owner(1, "t1", GAZ_S));
    EXPECT(GAZ_DONE, gaz_one_set_duration(&space, 1, ticket, GAZ_TRANSACTION));
    EXPECT(GAZ_DONE, gaz_one_end_statement(&space, 1));
    CHECK(is_owner(1, "t1", GAZ_S));
    EXPECT(GAZ_DONE, gaz_one_end_transaction(&space, 1));
    CHECK(!is_owner(1, "t1", GAZ_S));
}

/* LOCK TABLES makes all locks explicit, and UNLOCK TABLES gives them back to the transaction. */
static void set_duration_for_all_locks(void)
{
    uint64_t ticket = 0;
    EXPECT(GAZ_DONE, gaz_one_acquire(&space, 1, TABLE("t1"), GAZ_SRO, GAZ_STATEMENT, &ticket));
    EXPECT(GAZ_DONE, acquire(1, "t2", GAZ_SNRW, &ticket));
    EXPECT(GAZ_DONE, gaz_one_make_explicit(&space, 1));
    EXPECT(GAZ_DONE, gaz_one_end_transaction(&space, 1));
    CHECK(is_owner(1, "t1", GAZ_SRO) && is_owner(1, "t2", GAZ_SNRW));
    EXPECT(GAZ_DONE, gaz_one_make_transactional(&space, 1));
    EXPECT(GAZ_DONE, gaz_one_end_statement(&space, 1));
    CHECK(is_owner(1, "t1", GAZ_SRO));
    EXPECT(GAZ_DONE, gaz_one_end_transaction(&space, 1));
    CHECK(tickets_of(1) == 0);
}

/* All tickets of one table are released, whatever their durations. */
static void release_all_locks_for_name(void)
{
    uint64_t ticket = 0;
    EXPECT(GAZ_DONE, acquire(1, "t1", GAZ_SW, &ticket));
    EXPECT(GAZ_DONE, gaz_one_acquire(&space, 1, TABLE("t1"), GAZ_SR, GAZ_EXPLICIT, &ticket));
    EXPECT(GAZ_DONE, acquire(1, "t2", GAZ_SW, &ticket));
    EXPECT(GAZ_DONE, gaz_one_release_name(&space, 1, TABLE("t1")));
    CHECK(!is_owner(1, "t1", GAZ_SR) && is_owner(1, "t2", GAZ_SW) && tickets_of(1) == 1);
}

/* Two sessions wait for each other. The one whose wait weighs less, a writer's, is the victim, whoever began last. */
static void deadlock_of_writer_and_changer(void)
{
    uint64_t ticket = 0;
    EXPECT(GAZ_DONE, acquire(1, "t1", GAZ_SW, &ticket));
    EXPECT(GAZ_DONE, acquire(2, "t2", GAZ_X, &ticket));
    EXPECT(GAZ_WAITING, acquire(1, "t2", GAZ_SW, &ticket));
    EXPECT(GAZ_WAITING, acquire(2, "t1", GAZ_X, &ticket));
    CHECK(is_woken(1));
    EXPECT(GAZ_VICTIM, gaz_one_resume(&space, 1, &ticket));
    CHECK(is_owner(1, "t1", GAZ_SW));
    EXPECT(GAZ_DONE, gaz_one_end_transaction(&space, 1));
    EXPECT(GAZ_DONE, gaz_one_resume(&space, 2, &ticket));
    CHECK(is_owner(2, "t1", GAZ_X));
}

/* Where both waits weigh the same, the session of the greater number is the victim. (In the server it is the one that closes the circle.) */
static void deadlock_of_equals(void)
{
    uint64_t ticket = 0;
    EXPECT(GAZ_DONE, acquire(1, "t1", GAZ_X, &ticket));
    EXPECT(GAZ_DONE, acquire(2, "t2", GAZ_X, &ticket));
    EXPECT(GAZ_WAITING, acquire(2, "t1", GAZ_X, &ticket));
    EXPECT(GAZ_WAITING, acquire(1, "t2", GAZ_X, &ticket));
    CHECK(is_woken(2));
    EXPECT(GAZ_VICTIM, gaz_one_resume(&space, 2, &ticket));
    EXPECT(GAZ_DONE, gaz_one_end_transaction(&space, 2));
    EXPECT(GAZ_DONE, gaz_one_resume(&space, 1, &ticket));
}

/* Two sessions want to change one table: the second one's request waits for the first one's lock, which can't be upgraded while the second one reads. */
static void deadlock_of_an_upgrade(void)
{
    uint64_t ticket = 0, number = 0;
    EXPECT(GAZ_DONE, acquire(1, "t1", GAZ_SU, &ticket));
    EXPECT(GAZ_DONE, acquire(2, "t1", GAZ_SR, &number));
    EXPECT(GAZ_WAITING, acquire(2, "t1", GAZ_SU, &number));
    EXPECT(GAZ_WAITING, gaz_one_context_upgrade(&space, 1, ticket, GAZ_X, &number));
    EXPECT(GAZ_VICTIM, gaz_one_resume(&space, 2, &number));
    EXPECT(GAZ_DONE, gaz_one_end_transaction(&space, 2));
    EXPECT(GAZ_DONE, gaz_one_resume(&space, 1, &number));
    CHECK(is_owner(1, "t1", GAZ_X));
}

/* A circle of three has one victim. */
static void deadlock_of_three(void)
{
    static const char *const tables[] = {"t1", "t2", "t3"};
    uint64_t ticket = 0;
    for (uint16_t who = 1; who <= 3; who += 1)
        EXPECT(GAZ_DONE, acquire(who, tables[who - 1], GAZ_X, &ticket));
    for (uint16_t who = 1; who <= 3; who += 1)
        EXPECT(GAZ_WAITING, acquire(who, tables[who % 3], GAZ_SW, &ticket));
    CHECK(is_woken(3));
    EXPECT(GAZ_VICTIM, gaz_one_resume(&space, 3, &ticket));
    EXPECT(GAZ_DONE, gaz_one_end_transaction(&space, 3));
    EXPECT(GAZ_DONE, gaz_one_resume(&space, 2, &ticket));
}

/* A wait for a user-level lock weighs more than one to write, and less than one to change a table. */
static void deadlock_of_user_locks(void)
{
    uint64_t ticket = 0;
    EXPECT(GAZ_DONE, gaz_one_acquire(&space, 1, USER("job"), GAZ_X, GAZ_EXPLICIT, &ticket));
    EXPECT(GAZ_DONE, acquire(2, "t1", GAZ_X, &ticket));
    EXPECT(GAZ_WAITING, gaz_one_acquire(&space, 2, USER("job"), GAZ_X, GAZ_EXPLICIT, &ticket));
    EXPECT(GAZ_WAITING, acquire(1, "t1", GAZ_SW, &ticket));
    EXPECT(GAZ_VICTIM, gaz_one_resume(&space, 1, &ticket));
    EXPECT(GAZ_WAITING, acquire(1, "t1", GAZ_X, &ticket));
    EXPECT(GAZ_VICTIM, gaz_one_resume(&space, 2, &ticket));
}

/* A wait that takes too long is lost, and so are no locks. */
static void wait_timeout(void)
{
    uint64_t ticket = 0;
    EXPECT(GAZ_DONE, acquire(1, "t1", GAZ_X, &ticket));
    EXPECT(GAZ_DONE, acquire(2, "t2", GAZ_X, &ticket));
    EXPECT(GAZ_WAITING, acquire(2, "t1", GAZ_S, &ticket));
    EXPECT(GAZ_TIMEOUT, gaz_one_give_up(&space, 2, &ticket));
    CHECK(is_owner(2, "t2", GAZ_X) && tickets_of(2) == 1);
    EXPECT(GAZ_NO_WAIT, gaz_one_resume(&space, 2, &ticket));
}

/* Another session kills a wait. */
static void wait_killed(void)
{
    uint64_t ticket = 0, number = 0;
    EXPECT(GAZ_DONE, acquire(1, "t1", GAZ_X, &ticket));
    EXPECT(GAZ_WAITING, acquire(2, "t1", GAZ_S, &ticket));
    EXPECT(GAZ_DONE, gaz_one_wait_of(&space, 2, &number));
    EXPECT(GAZ_DONE, gaz_one_kill(&space, 2, number));
    EXPECT(GAZ_NOT_KILLED, gaz_one_kill(&space, 2, number));
    CHECK(is_woken(2));
    EXPECT(GAZ_KILLED, gaz_one_resume(&space, 2, &ticket));
}

/* A wait that is granted can't be lost any more. */
static void first_end_of_a_wait_counts(void)
{
    uint64_t ticket = 0, number = 0;
    EXPECT(GAZ_DONE, acquire(1, "t1", GAZ_X, &ticket));
    EXPECT(GAZ_WAITING, acquire(2, "t1", GAZ_S, &number));
    EXPECT(GAZ_DONE, gaz_one_end_transaction(&space, 1));
    EXPECT(GAZ_NOT_KILLED, gaz_one_kill(&space, 2, number));
    EXPECT(GAZ_DONE, gaz_one_time_out(&space, 2));
    EXPECT(GAZ_DONE, gaz_one_give_up(&space, 2, &ticket));
    CHECK(is_owner(2, "t1", GAZ_S));
}

/* A request that doesn't wait changes nothing, and makes nobody a victim. */
static void try_acquire_lock(void)
{
    uint64_t ticket = 0;
    EXPECT(GAZ_DONE, acquire(1, "t1", GAZ_SW, &ticket));
    EXPECT(GAZ_DONE, acquire(2, "t2", GAZ_X, &ticket));
    EXPECT(GAZ_WAITING, acquire(1, "t2", GAZ_SW, &ticket));
    EXPECT(GAZ_WOULD_WAIT, try_acquire(2, "t1", GAZ_X, &ticket));
    EXPECT(GAZ_WAITING, gaz_one_resume(&space, 1, &ticket));
    EXPECT(GAZ_NO_WAIT, gaz_one_resume(&space, 2, &ticket));
    CHECK(tickets_of(2) == 1);
}

/* FLUSH TABLES WITH READ LOCK: the global lock in S waits for those who change something, and stops the next ones, as the lock of commits does. */
static void global_read_lock(void)
{
    uint64_t ticket = 0;
    EXPECT(GAZ_DONE, gaz_one_acquire(&space, 1, GLOBAL, GAZ_IX, GAZ_STATEMENT, &ticket));
    EXPECT(GAZ_WAITING, gaz_one_acquire(&space, 2, GLOBAL, GAZ_S, GAZ_EXPLICIT, &ticket));
    EXPECT(GAZ_WOULD_WAIT, gaz_one_try_acquire(&space, 3, GLOBAL, GAZ_IX, GAZ_STATEMENT, &ticket));
    EXPECT(GAZ_DONE, gaz_one_end_statement(&space, 1));
    EXPECT(GAZ_DONE, gaz_one_resume(&space, 2, &ticket));
    EXPECT(GAZ_DONE, gaz_one_try_acquire(&space, 3, GLOBAL, GAZ_S, GAZ_EXPLICIT, &ticket));
    EXPECT(GAZ_DONE, gaz_one_acquire(&space, 2, COMMIT, GAZ_S, GAZ_EXPLICIT, &ticket));
    EXPECT(GAZ_WOULD_WAIT, gaz_one_try_acquire(&space, 1, COMMIT, GAZ_IX, GAZ_EXPLICIT, &ticket));
    EXPECT(GAZ_DONE, gaz_one_release_explicit(&space, 2));
    EXPECT(GAZ_DONE, gaz_one_try_acquire(&space, 1, COMMIT, GAZ_IX, GAZ_EXPLICIT, &ticket));
}

/* DROP DATABASE waits for those who change tables of the schema, and they for it. */
static void scoped_locks_of_a_schema(void)
{
    uint64_t ticket = 0;
    EXPECT(GAZ_DONE, gaz_one_acquire(&space, 1, SCHEMA, GAZ_IX, GAZ_TRANSACTION, &ticket));
    EXPECT(GAZ_DONE, gaz_one_acquire(&space, 2, SCHEMA, GAZ_IX, GAZ_TRANSACTION, &ticket));
    EXPECT(GAZ_WOULD_WAIT, gaz_one_try_acquire(&space, 3, SCHEMA, GAZ_X, GAZ_TRANSACTION, &ticket));
    EXPECT(GAZ_BAD_MODE, gaz_one_try_acquire(&space, 3, SCHEMA, GAZ_SW, GAZ_TRANSACTION, &ticket));
    EXPECT(GAZ_DONE, gaz_one_end_transaction(&space, 1));
    EXPECT(GAZ_DONE, gaz_one_end_transaction(&space, 2));
    EXPECT(GAZ_DONE, gaz_one_try_acquire(&space, 3, SCHEMA, GAZ_X, GAZ_TRANSACTION, &ticket));
    EXPECT(GAZ_WOULD_WAIT, gaz_one_try_acquire(&space, 1, SCHEMA, GAZ_IX, GAZ_TRANSACTION, &ticket));
}

/* Keys of different kinds with the same name are different locks. */
static void namespaces_are_apart(void)
{
    uint64_t ticket = 0;
    EXPECT(GAZ_DONE, gaz_one_acquire(&space, 1, TABLE("db"), GAZ_X, GAZ_TRANSACTION, &ticket));
    EXPECT(GAZ_DONE, gaz_one_try_acquire(&space, 2, SCHEMA, GAZ_X, GAZ_TRANSACTION, &ticket));
    EXPECT(GAZ_DONE, gaz_one_try_acquire(&space, 3, USER("db"), GAZ_X, GAZ_EXPLICIT, &ticket));
}

/* Who has a lock is found in its list, as is who waits. */
static void find_lock_owner(void)
{
    struct gaz_lock locks[ROOM];
    uint64_t ticket = 0;
    size_t count = 0;
    EXPECT(GAZ_DONE, gaz_one_acquire(&space, 3, TABLE("t1"), GAZ_X, GAZ_EXPLICIT, &ticket));
    EXPECT(GAZ_WAITING, gaz_one_acquire(&space, 1, TABLE("t1"), GAZ_S, GAZ_STATEMENT, &ticket));
    EXPECT(GAZ_DONE, gaz_one_locks(&space, 1, locks, ROOM, &count));
    CHECK(count == 2 && locks[0].session == 3 && locks[0].status == GAZ_GRANTED && locks[0].duration == GAZ_EXPLICIT);
    CHECK(locks[1].session == 1 && locks[1].status == GAZ_PENDING && locks[1].duration == GAZ_STATEMENT);
    EXPECT(GAZ_WOULD_WAIT, gaz_one_clashes(GAZ_TABLE, locks[0].mode, locks[1].mode));
}

/* A name that is too long is refused. (The server cuts it off.) */
static void truncate_too_long_name(void)
{
    char name[LONGEST + 2];
    uint64_t ticket = 0;
    memset(name, 'a', LONGEST + 1);
    name[LONGEST + 1] = 0;
    EXPECT(GAZ_LONG_NAME, acquire(1, name, GAZ_S, &ticket));
    EXPECT(GAZ_DONE, acquire(1, name + 1, GAZ_S, &ticket));
}

/* A request of a table's lock until the transaction ends. */
static struct gaz_request table_request(const char *table, uint8_t mode)
{
    return (struct gaz_request){TABLE(table), mode, GAZ_TRANSACTION, 0};
}

/* Several locks are acquired in the order of their keys: by namespace, and by names, of which one goes before those that it begins. */
static void acquire_all_in_order(void)
{
    struct gaz_request wanted[] = {{USER("a"), GAZ_X, GAZ_EXPLICIT, 0}, {TABLE("t2"), GAZ_SR, GAZ_TRANSACTION, 0}, {TABLE("t10"), GAZ_SW, GAZ_TRANSACTION, 0},
                                   {GAZ_COMMIT, NULL, 0, NULL, 0, GAZ_IX, GAZ_TRANSACTION, 0}, {TABLE("t1"), GAZ_X, GAZ_TRANSACTION, 0},
                                   {GAZ_TABLE, NAME("da"), NAME("t9"), GAZ_SH, GAZ_STATEMENT, 0}, {GAZ_GLOBAL, NULL, 0, NULL, 0, GAZ_IX, GAZ_STATEMENT, 0}};
    struct gaz_requests all = GAZ_REQUESTS_INIT(wanted, sizeof wanted / sizeof *wanted);
    struct gaz_ticket tickets[ROOM];
    size_t count = 0;
    EXPECT(GAZ_DONE, gaz_one_acquire_all(&space, 1, &all));
    EXPECT(GAZ_DONE, gaz_one_held(&space, 1, tickets, ROOM, &count));
    CHECK(count == all.count);
    for (size_t at = 0; at < count; at += 1)
        CHECK(wanted[at].ticket == tickets[at].ticket && wanted[at].mode == tickets[at].mode);
    CHECK(wanted[0].namespace_ == GAZ_GLOBAL && wanted[1].mode == GAZ_SH && wanted[2].mode == GAZ_X && wanted[3].mode == GAZ_SW);
    CHECK(wanted[4].mode == GAZ_SR && wanted[5].namespace_ == GAZ_COMMIT && wanted[6].namespace_ == GAZ_USER_LEVEL_LOCK);
    all.count = 0;
    EXPECT(GAZ_DONE, gaz_one_acquire_all(&space, 1, &all));
    EXPECT(GAZ_DONE, gaz_one_try_all(&space, 1, &all));
}

/* All locks can be had without waiting, or none is: explicit ones go, too, and what the session had before stays. */
static void try_all_or_none(void)
{
    struct gaz_request wanted[] = {table_request("t3", GAZ_SR), table_request("t1", GAZ_SW), table_request("t2", GAZ_SR),
                                   {TABLE("t1"), GAZ_SR, GAZ_EXPLICIT, 0}, {TABLE("t1"), GAZ_SH, GAZ_EXPLICIT, 0}, {TABLE("t2"), GAZ_SH, GAZ_STATEMENT, 0}};
    struct gaz_requests all = GAZ_REQUESTS_INIT(wanted, 6);
    uint64_t first = 0, ticket = 0;
    EXPECT(GAZ_DONE, acquire(1, "t2", GAZ_SW, &first));
    EXPECT(GAZ_DONE, acquire(2, "t3", GAZ_X, &ticket));
    EXPECT(GAZ_WOULD_WAIT, gaz_one_try_all(&space, 1, &all));
    CHECK(tickets_of(1) == 1 && is_owner(1, "t2", GAZ_SW) && !is_owner(1, "t1", GAZ_SH));
    for (size_t at = 0; at < all.count; at += 1)
        CHECK(wanted[at].ticket == 0);
    EXPECT(GAZ_DONE, gaz_one_end_transaction(&space, 2));
    EXPECT(GAZ_DONE, gaz_one_try_all(&space, 1, &all));
    CHECK(tickets_of(1) == 6 && is_owner(1, "t1", GAZ_SW) && is_owner(1, "t3", GAZ_SR) && wanted[3].ticket == first);
}

/* All locks are waited for, one after the other, each of the session's waits until it is granted. */
static void acquire_all_goes_on(void)
{
    struct gaz_request wanted[] = {table_request("t3", GAZ_SR), table_request("t2", GAZ_SR), table_request("t1", GAZ_SR)};
    struct gaz_requests all = GAZ_REQUESTS_INIT(wanted, 3);
    uint64_t first = 0, third = 0;
    EXPECT(GAZ_DONE, acquire(2, "t1", GAZ_X, &first));
    EXPECT(GAZ_DONE, acquire(2, "t3", GAZ_X, &third));
    EXPECT(GAZ_WAITING, gaz_one_acquire_all(&space, 1, &all));
    EXPECT(GAZ_WAITING, gaz_one_acquire_all(&space, 1, &all));
    CHECK(tickets_of(1) == 0);
    EXPECT(GAZ_DONE, gaz_one_context_release(&space, 2, first));
    CHECK(is_woken(1));
    EXPECT(GAZ_WAITING, gaz_one_acquire_all(&space, 1, &all));
    CHECK(is_owner(1, "t1", GAZ_SR) && is_owner(1, "t2", GAZ_SR) && !is_owner(1, "t3", GAZ_SR) && wanted[1].ticket != 0 && wanted[2].ticket == 0);
    EXPECT(GAZ_DONE, gaz_one_end_transaction(&space, 2));
    EXPECT(GAZ_DONE, gaz_one_acquire_all(&space, 1, &all));
    CHECK(tickets_of(1) == 3 && is_owner(1, "t3", GAZ_SR));
    EXPECT(GAZ_DONE, gaz_one_context_release(&space, 1, wanted[2].ticket));
    CHECK(!is_owner(1, "t3", GAZ_SR) && is_owner(1, "t2", GAZ_SR));
}

/* If a wait for one of them is lost, all go, and may be requested again. */
static void acquire_all_lost(void)
{
    struct gaz_request wanted[] = {table_request("t2", GAZ_SW), table_request("t1", GAZ_SW), {TABLE("t1"), GAZ_SR, GAZ_EXPLICIT, 0}};
    struct gaz_requests all = GAZ_REQUESTS_INIT(wanted, 3);
    uint64_t ticket = 0, number = 0;
    EXPECT(GAZ_DONE, acquire(1, "t1", GAZ_SR, &ticket));
    EXPECT(GAZ_DONE, acquire(2, "t2", GAZ_SRO, &ticket));
    EXPECT(GAZ_WAITING, gaz_one_acquire_all(&space, 1, &all));
    EXPECT(GAZ_WAITING, acquire(3, "t1", GAZ_SRO, &ticket));
    EXPECT(GAZ_TIMEOUT, gaz_one_time_out(&space, 1));
    EXPECT(GAZ_TIMEOUT, gaz_one_acquire_all(&space, 1, &all));
    CHECK(tickets_of(1) == 1 && is_owner(1, "t1", GAZ_SR) && is_woken(3) && wanted[0].ticket == 0);
    EXPECT(GAZ_DONE, gaz_one_resume(&space, 3, &ticket));
    EXPECT(GAZ_DONE, gaz_one_end_transaction(&space, 3));
    EXPECT(GAZ_WAITING, gaz_one_acquire_all(&space, 1, &all));
    EXPECT(GAZ_DONE, gaz_one_wait_of(&space, 1, &number));
    EXPECT(GAZ_DONE, gaz_one_kill(&space, 1, number));
    EXPECT(GAZ_KILLED, gaz_one_acquire_all(&space, 1, &all));
    EXPECT(GAZ_NO_WAIT, gaz_one_poll(&space, 1));
    EXPECT(GAZ_DONE, gaz_one_end_transaction(&space, 2));
    EXPECT(GAZ_DONE, gaz_one_acquire_all(&space, 1, &all));
    CHECK(tickets_of(1) == 4);
}

/* All are given up, also if the wait for one of them is granted meanwhile: the session has none, and waits for none. */
static void acquire_all_given_up(void)
{
    struct gaz_request wanted[] = {table_request("t1", GAZ_SW), {TABLE("t2"), GAZ_SR, GAZ_EXPLICIT, 0}, table_request("t3", GAZ_SW)};
    struct gaz_requests all = GAZ_REQUESTS_INIT(wanted, 3);
    uint64_t ticket = 0;
    EXPECT(GAZ_NO_WAIT, gaz_one_give_up_all(&space, 1, &all));
    EXPECT(GAZ_DONE, acquire(2, "t2", GAZ_X, &ticket));
    EXPECT(GAZ_DONE, acquire(3, "t3", GAZ_X, &ticket));
    EXPECT(GAZ_WAITING, gaz_one_acquire_all(&space, 1, &all));
    EXPECT(GAZ_TIMEOUT, gaz_one_give_up_all(&space, 1, &all));
    CHECK(tickets_of(1) == 0);
    EXPECT(GAZ_NO_WAIT, gaz_one_poll(&space, 1));
    EXPECT(GAZ_WAITING, gaz_one_acquire_all(&space, 1, &all));
    EXPECT(GAZ_DONE, gaz_one_end_transaction(&space, 2));
    EXPECT(GAZ_TIMEOUT, gaz_one_give_up_all(&space, 1, &all));
    CHECK(tickets_of(1) == 0 && wanted[0].ticket == 0 && wanted[1].ticket == 0);
    EXPECT(GAZ_NO_WAIT, gaz_one_poll(&space, 1));
    EXPECT(GAZ_NO_WAIT, gaz_one_give_up_all(&space, 1, &all));
    EXPECT(GAZ_DONE, try_acquire(2, "t2", GAZ_X, &ticket));
}

/* The victim of a deadlock gives up what it has acquired with the others, and what it had before stays: it has to end its transaction. */
static void acquire_all_as_victim(void)
{
    struct gaz_request writes[] = {table_request("t1", GAZ_SW), table_request("t2", GAZ_SW)};
    struct gaz_request changes[] = {table_request("t5", GAZ_X), table_request("t2", GAZ_X)};
    struct gaz_requests writer = GAZ_REQUESTS_INIT(writes, 2), changer = GAZ_REQUESTS_INIT(changes, 2);
    uint64_t ticket = 0;
    EXPECT(GAZ_DONE, acquire(1, "t5", GAZ_SW, &ticket));
    EXPECT(GAZ_WAITING, gaz_one_acquire_all(&space, 2, &changer));
    EXPECT(GAZ_WAITING, gaz_one_acquire_all(&space, 1, &writer));
    CHECK(is_woken(1));
    EXPECT(GAZ_VICTIM, gaz_one_acquire_all(&space, 1, &writer));
    CHECK(!is_owner(1, "t1", GAZ_SW) && is_owner(1, "t5", GAZ_SW));
    EXPECT(GAZ_DONE, gaz_one_end_transaction(&space, 1));
    EXPECT(GAZ_DONE, gaz_one_acquire_all(&space, 2, &changer));
    CHECK(is_owner(2, "t2", GAZ_X) && is_owner(2, "t5", GAZ_X));
}

/* Two sessions that request the same tables in other orders don't deadlock: the second one waits for the first table, and has none. */
static void acquire_all_in_other_orders(void)
{
    struct gaz_request one[] = {table_request("t1", GAZ_X), table_request("t2", GAZ_X)};
    struct gaz_request other[] = {table_request("t2", GAZ_X), table_request("t1", GAZ_X)};
    struct gaz_requests first = GAZ_REQUESTS_INIT(one, 2), second = GAZ_REQUESTS_INIT(other, 2);
    EXPECT(GAZ_DONE, gaz_one_acquire_all(&space, 1, &first));
    EXPECT(GAZ_WAITING, gaz_one_acquire_all(&space, 2, &second));
    CHECK(tickets_of(2) == 0);
    EXPECT(GAZ_DONE, gaz_one_end_transaction(&space, 1));
    EXPECT(GAZ_DONE, gaz_one_acquire_all(&space, 2, &second));
}

/* A request that is refused leaves none of the others. */
static void acquire_all_refused(void)
{
    struct gaz_request wanted[] = {table_request("t1", GAZ_SW), table_request("", GAZ_SW), {SCHEMA, GAZ_IX, GAZ_TRANSACTION, 7}};
    struct gaz_requests all = GAZ_REQUESTS_INIT(wanted, 3);
    EXPECT(GAZ_EMPTY_NAME, gaz_one_acquire_all(&space, 1, &all));
    EXPECT(GAZ_EMPTY_NAME, gaz_one_try_all(&space, 1, &all));
    wanted[1] = table_request("t1", GAZ_IX);
    EXPECT(GAZ_BAD_MODE, gaz_one_try_all(&space, 1, &all));
    EXPECT(GAZ_BAD_MODE, gaz_one_acquire_all(&space, 1, &all));
    CHECK(tickets_of(1) == 0);
    wanted[2].ticket = 7;
    EXPECT(GAZ_NO_SESSION, gaz_one_try_all(&space, SESSIONS + 1, &all));
    CHECK(wanted[2].ticket == 0);
    EXPECT(GAZ_NO_SESSION, gaz_one_acquire_all(&space, SESSIONS + 1, &all));
}

/* Plays a case in a manager of its own. */
static void run(const char *name, void (*play)(void))
{
    unsigned before = wrong;
    EXPECT(GAZ_DONE, gaz_one_open(&space, PLACES, SESSIONS));
    for (uint16_t who = 1; who <= SESSIONS; who += 1)
        EXPECT(GAZ_DONE, gaz_one_context_begin(&space, who));
    play();
    EXPECT(GAZ_DONE, gaz_one_close(&space));
    cases += 1;
    printf("%s%s\n", name, wrong == before ? "" : ": not so");
}

#define CASE(name) run(#name, name)

int main(void)
{
    CASE(one_shared);
    CASE(one_shared_high_prio);
    CASE(one_shared_read);
    CASE(one_shared_write);
    CASE(one_shared_write_low_prio);
    CASE(one_shared_upgradable);
    CASE(one_shared_read_only);
    CASE(one_shared_no_write);
    CASE(one_shared_no_read_write);
    CASE(one_exclusive);
    CASE(two_shared);
    CASE(shared_locks_between_contexts);
    CASE(upgrade_shared_upgradable);
    CASE(die_upgrade_shared);
    CASE(die_when_tickets_are_left);
    CASE(save_point);
    CASE(save_point_makes_way);
    CASE(concurrent_shared);
    CASE(concurrent_shared_exclusive);
    CASE(concurrent_exclusive_shared);
    CASE(concurrent_upgrade);
    CASE(upgradable_concurrency);
    CASE(no_write_concurrency);
    CASE(no_read_write_concurrency);
    CASE(read_only_concurrency);
    CASE(shared_high_prio_overtakes);
    CASE(low_prio_lets_pass);
    CASE(exclusive_before_shared);
    CASE(downgrade_exclusive);
    CASE(clone_for_another_duration);
    CASE(stronger_lock_is_enough);
    CASE(explicit_duration);
    CASE(set_lock_duration);
    CASE(set_duration_for_all_locks);
    CASE(release_all_locks_for_name);
    CASE(deadlock_of_writer_and_changer);
    CASE(deadlock_of_equals);
    CASE(deadlock_of_an_upgrade);
    CASE(deadlock_of_three);
    CASE(deadlock_of_user_locks);
    CASE(wait_timeout);
    CASE(wait_killed);
    CASE(first_end_of_a_wait_counts);
    CASE(try_acquire_lock);
    CASE(global_read_lock);
    CASE(scoped_locks_of_a_schema);
    CASE(namespaces_are_apart);
    CASE(find_lock_owner);
    CASE(truncate_too_long_name);
    CASE(acquire_all_in_order);
    CASE(try_all_or_none);
    CASE(acquire_all_goes_on);
    CASE(acquire_all_lost);
    CASE(acquire_all_given_up);
    CASE(acquire_all_as_victim);
    CASE(acquire_all_in_other_orders);
    CASE(acquire_all_refused);
    printf("%u cases, %u checks that aren't so\n", cases, wrong);
    return wrong > 0;
}

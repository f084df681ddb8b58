/* The locks of two sessions, whose calls one thread makes. */
#include "gaz_one.h"

#include <stdio.h>
#include <string.h>

#define NAME(text) (const uint8_t *)(text), strlen(text)

static struct gaz_one_space space = GAZ_ONE_SPACE_INIT;

static void tell(const char *what, uint32_t code)
{
    printf("%-36s %u\n", what, code);
}

/* Session 1 reads a table, session 2 waits to change it, and has its turn. */
static void wait_for_a_reader(uint16_t orders)
{
    uint64_t reader = 0, writer = 0, wait = 0;
    tell("1 reads the table", gaz_one_try(&space, 1, orders, GAZ_SR, &reader));
    tell("2 can't change it now", gaz_one_try(&space, 2, orders, GAZ_X, &writer));
    tell("2 waits", gaz_one_begin(&space, 2, orders, GAZ_X, &wait));
    tell("its wait isn't settled", gaz_one_poll(&space, 2));
    tell("1 goes", gaz_one_release(&space, 1, reader));
    tell("the wait is granted", gaz_one_poll(&space, 2));
    tell("2 ends it", gaz_one_end(&space, 2, &writer));
    tell("2 lets others read", gaz_one_downgrade(&space, 2, writer, GAZ_SNW));
    tell("1 reads the table again", gaz_one_try(&space, 1, orders, GAZ_SR, &reader));
    tell("2 can't change it", gaz_one_upgrade(&space, 2, writer, GAZ_X));
    tell("1 goes", gaz_one_release(&space, 1, reader));
    tell("2 changes it", gaz_one_upgrade(&space, 2, writer, GAZ_X));
    tell("2 goes", gaz_one_release(&space, 2, writer));
}

/* Each of two sessions waits for what the other holds. The search chooses a victim, which makes way. */
static void break_a_deadlock(uint16_t orders, uint16_t items)
{
    uint64_t first = 0, second = 0, number = 0;
    uint16_t victim = 0;
    tell("1 writes orders", gaz_one_try(&space, 1, orders, GAZ_X, &first));
    tell("2 hasn't looked items up", gaz_one_try(&space, 2, items, GAZ_X, &second));
    tell("it does so", gaz_one_table(&space, 2, NAME("shop"), NAME("items"), &items));
    tell("2 writes items", gaz_one_try(&space, 2, items, GAZ_X, &second));
    tell("1 waits for items", gaz_one_begin(&space, 1, items, GAZ_SR, &number));
    tell("2 waits for orders", gaz_one_begin(&space, 2, orders, GAZ_SR, &number));
    tell("there is a deadlock", gaz_one_search(&space, 2, &victim));
    printf("the victim is session %u\n", victim);
    tell("it ends its wait", gaz_one_end(&space, victim, &number));
    tell("it gives up what it holds", gaz_one_release(&space, victim, victim == 1 ? first : second));
    tell("the other is granted", gaz_one_poll(&space, victim == 1 ? 2 : 1));
}

/* Session 2 waits for a user-level lock, and session 1 kills its wait. */
static void kill_a_wait(void)
{
    uint64_t ticket = 0, number = 0;
    uint16_t job = 0;
    tell("1 looks a lock of users up", gaz_one_user_lock(&space, 1, NAME("job"), &job));
    tell("2 does so, too", gaz_one_user_lock(&space, 2, NAME("job"), &job));
    tell("1 has it", gaz_one_try(&space, 1, job, GAZ_X, &ticket));
    tell("2 waits for it", gaz_one_begin(&space, 2, job, GAZ_X, &number));
    tell("1 asks for the wait of 2", gaz_one_wait_of(&space, 2, &number));
    tell("1 kills it", gaz_one_kill(&space, 2, number));
    tell("2 ends it", gaz_one_end(&space, 2, &number));
    tell("2 has no wait", gaz_one_wait_of(&space, 2, &number));
    tell("1 goes", gaz_one_release(&space, 1, ticket));
}

/* Modes are compared without a lock. */
static void compare_modes(void)
{
    tell("a reader stops a change", gaz_one_clashes(GAZ_TABLE, GAZ_SR, GAZ_X));
    tell("but not a writer", gaz_one_clashes(GAZ_TABLE, GAZ_SR, GAZ_SW));
    tell("a schema's S stops IX", gaz_one_clashes(GAZ_SCHEMA, GAZ_S, GAZ_IX));
    tell("a table has no IX", gaz_one_clashes(GAZ_TABLE, GAZ_S, GAZ_IX));
}

/* What C asks for and can't have is told by a code. */
static void be_refused(uint16_t orders)
{
    uint64_t ticket = 0;
    uint16_t place = 0;
    tell("there is no session 3", gaz_one_try(&space, 3, orders, GAZ_SR, &ticket));
    tell("there is no mode 11", gaz_one_try(&space, 1, orders, 11, &ticket));
    tell("a table's key doesn't take IX", gaz_one_try(&space, 1, orders, GAZ_IX, &ticket));
    tell("nothing has place 9", gaz_one_try(&space, 1, 9, GAZ_SR, &ticket));
    tell("a name of no bytes", gaz_one_schema(&space, 1, NAME(""), &place));
    tell("a name that isn't UTF-8", gaz_one_table(&space, 1, NAME("shop"), NAME("\xff"), &place));
    tell("no such ticket is held", gaz_one_release(&space, 1, 99));
    tell("a manager is there already", gaz_one_open(&space, 1, 1));
}

int main(void)
{
    uint16_t global = 0, orders = 0, items = 0;
    printf("the headers are of the version of the library: %s\n", gaz_one_version() == GAZ_VERSION ? "yes" : "no");
    tell("others would be refused", gaz_one_open_version(&space, GAZ_VERSION + 1, 256, 2));
    tell("there is no manager yet", gaz_one_poll(&space, 1));
    tell("one of 256 places and 2 sessions", gaz_one_open(&space, 256, 2));
    tell("the place of the global lock", gaz_one_global(&space, 1, &global));
    tell("of shop.orders", gaz_one_table(&space, 1, NAME("shop"), NAME("orders"), &orders));
    tell("of shop.items", gaz_one_table(&space, 1, NAME("shop"), NAME("items"), &items));
    printf("the places are %u, %u and %u\n", global, orders, items);
    tell("2 looks shop.orders up, too", gaz_one_table(&space, 2, NAME("shop"), NAME("orders"), &orders));
    wait_for_a_reader(orders);
    be_refused(orders);
    kill_a_wait();
    compare_modes();
    break_a_deadlock(orders, items);
    tell("the manager goes", gaz_one_close(&space));
    tell("there is none", gaz_one_close(&space));
    return 0;
}

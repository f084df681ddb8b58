/* The transactions of two sessions, whose calls one thread makes. */
#include "gaz_one.h"

#include <stdio.h>
#include <string.h>

#define NAME(text) (const uint8_t *)(text), strlen(text)
#define TABLE(name) GAZ_TABLE, NAME("shop"), NAME(name)

static struct gaz_one_space space = GAZ_ONE_SPACE_INIT;

static void tell(const char *what, uint32_t code)
{
    printf("%-42s %u\n", what, code);
}

static uint32_t in_transaction(uint16_t who, const char *table, uint8_t mode, uint64_t *number)
{
    return gaz_one_acquire(&space, who, TABLE(table), mode, GAZ_TRANSACTION, number);
}

/* A transaction reads a table, so a change of the table waits until the transaction ends. */
static void change_a_read_table(void)
{
    uint64_t reader = 0, again = 0, writer = 0, wait = 0;
    tell("1 reads orders", in_transaction(1, "orders", GAZ_SR, &reader));
    tell("1 reads it again", in_transaction(1, "orders", GAZ_SR, &again));
    printf("the tickets are %u and %u\n", (unsigned)reader, (unsigned)again);
    tell("2 prepares a change of it", in_transaction(2, "orders", GAZ_SU, &writer));
    tell("2 waits to make it", gaz_one_context_upgrade(&space, 2, writer, GAZ_X, &wait));
    tell("the wait isn't settled", gaz_one_resume(&space, 2, &writer));
    tell("1 ends its transaction", gaz_one_end_transaction(&space, 1));
    tell("the wait is granted", gaz_one_poll(&space, 2));
    tell("2 has the table alone", gaz_one_resume(&space, 2, &writer));
    tell("2 lets others read", gaz_one_context_downgrade(&space, 2, writer, GAZ_SNW));
    tell("2 ends its transaction", gaz_one_end_transaction(&space, 2));
}

/* What was gained since a savepoint is given up, and the tickets of a statement end with it. */
static void go_back(void)
{
    struct gaz_mark mark = {0, 0};
    uint64_t ticket = 0;
    tell("1 reads orders", in_transaction(1, "orders", GAZ_SR, &ticket));
    tell("1 sets a savepoint", gaz_one_savepoint(&space, 1, &mark));
    tell("1 writes items", in_transaction(1, "items", GAZ_SW, &ticket));
    tell("1 goes back", gaz_one_rollback_to(&space, 1, mark));
    tell("2 has items alone", in_transaction(2, "items", GAZ_X, &ticket));
    tell("2 ends its transaction", gaz_one_end_transaction(&space, 2));
    tell("1 keeps items for a statement", gaz_one_acquire(&space, 1, TABLE("items"), GAZ_SR, GAZ_STATEMENT, &ticket));
    tell("1 ends the statement", gaz_one_end_statement(&space, 1));
    tell("2 has items alone", in_transaction(2, "items", GAZ_X, &ticket));
    tell("but it can't have orders", in_transaction(2, "orders", GAZ_X, &ticket));
    tell("it gives up", gaz_one_give_up(&space, 2, &ticket));
    tell("1 ends its transaction", gaz_one_end_transaction(&space, 1));
    tell("the savepoint is gone", gaz_one_rollback_to(&space, 1, mark));
    tell("2 ends its transaction", gaz_one_end_transaction(&space, 2));
}

/* Tickets that outlast transactions. */
static void keep_beyond(void)
{
    uint64_t ticket = 0;
    tell("1 reads orders", in_transaction(1, "orders", GAZ_SR, &ticket));
    tell("1 keeps all", gaz_one_make_explicit(&space, 1));
    tell("1 ends its transaction", gaz_one_end_transaction(&space, 1));
    tell("2 has to wait for orders", in_transaction(2, "orders", GAZ_X, &ticket));
    tell("1 releases orders", gaz_one_release_name(&space, 1, TABLE("orders")));
    tell("2 has it", gaz_one_resume(&space, 2, &ticket));
    tell("2 releases it", gaz_one_context_release(&space, 2, ticket));
    tell("1 keeps the schema", gaz_one_acquire(&space, 1, GAZ_SCHEMA, NAME("shop"), NAME(""), GAZ_IX, GAZ_EXPLICIT, &ticket));
    tell("but for the transaction", gaz_one_make_transactional(&space, 1));
    tell("1 ends its transaction", gaz_one_end_transaction(&space, 1));
    tell("2 has the schema alone", gaz_one_acquire(&space, 2, GAZ_SCHEMA, NAME("shop"), NAME(""), GAZ_X, GAZ_STATEMENT, &ticket));
    tell("2 ends the statement", gaz_one_end_statement(&space, 2));
}

/* What transactions ask for besides: a lock without a wait, whether they have one, and another duration. */
static void ask_besides(void)
{
    uint64_t reader = 0, ticket = 0;
    tell("1 reads orders", in_transaction(1, "orders", GAZ_SR, &reader));
    tell("2 would have to wait to change it", gaz_one_try_acquire(&space, 2, TABLE("orders"), GAZ_X, GAZ_TRANSACTION, &ticket));
    tell("2 has no wait", gaz_one_resume(&space, 2, &ticket));
    tell("2 reads it, for a statement", gaz_one_try_acquire(&space, 2, TABLE("orders"), GAZ_SR, GAZ_STATEMENT, &ticket));
    tell("2 ends the statement", gaz_one_end_statement(&space, 2));
    tell("1 may read it", gaz_one_holds(&space, 1, TABLE("orders"), GAZ_SR));
    tell("but not write", gaz_one_holds(&space, 1, TABLE("orders"), GAZ_SW));
    tell("1 keeps it beyond", gaz_one_set_duration(&space, 1, reader, GAZ_EXPLICIT));
    tell("1 ends its transaction", gaz_one_end_transaction(&space, 1));
    tell("1 may still read it", gaz_one_holds(&space, 1, TABLE("orders"), GAZ_SR));
    tell("1 releases what is explicit", gaz_one_release_explicit(&space, 1));
    tell("1 may read it no more", gaz_one_holds(&space, 1, TABLE("orders"), GAZ_SR));
    tell("2 has it alone", gaz_one_try_acquire(&space, 2, TABLE("orders"), GAZ_X, GAZ_TRANSACTION, &ticket));
    tell("2 ends its transaction", gaz_one_end_transaction(&space, 2));
}

/* Each of two transactions waits for what the other one holds: the wait of the victim is lost. */
static void break_a_deadlock(void)
{
    uint64_t ticket = 0;
    tell("1 writes orders", in_transaction(1, "orders", GAZ_X, &ticket));
    tell("2 writes items", in_transaction(2, "items", GAZ_X, &ticket));
    tell("1 waits for items", in_transaction(1, "items", GAZ_SR, &ticket));
    tell("2 waits for orders", in_transaction(2, "orders", GAZ_SR, &ticket));
    tell("1 still waits", gaz_one_resume(&space, 1, &ticket));
    tell("2 is the victim", gaz_one_resume(&space, 2, &ticket));
    tell("2 ends its transaction", gaz_one_end_transaction(&space, 2));
    tell("1 has items", gaz_one_resume(&space, 1, &ticket));
    tell("1 ends its transaction", gaz_one_end_transaction(&space, 1));
}

/* A wait that others end, and calls that are refused. */
static void be_refused(void)
{
    uint64_t ticket = 0, wait = 0;
    uint16_t place = 0;
    tell("2 writes orders", in_transaction(2, "orders", GAZ_X, &ticket));
    tell("1 waits for orders", in_transaction(1, "orders", GAZ_SR, &wait));
    tell("1 waits already", in_transaction(1, "items", GAZ_SR, &ticket));
    tell("it is killed", gaz_one_kill(&space, 1, wait));
    tell("1 has lost its wait", gaz_one_resume(&space, 1, &ticket));
    tell("1 has no wait", gaz_one_resume(&space, 1, &ticket));
    tell("no such ticket is kept", gaz_one_context_release(&space, 1, 99));
    tell("the place of orders", gaz_one_table(&space, 1, NAME("shop"), NAME("orders"), &place));
    tell("a context keeps the tickets", gaz_one_try(&space, 1, place, GAZ_SR, &ticket));
    tell("and gives up the pins", gaz_one_unpin(&space, 1, place));
    tell("there is no duration 3", gaz_one_acquire(&space, 1, TABLE("orders"), GAZ_SR, 3, &ticket));
    tell("there is no namespace 5", gaz_one_release_name(&space, 1, 5, NAME(""), NAME("")));
    tell("session 3 has no context", gaz_one_end_transaction(&space, 3));
    tell("there is no session 4", gaz_one_end_transaction(&space, 4));
    tell("1 has a context already", gaz_one_context_begin(&space, 1));
}

/* A context ends with all that it keeps, and its session makes calls by numbers again. */
static void end_contexts(void)
{
    uint64_t ticket = 0;
    uint16_t place = 0;
    tell("the context of 2 ends", gaz_one_context_end(&space, 2));
    tell("the place of orders", gaz_one_table(&space, 2, NAME("shop"), NAME("orders"), &place));
    tell("2 reads orders by its place", gaz_one_try(&space, 2, place, GAZ_SR, &ticket));
    tell("2 can have no context", gaz_one_context_begin(&space, 2));
    tell("2 goes", gaz_one_release(&space, 2, ticket));
    tell("2 pins the place still", gaz_one_context_begin(&space, 2));
    tell("2 gives the pin up", gaz_one_unpin(&space, 2, place));
    tell("2 has a context again", gaz_one_context_begin(&space, 2));
}

int main(void)
{
    tell("16 places and 3 sessions", gaz_one_open(&space, 16, 3));
    tell("1 has a context", gaz_one_context_begin(&space, 1));
    tell("2 has a context", gaz_one_context_begin(&space, 2));
    change_a_read_table();
    go_back();
    keep_beyond();
    ask_besides();
    break_a_deadlock();
    be_refused();
    end_contexts();
    tell("the manager goes", gaz_one_close(&space));
    return 0;
}

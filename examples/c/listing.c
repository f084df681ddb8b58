/* A host that shows its locks, and that wakes the sessions whose waits are settled. */
#include "gaz_one.h"

#include <stdio.h>
#include <string.h>

#define NAME(text) (const uint8_t *)(text), strlen(text)
#define TABLE(name) GAZ_TABLE, NAME("shop"), NAME(name)

enum { SESSIONS = 3, NAME_ROOM = 255, LOCK_ROOM = 8 };

static const char *const namespaces[] = {"GLOBAL", "SCHEMA", "TABLE", "COMMIT", "USER"};
static const char *const modes[] = {"IX", "S", "SH", "SR", "SW", "SWLP", "SU", "SRO", "SNW", "SNRW", "X"};
static const char *const statuses[] = {"GRANTED", "PENDING", "VICTIM", "TIMEOUT", "KILLED"};
static const char *const durations[] = {"STATEMENT", "TRANSACTION", "EXPLICIT", "by its number"};

static struct gaz_one_space space = GAZ_ONE_SPACE_INIT;

/* Prints what a code says. */
static void say(uint32_t code)
{
    uint8_t text[80] = {0};
    size_t length = 0;
    gaz_one_message(code, text, sizeof text, &length);
    printf("%2u: %.*s\n", code, (int)length, (const char *)text);
}

/* Prints a lock's key, who holds it, and who waits for it. */
static void show_lock(uint16_t place)
{
    uint8_t namespace = 0, schema[NAME_ROOM] = {0}, table[NAME_ROOM] = {0};
    size_t schema_length = 0, table_length = 0, count = 0;
    struct gaz_lock rows[LOCK_ROOM] = {{0}};
    gaz_one_key_of(&space, place, &namespace, schema, NAME_ROOM, &schema_length, table, NAME_ROOM, &table_length);
    gaz_one_locks(&space, place, rows, LOCK_ROOM, &count);
    printf("%s %.*s %.*s: %zu\n", namespaces[namespace], (int)schema_length, (const char *)schema, (int)table_length,
           (const char *)table, count);
    for (size_t at = 0; at < count && at < LOCK_ROOM; at += 1)
        printf("    session %u, ticket %llu: %s %s %s\n", rows[at].session, (unsigned long long)rows[at].ticket,
               modes[rows[at].mode], statuses[rows[at].status], durations[rows[at].duration]);
}

static void show_locks(void)
{
    size_t places = 0;
    gaz_one_places(&space, &places);
    for (uint16_t place = 1; place <= places; place += 1)
        show_lock(place);
}

/* Prints what a session holds, as far as there is room for two tickets. */
static void show_held(uint16_t who)
{
    struct gaz_ticket tickets[2] = {{0}};
    size_t count = 0;
    uint32_t code = gaz_one_held(&space, who, tickets, 2, &count);
    printf("session %u holds %zu (%u)\n", who, count, code);
    for (size_t at = 0; at < count && at < 2; at += 1)
        printf("    ticket %llu: place %u in %s\n", (unsigned long long)tickets[at].ticket, tickets[at].place,
               modes[tickets[at].mode]);
}

/* Ends each wait that is settled, as those that wait would do once they are woken. */
static void wake(void)
{
    uint16_t sessions[SESSIONS] = {0};
    uint64_t ticket = 0;
    size_t count = 0;
    gaz_one_settled(&space, sessions, SESSIONS, &count);
    for (size_t at = 0; at < count; at += 1)
        printf("session %u is woken: %u\n", sessions[at], gaz_one_end(&space, sessions[at], &ticket));
}

/* Contexts keep tickets for each duration. One wait goes on, and the others are lost, each in another way. */
static void show_contexts(void)
{
    uint64_t ticket = 0, number = 0;
    gaz_one_open(&space, 4, 5);
    for (uint16_t who = 1; who <= 5; who += 1)
        gaz_one_context_begin(&space, who);
    gaz_one_acquire(&space, 1, TABLE("orders"), GAZ_SW, GAZ_TRANSACTION, &ticket);
    gaz_one_acquire(&space, 1, TABLE("orders"), GAZ_SR, GAZ_STATEMENT, &number);
    gaz_one_acquire(&space, 1, TABLE("orders"), GAZ_SH, GAZ_EXPLICIT, &number);
    gaz_one_acquire(&space, 2, TABLE("items"), GAZ_X, GAZ_TRANSACTION, &number);
    say(gaz_one_acquire(&space, 1, TABLE("items"), GAZ_SR, GAZ_STATEMENT, &number));
    for (uint16_t who = 2; who <= 5; who += 1)
        say(gaz_one_acquire(&space, who, TABLE("orders"), GAZ_X, GAZ_EXPLICIT, &number));
    say(gaz_one_time_out(&space, 3));
    say(gaz_one_wait_of(&space, 4, &number));
    say(gaz_one_kill(&space, 4, number));
    show_locks();
    gaz_one_resume(&space, 1, &number);
    gaz_one_set_duration(&space, 1, ticket, GAZ_EXPLICIT);
    gaz_one_end_transaction(&space, 1);
    show_lock(1);
    say(gaz_one_close(&space));
}

int main(void)
{
    uint16_t schema = 0, orders = 0, global = 0;
    uint64_t readers[2] = {0}, ticket = 0;
    say(gaz_one_places(&space, &(size_t){0}));
    say(gaz_one_open(&space, 4, SESSIONS));
    gaz_one_schema(&space, 1, NAME("shop"), &schema);
    for (uint16_t who = 1; who <= SESSIONS; who += 1)
        gaz_one_table(&space, who, NAME("shop"), NAME("orders"), &orders);
    gaz_one_global(&space, 1, &global);

    gaz_one_try(&space, 1, schema, GAZ_IX, &ticket);
    gaz_one_try(&space, 1, orders, GAZ_SR, &readers[0]);
    gaz_one_try(&space, 1, global, GAZ_IX, &ticket);
    gaz_one_try(&space, 2, orders, GAZ_SW, &readers[1]);
    say(gaz_one_begin(&space, 3, orders, GAZ_X, &ticket));
    show_locks();
    show_held(1);
    show_held(3);
    show_held(4);

    wake();
    gaz_one_release(&space, 1, readers[0]);
    gaz_one_release(&space, 2, readers[1]);
    wake();
    say(gaz_one_begin(&space, 2, orders, GAZ_SR, &ticket));
    say(gaz_one_time_out(&space, 2));
    wake();
    show_lock(orders);

    say(gaz_one_locks(&space, 4, &(struct gaz_lock){0}, 1, &(size_t){0}));
    say(gaz_one_close(&space));
    show_contexts();
    for (uint32_t code = 16; code <= 24; code += 1)
        say(code);
    say(99);
    return 0;
}

/* As many managers, names, keys, sessions and tickets as there may be, and one more: each is had, or refused. Every answer and refusal that a call can
   give is seen, except the lack of memory, which refuse.c shows. */
#include "gaz_one.h"

#include <stdio.h>
#include <string.h>

#define NAME(text) (const uint8_t *)(text), strlen(text)
#define TABLE(name) GAZ_TABLE, NAME("shop"), NAME(name)

enum { PLACES = 256, SESSIONS = 1024, STEP = 31, RING = 64, LONGEST = 255, LETTERS = 26, LAST_CHARACTER = 0x10ffff, TICKETS = 65535, MANY = 4096, FEW = 4, TURNS = 300, CODES = 51, TOLD = 20 };

static struct gaz_one_space space = GAZ_ONE_SPACE_INIT;
static bool seen[CODES]; /* which codes calls returned */
static unsigned wrong;   /* calls and lists that aren't as they ought to be */

static void expect(int line, uint32_t wanted, uint32_t found)
{
    if (found == wanted)
        return;
    wrong += 1;
    if (wrong <= TOLD)
        printf("line %d: %u, not %u\n", line, found, wanted);
}

static uint32_t noted(uint32_t code)
{
    if (code < CODES)
        seen[code] = true;
    return code;
}

/* Makes a call, which ought to return this code. */
#define EXPECT(wanted, call) expect(__LINE__, wanted, noted(call))

/* Checks a fact. */
#define CHECK(fact) expect(__LINE__, true, fact)

/* Managers. With 1 and with 256 places each number of sessions is tried, otherwise every thirty-first. */
static void open_managers(void)
{
    EXPECT(GAZ_CLOSED, gaz_one_poll(&space, 1));
    EXPECT(GAZ_OTHER_VERSION, gaz_one_open_version(&space, gaz_one_version() + 1, 1, 1));
    EXPECT(GAZ_OTHER_VERSION, gaz_one_open_version(&space, 0, 1, 1));
    EXPECT(GAZ_BAD_PLACES, gaz_one_open(&space, 0, 1));
    EXPECT(GAZ_BAD_PLACES, gaz_one_open(&space, PLACES + 1, 1));
    EXPECT(GAZ_BAD_SESSIONS, gaz_one_open(&space, 1, 0));
    EXPECT(GAZ_BAD_SESSIONS, gaz_one_open(&space, 1, SESSIONS + 1));
    for (uint16_t places = 1; places <= PLACES; places += 1) {
        uint16_t step = places == 1 || places == PLACES ? 1 : STEP;
        for (uint16_t sessions = 1; sessions <= SESSIONS; sessions += step) {
            EXPECT(GAZ_DONE, gaz_one_open(&space, places, sessions));
            EXPECT(GAZ_IS_OPEN, gaz_one_open(&space, places, sessions));
            EXPECT(GAZ_NO_WAIT, gaz_one_poll(&space, sessions));
            EXPECT(GAZ_NO_SESSION, gaz_one_poll(&space, sessions + 1));
            EXPECT(GAZ_NO_SESSION, gaz_one_poll(&space, 0));
            EXPECT(GAZ_DONE, gaz_one_close(&space));
        }
    }
    EXPECT(GAZ_CLOSED, gaz_one_close(&space));
}

/* Checks that the key of a place has these names, which are beginnings of one text. */
static void check_key(uint16_t place, const uint8_t *text, size_t schema_wanted, size_t table_wanted)
{
    uint8_t namespace = GAZ_GLOBAL, schema[LONGEST], table[LONGEST];
    size_t schema_length = 0, table_length = 0;
    EXPECT(GAZ_DONE, gaz_one_key_of(&space, place, &namespace, schema, LONGEST, &schema_length, table, LONGEST, &table_length));
    CHECK(namespace == GAZ_TABLE && schema_length == schema_wanted && table_length == table_wanted);
    CHECK(memcmp(schema, text, schema_wanted) == 0 && memcmp(table, text, table_wanted) == 0);
}

/* Names of 1 to 255 bytes are taken, and written as they are. */
static void name_keys(void)
{
    uint8_t text[LONGEST + 1];
    uint16_t place = 0;
    for (size_t at = 0; at <= LONGEST; at += 1)
        text[at] = (uint8_t)('a' + at % LETTERS);
    EXPECT(GAZ_DONE, gaz_one_open(&space, PLACES, 1));
    for (uint16_t length = 1; length <= LONGEST; length += 1) {
        EXPECT(GAZ_DONE, gaz_one_table(&space, 1, text, LONGEST + 1 - length, text, length, &place));
        CHECK(place == length);
        check_key(place, text, LONGEST + 1 - length, length);
    }
    EXPECT(GAZ_EMPTY_NAME, gaz_one_table(&space, 1, text, 1, text, 0, &place));
    EXPECT(GAZ_EMPTY_NAME, gaz_one_schema(&space, 1, text, 0, &place));
    EXPECT(GAZ_EMPTY_NAME, gaz_one_table(&space, 1, text, 0, text, LONGEST + 1, &place));
    EXPECT(GAZ_BAD_BYTE, gaz_one_table(&space, 1, text, 0, NAME("\xff"), &place));
    EXPECT(GAZ_LONG_NAME, gaz_one_table(&space, 1, text, LONGEST + 1, text, 1, &place));
    EXPECT(GAZ_LONG_NAME, gaz_one_table(&space, 1, text, 1, text, LONGEST + 1, &place));
    EXPECT(GAZ_LONG_NAME, gaz_one_schema(&space, 1, text, LONGEST + 1, &place));
    EXPECT(GAZ_LONG_NAME, gaz_one_user_lock(&space, 1, text, LONGEST + 1, &place));
    EXPECT(GAZ_DONE, gaz_one_schema(&space, 1, text, LONGEST, &place));
    CHECK(place == LONGEST + 1);
    EXPECT(GAZ_DONE, gaz_one_close(&space));
}

/* Writes a character as UTF-8, and returns how many bytes it has. */
static size_t encode(uint32_t character, uint8_t *bytes)
{
    if (character < 0x80) {
        bytes[0] = (uint8_t)character;
        return 1;
    }
    size_t count = character < 0x800 ? 2 : character < 0x10000 ? 3 : 4;
    for (size_t at = count - 1; at > 0; at -= 1) {
        bytes[at] = (uint8_t)(0x80 | (character & 0x3f));
        character >>= 6;
    }
    bytes[0] = (uint8_t)(0xf00 >> count | character);
    return count;
}

/* Each character of Unicode is a name, and other bytes are none. */
static void name_characters(void)
{
    static const char *const others[] = {"\x80", "a\xbf", "\xc3", "\xc3(", "\xc0\xaf", "\xc1\xbf", "\xe2\x82", "\xe2\x28\xa1", "\xe0\x9f\xbf",
                                         "\xf0\x90\x80", "\xf0\x8f\xbf\xbf", "\xf4\x90\x80\x80", "\xf5\x80\x80\x80", "\xfe", "\xff"};
    uint8_t bytes[4];
    uint16_t place = 0;
    EXPECT(GAZ_DONE, gaz_one_open(&space, 1, 1));
    for (uint32_t character = 0; character <= LAST_CHARACTER; character += 1) {
        bool is_one = character < 0xd800 || character > 0xdfff; /* the others stand for halves of characters, in UTF-16 */
        EXPECT(is_one ? GAZ_DONE : GAZ_BAD_BYTE, gaz_one_schema(&space, 1, bytes, encode(character, bytes), &place));
        if (is_one)
            EXPECT(GAZ_DONE, gaz_one_unpin(&space, 1, place));
    }
    for (size_t at = 0; at < sizeof others / sizeof *others; at += 1)
        EXPECT(GAZ_BAD_BYTE, gaz_one_user_lock(&space, 1, NAME(others[at]), &place));
    EXPECT(GAZ_DONE, gaz_one_close(&space));
}

/* Names whose bytes differ are names of different keys, however they look. */
static void compare_names(void)
{
    static const char *const names[] = {"cafe", "CAFE", "caf\u00e9", "CAF\u00c9", "cafe\u0301", "cafe ", "\u8868", "\u8868\u8868"};
    uint16_t place = 0;
    EXPECT(GAZ_DONE, gaz_one_open(&space, PLACES, 1));
    for (unsigned round = 0; round < 2; round += 1)
        for (uint16_t at = 0; at < sizeof names / sizeof *names; at += 1) {
            EXPECT(GAZ_DONE, gaz_one_table(&space, 1, NAME("shop"), NAME(names[at]), &place));
            CHECK(place == at + 1);
        }
    EXPECT(GAZ_DONE, gaz_one_close(&space));
}

/* A null pointer with length 0 is an empty name, for each call that takes names. */
static void name_nothing(void)
{
    uint64_t ticket = 0;
    uint16_t place = 0;
    EXPECT(GAZ_DONE, gaz_one_open(&space, PLACES, 1));
    EXPECT(GAZ_EMPTY_NAME, gaz_one_table(&space, 1, NULL, 0, NAME("orders"), &place));
    EXPECT(GAZ_EMPTY_NAME, gaz_one_table(&space, 1, NAME("shop"), NULL, 0, &place));
    EXPECT(GAZ_EMPTY_NAME, gaz_one_schema(&space, 1, NULL, 0, &place));
    EXPECT(GAZ_EMPTY_NAME, gaz_one_user_lock(&space, 1, NULL, 0, &place));
    EXPECT(GAZ_DONE, gaz_one_context_begin(&space, 1));
    EXPECT(GAZ_EMPTY_NAME, gaz_one_acquire(&space, 1, GAZ_TABLE, NULL, 0, NULL, 0, GAZ_SR, GAZ_STATEMENT, &ticket));
    EXPECT(GAZ_DONE, gaz_one_acquire(&space, 1, GAZ_GLOBAL, NULL, 0, NULL, 0, GAZ_IX, GAZ_STATEMENT, &ticket));
    EXPECT(GAZ_DONE, gaz_one_try_acquire(&space, 1, GAZ_SCHEMA, NAME("shop"), NULL, 0, GAZ_IX, GAZ_STATEMENT, &ticket));
    EXPECT(GAZ_DONE, gaz_one_holds(&space, 1, GAZ_GLOBAL, NULL, 0, NULL, 0, GAZ_IX));
    EXPECT(GAZ_DONE, gaz_one_release_name(&space, 1, GAZ_GLOBAL, NULL, 0, NULL, 0));
    EXPECT(GAZ_NOT_KEPT, gaz_one_holds(&space, 1, GAZ_GLOBAL, NULL, 0, NULL, 0, GAZ_IX));
    EXPECT(GAZ_DONE, gaz_one_close(&space));
}

/* As many keys as there are places. Each keeps its place while a session pins it, and then another key may get it. */
static void fill_places(void)
{
    char name[8];
    uint16_t place = 0;
    uint64_t ticket = 0;
    size_t count = 0;
    EXPECT(GAZ_DONE, gaz_one_open(&space, PLACES, 1));
    EXPECT(GAZ_DONE, gaz_one_global(&space, 1, &place));
    EXPECT(GAZ_DONE, gaz_one_commit(&space, 1, &place));
    for (unsigned round = 0; round < 2; round += 1)
        for (uint16_t wanted = 3; wanted <= PLACES; wanted += 1) {
            snprintf(name, sizeof name, "t%u", wanted);
            EXPECT(GAZ_DONE, gaz_one_table(&space, 1, NAME("shop"), NAME(name), &place));
            CHECK(place == wanted);
        }
    EXPECT(GAZ_NO_PLACE, gaz_one_schema(&space, 1, NAME("shop"), &place));
    EXPECT(GAZ_DONE, gaz_one_unpin(&space, 1, 3));
    EXPECT(GAZ_DONE, gaz_one_schema(&space, 1, NAME("shop"), &place));
    CHECK(place == 3);
    EXPECT(GAZ_NO_PLACE, gaz_one_table(&space, 1, NAME("shop"), NAME("t3"), &place));
    EXPECT(GAZ_DONE, gaz_one_places(&space, &count));
    CHECK(count == PLACES);
    EXPECT(GAZ_NO_PLACE, gaz_one_try(&space, 1, 0, GAZ_X, &ticket));
    EXPECT(GAZ_NO_PLACE, gaz_one_try(&space, 1, PLACES + 1, GAZ_X, &ticket));
    for (place = 1; place <= PLACES; place += 1)
        EXPECT(GAZ_DONE, gaz_one_try(&space, 1, place, GAZ_X, &ticket));
    EXPECT(GAZ_SESSION_IN_USE, gaz_one_context_begin(&space, 1));
    EXPECT(GAZ_DONE, gaz_one_close(&space));
    EXPECT(GAZ_DONE, gaz_one_open(&space, 1, 1));
    EXPECT(GAZ_DONE, gaz_one_context_begin(&space, 1));
    EXPECT(GAZ_DONE, gaz_one_acquire(&space, 1, GAZ_COMMIT, NAME(""), NAME(""), GAZ_IX, GAZ_STATEMENT, &ticket));
    EXPECT(GAZ_NO_PLACE, gaz_one_acquire(&space, 1, GAZ_USER_LEVEL_LOCK, NAME("job"), NAME(""), GAZ_X, GAZ_EXPLICIT, &ticket));
    EXPECT(GAZ_DONE, gaz_one_end_statement(&space, 1));
    EXPECT(GAZ_DONE, gaz_one_acquire(&space, 1, GAZ_USER_LEVEL_LOCK, NAME("job"), NAME(""), GAZ_X, GAZ_EXPLICIT, &ticket));
    EXPECT(GAZ_NO_PLACE, gaz_one_acquire(&space, 1, GAZ_COMMIT, NAME(""), NAME(""), GAZ_IX, GAZ_STATEMENT, &ticket));
    EXPECT(GAZ_DONE, gaz_one_close(&space));
}

/* Whether the keys of a namespace take a mode. */
static bool takes(uint8_t namespace, uint8_t mode)
{
    bool is_scoped = namespace == GAZ_GLOBAL || namespace == GAZ_SCHEMA || namespace == GAZ_COMMIT;
    return is_scoped ? mode == GAZ_IX || mode == GAZ_S || mode == GAZ_X : mode != GAZ_IX;
}

/* A place in each namespace. */
static uint32_t find_key(uint16_t who, uint8_t namespace, uint16_t *place)
{
    switch (namespace) {
    case GAZ_GLOBAL:
        return gaz_one_global(&space, who, place);
    case GAZ_SCHEMA:
        return gaz_one_schema(&space, who, NAME("shop"), place);
    case GAZ_TABLE:
        return gaz_one_table(&space, who, NAME("shop"), NAME("orders"), place);
    case GAZ_COMMIT:
        return gaz_one_commit(&space, who, place);
    default:
        return gaz_one_user_lock(&space, who, NAME("job"), place);
    }
}

/* What is said of two modes is so: one session holds the first, and another one asks for the second. */
static void compare_modes_of(uint8_t namespace, uint16_t place)
{
    uint64_t first = 0, second = 0;
    for (uint8_t held = GAZ_IX; held <= GAZ_X; held += 1)
        for (uint8_t wanted = GAZ_IX; wanted <= GAZ_X; wanted += 1) {
            uint32_t told = noted(gaz_one_clashes(namespace, held, wanted));
            CHECK((told == GAZ_BAD_MODE) == (!takes(namespace, held) || !takes(namespace, wanted)));
            if (told == GAZ_BAD_MODE)
                continue;
            EXPECT(GAZ_DONE, gaz_one_try(&space, 1, place, held, &first));
            EXPECT(told, gaz_one_try(&space, 2, place, wanted, &second));
            EXPECT(GAZ_DONE, gaz_one_release(&space, 1, first));
            if (told == GAZ_DONE)
                EXPECT(GAZ_DONE, gaz_one_release(&space, 2, second));
        }
    EXPECT(GAZ_NO_MODE, gaz_one_clashes(namespace, GAZ_X + 1, GAZ_X));
    EXPECT(GAZ_NO_MODE, gaz_one_clashes(namespace, GAZ_X, GAZ_X + 1));
}

static void compare_modes(void)
{
    uint16_t place = 0;
    EXPECT(GAZ_DONE, gaz_one_open(&space, PLACES, 2));
    for (uint8_t namespace = GAZ_GLOBAL; namespace <= GAZ_USER_LEVEL_LOCK; namespace += 1) {
        EXPECT(GAZ_DONE, find_key(1, namespace, &place));
        EXPECT(GAZ_DONE, find_key(2, namespace, &place));
        compare_modes_of(namespace, place);
    }
    EXPECT(GAZ_NO_NAMESPACE, gaz_one_clashes(GAZ_USER_LEVEL_LOCK + 1, GAZ_X, GAZ_X));
    EXPECT(GAZ_DONE, gaz_one_close(&space));
}

/* Which modes the keys of a namespace take, for each duration. */
static void acquire_modes(uint8_t namespace)
{
    uint64_t ticket = 0;
    for (uint8_t mode = GAZ_IX; mode <= GAZ_X; mode += 1)
        for (uint8_t duration = GAZ_STATEMENT; duration <= GAZ_EXPLICIT; duration += 1) {
            EXPECT(takes(namespace, mode) ? GAZ_DONE : GAZ_BAD_MODE,
                   gaz_one_acquire(&space, 1, namespace, NAME("shop"), NAME("orders"), mode, duration, &ticket));
        }
    EXPECT(GAZ_NO_MODE, gaz_one_acquire(&space, 1, namespace, NAME("shop"), NAME("orders"), GAZ_X + 1, GAZ_STATEMENT, &ticket));
    EXPECT(GAZ_NO_DURATION, gaz_one_acquire(&space, 1, namespace, NAME("shop"), NAME("orders"), GAZ_X, GAZ_EXPLICIT + 1, &ticket));
}

/* One session has locks of all namespaces, in all modes. Those of user-level locks outlast its transaction. */
static void acquire_all(void)
{
    struct gaz_ticket tickets[SESSIONS];
    uint64_t ticket = 0;
    size_t count = 0;
    EXPECT(GAZ_DONE, gaz_one_open(&space, PLACES, 1));
    EXPECT(GAZ_DONE, gaz_one_context_begin(&space, 1));
    for (uint8_t namespace = GAZ_GLOBAL; namespace <= GAZ_USER_LEVEL_LOCK; namespace += 1)
        acquire_modes(namespace);
    EXPECT(GAZ_NO_NAMESPACE, gaz_one_acquire(&space, 1, GAZ_USER_LEVEL_LOCK + 1, NAME("a"), NAME("a"), GAZ_X, GAZ_STATEMENT, &ticket));
    EXPECT(GAZ_DONE, gaz_one_make_transactional(&space, 1));
    EXPECT(GAZ_DONE, gaz_one_end_transaction(&space, 1));
    EXPECT(GAZ_DONE, gaz_one_held(&space, 1, tickets, SESSIONS, &count));
    CHECK(count == GAZ_X);
    for (size_t at = 0; at < count && at < SESSIONS; at += 1)
        CHECK(tickets[at].place == 1 + GAZ_USER_LEVEL_LOCK && tickets[at].mode == GAZ_S + at);
    EXPECT(GAZ_DONE, gaz_one_release_name(&space, 1, GAZ_USER_LEVEL_LOCK, NAME("shop"), NAME("")));
    EXPECT(GAZ_DONE, gaz_one_held(&space, 1, tickets, SESSIONS, &count));
    CHECK(count == 0);
    EXPECT(GAZ_DONE, gaz_one_close(&space));
}

static uint32_t acquire_own(uint16_t who, uint16_t whose, uint8_t mode)
{
    char name[8];
    uint64_t number = 0;
    snprintf(name, sizeof name, "t%u", whose);
    return gaz_one_acquire(&space, who, TABLE(name), mode, GAZ_TRANSACTION, &number);
}

/* One context has many tickets of a lock, each of which is told with its duration, and one at each other place. */
static void fill_a_context(void)
{
    static struct gaz_lock locks[MANY];
    struct gaz_mark mark = {0, 0};
    uint64_t ticket = 0;
    size_t count = 0;
    EXPECT(GAZ_DONE, gaz_one_open(&space, PLACES, 1));
    EXPECT(GAZ_DONE, gaz_one_context_begin(&space, 1));
    for (uint64_t wanted = 1; wanted <= MANY; wanted += 1) {
        EXPECT(GAZ_DONE, gaz_one_acquire(&space, 1, TABLE("orders"), GAZ_SR, GAZ_EXPLICIT, &ticket));
        CHECK(ticket == wanted);
    }
    EXPECT(GAZ_DONE, gaz_one_savepoint(&space, 1, &mark));
    for (uint16_t table = 1; table < PLACES; table += 1)
        EXPECT(GAZ_DONE, acquire_own(1, table, GAZ_SW));
    EXPECT(GAZ_NO_PLACE, acquire_own(1, PLACES, GAZ_SW));
    EXPECT(GAZ_DONE, gaz_one_set_duration(&space, 1, MANY / 2, GAZ_STATEMENT));
    EXPECT(GAZ_NOT_KEPT, gaz_one_set_duration(&space, 1, MANY + PLACES, GAZ_STATEMENT));
    EXPECT(GAZ_NO_DURATION, gaz_one_set_duration(&space, 1, 1, GAZ_UNKEPT));
    EXPECT(GAZ_DONE, gaz_one_locks(&space, 1, locks, MANY, &count));
    CHECK(count == MANY);
    for (size_t at = 0; at < MANY; at += 1)
        CHECK(locks[at].ticket == at + 1 && locks[at].duration == (at + 1 == MANY / 2 ? GAZ_STATEMENT : GAZ_EXPLICIT));
    EXPECT(GAZ_DONE, gaz_one_rollback_to(&space, 1, mark));
    EXPECT(GAZ_DONE, gaz_one_held(&space, 1, &(struct gaz_ticket){0}, 1, &count));
    CHECK(count == MANY - 1);
    EXPECT(GAZ_DONE, gaz_one_holds(&space, 1, TABLE("orders"), GAZ_SR));
    EXPECT(GAZ_DONE, gaz_one_release_explicit(&space, 1));
    EXPECT(GAZ_NOT_KEPT, gaz_one_holds(&space, 1, TABLE("orders"), GAZ_SR));
    EXPECT(GAZ_NO_MODE, gaz_one_holds(&space, 1, TABLE("orders"), GAZ_X + 1));
    EXPECT(GAZ_DONE, gaz_one_close(&space));
}

/* Each session has a context, and shares a table of the longest name. */
static void share_a_table(void)
{
    char name[LONGEST + 1];
    struct gaz_lock locks[SESSIONS];
    uint64_t ticket = 0;
    size_t count = 0;
    memset(name, 'a', LONGEST);
    name[LONGEST] = 0;
    EXPECT(GAZ_DONE, gaz_one_open(&space, 1, SESSIONS));
    for (uint16_t who = 1; who <= SESSIONS; who += 1) {
        EXPECT(GAZ_DONE, gaz_one_context_begin(&space, who));
        EXPECT(GAZ_DONE, gaz_one_try_acquire(&space, who, GAZ_TABLE, NAME(name), NAME(name), GAZ_SR, who % GAZ_UNKEPT, &ticket));
    }
    EXPECT(GAZ_WOULD_WAIT, gaz_one_try_acquire(&space, 1, GAZ_TABLE, NAME(name), NAME(name), GAZ_X, GAZ_STATEMENT, &ticket));
    EXPECT(GAZ_LONG_NAME, gaz_one_try_acquire(&space, 1, GAZ_TABLE, (const uint8_t *)name, LONGEST + 1, NAME(name), GAZ_X, GAZ_STATEMENT, &ticket));
    EXPECT(GAZ_DONE, gaz_one_locks(&space, 1, locks, SESSIONS, &count));
    CHECK(count == SESSIONS);
    for (uint16_t at = 0; at < SESSIONS; at += 1)
        CHECK(locks[at].session == at + 1 && locks[at].status == GAZ_GRANTED && locks[at].duration == (at + 1) % GAZ_UNKEPT);
    for (uint16_t who = 1; who <= SESSIONS; who += 1)
        EXPECT(GAZ_DONE, gaz_one_context_end(&space, who));
    EXPECT(GAZ_DONE, gaz_one_locks(&space, 1, locks, SESSIONS, &count));
    CHECK(count == 0);
    EXPECT(GAZ_DONE, gaz_one_close(&space));
}

/* A context locks more tables than there are places, a few at a time: it lets go of their places as it releases them. */
static void lock_in_turn(void)
{
    size_t count = 0;
    EXPECT(GAZ_DONE, gaz_one_open(&space, FEW, 1));
    EXPECT(GAZ_DONE, gaz_one_context_begin(&space, 1));
    for (uint16_t first = 1; first <= TURNS; first += FEW) {
        for (uint16_t table = first; table < first + FEW; table += 1)
            EXPECT(GAZ_DONE, acquire_own(1, table, GAZ_SW));
        EXPECT(GAZ_NO_PLACE, acquire_own(1, first + FEW, GAZ_SW));
        EXPECT(GAZ_DONE, acquire_own(1, first, GAZ_SR));
        EXPECT(GAZ_DONE, gaz_one_end_transaction(&space, 1));
    }
    EXPECT(GAZ_DONE, gaz_one_places(&space, &count));
    CHECK(count == FEW);
    EXPECT(GAZ_DONE, gaz_one_close(&space));
}

static uint32_t find_table(uint16_t who, uint16_t number, uint16_t *place)
{
    char name[8];
    snprintf(name, sizeof name, "t%u", number);
    return gaz_one_table(&space, who, NAME("shop"), NAME(name), place);
}

/* The same by direct calls, for which the program gives up the pins. The place that session 2 pins stays its key's. */
static void unpin_in_turn(void)
{
    uint64_t ticket = 0;
    uint16_t place = 0, pinned = 0;
    EXPECT(GAZ_DONE, gaz_one_open(&space, FEW, 2));
    EXPECT(GAZ_DONE, find_table(2, 0, &pinned));
    CHECK(pinned == 1);
    for (uint16_t table = 1; table <= TURNS; table += 1) {
        EXPECT(GAZ_DONE, find_table(1, table, &place));
        CHECK(place == (table < FEW ? table + 1 : 2));
        EXPECT(GAZ_DONE, gaz_one_try(&space, 1, place, GAZ_SW, &ticket));
        EXPECT(GAZ_IN_USE, gaz_one_unpin(&space, 1, place));
        EXPECT(GAZ_DONE, gaz_one_release(&space, 1, ticket));
        EXPECT(GAZ_DONE, gaz_one_unpin(&space, 1, place));
        EXPECT(GAZ_NO_PLACE, gaz_one_unpin(&space, 1, place));
        EXPECT(GAZ_NO_PLACE, gaz_one_try(&space, 1, place, GAZ_SW, &ticket));
    }
    EXPECT(GAZ_NO_PLACE, gaz_one_unpin(&space, 1, pinned));
    EXPECT(GAZ_DONE, find_table(1, 0, &place));
    CHECK(place == pinned);
    EXPECT(GAZ_DONE, gaz_one_close(&space));
}

/* Each of these sessions has a table of its own, and waits for that of the next one. The last wait is the victim, and the others are granted in turn. */
static void wait_in_a_ring(void)
{
    uint16_t settled[SESSIONS] = {0};
    uint64_t ticket = 0;
    size_t count = 0;
    EXPECT(GAZ_DONE, gaz_one_open(&space, PLACES, SESSIONS));
    EXPECT(GAZ_NO_SESSION, gaz_one_context_begin(&space, SESSIONS + 1));
    for (uint16_t who = 1; who <= RING; who += 1) {
        EXPECT(GAZ_NO_CONTEXT, acquire_own(who, who, GAZ_X));
        EXPECT(GAZ_DONE, gaz_one_context_begin(&space, who));
        EXPECT(GAZ_HAS_CONTEXT, gaz_one_context_begin(&space, who));
        EXPECT(GAZ_DONE, acquire_own(who, who, GAZ_X));
    }
    for (uint16_t who = 1; who <= RING; who += 1)
        EXPECT(GAZ_WAITING, acquire_own(who, who % RING + 1, GAZ_SR));
    for (uint16_t who = RING; who >= 1; who -= 1) {
        EXPECT(GAZ_HAS_WAIT, acquire_own(who, who, GAZ_X));
        EXPECT(GAZ_DONE, gaz_one_settled(&space, settled, SESSIONS, &count));
        CHECK(count == 1 && settled[0] == who);
        EXPECT(who == RING ? GAZ_VICTIM : GAZ_DONE, gaz_one_resume(&space, who, &ticket));
        EXPECT(GAZ_DONE, gaz_one_context_end(&space, who));
    }
    EXPECT(GAZ_DONE, gaz_one_settled(&space, settled, SESSIONS, &count));
    CHECK(count == 0);
    EXPECT(GAZ_DONE, gaz_one_close(&space));
}

/* The waits of all sessions but the first are settled. They are told once, if there is room for all, and again only those that come later. */
static void tell_once(uint16_t place)
{
    uint64_t told[SESSIONS] = {0}, number = 0;
    uint16_t woken[SESSIONS] = {0};
    size_t count = 0;
    EXPECT(GAZ_DONE, gaz_one_woken(&space, told, SESSIONS, woken, SESSIONS - 2, &count));
    CHECK(count == SESSIONS - 1 && woken[0] == 2 && woken[SESSIONS - 2] == 0 && told[1] == 0);
    EXPECT(GAZ_DONE, gaz_one_woken(&space, told, SESSIONS, woken, SESSIONS - 1, &count));
    CHECK(count == SESSIONS - 1 && woken[SESSIONS - 2] == SESSIONS && told[0] == 0);
    for (uint16_t who = 2; who <= SESSIONS; who += 1)
        CHECK(told[who - 1] == 1);
    EXPECT(GAZ_DONE, gaz_one_woken(&space, told, SESSIONS, woken, SESSIONS, &count));
    CHECK(count == 0);
    EXPECT(GAZ_DONE, gaz_one_end(&space, 2, &number));
    EXPECT(GAZ_DONE, gaz_one_release(&space, 2, number));
    EXPECT(GAZ_WAITING, gaz_one_begin(&space, 2, place, GAZ_X, &number));
    EXPECT(GAZ_DONE, gaz_one_woken(&space, told, SESSIONS, woken, SESSIONS, &count));
    CHECK(count == 0);
    EXPECT(GAZ_TIMEOUT, gaz_one_time_out(&space, 2));
    EXPECT(GAZ_DONE, gaz_one_woken(&space, told, SESSIONS, woken, SESSIONS, &count));
    CHECK(count == 1 && woken[0] == 2 && told[1] == number);
    EXPECT(GAZ_DONE, gaz_one_woken(&space, told, 1, woken, SESSIONS, &count)); /* a session without an entry is told each time */
    CHECK(count == SESSIONS - 1 && told[0] == 0);
}

/* All sessions but the first wait for it, and are granted together. Each is told once that its wait is settled, if there is room for all. */
static void wait_for_one(void)
{
    struct gaz_lock locks[SESSIONS];
    uint16_t settled[SESSIONS] = {0};
    uint64_t first = 0, number = 0;
    uint16_t place = 0;
    size_t count = 0;
    EXPECT(GAZ_DONE, gaz_one_open(&space, PLACES, SESSIONS));
    EXPECT(GAZ_DONE, gaz_one_table(&space, 1, NAME("shop"), NAME("orders"), &place));
    EXPECT(GAZ_DONE, gaz_one_try(&space, 1, place, GAZ_X, &first));
    for (uint16_t who = 2; who <= SESSIONS; who += 1) {
        EXPECT(GAZ_NO_PLACE, gaz_one_try(&space, who, place, GAZ_SR, &number));
        EXPECT(GAZ_NO_PLACE, gaz_one_begin(&space, who, place, GAZ_SR, &number));
        EXPECT(GAZ_DONE, gaz_one_table(&space, who, NAME("shop"), NAME("orders"), &place));
        EXPECT(GAZ_WOULD_WAIT, gaz_one_try(&space, who, place, GAZ_SR, &number));
        EXPECT(GAZ_WAITING, gaz_one_begin(&space, who, place, GAZ_SR, &number));
    }
    EXPECT(GAZ_DONE, gaz_one_locks(&space, place, locks, SESSIONS, &count));
    CHECK(count == SESSIONS);
    for (uint16_t at = 0; at < SESSIONS; at += 1)
        CHECK(locks[at].session == at + 1 && locks[at].mode == (at == 0 ? GAZ_X : GAZ_SR) && locks[at].status == (at == 0 ? GAZ_GRANTED : GAZ_PENDING));
    EXPECT(GAZ_DONE, gaz_one_release(&space, 1, first));
    EXPECT(GAZ_DONE, gaz_one_settled(&space, settled, 2, &count));
    CHECK(count == SESSIONS - 1 && settled[0] == 2 && settled[1] == 3 && settled[2] == 0);
    EXPECT(GAZ_DONE, gaz_one_settled(&space, settled, SESSIONS, &count));
    CHECK(count == SESSIONS - 1 && settled[SESSIONS - 1] == 0);
    tell_once(place);
    for (uint16_t who = 2; who <= SESSIONS; who += 1) {
        CHECK(settled[who - 2] == who);
        EXPECT(who == 2 ? GAZ_TIMEOUT : GAZ_DONE, gaz_one_end(&space, who, &number));
    }
    EXPECT(GAZ_DONE, gaz_one_close(&space));
}

/* One session has as many tickets of a lock as there may be, and both lists have them all. */
static void fill_a_lock(void)
{
    static struct gaz_ticket tickets[TICKETS];
    static struct gaz_lock locks[TICKETS];
    uint64_t ticket = 0;
    uint16_t place = 0;
    size_t count = 0;
    EXPECT(GAZ_DONE, gaz_one_open(&space, PLACES, 2));
    EXPECT(GAZ_DONE, gaz_one_table(&space, 1, NAME("shop"), NAME("orders"), &place));
    for (uint64_t wanted = 1; wanted <= TICKETS; wanted += 1) {
        EXPECT(GAZ_DONE, gaz_one_try(&space, 1, place, GAZ_SR, &ticket));
        CHECK(ticket == wanted);
    }
    EXPECT(GAZ_DONE, gaz_one_table(&space, 2, NAME("shop"), NAME("orders"), &place));
    EXPECT(GAZ_FULL, gaz_one_try(&space, 2, place, GAZ_SR, &ticket));
    EXPECT(GAZ_FULL, gaz_one_clone(&space, 1, 1, GAZ_SR, &ticket));
    EXPECT(GAZ_DONE, gaz_one_held(&space, 1, tickets, TICKETS, &count));
    CHECK(count == TICKETS);
    EXPECT(GAZ_DONE, gaz_one_locks(&space, place, locks, TICKETS, &count));
    CHECK(count == TICKETS);
    for (size_t at = 0; at < TICKETS; at += 1) {
        CHECK(tickets[at].ticket == at + 1 && tickets[at].place == place && tickets[at].mode == GAZ_SR);
        CHECK(locks[at].ticket == at + 1 && locks[at].session == 1 && locks[at].mode == GAZ_SR && locks[at].status == GAZ_GRANTED);
    }
    EXPECT(GAZ_DONE, gaz_one_close(&space));
}

/* The ways in which a wait ends, and calls that are refused. */
static void end_waits(void)
{
    uint64_t first = 0, second = 0, number = 0;
    uint16_t place = 0;
    EXPECT(GAZ_DONE, gaz_one_open(&space, PLACES, 2));
    EXPECT(GAZ_DONE, gaz_one_table(&space, 1, NAME("shop"), NAME("orders"), &place));
    EXPECT(GAZ_DONE, gaz_one_table(&space, 2, NAME("shop"), NAME("orders"), &place));
    EXPECT(GAZ_NO_MODE, gaz_one_try(&space, 1, place, GAZ_X + 1, &first));
    EXPECT(GAZ_DONE, gaz_one_try(&space, 1, place, GAZ_SU, &first));
    EXPECT(GAZ_NOT_HELD, gaz_one_release(&space, 1, first + 1));
    EXPECT(GAZ_NOT_HELD, gaz_one_release(&space, 2, first));
    EXPECT(GAZ_BAD_MODE, gaz_one_clone(&space, 1, first, GAZ_SNRW, &number));
    EXPECT(GAZ_NOT_UPGRADABLE, gaz_one_downgrade(&space, 1, first, GAZ_SR));
    EXPECT(GAZ_DONE, gaz_one_clone(&space, 1, first, GAZ_SR, &second));
    EXPECT(GAZ_NOT_UPGRADABLE, gaz_one_upgrade(&space, 1, second, GAZ_SNW));
    EXPECT(GAZ_NOT_UPGRADABLE, gaz_one_upgrade(&space, 1, first, GAZ_SRO));
    EXPECT(GAZ_DONE, gaz_one_upgrade(&space, 1, first, GAZ_SNW));
    EXPECT(GAZ_DONE, gaz_one_merge(&space, 1, second, first));
    EXPECT(GAZ_NOT_HELD, gaz_one_merge(&space, 1, second, first));
    EXPECT(GAZ_NO_WAIT, gaz_one_wait_of(&space, 2, &number));
    EXPECT(GAZ_NO_SESSION, gaz_one_wait_of(&space, 3, &number));
    EXPECT(GAZ_WAITING, gaz_one_begin(&space, 2, place, GAZ_X, &number));
    EXPECT(GAZ_DONE, gaz_one_wait_of(&space, 2, &second));
    CHECK(second == number);
    EXPECT(GAZ_ALREADY_WAITING, gaz_one_begin(&space, 2, place, GAZ_SWLP, &number));
    EXPECT(GAZ_UNSETTLED, gaz_one_end(&space, 2, &first));
    EXPECT(GAZ_SESSION_IN_USE, gaz_one_context_begin(&space, 2));
    EXPECT(GAZ_NOT_KILLED, gaz_one_kill(&space, 2, number + 1));
    EXPECT(GAZ_TIMEOUT, gaz_one_time_out(&space, 2));
    EXPECT(GAZ_NOT_KILLED, gaz_one_kill(&space, 2, number));
    EXPECT(GAZ_TIMEOUT, gaz_one_end(&space, 2, &first));
    EXPECT(GAZ_WAITING, gaz_one_begin(&space, 2, place, GAZ_X, &number));
    EXPECT(GAZ_DONE, gaz_one_kill(&space, 2, number));
    EXPECT(GAZ_KILLED, gaz_one_time_out(&space, 2));
    EXPECT(GAZ_KILLED, gaz_one_end(&space, 2, &first));
    EXPECT(GAZ_NO_WAIT, gaz_one_end(&space, 2, &first));
    EXPECT(GAZ_SESSION_IN_USE, gaz_one_context_begin(&space, 2));
    EXPECT(GAZ_DONE, gaz_one_unpin(&space, 2, place));
    EXPECT(GAZ_DONE, gaz_one_context_begin(&space, 2));
    EXPECT(GAZ_NOT_KEPT, gaz_one_context_release(&space, 2, 1));
    EXPECT(GAZ_STALE_SAVEPOINT, gaz_one_rollback_to(&space, 2, (struct gaz_mark){1, 0}));
    EXPECT(GAZ_STALE_SAVEPOINT, gaz_one_rollback_to(&space, 2, (struct gaz_mark){0, SIZE_MAX}));
    EXPECT(GAZ_DONE, gaz_one_close(&space));
}

/* Prints the codes that no call returned, with what they say. */
static void show_unseen(void)
{
    uint8_t text[80], unknown[80];
    size_t length = 0, unknown_length = 0;
    EXPECT(GAZ_DONE, gaz_one_message(CODES, unknown, sizeof unknown, &unknown_length));
    for (uint32_t code = 0; code < CODES; code += 1) {
        EXPECT(GAZ_DONE, gaz_one_message(code, text, sizeof text, &length));
        bool is_code = length != unknown_length || memcmp(text, unknown, length) != 0;
        CHECK(is_code || !seen[code]);
        if (is_code && !seen[code])
            printf("    %u: %.*s\n", code, (int)length, (const char *)text);
    }
}

int main(void)
{
    open_managers();
    printf("managers of 1 to %d places and 1 to %d sessions\n", PLACES, SESSIONS);
    name_keys();
    name_characters();
    compare_names();
    name_nothing();
    printf("names of 1 to %d bytes of UTF-8\n", LONGEST);
    fill_places();
    printf("keys at all places\n");
    compare_modes();
    printf("modes that clash, in all namespaces\n");
    acquire_all();
    printf("locks of all namespaces, in all modes, for all durations\n");
    fill_a_context();
    printf("%d tickets of one context\n", MANY + PLACES - 1);
    share_a_table();
    printf("%d contexts, and names of %d bytes\n", SESSIONS, LONGEST);
    lock_in_turn();
    unpin_in_turn();
    printf("%d tables in turn, at %d places\n", TURNS, FEW);
    wait_in_a_ring();
    printf("a deadlock of %d sessions with contexts\n", RING);
    wait_for_one();
    printf("%d waits for one lock\n", SESSIONS - 1);
    fill_a_lock();
    printf("%d tickets of one lock\n", TICKETS);
    end_waits();
    printf("codes that no call returned:\n");
    show_unseen();
    printf("calls and lists that aren't right: %u\n", wrong);
    return wrong > 0;
}

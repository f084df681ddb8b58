/* A program that brings the three functions of the heap itself. It refuses each allocation of two short lives in turn, of three sessions whose
   direct calls it makes, and of two with contexts: the call that is refused for that is made again, and nothing is lost. (A context can do without the
   first note of where a key was.) In the end each block is freed: those of a context as soon as it ends, and those of a manager when it is closed. */
#include "gaz_one_all.h"

#include <stdio.h>
#include <stdlib.h>
#include <string.h>

#define NAME(text) (const uint8_t *)(text), strlen(text)
#define TABLE(name) GAZ_TABLE, NAME("shop"), NAME(name)

struct tried {
    bool ok;
    void *p;
};

static unsigned allocations; /* that were asked for */
static unsigned refused;     /* the number of the one that is refused, or 0 */
static unsigned told;        /* calls that were refused for want of memory */
static unsigned wrong;       /* calls that ended otherwise than they ought to */
static unsigned left;        /* contexts that ended, and whose blocks weren't freed then */
static long blocks;          /* that aren't freed */
static char nothing;         /* a pointer that isn't null, where there is no block */

static struct tried result_of(void *p)
{
    return (struct tried){p != NULL, p != NULL ? p : &nothing};
}

struct tried rattle_alloc(size_t size, size_t align);
struct tried rattle_realloc(void *old, size_t kept, size_t size, size_t align);
void rattle_dealloc(void *p);

struct tried rattle_alloc(size_t size, size_t align)
{
    (void)align; /* 16 at most, which malloc gives */
    allocations += 1;
    void *p = allocations == refused ? NULL : malloc(size > 0 ? size : 1);
    blocks += p != NULL;
    return result_of(p);
}

struct tried rattle_realloc(void *old, size_t kept, size_t size, size_t align)
{
    (void)kept;
    (void)align;
    allocations += 1;
    return result_of(allocations == refused ? NULL : realloc(old, size > 0 ? size : 1));
}

void rattle_dealloc(void *p)
{
    blocks -= 1;
    free(p);
}

/* Makes a call, and once more if memory ran out. */
#define EXPECT(wanted, call)            \
    do {                                \
        uint32_t code = (call);         \
        if (code == GAZ_NO_MEMORY) {    \
            told += 1;                  \
            code = (call);              \
        }                               \
        wrong += code != (wanted);      \
    } while (0)

static void call_directly(void)
{
    struct gaz_one_space space = GAZ_ONE_SPACE_INIT;
    struct gaz_ticket tickets[4] = {{0}};
    uint16_t orders = 0, items = 0, victim = 0;
    uint64_t first = 0, second = 0, number = 0;
    size_t count = 0;
    EXPECT(GAZ_DONE, gaz_one_open(&space, 16, 3));
    EXPECT(GAZ_DONE, gaz_one_table(&space, 1, NAME("shop"), NAME("orders"), &orders));
    EXPECT(GAZ_DONE, gaz_one_table(&space, 1, NAME("shop"), NAME("items"), &items));
    EXPECT(GAZ_DONE, gaz_one_table(&space, 2, NAME("shop"), NAME("orders"), &orders));
    EXPECT(GAZ_DONE, gaz_one_table(&space, 3, NAME("shop"), NAME("orders"), &orders));
    EXPECT(GAZ_DONE, gaz_one_try(&space, 1, orders, GAZ_SR, &first));
    EXPECT(GAZ_DONE, gaz_one_try(&space, 1, items, GAZ_X, &second));
    EXPECT(GAZ_DONE, gaz_one_held(&space, 1, tickets, 4, &count));
    wrong += count != 2;
    EXPECT(GAZ_WAITING, gaz_one_begin(&space, 2, orders, GAZ_X, &number));
    EXPECT(GAZ_WAITING, gaz_one_begin(&space, 3, orders, GAZ_SR, &number));
    EXPECT(GAZ_DONE, gaz_one_search(&space, 3, &victim));
    EXPECT(GAZ_DONE, gaz_one_release(&space, 1, first));
    EXPECT(GAZ_DONE, gaz_one_end(&space, 2, &first));
    EXPECT(GAZ_DONE, gaz_one_clone(&space, 2, first, GAZ_SR, &number));
    EXPECT(GAZ_DONE, gaz_one_release(&space, 2, number));
    EXPECT(GAZ_DONE, gaz_one_release(&space, 2, first));
    EXPECT(GAZ_DONE, gaz_one_end(&space, 3, &first));
    EXPECT(GAZ_DONE, gaz_one_release(&space, 3, first));
    EXPECT(GAZ_DONE, gaz_one_release(&space, 1, second));
    EXPECT(GAZ_DONE, gaz_one_unpin(&space, 1, items));
    EXPECT(GAZ_DONE, gaz_one_user_lock(&space, 1, NAME("job"), &items));
    EXPECT(GAZ_DONE, gaz_one_close(&space));
}

/* The same for a call of a session that has a context: if memory ran out, the context keeps what it kept, and has no wait. */
#define EXPECT_KEPT(who, wanted, call)                                                                          \
    do {                                                                                                        \
        struct gaz_mark before = {0}, after = {0};                                                              \
        wrong += gaz_one_savepoint(&space, who, &before) != GAZ_DONE;                                               \
        uint32_t code = (call);                                                                                 \
        if (code == GAZ_NO_MEMORY) {                                                                            \
            told += 1;                                                                                          \
            wrong += gaz_one_savepoint(&space, who, &after) != GAZ_DONE || memcmp(&before, &after, sizeof before);  \
            wrong += gaz_one_poll(&space, who) != GAZ_NO_WAIT;                                                      \
            code = (call);                                                                                      \
        }                                                                                                       \
        wrong += code != (wanted);                                                                              \
    } while (0)

/* Whether the context keeps a ticket of a table to read, which takes no memory to say. */
static uint32_t may_read(struct gaz_one_space *space, uint16_t who, const char *table)
{
    unsigned before = allocations;
    uint32_t code = gaz_one_holds(space, who, TABLE(table), GAZ_SR);
    wrong += allocations != before;
    return code;
}

/* The wait for a stronger mode is over. If memory ran out for it, the ticket is upgraded without a wait. */
static uint32_t raise_ticket(struct gaz_one_space *space, uint16_t who, uint64_t ticket, uint8_t mode)
{
    uint64_t number = 0;
    uint32_t code = gaz_one_resume(space, who, &number);
    if (code != GAZ_NO_MEMORY)
        return code;
    told += 1;
    return gaz_one_context_upgrade(space, who, ticket, mode, &number);
}

/* A context begins and ends between other calls: it leaves no block. */
static void come_and_go(struct gaz_one_space *space, uint16_t who)
{
    uint64_t ticket = 0;
    long before = blocks;
    EXPECT(GAZ_DONE, gaz_one_context_begin(space, who));
    EXPECT(GAZ_DONE, gaz_one_acquire(space, who, TABLE("orders"), GAZ_SR, GAZ_TRANSACTION, &ticket));
    EXPECT(GAZ_DONE, gaz_one_context_end(space, who));
    left += blocks != before;
}

static void call_in_contexts(void)
{
    struct gaz_one_space space = GAZ_ONE_SPACE_INIT;
    struct gaz_request wanted[] = {{TABLE("prices"), GAZ_SW, GAZ_TRANSACTION, 0}, {TABLE("items"), GAZ_SW, GAZ_TRANSACTION, 0}};
    struct gaz_requests all = GAZ_REQUESTS_INIT(wanted, 2);
    struct gaz_mark mark = {0, 0};
    uint64_t writer = 0, ticket = 0, number = 0;
    EXPECT(GAZ_DONE, gaz_one_open(&space, 16, 2));
    EXPECT(GAZ_DONE, gaz_one_context_begin(&space, 1));
    EXPECT(GAZ_DONE, gaz_one_context_begin(&space, 2));
    EXPECT_KEPT(1, GAZ_DONE, gaz_one_acquire(&space, 1, TABLE("orders"), GAZ_SU, GAZ_TRANSACTION, &writer));
    EXPECT_KEPT(1, GAZ_DONE, gaz_one_savepoint(&space, 1, &mark));
    EXPECT_KEPT(1, GAZ_DONE, gaz_one_acquire(&space, 1, TABLE("items"), GAZ_SW, GAZ_TRANSACTION, &ticket));
    EXPECT_KEPT(1, GAZ_DONE, gaz_one_acquire(&space, 1, TABLE("items"), GAZ_SW, GAZ_STATEMENT, &ticket));
    EXPECT_KEPT(2, GAZ_DONE, gaz_one_try_acquire(&space, 2, TABLE("orders"), GAZ_SR, GAZ_TRANSACTION, &ticket));
    EXPECT_KEPT(2, GAZ_WOULD_WAIT, gaz_one_try_acquire(&space, 2, TABLE("orders"), GAZ_SU, GAZ_TRANSACTION, &ticket));
    EXPECT_KEPT(2, GAZ_DONE, may_read(&space, 2, "orders"));
    EXPECT_KEPT(2, GAZ_NOT_KEPT, may_read(&space, 2, "items"));
    /* The first session waits for a stronger mode. So the second one, which waits for it, is the victim of a deadlock. */
    EXPECT_KEPT(1, GAZ_WAITING, gaz_one_context_upgrade(&space, 1, writer, GAZ_X, &ticket));
    EXPECT_KEPT(2, GAZ_WAITING, gaz_one_acquire(&space, 2, TABLE("items"), GAZ_X, GAZ_TRANSACTION, &ticket));
    EXPECT_KEPT(2, GAZ_VICTIM, gaz_one_resume(&space, 2, &ticket));
    EXPECT_KEPT(2, GAZ_DONE, gaz_one_end_transaction(&space, 2));
    EXPECT_KEPT(1, GAZ_DONE, raise_ticket(&space, 1, writer, GAZ_X));
    EXPECT_KEPT(1, GAZ_DONE, gaz_one_rollback_to(&space, 1, mark));
    EXPECT_KEPT(1, GAZ_DONE, gaz_one_end_statement(&space, 1));
    EXPECT_KEPT(2, GAZ_WAITING, gaz_one_acquire(&space, 2, TABLE("orders"), GAZ_SR, GAZ_EXPLICIT, &ticket));
    EXPECT_KEPT(2, GAZ_TIMEOUT, gaz_one_give_up(&space, 2, &ticket));
    EXPECT_KEPT(2, GAZ_WAITING, gaz_one_acquire(&space, 2, TABLE("orders"), GAZ_SR, GAZ_EXPLICIT, &ticket));
    EXPECT_KEPT(1, GAZ_DONE, gaz_one_context_downgrade(&space, 1, writer, GAZ_SU));
    EXPECT_KEPT(2, GAZ_DONE, gaz_one_resume(&space, 2, &ticket));
    EXPECT_KEPT(2, GAZ_DONE, gaz_one_acquire(&space, 2, TABLE("items"), GAZ_SR, GAZ_TRANSACTION, &number));
    EXPECT(GAZ_DONE, gaz_one_set_duration(&space, 2, number, GAZ_EXPLICIT));
    EXPECT(GAZ_DONE, gaz_one_context_release(&space, 2, number));
    EXPECT_KEPT(2, GAZ_DONE, gaz_one_acquire_all(&space, 2, &all));
    EXPECT_KEPT(2, GAZ_DONE, gaz_one_end_transaction(&space, 2));
    EXPECT_KEPT(1, GAZ_WAITING, gaz_one_context_upgrade(&space, 1, writer, GAZ_X, &ticket));
    /* Both contexts end with a ticket, and the first one with a wait. */
    EXPECT(GAZ_DONE, gaz_one_context_end(&space, 1));
    EXPECT(GAZ_DONE, gaz_one_release_explicit(&space, 2));
    EXPECT(GAZ_DONE, gaz_one_context_end(&space, 2));
    come_and_go(&space, 1);
    EXPECT(GAZ_DONE, gaz_one_close(&space));
}

/* Leads a life, and then once more for each allocation that it takes, which is refused then. */
static void refuse_each(const char *what, void (*live)(void))
{
    refused = 0;
    allocations = 0;
    live();
    unsigned whole = allocations, before = told;
    for (refused = 1; refused <= whole; refused += 1) {
        allocations = 0;
        live();
    }
    printf("%s take memory: %s\n", what, whole > 0 ? "yes" : "no");
    printf("refused allocations that weren't told, and could be done without: %u\n", whole - (told - before));
}

int main(void)
{
    refuse_each("direct calls", call_directly);
    refuse_each("contexts", call_in_contexts);
    printf("calls that ended otherwise: %u\n", wrong);
    printf("contexts that left blocks: %u\n", left);
    printf("blocks that weren't freed: %ld\n", blocks);
    return 0;
}

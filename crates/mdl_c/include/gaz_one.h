/* gaz_one.h: the metadata locks of MySQL 5.7, for C and C++. One thread makes the calls, or several under a mutex. gaz_codes.h has the numbers and rows.

   Link with libgaz_one.a, which `make install` builds, and with libgaz_malloc.a, which has three functions over malloc, realloc and free, or with three
   of your own:

       struct { bool ok; void *p; } rattle_alloc(size_t size, size_t align);                                 (p is never null)
       struct { bool ok; void *p; } rattle_realloc(void *old, size_t kept, size_t size, size_t align);       (likewise)
       void rattle_dealloc(void *p);

   A program whose threads share a space holds one mutex of its own round each call. The program itself does the waiting: if gaz_one_begin returns
   GAZ_WAITING, call gaz_one_search, then wait for a condition variable until gaz_one_poll returns something else, and then call gaz_one_end. If the
   search returns GAZ_NO_MEMORY, a deadlock may be left: give the wait up by gaz_one_time_out. These calls may settle another session's wait:
   gaz_one_release, gaz_one_search, gaz_one_end, gaz_one_kill, gaz_one_time_out, gaz_one_downgrade and gaz_one_merge. After them wake the sessions that
   gaz_one_settled or gaz_one_woken lists. The table that threads share can't be called from C: its calls wait for latches, and no function that C calls
   may wait.

   The program keeps a session's tickets by their numbers, or a context keeps them, from gaz_one_context_begin until gaz_one_context_end: by their
   durations, as a server's transactions need. Then the session requests its locks by gaz_one_acquire and the other calls of contexts below, and those
   marked "direct" return GAZ_HAS_CONTEXT. If gaz_one_acquire or gaz_one_context_upgrade returns GAZ_WAITING, it has searched for deadlocks already: wait
   until gaz_one_poll returns something else, and then call gaz_one_resume, which ends the wait. Call gaz_one_settled after all calls of contexts except
   gaz_one_try_acquire, gaz_one_holds, gaz_one_savepoint and those that change durations, and also after refused ones.

   What the library assumes, and nothing checks:
   - `struct gaz_one_space` begins with zeros (GAZ_ONE_SPACE_INIT), and C never reads, changes or copies it: a copy would be freed twice.
   - At most one call at a time uses a space: one thread makes all calls, or a mutex of yours is held round each. Any thread may make the calls of any
     session.
   - The memory behind a pointer doesn't overlap the space or the memory behind the call's other pointers, and is initialised.
   - A name is a pointer and a length below 2^63, and it doesn't change during the call. The pointer isn't null, unless the length is 0.
   - Room for a list is a pointer that isn't null, even for no entry, and how many entries fit, whose bytes are below 2^63.
   - No call comes from a signal handler, or from the forked child of a process with threads.
   - malloc, realloc and free are of one allocator, and align to 16.
   For all other arguments a call returns a code: any number may be passed as a session, a place, a ticket, a wait or a mode.

   A name has 1 to 255 bytes of UTF-8. (A byte of 0 doesn't end it.) Names are equal if their bytes are. So a program whose names don't depend on case, or on
   accents, folds them first, as its own settings want. */
#ifndef GAZ_ONE_H
#define GAZ_ONE_H

#include "gaz_codes.h"

#include <stdbool.h>
#include <stddef.h>
#include <stdint.h>

#ifdef __cplusplus
#define GAZ_INLINE inline
extern "C" {
#else
#define GAZ_INLINE static inline
#endif

/* A manager of locks, or the room for one. */
struct gaz_one_space {
    void *at;
    bool is_open;
};
#define GAZ_ONE_SPACE_INIT {0, false}

/* The version of the library, as GAZ_VERSION is that of the headers. */
uint32_t gaz_one_version(void);

/* Makes a manager of 1 to 256 places, for as many keys in use at a time, and 1 to 1024 sessions: DONE. The library has to be of the program's
   version. */
uint32_t gaz_one_open_version(struct gaz_one_space *space, uint32_t version, uint16_t places, uint16_t sessions);

/* The same, for a program that was built with this header. */
GAZ_INLINE uint32_t gaz_one_open(struct gaz_one_space *space, uint16_t places, uint16_t sessions)
{
    return gaz_one_open_version(space, GAZ_VERSION, places, sessions);
}

/* Frees it, with all that its sessions hold and wait for: DONE. */
uint32_t gaz_one_close(struct gaz_one_space *space);

/* The place of a key: DONE. The session pins it, and while a session pins a place, it is the key's. A key without a place takes one that never
   had a key, or else the least that no session pins, whose old key then has none. The call is refused (NO_PLACE) only while sessions pin all
   places. gaz_one_try and gaz_one_begin are refused (NO_PLACE) at places that the session doesn't pin. */
uint32_t gaz_one_table(struct gaz_one_space *space, uint16_t who, const uint8_t *schema, size_t schema_length,
                   const uint8_t *table, size_t table_length, uint16_t *place);
uint32_t gaz_one_schema(struct gaz_one_space *space, uint16_t who, const uint8_t *schema, size_t schema_length, uint16_t *place);
uint32_t gaz_one_user_lock(struct gaz_one_space *space, uint16_t who, const uint8_t *name, size_t name_length, uint16_t *place);
uint32_t gaz_one_global(struct gaz_one_space *space, uint16_t who, uint16_t *place);
uint32_t gaz_one_commit(struct gaz_one_space *space, uint16_t who, uint16_t *place);

/* Whether two modes of a namespace's keys clash: WOULD_WAIT if a request for the wanted mode waits while another session holds the held one, and DONE if
   not. Keys of tables and of user-level locks have one matrix, those of the other namespaces another. BAD_MODE if the keys don't take both modes. */
uint32_t gaz_one_clashes(uint8_t namespace_, uint8_t held, uint8_t wanted);

/* ---- direct: not for sessions that have a context, except gaz_one_poll, gaz_one_time_out, gaz_one_wait_of and gaz_one_kill */

/* Gives up the session's pin of a place, however often the session asked for it: DONE. NO_PLACE if the session doesn't pin the place, and
   IN_USE if it has a ticket or a wait there. It takes no memory. */
uint32_t gaz_one_unpin(struct gaz_one_space *space, uint16_t who, uint16_t place);

/* Requests a lock at a place that the session pins, without waiting: DONE and its ticket, or WOULD_WAIT. */
uint32_t gaz_one_try(struct gaz_one_space *space, uint16_t who, uint16_t place, uint8_t mode, uint64_t *ticket);

/* The same, and begins to wait if the lock can't be granted now: DONE and its ticket, or WAITING and the wait's number. */
uint32_t gaz_one_begin(struct gaz_one_space *space, uint16_t who, uint16_t place, uint8_t mode, uint64_t *number);

/* Looks for a deadlock that the session is part of: DONE if there is none, or VICTIM and the session whose wait is settled by this. */
uint32_t gaz_one_search(struct gaz_one_space *space, uint16_t who, uint16_t *victim);

/* The state of the session's wait: WAITING, or how it is settled: DONE (granted), VICTIM, TIMEOUT, KILLED. */
uint32_t gaz_one_poll(struct gaz_one_space *space, uint16_t who);

/* Ends the session's wait, which must be settled: DONE and the ticket, or VICTIM, TIMEOUT, KILLED. A lost wait blocks those
   behind it until its session ends it. */
uint32_t gaz_one_end(struct gaz_one_space *space, uint16_t who, uint64_t *ticket);

/* Settles the session's wait as a timeout, unless it is settled already. Returns how it is settled then, as gaz_one_poll. */
uint32_t gaz_one_time_out(struct gaz_one_space *space, uint16_t who);

/* The number of the session's wait, settled or not: DONE, or NO_WAIT. Whoever wants to kill a wait asks for it. */
uint32_t gaz_one_wait_of(struct gaz_one_space *space, uint16_t who, uint64_t *number);

/* Settles the wait of this number of any session as killed, unless it is settled already: DONE, or NOT_KILLED. */
uint32_t gaz_one_kill(struct gaz_one_space *space, uint16_t target, uint64_t number);

/* Releases a ticket, and grants the waiters that can be granted then: DONE. */
uint32_t gaz_one_release(struct gaz_one_space *space, uint16_t who, uint64_t ticket);

/* Upgrades a held ticket to a stronger mode, without waiting: DONE, or WOULD_WAIT. */
uint32_t gaz_one_upgrade(struct gaz_one_space *space, uint16_t who, uint64_t ticket, uint8_t mode);

/* Downgrades a held ticket to a weaker mode: DONE. */
uint32_t gaz_one_downgrade(struct gaz_one_space *space, uint16_t who, uint64_t ticket, uint8_t mode);

/* Grants a second ticket of a held ticket's place, in a mode that the held one is at least as strong as: DONE and the ticket. */
uint32_t gaz_one_clone(struct gaz_one_space *space, uint16_t who, uint64_t ticket, uint8_t mode, uint64_t *copy);

/* Gives a held ticket the mode of another one of its place, which is at least as strong, and releases that one: DONE. */
uint32_t gaz_one_merge(struct gaz_one_space *space, uint16_t who, uint64_t kept, uint64_t gone);

/* ---- contexts: all except gaz_one_context_begin return GAZ_NO_CONTEXT for a session that has none. An invalid mode, duration, namespace or name is
   refused before that. */

/* Begins a context, which keeps the session's tickets from now on: DONE. The session must hold no ticket, have no wait and pin no place. */
uint32_t gaz_one_context_begin(struct gaz_one_space *space, uint16_t who);

/* Ends the context, which gives up its wait and releases all its tickets: DONE. The session pins nothing then. */
uint32_t gaz_one_context_end(struct gaz_one_space *space, uint16_t who);

/* Acquires a lock of a key, for this duration: DONE and its ticket, or WAITING and the wait's number, after deadlocks were searched for. A
   ticket of the key that is strong enough is used again if it has the same duration, and that isn't explicit. Otherwise it is cloned.
   Only the names that keys of the namespace have are read: GAZ_GLOBAL and GAZ_COMMIT have none, GAZ_SCHEMA has a schema's, and the name
   of an GAZ_USER_LEVEL_LOCK is passed as the schema's. The session pins the key's place as long as the context has a ticket or a wait there. If the
   call is refused, the session's tickets and pins are unchanged and it has no wait, but if memory ran out the waits of victims that were found stay
   settled. */
uint32_t gaz_one_acquire(struct gaz_one_space *space, uint16_t who, uint8_t namespace_, const uint8_t *schema, size_t schema_length,
                     const uint8_t *table, size_t table_length, uint8_t mode, uint8_t duration, uint64_t *number);

/* The same, but the session doesn't wait: DONE and the ticket, or WOULD_WAIT. Then nothing has changed, no deadlock was searched for, and no wait is
   settled by the call. */
uint32_t gaz_one_try_acquire(struct gaz_one_space *space, uint16_t who, uint8_t namespace_, const uint8_t *schema, size_t schema_length,
                             const uint8_t *table, size_t table_length, uint8_t mode, uint8_t duration, uint64_t *ticket);

/* Whether the context keeps a ticket of the key in a mode at least as strong: DONE, or NOT_KEPT. It takes no memory. */
uint32_t gaz_one_holds(struct gaz_one_space *space, uint16_t who, uint8_t namespace_, const uint8_t *schema, size_t schema_length,
                       const uint8_t *table, size_t table_length, uint8_t mode);

/* Ends the wait if it is settled: WAITING, DONE and the ticket, or VICTIM, TIMEOUT, KILLED: the wait is lost,
   and the tickets are unchanged. They are also unchanged if the call is refused with GAZ_NO_MEMORY or GAZ_FULL, but then the wait has ended, too:
   request the lock again by gaz_one_acquire. */
uint32_t gaz_one_resume(struct gaz_one_space *space, uint16_t who, uint64_t *ticket);

/* Gives the wait up, unless it is settled, and ends it: TIMEOUT, or as gaz_one_resume, but never WAITING. */
uint32_t gaz_one_give_up(struct gaz_one_space *space, uint16_t who, uint64_t *ticket);

/* Upgrades a kept ticket to a stronger mode. The ticket keeps its number: DONE and the ticket, or WAITING and the wait's number, as gaz_one_acquire. */
uint32_t gaz_one_context_upgrade(struct gaz_one_space *space, uint16_t who, uint64_t ticket, uint8_t mode, uint64_t *number);

/* Downgrades a kept ticket to a weaker mode: DONE. */
uint32_t gaz_one_context_downgrade(struct gaz_one_space *space, uint16_t who, uint64_t ticket, uint8_t mode);

/* Releases a kept ticket: DONE. */
uint32_t gaz_one_context_release(struct gaz_one_space *space, uint16_t who, uint64_t ticket);

/* Releases all tickets of a key, of all durations: DONE. It takes memory for the names alone. */
uint32_t gaz_one_release_name(struct gaz_one_space *space, uint16_t who, uint8_t namespace_, const uint8_t *schema, size_t schema_length,
                          const uint8_t *table, size_t table_length);

/* A mark of how many tickets the context keeps now: DONE and the mark. */
uint32_t gaz_one_savepoint(struct gaz_one_space *space, uint16_t who, struct gaz_mark *mark);

/* Rolls back to a mark: DONE. Of the statement's and of the transaction's tickets the earliest stay, as many as the mark counted, and all
   explicit tickets stay. */
uint32_t gaz_one_rollback_to(struct gaz_one_space *space, uint16_t who, struct gaz_mark mark);

/* Releases the tickets of the statement: DONE. */
uint32_t gaz_one_end_statement(struct gaz_one_space *space, uint16_t who);

/* Releases the tickets of the statement and of the transaction: DONE. */
uint32_t gaz_one_end_transaction(struct gaz_one_space *space, uint16_t who);

/* Releases the explicit tickets: DONE. */
uint32_t gaz_one_release_explicit(struct gaz_one_space *space, uint16_t who);

/* Keeps a ticket for this duration from now on: DONE. */
uint32_t gaz_one_set_duration(struct gaz_one_space *space, uint16_t who, uint64_t ticket, uint8_t duration);

/* Makes all tickets explicit: they are kept until they are released: DONE. */
uint32_t gaz_one_make_explicit(struct gaz_one_space *space, uint16_t who);

/* Keeps the explicit tickets, except those of user-level locks, until the transaction ends: DONE. */
uint32_t gaz_one_make_transactional(struct gaz_one_space *space, uint16_t who);

/* ---- lists */

/* The calls below only read the manager. Each writes as many entries as there is room for, from the first on, and
   leaves the rest of the room unchanged. The count is that of all entries. A call that is refused writes nothing. */

/* The sessions whose waits are settled and not ended, in rising order: DONE. Call it after each call that may settle waits, and wake these
   sessions. Where no wait is settled it looks at no session. */
uint32_t gaz_one_settled(struct gaz_one_space *space, uint16_t *sessions, size_t room, size_t *count);

/* The same, but each wait is told once: DONE. `told` has an entry for each session, from session 1 on: the number of its wait that was told last. All are 0
   when the space is opened, and only this call writes them. The numbers of a session's waits rise as long as the space is open, also from one context to
   the next. If there isn't room for all of the sessions, the first ones are written, and `told` stays as it is: call it again with as much room as the count
   says. gaz_one_settled may be called besides. */
uint32_t gaz_one_woken(struct gaz_one_space *space, uint64_t *told, size_t entries, uint16_t *sessions, size_t room, size_t *count);

/* The tickets that a session holds, in the order in which it got them: DONE. The call allocates memory, and frees it again. */
uint32_t gaz_one_held(struct gaz_one_space *space, uint16_t who, struct gaz_ticket *tickets, size_t room, size_t *count);

/* How many places have keys: DONE. They are those from 1 to this number. */
uint32_t gaz_one_places(struct gaz_one_space *space, size_t *count);

/* The key of a place: DONE, its namespace (enum gaz_namespace), and the names of its schema and its table. A name has 255 bytes at most, and
   none if the key lacks it. The name of a user-level lock is written as a schema's. */
uint32_t gaz_one_key_of(struct gaz_one_space *space, uint16_t place, uint8_t *namespace_, uint8_t *schema, size_t schema_room,
                    size_t *schema_length, uint8_t *table, size_t table_room, size_t *table_length);

/* The tickets of a place's lock: DONE. Granted tickets come first, in the order in which they were granted, then waiting ones, in the order
   of arrival. The ticket of a granted wait is granted, also before the wait is ended. That of a lost one stays until then, and its status says how it
   was lost. */
uint32_t gaz_one_locks(struct gaz_one_space *space, uint16_t place, struct gaz_lock *locks, size_t room, size_t *count);

/* The text of a code, in English: DONE. It has 80 bytes at most, and no 0 is written after it. For a number that is no code it says so. */
uint32_t gaz_one_message(uint32_t code, uint8_t *text, size_t room, size_t *length);

/* ---- names of no bytes */

/* The functions of the library take no null pointer. In C and C++ the names of those that take names stand for the functions below, which pass another
   pointer for a name of no bytes. A program that defines functions of these names itself, as a stand-in for the library, defines GAZ_PLAIN_NAMES first.
   A program in another language calls the functions of the library: it passes no null pointer. */
GAZ_INLINE const uint8_t *gaz_one_name(const uint8_t *name, size_t length)
{
    static const uint8_t none[1] = {0};
    return length > 0 ? name : none;
}

GAZ_INLINE uint32_t gaz_one_table_inline(struct gaz_one_space *space, uint16_t who, const uint8_t *schema, size_t schema_length,
                                         const uint8_t *table, size_t table_length, uint16_t *place)
{
    return gaz_one_table(space, who, gaz_one_name(schema, schema_length), schema_length, gaz_one_name(table, table_length), table_length, place);
}

GAZ_INLINE uint32_t gaz_one_schema_inline(struct gaz_one_space *space, uint16_t who, const uint8_t *schema, size_t schema_length, uint16_t *place)
{
    return gaz_one_schema(space, who, gaz_one_name(schema, schema_length), schema_length, place);
}

GAZ_INLINE uint32_t gaz_one_user_lock_inline(struct gaz_one_space *space, uint16_t who, const uint8_t *name, size_t name_length, uint16_t *place)
{
    return gaz_one_user_lock(space, who, gaz_one_name(name, name_length), name_length, place);
}

GAZ_INLINE uint32_t gaz_one_acquire_inline(struct gaz_one_space *space, uint16_t who, uint8_t namespace_, const uint8_t *schema, size_t schema_length,
                                           const uint8_t *table, size_t table_length, uint8_t mode, uint8_t duration, uint64_t *number)
{
    return gaz_one_acquire(space, who, namespace_, gaz_one_name(schema, schema_length), schema_length, gaz_one_name(table, table_length), table_length,
                           mode, duration, number);
}

GAZ_INLINE uint32_t gaz_one_try_acquire_inline(struct gaz_one_space *space, uint16_t who, uint8_t namespace_, const uint8_t *schema,
                                               size_t schema_length, const uint8_t *table, size_t table_length, uint8_t mode, uint8_t duration,
                                               uint64_t *ticket)
{
    return gaz_one_try_acquire(space, who, namespace_, gaz_one_name(schema, schema_length), schema_length, gaz_one_name(table, table_length), table_length,
                               mode, duration, ticket);
}

GAZ_INLINE uint32_t gaz_one_holds_inline(struct gaz_one_space *space, uint16_t who, uint8_t namespace_, const uint8_t *schema, size_t schema_length,
                                         const uint8_t *table, size_t table_length, uint8_t mode)
{
    return gaz_one_holds(space, who, namespace_, gaz_one_name(schema, schema_length), schema_length, gaz_one_name(table, table_length), table_length,
                         mode);
}

GAZ_INLINE uint32_t gaz_one_release_name_inline(struct gaz_one_space *space, uint16_t who, uint8_t namespace_, const uint8_t *schema,
                                                size_t schema_length, const uint8_t *table, size_t table_length)
{
    return gaz_one_release_name(space, who, namespace_, gaz_one_name(schema, schema_length), schema_length, gaz_one_name(table, table_length),
                                table_length);
}

#ifndef GAZ_PLAIN_NAMES
#define gaz_one_table gaz_one_table_inline
#define gaz_one_schema gaz_one_schema_inline
#define gaz_one_user_lock gaz_one_user_lock_inline
#define gaz_one_acquire gaz_one_acquire_inline
#define gaz_one_try_acquire gaz_one_try_acquire_inline
#define gaz_one_holds gaz_one_holds_inline
#define gaz_one_release_name gaz_one_release_name_inline
#endif

#ifdef __cplusplus
}
#endif

#endif

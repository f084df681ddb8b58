/* A model of how MySQL 5.7 grants metadata locks, after what sql/mdl.h and sql/mdl.cc say of their design, for timings. It is written anew for this
   comparison, and isn't MySQL's code.

   - A lock has a word (there m_fast_path_state). In it the tickets of the modes that don't obtrude are counted: IX of a scope, and S, SH, SR and SW of
     a table. They are gained and given back by a compare-exchange, and are in no list of the lock.
   - The other modes take the lock's mutex, and make the word say that they are there, so that all others take the mutex, too. Under it a request looks at
     the modes that are granted and waited for. Its ticket goes into the list of those granted, or of those that wait.
   - A release under the mutex grants waiters in their order: it tells each in a slot of its session, with a mutex and a condition.
   - A ticket is allocated, is in a list of its session for each duration, and is freed. A request first looks in these lists for an own ticket.
   - A lock is found by its key in a table of hashes, or here also by its place in an array. The server has no places: they are the fastest look-up
     that a server could have. GLOBAL is found without a look-up.
   - Each look-up announces in the session's own pins which locks it visits, so that nobody frees them, and takes that back (there LF_PINS, three of
     them). Without the pins the model is lite.

   Left out, so that the model is faster than its original: the count of unused locks and how they are freed, the search for deadlocks, limits of
   waits by writers, and all that tells others what happens. */
#ifndef SERVER_MODEL_H
#define SERVER_MODEL_H

#include "rounds.h"

#include <pthread.h>
#include <stdatomic.h>
#include <stdbool.h>
#include <stdint.h>
#include <stdlib.h>
#include <string.h>

enum { LINE = 64, BUCKETS = 4096, LONGEST_KEY = 132, MOST_PLACES = 1024, PINS = 3 };

/* The modes of locks, and sets of them. */
enum server_mode { IX, S, SH, SR, SW, SU, SNW, SNRW, X, MODES };

#define OF(mode) (1u << (mode))
#define WRITES (OF(SNW) | OF(SNRW) | OF(X))
#define ALL (OF(MODES) - 1)

enum server_duration { STATEMENT, TRANSACTION, EXPLICIT, DURATIONS };

/* How a lock is found. */
enum server_look { LITE, PINNED, LITE_KEY, PINNED_KEY };

/* In the word: the place of each count, that a mode that obtrudes is granted or waited for, and that a list isn't empty. */
#define A_READER (1ull << 20)
#define A_WRITER (1ull << 40)
#define COUNT (A_READER - 1)
#define OBTRUDED (1ull << 61)
#define LISTED (1ull << 62)

/* What a lock's modes do: what a ticket adds to the word (0 if the mode obtrudes), and which granted and awaited modes keep a request waiting. */
struct server_rules {
    uint64_t weight[MODES];
    unsigned clashes[MODES], yields[MODES];
};

static const struct server_rules of_scopes = {
    .weight = {[IX] = 1},
    .clashes = {[IX] = OF(S) | OF(X), [S] = OF(IX) | OF(X), [X] = ALL},
    .yields = {[IX] = OF(S) | OF(X), [S] = OF(X)},
};

static const struct server_rules of_tables = {
    .weight = {[S] = 1, [SH] = 1, [SR] = A_READER, [SW] = A_WRITER},
    .clashes = {[S] = OF(X), [SH] = OF(X), [SR] = OF(SNRW) | OF(X), [SW] = WRITES, [SU] = OF(SU) | WRITES, [SNW] = OF(SW) | OF(SU) | WRITES,
                [SNRW] = OF(SR) | OF(SW) | OF(SU) | WRITES, [X] = ALL},
    .yields = {[S] = OF(X), [SR] = OF(SNRW) | OF(X), [SW] = WRITES, [SU] = OF(X), [SNW] = OF(X), [SNRW] = OF(X)},
};

/* Tickets of a lock, the first to be asked first. */
struct server_list {
    struct server_ticket *first, **end;
    unsigned counts[MODES];
    unsigned modes; /* those that a ticket has */
};

/* Locks and sessions have cache lines of their own. */
struct server_lock {
    _Alignas(LINE) char key[LONGEST_KEY];
    size_t key_length;
    uint32_t hash;
    _Atomic(struct server_lock *) next; /* of the same bucket */
    const struct server_rules *rules;
    _Alignas(LINE) _Atomic uint64_t word;
    pthread_mutex_t mutex; /* guards what follows */
    struct server_list granted, waiting;
    unsigned obtruding; /* the tickets in both lists whose mode obtrudes */
};

struct server_ticket {
    struct server_lock *lock;
    struct server_session *session;
    enum server_mode mode;
    bool is_counted;
    struct server_ticket *next_of_lock, **here_in_lock;
    struct server_ticket *next_of_session, **here_in_session;
};

enum server_state { NO_WAIT, PENDING, GRANTED };

struct server_session {
    _Alignas(LINE) struct server_ticket *tickets[DURATIONS];
    unsigned counted; /* the tickets that words count */
    _Atomic(struct server_lock *) pins[PINS];
    pthread_mutex_t slot; /* guards the state */
    pthread_cond_t settled;
    enum server_state state;
    struct server_ticket *awaited;
    enum server_duration awaited_for;
};

/* A request. */
struct server_wish {
    unsigned place;
    const char *key;
    size_t key_length;
    enum server_mode mode;
    enum server_duration duration;
};

/* The place of GLOBAL, and the key by which it is known. */
enum { GLOBAL_PLACE = 0, GLOBAL_KEY = 1, TABLE_KEY = 3 };

static _Atomic(struct server_lock *) server_places[MOST_PLACES];
static _Atomic(struct server_lock *) server_buckets[BUCKETS];

/* ---- how a lock is found */

static inline uint32_t stir(uint32_t hash, uint32_t part)
{
    part *= 0xcc9e2d51u;
    part = (part << 15 | part >> 17) * 0x1b873593u;
    hash ^= part;
    return (hash << 13 | hash >> 19) * 5 + 0xe6546b64u;
}

/* The hash of a key, four bytes at a time, as the server's is. */
static inline uint32_t hash_of(const char *key, size_t length)
{
    uint32_t hash = 0, part;
    size_t at = 0;
    for (; at + sizeof part <= length; at += sizeof part) {
        memcpy(&part, key + at, sizeof part);
        hash = stir(hash, part);
    }
    for (part = 0; at < length; at += 1)
        part = part << 8 | (unsigned char)key[at];
    hash = stir(hash, part) ^ (uint32_t)length;
    hash = (hash ^ hash >> 16) * 0x85ebca6bu;
    hash = (hash ^ hash >> 13) * 0xc2b2ae35u;
    return hash ^ hash >> 16;
}

static inline bool has_key(const struct server_lock *lock, const struct server_wish *wish)
{
    return lock->key_length == wish->key_length && memcmp(lock->key, wish->key, wish->key_length) == 0;
}

/* Announces a lock in a pin, or with NULL takes the announcement back. */
static inline void pin(struct server_session *session, unsigned which, struct server_lock *lock)
{
    atomic_store(&session->pins[which], lock);
}

/* The lock to which a link leads, announced. It is read again, as the lock could have been freed before the announcement. */
static inline struct server_lock *pinned(struct server_session *session, unsigned which, _Atomic(struct server_lock *) *link)
{
    for (;;) {
        struct server_lock *lock = atomic_load(link);
        pin(session, which, lock);
        if (atomic_load(link) == lock)
            return lock;
    }
}

static inline struct server_lock *find_by_key(const struct server_wish *wish)
{
    uint32_t hash = hash_of(wish->key, wish->key_length);
    struct server_lock *lock = atomic_load(&server_buckets[hash % BUCKETS]);
    while (lock != NULL && !(lock->hash == hash && has_key(lock, wish)))
        lock = atomic_load(&lock->next);
    return lock;
}

/* The same with announcements of the lock that is looked at, of the next one, and of the one that is found. The last one stays. */
static inline struct server_lock *find_pinned_by_key(struct server_session *session, const struct server_wish *wish)
{
    uint32_t hash = hash_of(wish->key, wish->key_length);
    struct server_lock *lock = pinned(session, 1, &server_buckets[hash % BUCKETS]);
    while (lock != NULL) {
        struct server_lock *next = pinned(session, 0, &lock->next);
        pin(session, 2, lock);
        if (lock->hash == hash && has_key(lock, wish))
            break;
        lock = next;
        pin(session, 1, lock);
    }
    pin(session, 1, NULL);
    pin(session, 0, NULL);
    return lock;
}

static inline struct server_lock *find(struct server_session *session, enum server_look look, const struct server_wish *wish)
{
    struct server_lock *lock;
    if (wish->place == GLOBAL_PLACE)
        lock = atomic_load_explicit(&server_places[GLOBAL_PLACE], memory_order_relaxed);
    else if (look == LITE)
        lock = atomic_load_explicit(&server_places[wish->place], memory_order_relaxed);
    else if (look == PINNED)
        lock = pinned(session, 2, &server_places[wish->place]);
    else if (look == LITE_KEY)
        lock = find_by_key(wish);
    else
        lock = find_pinned_by_key(session, wish);
    if (lock == NULL)
        fail("there is no such lock");
    return lock;
}

/* Takes the announcement back that a look-up left. */
static inline void unpin(struct server_session *session, enum server_look look, const struct server_wish *wish)
{
    if (wish->place != GLOBAL_PLACE && (look == PINNED || look == PINNED_KEY))
        pin(session, 2, NULL);
}

/* ---- lists */

static inline void add(struct server_list *list, struct server_ticket *ticket)
{
    ticket->next_of_lock = NULL;
    ticket->here_in_lock = list->end;
    *list->end = ticket;
    list->end = &ticket->next_of_lock;
    list->counts[ticket->mode] += 1;
    list->modes |= OF(ticket->mode);
}

static inline void take_out(struct server_list *list, struct server_ticket *ticket)
{
    *ticket->here_in_lock = ticket->next_of_lock;
    if (ticket->next_of_lock != NULL)
        ticket->next_of_lock->here_in_lock = ticket->here_in_lock;
    else
        list->end = ticket->here_in_lock;
    list->counts[ticket->mode] -= 1;
    if (list->counts[ticket->mode] == 0)
        list->modes &= ~OF(ticket->mode);
}

/* Puts a ticket before the others of its session. */
static inline void keep(struct server_session *session, enum server_duration duration, struct server_ticket *ticket)
{
    struct server_ticket **list = &session->tickets[duration];
    ticket->next_of_session = *list;
    ticket->here_in_session = list;
    if (*list != NULL)
        (*list)->here_in_session = &ticket->next_of_session;
    *list = ticket;
    session->counted += ticket->is_counted;
}

static inline void let_go(struct server_ticket *ticket)
{
    *ticket->here_in_session = ticket->next_of_session;
    if (ticket->next_of_session != NULL)
        ticket->next_of_session->here_in_session = ticket->here_in_session;
    ticket->session->counted -= ticket->is_counted;
}

/* An own ticket of the same lock, in the same or a stronger mode: one that lets in no mode that the wish keeps out. Looks for one of the wish's duration
   first, as the server does. */
static inline struct server_ticket *find_own(struct server_session *session, enum server_look look, const struct server_wish *wish)
{
    bool by_key = look == LITE_KEY || look == PINNED_KEY;
    struct server_lock *lock = atomic_load_explicit(&server_places[wish->place], memory_order_relaxed);
    for (unsigned i = 0; i < DURATIONS; i += 1) {
        struct server_ticket *ticket = session->tickets[(wish->duration + i) % DURATIONS];
        for (; ticket != NULL; ticket = ticket->next_of_session) {
            const unsigned *clashes = ticket->lock->rules->clashes;
            if ((by_key ? has_key(ticket->lock, wish) : ticket->lock == lock) && (clashes[wish->mode] & ~clashes[ticket->mode]) == 0)
                return ticket;
        }
    }
    return NULL;
}

/* ---- what is granted */

/* The modes of the tickets that a word counts. */
static inline unsigned counted_modes(const struct server_rules *rules, uint64_t word)
{
    if (rules == &of_scopes)
        return (word & COUNT) != 0 ? OF(IX) : 0;
    return ((word & COUNT) != 0 ? OF(S) : 0) | ((word / A_READER & COUNT) != 0 ? OF(SR) : 0) | ((word / A_WRITER & COUNT) != 0 ? OF(SW) : 0);
}

/* Whether a ticket can be granted. Own tickets in the list don't keep it waiting. The lock's mutex is held. */
static inline bool can_grant(struct server_lock *lock, const struct server_ticket *ticket)
{
    unsigned clashes = lock->rules->clashes[ticket->mode];
    if ((lock->waiting.modes & lock->rules->yields[ticket->mode]) != 0)
        return false;
    if ((counted_modes(lock->rules, atomic_load(&lock->word)) & clashes) != 0)
        return false;
    if ((lock->granted.modes & clashes) == 0)
        return true;
    for (const struct server_ticket *other = lock->granted.first; other != NULL; other = other->next_of_lock)
        if (other->session != ticket->session && (OF(other->mode) & clashes) != 0)
            return false;
    return true;
}

/* Tells a session that its wait is granted. Whether it was pending. */
static inline bool tell_granted(struct server_session *session)
{
    pthread_mutex_lock(&session->slot);
    bool was_pending = session->state == PENDING;
    if (was_pending) {
        session->state = GRANTED;
        pthread_cond_signal(&session->settled);
    }
    pthread_mutex_unlock(&session->slot);
    return was_pending;
}

/* Grants all waiters that can be granted, one after another. The lock's mutex is held. */
static inline void reschedule(struct server_lock *lock)
{
    struct server_ticket *ticket = lock->waiting.first;
    while (ticket != NULL) {
        struct server_ticket *next = ticket->next_of_lock;
        if (can_grant(lock, ticket) && tell_granted(ticket->session)) {
            take_out(&lock->waiting, ticket);
            add(&lock->granted, ticket);
        }
        ticket = next;
    }
}

/* Counts a ticket in the lock's word. Whether nobody obtrudes. */
static inline bool count_in(struct server_lock *lock, uint64_t weight)
{
    uint64_t found = atomic_load(&lock->word);
    do {
        if ((found & OBTRUDED) != 0)
            return false;
    } while (!atomic_compare_exchange_weak(&lock->word, &found, found + weight));
    return true;
}

/* Puts a ticket into a list of its lock. Whether it is granted; otherwise it waits. */
static inline bool enlist(struct server_lock *lock, struct server_ticket *ticket)
{
    bool obtrudes = lock->rules->weight[ticket->mode] == 0;
    pthread_mutex_lock(&lock->mutex);
    uint64_t flags = LISTED | (obtrudes ? OBTRUDED : 0);
    lock->obtruding += obtrudes;
    if ((atomic_load(&lock->word) & flags) != flags)
        atomic_fetch_or(&lock->word, flags);
    bool granted = can_grant(lock, ticket);
    ticket->session->state = granted ? NO_WAIT : PENDING;
    add(granted ? &lock->granted : &lock->waiting, ticket);
    pthread_mutex_unlock(&lock->mutex);
    return granted;
}

/* ---- calls */

/* Requests a lock. The ticket is granted, or NULL says that the session waits for it. */
static inline struct server_ticket *server_begin(struct server_session *session, enum server_look look, const struct server_wish *wish)
{
    struct server_ticket *ticket = find_own(session, look, wish);
    if (ticket != NULL)
        return ticket;
    ticket = malloc(sizeof *ticket);
    if (ticket == NULL)
        fail("memory ran out");
    struct server_lock *lock = find(session, look, wish);
    uint64_t weight = lock->rules->weight[wish->mode];
    *ticket = (struct server_ticket){.lock = lock, .session = session, .mode = wish->mode};
    if (weight == 0 && session->counted != 0)
        fail("the model has no locks that obtrude beside counted ones of the same session");
    ticket->is_counted = weight != 0 && count_in(lock, weight);
    if (!ticket->is_counted && !enlist(lock, ticket)) {
        session->awaited = ticket;
        session->awaited_for = wish->duration;
        ticket = NULL;
    } else {
        keep(session, wish->duration, ticket);
    }
    unpin(session, look, wish);
    return ticket;
}

/* Waits until the session's wait is granted. */
static inline struct server_ticket *server_end_wait(struct server_session *session)
{
    struct server_ticket *ticket = session->awaited;
    pthread_mutex_lock(&session->slot);
    while (session->state == PENDING)
        pthread_cond_wait(&session->settled, &session->slot);
    pthread_mutex_unlock(&session->slot);
    session->awaited = NULL;
    keep(session, session->awaited_for, ticket);
    return ticket;
}

/* Requests a lock, and waits for it. */
static inline struct server_ticket *server_acquire(struct server_session *session, enum server_look look, const struct server_wish *wish)
{
    struct server_ticket *ticket = server_begin(session, look, wish);
    return ticket != NULL ? ticket : server_end_wait(session);
}

/* Grants another ticket of a lock, in the mode of one that is counted. There too the clone of such a ticket is counted. */
static inline void server_clone(const struct server_ticket *ticket, enum server_duration duration)
{
    struct server_ticket *clone = malloc(sizeof *clone);
    if (clone == NULL)
        fail("memory ran out");
    *clone = *ticket;
    if (!ticket->is_counted || !count_in(ticket->lock, ticket->lock->rules->weight[ticket->mode]))
        fail("the model clones only tickets that are counted");
    keep(clone->session, duration, clone);
}

/* Takes a ticket out of the lock's word. If a list isn't empty, somebody may wait. */
static inline void count_out(struct server_lock *lock, uint64_t weight)
{
    uint64_t found = atomic_load(&lock->word);
    do {
        if ((found & LISTED) != 0) {
            pthread_mutex_lock(&lock->mutex);
            atomic_fetch_sub(&lock->word, weight);
            reschedule(lock);
            pthread_mutex_unlock(&lock->mutex);
            return;
        }
    } while (!atomic_compare_exchange_weak(&lock->word, &found, found - weight));
}

/* Takes a ticket out of the list of those granted. */
static inline void delist(struct server_lock *lock, struct server_ticket *ticket)
{
    uint64_t flags = 0;
    pthread_mutex_lock(&lock->mutex);
    take_out(&lock->granted, ticket);
    lock->obtruding -= lock->rules->weight[ticket->mode] == 0;
    if (lock->obtruding == 0)
        flags |= OBTRUDED;
    if (lock->granted.first == NULL && lock->waiting.first == NULL)
        flags |= LISTED;
    if ((atomic_load(&lock->word) & flags) != 0)
        atomic_fetch_and(&lock->word, ~flags);
    reschedule(lock);
    pthread_mutex_unlock(&lock->mutex);
}

static inline void server_release(struct server_ticket *ticket)
{
    struct server_lock *lock = ticket->lock;
    let_go(ticket);
    if (ticket->is_counted)
        count_out(lock, lock->rules->weight[ticket->mode]);
    else
        delist(lock, ticket);
    free(ticket);
}

/* Releases the tickets of a duration, the last one first. */
static inline void server_release_all(struct server_session *session, enum server_duration duration)
{
    while (session->tickets[duration] != NULL)
        server_release(session->tickets[duration]);
}

/* ---- what there is before there are threads */

/* Makes the lock of a key at a place. */
static inline void server_make(unsigned place, const char *key, size_t length)
{
    struct server_lock *lock = aligned_alloc(LINE, sizeof *lock);
    if (lock == NULL || length > LONGEST_KEY || place >= MOST_PLACES)
        fail("a lock can't be made");
    memset(lock, 0, sizeof *lock);
    memcpy(lock->key, key, length);
    lock->key_length = length;
    lock->hash = hash_of(key, length);
    lock->rules = place == GLOBAL_PLACE ? &of_scopes : &of_tables;
    lock->granted.end = &lock->granted.first;
    lock->waiting.end = &lock->waiting.first;
    if (pthread_mutex_init(&lock->mutex, NULL) != 0)
        fail("a lock can't be made");
    atomic_init(&lock->next, atomic_load(&server_buckets[lock->hash % BUCKETS]));
    atomic_store(&server_places[place], lock);
    if (place != GLOBAL_PLACE)
        atomic_store(&server_buckets[lock->hash % BUCKETS], lock);
}

/* Whether nobody has or wants the lock at a place, once there are no threads any more. */
static inline bool server_is_free(unsigned place)
{
    const struct server_lock *lock = atomic_load(&server_places[place]);
    return atomic_load(&lock->word) == 0 && lock->granted.first == NULL && lock->waiting.first == NULL && lock->obtruding == 0;
}

static inline void server_open(struct server_session *session)
{
    memset(session, 0, sizeof *session);
    if (pthread_mutex_init(&session->slot, NULL) != 0 || pthread_cond_init(&session->settled, NULL) != 0)
        fail("a session can't be opened");
}

#endif

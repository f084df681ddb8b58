/* gaz_one_all.h: several locks at once, or none, for sessions with a context: what the server's acquire_locks does.

   These functions are made of calls of gaz_one.h, for C and C++. They are tested, by examples/c/server_cases.c, and not proved. They take no memory beside
   that which gaz_one_acquire takes.

   A host fills an array of requests, and makes a struct gaz_requests of it by GAZ_REQUESTS_INIT. gaz_one_try_all gets all of the locks without waiting,
   or none. gaz_one_acquire_all may return GAZ_WAITING, as gaz_one_acquire: wait until gaz_one_poll returns something else, and call it again. It goes on
   from there. gaz_one_give_up_all ends that instead. Until one of them has returned something else than GAZ_WAITING, leave the requests and their names as
   they are, and call nothing else that changes the session's tickets. Call gaz_one_settled after each of these calls. */
#ifndef GAZ_ONE_ALL_H
#define GAZ_ONE_ALL_H

#include "gaz_one.h"

#include <string.h>

#ifdef __cplusplus
extern "C" {
#endif

/* A request of a lock: the arguments of gaz_one_acquire, in their order. The ticket is 0 until the lock is there, and after all are given up. */
struct gaz_request {
    uint8_t namespace_;
    const uint8_t *schema;
    size_t schema_length;
    const uint8_t *table;
    size_t table_length;
    uint8_t mode;
    uint8_t duration;
    uint64_t ticket;
};

/* The requests that a session makes together. The fields after the second one are the functions' own. */
struct gaz_requests {
    struct gaz_request *requests;
    size_t count;
    size_t taken;         /* so many locks are there */
    bool is_waiting;      /* for the next one */
    struct gaz_mark mark; /* where the session stood before */
};
#define GAZ_REQUESTS_INIT(requests, count) {(requests), (size_t)(count), 0, false, {0, 0}}

/* ---- the order of keys: by namespace, then by the bytes of the schema's name, then by those of the table's */

/* Only the names that keys of the namespace have are read. */
GAZ_INLINE bool gaz_one_has_schema(const struct gaz_request *request)
{
    return request->namespace_ == GAZ_SCHEMA || request->namespace_ == GAZ_TABLE || request->namespace_ == GAZ_USER_LEVEL_LOCK;
}

GAZ_INLINE int gaz_one_order_of_names(const uint8_t *a, size_t a_length, const uint8_t *b, size_t b_length)
{
    size_t both = a_length < b_length ? a_length : b_length;
    int order = both > 0 ? memcmp(a, b, both) : 0;
    return order != 0 ? order : (a_length > b_length) - (a_length < b_length);
}

GAZ_INLINE int gaz_one_order_of_keys(const struct gaz_request *a, const struct gaz_request *b)
{
    int order = a->namespace_ - b->namespace_;
    if (order == 0 && gaz_one_has_schema(a))
        order = gaz_one_order_of_names(a->schema, a->schema_length, b->schema, b->schema_length);
    if (order == 0 && a->namespace_ == GAZ_TABLE)
        order = gaz_one_order_of_names(a->table, a->table_length, b->table, b->table_length);
    return order;
}

/* Puts requests into the order of their keys. Those of one key stay in their order. (It is meant for some hundreds of requests at most.) */
GAZ_INLINE void gaz_one_sort_requests(struct gaz_request *requests, size_t count)
{
    for (size_t at = 1; at < count; at += 1) {
        struct gaz_request moved = requests[at];
        size_t to = at;
        for (; to > 0 && gaz_one_order_of_keys(&moved, &requests[to - 1]) < 0; to -= 1)
            requests[to] = requests[to - 1];
        requests[to] = moved;
    }
}

/* ---- how all are begun, and undone */

GAZ_INLINE uint32_t gaz_one_begin_all(struct gaz_one_space *space, uint16_t who, struct gaz_requests *all)
{
    gaz_one_sort_requests(all->requests, all->count);
    for (size_t at = 0; at < all->count; at += 1)
        all->requests[at].ticket = 0;
    all->taken = 0;
    all->is_waiting = false;
    return gaz_one_savepoint(space, who, &all->mark);
}

/* The next lock is there, if the code says so: notes its ticket. */
GAZ_INLINE void gaz_one_note_next(struct gaz_requests *all, uint32_t code, uint64_t ticket)
{
    if (code != GAZ_DONE)
        return;
    all->requests[all->taken].ticket = ticket;
    all->taken += 1;
}

/* Releases the locks that are there. A savepoint leaves explicit tickets, each of which is a request's own. */
GAZ_INLINE void gaz_one_undo_all(struct gaz_one_space *space, uint16_t who, struct gaz_requests *all)
{
    for (size_t at = 0; at < all->taken; at += 1)
        if (all->requests[at].duration == GAZ_EXPLICIT)
            gaz_one_context_release(space, who, all->requests[at].ticket);
    gaz_one_rollback_to(space, who, all->mark);
    for (size_t at = 0; at < all->count; at += 1)
        all->requests[at].ticket = 0;
    all->taken = 0;
}

/* ---- the three calls */

/* Acquires all locks without waiting, in the order of their keys: DONE, and each request has its ticket. Otherwise the code of the first request that
   isn't DONE, as gaz_one_try_acquire returns it: the session's tickets are as before. */
GAZ_INLINE uint32_t gaz_one_try_all(struct gaz_one_space *space, uint16_t who, struct gaz_requests *all)
{
    uint32_t code = gaz_one_begin_all(space, who, all);
    if (code != GAZ_DONE)
        return code;
    while (code == GAZ_DONE && all->taken < all->count) {
        const struct gaz_request *next = &all->requests[all->taken];
        uint64_t ticket = 0;
        code = gaz_one_try_acquire_inline(space, who, next->namespace_, next->schema, next->schema_length, next->table, next->table_length, next->mode,
                                          next->duration, &ticket);
        gaz_one_note_next(all, code, ticket);
    }
    if (code != GAZ_DONE)
        gaz_one_undo_all(space, who, all);
    return code;
}

/* Acquires the locks from the next one on, until it has to wait. */
GAZ_INLINE uint32_t gaz_one_acquire_rest(struct gaz_one_space *space, uint16_t who, struct gaz_requests *all)
{
    uint32_t code = GAZ_DONE;
    while (code == GAZ_DONE && all->taken < all->count) {
        const struct gaz_request *next = &all->requests[all->taken];
        uint64_t number = 0;
        code = gaz_one_acquire_inline(space, who, next->namespace_, next->schema, next->schema_length, next->table, next->table_length, next->mode,
                                      next->duration, &number);
        gaz_one_note_next(all, code, number);
    }
    return code;
}

/* Acquires all locks, in the order of their keys: DONE, and each request has its ticket, or WAITING. Otherwise a request is refused, or its wait is lost
   (VICTIM, TIMEOUT, KILLED): the session's tickets are as before the first call, and it doesn't wait for any of the locks. */
GAZ_INLINE uint32_t gaz_one_acquire_all(struct gaz_one_space *space, uint16_t who, struct gaz_requests *all)
{
    uint32_t code;
    if (all->is_waiting) {
        uint64_t ticket = 0;
        code = gaz_one_resume(space, who, &ticket);
        gaz_one_note_next(all, code, ticket);
    } else {
        code = gaz_one_begin_all(space, who, all);
        if (code != GAZ_DONE)
            return code;
    }
    if (code == GAZ_DONE)
        code = gaz_one_acquire_rest(space, who, all);
    all->is_waiting = code == GAZ_WAITING;
    if (code != GAZ_DONE && code != GAZ_WAITING)
        gaz_one_undo_all(space, who, all);
    return code;
}

/* Gives all up while gaz_one_acquire_all waits, also if the wait was granted meanwhile: TIMEOUT, or how the wait was lost before. The session's tickets
   are as before the first call. NO_WAIT if it doesn't wait: then nothing changes. */
GAZ_INLINE uint32_t gaz_one_give_up_all(struct gaz_one_space *space, uint16_t who, struct gaz_requests *all)
{
    uint64_t ticket = 0;
    if (!all->is_waiting)
        return GAZ_NO_WAIT;
    uint32_t code = gaz_one_give_up(space, who, &ticket);
    gaz_one_note_next(all, code, ticket);
    all->is_waiting = false;
    gaz_one_undo_all(space, who, all);
    if (code == GAZ_DONE)
        code = GAZ_TIMEOUT;
    return code;
}

#ifdef __cplusplus
}
#endif

#endif

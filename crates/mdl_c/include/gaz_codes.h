/* gaz_codes.h: the numbers and rows of Gazmirov's libraries for C and C++. gaz_one.h includes it. */
#ifndef GAZ_CODES_H
#define GAZ_CODES_H

#include <stddef.h>
#include <stdint.h>

/* The version of the headers: 600 is 0.6.0. A library of another version refuses to make a manager (GAZ_OTHER_VERSION). */
#define GAZ_VERSION 600

/* The modes: keys of tables and of user-level locks take all but IX, the other keys take IX, S and X. */
enum gaz_mode {
    GAZ_IX, GAZ_S, GAZ_SH, GAZ_SR, GAZ_SW, GAZ_SWLP, GAZ_SU, GAZ_SRO, GAZ_SNW, GAZ_SNRW, GAZ_X
};

/* How long a context keeps a ticket. GAZ_UNKEPT is only told, of tickets that no context keeps. */
enum gaz_duration {
    GAZ_STATEMENT, GAZ_TRANSACTION, GAZ_EXPLICIT, GAZ_UNKEPT
};

/* The namespaces of keys. */
enum gaz_namespace {
    GAZ_GLOBAL, GAZ_SCHEMA, GAZ_TABLE, GAZ_COMMIT, GAZ_USER_LEVEL_LOCK
};

/* Whether a ticket in a lock's list holds the lock, or waits for it, or its wait is lost and not ended. */
enum gaz_status {
    GAZ_GRANTED, GAZ_PENDING, GAZ_LOST_AS_VICTIM, GAZ_LOST_BY_TIMEOUT, GAZ_LOST_BY_KILL
};

/* A ticket that a session holds: its number, its place, and its mode (enum gaz_mode). */
struct gaz_ticket {
    uint64_t ticket;
    uint16_t place;
    uint8_t mode;
};

/* A ticket in a lock's list: its number, its session, its mode (enum gaz_mode), its status (enum gaz_status), and its duration (enum gaz_duration). */
struct gaz_lock {
    uint64_t ticket;
    uint16_t session;
    uint8_t mode;
    uint8_t status;
    uint8_t duration;
};

/* A point in a session's work: how many tickets of the statement and of the transaction its context keeps. It names no ticket. */
struct gaz_mark {
    size_t statement;
    size_t transaction;
};

enum gaz_code {
    /* answers */
    GAZ_DONE = 0,            /* done; granted; there is no deadlock */
    GAZ_WOULD_WAIT = 1,      /* the lock can't be granted now, and nothing has changed */
    GAZ_WAITING = 2,         /* the session waits */
    GAZ_VICTIM = 3,          /* a deadlock's victim: the wait is lost */
    GAZ_TIMEOUT = 4,         /* the wait is lost by a timeout */
    GAZ_KILLED = 5,          /* the wait is lost by a kill */
    GAZ_NOT_KILLED = 6,      /* no wait of this number is unsettled */
    /* refusals: nothing has changed, unless what is said of a call of contexts differs */
    GAZ_CLOSED = 16,         /* there is no manager */
    GAZ_IS_OPEN = 17,        /* there is one already */
    GAZ_NO_SESSION = 18,     /* the manager has no session of this number: sessions count from 1 */
    GAZ_BAD_PLACES = 19,     /* a manager has 1 to 256 places */
    GAZ_BAD_SESSIONS = 20,   /* and 1 to 1024 sessions */
    GAZ_NO_MODE = 21,        /* there is no mode of this number */
    GAZ_EMPTY_NAME = 22,     /* a name has 1 to 255 bytes of UTF-8 */
    GAZ_LONG_NAME = 23,
    GAZ_BAD_BYTE = 24,       /* a name isn't UTF-8. It is told before the other two, and of these the schema's before the table's */
    GAZ_HAS_CONTEXT = 25,    /* a context keeps the session's tickets */
    GAZ_NO_CONTEXT = 26,     /* none does */
    GAZ_SESSION_IN_USE = 27, /* the session holds a ticket, has a wait or pins a place */
    GAZ_NO_DURATION = 28,    /* there is no duration of this number */
    GAZ_NO_NAMESPACE = 29,   /* there is no namespace of this number */
    GAZ_OTHER_VERSION = 30,  /* the program was built with the headers of another version */
    /* refusals of the space, in the order in which they are checked */
    GAZ_NO_PLACE = 32,       /* the session doesn't pin the place, or it has no key, or all places are in use */
    GAZ_NOT_HELD = 33,       /* the session holds no such ticket */
    GAZ_NOT_UPGRADABLE = 34, /* the held mode can't become the other */
    GAZ_NOT_EXCLUSIVE = 35,
    GAZ_ALREADY_WAITING = 36, /* the session has a wait that it hasn't ended */
    GAZ_BAD_MODE = 37,       /* the key doesn't take the mode, or the ticket isn't strong enough for it */
    GAZ_VERSION_FULL = 38,
    GAZ_NO_WAIT = 39,        /* the session has no wait */
    GAZ_UNSETTLED = 40,      /* its wait isn't settled */
    GAZ_COUNTER_FULL = 41,   /* the session has used up its numbers */
    GAZ_FULL = 42,           /* the lock has as many tickets as it can have */
    GAZ_BAD_DEF = 43,
    GAZ_WRONG_KIND = 44,
    GAZ_NO_MEMORY = 45,      /* memory ran out: the call may be made again */
    GAZ_IN_USE = 46,         /* the session has a ticket or a wait at the place */
    /* refusals of a context, before those of the space */
    GAZ_STALE_SAVEPOINT = 48, /* fewer tickets are kept than the mark counted */
    GAZ_NOT_KEPT = 49,       /* the context keeps no such ticket */
    GAZ_HAS_WAIT = 50        /* the context has a wait that it hasn't ended */
};

#endif

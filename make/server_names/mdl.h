/* Names that sql/mdl.h of MySQL 5.7 has at global scope, for C and C++: its guard, enumerations, structures, functions and variables. make/c.sh compiles
   our headers beside this one: a server's file includes both. What the names stand for is left out. */
#ifndef MDL_H
#define MDL_H

#ifdef __cplusplus
extern "C" {
#endif

enum enum_mdl_type {
    MDL_INTENTION_EXCLUSIVE, MDL_SHARED, MDL_SHARED_HIGH_PRIO, MDL_SHARED_READ, MDL_SHARED_WRITE, MDL_SHARED_WRITE_LOW_PRIO, MDL_SHARED_UPGRADABLE,
    MDL_SHARED_READ_ONLY, MDL_SHARED_NO_WRITE, MDL_SHARED_NO_READ_WRITE, MDL_EXCLUSIVE, MDL_TYPE_END
};

enum enum_mdl_duration { MDL_STATEMENT, MDL_TRANSACTION, MDL_EXPLICIT, MDL_DURATION_END };

/* In C the names of the two enumerations inside are global, too. */
struct MDL_key {
    enum enum_mdl_namespace {
        GLOBAL, TABLESPACE, SCHEMA, TABLE, FUNCTION, PROCEDURE, TRIGGER, EVENT, COMMIT, USER_LEVEL_LOCK, LOCKING_SERVICE, NAMESPACE_END
    } space;
};

struct MDL_wait {
    enum enum_wait_status { EMPTY, GRANTED, VICTIM, TIMEOUT, KILLED } status;
};

struct MDL_context { struct MDL_wait m_wait; };
struct MDL_lock { struct MDL_key key; };
struct MDL_request { enum enum_mdl_type type; enum enum_mdl_duration duration; struct MDL_key key; };
struct MDL_savepoint { struct MDL_ticket *m_stmt_ticket, *m_trans_ticket; };
struct MDL_ticket { enum enum_mdl_type m_type; struct MDL_lock *m_lock; };

extern int mdl_locks_unused_locks_low_water;
void mdl_init(void);
void mdl_destroy(void);

#ifdef __cplusplus
}
#endif

#endif

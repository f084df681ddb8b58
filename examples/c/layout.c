/* The sizes of the structures of the headers, and where their fields are, on x86-64: a program that was built with others would read other bytes. */
#include <stddef.h>
#include <stdio.h>

#include "gaz_one.h"

_Static_assert(sizeof(struct gaz_one_space) == 16, "struct gaz_one_space has 16 bytes");
_Static_assert(offsetof(struct gaz_one_space, at) == 0, "at is first");
_Static_assert(offsetof(struct gaz_one_space, is_open) == 8 && sizeof(bool) == 1, "is_open is the byte after at");

_Static_assert(sizeof(struct gaz_ticket) == 16, "struct gaz_ticket has 16 bytes");
_Static_assert(offsetof(struct gaz_ticket, ticket) == 0, "ticket is first");
_Static_assert(offsetof(struct gaz_ticket, place) == 8, "place is after ticket");
_Static_assert(offsetof(struct gaz_ticket, mode) == 10, "mode is after place");

_Static_assert(sizeof(struct gaz_lock) == 16, "struct gaz_lock has 16 bytes");
_Static_assert(offsetof(struct gaz_lock, ticket) == 0, "ticket is first");
_Static_assert(offsetof(struct gaz_lock, session) == 8, "session is after ticket");
_Static_assert(offsetof(struct gaz_lock, mode) == 10, "mode is after session");
_Static_assert(offsetof(struct gaz_lock, status) == 11, "status is after mode");
_Static_assert(offsetof(struct gaz_lock, duration) == 12, "duration is after status");

_Static_assert(sizeof(struct gaz_mark) == 16, "struct gaz_mark has 16 bytes");
_Static_assert(offsetof(struct gaz_mark, statement) == 0, "statement is first");
_Static_assert(offsetof(struct gaz_mark, transaction) == 8, "transaction is after statement");

int main(void) {
    printf("the structures have their sizes\n");
    return 0;
}

/* gaz_text.h: scripts of the metadata locks of MySQL 5.7, for C and C++: bytes in, bytes out.

   Link with libgaz_text.a, which `make install` builds, and with three functions for memory, as gaz_one.h says. The two libraries may be in one
   program, and each works without the other.

   What the caller must make sure of, since nothing checks it:
   - No pointer is null, a length is below 2^63, and what the pointers point to is initialised and doesn't overlap.
   - The script doesn't change during the call.
   - No call comes from a signal handler, or from the forked child of a process with threads.
   - malloc, realloc and free are of one allocator, and align to 16.
   Calls keep no state: any number of threads may make calls at a time, each with its own buffers. */
#ifndef GAZ_TEXT_H
#define GAZ_TEXT_H

#include <stddef.h>
#include <stdint.h>

#ifdef __cplusplus
extern "C" {
#endif

enum gaz_text_kind {
    GAZ_TEXT_OBJECT = 0, /* the lock of a table */
    GAZ_TEXT_SCOPED = 1  /* the lock of a schema, the global lock, or the lock of commits */
};

enum gaz_text_code {
    GAZ_TEXT_DONE = 0,        /* the answers are written, and *length is set */
    GAZ_TEXT_NO_ROOM = 1,     /* the answers don't fit: *length is set, and nothing is written */
    /* the script is refused: *line is set, and nothing is written */
    GAZ_TEXT_BAD_SESSION = 16, /* its first word isn't a session number from 1 to 1024 */
    GAZ_TEXT_BAD_WORD = 17,    /* a word is missing, misspelled, or one too many */
    GAZ_TEXT_BAD_NAME = 18,    /* a word isn't a name, or names a table for the second time */
    GAZ_TEXT_LONG_LINE = 19,   /* it has more than 4096 bytes */
    GAZ_TEXT_NOT_ASCII = 20,   /* it has a byte of 0x80 or more */
    /* nothing has changed */
    GAZ_TEXT_NO_KIND = 21,    /* there is no lock of this kind */
    GAZ_TEXT_NO_MEMORY = 45   /* memory ran out: the call may be made again */
};

/* Plays a script of statements, and writes what `mdlsim replay` prints. *length gets the number of bytes of the answers, *line the number of the
   refused line, counted from 1. The code says which of them is set. One that is not set is unchanged. */
uint32_t gaz_text_replay(const uint8_t *script, size_t script_length, uint8_t *out, size_t room, size_t *length, uint64_t *line);

/* Drives one lock of a kind by a script, and writes what `mdlsim lock` prints, or with GAZ_TEXT_SCOPED `mdlsim lock --scoped`. */
uint32_t gaz_text_lock(uint8_t kind, const uint8_t *script, size_t script_length, uint8_t *out, size_t room, size_t *length, uint64_t *line);

#ifdef __cplusplus
}
#endif

#endif

/* Memory of the program's own, by the three functions that it brings. Each allocation of a script's run is refused in turn: the call says so, is done
   when it is made again, and no memory is lost. (A context can do without the notes by which it finds known keys faster.) */
#include "gaz_text.h"

#include <stdbool.h>
#include <stdio.h>
#include <stdlib.h>
#include <string.h>

#define BYTES(text) (const uint8_t *)(text), strlen(text)

struct attempt {
    bool ok;
    void *p;
};

static unsigned asked, refused; /* so many allocations were asked for; the one of this number is refused */
static long alive;              /* so many blocks aren't given back */
static char nowhere;            /* where a refused allocation points: never null */

static bool is_granted(void)
{
    asked += 1;
    return asked != refused;
}

struct attempt rattle_alloc(size_t size, size_t align)
{
    void *block = is_granted() && align <= 16 ? malloc(size) : NULL;
    alive += block != NULL;
    return (struct attempt){block != NULL, block ? block : &nowhere};
}

struct attempt rattle_realloc(void *old, size_t kept, size_t size, size_t align)
{
    (void)kept; /* so many of the old bytes have to stay: all of them do */
    void *block = is_granted() && align <= 16 ? realloc(old, size) : NULL;
    return (struct attempt){block != NULL, block ? block : &nowhere};
}

void rattle_dealloc(void *block)
{
    alive -= 1;
    free(block);
}

/* Plays a script, as often as memory runs out and once more. Returns how often it ran out, or -1 where something else went wrong. */
static int play(void)
{
    uint8_t room[100];
    size_t length = 0;
    uint64_t line = 0;
    const char *script = "1 CREATE TABLE t x\n1 BEGIN\n1 SELECT t\n2 DROP TABLE t\n1 COMMIT\n";
    const char *answers = "1 1 OK\n2 1 OK\n3 1 OK test.t@1(x)\n4 2 WAIT TABLE test.t X\n5 1 OK\n4 2 OK\n";
    int told = 0;
    while (gaz_text_replay(BYTES(script), room, sizeof room, &length, &line) == GAZ_TEXT_NO_MEMORY && told < 10)
        told += 1;
    return length == strlen(answers) && memcmp(room, answers, length) == 0 && alive == 0 ? told : -1;
}

int main(void)
{
    if (play() != 0)
        return 1;
    unsigned all = asked;
    printf("playing the script takes memory: %s\n", all > 0 ? "yes" : "no");
    unsigned untold = 0;
    for (refused = 1; refused <= all; refused += 1) {
        asked = 0;
        int times = play();
        if (times != 0 && times != 1) {
            printf("allocation %u of %u, refused: the call says so more than once, has other answers then, or loses memory\n", refused, all);
            return 1;
        }
        untold += times == 0;
    }
    printf("each allocation was refused once, and the call was done when it was made again, or could do without it\n");
    printf("refused allocations that weren't told, and could be done without: %u\n", untold);
    return 0;
}

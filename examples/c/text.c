/* Scripts, bytes in and bytes out: one of statements, from a file, scripts of one lock, some that are refused, and long ones. Run it at the top of the
   repository, or name a script of statements. */
#include "gaz_text.h"

#include <stdio.h>
#include <stdlib.h>
#include <string.h>

#define BYTES(text) (const uint8_t *)(text), strlen(text)

static uint8_t script[65536];
static char long_line[4098]; /* with the 0 that ends it */

/* Plays a script of statements in as much room as its answers take. */
static int play(const char *name)
{
    FILE *file = fopen(name, "rb");
    uint64_t line = 0;
    size_t taken = 0;
    uint8_t none = 0;
    if (file == NULL)
        return 0;
    size_t length = fread(script, 1, sizeof script, file);
    fclose(file);
    uint32_t code = gaz_text_replay(script, length, &none, 0, &taken, &line);
    printf("without room: %u, the answers take %zu bytes\n", code, taken);
    uint8_t *answers = code == GAZ_TEXT_NO_ROOM ? malloc(taken) : NULL;
    if (answers == NULL)
        return 0;
    printf("with room: %u\n", gaz_text_replay(script, length, answers, taken, &taken, &line));
    fwrite(answers, 1, taken, stdout);
    free(answers);
    return 1;
}

/* Drives one lock by a script. */
static void drive(const char *what, uint8_t kind, const char *text)
{
    uint8_t room[200];
    size_t length = 0;
    uint64_t line = 0;
    printf("%s: %u\n", what, gaz_text_lock(kind, BYTES(text), room, sizeof room, &length, &line));
    if (line != 0)
        printf("line %u is refused\n", (unsigned)line);
    fwrite(room, 1, length, stdout);
}

/* Refuses a script of statements. */
static void refuse(const char *what, const char *text)
{
    size_t length = 0;
    uint64_t line = 0;
    uint32_t code = gaz_text_replay(BYTES(text), script, sizeof script, &length, &line);
    printf("%s: %u, line %u\n", what, code, (unsigned)line);
}

/* Writes a text as often as it takes to have so many bytes, and returns how many bytes that are. */
static size_t repeat(const char *text, size_t least, char *to)
{
    size_t length = 0;
    for (; length < least; length += strlen(text))
        memcpy(to + length, text, strlen(text));
    return length;
}

/* Plays a script that has at least so many bytes. */
static void play_long(size_t least)
{
    size_t room = 4 * least + 100, taken = 0, wanted = 0;
    uint64_t refused = 0;
    char *text = malloc(room), *answers = malloc(room), *found = malloc(room);
    if (text == NULL || answers == NULL || found == NULL)
        return;
    size_t length = repeat("1 SELECT t\n", least, text);
    for (unsigned line = 1; line <= length / strlen("1 SELECT t\n"); line += 1)
        wanted += (size_t)sprintf(answers + wanted, "%u 1 ERR 1146\n", line);
    uint32_t code = gaz_text_replay((const uint8_t *)text, length, (uint8_t *)found, room, &taken, &refused);
    printf("%zu bytes of statements: %u, %s\n", length, code, taken == wanted && memcmp(found, answers, wanted) == 0 ? "answered" : "not answered");
    length = repeat("1 X\n1 RELEASE\n", least, text);
    wanted = length / strlen("1 X\n1 RELEASE\n") * strlen("1 GRANTED X\n1 RELEASED X\n");
    repeat("1 GRANTED X\n1 RELEASED X\n", wanted, answers);
    code = gaz_text_lock(GAZ_TEXT_OBJECT, (const uint8_t *)text, length, (uint8_t *)found, room, &taken, &refused);
    printf("%zu bytes of commands: %u, %s\n", length, code, taken == wanted && memcmp(found, answers, wanted) == 0 ? "answered" : "not answered");
    free(text);
    free(answers);
    free(found);
}

int main(int count, char **words)
{
    if (!play(count > 1 ? words[1] : "examples/alter_stops_a_table.replay"))
        return 1;
    drive("the lock of a table", GAZ_TEXT_OBJECT, "1 SR\n2 X\n1 RELEASE\n");
    drive("that of a schema", GAZ_TEXT_SCOPED, "1 IX\n2 S\n");
    drive("there is no session 0", GAZ_TEXT_OBJECT, "1 SR\n0 X\n");
    drive("a schema has no SR", GAZ_TEXT_SCOPED, "1 SR\n");
    drive("there is no third kind", 2, "");
    refuse("no table", "1 BEGIN\n1 SELECT\n");
    refuse("no name", "1 SELECT T\n");
    refuse("a byte that isn't ASCII", "1 SELECT t\n\n# \xc3\xa9\n");
    repeat("#", 4097, long_line);
    refuse("a line of 4097 bytes", long_line);
    play_long(4097);
    play_long(1 << 20);
    return 0;
}

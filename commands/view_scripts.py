"""Scripts of statements that mdlview refuses, with what it reports of them, and lines of each form of statements, cut after each word: a word is missing
there, or the line is complete."""

import subprocess

from sizes import MOST_SESSIONS

MISSING = b"a word is missing behind it\n"
BEYOND = b"%d" % (MOST_SESSIONS + 1)
NO_SESSION = b'is no session: sessions are 1 to %d\n' % MOST_SESSIONS

# A script, and what is reported of its refused line.
REFUSED = [
    (b"# names\n\n1 SELECT Orders\n", b'line 3, word 3: "Orders" is no name: names have a-z, 0-9 and _\n'),
    *((b"1 BEGIN%b%b BEGIN%b" % (end, BEYOND, end), b'line 2, word 1: "%b" %b' % (BEYOND, NO_SESSION)) for end in (b"\n", b"\r\n")),
    (b"1 KILL QUERY 0", b'line 1, word 4: "0" ' + NO_SESSION),
    (b"1 SELCT t", b'line 1, word 2: "SELCT" can\'t stand here\n'),
    (b"1 BEGIN  now ", b'line 1, word 3: "now" can\'t stand here\n'),
    (b"1 ALTER TABLE t ADD c SLOWLY", b'line 1, word 7: "SLOWLY" can\'t stand here\n'),
    (b"1 SELECT", b'line 1, word 2: "SELECT": ' + MISSING),
    (b"1", b'line 1, word 1: "1": ' + MISSING),
    (b"1 LOCK TABLES t READ u", b'line 1, word 6: "u": ' + MISSING),
    (b"1 DROP TABLE t u t", b'line 1, word 6: "t" is no name of 1 to 64 bytes, or stands here twice\n'),
    (b'1 GET_LOCK "a"', b'line 1, word 3: "\\"a\\"" is no name: names have a-z, 0-9 and _\n'),
    (b"1 BEGIN\n1 SELECT \xe9\n", b"line 2: it has a byte that is not ASCII\n"),
    (5000 * b"x" + b"\n", b"line 1: it has more than 4096 bytes\n"),
]

# A line of each form of statements.
FORMS = [
    "1 BEGIN",
    "1 START TRANSACTION",
    "1 COMMIT",
    "1 ROLLBACK",
    "1 ROLLBACK TO s",
    "1 SAVEPOINT s",
    "1 SELECT t u",
    "1 INSERT LOW_PRIORITY t",
    "1 UPDATE t",
    "1 DELETE t",
    "1 CREATE TABLE t x y",
    "1 CREATE SCHEMA s",
    "1 DROP TABLE t u",
    "1 DROP SCHEMA s",
    "1 RENAME TABLE t TO u",
    "1 ALTER TABLE t ADD x COPY",
    "1 ALTER TABLE t DROP x INPLACE",
    "1 LOCK TABLES t READ u WRITE",
    "1 UNLOCK TABLES",
    "1 FLUSH TABLES WITH READ LOCK",
    "1 KILL QUERY 2",
    "1 TIMEOUT",
    "1 GET_LOCK n",
    "1 RELEASE_LOCK n",
]


def reported(program, words, script):
    """Returns the status, what the program printed, and what it reported of a script."""
    ran = subprocess.run([program, *words], input=script, capture_output=True)
    return ran.returncode, ran.stdout, ran.stderr


def wrong_refusals(program):
    """Returns the scripts that are refused wrongly, also if the refused line comes after those that are played, or a picture or a page is asked for."""
    for script, told in REFUSED:
        for words in (["--script"], ["--script", "--at", "1"], ["timeline", "--script"], ["timeline", "--script", "--at", "1"], ["timeline", "--script", "--html"]):
            if (found := reported(program, words, script)) != (1, b"", told):
                yield f"{' '.join(words)} < {script[:40]}", found


def wrong_forms(program):
    """Returns the lines that aren't accepted, and the beginnings of lines that are refused for something else than a missing word."""
    for form in FORMS:
        if (found := reported(program, ["--script"], form.encode()))[0] != 0:
            yield form, found
        words = form.split(" ")
        for count in range(1, len(words)):
            begun = " ".join(words[:count])
            status, _, told = found = reported(program, ["--script"], begun.encode())
            if status != 0 and (status != 1 or not told.endswith(f'"{words[count - 1]}": '.encode() + MISSING)):
                yield begun, found


def wrong_scripts(program):
    """Returns what is refused wrongly, with what the program did."""
    return [*wrong_refusals(program), *wrong_forms(program)]

"""Scripts of as many sessions, tables, columns, savepoints and lines as there may be, or of many. There is enough memory for all of them, so
a program that reports a lack of memory is wrong, although no contract rules it out."""

import itertools
import subprocess

from sizes import MOST_SESSIONS

OTHERS = range(2, MOST_SESSIONS + 1)
LONG_NAME = "abcdefghijklmnopqrstuvwxyz_abcdefghijklmnopqrstuvwxyz_12345"


def text_of(*parts):
    """Returns a text of lines, and of lists of lines."""
    return "".join(f"{it}\n" for part in parts for it in ([part] if isinstance(part, str) else part))


def by_others(words):
    """Returns a line for each session except the first."""
    return [f"{who} {words}" for who in OTHERS]


# ---- of statements


def waits():
    """All sessions except the first wait for a table until the end. Or the first waiter drops it in the end, and the others find no table."""
    script = ["1 CREATE TABLE t x", "1 BEGIN", "1 SELECT t", *by_others("DROP TABLE t")]
    answers = ["1 1 OK", "2 1 OK", "3 1 OK test.t@1(x)", *(f"{who + 2} {who} WAIT TABLE test.t X" for who in OTHERS)]
    yield script, [*answers, *(f"END {it} WAIT" for it in OTHERS)]
    yield [*script, "1 COMMIT"], [*answers, f"{MOST_SESSIONS + 3} 1 OK", "4 2 OK", *(f"{who + 2} {who} ERR 1146" for who in OTHERS if who > 2)]


def columns():
    """A table has 64 columns, whose names may be as long as the line lets them be."""
    for prefix in (f"{LONG_NAME}_", "c"):
        names = [f"{prefix}{it}" for it in range(10, 74)]
        yield [f"1 CREATE TABLE t {' '.join(names)}", "1 SELECT t"], ["1 1 OK", f"2 1 OK test.t@1({','.join(names)})"]


def numbered(words, answer, first, last):
    """Returns lines of session 1 that differ only in their number, and their answers."""
    return [f"1 {words}{it}" for it in range(first, last + 1)], [f"{it} 1 {answer}" for it in range(first, last + 1)]


def savepoints():
    """A transaction keeps three hundred savepoints."""
    script, answers = numbered("SAVEPOINT p", "OK", 2, 301)
    more = ["1 ROLLBACK TO p301", "1 ROLLBACK TO p2", "1 ROLLBACK TO p3"]
    yield ["1 BEGIN", *script, *more], ["1 1 OK", *answers, "302 1 OK", "303 1 OK", "304 1 ERR 1305"]


def places():
    """There is room for 256 keys at a time: those that have or had a definition, as the schema at the start, and those that are locked or awaited."""
    script, answers = numbered("SELECT t", "ERR 1146", 2, 256)
    more = ["1 SELECT t257", "1 SELECT t2", "2 INSERT t2", "1 COMMIT", "1 SELECT t257", "2 INSERT t2"]
    told = ["257 1 ERR 9004", "258 1 ERR 1146", "259 2 ERR 9004", "260 1 OK", "261 1 ERR 1146", "262 2 ERR 1146"]
    yield ["1 BEGIN", *script, *more], ["1 1 OK", *answers, *told]
    # However many keys there are, each gets a place if it is locked alone.
    yield numbered("SELECT t", "ERR 1146", 1, 1000)
    yield numbered("INSERT t", "ERR 1146", 1, 1000)
    # The schema, 254 tables and the GLOBAL lock. If there is no place for the COMMIT lock, the GLOBAL lock that was granted before it is released again.
    script, answers = [f"1 CREATE TABLE t{it} x" for it in range(1, 255)], [f"{it} 1 OK" for it in range(1, 255)]
    more = ["1 CREATE TABLE t255 x", "1 SELECT t255", "2 FLUSH TABLES WITH READ LOCK", "3 DROP TABLE t1", "3 CREATE TABLE t255 x", "3 CREATE TABLE t1 y"]
    told = ["255 1 ERR 9004", "256 1 ERR 1146", "257 2 ERR 9004", "258 3 OK", "259 3 ERR 9004", "260 3 OK"]
    yield [*script, *more, "3 SELECT t1"], [*answers, *told, "261 3 OK test.t1@3(y)"]
    # A user-level lock that no session holds needs a place for RELEASE_LOCK, too.
    script, answers = numbered("GET_LOCK n", "OK 1", 1, 255)
    more = ["1 RELEASE_LOCK n256", "1 GET_LOCK n256", "2 RELEASE_LOCK n255", "1 RELEASE_LOCK n255", "2 GET_LOCK n256", "2 RELEASE_LOCK n255"]
    told = ["256 1 ERR 9004", "257 1 ERR 9004", "258 2 OK 0", "259 1 OK 1", "260 2 OK 1", "261 2 ERR 9004"]
    yield [*script, *more], [*answers, *told]


def versions():
    """A table is dropped and created again and again, and its version counts the changes."""
    script = [("1 DROP TABLE t", "1 CREATE TABLE t x")[it % 2] for it in range(1, 3001)]
    answers = [f"{it} 1 OK" for it in range(1, 3001)]
    yield [*script, "1 CREATE TABLE t y", "1 SELECT t"], [*answers, "3001 1 OK", "3002 1 OK test.t@3001(y)"]


def rounds():
    """However many lines there are, all are answered: a session reads, another one waits for it, and continues when the first commits."""
    script, answers = ["1 CREATE TABLE t x"], ["1 1 OK"]
    for line in range(1, 500_000, 4):
        script += ["1 BEGIN", "1 SELECT t", "2 CREATE TABLE t x", "1 COMMIT"]
        answers += [f"{line + 1} 1 OK", f"{line + 2} 1 OK test.t@1(x)", f"{line + 3} 2 WAIT TABLE test.t X"]
        answers += [f"{line + 4} 1 OK", f"{line + 3} 2 ERR 1050"]
    yield script, answers


# ---- of one lock


def all_sessions():
    """All other sessions wait for the first and are granted, and the first is granted beside them. Then the others wait again, and time out."""
    script = ["1 X", *by_others("SR"), "1 RELEASE", "1 SR", "1 RELEASE", *by_others("RELEASE"), "1 X", *by_others("X"), *by_others("TIMEOUT")]
    answers = ["1 GRANTED X", *by_others("WAITS SR"), "1 RELEASED X", *by_others("GRANTED SR"), "1 GRANTED SR", "1 RELEASED SR"]
    yield script, [*answers, *by_others("RELEASED SR"), "1 GRANTED X", *by_others("WAITS X"), *by_others("TIMEDOUT X")]


def long_scripts():
    """However many lines there are, all are answered."""
    yield ["1 TIMEOUT"] * 5_000, ["1 REFUSED"] * 5_000


def lengths():
    """A writer that accepts everything is never reported as failing, however long the output is. The output has lines of 10 and of 11 bytes."""
    for short, longer in itertools.product(range(120), range(10)):
        yield ["10 TIMEOUT"] * longer + ["1 TIMEOUT"] * short, ["10 REFUSED"] * longer + ["1 REFUSED"] * short


TAKEN = {
    "replay": (waits, columns, savepoints, places, versions, rounds),
    "lock": (all_sessions, long_scripts, lengths),
}

# How many accepted lines come before one that is refused, and for each subcommand both lines.
FAR_DOWN = [0, 1, 9, 99, 100, 101, 999, 20_000]
REFUSED = {"lock": ("1 TIMEOUT", "1 GO"), "replay": ("1 COMMIT", f"1 CREATE TABLE t {' '.join(f'c{it}' for it in range(65))}")}


def run(program, subcommand, script):
    """Runs the program on a script, and returns its status, standard output and standard error."""
    ran = subprocess.run([program, subcommand], input=script, capture_output=True, text=True)
    return ran.returncode, ran.stdout, ran.stderr


def wrong_limits(program):
    """Returns the scripts that go wrong, with what the program did: its status, the end of its answers, and its standard error."""
    for subcommand, kinds in TAKEN.items():
        for kind in kinds:
            for script, answers in kind():
                status, written, told = run(program, subcommand, text_of(script))
                if (status, written, told) != (0, text_of(answers), ""):
                    yield f"{subcommand}, {kind.__name__}, {len(script)} lines", (status, written[-100:], told)
    for subcommand, (taken, refused) in REFUSED.items():
        for count in FAR_DOWN:
            found = run(program, subcommand, text_of([taken] * count, refused))
            if found != (1, "", f"line {count + 1}: BadWord\n"):
                yield f"{subcommand}, a line that is refused behind {count} others", found

"""Scripts of one line that mdlsim refuses, with the kind of refusal; lines that end in several ways, and those as long as a line may be."""

import subprocess

from sizes import MOST_SESSIONS

TABLES = b" ".join(b"t%d" % it for it in range(9))
COLUMNS = b" ".join(b"c%d" % it for it in range(65))
BEYOND = b"%d" % (MOST_SESSIONS + 1)

# Lines that are refused in scripts of any language.
REFUSED = [
    (b"#" * 4096 + b"\x80", "LongLine"),
    (b"\x80" * 4097, "LongLine"),
    (b"1 BEGIN".ljust(4097), "LongLine"),
    (b"#\x80", "NotAscii"),
    (b"0\xff", "NotAscii"),
    (b" # x", "BadSession"),
    *((it + rest, "BadSession") for rest in (b" BEGIN", b" X", b"") for it in (b"0", b"01", b"+1", b"-1", BEYOND, b"9999", b"9" * 20, b"1.", b"\x00")),
    (b"1", "BadWord"),
    (b"1 \t", "BadWord"),
    (b"1 begin", "BadWord"),
    (b"1 x", "BadWord"),
]
# Lines that are refused in scripts of statements.
STATEMENTS = [
    *((b"1 KILL QUERY " + it, "BadSession") for it in (b"0", b"01", b"+1", BEYOND, b"10000", b"18446744073709551617")),
    *((it, "BadWord") for it in (b"1 SELECT", b"1 CREATE TABLE t", b"1 LOCK TABLES a WRITE b", b"1 X")),
    *((it, "BadWord") for it in (b"1 BEGIN\r\r", b"1 BEGIN\x0b", b"1 BEGIN\x00")),
    (b"1 SELECT " + TABLES, "BadWord"),
    (b"1 CREATE TABLE t " + COLUMNS, "BadWord"),
    *((it, "BadName") for it in (b"1 SELECT T", b"1 SELECT a.b.c", b"1 SELECT t test.t", b"1 RENAME TABLE a TO a")),
    *((it, "BadName") for it in (b"1 SELECT t\x00", b"1 SELECT t\r\r")),
    (b"1 SAVEPOINT " + b"p" * 65, "BadName"),
    # As SQL has it.
    *((it, "BadWord") for it in (b"1 COMMIT;", b"1 SHOW CREATE TABLE t")),
    *((it, "BadName") for it in (b"1 LOCK TABLES t READ LOCAL", b"1 SELECT 'orders'", b"1 SELECT a, b", b"1 INSERT INTO t", b"1 CREATE TABLE t (id INT)")),
    *((it, "BadName") for it in (b"1 ALTER TABLE t ADD COLUMN c COPY", b"1 DROP TABLE IF EXISTS t", b"1 ROLLBACK TO SAVEPOINT p")),
]
# Lines that are refused in scripts of one lock.
LOCKS = [(it, "BadWord") for it in (b"1 BEGIN", b"1 X X", b"1 x", b"1 RELEASED", b"1 X\r\r", b"1 X\x00", b"1 IX S", b"1 SR # read")]
SUBCOMMANDS = {"lock": LOCKS, "lock --scoped": LOCKS, "replay": STATEMENTS, "run": STATEMENTS, "explain": STATEMENTS}

# What such a line may end with, and what may follow it: the line is refused all the same.
ENDS = [b"\n", b"", b"\r\n", b"\n1 BEGIN\n\x80\n"]

# What is written if the only line is a comment.
NOTHING = {"lock": b"", "lock --scoped": b"", "replay": b"", "run": b"FINAL SCHEMA test@1\n", "explain": b""}


# Scripts whose lines end in several ways, or are about as long as a line may be, each with its answers or its refusal. A line has at most 4,096
# bytes, and one carriage return before its line feed isn't part of it.
ROWS = [
    ("replay", b"", ""),
    ("replay", b"\n", ""),
    ("replay", b"1 BEGIN\n1 COMMIT", "1 1 OK\n2 1 OK\n"),
    ("replay", b"\r\n1 BEGIN\r\n1 COMMIT\r", "2 1 OK\n3 1 OK\n"),
    ("replay", b"1 SELECT \x80".ljust(4097, b"x") + b"\n", "line 1: LongLine\n"),
    ("replay", b"1 SELECT ".ljust(4096, b"x") + b"\x80\r\n", "line 1: LongLine\n"),
    ("replay", b"1 SELECT \x80".ljust(4096, b"x") + b"\n", "line 1: NotAscii\n"),
    ("replay", b"1 BEGIN\n1 SELECT \x80\n", "line 2: NotAscii\n"),
    ("replay", b"#".ljust(4096, b"x") + b"\r\n1 BEGIN", "2 1 OK\n"),
    ("replay", b"#".ljust(4097, b"x") + b"\r\n1 BEGIN", "line 1: LongLine\n"),
    ("replay", b"1 BEGIN".ljust(4096) + b"\r\n", "1 1 OK\n"),
    ("replay", b"1 SELECT ".ljust(74, b"x") + b"\n", "line 1: BadName\n"),
    ("replay", b"1 SELECT ".ljust(73, b"x") + b"\n", "1 1 ERR 1146\n"),
    ("lock", b"", ""),
    *(("lock", it, "1 GRANTED SR\n2 WAITS X\n") for it in (b"1 SR\n2 X\n", b"1 SR\n2 X", b"1 SR\r\n2 X\r\n", b"\n1 SR\r\n\r\n2 X\r")),
    ("lock", b"# 1 X\n\n1 S\n#2 X\n\t\n\t 2 \t  SW \t\n", "1 GRANTED S\n2 GRANTED SW\n"),
    ("lock", b"1 SR\n" + b"#" * 4096 + b"\r\n", "1 GRANTED SR\n"),
    ("lock", b"1 SR\n" + b"#" * 4096 + b"\x80", "line 2: LongLine\n"),
    ("lock", "#\u00e9\n".encode(), "line 1: NotAscii\n"),
]


def run(program, subcommand, script):
    """Runs the program on a script, and returns its status, standard output and standard error."""
    ran = subprocess.run([program, *subcommand.split(" ")], input=script, capture_output=True)
    return ran.returncode, ran.stdout, ran.stderr


def wrong_lines(program):
    """Returns the scripts that go wrong, with what the program did."""
    for subcommand, script, answers in ROWS:
        found = run(program, subcommand, script)
        if found != ((1, b"", answers.encode()) if answers.startswith("line ") else (0, answers.encode(), b"")):
            yield f"{subcommand} < {script[:60]}, {len(script)} bytes", found
    for subcommand, own in SUBCOMMANDS.items():
        for line, kind in [*REFUSED, *own]:
            for end in ENDS:
                found = run(program, subcommand, line + end)
                if found != (1, b"", f"line 1: {kind}\n".encode()):
                    yield f"{subcommand} < {(line + end)[:60]}", found
        for end in (b"\r\n", b"\r", b"\n", b""):
            found = run(program, subcommand, b"#".ljust(4096, b"x") + end)
            if found != (0, NOTHING[subcommand], b""):
                yield f"{subcommand} < a line of 4,096 bytes and {end}", found

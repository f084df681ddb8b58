"""Scripts to be given to `mdlsim`: those of the examples and the worked ones, changed at random, and others that are made at random."""

import pathlib
import re

from language import MODES, MOST_SESSIONS

TOP = pathlib.Path(__file__).resolve().parent.parent

# Numbers that are at a limit of something, or beyond all limits.
NUMBERS = [0, 1, 2, 8, 9, 63, 64, 65, 99, 100, 255, 256, 257, 999, 1000, 1023, 1024, 1025, 4096, 65535, 65536, 2**31, 2**32, 2**63, 2**64, 10**30]
HOSTILE_WORDS = [
    *(f"{it}".encode() for it in NUMBERS),
    *(b"-1", b"+1", b"01", b"007", b"1.", b"1e3", b"0x1", b"1_0", b"\xd9\xa1", b"64a", b"a" * 64, b"a" * 65, b"a" * 3000, b"_", b"0"),
    *(b"a.b", b"a.b.c", b".", b"..", b"a.", b".a", b"test.t", b"TEST.t", b"t-1", b"t;", b"'t'", b"t,u", b"*", b"#", b"\x00", b"\x7f", b"\x80"),
    *(b"LOW_PRIORITY", b"low_priority", b"TO", b"to", b"READ", b"WRITE", b"TABLE", b"TABLES", b"SCHEMA", b"COPY", b"INPLACE", b"RELEASE"),
    *(b"BEGIN", b"COMMIT", b"TIMEOUT", b"KILL QUERY 1", b"\xc3\xa9", b"\xef\xbb\xbf1", b"\x0b", b"\x0c", b"\xa0", b"\r"),
]
LINE_ENDS = [b"\n", b"\r\n", b"\r\r\n", b"\r", b"\n\n", b" \t\n", b"\x00\n", b"\n#\n", b""]

# Statements by the words that they need: a table, several, columns, a name, a schema, a user-level lock, a session, and how an ALTER is done.
FORMS = [
    *["SELECT {t}", "SELECT {ts}", "INSERT {t}", "UPDATE LOW_PRIORITY {t}", "BEGIN", "COMMIT", "DROP TABLE {ts}", "CREATE TABLE {t} {c}"] * 3,
    *["ROLLBACK", "SAVEPOINT {n}", "ROLLBACK TO {n}", "ALTER TABLE {t} ADD {c} {how}", "ALTER TABLE {t} DROP {c} {how}", "TIMEOUT"] * 2,
    *["RENAME TABLE {t} TO {u}", "LOCK TABLES {t} READ", "LOCK TABLES {t} WRITE {u} READ", "KILL QUERY {k}"] * 2,
    *("CREATE SCHEMA {s}", "DROP SCHEMA {s}", "UNLOCK TABLES", "FLUSH TABLES WITH READ LOCK", "START TRANSACTION", "CREATE TABLE {t} {c} {d}"),
    *("INSERT LOW_PRIORITY {t}", "UPDATE {t}", "DELETE {t}", "DELETE LOW_PRIORITY {t}"),
    *["GET_LOCK {w}", "GET_LOCK {w}", "RELEASE_LOCK {w}"] * 2,
]


def scripts_in(file):
    """Returns the scripts of a file of worked ones. Their answers are indented by four spaces, and an empty line ends a script."""
    for case in file.read_text().split("\n\n"):
        yield "".join(f"{it}\n" for it in case.splitlines() if not it.startswith("    ")).encode()


def seeds():
    """Returns the scripts of the examples and the worked ones, by language."""
    found = {"object": [], "scoped": [], "statements": []}
    for file in sorted(TOP.glob("examples/*")):
        language = {".lock": "scoped" if ".scoped." in file.name else "object", ".replay": "statements", ".run": "statements"}.get(file.suffix)
        if language:
            found[language].append(file.read_bytes())
    for language, name in (("object", "lock"), ("scoped", "lock_scoped"), ("statements", "replay")):
        found[language] += scripts_in(TOP / "commands/scripts" / name)
    return found


# ---- changes of a script


def span(chance, script):
    """Returns the two ends of a random piece of a script."""
    return sorted(chance.randrange(len(script) + 1) for _ in range(2))


def cut(chance, script):
    """Cuts off the end of a script."""
    return script[: chance.randrange(len(script) + 1)]


def put_bytes(chance, script):
    """Inserts some bytes, or replaces others with them."""
    at = chance.randrange(len(script) + 1)
    count = chance.choice([1, 1, 1, 2, 8, 40])
    return script[:at] + chance.randbytes(count) + script[at + chance.choice([0, count]) :]


def drop_piece(chance, script):
    """Removes a piece."""
    start, end = span(chance, script)
    return script[:start] + script[min(end, start + 30) :]


def repeat_piece(chance, script):
    """Repeats a piece, once or many times."""
    start, end = span(chance, script)
    return script[:end] + script[start:end] * chance.choice([1, 1, 2, 5, 60]) + script[end:]


def put_word(chance, script):
    """Puts a hostile word in the place of a word, or beside one."""
    words = list(re.finditer(rb"[^\s]+", script))
    if not words:
        return chance.choice(HOSTILE_WORDS)
    it = chance.choice(words)
    word = chance.choice(HOSTILE_WORDS)
    return script[: it.start()] + chance.choice([word, it[0] + b" " + word, word + b"\t" + it[0], it[0] + word]) + script[it.end() :]


def move_lines(chance, script):
    """Changes the order of the lines, or of a few of them."""
    lines = script.splitlines(keepends=True)
    for _ in range(chance.choice([1, 2, len(lines)])):
        lines.append(lines.pop(chance.randrange(len(lines)))) if lines else None
    return b"".join(lines)


def end_lines(chance, script):
    """Changes the ends of the first lines, or of all."""
    end = chance.choice(LINE_ENDS)
    return script.replace(b"\n", end, chance.choice([-1, 1, 2]))


def lengthen(chance, script):
    """Makes a line about as long as a line may be, or longer."""
    lines = script.split(b"\n")
    at = chance.randrange(len(lines))
    length = chance.choice([4095, 4096, 4097, 4098, 8192])
    filler = chance.choice([b" ", b"\t", b"x", b" x", b"\x80", b"#", b"\r"])
    lines[at] = (lines[at] + filler * length)[:length] + chance.choice([b"", b"\r", b"\r\r"])
    return b"\n".join(lines)


CHANGES = [cut, put_bytes, drop_piece, repeat_piece, put_word, put_word, move_lines, end_lines, lengthen]


def changed(chance, scripts):
    """Returns a script that was changed a few times, or two of them, one after the other."""
    script = chance.choice(scripts)
    if chance.random() < 0.3:
        script += chance.choice(scripts)
    for _ in range(chance.choice([1, 1, 2, 3, 6])):
        script = chance.choice(CHANGES)(chance, script)[:200_000]
    return script


# ---- random scripts


def some_sessions(chance, count):
    """Returns so many sessions, the first of all among them: the first ones, or some of all that there may be."""
    others = range(2, MOST_SESSIONS + 1)
    return [1, *(others[: count - 1] if chance.random() < 0.7 else sorted(chance.sample(others, count - 1)))]


def opening(chance, sessions, names):
    """Returns the lines that make a schema and tables, and let most sessions begin a transaction."""
    tables = [f"1 CREATE TABLE {it} x y" for it in names]
    return ["1 CREATE SCHEMA s", *tables, *(f"{it} BEGIN" for it in sessions if chance.random() < 0.6)]


def by_chance(chance, language, count=None, sessions=None):
    """Returns a random script of valid lines, with few sessions and few names, so that these conflict."""
    sessions = some_sessions(chance, sessions or chance.choice([*[1, 1, 2, 3, 3, 4, 5, 8, 64] * 4, MOST_SESSIONS]))
    names = [*"abcdefghijkl"[: chance.choice([2, 3, 4, 12])], *chance.choice([[], ["s.a", "s.b"]])]
    words = [*MODES[language].split(" "), "RELEASE", "RELEASE", "TIMEOUT"] if language in MODES else FORMS
    lines = opening(chance, sessions, names) if language not in MODES else []
    for _ in range(count or chance.choice([5, 20, 60, 200])):
        t, u, *_ = chance.sample(names, 2)
        ts = " ".join(chance.sample(names, min(len(names), chance.randrange(1, 4))))
        chosen = {"t": t, "u": u, "ts": ts, "c": chance.choice("xyz"), "d": chance.choice("xyz"), "how": chance.choice(["COPY", "INPLACE"])}
        chosen |= {"n": chance.choice("pq"), "s": chance.choice(["r", "s", "s", "test"]), "w": chance.choice("abs"), "k": chance.choice(sessions)}
        lines.append(f"{chance.choice(sessions)} {chance.choice(words)}".format(**chosen))
    return "".join(f"{it}\n" for it in lines).encode()


def raw(chance):
    """Returns random bytes, of all kinds, or of those that scripts have."""
    count = chance.choice([0, 1, 2, 5, 50, 500, 20_000])
    if chance.random() < 0.5:
        return chance.randbytes(count)
    return bytes(chance.choices(b"0123456789 \t\r\n#.,_abtxyABCDEILNORSTUWX", k=count))


# What sessions do with keys of many: they get locks and keep them, end what they have, or do something else.
HELD = ["SELECT t{a}", "GET_LOCK w{a}", "SELECT t{a}", "GET_LOCK w{a}", "SELECT s{a}.t", "INSERT t{a}", "SELECT d{d} t{a}"]
ENDED = ["COMMIT", "ROLLBACK", "ROLLBACK TO p", "RELEASE_LOCK w{a}", "RELEASE_LOCK w{a}", "UNLOCK TABLES", "TIMEOUT", "KILL QUERY {k}", "BEGIN", "BEGIN"]
OTHERS = [
    *("SAVEPOINT p", "CREATE TABLE t{a} x", "CREATE SCHEMA s{a}", "LOCK TABLES t{a} WRITE", "DROP TABLE t{a} t{b}", "RENAME TABLE t{a} TO t{b}"),
    *("ALTER TABLE d{d} ADD y COPY", "FLUSH TABLES WITH READ LOCK", "LOCK TABLES d{d} READ t{b} READ", "SELECT t{a} t{b}", "INSERT d{d}", "DROP TABLE d{d}"),
]

# How many tables are created before at most, so that they keep their places.
MOST_KEPT = 60


def crowded(chance):
    """Returns a script of 250 to 600 keys, mostly more than there are places, by one session or by up to all that there are. First sessions get locks of one
    key after another and keep them, until the places are in use. Then they get, try and end locks of any of the keys, so that places are given to
    others, or there is none."""
    count, kept = chance.randrange(250, 601), chance.choice([0, 1, 20, MOST_KEPT])
    sessions = some_sessions(chance, chance.choice([1, 2, 5, 40, 300, MOST_SESSIONS]))
    end = chance.choice([0.1, 0.3, 0.5])
    first = chance.choices([HELD, OTHERS], [99, 1], k=count)
    then = chance.choices([HELD, ENDED, OTHERS], [0.9 - end, end, 0.1], k=chance.choice([0, 60, 400]))
    lines = [*(f"1 CREATE TABLE d{it} x" for it in range(kept)), *(f"{it} BEGIN" for it in sessions if chance.random() < 0.95)]
    for a, words in [*enumerate(first), *((chance.randrange(count), it) for it in then)]:
        names = {"a": a, "b": (a + chance.randrange(1, count)) % count, "d": chance.randrange(MOST_KEPT), "k": chance.choice(sessions)}
        lines.append(f"{chance.choice(sessions)} {chance.choice(words)}".format(**names))
    return "".join(f"{it}\n" for it in lines).encode()


def large(chance, language):
    """Returns a script of many lines, of a very long one, or of all that there is room for."""
    kind = chance.randrange(6)
    if kind == 0:
        return by_chance(chance, language, chance.choice([5_000, 30_000]))
    if kind == 1:
        return chance.choice([b"x", b" ", b"\n", b"#", b"\x80", b"\r"]) * chance.choice([100_000, 1_000_000, 4_000_000])
    if kind == 2:
        return b"".join(b"1 SAVEPOINT p%d\n" % it if it else b"1 BEGIN\n" for it in range(chance.choice([300, 30_000])))
    if kind == 3:
        columns = b" ".join(b"c" * 56 + b"%d" % it for it in range(10, 74))
        tables = b"".join(b"1 CREATE TABLE %c %s\n" % (it, columns) for it in b"abcdefgh")
        return tables + b"1 SELECT a b c d e f g h\n" * chance.choice([1, 30, 600])
    if kind == 4:
        waits = b"".join(b"%d DROP TABLE t\n" % it for it in some_sessions(chance, chance.choice([64, 64, 200]))[1:])
        return b"1 CREATE TABLE t x\n1 BEGIN\n1 SELECT t\n" + waits + chance.choice([b"", b"1 COMMIT\n", b"1 INSERT t\n"])
    return chance.choice([b"1 SELECT a b c d e f g h\n", b"1 BEGIN\n", b"1 SR\n", b"1 IX\n1 RELEASE\n"]) * chance.choice([1_000, 40_000])


def script_of(chance, language, scripts):
    """Returns a random script, most often in a language."""
    way = chance.random()
    if way < 0.05:
        return raw(chance)
    if way < 0.08:
        return large(chance, language)
    if way < 0.10 and language not in MODES:
        return crowded(chance)
    if way < 0.55:
        return by_chance(chance, language)
    if way < 0.60:
        return changed(chance, [by_chance(chance, language)])
    other = language if chance.random() < 0.9 else chance.choice(sorted(scripts))
    return changed(chance, scripts[other])

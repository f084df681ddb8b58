"""The rules of lines and the forms of statements, as plainly as can be: what the lines of a script are, and for which line it is refused."""

import dataclasses
import functools
import re

MOST_BYTES = 4096
MOST_SESSIONS = 1024
MOST_TABLES = 8
MOST_COLUMNS = 64
NAME = re.compile(rb"[a-z0-9_]{1,64}")
NUMBER = re.compile(rb"[1-9][0-9]{0,9}")

# The forms. A word in capitals is a key word, or one of several; t is a table, c, n and s are names, and k is a session. What follows
# `.. N` comes once or up to N times.
STATEMENTS = [
    *("BEGIN", "START TRANSACTION", "COMMIT", "ROLLBACK", "SAVEPOINT n", "ROLLBACK TO n", "UNLOCK TABLES", "TIMEOUT", "GET_LOCK|RELEASE_LOCK n"),
    *("INSERT|UPDATE|DELETE t", "INSERT|UPDATE|DELETE LOW_PRIORITY t", "RENAME TABLE t TO t", "CREATE|DROP SCHEMA s"),
    *("ALTER TABLE t ADD|DROP c COPY|INPLACE", "FLUSH TABLES WITH READ LOCK", "KILL QUERY k"),
    *(f"SELECT .. {MOST_TABLES} t", f"DROP TABLE .. {MOST_TABLES} t", f"CREATE TABLE t .. {MOST_COLUMNS} c"),
    f"LOCK TABLES .. {MOST_TABLES} t READ|WRITE",
]
MODES = {"object": "S SH SR SW SWLP SU SRO SNW SNRW X", "scoped": "IX S X"}


@dataclasses.dataclass(frozen=True)
class Form:
    """A form: what belongs at each of its places, and how many places a line may fill."""

    places: tuple
    lengths: frozenset


class Refused(Exception):
    """Why a line is refused."""


@dataclasses.dataclass(frozen=True)
class Line:
    """A line that is run: its number, its session, and the words after that."""

    number: int
    session: int
    words: tuple


def form_of(text):
    """Returns the form that a text describes."""
    fixed, _, repeated = text.partition(" .. ")
    places = fixed.split(" ")
    if not repeated:
        return Form(tuple(places), frozenset([len(places)]))
    most, *group = repeated.split(" ")
    lengths = [len(places) + times * len(group) for times in range(1, int(most) + 1)]
    return Form(tuple(places + group * int(most)), frozenset(lengths))


FORMS = {
    "statements": tuple(form_of(it) for it in STATEMENTS),
    **{kind: (form_of("|".join(f"{modes} RELEASE TIMEOUT".split(" "))),) for kind, modes in MODES.items()},
}


def session_of(word):
    """Returns the session that a word names."""
    if not NUMBER.fullmatch(word) or int(word) > MOST_SESSIONS:
        raise Refused("BadSession")
    return int(word)


def look_at_name(place, word, tables):
    """Checks a word at a place where a form has no key word."""
    if place == "k":
        session_of(word)
        return
    parts = word.split(b".") if place == "t" else [word]
    if len(parts) > 2 or not all(NAME.fullmatch(it) for it in parts):
        raise Refused("BadName")
    if place == "t":
        table = (b"test", *parts)[-2:]
        if table in tables:
            raise Refused("BadName")
        tables.add(table)


def look_at_words(words, forms):
    """Checks the words after the session, from left to right."""
    tables = set()
    for at, word in enumerate(words):
        left = [it for it in forms if at < len(it.places)]
        keyed = [it for it in left if it.places[at].isupper() or "|" in it.places[at]]
        forms = [it for it in keyed if word.decode() in it.places[at].split("|")]
        if not forms:
            forms = [it for it in left if it not in keyed]
            if not forms:
                raise Refused("BadWord")
            look_at_name(forms[0].places[at], word, tables)
    if not any(len(words) in it.lengths for it in forms):
        raise Refused("BadWord")


@functools.lru_cache(maxsize=20_000)
def read_line(text, language):
    """Returns the session and the words of a line, or None for one that is skipped."""
    if len(text) > MOST_BYTES:
        raise Refused("LongLine")
    if not text.isascii():
        raise Refused("NotAscii")
    words = [it for it in re.split(rb"[ \t]+", text) if it]
    if not words or text.startswith(b"#"):
        return None
    session = session_of(words[0])
    look_at_words(words[1:], FORMS[language])
    return session, tuple(words[1:])


def texts_of(script):
    """Returns the lines of a script, without what ends them."""
    texts = script.split(b"\n")
    if texts[-1] == b"":
        texts.pop()
    return [it.removesuffix(b"\r") for it in texts]


def read(script, language):
    """Returns the lines of a script that are run, and None; or no lines, and what is reported for the first line that is refused."""
    lines = []
    for number, text in enumerate(texts_of(script), 1):
        try:
            found = read_line(text, language)
        except Refused as refused:
            return [], f"line {number}: {refused}\n".encode()
        if found:
            lines.append(Line(number, *found))
    return lines, None

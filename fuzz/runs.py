"""What has to hold for the answers of `mdlsim run`, however its threads interleave: each line is answered once, session after session, and then come the
definitions at the end: just those that were created and not dropped, with a version that counts the changes. A session sees no version fall. A
session that is alone gets the answers of `replay`."""

import collections
import re

from plays import schema, table

NAMES = rb"[a-z0-9_]{1,64}"
TABLE = rb"%b\.%b@\d{1,7}\(%b(?:,%b){0,63}\)" % ((NAMES,) * 4)
ERRORS = b"1007 1049 1050 1060 1091 1099 1100 1146 1192 1205 1213 1223 1305 1317 3058 9001 9002 9003 9004 9005"
END = rb"OK(?: %b){0,8}|OK (?:0|1|NULL)|ERR (?:%b)" % (TABLE, ERRORS.replace(b" ", b"|"))
RUN = re.compile(rb"(\d+) (\d+) (%b)" % END)
FINAL = re.compile(rb"FINAL (?:SCHEMA %b@\d{1,7}|TABLE %b)" % (NAMES, TABLE))


def split_where(answers, pattern):
    """Returns the answers before the first that matches a pattern, and those from there on."""
    at = next((at for at, it in enumerate(answers) if pattern.fullmatch(it)), len(answers))
    return answers[:at], answers[at:]


def wrong_in_run(lines, written):
    """Returns what is wrong with what `run` wrote for these lines, or None."""
    answers, finals = split_where(written.splitlines(), FINAL)
    wanted = sorted(((it.session, it.number) for it in lines))
    found = [RUN.fullmatch(it) for it in answers]
    if None in found:
        return f"{answers[found.index(None)]} is no answer"
    if [(int(it[2]), int(it[1])) for it in found] != wanted:
        return "the lines that are answered aren't those of the script, session after session"
    wrong = [it for it in finals if not FINAL.fullmatch(it)]
    keys = [it.partition(b"@")[0].replace(b".", b"\0") for it in finals]
    if wrong or keys != sorted(set(keys)):
        return f"{wrong or keys} are no last lines in order"
    return None


def changes_by(words):
    """Returns the keys that a statement changes if it is done, each with whether it is created, dropped or neither: 1, -1 or 0."""
    if words[0] in (b"CREATE", b"DROP"):
        sign = 1 if words[0] == b"CREATE" else -1
        if words[1] == b"SCHEMA":
            return [(schema(words[2]), sign)]
        return [(table(it), sign) for it in (words[2:3] if sign == 1 else words[2:])]
    if words[0] == b"RENAME":
        return [(table(words[2]), -1), (table(words[4]), 1)]
    return [(table(words[2]), 0)] if words[0] == b"ALTER" else []


def wrong_at_the_end(lines, written):
    """Returns what is wrong with the definitions at the end, by the changes that were done, or None. If a schema was dropped nothing is checked: no
    answer says how many tables were dropped with it."""
    answers, finals = split_where(written.splitlines(), FINAL)
    done = {int(it.split(b" ")[0]) for it in answers if it.split(b" ")[2] == b"OK"}
    changes, there = collections.Counter([schema(b"test")]), collections.Counter([schema(b"test")])
    for line in (it for it in lines if it.number in done):
        if line.words[:2] == (b"DROP", b"SCHEMA"):
            return None
        for key, sign in changes_by(line.words):
            changes[key] += 1
            there[key] += sign
    found = {}
    for it in finals:
        _, kind, name = it.partition(b"(")[0].split(b" ")
        name, _, version = name.partition(b"@")
        found[schema(name) if kind == b"SCHEMA" else table(name)] = int(version)
    wanted = {it: changes[it] for it, count in there.items() if count}
    return None if found == wanted and set(there.values()) <= {0, 1} else f"at the end is {found}, and by the changes that were done {wanted}"


def wrong_versions(written):
    """Returns the answer that shows a session an older version than before, or None."""
    seen = {}
    for it in split_where(written.splitlines(), FINAL)[0]:
        session = it.split(b" ")[1]
        for name, version in re.findall(rb" (\S+)@(\d+)\(", it):
            if int(version) < seen.setdefault((session, name), int(version)):
                return f"{it} shows an older version"
            seen[session, name] = int(version)
    return None


def wrong_in_lone_run(lines, replayed, written):
    """Returns what is wrong with what `run` wrote for the lines of one session, or None. It has to be what `replay` wrote, and a line for each definition.
    Only `replay` gives places anew, so nothing is checked if there were too few."""
    if len({it.session for it in lines}) != 1 or b" WAIT " in replayed or b" ERR 9004" in replayed + written:
        return None
    left = written[len(replayed) :]
    if not written.startswith(replayed) or (left and not left.startswith(b"FINAL ")):
        return "run answers one session otherwise than replay"
    return None

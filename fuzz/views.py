"""Gives mdlview random rows of a server's metadata locks, and looks whether it prints what a plain program finds in them.

Each answer has to be that of the plain program (jams.py, answers.py) byte for byte, and the status has to be the same: the text of `why`, `waits` and
`locks`, the JSON of `why`, and now and then the other answers. The rows are of all kinds of locks, some that aren't read among them, with and
without the columns of sessions, and now and then in one of the other forms in which a client prints rows.

The same seed gives the same rows. Rows that were answered otherwise are kept in fuzz/out/, named by the seed and their number; `--only NUMBER` tries
them again. With `--scripts COUNT` that number of tables of rows is tried, however long that takes, and each kind of answer has to occur. The gate
does that.

Usage, at the top of the repository: python3 fuzz/views.py [--seconds 60 | --scripts COUNT] [--seed N] [--only NUMBER] [PROGRAM]
The program is the one that was built last, MDLVIEW, or the one that is named.
"""

import argparse
import dataclasses
import itertools
import os
import pathlib
import random
import re
import subprocess
import sys
import time

from answers import Answers
from jams import Rows
from tables import random_table

PROGRAM = "crates/mdlview/out/mdlview"
OUT = pathlib.Path(__file__).resolve().parent / "out"

# What is asked of all rows, what is asked of some, and how many seconds an answer may take.
QUESTIONS = [("why", False), ("why", True), ("waits", False), ("locks", False)]
OTHERS = [("waits", True), ("locks", True), ("graph", False)]
MOST_SECONDS = 20

# The kinds of answers of `why`: with many tables of rows each of them has to occur.
KINDS = {
    "a way by KILL": lambda found, text: any(not way.is_query for way in found.jam.ways),
    "a way by KILL QUERY": lambda found, text: any(way.is_query for way in found.jam.ways),
    "more ways than are printed": lambda found, text: b"More ways" in text,
    "waits that end in turn": lambda found, text: b" when those have ended" in text,
    "acts together, or another way": lambda found, text: b"\nOr, so that " in text,
    "acts together alone": lambda found, text: b"\nSo that " in text,
    "a statement of who is to be ended": lambda found, text: b"\n   runs: " in text,
    "a statement that goes on": lambda found, text: b"\n      runs: " in text,
    "locks at which nobody waits": lambda found, text: re.search(rb"\n   and \d+ locks? at which nobody waits\n", text),
    "more locks with waits than are printed": lambda found, text: re.search(rb" holds [A-Z_]+ of .*\n   and \d+ more\n", text),
    "a deadlock": lambda found, text: bool(found.jam.stuck),
    "a wait behind one that is over": lambda found, text: found.jam.passing() > 0,
    "a wait that can't be explained": lambda found, text: bool(found.jam.unexplained),
    "a row that waits and isn't read": lambda found, text: found.rows.left_out_waits() > 0,
    "a ticket that was upgraded": lambda found, text: bool(found.upgrades),
    "an unknown connection": lambda found, text: b" takes the number that this returns" in text,
    "a thread of the server's own": lambda found, text: b" is the server's own" in text,
    "no wait": lambda found, text: text.startswith(b"No session waits.\n"),
}


@dataclasses.dataclass
class Tally:
    """How many tables of rows were tried, how many of them failed, and which kinds of answers were seen."""

    count: int = 0
    failures: int = 0
    seen: set = dataclasses.field(default_factory=set)


def table_of(seed, number):
    """Returns the text of some rows, and the right answers."""
    text, columns, rows = random_table(random.Random(f"{seed} {number}"))
    return text.encode("latin-1"), Answers(Rows(columns, rows))


def difference(ran, status, wanted):
    """Returns what is wrong with an answer, or None."""
    if (ran.returncode, ran.stderr) != (status, b""):
        return f"has status {ran.returncode} in place of {status}, and tells {ran.stderr[:200]}"
    if ran.stdout == wanted:
        return None
    same = len(os.path.commonprefix([ran.stdout, wanted]))
    begin = max(same - 40, wanted.rfind(b"\n", 0, same) + 1)
    return f"ought to print {wanted[begin : same + 60]}, and prints {ran.stdout[begin : same + 60]}"


def wrong(program, number, text, answers):
    """Yields what the program answers otherwise to the rows of a number."""
    for question, is_json in [*QUESTIONS, OTHERS[number % len(OTHERS)]]:
        words = [*program, question, *(["--json"] if is_json else [])]
        try:
            ran = subprocess.run(words, input=text, capture_output=True, timeout=MOST_SECONDS, check=False)
            told = difference(ran, answers.status(), answers.answer(question, is_json))
        except subprocess.TimeoutExpired:
            told = f"takes more than {MOST_SECONDS} seconds"
        if told:
            yield f"mdlview {' '.join(words[len(program):])} {told}"


def keep(seed, number, text):
    """Keeps rows, and returns the file."""
    OUT.mkdir(exist_ok=True)
    file = OUT / f"{seed}_{number}.rows"
    file.write_bytes(text)
    return file.relative_to(OUT.parent.parent)


def look_at(program, seed, numbers, most_seconds):
    """Tries tables of rows until the time is over. Keeps and reports those that are answered otherwise."""
    until, tally = time.monotonic() + most_seconds, Tally()
    for number in numbers:
        if time.monotonic() > until:
            break
        text, answers = table_of(seed, number)
        why = answers.answer("why")
        tally.count += 1
        tally.seen.update(kind for kind, is_there in KINDS.items() if is_there(answers, why))
        told = list(wrong(program, number, text, answers))
        tally.failures += bool(told)
        for line in told:
            print(f"{keep(seed, number, text)}: {line}", file=sys.stderr, flush=True)
    return tally


def read_words():
    """Returns what the command line asks for."""
    parser = argparse.ArgumentParser(description=__doc__, formatter_class=argparse.RawDescriptionHelpFormatter)
    parser.add_argument("--seconds", type=float, default=60)
    parser.add_argument("--scripts", type=int)
    parser.add_argument("--seed", type=int, default=random.randrange(10**6))
    parser.add_argument("--only", type=int)
    parser.add_argument("program", nargs="?", default=os.environ.get("MDLVIEW") or PROGRAM)
    return parser.parse_args()


def main():
    """Tries the rows that are asked for, and returns the exit status."""
    asked = read_words()
    print(f"seed {asked.seed}", flush=True)
    numbers = [asked.only] if asked.only is not None else range(asked.scripts) if asked.scripts else itertools.count()
    tally = look_at(asked.program.split(), asked.seed, numbers, float("inf") if asked.scripts else asked.seconds)
    print(f"{tally.count} tables of rows were tried, and {tally.failures} of them failed")
    missing = sorted(KINDS.keys() - tally.seen) if asked.scripts else []
    if missing:
        print(f"no answer has {', '.join(missing)}", file=sys.stderr)
    return 1 if tally.failures or missing or not tally.count else 0


if __name__ == "__main__":
    sys.exit(main())

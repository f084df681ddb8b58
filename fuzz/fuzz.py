"""Plays random scripts with mdlsim, and checks each run.

Each run has to end by itself, in time, with status 0, 1 or 3, and within memory in proportion to the script and its answers. Unless the
status is 0 nothing is printed on standard output. A refused script is reported by its first refused line. The answers of `lock` and `replay`
have to be those of plain programs, and `replay` has to print the same twice. `run` answers each line once, and a lone session as `replay`
does; its last lines have to follow from the changes that were made. With too little memory a run reports only that.

Most scripts have few sessions and few names, so that these conflict. One in fifty of statements has many: 250 to 600 keys, of which the locks are held at the
same time, by up to 1,024 sessions. So there is no place left, and places that aren't in use any more are given to other keys. With `--many-keys` all
scripts are so.

The same seed gives the same scripts. A script that fails is kept in fuzz/out/, named by the seed and its number; `--only NUMBER` runs it again.
With `--scripts COUNT` it plays that number of scripts, however long that takes, and two with 100,000 lines of eight sessions on threads. Each kind of
answer has to be among those of `replay`, and places have to be given to other keys. The gate does that.

Usage, at the top of the repository: python3 fuzz/fuzz.py [--seconds 60 | --scripts COUNT] [--many-keys] [--seed N] [--only NUMBER] [PROGRAM]
The program is the one that was built last, MDLSIM, or the one that is named.
"""

import argparse
import dataclasses
import math
import os
import pathlib
import random
import re
import subprocess
import sys
import time
import typing

import language
import locks
import plays
import runs
import scripts
from runner import Runner

OUT = pathlib.Path(__file__).resolve().parent / "out"

# The languages of the subcommands, and how a kept script is named.
SUBCOMMANDS = {"lock": "object", "lock --scoped": "scoped", "replay": "statements", "run": "statements"}
ENDINGS = {"lock": "lock", "lock --scoped": "scoped.lock", "replay": "replay", "run": "run"}

MEGABYTE = 2**20

# The subcommands of scripts of statements, the first more often.
OF_STATEMENTS = ["replay", "replay", "replay", "run"]

# The numbers of the two scripts of many lines begin here.
CROWDS = 10**9

# The kinds of answers of `replay`: with many scripts each of them has to occur. Errors 9003 and 9005 take more lines than these scripts have.
ANSWERS = [
    *(b" OK", b" BUSY", b" OK test.", b" OK 0", b" OK 1", b" OK NULL", b"END ", b" WAIT GLOBAL ", b" WAIT SCHEMA ", b" WAIT TABLE ", b" WAIT COMMIT "),
    *(b" WAIT USER ", b" ERR 1007", b" ERR 1049", b" ERR 1050", b" ERR 1060", b" ERR 1091", b" ERR 1099", b" ERR 1100", b" ERR 1146", b" ERR 1192"),
    *(b" ERR 1205", b" ERR 1213", b" ERR 1223", b" ERR 1305", b" ERR 1317", b" ERR 3058", b" ERR 9001", b" ERR 9004"),
]


@dataclasses.dataclass(frozen=True)
class Case:
    """A script, its subcommand, how often a waiting session of `run` looks again, the other options of `run`, and the limit of the memory, if there
    is one."""

    subcommand: str
    script: bytes
    patience: int
    options: tuple
    memory: typing.Optional[int]

    def words(self):
        """Returns the words of the command line."""
        return [*self.subcommand.split(" "), *(["--patience", f"{self.patience}", *self.options] if self.subcommand == "run" else [])]

    def lines(self):
        """Returns how many lines there are."""
        return self.script.count(b"\n") + 1

    def sessions(self):
        """Returns how many sessions of `run` there are, at most."""
        words = {it.split(maxsplit=1)[0] for it in self.script.split(b"\n") if it.strip()}
        numbers = {word for word in words if re.fullmatch(rb"[1-9][0-9]{0,3}", word) and int(word) <= language.MOST_SESSIONS}
        return len(numbers) if self.subcommand == "run" else 0

    def most_seconds(self):
        """Returns how many seconds the run may take, on a busy machine. A session that waits looks again."""
        polls = self.patience * 20e-6 if self.subcommand == "run" else 0
        return 20 + self.lines() * (200e-6 + polls)

    def most_memory(self, written):
        """Returns how many bytes of memory the run may take. The text doubles as it grows, and is copied then. There is a record for each line, which
        has 8 bytes or more, and for each name, which has 2 with its space; these double too. The answers are kept as records and as text. Each
        key and session that there can be has a part of its own. An answer has at most 8 tables of 64 columns, some 34,000 bytes, for a line of 24, so all
        this is linear in the script. Each session of `run` has a stack."""
        return 32 * MEGABYTE + 64 * len(self.script) + 4 * written + 65536 * self.sessions()


def play(runner, case):
    """Runs a case."""
    return runner.run(case.words(), case.script, case.most_seconds(), case.memory)


# ---- what is wrong with a run


def wrong_end(case, seen):
    """Returns what is wrong with how a run ended, and with the time and memory that it took, or None."""
    if seen.is_late:
        return f"takes more than {case.most_seconds():.0f} seconds"
    if seen.status < 0:
        return f"ends by signal {-seen.status}"
    if seen.status not in (0, 1, 3):
        return f"ends with status {seen.status}"
    if seen.status and seen.written:
        return f"has status {seen.status}, and writes {len(seen.written)} bytes"
    # (a run that ended for want of memory had to have less than it was given, whatever it would have written)
    if seen.status != 3 and seen.memory > case.most_memory(len(seen.written)):
        return f"takes {seen.memory} bytes, for {len(case.script)} read and {len(seen.written)} written"
    if seen.status == 3 and (not case.memory or seen.told != b"fault: memory\n"):
        return f"has status 3, and tells {seen.told}"
    return None


def wrong_answers(runner, case, lines, seen, matrices, tally):
    """Returns what is wrong with the answers to a script that isn't refused, or None. Counts the scripts that have places given to other keys."""
    if case.subcommand.startswith("lock"):
        wanted = locks.answers_to(lines, SUBCOMMANDS[case.subcommand], matrices)
        return None if seen.written == wanted else "the lock is answered otherwise"
    if case.subcommand == "replay":
        again = play(runner, dataclasses.replace(case, memory=None))
        if again != dataclasses.replace(seen, memory=again.memory):
            return "the second run is another one"
        wanted, space = plays.played(lines, matrices)
        tally.given_anew += space.given_anew > 0
        return None if seen.written == wanted else "a statement is answered otherwise"
    wrong = runs.wrong_in_run(lines, seen.written) or runs.wrong_at_the_end(lines, seen.written) or runs.wrong_versions(seen.written)
    if wrong or len({it.session for it in lines}) != 1:
        return wrong
    replayed = play(runner, dataclasses.replace(case, subcommand="replay", memory=None))
    return runs.wrong_in_lone_run(lines, replayed.written, seen.written)


def wrong(runner, case, matrices, tally):
    """Runs a case, and returns what is wrong with it, or None. Notes the kinds of answers that `replay` gave."""
    seen = play(runner, case)
    found = wrong_end(case, seen)
    if found or seen.status == 3:
        return found
    lines, refusal = language.read(case.script, SUBCOMMANDS[case.subcommand])
    if (seen.status, seen.told) != ((1, refusal) if refusal else (0, b"")):
        return f"has status {seen.status}, tells {seen.told[:100]}, and ought to tell {refusal}"
    if refusal:
        return None
    if case.subcommand == "replay":
        tally.seen.update(it for it in ANSWERS if it in seen.written)
    return wrong_answers(runner, case, lines, seen, matrices, tally)


# ---- cases by chance


def least_memory(runner):
    """Returns how much memory the program needs to print the matrices, or None if it doesn't run with little."""
    return next((it * MEGABYTE for it in (8, 16, 32) if runner.run(["matrix"], b"", 20, it * MEGABYTE).status == 0), None)


def has_cache(runner):
    """Whether the sessions of `run` have a cache, of a size that can be chosen."""
    return b"--cache " in runner.run(["help", "run"], b"", 20).told


def case_of(seed, number, found, least, is_cached, is_crowded):
    """Returns the case of a number, mostly with few keys, or with many."""
    chance = random.Random(f"{seed} {number}")
    subcommand = chance.choice(OF_STATEMENTS if is_crowded else [*SUBCOMMANDS, "replay", "replay"])
    patience = chance.choice([0, 1, 7, 1_000, 20_000])
    options = ("--cache", chance.choice(["1", "2", "64", "4096"])) if is_cached else ()
    script = scripts.crowded(chance) if is_crowded else scripts.script_of(chance, SUBCOMMANDS[subcommand], found)
    most = 40 * len(script) + (64 * MEGABYTE if subcommand == "run" else 1)
    memory = least + chance.randrange(most) if least and chance.random() < 0.08 else None
    return Case(subcommand, script, patience, options, memory)


def crowd(seed, number):
    """Returns a case of eight sessions on threads that make many statements in little time: of all kinds, or without those that drop a schema with
    its tables, so that the versions at the end can be counted."""
    script = scripts.by_chance(random.Random(f"{seed} {number}"), "statements", 100_000, 8)
    if number > CROWDS:
        script = b"".join(it for it in script.splitlines(keepends=True) if b" DROP SCHEMA " not in it)
    return Case("run", script, 100, ("--cache", "1"), None)


def keep(seed, number, case):
    """Keeps a script, and returns the file."""
    OUT.mkdir(exist_ok=True)
    file = OUT / f"{seed}_{number}.{ENDINGS[case.subcommand]}"
    file.write_bytes(case.script)
    return file.relative_to(scripts.TOP)


@dataclasses.dataclass
class Tally:
    """How many scripts were played, how many of them failed, how many had places given to other keys by `replay`, and which answers of `replay` were seen."""

    count: int = 0
    failures: int = 0
    given_anew: int = 0
    seen: set = dataclasses.field(default_factory=set)

    def missing(self):
        """Returns the answers that no script was given, and whether no place was given to another key."""
        return [it.decode().strip() for it in ANSWERS if it not in self.seen] + ([] if self.given_anew else ["a place given to another key"])


def report_skipped(least, is_cached):
    """Says which kinds of cases aren't tried with this program."""
    skipped = scripts.TOP / "make/skipped.sh"
    if least is None:
        subprocess.run(["sh", skipped, "random scripts with little memory", "the program doesn't run with 32 MB"], check=True)
    if not is_cached:
        subprocess.run(["sh", skipped, "random scripts with small caches", "the program has no option for that"], check=True)


def look_at(runner, seed, numbers, most_seconds, is_crowded):
    """Runs cases, mostly with few keys or all with many, until the time is over. Keeps and reports those that are wrong."""
    until = time.monotonic() + most_seconds
    found, least, is_cached, matrices = scripts.seeds(), least_memory(runner), has_cache(runner), locks.matrices_of(runner.program)
    report_skipped(least, is_cached)
    tally = Tally()
    for number in numbers:
        if time.monotonic() > until:
            break
        case = crowd(seed, number) if number >= CROWDS else case_of(seed, number, found, least, is_cached, is_crowded)
        told = wrong(runner, case, matrices, tally)
        tally.count += 1
        if told:
            tally.failures += 1
            limit = f", with {case.memory} bytes of memory" if case.memory else ""
            print(f"{keep(seed, number, case)}: mdlsim {' '.join(case.words())}{limit} {told}", file=sys.stderr, flush=True)
    return tally


def read_words():
    """Returns what the command line asks for."""
    usage, kind = "python3 fuzz/fuzz.py [OPTION ..] [PROGRAM]", argparse.RawDescriptionHelpFormatter
    parser = argparse.ArgumentParser(usage=usage, description=__doc__, formatter_class=kind)
    parser.add_argument("--seconds", type=float, default=60, help="how long it plays scripts: 60 seconds, unless this is given")
    parser.add_argument("--scripts", type=int, help="how many scripts it plays, however long that takes")
    parser.add_argument("--many-keys", action="store_true", help="all scripts have 250 to 600 keys, and up to 1,024 sessions")
    parser.add_argument("--seed", type=int, default=random.randrange(10**6), help="which scripts these are; any number, unless this is given")
    parser.add_argument("--only", type=int, help="the number of the only script that it plays")
    parser.add_argument("program", nargs="?", default=os.environ.get("MDLSIM") or "crates/mdlsim/out/mdlsim", help="the program that plays them")
    return parser.parse_args()


def numbers_of(asked):
    """Returns the numbers of the cases that are asked for."""
    if asked.only is not None:
        return [asked.only]
    if not asked.scripts:
        return range(CROWDS)
    return range(asked.scripts) if asked.many_keys else [*range(asked.scripts), CROWDS, CROWDS + 1]


def main():
    """Runs the cases that are asked for, and returns the exit status."""
    asked = read_words()
    if not os.access(asked.program, os.X_OK):
        print(f"{asked.program} isn't there: make build, or MDLSIM=PATH", file=sys.stderr)
        return 1
    print(f"seed {asked.seed}", flush=True)
    with Runner(os.path.abspath(asked.program)) as runner:
        tally = look_at(runner, asked.seed, numbers_of(asked), math.inf if asked.scripts else asked.seconds, asked.many_keys)
    print(f"{tally.count} scripts were played, and {tally.failures} of them failed; {tally.given_anew} had places given to other keys")
    missing = tally.missing() if asked.scripts and not asked.many_keys else []
    if missing:
        print(f"no script was answered {missing}", file=sys.stderr)
    return 1 if tally.failures or missing or not tally.count else 0


if __name__ == "__main__":
    sys.exit(main())

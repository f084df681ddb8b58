"""Gives mdlsim and mdlview noise in place of scripts and rows, and looks whether they refuse it, or report that memory ran out, and print nothing.

Usage, at the top of the repository: python3 fuzz/noise.py [--seconds 60] [--rounds N] [--megabytes 100] [--seed N] [--mdlsim PROGRAM] [PROGRAM]
It tries N rounds of noises of up to that size, or as many as it can in so many seconds. PROGRAM is crates/mdlview/out/mdlview, or another one.

The noises are those of commands/devices.py: bytes by chance, NULs, tabs, one long line, and rows and scripts with noise behind them. Each is read with
64 megabytes of memory, and with a gigabyte.
"""

import argparse
import math
import pathlib
import random
import sys
import time

sys.path.insert(0, str(pathlib.Path(__file__).resolve().parent.with_name("commands")))

from devices import MEGABYTE, cases_of_mdlsim, cases_of_mdlview, wrong_noise  # noqa: E402

PROGRAM = "crates/mdlview/out/mdlview"
MDLSIM = "crates/mdlsim/out/mdlsim"


def read_words():
    """Returns what the command line asks for."""
    words = argparse.ArgumentParser(description=__doc__, formatter_class=argparse.RawDescriptionHelpFormatter)
    words.add_argument("program", nargs="?", default=PROGRAM)
    words.add_argument("--mdlsim", default=MDLSIM)
    words.add_argument("--seconds", type=float, default=60)
    words.add_argument("--rounds", type=int)
    words.add_argument("--megabytes", type=float, default=100)
    words.add_argument("--seed", type=int, default=random.randrange(10**9))
    return words.parse_args()


def wrong(asked, cases, seed):
    """Returns the noises of a seed that are answered wrongly. Each is given to one way of reading of each program."""
    dice = random.Random(seed)
    size = 1 + int(asked.megabytes * MEGABYTE * dice.random() ** 3)
    return [found for program, all_cases in cases for found in wrong_noise(program, [dice.choice(all_cases)], size, seed)]


def main():
    """Tries the noises that are asked for, and returns the exit status."""
    asked = read_words()
    print(f"seed {asked.seed}", flush=True)
    named = ((asked.mdlsim, cases_of_mdlsim), (asked.program, cases_of_mdlview))
    cases = [(program, [case for case in cases_of(program) if case.given is not None]) for program, cases_of in named]
    count, end = asked.rounds or math.inf, math.inf if asked.rounds else time.monotonic() + asked.seconds
    tried = 0
    while tried < count and time.monotonic() < end:
        for what, found in wrong(asked, cases, asked.seed + tried):
            print(f"{what}: {found}", file=sys.stderr)
            return 1
        tried += 1
    print(f"{tried} rounds of noise: all refused, or too much for the memory")
    return 0 if tried else 1


if __name__ == "__main__":
    sys.exit(main())

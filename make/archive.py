"""Builds and proves the libraries for C, as crates/NAME/out/libNAME.a. It uses the libraries that they depend on as `rt ci` built them last. If these aren't
there, `rt lib` proves and builds them first.

Usage, at the top of the repository:
    python3 make/archive.py               all, which are the lines `NAME staticlib: ..` of crates.txt
    python3 make/archive.py CRATE ..      some of them
"""

import os
import pathlib
import re
import subprocess
import sys

import wrong_bodies


def all_archives():
    """Returns the crates that are libraries for C."""
    lines = pathlib.Path("crates.txt").read_text().splitlines()
    return [line.split()[0] for line in lines if re.match(r"\w+ ([^:#]* )?staticlib\b[^:#]*:", line)]


def words_of(crate, archive):
    """Returns the command that builds the archive with the libraries that are there."""
    words = wrong_bodies.command_for(crate) + wrong_bodies.words_for(wrong_bodies.libraries_of(crate))
    words[words.index("check")] = "build"
    return [*words, "--crate-type", "staticlib", "--toolchain", wrong_bodies.KIT / "toolchain", "--backend", "llvm", "-o", archive]


def build(crate):
    """Builds one, and returns the exit status. What the prover says is shown if that fails."""
    folder = wrong_bodies.CRATES / crate
    os.makedirs(folder / "out", exist_ok=True)
    try:
        words = words_of(crate, f"out/lib{crate}.a")
    except wrong_bodies.Unfit:
        words = ["rt", "lib"]
    done = subprocess.run(words, cwd=folder, stdout=subprocess.PIPE, stderr=subprocess.STDOUT, text=True, errors="replace")
    if done.returncode:
        print(done.stdout, file=sys.stderr)
    return done.returncode


def main(crates):
    """Builds these, or all if none is named, and returns the exit status."""
    return max(build(crate) for crate in crates or all_archives())


if __name__ == "__main__":
    sys.exit(main(sys.argv[1:]))

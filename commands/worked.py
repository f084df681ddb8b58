"""Worked scripts with their answers, from scripts/: a file for each subcommand. There each line of a script is followed by its answers, which begin
with four spaces, and an empty line ends a script. A script that is refused has only the refusal as an answer."""

import pathlib
import re
import subprocess

FOLDER = pathlib.Path(__file__).resolve().parent / "scripts"
FILES = {"lock": "lock", "lock --scoped": "lock_scoped", "replay": "replay", "explain": "explain"}

MARK = "    "

REFUSAL = re.compile("line [0-9]+: ")


def text_of(lines):
    """Returns a text of these lines."""
    return "".join(f"{it}\n" for it in lines)


def scripts_of(subcommand):
    """Returns the scripts of a subcommand, each with its answers."""
    for case in FOLDER.joinpath(FILES[subcommand]).read_text().removesuffix("\n").split("\n\n"):
        lines = case.split("\n")
        answers = [it.removeprefix(MARK) for it in lines if it.startswith(MARK)]
        yield text_of(it for it in lines if not it.startswith(MARK)), text_of(answers)


def wrong_scripts(program):
    """Returns the scripts that get other answers, with what the program did."""
    for subcommand in FILES:
        for script, answers in scripts_of(subcommand):
            ran = subprocess.run([program, *subcommand.split(" ")], input=script, capture_output=True, text=True)
            found = ran.returncode, ran.stdout, ran.stderr
            if found != ((1, "", answers) if REFUSAL.match(answers) else (0, answers, "")):
                yield f"{subcommand} < {script!r}", found

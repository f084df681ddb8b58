"""Compares the table of statements in docs/LANGUAGE.md with what mdlsim explains of them: both have the same modes and errors. The table leaves out the
`GLOBAL` lock of changes, the commit before them, and the errors that other parts of the page have."""

import pathlib
import re
import subprocess

PAGE = pathlib.Path(__file__).resolve().parent.with_name("docs") / "LANGUAGE.md"

HEAD = "| statement | locks | and then |\n|---|---|---|\n"

# The first cell of each row, and a line of each statement in it.
LINES = {
    "`SELECT`": ["SELECT t"],
    "a write": ["INSERT t", "DELETE LOW_PRIORITY t"],
    "`CREATE TABLE`": ["CREATE TABLE t x"],
    "`CREATE SCHEMA`": ["CREATE SCHEMA s"],
    "`DROP TABLE`": ["DROP TABLE t"],
    "`DROP SCHEMA`": ["DROP SCHEMA s"],
    "`RENAME TABLE`": ["RENAME TABLE t TO s.t"],
    "`FLUSH TABLES WITH READ LOCK`": ["FLUSH TABLES WITH READ LOCK"],
    "`ALTER TABLE .. COPY`": ["ALTER TABLE t ADD x COPY"],
    "`ALTER TABLE .. INPLACE`": ["ALTER TABLE t ADD x INPLACE"],
    "`LOCK TABLES`": ["LOCK TABLES t READ"],
    "`COMMIT`, and what commits an open transaction first": ["COMMIT"],
}

MODE = re.compile(r"\b(IX|S|SH|SR|SW|SWLP|SU|SRO|SNW|SNRW|X)\b")
NUMBER = re.compile(r"\b[0-9]{4}\b")
ELSEWHERE = {"1192", "1223", "9003"}


def explained(program, line):
    """Returns the modes and the errors of a statement, as the program explains it for most sessions."""
    told = subprocess.run([program, "explain", "1", *line.split(" ")], capture_output=True, text=True, check=True).stdout
    steps = told.partition("\nwith ")[0].splitlines()[1:]
    kept = [it for it in steps if it != "  IX of GLOBAL, for the statement" and (line == "COMMIT" or "open transaction is committed" not in it)]
    return set(MODE.findall("\n".join(kept))), set(NUMBER.findall(told.partition("\nwith ")[0])) - ELSEWHERE


def wrong_table(program):
    """Returns the rows that say something else than the program."""
    rows = [it.strip("| ").split(" | ") for it in PAGE.read_text().partition(HEAD)[2].partition("\n\n")[0].splitlines()]
    if [it[0] for it in rows] != list(LINES):
        yield "explain, the rows of the table", [it[0] for it in rows]
    before = set(), set()
    for name, *cells in rows:
        found = [explained(program, it) for it in LINES.get(name, [])]
        said = set(re.findall(r"`([A-Z]+)`", cells[0])) & set(MODE.findall(cells[0])), set(NUMBER.findall(cells[1]))
        for at, cell in enumerate(cells):
            all_found = {it for both in found for it in both[at]}
            # "the same" is as much of the row before as the statement has.
            most = said[at] | (before[at] if "the same" in cell else set())
            if not said[at] <= all_found <= most:
                yield f"explain {LINES.get(name)}", (sorted(all_found), cell)
        before = said

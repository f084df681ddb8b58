"""Tests mdlsim's command line: which run its words ask for, and what it reports for words that ask for none. Also gives it worked scripts, scripts as
large as may be, lines that it has to refuse, and streams that fail. Checks that the completions of the shells have the words that its help
lists, and that the table of statements in docs/LANGUAGE.md has what it explains.

Usage, at the top of the repository: python3 commands/check.py [PROGRAM]    the program that was built last, or another one
"""

import pathlib
import re
import subprocess
import sys

from devices import cases_of_mdlsim, wrong_devices
from limits import wrong_limits
from lines import wrong_lines
from table import wrong_table
from worked import wrong_scripts

PROGRAM = "crates/mdlsim/out/mdlsim"
HERE = pathlib.Path(__file__).resolve().parent
VERSION = HERE.with_name("VERSION").read_text().strip()

# Words that ask for a run, a script, and the expected status, standard output and standard error.
WAITS = "1 CREATE TABLE t x\n1 BEGIN\n1 SELECT t\n2 DROP TABLE t\n1 COMMIT\n"
ANSWERS = "1 1 OK\n2 1 OK\n3 1 OK test.t@1(x)\n4 2 WAIT TABLE test.t X\n5 1 OK\n4 2 OK\n"
ALONE = "1 CREATE TABLE t x\n1 SELECT t\n"
EXPLAINED = "line 1, session 1:\n  X of the user-level lock, until the session releases it; the reply is 1\n"
TIMED_OUT = "line 3, session 1:\n  nothing is locked; if the session waits, its wait times out\n"
NINE = " ".join(f"t{it}" for it in range(9))
FINALS = "1 1 OK\n2 1 OK test.t@1(x)\nFINAL SCHEMA test@1\nFINAL TABLE test.t@1(x)\n"
TAKEN = [
    *((f"lock{words}", "1 SR\n", 0, "1 GRANTED SR\n", "") for words in ("", " --")),
    *((f"lock --scoped{words}", "1 IX\n", 0, "1 GRANTED IX\n", "") for words in ("", " --")),
    *((f"replay{words}", WAITS, 0, ANSWERS, "") for words in ("", " --")),
    ("replay", "", 0, "", ""),
    *((f"run{words}", ALONE, 0, FINALS, "") for words in ("", " --")),
    ("lock", "1 BEGIN\n", 1, "", "line 1: BadWord\n"),
    ("lock", "1 IX\n", 1, "", "line 1: BadWord\n"),
    ("lock --scoped", "1 SR\n", 1, "", "line 1: BadWord\n"),
    ("replay", "1 SR\n", 1, "", "line 1: BadWord\n"),
    ("run", "1 SELECT t\n0 BEGIN\n", 1, "", "line 2: BadSession\n"),
    ("--version", "", 0, f"mdlsim {VERSION}\n", ""),
    # The other examples of docs/mdlsim.1.
    ("lock", "1 SRO\n2 SW\n1 RELEASE\n", 0, "1 GRANTED SRO\n2 WAITS SW\n1 RELEASED SRO\n2 GRANTED SW\n", ""),
    ("replay", "1 BEGIN\n0 BEGIN\n", 1, "", "line 2: BadSession\n"),
    # A line to explain, in words or as one, or several lines; no words, and a line that is refused.
    *((f"explain {line}", "0 BEGIN\n", 0, EXPLAINED, "") for line in ("1 GET_LOCK a", " 1 GET_LOCK a ", "1 GET_LOCK\ta")),
    ("explain 1 GET_LOCK a\n# and\n1 TIMEOUT", "", 0, EXPLAINED + TIMED_OUT, ""),
    *((f"explain{words}", "1 GET_LOCK a\n", 0, EXPLAINED, "") for words in ("", " --")),
    ("explain", "", 0, "", ""),
    ("explain ", "1 GET_LOCK a\n", 0, "", ""),
    ("explain # 1", "", 0, "", ""),
    ("explain 1", "", 1, "", "line 1: BadWord\n"),
    ("explain BEGIN", "", 1, "", "line 1: BadSession\n"),
    ("explain help", "", 1, "", "line 1: BadSession\n"),
    (f"explain 1 SELECT {NINE}", "", 1, "", "line 1: BadWord\n"),
    ("explain 1 GET_LOCK a b", "", 1, "", "line 1: BadWord\n"),
]

# Ways to say how often a statement that waits looks again, and how many definitions a session keeps. The contract of `command` says which numbers are
# accepted. These runs show that some are.
NUMBERS = [
    *("--patience 0", "--patience=0", "--patience 1 --", "--patience=1 --", "--patience 4294967295", "--patience=4294967295"),
    *("--patience 007", "--patience=00000000000000000000000000000007", "--patience +7", "--patience=+7"),
    *("--patience=-0", "--patience=-000"),
    *("--cache 1", "--cache=1", "--cache 64 --", "--cache=64 --", "--cache 4096", "--cache=4096", "--cache 007", "--cache=+7"),
    *("--patience 5 --cache 1", "--cache 1 --patience 5", "--patience=5 --cache=1 --", "--cache=1 --patience=5 --"),
    *("--patience 5 --cache=1", "--patience=5 --cache 1 --", "--cache 1 --patience=-0", "--cache=1 --patience 5"),
]
TAKEN += [(f"run {words}", ALONE, 0, FINALS, "") for words in NUMBERS]

# Both ask for the matrices.
MATRICES = ["matrix", "matrix --"]

# A file of words that ask for no run, each with a part of the text that is reported.
REFUSED = HERE / "refused"

# For each shell the file that completes mdlsim's words.
COMPLETIONS = sorted(HERE.glob("completions/*mdlsim*"))


def run(program, words, script):
    """Runs the program with a list of words, and returns its status, standard output and standard error."""
    ran = subprocess.run([program, *words], input=script, capture_output=True, text=True)
    return ran.returncode, ran.stdout, ran.stderr


def wrong_rows(program):
    """Returns the words of the rows that don't give what is expected, with what the program did."""
    for words, script, *wanted in TAKEN:
        found = run(program, words.split(" "), script)
        if found != tuple(wanted):
            yield words, found
    matrices = [run(program, words.split(" "), "") for words in MATRICES]
    if matrices[0] != matrices[1] or matrices[0][0] != 0 or matrices[0][1].count("\n") < 4:
        yield MATRICES[0], matrices
    for row in REFUSED.read_text().splitlines():
        words, _, part = row.partition(" => ")
        status, written, told = run(program, words.split(" ")[1:], "1 SR\n")
        if status != 2 or written or not part or part not in told:
            yield words, (status, written, told)


def listed_words(program):
    """Returns the subcommands and the long options that the program's help lists, and its `--version`, which help doesn't list."""
    helped = run(program, ["help"], "")[2]
    subcommands = re.findall(r"^  ([a-z]+) ", helped.partition("Options:")[0], re.MULTILINE)
    told = [helped, *(run(program, ["help", it], "")[2] for it in subcommands if it != "help")]
    options = {it for text in told for it in re.findall(r"^ .* --([a-z]+)", text, re.MULTILINE)}
    return set(subcommands), options | {"version"}


def wrong_completions(program):
    """Returns the files of completions that lack words, or have options that aren't listed, with these."""
    subcommands, options = listed_words(program)
    for file in COMPLETIONS:
        text = file.read_text()
        completed = set(re.findall(r"(?:--|-l )([a-z]+)", text))
        wrong = {it for it in subcommands if not re.search(rf"\b{it}\b", text)} | (options ^ completed)
        if wrong:
            yield f"completions, {file.name}", sorted(wrong)


def main(words):
    """Runs all checks, prints what is wrong, and returns the exit status."""
    program = words[0] if words else PROGRAM
    parts = (wrong_rows, wrong_completions, wrong_scripts, wrong_table, wrong_limits, wrong_lines)
    wrong = [*(found for part in parts for found in part(program)), *wrong_devices(program, cases_of_mdlsim)]
    for given, found in wrong:
        print(f"mdlsim {given}: {found}".replace("mdlsim mdlsim", "mdlsim"), file=sys.stderr)
    if not wrong:
        print("mdlsim does what its command lines ask, answers each worked script, and reports bad lines and streams; its completions are complete")
    return 1 if wrong else 0


if __name__ == "__main__":
    sys.exit(main(sys.argv[1:]))

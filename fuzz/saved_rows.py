"""Writes what mdlview has to print of saved rows, by the plain program and not by mdlview: beside NAME.rows, NAME.QUESTION and NAME.QUESTION.json.

All rows of tools/server_locks/answers/ get the answer to `why`. Of those in commands/view/, the answers that lie there already are written anew.

Usage, at the top of the repository: python3 fuzz/saved_rows.py [--check]
With --check nothing is written, and the status is 1 if some answer is another one.
"""

import pathlib
import sys

from answers import Answers
from jams import Rows
from tables import tab_rows

TOP = pathlib.Path(__file__).resolve().parent.parent


def answers_beside(rows):
    """Returns the files of answers that belong beside rows."""
    if rows.parent.name == "answers":
        return [rows.with_suffix(".why")]
    return sorted(it for it in rows.parent.glob(f"{rows.stem}.*") if it != rows)


def main(words):
    """Writes or checks the answers, and returns the exit status."""
    others = []
    for rows in sorted([*TOP.glob("tools/server_locks/answers/*.rows"), *TOP.glob("commands/view/*.rows")]):
        answers = Answers(Rows(*tab_rows(rows.read_bytes().decode("latin-1"))))
        for file in answers_beside(rows):
            question, *form = file.name.split(".")[1:]
            answer = answers.answer(question, form == ["json"])
            if not file.exists() or file.read_bytes() != answer:
                others.append(file.relative_to(TOP))
                if words != ["--check"]:
                    file.write_bytes(answer)
    for file in others:
        print(f"{file}: {'another answer' if words == ['--check'] else 'written'}")
    return 1 if others and words == ["--check"] else 0


if __name__ == "__main__":
    sys.exit(main(sys.argv[1:]))

"""Prints which code on pages isn't in the file that it is from, one line for each.

Such code is between lines "```LANGUAGE FILE" and "```". The file has to have just these lines, one after the other. Code without a file isn't checked.

Usage, at the top of the repository: python3 make/docs/shown.py PAGE..
"""

import pathlib
import re
import sys

SHOWN = re.compile(r"^```\w+ (\S+)\n(.*?)^```$", re.MULTILINE | re.DOTALL)


def stale(page):
    """Returns what is wrong on a page."""
    for block in SHOWN.finditer(page.read_text()):
        file, code = pathlib.Path(block[1]), block[2]
        if not file.is_file():
            yield f"{page}: there is no {file}"
        elif f"\n{code}" not in f"\n{file.read_text()}":
            yield f"{page}: {file} has other lines than `{code.splitlines()[0].strip()}` and those behind it"


def main(pages):
    """Prints what is wrong on the pages, and returns the exit status."""
    said = [line for page in pages for line in stale(pathlib.Path(page))]
    print(*said, sep="\n", end="\n" if said else "")
    return 1 if said else 0


if __name__ == "__main__":
    sys.exit(main(sys.argv[1:]))

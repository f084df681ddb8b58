"""Prints what is wrong in the table of claims, docs/CLAIMS.md, compared with README.md, one line for each thing.

A row of the table is

    | first words of a sentence | what carries it | where |

The words begin a sentence of README.md, and each sentence there has such a row. The second cell names functions, laws, definitions and tests between
back quotes. Clauses follow a colon, as in `replay`: `output`, `end`. The third cell has places `path:LINE`, separated by commas, or `-` if there is
none. The places belong to the names in order: each to the next name that its file has. The line has to be the one that defines the name, or, if the
name isn't a word of code, the first one that contains it as text. The function's contract has to have the clauses.

Usage, at the top of the repository:
    python3 make/docs/claims.py           checks the table
    python3 make/docs/claims.py update    puts the right lines there, and then checks the table
"""

import dataclasses
import pathlib
import re
import sys

PAGE = pathlib.Path("README.md")
TABLE = pathlib.Path("docs/CLAIMS.md")

# Text that isn't longer than this is no sentence: it is a label, or a single word.
SHORTEST_SENTENCE = 20

# A name between back quotes, and the clauses that follow it.
NAME = re.compile(r"`([^`]+)`(?:: ((?:`[a-z_]+`(?:, )?)+))?")

# The beginning of a line that defines a name, by the ending of its file.
DEFINITIONS = {
    ".rt": r"\s*(?:pub(?:\([a-z]+\))? )?(?:const )?(?:fn|struct|enum|trait|const) {name}\b",
    ".antt": r"(?:(?:pub|abbrev|record|data) )*{name}(?![\w-])",
    ".py": r"\s*(?:def|class) {name}\b",
    ".sh": r"{name}\(\) {{",
    "": r"{name}:",
}


class Stale(Exception):
    """What is wrong with a row."""


@dataclasses.dataclass
class Row:
    """A row of the table: its line number, its first two cells, and the places of the third."""

    line: int
    words: str
    carried_by: str
    places: list

    def names(self):
        """Returns the names that carry the claim, each with its clauses."""
        return [(name, re.findall(r"`([a-z_]+)`", clauses)) for name, clauses in NAME.findall(self.carried_by)]

    def right_places(self):
        """Returns the row's places with the lines that they ought to have."""
        names, right = iter(self.names()), []
        for place in self.places:
            path = place.rpartition(":")[0]
            lines = read_lines(path)
            found = next((it for it in (look_up(path, lines, *name) for name in names) if it), None)
            if not found:
                raise Stale(f"{path} has none of the names that are left for it")
            right.append(f"{path}:{found}")
        return right


def read_lines(path):
    """Returns the lines of a file."""
    file = pathlib.Path(path)
    if not path or not file.is_file():
        raise Stale(f"there is no file {path!r}: a place is path:LINE")
    return file.read_text().splitlines()


def look_up(path, lines, name, clauses):
    """Returns the number of the line of a file that defines a name, or otherwise the first that contains it, or None if there is none."""
    owner, _, own_name = name.rpartition("::")
    suffix = pathlib.Path(path).suffix
    own_name = own_name.removeprefix("make ") if suffix == "" else own_name
    defined = re.compile(DEFINITIONS.get(suffix, "(?!)").format(name=re.escape(own_name)))
    found = [at for at, line in enumerate(lines) if defined.match(line) and (not owner or is_of(owner, lines[:at]))]
    if not found and not (suffix in (".rt", ".antt") and re.fullmatch(r"[\w:]+", name)):
        found = [at for at, line in enumerate(lines) if name in line][:1]
    if len(found) > 1 and suffix == ".rt":
        raise Stale(f"{path} has {name} at lines {', '.join(str(at + 1) for at in found)}: say whose it is, as TYPE::{name}")
    if not found:
        return None
    contract = contract_at(lines, found[0])
    for clause in clauses:
        if not re.search(rf"\bensures {clause} ", contract):
            raise Stale(f"{path}:{found[0] + 1}: {name} has no clause {clause}")
    return found[0] + 1


def is_of(owner, lines):
    """Returns whether the last `impl` or `trait` of these lines is of this type."""
    heads = (line for line in reversed(lines) if re.match(r"(?:impl|pub trait|trait)\b", line))
    return bool(re.search(rf"\b{owner}\b", next(heads, "")))


def contract_at(lines, start):
    """Returns the lines of a function from its first one to the brace that opens its body."""
    indent = re.match(r" *", lines[start])[0]
    end = next((at for at in range(start, len(lines)) if lines[at] == indent + "{"), start)
    return "\n".join(lines[start:end])


def rows_of(text):
    """Returns the rows of the table."""
    rows = []
    for number, line in enumerate(text.splitlines(), 1):
        cells = [cell.strip() for cell in line.strip("|").split(" | ")]
        if line.startswith("| ") and cells[0] != "words":
            where = cells[2] if len(cells) == 3 else ""
            rows.append(Row(number, cells[0], cells[1] if len(cells) > 1 else "", [] if where in ("", "-") else where.split(", ")))
    return rows


def sentences_of(text):
    """Returns the sentences of a page, in plain text. Headings, tables, pictures, code and indented text have none."""
    text = re.sub(r"^```.*?^```$", "", text, flags=re.MULTILINE | re.DOTALL)
    paragraphs, begins = [], True
    for line in text.splitlines():
        if re.match(r"$|#|\||!\[|    ", line):
            begins = True
            continue
        item = re.match(r"- |[0-9]+\. ", line)
        if begins or item:
            paragraphs.append("")
        paragraphs[-1] += " " + line[item.end() if item else 0 :].strip()
        begins = False
    parts = (part.strip() for paragraph in paragraphs for part in re.split(r"(?<=[.;])\**\s", paragraph))
    return [plain(part) for part in parts if len(part) > SHORTEST_SENTENCE]


def plain(text):
    """Returns a text without its marks for bold, italics and links."""
    return re.sub(r"\[([^]]*)\]\([^)]*\)", r"\1", text).replace("*", "")


def stale(page, rows):
    """Returns what is wrong, a text for each thing."""
    told = []
    sentences = sentences_of(page)
    for sentence in sentences:
        if not any(sentence.startswith(plain(row.words)) for row in rows):
            told.append(f"{PAGE}: no row of {TABLE} begins as: {sentence}")
    for row in rows:
        where = f"{TABLE}:{row.line}"
        if not any(sentence.startswith(plain(row.words)) for sentence in sentences):
            told.append(f"{where}: no sentence of {PAGE} begins with: {row.words}")
        try:
            right = row.right_places()
        except Stale as fault:
            told.append(f"{where}: {fault}")
            continue
        for place, right_place in zip(row.places, right):
            if place != right_place:
                told.append(f"{where}: {place} ought to be {right_place}: sh make/check_docs.sh update")
    return told


def updated(text):
    """Returns the page of the table with the right lines in its places, where they can be found."""
    lines = text.splitlines()
    for row in rows_of(text):
        try:
            right = row.right_places()
        except Stale:
            continue
        if right:
            lines[row.line - 1] = f"| {row.words} | {row.carried_by} | {', '.join(right)} |"
    return "\n".join(lines) + "\n"


def main():
    if sys.argv[1:] == ["update"]:
        TABLE.write_text(updated(TABLE.read_text()))
    told = stale(PAGE.read_text(), rows_of(TABLE.read_text()))
    for line in told:
        print(line)


if __name__ == "__main__":
    main()

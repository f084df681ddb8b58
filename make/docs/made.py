"""Makes the parts of pages that are made from the tree, and counts the words of the others.

Such a part is between the lines `<!-- made: NAME -->` and `<!-- end -->`. Its names:
    examples      each script of examples/, with its comment
    crates        each crate: what its page's heading calls it, and the crates that it stands on, without those that these stand on
    contracts     each public function: the first sentence of its comment, the names of its clauses, and whether it may lack memory
    definitions   each file of definitions, and the comment at its head
    figures_NAME  a table of docs/PERFORMANCE.md, from bench/figures.tsv
    lines         the lines of each crate, and its mutants
    reading       how many definitions stand behind some statements, and how long they are

Usage, at the top of the repository:
    python3 make/docs/made.py check     prints which parts are stale, one line for each
    python3 make/docs/made.py update    puts the right ones there
    python3 make/docs/made.py words     prints how many words each page has, without these parts and the places of docs/CLAIMS.md, and all together
"""

import dataclasses
import functools
import pathlib
import re
import sys

sys.path[:0] = ["make", "bench"]

import count_specs
import memory
from figures import KEPT, LAYOUTS, Stale, read, table_of

PAGES = ["README.md", "CONTRIBUTING.md", "CHANGELOG.md", "docs/*.md", "crates/*/README.md", "examples/*.md"]
PLACE = re.compile(r"(?<= )[\w./]+:[0-9]+,?(?= )")
PART = re.compile(r"^<!-- made: (\w+) -->\n(.*?)^<!-- end -->$", re.MULTILINE | re.DOTALL)

# Tests, examples and timings: no libraries, nor programs for users.
NO_LIBRARY = re.compile(r".*(?:trials|examples?|_bench)$")

# The statements whose reading is measured, each with its function.
STATEMENTS = {
    "the matrices of modes are the printed ones": "mdl_key::conflicts_granted",
    "`mdlsim lock` prints the defined answers; no two sessions hold clashing locks": "mdl_lock::lock_run",
    "`mdlsim replay` prints the defined answers; no two sessions hold clashing locks": "mdl_script::replay",
    "a transaction sees one definition of a table": "mdl_script_laws::transactions_see_one_definition",
    "no line of a script leaves a deadlock": "mdl_script_laws::no_deadlock_stands",
    "who blocks whom, by a server's rows": "mdl_view::blockings",
    "no two sessions hold clashing locks, on threads": "mdl_steps_laws::running_tables_are_lawful",
    "what is read under a lock stays defined, on threads": "mdl_steps_laws::definitions_stay",
    "no waiter is forgotten, on threads": "mdl_steps_laws::nobody_is_forgotten",
    "a lock is granted on threads (`Session::try_now`)": "mdl_shared::try_now",
}

# The crates whose functions return a number that may say that memory ran out, with what that is called.
NUMBERS = {"mdl_c_parts": "*code*", "mdl_c_calls": "*code*", "mdl_text": "*code*", "mdl_program": "*status*", "mdlsim": "*status*", "mdlview": "*status*"}

# The type of such a number.
TYPES = {"*code*": "u32", "*status*": "u8"}

# A file of definitions that only gathers others has no other lines than these.
GATHERS = re.compile(r"--|$|(?:unfoldable )?pub use ")


def crates():
    """Returns the crates of crates.txt, each with the crates of the repository that it names."""
    lines = re.findall(r"^([a-z][a-z_0-9]*)[^#\n:]*:(.*)$", pathlib.Path("crates.txt").read_text(), re.MULTILINE)
    known = {name for name, _ in lines}
    return {name: [it for it in below.split() if it in known] for name, below in lines}


def libraries():
    """Returns the crates that others depend on, and the programs."""
    return [name for name in crates() if not NO_LIBRARY.match(name)]


# ---- the examples


def comment_of(path):
    """Returns the comment at the head of a script."""
    lines = path.read_text().splitlines()
    return " ".join(it.removeprefix("#").strip() for it in lines[:2])


def made_examples():
    """Yields the lines of the list of examples."""
    yield "| script | what it shows |"
    yield "|---|---|"
    for ending in ("replay", "run", "lock"):
        for path in sorted(pathlib.Path("examples").glob(f"*.{ending}")):
            yield f"| [{path.name.partition('.')[0]}]({path.name}) | {cell(comment_of(path))} |"


# ---- the crates


def all_below(name, below):
    """Returns the crates that a crate stands on, directly or not."""
    return set(below[name]).union(*(all_below(it, below) for it in below[name]))


def stands_on(name, below):
    """Returns the crates that a crate names and that no other of these stands on."""
    return [it for it in below[name] if not any(it in all_below(other, below) for other in below[name])]


def said_of(name):
    """Returns what the heading of a crate's page says that it is, or what the first comment of its code says."""
    page = pathlib.Path(f"crates/{name}/README.md")
    if page.exists():
        return page.read_text().splitlines()[0].partition(": ")[2]
    code = next(it for it in (pathlib.Path(f"crates/{name}/src/{it}.rt") for it in ("lib", "main")) if it.exists())
    head = re.match(r"(?://!.*\n)+", code.read_text())
    return first_sentence(re.sub(r"^//! ?", "", head[0], flags=re.MULTILINE)).rstrip(".") if head else ""


def made_crates():
    """Yields the lines of the table of crates."""
    below = crates()
    yield "| crate | what it is | stands on |"
    yield "|---|---|---|"
    for name in below:
        link = f"[{name}](../crates/{name}/README.md)" if pathlib.Path(f"crates/{name}/README.md").exists() else f"`{name}`"
        yield f"| {link} | {cell(said_of(name))} | {', '.join(f'`{it}`' for it in stands_on(name, below))} |"


# ---- contracts


@dataclasses.dataclass(frozen=True)
class Call:
    """A public function: its crate, its file in src, its name with its type, its comment, and its head."""

    crate: str
    file: str
    name: str
    text: str
    head: str

    def clauses(self):
        """Returns the names of its clauses, and the word `requires` if it has conditions."""
        names = re.findall(r"^\s*ensures (\w+) \{", self.head, re.MULTILINE)
        unnamed = re.search(r"^\s*ensures (?!\w+ \{)", self.head, re.MULTILINE)
        found = (["contract"] if unnamed else []) + [f"`{it}`" for it in names]
        return (["*requires*"] if re.search(r"^\s*requires\b", self.head, re.MULTILINE) else []) + found


def first_sentence(text):
    """Returns the first sentence of a comment, without links."""
    paragraph = " ".join(text.strip().partition("\n\n")[0].split())
    plain = re.sub(r"\[(`?[^]`]+`?)\](?:\([^)]*\))?", r"\1", paragraph)
    return re.split(r"(?<=\.)\s+(?=[A-Z`(])", plain)[0]


def cell(text):
    """Returns a text as it stands in a table."""
    return text.replace("|", "\\|")


def exported(crate):
    """Returns the names that the head of a library exports, or None for a program, whose functions all count."""
    path = pathlib.Path(f"crates/{crate}/src/lib.rt")
    if not path.exists():
        return None
    uses = re.findall(r"^pub use .*?;", path.read_text(), re.MULTILINE | re.DOTALL)
    return set(re.findall(r"\w+", " ".join(uses)))


def calls_of_file(crate, path, names):
    """Returns the public functions of a file."""
    lines, owner, is_trait = path.read_text().splitlines(), "", False
    for at, line in enumerate(lines):
        if re.match(r"impl|pub trait", line):
            is_trait = line.startswith("pub trait")
            owner = re.match(r"\w*", re.sub(r"^.* for |^impl(?:<[^>]*>)? *|^pub trait ", "", line))[0]
        elif line.startswith("}"):
            owner, is_trait = "", False
        found = re.match(r" *pub (?:extern \"C\" )?fn (\w+)", line) or (is_trait and re.match(r"    fn (\w+)", line))
        if found and (names is None or (owner or found[1]) in names or path.stem == "lib"):
            yield call_at(crate, path, lines, at, f"{owner}::{found[1]}" if owner else found[1])


def call_at(crate, path, lines, at, name):
    """Returns the public function at a line."""
    start = at
    while re.match(r" *(?:///|#\[)", lines[start - 1]):
        start -= 1
    end = next(end for end in range(at, len(lines)) if lines[end].endswith((";", " {")) or lines[end].strip() in ("{", "{}"))
    text = "\n".join(it.strip().removeprefix("///").strip() for it in lines[start:at] if "///" in it)
    return Call(crate, "/".join(path.parts[2:]), name, text, "\n".join(lines[at : end + 1]))


def calls(crate):
    """Returns the public functions of a crate, file by file."""
    names = exported(crate)
    return [it for path in sorted(pathlib.Path(f"crates/{crate}/src").rglob("*.rt")) for it in calls_of_file(crate, path, names)]


def lack_of(call, rules):
    """Returns whether a function may lack memory, as the table has it."""
    number = NUMBERS.get(call.crate)
    if number and re.search(rf"-> (?:Result<[^;{{]*?, )?{TYPES[number]}\b", call.head):
        return number
    return "yes" if rules.may_lack(call.name, call.head) else ""


def made_contracts():
    """Yields the lines of the index of contracts."""
    rules = memory.Rules()
    for crate in libraries():
        found = calls(crate)
        if not found:
            continue
        yield ""
        yield f"## {crate}"
        yield ""
        yield f"[What the crate is](../crates/{crate}/README.md), and [its definitions](DEFINITIONS.md#{crate})."
        yield ""
        yield "| function | what it does | clauses | may lack memory | file |"
        yield "|---|---|---|---|---|"
        for call in found:
            yield f"| `{call.name}` | {cell(first_sentence(call.text))} | {', '.join(call.clauses())} | {lack_of(call, rules)} | `{call.file}` |"
    yield ""


# ---- definitions


def spec_files(crate):
    """Returns the files of definitions of a crate, except those that only gather others."""
    for path in sorted(pathlib.Path(f"crates/{crate}/specs").rglob("*.antt")):
        if path.stem not in ("Lib", "Tests") and not all(GATHERS.match(it) for it in path.read_text().splitlines()):
            yield path


def head_comment(path):
    """Returns the comment at the head of a file of definitions."""
    text = []
    for line in path.read_text().splitlines():
        if not line.startswith("-- "):
            break
        text.append(line[3:])
    return " ".join(text)


def made_definitions():
    """Yields the lines of the index of definitions."""
    for crate in libraries():
        files = list(spec_files(crate))
        if not files:
            continue
        yield ""
        yield f"## {crate}"
        yield ""
        yield "| file | what it defines |"
        yield "|---|---|"
        for path in files:
            yield f"| `{'/'.join(path.with_suffix('').parts[2:])}` | {cell(head_comment(path))} |"
    yield ""


# ---- lines


def count_of(path):
    """Returns how many lines a file has."""
    return path.read_text().count("\n")


def lines_of(crate):
    """Returns the lines of a crate: of code, tests, definitions and proofs; and how many mutants it has."""
    folder = pathlib.Path("crates") / crate
    code = sum(count_of(it) for it in folder.glob("src/**/*.rt"))
    tests = sum(count_of(it) for it in folder.glob("src/**/tests.rt"))
    if re.search(r"trials$|examples$", crate):
        tests = code
    specs, proofs = (sum(count_of(it) for it in folder.glob(f"{kind}/**/*.antt")) for kind in ("specs", "proofs"))
    mutants = [*pathlib.Path("wrong_bodies").glob(f"{crate}/**/*.edit"), *folder.glob("must-fail/*.edit")]
    return [code - tests, tests, specs, proofs, len(mutants)]


def made_lines():
    """Yields the table of lines."""
    yield "```text"
    yield "crate                code  tests definitions proofs mutants"
    rows = {crate: lines_of(crate) for crate in crates()}
    rows["all"] = [sum(column) for column in zip(*rows.values())]
    for crate, row in rows.items():
        yield "{:<18} {:>6} {:>6} {:>11} {:>6} {:>7}".format(crate, *(it or "" for it in row)).rstrip()
    yield "```"


# ---- reading


def function_named(figures, name):
    """Returns the function that a statement is about."""
    crate, _, own = name.rpartition("::")
    return next(it for it in figures.library.code.functions if it.crate == crate and it.name == own and it.is_public)


def length(figures, definition):
    """Returns how many lines a definition has: its head and what is below it. The types of the code have none here."""
    item = figures.library.items.get(definition)
    return 1 + sum(bool(it.strip()) for it in item.lines) if item else 0


def made_reading():
    """Yields the table of what there is to read."""
    figures = count_specs.Figures(pathlib.Path("crates"))
    yield "| statement | function | definitions | in files | lines |"
    yield "|---|---|---|---|---|"
    for said, name in STATEMENTS.items():
        found = figures.behind(function_named(figures, name))
        lines = sum(length(figures, it) for it in found)
        files = {(it.crate, it.file) for it in found}
        yield f"| {said} | `{name.rpartition('::')[2]}` | {len(found)} | {len(files)} | {lines:,} |"
    code, tests, specs, proofs, mutants = (sum(column) for column in zip(*map(lines_of, crates())))
    yield ""
    yield f"All together: {code:,} lines of code, {tests:,} of tests, {specs:,} of definitions and {proofs:,} of proofs; {mutants:,} mutants."


# ---- figures


def made_figures(table):
    """Yields the lines of a table of figures."""
    yield "```text"
    yield from table_of(read(KEPT), table)
    yield "```"


MAKERS = {
    "examples": made_examples,
    "crates": made_crates,
    "contracts": made_contracts,
    "definitions": made_definitions,
    "lines": made_lines,
    "reading": made_reading,
    **{f"figures_{table}": functools.partial(made_figures, table) for table in LAYOUTS},
}


# ---- pages


def pages():
    """Returns all pages."""
    return [path for pattern in PAGES for path in sorted(pathlib.Path().glob(pattern))]


def remade(text):
    """Returns the text of a page with its parts as they ought to be."""
    return PART.sub(lambda part: f"<!-- made: {part[1]} -->\n" + "\n".join(MAKERS[part[1]]()) + "\n<!-- end -->", text)


def update(is_check):
    """Updates the pages, or only prints which are stale."""
    for page in pages():
        text = page.read_text()
        new = remade(text)
        if new != text and is_check:
            print(f"{page}: what is made from the tree is stale: sh make/check_docs.sh update")
        elif new != text:
            page.write_text(new)


def words():
    """Prints how many words each page has."""
    total = 0
    for page in pages():
        count = len(PLACE.sub("", PART.sub("", page.read_text())).split())
        total += count
        print(f"{count:>7} {page}")
    print(f"{total:>7} total")


def main(asked):
    """Does what the word asks for, and returns the exit status."""
    match asked:
        case ["check"] | ["update"]:
            try:
                update(asked == ["check"])
            except Stale as why:
                print(f"{KEPT}: {why}", file=sys.stderr)
                return 1
        case ["words"]:
            words()
        case _:
            print(__doc__, file=sys.stderr)
            return 2
    return 0


if __name__ == "__main__":
    sys.exit(main(sys.argv[1:]))

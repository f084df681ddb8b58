"""Counts how much a reader has to know: which definitions stand behind the calls of `Session`, and how the definitions of calls are laid out.

It reads the files as text, and proves nothing. The definitions are those of crates/*/specs, and the types of the code that contracts name
(`specs.declared..`), one for each struct and enum. The kit's aren't counted. What a name means is decided by the file's imports. A name that a pattern, a
parameter or a `λ` binds is no definition's there, nor is the label of a field.

* Definitions behind a call: those that the clauses of its contract name, those that these name, and so on, with their files and crates. Named types count
  with the types of their fields. Each public function of `Session` is a call. Those whose clauses name a constructor of `Call` are a lock space's, and the
  bars hold for these, without the types.
* Functions by call: the definitions whose equations go by two or more of the constructors of `Call`.
* Files to read for a call: the files of definitions that have an equation for it, or are its own (`specs/calls/NAME`). An equation that only names what is
  in such files of its own doesn't count: that is a table.
* Promises of nothing: equations `.. = Unit {0}` for all the rest, in functions by call, and in functions by answer in the files of `specs/calls`.
* Shared names: of the names of definitions in specs, of all crates, those that definitions in two or more files have. The files of all folders
  `specs/calls` count as one: there a call, and an aspect of it such as its answers, has the same name in each layer.
* Clauses: the lines of `requires` and `ensures`, by functions, and the share of those clauses that the same crate has before, word by word.

Usage, at the top of the repository:
    python3 make/count_specs.py                 prints the figures
    python3 make/count_specs.py --call NAME     prints the definitions behind a call of `Session`, or behind another public function: CRATE::NAME
    python3 make/count_specs.py --read CRATE::NAME [CLAUSE]
                                                prints these definitions themselves, with their comments, in the order in which one names another, from the
                                                contract on; or those of one clause
    python3 make/count_specs.py --names         prints the shared names, and where they are
    python3 make/count_specs.py --limits        prints the figures, and exits with 1 if one is above its bar
"""

import collections
import dataclasses
import functools
import pathlib
import re
import sys
import typing

# The bars: the most that each figure may be.
BARS = {
    "definitions behind try_now": 200,
    "definitions behind a call, the least": 130,
    "definitions behind a call, the most": 210,
    "functions by call": 2,
    "files to read for a call, the most": 2,
    "promises of nothing": 0,
    "shared names, % of all": 6,
    "clause lines a function, mdl_shared": 2.7,
    "clause lines a function, mdl_visits": 3.5,
    "repeated clauses, mdl_shared, %": 21,
    "repeated clauses, mdl_visits, %": 16,
    "(definitions + proofs) / code": 5.6,
}

CRATES = pathlib.Path("crates")

# The crate of `Session`, and that of `Call`. The crates in which a call is specified, and those of the table that threads share.
SESSIONS, CALLS = "mdl_shared", "mdl_calls"
CALL_CRATES = (CALLS, "mdl_session_laws", SESSIONS)
SHARED_CRATES = ("mdl_steps", "mdl_steps_laws", CALLS, "mdl_session_laws", "mdl_visits", "mdl_visits_laws", SESSIONS)
CLAUSE_CRATES = (SESSIONS, "mdl_visits")

# A part of an expression: a text, a comment, a bracket or mark, or anything else up to the next space. `.` stays with the word before it.
TOKEN = re.compile(r'"(?:[^"\\]|\\.)*"|--.*|[(){}\[\];,]|[^\s(){}\[\];,"]+')
WORD = re.compile(r"[^\W\d][\w′?-]*")

# The first line of a definition, of a nameless module, of a constructor and of a field.
HEAD = re.compile(r"(?:(?:abbrev|unfoldable|opaque|pub) )+(?:(record|data) )?(?!pub |use |mod |module )(\S+)(.*)")
MODULE = re.compile(r"(?:pub )?module \S+(.*?)(?: where)?$")
MEMBER = re.compile(r" +(?:pub )?(\S+) :(?: |$)")

# An import, in a file of definitions or in code.
IMPORT = re.compile(r"^\s*(?:(?:unfoldable|ghost) )?(pub )?(?:ghost )?use Rattle\.(\S+?)(?:\.\{(.*)\})?(?: as (\S+?))?;?\s*$", re.MULTILINE)

# The path of a type of the code: its crate, its file and its name. What the prover makes of its functions and fields belongs to it.
DECLARED = re.compile(r"(\w+)\.specs\.(?:declared|contracts)\.([\w.]+?)\.([A-Z]\w*)(?:\..*)?$")

# In code: a type, what stands for it in contracts, what of a type's body names none of its fields' types (comments, attributes, the names of cases and
# fields), an import, the head of an `impl`, and those of a function and of a clause.
TYPE = re.compile(r"^ *(?:pub(?:\(\w+\))? )?(?:struct|enum) (\w+)(?:<[^>{(]*>)?(.*?)(?:^ *\}|;)$", re.MULTILINE | re.DOTALL)
VALUE = re.compile(r"^impl(?:<.*?>)? Model for (\w+).*?ghost Value = \{(.*?)\};", re.MULTILINE | re.DOTALL)
NO_TYPE = re.compile(r"//.*|#\[.*|ghost .*|^ *[A-Z]\w*|\w+:(?!:)", re.MULTILINE)
USE = re.compile(r"^ *(?:pub )?use (\w+)(?:::[\w:]+)?::(?:\{([^}]*)\}|(\w+));", re.MULTILINE)
IMPL = re.compile(r"impl(?:<.*?>)? (?:\w+(?:<.*?>)? for )?(\w+)")
FUNCTION = re.compile(r"^ *(pub )?(?:pub\(\w+\) )?(?:const )?(?:extern \"C\" )?fn (\w+)")
CLAUSE = re.compile(r"^ *(?:requires|ensures)\b")


@dataclasses.dataclass(frozen=True, order=True)
class Definition:
    """A definition, or a type of the code: its crate, its file there without the ending, and its name."""

    crate: str
    file: str
    name: str

    @property
    def is_declared(self):
        """Whether it is a type of the code."""
        return self.file.startswith("src/")

    def __str__(self):
        return f"{self.crate}/{self.file} {self.name}"


@dataclasses.dataclass
class Equation:
    """An equation of a definition: which constructors its left side names, whether it is for all the rest (by a `_`, or since it names none), its right
    side, and the definitions that it names."""

    cases: set
    is_for_rest: bool
    right: str
    named: set


class Meaning(typing.NamedTuple):
    """What a name means: a definition, or one of its constructors, with the name that this has there."""

    definition: Definition | None
    constructor: str = ""


NOTHING = Meaning(None)


@dataclasses.dataclass
class Scope:
    """What the names of a file mean: its names, and the paths that it imports under one name."""

    names: dict = dataclasses.field(default_factory=dict)
    folders: dict = dataclasses.field(default_factory=dict)

    def bring(self, name, meaning):
        """Brings a name into the scope. A name with holes comes by what stands between them."""
        for part in filter(None, name.split("◌")):
            self.names[part] = meaning


@dataclasses.dataclass
class Item:
    """A definition as it stands in its file: the words of its module and head behind its name, its lines, and whether it is a record, or data."""

    definition: Definition
    head: str
    lines: list
    kind: str


def balance(line):
    """Returns how many more brackets a line opens than it closes."""
    return sum(line.count(c) for c in "({[") - sum(line.count(c) for c in ")}]")


def statements(lines):
    """Joins the lines of a definition into its statements: one begins at each line that isn't set in further than the first."""
    joined = []
    for line in lines:
        if joined and (line.startswith((" ", "}", ")")) or not line.strip()):
            joined[-1] += "\n" + line
        elif line.strip():
            joined.append(line)
    return joined


def members(lines):
    """Joins the lines below the head of a record or data into its fields or constructors."""
    shift = min((len(line) - len(line.lstrip()) for line in lines if line.strip()), default=0)
    return statements([line[shift:] for line in lines])


def tokens_of(text):
    """Returns the tokens of an expression, without texts and comments."""
    return [token for token in TOKEN.findall(text) if not token.startswith(('"', "--"))]


def split_equation(tokens):
    """Returns the two sides of an equation. If it is none, the second one is empty."""
    depth = 0
    for at, token in enumerate(tokens):
        depth += (token in "({[") - (token in ")}]")
        if token == "=" and depth == 0:
            return tokens[:at], tokens[at + 1 :]
    return tokens, []


class Free:
    """Finds the free names of an expression: those that nothing in it binds. A name with a `.` is given whole."""

    def __init__(self, tokens, bound):
        """Takes the tokens, and the names that are bound around them."""
        self.tokens = tokens
        # For each open bracket the names that are bound there, those that its group binds in the one around it, and whether a `λ` is being read.
        self.bound, self.binds, self.in_lambda = [set(bound)], [[]], [False]

    def group(self, at):
        """Returns the names that a group `(x y : ..)` binds which opens here, and where its type begins; or nothing, if the group is none."""
        names, after = [], at + 1
        while after < len(self.tokens) and WORD.fullmatch(self.tokens[after]):
            names.append(self.tokens[after])
            after += 1
        return (names, after + 1) if names and self.tokens[after : after + 1] == [":"] else ([], at + 1)

    def names(self):
        """Returns the free names."""
        at, free = 0, []
        while at < len(self.tokens):
            token, before = self.tokens[at], self.tokens[at - 1] if at else ""
            following = self.tokens[at + 1] if at + 1 < len(self.tokens) else ""
            at += 1
            if token in "({[":
                names, at = self.group(at - 1)
                self.bound.append(set(self.bound[-1]))
                self.binds.append(names)
                self.in_lambda.append(False)
            elif token in ")}]":
                if len(self.bound) > 1:
                    self.bound.pop()
                    self.in_lambda.pop()
                    self.bound[-1].update(self.binds.pop())
            elif token.startswith("λ"):
                self.in_lambda[-1] = True
            elif self.in_lambda[-1]:
                self.bound[-1].add(token.rstrip("."))
                self.in_lambda[-1] = not token.endswith(".")
            elif before == "let":
                self.bound[-1].add(token)
            elif not token.startswith(".") and not (before in "{;" and following == "=") and token.split(".")[0] not in self.bound[-1]:
                free.append(token)
        return free


class Library:
    """All definitions of the crates, and what each names."""

    def __init__(self, root):
        self.files = {}  # by crate and path: the imports of each file of definitions
        self.own = collections.defaultdict(dict)  # by crate and path: what the names mean that a file of definitions defines
        self.items = {}
        for path in sorted(root.glob("*/specs/**/*.antt")):
            self.read(path.relative_to(root).with_suffix(""), path.read_text())
        self.code = Code(root)

    def read(self, path, text):
        """Reads the definitions of a file."""
        place = (path.parts[0], "/".join(path.parts[1:]))
        self.files[place] = IMPORT.findall(text)
        item, module = None, ""
        for line in text.split("\n"):
            if line.startswith("--"):
                continue
            if line[:1].strip():
                found = MODULE.match(line)
                module = found[1] if found else "" if not line.startswith(("}", ")")) else module
            elif module and line.startswith("  "):
                line = line[2:]
            head = HEAD.match(line)
            if head:
                item = Item(Definition(*place, head[2]), f"{module} {head[3]}", [], head[1] or "")
                self.items[item.definition] = item
                self.own[place][head[2]] = Meaning(item.definition)
            elif line.startswith(("use ", "pub ", "unfoldable ", "infix", "module ")):
                item = None
            elif item and not line.strip().startswith("--"):
                item.lines.append(line)
                self.read_constructor(place, item, line)

    def read_constructor(self, place, item, line):
        """Notes the constructor that a line of data names, if it does."""
        member = MEMBER.match(line)
        if item.kind == "data" and member:
            self.own[place][member[1]] = Meaning(item.definition, member[1])

    def meaning(self, path, name):
        """Returns what a name of a path means, if that is in these crates."""
        declared = DECLARED.fullmatch(path) or DECLARED.fullmatch(f"{path}.{name}")
        if declared:
            definition = Definition(declared[1], "src/" + declared[2].replace(".", "/"), declared[3])
            return Meaning(definition, name if path.endswith(".TheVariants") else "") if definition in self.code.types else NOTHING
        crate, _, rest = path.partition(".")
        place = (crate, rest.replace(".", "/"))
        if name in self.own[place]:
            return self.own[place][name]
        for is_public, source, names, _ in self.files.get(place, ()):
            for old, new in renamings(names):
                if is_public and new == name:
                    return self.meaning(source, old)
        return NOTHING

    @functools.cache
    def scope(self, place):
        """Returns the scope of a file of definitions."""
        return self.scope_of(self.files[place], place)

    def scope_of(self, imports, place=None):
        """Returns the scope that these imports make, with the file's own names."""
        scope = Scope()
        for _, source, names, alias in imports:
            for old, new in renamings(names):
                scope.bring(new, self.meaning(source, old))
            if not names:
                scope.folders[alias or source.rpartition(".")[2]] = source
        for name, meaning in self.own.get(place, {}).items():
            scope.bring(name, meaning)
        return scope

    def look_up(self, scope, name):
        """Returns what a name means in a scope."""
        head, _, rest = name.partition(".")
        if head in scope.folders and rest:
            return self.meaning(scope.folders[head], rest.split(".")[0])
        return scope.names.get(name) or scope.names.get(head) or NOTHING

    def named(self, tokens, scope, bound=()):
        """Returns the definitions that an expression names."""
        return {self.look_up(scope, name).definition for name in Free(tokens, bound).names()} - {None}

    def equation(self, text, scope):
        """Reads an equation, without the name that it defines."""
        left, right = split_equation(tokens_of(text))
        cases, named, bound = set(), set(), set()  # the constructors on the left side, what the equation names, and the variables of its patterns
        for token in left[1:] if right else []:
            meaning = self.look_up(scope, token)
            if meaning.constructor:
                cases.add(meaning)
                named.add(meaning.definition)
            elif WORD.fullmatch(token):
                bound.add(token)
        named |= self.named(right or left, scope, bound)
        return Equation(cases, "_" in left or not cases, " ".join(right), named)

    @functools.cache
    def equations(self, definition):
        """Returns the equations of a definition by equations."""
        item = self.items[definition]
        scope = self.scope((definition.crate, definition.file))
        return [] if item.kind else [self.equation(text, scope) for text in statements(item.lines)]

    @functools.cache
    def uses(self, definition):
        """Returns the definitions that a definition names, without itself."""
        if definition.is_declared:
            return self.uses_of_type(definition)
        item, scope = self.items[definition], self.scope((definition.crate, definition.file))
        head = Free(tokens_of(item.head), ())
        named = {self.look_up(scope, name).definition for name in head.names()}
        for equation in self.equations(definition):
            named |= equation.named
        bound = set(head.bound[0])
        for text in members(item.lines) if item.kind else []:
            name, _, rest = text.removeprefix("pub ").partition(" :")
            named |= self.named(tokens_of(rest), scope, bound)
            bound |= {name} if item.kind == "record" else set()
        return named - {None, definition}

    def uses_of_type(self, definition):
        """Returns the definitions that the fields of a type of the code name: their types, or what stands for these in contracts."""
        named = set()
        for other in self.code.fields(definition):
            value, imports = self.code.values.get(other, ("", ()))
            named |= self.named(tokens_of(value), self.scope_of(imports)) if value else {other}
        return named - {definition}

    def behind(self, starts):
        """Returns these definitions, those that they name, and so on."""
        seen, left = set(starts), list(starts)
        while left:
            new = self.uses(left.pop()) - seen
            seen |= new
            left += new
        return seen


@dataclasses.dataclass(frozen=True)
class Function:
    """A function of the code: its crate, the type that it belongs to, its name, whether it is public, its parameters, its clauses, and the file's imports."""

    crate: str
    owner: str
    name: str
    is_public: bool
    parameters: tuple
    clauses: tuple
    imports: tuple

    def named(self, library):
        """Returns the definitions that its clauses name."""
        scope = library.scope_of(self.imports)
        bound = {"self", "result", *self.parameters}
        return set().union(*(library.named(tokens_of(body_of(clause)), scope, bound) for clause in self.clauses))

    def calls_named(self, library):
        """Returns the constructors of `Call` that its clauses name."""
        scope = library.scope_of(self.imports)
        meanings = {library.look_up(scope, token) for clause in self.clauses for token in tokens_of(body_of(clause))}
        return {meaning.constructor for meaning in meanings if is_call(meaning.definition)} - {""}


class Code:
    """The code of the crates: its types, what stands for them in contracts, and its functions."""

    def __init__(self, root):
        self.types, self.values, self.functions, self.uses = {}, {}, [], {}
        for path in sorted(root.glob("*/src/**/*.rt")):
            crate, file = path.relative_to(root).parts[0], "/".join(path.relative_to(root).with_suffix("").parts[1:])
            text = path.read_text()
            imports = tuple(IMPORT.findall(text))
            self.uses[crate, file] = USE.findall(text)
            self.functions += functions_of(crate, text, imports)
            for name, body in TYPE.findall(text):
                self.types[Definition(crate, file, name)] = NO_TYPE.sub("", body)
            for name, value in VALUE.findall(text):
                self.values[Definition(crate, file, name)] = (value, imports)
        self.by_name = collections.defaultdict(list)
        for definition in self.types:
            self.by_name[definition.crate, definition.name].append(definition)

    def fields(self, definition):
        """Returns the types that a type's fields name."""
        crates = {}
        for source, names, name in self.uses[definition.crate, definition.file]:
            for word in re.findall(r"\w+", names or name):
                crates[word] = definition.crate if source == "crate" else source
        for word in set(re.findall(r"\b[A-Z]\w*", self.types[definition])):
            same_file = Definition(definition.crate, definition.file, word)
            found = [same_file] if same_file in self.types else self.by_name[crates.get(word, definition.crate), word]
            if len(found) == 1:
                yield found[0]


def renamings(names):
    """Returns the pairs of old and new names in the braces of an import."""
    for name in filter(None, (name.strip() for name in names.split(","))):
        old, _, new = name.partition(" as ")
        yield old, new or old


def functions_of(crate, text, imports):
    """Returns the functions of a file."""
    owner, lines, found = "", iter(text.split("\n")), []
    for line in lines:
        if line[:1].strip():
            impl = IMPL.match(line)
            owner = impl[1] if impl else ""
        head = FUNCTION.match(line)
        if head:
            signature, clauses = read_head(line, lines)
            found.append(Function(crate, owner, head[2], bool(head[1]), tuple(re.findall(r"(\w+):(?!:)", signature)), tuple(clauses), imports))
    return found


def read_head(line, lines):
    """Returns the signature of a function, which begins at this line, and its clauses, which may have several lines."""
    signature, clauses = line, []
    while not line.rstrip().endswith(("{", ";", "{}")) or balance(signature) > 1 or CLAUSE.match(line):
        line = next(lines, "{")
        if CLAUSE.match(line):
            while balance(line) > 0:
                line += "\n" + next(lines, "}")
            clauses.append(line)
        elif line.strip() != "{":
            signature += line
    return signature, clauses


def body_of(clause):
    """Returns what a clause says, without its name."""
    return clause.partition("{")[2].rpartition("}")[0]


def is_call(definition):
    """Whether a definition is the data of calls."""
    return definition is not None and definition.crate == CALLS and definition.name == "Call"


def is_answer(definition):
    """Whether a definition is the data of answers."""
    return definition is not None and definition.crate == CALLS and definition.name == "Answer"


def calls_of(equation):
    """Returns the constructors of `Call` on the left side of an equation."""
    return {case.constructor for case in equation.cases if is_call(case.definition)}


def is_of_one_call(definition):
    """Whether a definition is in a file that is one call's own."""
    return "specs/calls/" in definition.file


def own_file(call):
    """Returns the name that the own file of a call has, by its constructor."""
    return "".join(part.capitalize() for part in call.split("_"))


class Figures:
    """The figures of a checkout."""

    def __init__(self, root):
        self.root = root
        self.library = Library(root)
        sessions = [f for f in self.library.code.functions if f.crate == SESSIONS and f.owner == "Session" and f.is_public]
        self.calls = {f.name: f for f in sessions}

    def behind(self, function):
        """Returns the definitions behind a function."""
        return self.library.behind(function.named(self.library))

    def constructors(self, function):
        """Returns the constructors of the call that a function is: those that its clauses name, or by whose own files these are."""
        own = {d.file.rpartition("/")[2] for d in function.named(self.library) if is_of_one_call(d)}
        return function.calls_named(self.library) or {call for call in self.files_by_call if own_file(call) in own}

    def is_of_space(self, function):
        """Whether a function is a call of a lock space."""
        return bool(self.constructors(function))

    @functools.cached_property
    def by_call(self):
        """The functions by call, each with its equations that name a call."""
        found = {}
        for definition in self.library.items:
            equations = [e for e in self.library.equations(definition) if calls_of(e)]
            if len(set().union(*map(calls_of, equations))) > 1:
                found[definition] = equations
        return found

    def count_by_call(self, crates=None):
        """Returns how many functions by call these crates have, or all, with how many equations, in how many files."""
        found = {d: equations for d, equations in self.by_call.items() if crates is None or d.crate in crates}
        return len(found), sum(map(len, found.values())), len({(d.crate, d.file) for d in found})

    @functools.cached_property
    def files_by_call(self):
        """The files to read for each call, by its constructor."""
        files = collections.defaultdict(set)
        own = {d for d in self.library.items if d.crate in CALL_CRATES and is_of_one_call(d)}
        for definition, equations in self.by_call.items():
            for equation in equations if definition.crate in CALL_CRATES else ():
                said = {d for d in equation.named if not is_call(d)}
                for call in calls_of(equation):
                    if not said or not all(map(is_of_one_call, said)):
                        files[call].add((definition.crate, definition.file))
                    files[call] |= {(d.crate, d.file) for d in own if d.file.endswith("/" + own_file(call))}
        return files

    @functools.cached_property
    def promises_of_nothing(self):
        """The functions by call, and those of one call by answer, that have an equation with a `_` which promises nothing."""
        found = []
        for definition in self.library.items:
            equations = self.library.equations(definition)
            by_answer = is_of_one_call(definition) and any(is_answer(case.definition) for e in equations for case in e.cases)
            if definition.crate in CALL_CRATES and (by_answer or definition in self.by_call):
                found += [definition for e in equations if e.is_for_rest and e.right == "Unit { 0 }"]
        return found

    @functools.cached_property
    def shared_names(self):
        """The definitions by names that definitions of two or more files have, of which those of single calls count as one."""
        by_name = collections.defaultdict(set)
        for definition in self.library.items:
            by_name[definition.name].add(definition)
        return {name: found for name, found in by_name.items() if len({not is_of_one_call(d) and (d.crate, d.file) for d in found}) > 1}

    def clauses(self, crate):
        """Returns the lines of a crate's clauses by its functions, and the share, in hundredths, of clauses that the crate has before."""
        functions = [f for f in self.library.code.functions if f.crate == crate]
        clauses = [re.sub(r"\s+", " ", clause).strip() for f in functions for clause in f.clauses]
        lines = sum(clause.count("\n") + 1 for f in functions for clause in f.clauses)
        return lines / len(functions), 100 * (len(clauses) - len(set(clauses))) / len(clauses)

    def lines(self, crates, folder, ending):
        """Returns how many lines the files of a folder of these crates have."""
        return sum(path.read_text().count("\n") for crate in crates for path in (self.root / crate / folder).glob(f"**/*{ending}"))

    def ratio(self):
        """Returns the lines of definitions and proofs of the shared table by those of its code."""
        code = self.lines(SHARED_CRATES, "src", ".rt")
        return (self.lines(SHARED_CRATES, "specs", ".antt") + self.lines(SHARED_CRATES, "proofs", ".antt")) / code

    def measured(self):
        """Returns the figures that have bars."""
        behind = {name: self.behind(f) for name, f in self.calls.items() if self.is_of_space(f)}
        counts = {name: sum(not d.is_declared for d in definitions) for name, definitions in behind.items()}
        names = {definition.name for definition in self.library.items}
        figures = {
            "definitions behind try_now": counts["try_now"],
            "definitions behind a call, the least": min(counts.values()),
            "definitions behind a call, the most": max(counts.values()),
            "functions by call": self.count_by_call(CALL_CRATES)[0],
            "files to read for a call, the most": max(map(len, self.files_by_call.values())),
            "promises of nothing": len(self.promises_of_nothing),
            "shared names, % of all": 100 * len(self.shared_names) / len(names),
        }
        for crate in CLAUSE_CRATES:
            figures[f"clause lines a function, {crate}"], figures[f"repeated clauses, {crate}, %"] = self.clauses(crate)
        figures["(definitions + proofs) / code"] = self.ratio()
        return figures


def size(definitions):
    """Returns how many definitions these are, how many of them are types of the code, and of how many files and crates."""
    declared = sum(d.is_declared for d in definitions)
    return len(definitions), declared, len({(d.crate, d.file) for d in definitions}), len({d.crate for d in definitions})


def print_calls(figures):
    """Prints how many definitions stand behind each call of `Session`, and, for those of a lock space, how many files are to be read for it."""
    print("call              definitions behind it  of them types  in files  of crates  to read")
    for name, function in sorted(figures.calls.items()):
        read = set().union(*(figures.files_by_call[call] for call in figures.constructors(function)))
        print("{:<18}{:>21}{:>15}{:>10}{:>11}{:>9}".format(name, *size(figures.behind(function)), len(read) or "").rstrip())


def print_layout(figures):
    """Prints how the definitions of calls are laid out."""
    for label, crates in (*((crate, (crate,)) for crate in CALL_CRATES), ("all crates", None)):
        print("functions by call, {:<18} {:>3}, {:>3} equations, {:>2} files".format(label, *figures.count_by_call(crates)))
    print("promise nothing:", ", ".join(map(str, figures.promises_of_nothing)) or "none")


def print_figures(figures):
    """Prints the figures that have bars, and returns whether one is above its bar."""
    if not figures.calls.get("try_now") or not figures.count_by_call(CALL_CRATES)[0]:
        print("no call of Session was found, or no table of calls: the script misreads the tree", file=sys.stderr)
        return True
    is_broken = False
    print("figure                                      now     bar")
    for label, figure in figures.measured().items():
        above = round(figure, 2) > BARS[label]
        is_broken |= above
        print(f"{label:<38}{figure:>9.4g}{BARS[label]:>8}{'  above' if above else ''}")
    return is_broken


def print_call(figures, name):
    """Prints the definitions behind a call, and returns the exit status."""
    crate, _, short = name.rpartition("::")
    found = [f for f in figures.library.code.functions if f.crate == crate and f.name == short and f.is_public]
    function = found[0] if crate and found else figures.calls.get(name)
    if function is None:
        print(f"there is no call {name}", file=sys.stderr)
        return 1
    definitions = figures.behind(function)
    print(*sorted(definitions), sep="\n")
    print("{} definitions, {} of them types of the code, in {} files of {} crates".format(*size(definitions)))
    return 0


def in_order(library, starts):
    """Returns the definitions behind these, nearest first."""
    found = sorted(starts)
    for definition in found:
        found += sorted(library.uses(definition) - set(found))
    return found


def text_of(definition):
    """Returns a definition as it stands in its file, with the comment above it. A definition within another one is indented."""
    if definition.is_declared:
        return text_of_type(definition)
    lines = (CRATES / definition.crate / f"{definition.file}.antt").read_text().split("\n")
    heads = ((i, HEAD.match(line.lstrip())) for i, line in enumerate(lines))
    found = [i for i, head in heads if head and head[2] == definition.name]
    at = min(found, key=lambda i: (lines[i].startswith(" "), i))
    first = comment_above(lines, at, "--")
    last = next((i for i, line in enumerate(lines[at:], at) if not line.strip()), len(lines))
    return "\n".join(lines[first:last]) + "\n"


def text_of_type(definition):
    """Returns a type of the code as it stands there, with the comment above it. Nothing if a macro writes it."""
    lines = (CRATES / definition.crate / f"{definition.file}.rt").read_text().split("\n")
    head = re.compile(rf"(pub(\([a-z]+\))? )?(struct|enum|union) {re.escape(definition.name)}\b")
    at = next((i for i, line in enumerate(lines) if head.match(line)), None)
    if at is None:
        return ""
    last = at if lines[at].endswith((";", "}")) else next(i for i, line in enumerate(lines[at:], at) if line.startswith(("}", ")")))
    return "\n".join(lines[comment_above(lines, at, ("//", "#[")) : last + 1]) + "\n"


def comment_above(lines, at, marks):
    """Returns the index of the first of the lines above one that begin with these marks, or its own."""
    while at > 0 and lines[at - 1].lstrip().startswith(marks):
        at -= 1
    return at


def print_read(figures, name, clause=None):
    """Prints the definitions behind a function's contract, or behind one of its clauses, and returns the exit status."""
    crate, _, short = name.rpartition("::")
    function = next((f for f in figures.library.code.functions if f.crate == crate and f.name == short and f.is_public), None)
    clauses = [it for it in function.clauses if clause in (None, *it.split()[1:2])] if function else []
    if not clauses:
        named = ", ".join(words[1] for it in function.clauses if (words := it.split())[1:2] and words[1] != "{") if function else ""
        print(f"{name} has no clause {clause}: {named}" if function else f"there is no public function {name}: write CRATE::NAME", file=sys.stderr)
        return 1
    definitions = in_order(figures.library, dataclasses.replace(function, clauses=tuple(clauses)).named(figures.library))
    print(*clauses, "", sep="\n")
    for definition in definitions:
        print(f"==== crates/{definition}\n{text_of(definition)}")
    print("{} definitions, {} of them types of the code, in {} files of {} crates".format(*size(definitions)))
    return 0


def print_names(figures):
    """Prints the names that definitions of two or more files have."""
    for name, definitions in sorted(figures.shared_names.items()):
        print(f"{name}: {', '.join(sorted(f'{d.crate}/{d.file}' for d in definitions))}")


def main(words):
    """Prints what the words ask for, and returns the exit status."""
    figures = Figures(CRATES)
    match words:
        case ["--call", name]:
            return print_call(figures, name)
        case ["--read", name, *clause] if len(clause) < 2:
            return print_read(figures, name, *clause)
        case ["--names"]:
            print_names(figures)
        case [] | ["--limits"]:
            print_calls(figures)
            print()
            print_layout(figures)
            print()
            if print_figures(figures) and words:
                return 1
        case _:
            print(__doc__, file=sys.stderr)
            return 2
    return 0


if __name__ == "__main__":
    sys.exit(main(sys.argv[1:]))

"""Tries wrong bodies: the prover has to refuse each function into which one was put.

A wrong body is a file wrong_bodies/CRATE/NAME.edit of such lines:

    refused: mdl_key::key::check_name      the function that has to be refused, by the name that a check prints
    file: src/key.rt                       the file that is changed
    old: if name.len() > LONGEST_NAME {    a text that occurs there once, in one line
    new: if name.len() > 65 {              what is put in its place

It may have more pairs of `old` and `new`, and more files. The line `tried: among all` leaves it out of the gate, where other bodies of its
crate stand for it.
A wrong body has to be refused by a goal. If the function's proof only misses a name that the body removed, that says little about the contract: then a
line `by a name: REASON` has to say why the body is wrong by the contract all the same, and why it can't keep the names.

A function whose proof is written by hand may be refused only because that proof doesn't fit another text. So its right body is tried in another form,
with the proof as it is: `let same = { BODY }; same`, or, if its files have lines `same: TEXT` after pairs of `old` and `new`, with these in place of the
old texts. That has to be proved, or a line of wrong_bodies/without_control has to name the function and say why not. The refusals of its wrong bodies
are then counted apart. (A wrong body that adds a branch or a call has more goals than such a form, so that its refusal says less, too.)

A function is proved with the contracts of the functions that it calls, whatever their bodies are. So all wrong bodies of a crate are put in place
together, in a copy, and one check covers the functions that they name. In the gate it covers those of several crates, if none depends on another one,
since it takes some fifteen seconds beside the functions, however few they are. If several change one function, the copy gets a twin of it for each
of the others: the function once more, with its contract and proof, under another name. Only bodies that change the same text outside the function, or
a function that can't have a twin, take turns. The bodies of the functions that have no wrong one are left out of the copy, since they would only be
proved again. That a function calls one that is refused, or that was left out, doesn't count: it has to fail by itself.

The check uses the libraries that the crate depends on as `rt ci`, or `rt check` in a crate's folder, built them last.

Usage, at the top of the repository:
    python3 make/wrong_bodies.py                    all, and the right bodies in another form
    python3 make/wrong_bodies.py CRATE [NAME ..]    those of a crate, or some of them
    python3 make/wrong_bodies.py --gate [CRATE]     all but those that are tried only among all, and no right bodies
    python3 make/wrong_bodies.py --same [CRATE]     no wrong ones, but the right bodies in another form
    python3 make/wrong_bodies.py --right [CRATE]    no wrong ones, but the right bodies in the same copies: prints which would be refused
    python3 make/wrong_bodies.py --fit              tries none: prints which of them don't fit the files that they change
"""

import collections
import concurrent.futures
import dataclasses
import functools
import os
import pathlib
import re
import shutil
import subprocess
import sys
import tempfile

BODIES = pathlib.Path("wrong_bodies")

OPTIONS = {"--gate", "--same", "--right", "--fit"}

# The functions whose right bodies aren't proved in another form, a line for each: the function, `: `, and why.
WITHOUT_CONTROL = BODIES / "without_control"
CRATES = pathlib.Path("crates")

# The kit's folder, found by its command.
KIT = pathlib.Path(shutil.which("rt") or "rt").resolve().parent.parent

# The crate without functions that a check of copies is about: they are its libraries.
NOTHING = "nothing"

# The messages of a check for a proof that names what a body removed. They say nothing about the contract.
LOST_NAME = re.compile(r"has no field|is not in scope|has no `|was not admitted")

# The first line of a function, of a type's `impl`, and of a type.
FUNCTION = re.compile(r"( {4})?(?:pub(?:\([a-z]+\))? )?(?:const )?(extern \"C\" )?fn (\w+)")
OWNER = re.compile(r"impl(?:<[^{]*?>)? (?:(\w+)(?:<[^{]*?>)? for )?(\w+)(?:<[^{]*>)? \{")
TYPE = re.compile(r"^(?:pub(?:\([a-z]+\))? )?(?:struct|enum) (\w+)", re.MULTILINE)

# Replaces the proof of a function that is left out. It is refused at once, and the functions that call it are checked to their end.
NO_PROOF = """use Rattle.{crate}.proofs.{path}.Statement.{{statement}}

pub {name}_spec : {{M : Type 1}} → statement M
{name}_spec = nowhere
"""

# The outcomes of a wrong body, or of a right one. (A function without control has only proofs that don't fit another form.)
REFUSED, BY_A_NAME, UNSURE, MISSED, PASSED = "refused", "refused for a name alone", "refused without control", "not as it should be", "passed"


class Unfit(Exception):
    """A wrong body that doesn't fit the crate that it is for, or a file that isn't one."""


@dataclasses.dataclass
class WrongBody:
    """A wrong body: its name, the function that has to be refused, which texts replace which, which texts mean the same as the replaced ones, whether
    it is tried only when all are, why it may be refused for a name alone, and the twin of the function that is to be refused instead."""

    name: str
    refused: str
    changes: list
    same: list
    is_for_all: bool
    by_a_name: str | None
    twin: str | None = None

    @property
    def tried(self):
        """The function that a check has to refuse."""
        return self.twin or self.refused

    def spans_in(self, folder, changes=None):
        """Returns which parts of which files of a crate's folder it replaces, or these changes do, and by what: lists of (start, end, text)."""
        spans = collections.defaultdict(list)
        for path, old, new in changes or self.changes:
            text = (folder / path).read_text()
            if text.count(old) != 1:
                raise Unfit(f"{self.name}: this text stands in {path} {text.count(old)} times, not once: {old}")
            start = text.index(old)
            spans[path].append((start, start + len(old), new))
        return spans


def read_body(file):
    """Reads a wrong body."""
    refused, path, old, changes, same, is_for_all, by_a_name = None, None, None, [], [], False, None
    for line in file.read_text().splitlines():
        word, _, rest = line.partition(":")
        rest = rest.removeprefix(" ")
        if word == "refused":
            refused = rest
        elif line == "tried: among all":
            is_for_all = True
        elif word == "by a name" and rest:
            by_a_name = rest
        elif word == "file":
            path = rest
        elif word == "old":
            old = rest
        elif word == "new" and path and old:
            changes.append((path, old, rest))
            old = None
        elif word == "same" and changes and not old:
            same.append((*changes[-1][:2], rest))
        else:
            raise Unfit(f"{file}: there is no place for this line: {line}")
    if not changes:
        raise Unfit(f"{file}: it changes nothing")
    return WrongBody(file.stem, refused, changes, same, is_for_all, by_a_name)


def replaced(text, spans):
    """Returns a text with these parts replaced: (start, end, new text)."""
    for start, end, new in sorted(spans, reverse=True):
        text = text[:start] + new + text[end:]
    return text


@dataclasses.dataclass
class Twin:
    """A twin that a function gets: the function, the twin's name, the file, where it is inserted there, and its text with the right and the wrong body."""

    function: str
    name: str
    path: str
    at: int
    right: str
    wrong: str

    def copy_proof(self, folder):
        """Gives the twin the proof of the function, in a crate's folder."""
        *place, name = self.function.split("::")[1:]
        if (folder / "proofs" / "/".join([*place, name])).is_dir():
            proof = shutil.copytree(folder / "proofs" / "/".join([*place, name]), folder / "proofs" / "/".join([*place, self.name]))
            module = re.compile(rf"(Rattle\.\w+\.(?:proofs|specs\.contracts)\.{re.escape('.'.join([*place, name]))})\b")
            for file in pathlib.Path(proof).rglob("*.antt"):
                file.write_text(module.sub(lambda found: found[1].removesuffix(name) + self.name, file.read_text()))


@dataclasses.dataclass
class Round:
    """Bodies that are in place at the same time, which parts of which files they replace, and the twins of functions that have another body, too."""

    bodies: list
    spans: dict
    twins: list

    def takes(self, body, spans):
        """Adds a body that replaces these parts, unless it clashes with another one, and returns whether it was added."""
        crossed = any(
            start < of_end and of_start < end
            for path in spans
            for start, end, _ in spans[path]
            for of_start, of_end, _ in self.spans.get(path, [])
        )
        if crossed or body.refused in [it.refused for it in self.bodies]:
            return False
        self.bodies.append(body)
        for path in spans:
            self.spans.setdefault(path, []).extend(spans[path])
        return True

    def takes_twin(self, body, spans, folder):
        """Adds a body as that of a twin of its function, if that can have one, and returns whether it was added."""
        twin = twin_of(body, spans, folder, 1 + sum(it.function == body.refused for it in self.twins))
        if twin:
            self.twins.append(twin)
            self.bodies.append(dataclasses.replace(body, twin=body.refused.removesuffix(body.refused.split("::")[-1]) + twin.name))
        return twin is not None

    def put_into(self, folder, are_right=False):
        """Puts all bodies into their places in a crate's folder, or only the twins, with the right bodies."""
        for path in {*self.spans, *(it.path for it in self.twins)}:
            spans = [(it.at, it.at, it.right if are_right else it.wrong) for it in self.twins if it.path == path]
            spans += [] if are_right else self.spans.get(path, [])
            (folder / path).write_text(replaced((folder / path).read_text(), spans))
        for it in self.twins:
            it.copy_proof(folder)


def rounds_of(bodies, folder):
    """Returns the rounds that it takes to try bodies of a crate."""
    rounds = []
    for body in bodies:
        spans = body.spans_in(folder)
        if not any(it.takes(body, spans) or it.takes_twin(body, spans, folder) for it in rounds):
            rounds.append(Round([], {}, []))
            rounds[-1].takes(body, spans)
    return rounds


def twin_of(body, spans, folder, number):
    """Returns a twin of the function that a body changes, which gets the body. There is none if the body replaces parts outside the function, or if the
    function is of a trait, for C, or in a cycle of calls with a proof by hand."""
    modules, types = sources_of(folder)
    name = body.refused.split("::")[-1]
    if len(spans) != 1 or (folder / proofs_of(body.refused)[1]).is_dir():
        return None
    path = next(iter(spans))
    lines = (folder / path).read_text().splitlines(keepends=True)
    bare = [line.removesuffix("\n") for line in lines]
    for function, is_free, start, end in functions_in(bare, modules[folder / path], types):
        if "::".join(function) == body.refused and is_free:
            head = max(at for at in range(start) if FUNCTION.match(bare[at]))
            while bare[head - 1].strip().startswith(("#[", "//")):
                head -= 1
            first, last = sum(map(len, lines[:head])), sum(map(len, lines[: end + 1]))
            if all(first <= its_start and its_end <= last for its_start, its_end, _ in spans[path]):
                text = "\n" + "".join(lines[head : end + 1])
                inside = [(its_start - first + 1, its_end - first + 1, new) for its_start, its_end, new in spans[path]]
                named = [re.sub(rf"\bfn {name}\b", f"fn {name}_twin_{number}", it, count=1) for it in (text, replaced(text, inside))]
                return Twin(body.refused, f"{name}_twin_{number}", path, last, *named)
    return None


def proofs_of(function):
    """Returns the folders that the proof of a function may be in, if it is written by hand. That of one that calls itself is in a folder with a `+`."""
    *folders, name = function.split("::")[1:]
    return tuple("/".join(["proofs", *folders, mark + name, ""]) for mark in ("", "+"))


def has_proof_by_hand(function):
    """Whether a function has a proof that is written by hand."""
    return any((CRATES / function.split("::")[0] / folder).is_dir() for folder in proofs_of(function))


def told_of(function, said):
    """Returns what these lines of a check say of a function: its verdict, and the errors in its proof."""
    crate = function.split("::")[0]
    proofs = tuple(f"{crate}/{folder}" for folder in proofs_of(function))
    verdict = [it for it in said if it.startswith(f"fn {function}: ")]
    return verdict, [it for it in messages_of(said) if it.removeprefix("./").startswith(proofs) and ": error: " in it]


def messages_of(said):
    """Returns the messages of a check, each with the indented lines that continue it."""
    messages = []
    for line in said:
        if line.startswith(" ") and messages:
            messages[-1] += " " + line.strip()
        else:
            messages.append(line)
    return messages


def is_refused(function, said):
    """Returns whether by these lines of a check the function failed by itself, and whether for more than lost names."""
    verdict, errors = told_of(function, said)
    if any("did not prove" in it for it in verdict):
        return True, True
    by_itself = errors and any("not proved" in it for it in verdict)
    return by_itself, by_itself and any(not LOST_NAME.search(it) for it in errors)


def uses(top="."):
    """Returns the libraries that each crate of the repository at `top` names."""
    lines = [re.match(r"(\w+)[^#:]*:(.*)", line) for line in pathlib.Path(top, "crates.txt").read_text().splitlines()]
    return {line[1]: line[2].split() for line in lines if line}


def libraries_of(crate):
    """Returns the libraries that a crate names, each with the folder that it was built into."""
    names = uses()[crate]
    built = {name: CRATES.resolve() / name / "out/rlib" / f"{name}.rlib" for name in names if (CRATES / name).is_dir()}
    lost = [name for name, folder in built.items() if not folder.is_dir()]
    if lost:
        raise Unfit(f"{crate}: {' and '.join(lost)} must be built first: run rt check in crates/{crate}, or rt ci")
    return {name: built.get(name, KIT / "rlibs" / f"{name}.rlib") for name in ["std", *names]}


def command_for(crate):
    """Returns the command that checks a crate in its folder, but for the libraries that it depends on."""
    words = [KIT / "bin/rattle", "check", "--crate-name", crate, "src/lib.rt", "--links", f"{crate}=", "--jobs", "1"]
    return [*words, "--antt-project", KIT / "rattle/logic/antt-project.json", "--logic-built", KIT / "logic_built"]


def words_for(libraries):
    """Returns the words of a command that name libraries, and say where those below them are."""
    words = [word for name, folder in libraries.items() for word in ("--extern", f"{name}={folder}")]
    return words + [word for folder in [KIT / "rlibs", *CRATES.resolve().glob("*/out/rlib")] for word in ("-L", f"dependency={folder}")]


def command_for_all(crates):
    """Returns the command that checks crates in copies of their folders, beside a crate without functions."""
    words, libraries = command_for(NOTHING), {}
    for crate in crates:
        used = libraries_of(crate)
        words += ["--lib", f"{crate}:{','.join(used)}={crate}/src/lib.rt"]
        libraries |= used
    return words + words_for(libraries)


def functions_in(lines, module, types):
    """Returns the functions of a file that have a body of some lines: the path of each, whether it can be left out, and where its body begins and ends."""
    owner, is_of_trait, at = None, False, 0
    while at < len(lines):
        line = lines[at]
        if line and not line.startswith(" "):
            opened = OWNER.match(line)
            owner, is_of_trait = opened and owner_of(opened, module, types), bool(opened and opened[1])
        found = FUNCTION.match(line)
        if found and (owner or not found[1]) and not line.endswith("}"):
            indent = found[1] or ""
            while not lines[at].startswith(indent + "{") and not (lines[at].endswith("{") and lines[at].startswith((indent + ")", found[0]))):
                at += 1
            if not lines[at].endswith("}"):
                end = lines.index(indent + "}", at)
                is_bound = found[2] or (found[1] and is_of_trait)
                yield [*(owner if found[1] else module), found[3]], not is_bound, at + 1, end
                at = end
        at += 1


def owner_of(opened, module, types):
    """Returns the path by which the functions of an `impl` begin: of a type, or of a type and a trait that it has."""
    trait, name = opened.groups()
    return [*module, name + trait] if trait else types.get(name)


def sources_of(folder):
    """Returns the files of a crate's code with their modules, and its types with the paths of their modules."""
    source = folder / "src"
    modules = {
        file: [folder.name, *(part for part in file.relative_to(source).with_suffix("").parts if part not in ("lib", "main"))]
        for file in source.rglob("*.rt")
    }
    return modules, {name: [*module, name] for file, module in modules.items() for name in TYPE.findall(file.read_text())}


def make_library(folder):
    """Makes a program in a folder a library, without its `main`: a check of a library doesn't load the code of those below."""
    root = folder / "src/main.rt"
    if root.exists():
        text = root.read_text()
        start = text.index("\nfn main(")
        root.write_text(text[:start] + text[text.index("\n}\n", start) + 2 :])
        root.rename(folder / "src/lib.rt")


def leave_out(folder, but):
    """Empties the functions in a crate's folder, except those in `but` and those of traits and for C, and leaves out their proofs."""
    modules, types = sources_of(folder)
    for file, module in modules.items():
        lines, paths = file.read_text().splitlines(), []
        for path, is_free, start, end in reversed(list(functions_in(lines, module, types))):
            if is_free and "::".join(path) not in but:
                lines[start:end] = [lines[end].removesuffix("}") + "    loop {}"]
                paths.append(path)
        file.write_text("\n".join(lines) + "\n")
        for _, *path in paths:
            place = folder.joinpath("proofs", *path)
            shutil.rmtree(place.with_name(f"+{path[-1]}"), ignore_errors=True)
            shutil.rmtree(place, ignore_errors=True)
            place.mkdir(parents=True)
            (place / "Proof.antt").write_text(NO_PROOF.format(crate=folder.name, path=".".join(path), name=path[-1]))


def check(parts):
    """Checks functions of crates, each in a copy after a change there, and returns the lines that the check prints. `parts` has the functions of each
    crate, and the change. None of the crates may depend on another one."""
    with tempfile.TemporaryDirectory(prefix="wrong-bodies-") as place:
        pathlib.Path(place, "src").mkdir()
        pathlib.Path(place, "src/lib.rt").write_text("//! Nothing.\n")
        words = command_for_all(parts)
        for crate, (functions, change) in parts.items():
            folder = pathlib.Path(place, crate)
            for part in ("src", "specs", "proofs"):
                if (CRATES / crate / part).is_dir():
                    shutil.copytree(CRATES / crate / part, folder / part)
            change(folder)
            make_library(folder)
            leave_out(folder, functions)
            words += [word for name in functions for word in ("--only", name)]
        ran = subprocess.run(words, cwd=place, stdout=subprocess.PIPE, stderr=subprocess.STDOUT, text=True)
    return ran.stdout.splitlines()


def outcome_of(crate, body, said):
    """Returns the outcome of a wrong body by the lines of a check, and reports the body if it isn't refused as it should be."""
    refused, for_more = is_refused(body.tried, said)
    verdict, errors = told_of(body.tried, said)
    if not refused:
        wrong = f"NOT REFUSED: {body.tried} has to fail by itself"
    elif not for_more and not body.by_a_name:
        wrong = f"refused for a name alone, and it doesn't say why: its proof misses a name that {body.refused} had"
    elif for_more and body.by_a_name:
        wrong = "refused for more than a name: its line `by a name` is stale"
    else:
        return BY_A_NAME if not for_more else UNSURE if body.refused in without_control() else REFUSED
    told = "\n    ".join(verdict + errors or said[-3:])
    print(f"{crate}/{body.name}: {wrong}\n    {told}", flush=True)
    return MISSED


def right_outcome_of(crate, body, said):
    """Returns the outcome of the right body of a function that has a wrong one, by the lines of a check, and reports it if it is refused."""
    verdict, errors = told_of(body.tried, said)
    if verdict and not is_refused(body.tried, said)[0]:
        return PASSED
    told = "\n    ".join(verdict + errors or said[-3:])
    print(f"{crate}/{body.name}: {body.tried} is refused as it is\n    {told}", flush=True)
    return MISSED


# ---- right bodies in another form


@functools.cache
def without_control():
    """Returns the functions whose right bodies aren't proved in another form, with the reasons."""
    return dict(line.split(": ", 1) for line in WITHOUT_CONTROL.read_text().splitlines())


def controls_of(bodies):
    """Returns the functions that have a proof by hand and one of these bodies, each with the body whose lines `same` give its other form, or None."""
    functions = {body.refused: None for body in bodies if has_proof_by_hand(body.refused)}
    functions.update({body.refused: body for body in reversed(bodies) if body.same and body.refused in functions})
    return functions


def put_same(folder, functions):
    """Gives functions in a crate's folder another form that means the same."""
    for body in functions.values():
        if body:
            Round([body], body.spans_in(folder, body.same), []).put_into(folder)
    modules, types = sources_of(folder)
    left = {it for it in functions if not functions[it]}
    for file, module in modules.items():
        lines = file.read_text().splitlines()
        for path, _, start, end in reversed(list(functions_in(lines, module, types))):
            if "::".join(path) in left:
                lines[start:end] = ["let same = {", *lines[start:end], "};", "same"]
                left.remove("::".join(path))
        file.write_text("\n".join(lines) + "\n")
    if left:
        raise Unfit(f"{' and '.join(sorted(left))}: a file of wrong bodies has to give the other form, by lines `same: ..`")


def control_outcome_of(function, said):
    """Returns the outcome of a right body in another form by the lines of a check, and reports it if it isn't as without_control says."""
    verdict, errors = told_of(function, said)
    failed, is_known = is_refused(function, said)[0], function in without_control()
    passed = bool(verdict) and not failed
    if passed and not is_known:
        return PASSED
    if failed and is_known:
        return UNSURE
    told = "\n    ".join(verdict + errors or said[-3:])
    wrong = f"is proved in another form, too: its line of {WITHOUT_CONTROL} is stale" if passed else "isn't proved in another form that means the same"
    print(f"{function} {wrong}\n    {told}", flush=True)
    return MISSED


def try_controls(found):
    """Tries the right bodies of crates in another form, and returns how many don't have the right outcome."""
    return sum(try_controls_of(crate, controls_of(bodies)) for crate, bodies in found.items())


def try_controls_of(crate, functions):
    """Tries the right bodies of functions of a crate in another form, and returns how many don't have the right outcome."""
    if not functions:
        return 0
    said = check({crate: (list(functions), lambda folder: put_same(folder, functions))})
    outcomes = collections.Counter(control_outcome_of(it, said) for it in functions)
    told = f"{outcomes[PASSED]} of {len(functions)} functions with proofs by hand are proved in another form, too"
    print(f"{crate}: {told}{', as the others are known not to be' if outcomes[UNSURE] else ''}", flush=True)
    return outcomes[MISSED]


# ---- all


def try_bodies(found, are_right):
    """Tries the wrong bodies of crates, or the right ones, in copies of them, and returns how many don't have the right outcome."""
    outcomes = {crate: [] for crate in found}
    rounds = {crate: rounds_of(bodies, CRATES / crate) for crate, bodies in found.items()}
    for number in range(max(map(len, rounds.values()))):
        now = {crate: its[number] for crate, its in rounds.items() if number < len(its)}
        said = check({crate: ([body.tried for body in it.bodies], functools.partial(it.put_into, are_right=are_right)) for crate, it in now.items()})
        for crate, it in now.items():
            outcomes[crate] += [(body.name, (right_outcome_of if are_right else outcome_of)(crate, body, said)) for body in it.bodies]
    for crate in found:
        print(summary(crate, outcomes[crate], are_right), flush=True)
    return sum(outcome == MISSED for its in outcomes.values() for _, outcome in its)


def summary(crate, outcomes, are_right):
    """Returns a line on the wrong bodies of a crate, or on the right ones: names, each with its outcome."""
    names = collections.defaultdict(list)
    for name, outcome in outcomes:
        names[outcome].append(name)
    told = f"{crate}: {len(outcomes) - len(names[MISSED])} of {len(outcomes)}"
    if are_right:
        return f"{told} right bodies pass"
    few = f", {len(names[BY_A_NAME])} of them for a name alone" if names[BY_A_NAME] else ""
    few += f", {len(names[UNSURE])} maybe only since the proof by hand doesn't fit: {' '.join(sorted(names[UNSURE]))}" if names[UNSURE] else ""
    return f"{told} wrong bodies are refused{few}"


def groups_of(found):
    """Returns groups of crates, each with its bodies, that can be checked together, since none depends on another: those of the same depth."""
    used, depths = uses(), {}

    def depth(crate):
        if crate not in depths:
            depths[crate] = max((depth(it) for it in used.get(crate, [])), default=0) + (crate in found)
        return depths[crate]

    groups = collections.defaultdict(dict)
    for crate, bodies in found.items():
        groups[depth(crate)][crate] = bodies
    return list(groups.values())


def size_of(crates):
    """Returns the size of the code and the proofs of crates."""
    files = [file for crate in crates for part in ("src", "proofs") for file in (CRATES / crate / part).rglob("*") if file.is_file()]
    return sum(file.stat().st_size for file in files)


def try_all(groups, trials):
    """Makes trials with the bodies of groups of crates, the largest first, one for each processor, and returns how many don't have the right outcome."""
    lanes = int(os.environ.get("RT_JOBS") or len(os.sched_getaffinity(0)))
    with concurrent.futures.ThreadPoolExecutor(lanes) as pool:
        return sum(pool.map(lambda group: sum(it(group) for it in trials), sorted(groups, key=size_of, reverse=True)))


def bodies_of(words):
    """Returns the wrong bodies that these words name, by the names of their crates."""
    found = {}
    for file in sorted(BODIES.glob("*/*.edit")):
        if words[:1] in ([], [file.parent.name]) and (not words[1:] or file.stem in words[1:]):
            body = read_body(file)
            if not body.refused:
                raise Unfit(f"{file}: it doesn't say which function has to be refused")
            found.setdefault(file.parent.name, []).append(body)
    if not found:
        raise Unfit(f"there is no such wrong body: {' '.join(words)}")
    return found


def fit_all():
    """Checks that each wrong body fits, and each edit that `rt ci` tries, and that the functions without control have a wrong body and a proof."""
    named = set()
    for crate, bodies in bodies_of([]).items():
        named |= controls_of(bodies).keys()
        for body in bodies:
            body.spans_in(CRATES / crate)
            if body.same:
                body.spans_in(CRATES / crate, body.same)
    if lost := without_control().keys() - named:
        raise Unfit(f"{WITHOUT_CONTROL}: no wrong body, or no proof by hand, is of {' or '.join(sorted(lost))}")
    for file in CRATES.glob("*/must-fail/*.edit"):
        read_body(file).spans_in(file.parent.parent)


def trials_of(words):
    """Returns the trials that the words name, each a function of crates and their bodies."""
    if "--right" in words:
        return [functools.partial(try_bodies, are_right=True)]
    if "--same" in words:
        return [try_controls]
    wrong = functools.partial(try_bodies, are_right=False)
    return [wrong] if "--gate" in words or len(words) > 1 else [wrong, try_controls]


def main(words):
    """Tries the wrong bodies that the words name, or checks that all fit, and returns the exit status."""
    if unknown := {word for word in words if word.startswith("-")} - OPTIONS:
        print(f"wrong_bodies.py: there is no option {' or '.join(sorted(unknown))}\n\n{__doc__[__doc__.index('Usage'):].strip()}", file=sys.stderr)
        return 2
    try:
        if words == ["--fit"]:
            fit_all()
            return 0
        found = bodies_of([word for word in words if not word.startswith("--")])
        groups = [{crate: bodies} for crate, bodies in found.items()]
        if "--gate" in words:
            groups = groups_of({crate: [body for body in bodies if not body.is_for_all] for crate, bodies in found.items()})
        return 1 if try_all(groups, trials_of(words)) else 0
    except Unfit as error:
        print(error, file=sys.stderr)
        return 1


if __name__ == "__main__":
    sys.exit(main(sys.argv[1:]))

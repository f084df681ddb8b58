"""Prints where the headers for C differ from the definitions and the code of their library, one line for each thing.

Each number of an enumeration of a header has to be the one that the definitions give to what its name says, and each number of the definitions has to
have a name. The version of the headers is that of the library. Each code of gaz_codes.h has a text, and each text has a code. The fields of a structure, and the parameters of a function, have to be those of the
code, in their order and of their types. (`static_assert`s in examples/c/layout.c say what sizes and offsets that gives.)

Usage, at the top of the repository: python3 make/docs/header.py
"""

import pathlib
import re

# What the header calls a number, if not by the name that the definition uses, in capitals. The same names stand for the same numbers in all definitions.
OTHER_NAMES = {
    "OUT_OF_MEMORY": "NO_MEMORY",
    "IS_OPEN_ALREADY": "IS_OPEN",
    "cause_code DEF": "BAD_DEF",
    "settled_code GRANTED": "DONE",
    "unserved_code IN_USE": "SESSION_IN_USE",
    "fault_code NOT_HELD": "NOT_KEPT",
    "fault_code WAITING": "HAS_WAIT",
    "code_of WAITS": "WAITING",
    "code_of PENDING": "WAITING",
    "code_of VICTIM_IS": "VICTIM",
    "code_of TIMED_OUT_BY_THIS_CALL": "TIMEOUT",
    "code_of HAS_KILLED_FALSE": "NOT_KILLED",
    "code_of HAS_WAIT_NONE": "NO_WAIT",
    "code_of _": "DONE",
    "done_code OK": "DONE",
    "acquire_code ACQUIRED": "DONE",
    "acquire_code MUST_WAIT": "WAITING",
    "tried_code ACQUIRED": "DONE",
    "resume_code ACQUIRED": "DONE",
}

# The headers that declare nothing of a library: they have code over the others.
OVER_OTHERS = {"gaz_one_all.h"}

# A definition by cases, one that is a number, one that gives a number to each of a few values, the version of a header, and a row of texts.
CASE = re.compile(r"^(\w+_code|code_of) (.+) = (\w+)$", re.MULTILINE)
NUMBER = re.compile(r"^(\w+) = (\d+)$", re.MULTILINE)
VALUES = re.compile(r"^(\w+)_at number =$((?:\n .*)*)", re.MULTILINE)
VALUE = re.compile(r"number == (\d+) then Some (\w+)")
VERSION = re.compile(r"^#define (\w+_VERSION) (\d+)$", re.MULTILINE)
TEXT = re.compile(r"^ +\((\d+), codes \"", re.MULTILINE)

# An enumeration, a structure and a function of a header; and a structure and a function of the code.
ENUM = re.compile(r"^enum (\w+) \{(.*?)\};", re.MULTILINE | re.DOTALL)
STRUCT = re.compile(r"^struct (\w+) \{(.*?)\};", re.MULTILINE | re.DOTALL)
FUNCTION = re.compile(r"^uint32_t (\w+)\((.*?)\);", re.MULTILINE | re.DOTALL)
OWN_STRUCT = re.compile(r"((?:^///.*\n)*)(?:^#\[derive.*\n)*^#\[repr\(C\)\]\npub struct (\w+) \{\n((?: .*\n)*)\}", re.MULTILINE)
OWN_FUNCTION = re.compile(r"^pub extern \"C\" fn (\w+)\((.*?)\) -> u32$", re.MULTILINE | re.DOTALL)

# The types of C for those of the code.
TYPES = {"u8": "uint8_t", "u16": "uint16_t", "u32": "uint32_t", "u64": "uint64_t", "usize": "size_t", "bool": "bool", "*mut u8": "void *"}


def capitals(name):
    """Returns a name in capitals, with `_` between its words."""
    return re.sub(r"(?<=[a-z0-9])(?=[A-Z])", "_", name).upper()


class Headers:
    """The headers of a library, with the folders of its crates, the beginning of its names, and which enumeration has the numbers of which definition."""

    def __init__(self, crates, prefix, enums):
        folders = [pathlib.Path("crates", it) for it in crates]
        self.folder = folders[0] / "include"
        self.prefix = prefix
        self.enums = enums
        texts = [it.read_text() for it in sorted(self.folder.glob("*.h")) if it.name not in OVER_OTHERS]
        self.text = re.sub(r"/\*.*?\*/", "", "\n".join(texts), flags=re.DOTALL)
        self.specs = "\n".join(re.sub(r"--.*", "", it.read_text()) for folder in folders for it in sorted(folder.glob("specs/*.antt")))
        self.code = "\n".join(it.read_text() for folder in folders for it in sorted(folder.glob("src/**/*.rt")))

    # ---- numbers

    def numbers(self):
        """Returns the names and numbers of each enumeration."""
        return {name: dict(numbered(inside)) for name, inside in ENUM.findall(self.text)}

    def name_of(self, definition, case):
        """Returns what the header calls a case of a definition."""
        words = capitals("_".join(re.findall(r"(?:\w+\.)?(\w+)", case))).removeprefix("OK_") if definition else capitals(case)
        found = OTHER_NAMES.get(f"{definition} {words}") or OTHER_NAMES.get(words) or words
        return self.prefix + found

    def cases(self):
        """Returns the names and numbers that the definitions have, by the enumeration to which they belong, each with where it is."""
        constants = dict(NUMBER.findall(self.specs))
        for name, number in constants.items():
            stem, _, kind = name.rpartition("_")
            if name == "library_version":
                continue
            # (`no_mode` and `bad_mode` are codes)
            is_kind = kind in self.enums and stem not in ("no", "bad")
            yield self.enums[kind if is_kind else "code"], self.name_of("", stem if is_kind else name), int(number), name
        for definition, case, value in CASE.findall(self.specs):
            number = constants.get(value, value)
            if number.isdigit():
                yield self.enums["code"], self.name_of(definition, told(case)), int(number), f"{definition} {case}"
        for kind, values in VALUES.findall(self.specs):
            for number, value in VALUE.findall(values):
                yield self.enums[kind], self.name_of("", value), int(number), f"{kind}_at {number}"

    def wrong_numbers(self):
        """Returns what is wrong with the numbers."""
        numbers, defined = self.numbers(), {}
        for enum, name, number, where in self.cases():
            defined.setdefault(enum, set()).add(name)
            found = numbers.get(enum, {}).get(name)
            if found is None:
                yield f"enum {enum} has no {name}, and by {where} it is {number}"
            elif found != number:
                yield f"{name} is {found}, and by {where} it is {number}"
        for enum, named in numbers.items():
            yield from (f"{name} of enum {enum} is in no definition" for name in named if name not in defined.get(enum, ()))
            twice = [name for name, number in named.items() if list(named.values()).count(number) > 1]
            if twice:
                yield f"enum {enum} has the same number for {' and '.join(twice)}"
        for name, number in VERSION.findall(self.text):
            if dict(NUMBER.findall(self.specs)).get("library_version") != number:
                yield f"{name} is {number}, and by library_version it isn't"
        texts, codes = [int(it) for it in TEXT.findall(self.specs)], numbers[self.enums["code"]].values()
        if texts:
            yield from (f"the code {it} has no text" for it in sorted(set(codes) - set(texts)))
            yield from (f"the text of {it} has no code" for it in sorted(set(texts) - set(codes)))

    # ---- types

    def own_structs(self):
        """Returns the names and fields of the code's structures, by the names that their comments say the header has for them."""
        found = {name: (comment, inside) for comment, name, inside in OWN_STRUCT.findall(self.code)}
        for name, (comment, inside) in found.items():
            names = re.findall(r"`struct (\w+)` of `gaz_\w+\.h`", comment)
            yield name, names[0] if names else None, list(self.own_fields(inside, found))

    def own_fields(self, inside, structs):
        """Returns the types and names of the fields of a structure, with those of structures inside it."""
        for name, kind in re.findall(r"^    (?:pub )?(\w+): (.*),$", re.sub(r"^ +(?:///|ghost ).*\n", "", inside, flags=re.MULTILINE), re.MULTILINE):
            if kind in structs:
                yield from self.own_fields(structs[kind][1], structs)
            elif kind != "Global":
                yield f"{TYPES.get(kind, kind)} {name}".replace("* ", "*")

    def own_parameters(self, inside, names):
        """Returns the types of a function's parameters, as C has them."""
        for kind in re.findall(r"\w+: ([^,]+)", inside):
            mutable, kind = kind.startswith("&mut "), kind.removeprefix("&mut ").removeprefix("&")
            inner = kind.strip("[]")
            known = TYPES.get(inner) or f"struct {names.get(inner, inner)}"
            if kind != inner:
                yield from (f"{'' if mutable else 'const '}{known} *", "size_t")
            elif kind != "Global":
                yield f"{known} *" if mutable else known

    def wrong_types(self):
        """Returns what is wrong with the structures and functions."""
        own, names = {}, {}
        for name, c_name, fields in self.own_structs():
            if c_name:
                own[c_name], names[name] = fields, c_name
        structs = {name: [" ".join(it.split()) for it in inside.split(";") if it.strip()] for name, inside in STRUCT.findall(self.text)}
        yield from differing("struct", structs, own)
        functions = {name: [type_of(it) for it in inside.split(",") if it != "void"] for name, inside in FUNCTION.findall(self.text)}
        yield from differing("function", functions, {name: list(self.own_parameters(it, names)) for name, it in OWN_FUNCTION.findall(self.code)})


def told(case):
    """Returns a case without the names of its arguments: what a value is called, and in brackets of which values."""
    return re.sub(r"\b(?:_|[a-z]\w*)\b(?!\.)", lambda it: it[0] if it[0] in ("false", "true") or it[0] == case else "", case)


def numbered(inside):
    """Returns the names and numbers of an enumeration. A name without a number has the next one."""
    at = 0
    for name, number in re.findall(r"(\w+)(?: = (\d+))?", inside):
        at = int(number) if number else at
        yield name, at
        at += 1


def type_of(parameter):
    """Returns the type of a parameter, without its name."""
    kind, pointer, _ = re.fullmatch(r"\s*(.*?)\s*(\*?)(\w+)\s*", parameter, re.DOTALL).groups()
    return f"{kind} *" if pointer else kind


def differing(what, declared, own):
    """Returns which structures or functions differ in what they have."""
    for name in sorted({*declared, *own}):
        if declared.get(name) != own.get(name):
            here, there = (", ".join(it[name]) if name in it else "not there" for it in (declared, own))
            yield f"{what} {name}: {here}; in the code: {there}"


HEADERS = [
    Headers(["mdl_c", "mdl_c_calls", "mdl_c_parts"], "GAZ_", {it: f"gaz_{it}" for it in ("mode", "duration", "namespace", "status", "code")}),
    Headers(["mdl_text"], "GAZ_TEXT_", {it: f"gaz_text_{it}" for it in ("kind", "code")}),
]

if __name__ == "__main__":
    for headers in HEADERS:
        for wrong in [*headers.wrong_numbers(), *headers.wrong_types()]:
            print(f"{headers.folder}: {wrong}")

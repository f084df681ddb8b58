"""Prints which public calls may lack memory although they mustn't, or say that they don't, one line for each.

A call may lack memory if its error has a case for that, unless its contract rules it out: by the causes of a call of `LockSpace`, by a clause that decides
all refusals, none of which is that, or by a law about what the call does (`LAWS`). A call of a session is ruled by the call of `LockSpace` as well. The
calls of `FRUGAL` take no memory by the rules of the lock table, whatever their texts say: their contracts have to rule it out. Of the crates in
`FRUGAL_CRATES` only some calls may take memory. Each call whose text says `It takes no memory.` has to be such a call. docs/LIBRARY.md says in which cases
the calls of `FRUGAL_IN_PART` take none. (The pages of the inner crates say for all their calls at once which take memory.)

Usage, at the top of the repository: python3 make/docs/memory.py
"""

import pathlib
import re

import made

PAGE = pathlib.Path("docs/LIBRARY.md")
CALLS = pathlib.Path("crates/mdl_calls/specs/calls")
SHARED_CAUSES = pathlib.Path("crates/mdl_calls/specs/CallSpec.antt")
INNER_CRATES = {"mdl_steps", "mdl_visits"}

# What takes no memory. Whoever holds a lock can give it back, also if memory has run out: by a release, a downgrade, a step back to a savepoint, or the
# end of a statement or transaction. What a later grant needs was taken when its wait began. So a wait can end, be settled, and be asked for, and a
# session can open and close. Looking at a word of the shared table, or at what a cache has, needs nothing either.
FRUGAL = """
    Book::admit Book::admit_at Book::cancel Book::remove Book::set_mode Book::can_grant Book::next_grantable Book::next_grantable_at Book::needs
    victim DefCache::look
    LockSpace::unpin LockSpace::release LockSpace::downgrade LockSpace::end_wait LockSpace::poll_wait LockSpace::settle_timeout LockSpace::kill
    LockSpace::wait_of
    Session::open Session::close Session::release_fast Session::reschedule Session::version Session::owes
    Context::savepoint Context::downgrade Context::release Context::release_name Context::rollback_to Context::end_statement Context::end_transaction
    Context::make_explicit Context::make_transactional
""".split()

# What takes none in one case, and the words by which the page says so.
FRUGAL_IN_PART = {
    "LockSpace::change_definition": "nor does dropping a definition",
    "Context::give_up": "`give_up` only if the wait was for an upgrade and is granted already",
    "Session::try_fast": "After `reserve_tickets` they take no memory.",
}

# The crates whose calls take none, with those of their calls that do: they make a key, which has names.
FRUGAL_CRATES = {
    "mdl_key": {"Key::schema", "Key::table", "Key::user_lock", "Key::schema_utf8", "Key::table_utf8", "Key::user_lock_utf8"},
    "mdl_word": set(),
}

# The laws by which what a call does takes no memory.
LAWS = {"Context::downgrade": "endings_take_no_memory"}

# The sentence in the text of a call that says that it takes no memory.
SAYS_NONE = re.compile(r"\b(?:It|This) takes no memory\.")

# The case of an error that says that memory ran out.
CASE = re.compile(r"OutOfMemory|\bMemory\b")

# The error of a `Result`.
ERROR = re.compile(r"-> Result<[^;{]*?, (\w+)(?:<\w+>)?>(?:\s|$)")

# A clause, and the beginning of one that says exactly when a call is refused, and why.
CLAUSE = re.compile(r"ensures (?:(\w+) )?\{ (.*?) \}$", re.MULTILINE)
DECIDES = re.compile(r"RefusesJust |result ≡ |IfErr result \(λ (\w+)\. \(\1 ≡ \w+\)")


def definitions():
    """Returns the text of each definition of the specs, by its name."""
    found = {}
    for file in sorted(pathlib.Path("crates").glob("*/specs/*.antt")):
        for block in file.read_text().split("\n\n"):
            for name in set(re.findall(r"^(\w+) ", block, re.MULTILINE)):
                found[name] = found.get(name, "") + block
    return found


def errors():
    """Returns the text of each enum and struct of the code, by its name."""
    text = "\n".join(it.read_text() for it in sorted(pathlib.Path("crates").glob("*/src/**/*.rt")))
    return {it[1]: it[0] for it in re.finditer(r"^pub (?:enum|struct) (\w+).*?(?:;|^\})$", text, re.MULTILINE | re.DOTALL)}


def is_ruled_out_by_causes(name):
    """Whether the call of `LockSpace` with this name is never refused because memory runs out: its causes have equations, none of which allows that."""
    path = CALLS / f"{name.title().replace('_', '')}.antt"
    if not path.exists():
        return False
    spec = path.read_text()
    cause = re.search(r"\bcause = (\w+)", spec)
    if not cause:
        return True  # by default a call has no cause
    equations = re.findall(rf"^{cause[1]} (.*) = (.*)$", spec + SHARED_CAUSES.read_text(), re.MULTILINE)
    return bool(equations) and all(cause == "⊥" for error, cause in equations if "OutOfMemory" in error or "_" in error.split())


class Rules:
    """What the definitions and errors of a checkout say of memory."""

    def __init__(self):
        self.defined, self.known = definitions(), errors()

    def may_be_for_memory(self, error):
        """Whether an error may say that memory ran out, itself or by an error that it holds. One from outside this repository may."""
        text = self.known.get(error, "OutOfMemory")
        held = set(re.findall(r"\((\w+Error)\b", text)) - {error}
        return bool(CASE.search(text)) or any(map(self.may_be_for_memory, held))

    def with_faults(self, clause):
        """Returns the text of a clause, and of the definitions of faults that it uses, directly or not."""
        texts, named = clause, set()
        while more := set(re.findall(r"\b\w+_fault\b", texts)) - named:
            named |= more
            texts += "".join(self.defined.get(it, "OutOfMemory") for it in more)
        return texts

    def rules_out(self, clause):
        """Whether a clause decides all refusals, and none of them says that memory ran out."""
        return DECIDES.match(clause) and not CASE.search(self.with_faults(clause))

    def is_ruled_out_by_law(self, name, clauses):
        """Whether a law of `LAWS` is about what the call does, itself or by a definition that it cites."""
        promised = self.defined.get("".join(it.title() for it in LAWS.get(name, "").split("_")), "")
        cited = "".join(self.defined.get(it, "") for it in set(re.findall(r"\b[A-Z]\w+", promised)))
        program = re.search(r"Runs \S+ \S+ \((\w+) ", clauses.get("run", ""))
        return bool(program) and re.search(rf"\b{program[1]}\b", promised + cited) is not None

    def may_lack(self, name, head):
        """Whether a call may be refused because memory runs out, by its name and its head with the contract."""
        head = re.sub(r"\n\s*(?!\s|ensures|requires)", " ", head.removesuffix("{").rstrip())
        error = ERROR.search(head)
        if not error or not self.may_be_for_memory(error[1]):
            return False
        owner, _, own = name.rpartition("::")
        if owner in ("LockSpace", "Session") and is_ruled_out_by_causes(own):
            return False
        clauses = dict(CLAUSE.findall(head))
        return not any(map(self.rules_out, clauses.values())) and not self.is_ruled_out_by_law(name, clauses)


def wrong(public, rules):
    """Returns what is wrong, a text for each thing."""
    may_lack = {call.name: rules.may_lack(call.name, call.head) for call in public}
    for name in FRUGAL:
        if may_lack.get(name, True):
            yield f"{name}: by the rules it takes no memory, and there is no such call, or its contract allows a refusal for want of it"
    for name, said in FRUGAL_IN_PART.items():
        if said not in " ".join(PAGE.read_text().split()):
            yield f"{PAGE}: by the rules {name} takes no memory in one case, and the page doesn't say: {said}"
    for call in public:
        if not may_lack[call.name]:
            continue
        if call.crate in FRUGAL_CRATES and call.name not in FRUGAL_CRATES[call.crate]:
            yield f"{call.name}: by the rules it takes no memory, and by its contract it may be refused for want of it"
        if call.crate not in INNER_CRATES and SAYS_NONE.search(" ".join(call.text.split())):
            yield f"{call.name}: by its text it takes no memory, and by its contract it may be refused for want of it"


def main():
    """Prints what is wrong."""
    public = [call for crate in made.libraries() for call in made.calls(crate)]
    for line in wrong(public, Rules()):
        print(line)


if __name__ == "__main__":
    main()

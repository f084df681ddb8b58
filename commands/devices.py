"""Gives mdlsim and mdlview streams that fail: they have to report `fault: device`, end with status 3, and leave no more than a beginning of their
answers. For a stream that doesn't end they have to report that memory ran out. Noise has to be refused."""

import contextlib
import dataclasses
import errno
import os
import pathlib
import random
import resource
import signal
import socket
import subprocess
import tempfile

# Says that something isn't tried.
SKIPPED = pathlib.Path(__file__).resolve().parent.with_name("make") / "skipped.sh"

FAULT = (3, b"fault: device\n")
MEMORY = (3, b"fault: memory\n")

# The numbers of bytes after which the reader of a pipe goes away.
TAKEN = [0, 1, 7, 4095, 4096, 4097, 65535, 65536, 65537, 100_000]

MEGABYTE = 1_000_000

# The words whose input may be 100 megabytes of noise.
READ_MUCH = {"lock", "replay", "why --json", "--script"}


@dataclasses.dataclass(frozen=True)
class Case:
    """A run of a program: its words, its input, and its answer; an input that has more answers than a pipe has room for; an input that is refused,
    and what is reported of it. `wanted_after` gives the status, the report and the first answers for an input that was cut off there, if the program
    answers line by line. Without an input the program reads nothing."""

    words: str
    given: bytes | None
    answer: bytes
    long: bytes | None = None
    bad: bytes | None = None
    refusal: bytes | None = None
    by_lines: bool = False

    def refuses(self, found):
        """Whether a run refused its input, with a reason."""
        return found[0] == 1 and (found[1] == self.refusal if self.refusal else found[1].startswith((b"line ", b"no table ")))

    def wanted_after(self, count):
        """Returns the status, standard error, and first answers for an input of so many bytes: those to its lines, unless the last one is cut short."""
        lines = self.given[:count].split(b"\n")
        if lines[-1] and lines[-1] not in self.given.split(b"\n"):
            return 1, b"line %d: BadWord\n" % len(lines), b""
        return 0, b"", b"".join(self.answer.splitlines(keepends=True)[: len([it for it in lines if it])])


# ---- what the programs are run on

# What is explained of a line.
TIMED_OUT = b"line 1, session 1:\n  nothing is locked; if the session waits, its wait times out\n"

# How often a line is repeated for a long answer.
MANY = 20_000


def case_of_script(words, script, answer, line):
    """A case of mdlsim, with an answer for each line. A line that is cut short is refused as a `BadWord`."""
    return Case(words, script, answer, line * MANY, b"x\n" + script, b"line 1: BadSession\n", by_lines=True)


def cases_of_mdlsim(program):
    """What mdlsim is run on."""
    matrices = subprocess.run([program, "matrix"], capture_output=True, check=True).stdout
    version = subprocess.run([program, "--version"], capture_output=True, check=True).stdout
    return [
        case_of_script(
            "lock", b"1 X\n2 X\n1 RELEASE\n2 X\n", b"1 GRANTED X\n2 WAITS X\n1 RELEASED X\n2 GRANTED X\n2 REFUSED\n", b"1 TIMEOUT\n"
        ),
        case_of_script("lock --scoped", b"1 X\n1 RELEASE\n1 TIMEOUT\n", b"1 GRANTED X\n1 RELEASED X\n1 REFUSED\n", b"1 RELEASE\n"),
        case_of_script(
            "replay",
            b"1 CREATE TABLE t x\n1 BEGIN\n1 SELECT t\n2 DROP TABLE t\n",
            b"1 1 OK\n2 1 OK\n3 1 OK test.t@1(x)\n4 2 WAIT TABLE test.t X\nEND 2 WAIT\n",
            b"1 SELECT t\n",
        ),
        case_of_script(
            "run",
            b"1 CREATE TABLE t x\n1 SELECT t\n",
            b"1 1 OK\n2 1 OK test.t@1(x)\nFINAL SCHEMA test@1\nFINAL TABLE test.t@1(x)\n",
            b"1 SELECT t\n",
        ),
        Case("explain", b"1 TIMEOUT\n", TIMED_OUT, b"1 TIMEOUT\n" * MANY, b"1 TIMEOUT 2\n", b"line 1: BadWord\n"),
        Case("matrix", None, matrices),
        Case("--version", None, version),
    ]


ROWS = b"""OBJECT_TYPE\tOBJECT_SCHEMA\tOBJECT_NAME\tLOCK_TYPE\tLOCK_DURATION\tLOCK_STATUS\tOWNER_THREAD_ID
TABLE\tshop\tOrders-2\tSHARED_READ\tTRANSACTION\tGRANTED\t48213
GLOBAL\tNULL\tNULL\tINTENTION_EXCLUSIVE\tSTATEMENT\tGRANTED\t48300
TABLE\tshop\tOrders-2\tEXCLUSIVE\tTRANSACTION\tPENDING\t48300
"""
SCRIPT = b"1 CREATE TABLE t x\n1 BEGIN\n1 SELECT t\n2 DROP TABLE t\n"

# Rows and a script with more locks and waits than a pipe has room for answers of.
READERS = range(1, 501)
MANY_ROWS = ROWS.splitlines(keepends=True)[0] + b"".join(
    b"TABLE\ts\tt\t%s\tTRANSACTION\t%s\t%d\n" % (mode, status, thread)
    for thread in READERS
    for mode, status in [(b"SHARED_READ", b"GRANTED") if thread % 2 else (b"EXCLUSIVE", b"PENDING")]
)
MANY_LINES = SCRIPT[:19] + b"".join(b"%d BEGIN\n%d SELECT t\n%d COMMIT\n" % (who, who, who) for _ in range(20) for who in range(1, 65))
MANY_TABLES = b"".join(b"1 CREATE TABLE t%d x\n" % table for table in range(200)) + b"".join(b"%d BEGIN\n" % who for who in range(1, 60)) + b"".join(
    b"%d SELECT t%d\n" % (who, table) for who in range(1, 60) for table in range(100)
)

# The words of mdlview that read rows, and those that read a script.
ROW_WORDS = ["", "why --json", "locks", "locks --json", "waits", "waits --json", "graph"]
SCRIPT_WORDS = ["--script", "locks --script", "waits --script --json", "graph --script --at 4", "timeline --script", "timeline --script --html"]
LONG_INPUTS = {"waits": MANY_ROWS, "waits --json": MANY_ROWS, "graph": MANY_ROWS, "locks --script": MANY_TABLES, "timeline --script": MANY_LINES}


def cases_of_mdlview(program):
    """What mdlview is run on, with the answers that it writes to a file."""
    asked = [(words, ROWS) for words in ROW_WORDS] + [(words, SCRIPT) for words in SCRIPT_WORDS]
    asked += [(words, None) for words in ("query", "query --server mariadb", "--version", "--help")]
    for words, given in asked:
        answer = subprocess.run([program, *words.split()], input=given or b"", capture_output=True, check=True).stdout
        # A line without a separator above a table is passed over. One with a tab begins another table.
        above = b"x\ty\n" if given is ROWS else b"x\n"
        yield Case(words, given, answer, LONG_INPUTS.get(words), given and above + given)


def begin(program, words, before=None, **streams):
    """Starts a run on these streams. A stream that isn't given is closed."""
    closed = [at for at, it in enumerate(("stdin", "stdout", "stderr")) if it not in streams]
    return subprocess.Popen([program, *words.split()], preexec_fn=lambda: [before and before(), *(os.close(it) for it in closed)], **streams)


def end(ran):
    """Waits until a run is over, and returns its status and standard error."""
    with contextlib.closing(ran.stderr):
        told = ran.stderr.read()
    return ran.wait(timeout=60), told


def run_on(program, words, stdin, stdout=None, before=None):
    """Runs the program on a stream, and returns its status, its standard error, and what it wrote, which is b"" if `stdout` is given."""
    with contextlib.ExitStack() as files:
        written = stdout or files.enter_context(tempfile.TemporaryFile())
        found = end(begin(program, words, before, stdin=stdin, stdout=written, stderr=subprocess.PIPE))
        if stdout:
            return (*found, b"")
        written.seek(0)
        return (*found, written.read())


@contextlib.contextmanager
def file_of(script):
    """A file that has a script to be read."""
    with tempfile.TemporaryFile() as file:
        file.write(script)
        file.seek(0)
        yield file


# ---- readers


def broken_reader(script):
    """A stream that gives these bytes, then fails once, and is then at its end: the other side of a socket went away and hadn't read all."""
    ours, theirs = socket.socketpair()
    theirs.sendall(b"unread")
    ours.sendall(script)
    ours.close()
    return theirs


def fails_as_it_ought():
    """Whether such a stream fails on this machine."""
    with broken_reader(b"x") as stream:
        try:
            return [stream.recv(2), stream.recv(2)] == []
        except OSError as error:
            return error.errno == errno.ECONNRESET


def wrong_readers(program, cases):
    """An input that fails after any number of bytes is reported, and nothing is written."""
    if not fails_as_it_ought():
        subprocess.run(["sh", SKIPPED, f"{pathlib.Path(program).name} with a reader that fails", "no socket fails on this machine"], check=True)
        return
    for case in readers(cases):
        for count in range(0, len(case.given) + 1, 1 if case.by_lines else 7):
            with broken_reader(case.given[:count]) as stream:
                found = run_on(program, case.words, stream)
            if found != (*FAULT, b""):
                yield f"{case.words}, a reader that fails after {count} bytes", found


def readers(cases):
    """The cases that read an input."""
    return [case for case in cases if case.given is not None]


def piped(program, words, pieces):
    """Runs the program on a pipe that gets these pieces, and returns its status, standard error and standard output."""
    ran = begin(program, words, stdin=subprocess.PIPE, stdout=subprocess.PIPE, stderr=subprocess.PIPE)
    for piece in pieces:
        ran.stdin.write(piece)
        ran.stdin.flush()
    written, told = ran.communicate(timeout=60)
    return ran.returncode, told, written


def wrong_ends(program, cases):
    """A script that ends after any number of bytes is treated as a shorter one, and an input may come byte after byte."""
    for case in readers(cases):
        for count in range(len(case.given) + 1) if case.by_lines else ():
            status, told, first = case.wanted_after(count)
            found = piped(program, case.words, [case.given[:count]])
            if found[:2] != (status, told) or not found[2].startswith(first) or (status and found[2]):
                yield f"{case.words}, a script that ends after {count} bytes", found
        found = piped(program, case.words, [bytes([it]) for it in case.given])
        if found != (0, b"", case.answer):
            yield f"{case.words}, an input that comes byte after byte", found


# Few and many bytes of memory.
LITTLE, MUCH = 2**26, 2**30


def limit_memory(count):
    """Limits a program's memory to so many bytes."""
    resource.setrlimit(resource.RLIMIT_AS, (count, count))


def wrong_endless(program, cases):
    """A stream without an end is read until memory runs out, and that is reported."""
    for case in readers(cases):
        with open("/dev/zero", "rb") as stdin:
            found = run_on(program, case.words, stdin, before=lambda: limit_memory(LITTLE))
        if found != (*MEMORY, b""):
            yield f"{case.words} < /dev/zero", found


# ---- noise


def noises(size, seed):
    """Inputs of so many bytes that are no rows and no script, by name."""
    dice = random.Random(seed)
    noise = dice.randbytes(size)
    yield "noise", noise
    yield "NULs", bytes(size)
    yield "noise behind rows", (ROWS + noise)[:size]
    yield "noise behind JSON", (b'[{"OBJECT_TYPE": "TABLE"}, ' + noise)[:size]
    yield "noise behind a script", (SCRIPT + noise)[:size]
    yield "rows with NULs", (ROWS + b"TABLE\ts\tt\0\tSHARED_READ\n" * (size // 20))[:size]
    yield "tabs", b"\t" * size
    yield "one line", b"x" * size


def wrong_noise(program, cases, size, seed):
    """Noise is refused, or memory runs out. Nothing is written then."""
    for name, noise in noises(size, seed):
        for case in readers(cases):
            for most in (LITTLE, MUCH):
                with file_of(noise) as stdin:
                    found = run_on(program, case.words, stdin, before=lambda most=most: limit_memory(most))
                if found[2] or not (found[:2] == MEMORY or (found[0] == 1 and found[1].startswith((b"line ", b"no table ", b"no rows")) and len(found[1]) < 10_000)):
                    yield f"{case.words}, {size} bytes of {name} (seed {seed}), {most} bytes of memory", (*found[:1], found[1][:200], found[2][:200])


# ---- writers


def at_most(count):
    """Limits files to this number of bytes. A write beyond that fails."""
    signal.signal(signal.SIGXFSZ, signal.SIG_IGN)
    resource.setrlimit(resource.RLIMIT_FSIZE, (count, count))


def wrong_files(program, cases):
    """A file that is full after any number of bytes is reported, and has a beginning of the answers."""
    for case in cases:
        for count in range(0, len(case.answer) + 2, 1 + len(case.answer) // 100):
            with file_of(case.given or b"") as stdin, tempfile.TemporaryFile() as file:
                found = run_on(program, case.words, stdin, file, lambda count=count: at_most(count))
                file.seek(0)
                written = file.read()
            wanted = FAULT if count < len(case.answer) else (0, b"")
            if (*found[:2], written) != (*wanted, case.answer[:count]):
                yield f"{case.words}, a file of {count} bytes", found


def left_after(program, case, count):
    """Runs the program, reads `count` bytes of its answers, and closes the pipe. Returns its status, its standard error, and what was read."""
    with file_of(case.long) as stdin:
        ran = begin(program, case.words, stdin=stdin, stdout=subprocess.PIPE, stderr=subprocess.PIPE)
        with contextlib.closing(ran.stdout):
            read = ran.stdout.read(count) if count else b""
        return (*end(ran), read)


def wrong_pipes(program, cases):
    """A reader of the answers that goes away is reported, whenever it does, and has read a beginning of them."""
    for case in cases:
        if case.long is None:
            continue
        with file_of(case.long) as stdin:
            answers = run_on(program, case.words, stdin)[2]
        if len(answers) < 2 * TAKEN[-1]:
            yield f"{case.words}, a long answer", len(answers)
        for count in TAKEN:
            found = left_after(program, case, count)
            if found != (*FAULT, answers[:count]) or len(found[2]) != count:
                yield f"{case.words}, a pipe that is left after {count} bytes", found[:2]


# ---- streams that are no use from the start


@contextlib.contextmanager
def useless():
    """Streams that can't be read, and streams that can't be written, by name."""
    empty, filling = os.pipe2(os.O_NONBLOCK)
    draining, full = os.pipe2(os.O_NONBLOCK)
    with contextlib.suppress(BlockingIOError):
        while os.write(full, b"x" * 4096):
            pass
    unreadable = {"a folder": os.open("/", os.O_RDONLY), "one for writing": os.open("/dev/null", os.O_WRONLY), "one that has nothing yet": empty}
    unwritable = {"a full device": os.open("/dev/full", os.O_WRONLY), "one for reading": os.open("/dev/null", os.O_RDONLY), "one without room": full}
    yield unreadable, unwritable
    for stream in (filling, draining, *unreadable.values(), *unwritable.values()):
        os.close(stream)


def wrong_streams(program, cases, unreadable, unwritable):
    """A stream that can't be read, or can't be written, is reported."""
    for case in cases:
        for name, stream in unreadable.items() if case.given is not None else ():
            found = run_on(program, case.words, stream)
            if found != (*FAULT, b""):
                yield f"{case.words}, its input is {name}", found
        for name, stream in unwritable.items():
            for text, is_right in inputs(case):
                with file_of(text) as stdin:
                    found = run_on(program, case.words, stdin, stream)
                if not is_right(found):
                    yield f"{case.words}, its output is {name}", found


def inputs(case):
    """Inputs of a case, each with whether a run is right that can't write its output: one is answered, and one is refused, if the case has it."""
    yield case.given or b"", lambda found: found[:2] == FAULT
    if case.bad:
        yield case.bad, case.refuses


def wrong_when_closed(program, cases):
    """A closed stream counts as one that fails. If standard error is closed or full, only the status is checked."""
    for case in cases:
        if case.given is not None:
            found = end(begin(program, case.words, stdout=subprocess.DEVNULL, stderr=subprocess.PIPE))
            if found != FAULT:
                yield f"{case.words}, its input is closed", found
        for text, is_right in inputs(case):
            with file_of(text) as stdin:
                found = end(begin(program, case.words, stdin=stdin, stderr=subprocess.PIPE))
            if not is_right(found):
                yield f"{case.words}, its output is closed", found
            for streams in ([], ["stderr"]):
                with file_of(text) as stdin, open("/dev/full", "wb") as full:
                    status = begin(program, case.words, stdin=stdin, **dict.fromkeys(streams, full)).wait(timeout=60)
                if status != found[0]:
                    yield f"{case.words}, its output and its errors are lost", status
        status = begin(program, case.words).wait(timeout=60)
        if status != 3:
            yield f"{case.words}, all is closed", status
    status = begin(program, "no-such-word").wait(timeout=60)
    if status != 2:
        yield "words that are refused, all is closed", status


def wrong_devices(program, cases_of):
    """Returns the runs that go wrong, with what the program did. `cases_of` gives what it is run on."""
    program = str(pathlib.Path(program).resolve())
    cases = list(cases_of(program))
    for look in (wrong_readers, wrong_ends, wrong_endless, wrong_files, wrong_pipes, wrong_when_closed):
        yield from look(program, cases)
    with useless() as (unreadable, unwritable):
        yield from wrong_streams(program, cases, unreadable, unwritable)
    yield from wrong_noise(program, cases, MEGABYTE, 1)
    yield from wrong_noise(program, [case for case in cases if case.words in READ_MUCH], 100 * MEGABYTE, 1)

"""Runs a program on a script, and measures it.

The kernel's figure for the peak memory of a process includes that of the process that started it. So programs are started by a small process, this
file by itself: `python3 -I -S runner.py` reads a request from each line of standard input, and writes what became of it."""

import dataclasses
import json
import os
import pathlib
import resource
import subprocess
import sys
import tempfile
import threading


@dataclasses.dataclass(frozen=True)
class Seen:
    """The result of a run: its exit status, or minus the signal that ended it; its standard output and standard error; whether it was ended because it
    took too long; and its peak memory in bytes."""

    status: int
    written: bytes
    told: bytes
    is_late: bool
    memory: int


class Runner:
    """Runs a program, one run after the other."""

    def __init__(self, program):
        self.program = program
        self.room = tempfile.TemporaryDirectory()
        self.folder = pathlib.Path(self.room.name)
        words = [sys.executable, "-I", "-S", __file__, self.room.name]
        self.starter = subprocess.Popen(words, stdin=subprocess.PIPE, stdout=subprocess.PIPE, text=True)

    def __enter__(self):
        return self

    def __exit__(self, *_):
        self.starter.communicate()
        self.room.cleanup()

    def run(self, words, script, seconds, memory=None):
        """Runs the program with words on a script, for at most `seconds` seconds, and with at most `memory` bytes, if that is given."""
        self.folder.joinpath("given").write_bytes(script)
        request = {"words": [self.program, *words], "seconds": seconds, "memory": memory}
        print(json.dumps(request), file=self.starter.stdin, flush=True)
        became = json.loads(self.starter.stdout.readline())
        written, told = (self.folder.joinpath(it).read_bytes() for it in ("written", "told"))
        return Seen(written=written, told=told, **became)


def limit(memory):
    """Limits the memory of a process, if `memory` is given, with the stacks of its threads and all, and has it leave no core file if it fails."""
    resource.setrlimit(resource.RLIMIT_CORE, (0, 0))
    if memory:
        resource.setrlimit(resource.RLIMIT_AS, (memory, memory))


def became(folder, words, seconds, memory):
    """Runs a program on the script in the folder, and returns the result of the run."""
    with open(folder / "given", "rb") as given, open(folder / "written", "wb") as written, open(folder / "told", "wb") as told:
        ran = subprocess.Popen(words, stdin=given, stdout=written, stderr=told, preexec_fn=lambda: limit(memory))
        late = threading.Event()
        timer = threading.Timer(seconds, lambda: (late.set(), ran.kill()))
        timer.start()
        _, status, usage = os.wait4(ran.pid, 0)
        timer.cancel()
    ran.returncode = os.waitstatus_to_exitcode(status)
    return {"status": ran.returncode, "is_late": late.is_set(), "memory": usage.ru_maxrss * 1024}


def main(folder):
    """Does what the lines of standard input ask for."""
    for request in sys.stdin:
        print(json.dumps(became(pathlib.Path(folder), **json.loads(request))), flush=True)


if __name__ == "__main__":
    main(sys.argv[1])

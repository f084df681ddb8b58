"""What `mdlsim lock` ought to answer, by the matrices that `mdlsim matrix` prints, as plainly as can be."""

import subprocess


def matrices_of(program):
    """Returns for each kind of lock the sets of modes that clash with a mode, and of those that it waits behind."""
    printed = subprocess.run([program, "matrix"], capture_output=True, text=True, check=True).stdout
    found = {}
    for row in printed.splitlines():
        name, _, others = row.partition(": ")
        kind, matrix, mode = name.split(" ")
        found[kind.lower(), matrix, mode.encode()] = {it.encode() for it in others.split(" ")}
    return found


class Lock:
    """One lock: which session holds it in which mode, and which waits for which mode, in order of arrival."""

    def __init__(self, kind, matrices):
        self.kind = kind
        self.matrices = matrices
        self.granted = {}
        self.waiting = {}

    def can_have(self, session, mode):
        """Whether a session can be granted the lock in a mode now."""
        clashing = self.matrices[self.kind, "GRANTED", mode]
        before = self.matrices[self.kind, "WAITING", mode]
        return not any(it != session and held in clashing for it, held in self.granted.items()) and not any(
            it != session and pending in before for it, pending in self.waiting.items()
        )

    def ask(self, session, mode):
        """Requests the lock for a session, and returns the answer."""
        if session in self.granted or session in self.waiting:
            return [b"%d REFUSED" % session]
        if self.can_have(session, mode):
            self.granted[session] = mode
            return [b"%d GRANTED %s" % (session, mode)]
        self.waiting[session] = mode
        return [b"%d WAITS %s" % (session, mode)]

    def leave(self, session, those, told):
        """Releases a session's ticket or ends its wait, and returns the answers to it and to those that are granted then."""
        if session not in those:
            return [b"%d REFUSED" % session]
        answers = [b"%d %s %s" % (session, told, those.pop(session))]
        while True:
            first = next((it for it, mode in self.waiting.items() if self.can_have(it, mode)), None)
            if first is None:
                return answers
            self.granted[first] = self.waiting.pop(first)
            answers.append(b"%d GRANTED %s" % (first, self.granted[first]))

    def answer(self, line):
        """Returns the answers to a line."""
        (word,) = line.words
        if word == b"RELEASE":
            return self.leave(line.session, self.granted, b"RELEASED")
        if word == b"TIMEOUT":
            return self.leave(line.session, self.waiting, b"TIMEDOUT")
        return self.ask(line.session, word)


def answers_to(lines, kind, matrices):
    """Returns all answers to the lines of a script."""
    lock = Lock(kind, matrices)
    return b"".join(it + b"\n" for line in lines for it in lock.answer(line))

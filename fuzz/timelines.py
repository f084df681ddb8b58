"""Gives mdlview random scripts, and looks whether `mdlview timeline` draws them as a plain program does.

Usage, at the top of the repository: python3 fuzz/timelines.py [--seconds 60] [--scripts N] [--seed N] [--mdlsim PROGRAM] [PROGRAM]
It plays N scripts, or for so many seconds. PROGRAM is crates/mdlview/out/mdlview or another one; --mdlsim names the program that prints the matrices,
crates/mdlsim/out/mdlsim if none is named.

The plain program plays a script by plays.py, and draws what happens at its lines. It writes down who is in the way at the very moment when a wait
begins, before deadlocks are looked for, and which tickets are held after each answer. Of the library it takes nothing but the matrices. A script that is
drawn otherwise is kept in fuzz/out/.
"""

import argparse
import dataclasses
import math
import pathlib
import random
import subprocess
import sys
import time

import language
import locks
import plays
import scripts
from spaces import TIMEOUT, Space

PROGRAM = "crates/mdlview/out/mdlview"
MDLSIM = "crates/mdlsim/out/mdlsim"
KEPT = pathlib.Path(__file__).resolve().parent / "out"

# ---- what happens at each line


@dataclasses.dataclass(frozen=True)
class Event:
    """What happens to a statement, which sessions are in its way, if it begins to wait, and the tickets that are held right after it: of each the
    session, the mode and the lock."""

    line: int
    session: int
    statement: bytes
    answer: bytes
    fate: str
    in_the_way: tuple
    held: tuple


@dataclasses.dataclass(frozen=True)
class Moment:
    """What happens at a line."""

    line: int
    session: int
    events: tuple


class WatchedSpace(Space):
    """A space that notes who is in the way of a session at the moment when its wait begins."""

    def __init__(self, matrices, sessions):
        super().__init__(matrices, sessions)
        self.began = {}

    def wait(self, ticket):
        """Waits for a ticket."""
        held, pending = self.in_the_way(ticket.who, ticket.key, ticket.mode)
        self.began[ticket.who] = tuple(sorted({it.who for it in held + pending}))
        yield from super().wait(ticket)

    def tickets(self):
        """Returns all tickets that are held, place by place."""
        for key, place in self.places.items():
            for it in place.granted:
                yield it.who, it.mode, plays.NAMES[key[0]] % key[1:]


# What is added to an error's number.
WORDS = {b"1213": b", victim", b"3058": b", victim", b"1205": b", timeout", b"1317": b", killed"}

FATES = {b"WAIT": "Waits", b"OK": "Ends", b"ERR": "Fails", b"BUSY": "Busy"}


def event_of(space, answer, words):
    """Returns the event of an answer that was given just now."""
    line, session, told = answer.split(b" ", 2)
    fate = FATES[told.split(b" ")[0]]
    way = space.began.pop(int(session)) if fate == "Waits" else ()
    if fate == "Fails":
        told += WORDS.get(told.split(b" ")[1], b"")
    return Event(int(line), int(session), words, told, fate, way, tuple(space.tickets()))


def asked(space, session, line):
    """Gives a session the statement of a line, and returns the answer."""
    if session.who not in space.waits:
        session.running, session.line = session.run(line.words), line.number
        return plays.go_on(session)
    if line.words == (b"TIMEOUT",):
        space.settle(session.who, TIMEOUT)
        return b"%d %d OK" % (line.number, session.who)
    return b"%d %d BUSY" % (line.number, session.who)


def moments_of(lines, matrices):
    """Returns what happens at these lines."""
    space = WatchedSpace(matrices, {it.session for it in lines})
    space.place(plays.schema(b"test"))
    space.change(plays.schema(b"test"), "schema")
    sessions = {it: plays.Session(it, space) for it in space.held}
    moments = []
    for line in lines:
        events = [event_of(space, asked(space, sessions[line.session], line), b" ".join(line.words))]
        while space.settled:
            events.append(event_of(space, plays.go_on(sessions[min(space.settled)]), b""))
        moments.append(Moment(line.number, line.session, tuple(events)))
    return moments


# ---- the constants

LEFT = 88  # the first column
STEP = 28  # from a column to the next, at least
GAP = 14  # between two boxes of a row, at least
TOP = 28  # the first row
SPACE = 16  # between two rows
BOX = 64  # the height of a box
TRACK = 16  # the height of a track, in which the bars of held locks are
FIRST_ARROW = 8  # from the left side of a box to its first arrow
NEXT_ARROW = 6  # from an arrow to the next
BYTE = 7  # the width of a byte
MARGIN = 14  # how much wider a box is than its widest text
LABEL = 6  # the width of a byte in the bar of a held lock, and the room that is left free there
STATEMENT = 18  # a statement of more bytes is broken, at the last space up to there
ANSWER = 15  # and so is an answer of more bytes
CUT = 32  # a text of more bytes ends with ..
LEAST = 600  # the least width of the picture
OPEN = 98  # the room after the end of the waits that last
BOTTOM = 24  # below the last row

# Each class: its style in light mode, and what differs in dark mode.
STYLES = {
    "ground": ("fill:#fff", "fill:#0d1117"),
    "lane": ("fill:#f1f3f5", "fill:#1a1f26"),
    "guide": ("stroke:#d0d7de", "stroke:#3d444d"),
    "number": ("fill:#59636e;font-size:11px", "fill:#9198a1"),
    "words": ("fill:#1f2328", "fill:#e6edf3"),
    "said": ("fill:#1f2328;font-weight:600", "fill:#e6edf3"),
    "done": ("fill:#fff;stroke:#6e7781", "fill:#0d1117;stroke:#818b98"),
    "waiting": ("fill:#fff;stroke:#9a6700", "fill:#0d1117;stroke:#d29922"),
    "failed": ("fill:#fff;stroke:#d1242f;stroke-width:3;stroke-dasharray:6 3", "fill:#0d1117;stroke:#f85149"),
    "refused": ("fill:#fff;stroke:#6e7781;stroke-dasharray:2 2", "fill:#0d1117;stroke:#818b98"),
    "bar": ("fill:url(#hatch);stroke:#9a6700", "stroke:#d29922"),
    "stripes": ("stroke:#9a6700;stroke-width:2", "stroke:#d29922"),
    "held": ("fill:#dafbe1;stroke:#1a7f37", "fill:#12261e;stroke:#3fb950"),
    "mode": ("fill:#1f2328;font-size:10px", "fill:#e6edf3"),
    "arrow": ("stroke:#0969da;stroke-width:2;marker-end:url(#head)", "stroke:#58a6ff"),
    "head": ("fill:#0969da", "fill:#58a6ff"),
}


def rules(at):
    """The rules of all classes, for light mode or for dark mode."""
    return "".join(f".{name}{{{styles[at]}}}" for name, styles in STYLES.items())


CSS = "text{font:12px Menlo,Consolas,monospace}" + rules(0) + "@media (prefers-color-scheme:dark){" + rules(1) + "}"


# ---- texts


def cut(text):
    """A text, cut if it is too long."""
    return text if len(text) <= CUT else text[: CUT - 2] + b".."


def break_at(most, text):
    """Where a text is broken: at the last space among its first bytes, or nowhere."""
    if len(text) <= most:
        return len(text)
    found = len(text)
    for at, it in enumerate(text[: most + 1]):
        if it == 32:
            found = at
    return found


def broken(most, text):
    """The lines of a text: two, one, or none if it is empty."""
    at = break_at(most, text)
    return [cut(it) for it in (text[:at], text[at + 1 :]) if it]


# ---- SVG


def escaped(text):
    """A text in XML."""
    return "".join({38: "&amp;", 60: "&lt;", 62: "&gt;", 34: "&quot;"}.get(it, chr(it) if 32 <= it < 127 else "?") for it in text)


def opened(tag, attributes):
    """The beginning of an element."""
    return f"<{tag}" + "".join(f' {name.rstrip("_").replace("_", "-")}="{value}"' for name, value in attributes.items()) + ">"


def shape(tag, text=b"", **attributes):
    """An element that has only a text."""
    return opened(tag, attributes) + escaped(text) + f"</{tag}>\n"


def group(tag, shapes, **attributes):
    """An element around others."""
    return opened(tag, attributes) + "".join(shapes) + f"</{tag}>\n"


# ---- the layout


class Box:
    """A box: its event, the line of its moment, its left side, and where the next box may begin: behind its arrows."""

    def __init__(self, event, during, x):
        self.event, self.during, self.x = event, during, x
        self.said = broken(STATEMENT, event.statement)
        self.told = broken(ANSWER, event.answer)
        for_arrows = FIRST_ARROW + NEXT_ARROW * len(event.in_the_way)
        self.right = x + max(BYTE * max([0, *map(len, self.said + self.told)]) + MARGIN, for_arrows)
        self.next = x + for_arrows


@dataclasses.dataclass(eq=False)
class Bar:
    """The bar of a lock that is held: whose, in which mode, of which lock, the box where it begins, the one where it ends, if it does, and its track."""

    session: int
    mode: bytes
    lock: bytes
    start: Box
    end: Box | None = None
    track: int = 0


def bars_of_held(boxes_so_far):
    """Returns the bars of the locks that are held, in the order in which they begin. Intention locks aren't drawn."""
    found, now = [], {}
    for box in boxes_so_far:
        held = [it for it in box.event.held if it[1] != b"IX"]
        for lost in now.keys() - set(held):
            now.pop(lost).end = box
        for at, it in enumerate(held):
            if it not in now and it not in held[at + 1 :]:
                now[it] = Bar(*it, box)
                found.append(now[it])
    beside = {}
    for bar in found:
        others = [it for it in beside.get(bar.session, []) if it.end is None or bar.start.x < it.end.x]
        bar.track = 1 + max((it.track for it in others), default=-1)
        beside[bar.session] = [*others, bar]
    return found


class Layout:
    """The places of all that is drawn."""

    def __init__(self, moments):
        self.moments = moments
        self.columns, self.boxes = [], []
        free, least = {}, LEFT
        for moment in moments:
            least = max([least, *(free.get(it.session, LEFT) for it in moment.events)])
            self.columns.append(least)
            for event in moment.events:
                self.boxes.append(Box(event, moment.line, max(least, free.get(event.session, LEFT))))
                free[event.session], least = self.boxes[-1].right + GAP, self.boxes[-1].next
            least += STEP
        self.end = max([LEFT, *free.values()])
        is_open = any(it.event.fate == "Waits" and not self.settled(at) for at, it in enumerate(self.boxes))
        self.width = max(LEAST, self.end + (OPEN if is_open else 0))
        self.held = bars_of_held(self.boxes)
        self.rows, self.bottom = {}, TOP
        for session in sorted({it.session for it in moments} | {it for box in self.boxes for it in sessions_of(box.event)}):
            height = BOX + TRACK * max((it.track + 1 for it in self.held if it.session == session), default=0)
            self.rows[session] = self.bottom, height
            self.bottom += height + SPACE

    def y(self, session):
        """The top of a session's row."""
        return self.rows[session][0]

    def settled(self, at):
        """The box that ends the wait of another, if there is one."""
        line = self.boxes[at].event.line
        return next((it for it in self.boxes[at + 1 :] if it.event.line == line), None)


def sessions_of(event):
    """The sessions that have a row because of an event."""
    return {event.session, *event.in_the_way, *(it[0] for it in event.held)}


# ---- the parts


def lanes(it):
    """A band for each session."""
    for session, (y, height) in it.rows.items():
        name = b"session %d" % session
        band = shape("rect", class_="lane", x=0, y=y, width=it.width, height=height)
        yield group("g", [shape("title", name), band, shape("text", name, class_="words", x=8, y=y + 36)])


def guides(it):
    """A line at each column, with its number."""
    yield shape("text", b"line", class_="number", x=8, y=16)
    for moment, x in zip(it.moments, it.columns):
        yield shape("line", class_="guide", x1=x, y1=20, x2=x, y2=it.bottom)
        yield shape("text", b"%d" % moment.line, class_="number", x=x, y=16)


def bars(it):
    """A bar for each wait."""
    for at, box in enumerate(it.boxes):
        if box.event.fate == "Waits":
            later, y = it.settled(at), it.y(box.event.session)
            end = later.x if later else it.end
            until = b"waits until line %d" % later.during if later else b"still waits"
            shapes = [shape("title", b"line %d, session %d: " % (box.event.line, box.event.session) + until)]
            shapes.append(shape("rect", class_="bar", x=box.right, y=y + 25, width=max(end - box.right, 0), height=14))
            if not later:
                shapes.append(shape("text", b"still waits", class_="words", x=end + 6, y=y + 36))
            yield group("g", shapes)


def arrows(it):
    """An arrow to each session in the way."""
    for box in it.boxes:
        own, x = box.event.session, box.x + FIRST_ARROW
        for other in box.event.in_the_way:
            y1, y2 = (it.y(own), sum(it.rows[other])) if other < own else (it.y(own) + BOX, it.y(other))
            text = b"session %d waits for session %d at line %d" % (own, other, box.during)
            yield group("g", [shape("title", text), shape("line", class_="arrow", x1=x, y1=y1, x2=x, y2=y2)])
            x += NEXT_ARROW


def label_of(bar, width):
    """What is written in the bar of a held lock, as far as there is room: it is cut, or the mode alone."""
    room, text = max(width - LABEL, 0) // LABEL, bar.mode + b" " + bar.lock
    if len(text) <= room:
        return text
    if len(bar.mode) + 4 <= room:
        return text[: room - 2] + b".."
    return bar.mode if len(bar.mode) <= room else b""


def held_bars(it):
    """A bar for each lock that is held."""
    for bar in it.held:
        x, y = bar.start.x, it.y(bar.session) + BOX + 2 + TRACK * bar.track
        width = (bar.end.x if bar.end else it.end) - x
        text = b"session %d holds %b of %b from line %d" % (bar.session, bar.mode, bar.lock, bar.start.during)
        shapes = [shape("title", text + (b" to line %d" % bar.end.during if bar.end else b""))]
        shapes.append(shape("rect", class_="held", x=x, y=y, width=width, height=12))
        shapes.append(shape("text", label_of(bar, width), class_="mode", x=x + 3, y=y + 10))
        yield group("g", shapes)


CLASSES = {"Waits": "waiting", "Ends": "done", "Fails": "failed", "Busy": "refused"}


def boxes(it):
    """A box for each event."""
    for box in it.boxes:
        event, top = box.event, it.y(box.event.session)
        y = top + 15 + 7 * (4 - len(box.said + box.told))
        words = b"line %d, session %d: " % (event.line, event.session) + (event.statement + b": " if event.statement else b"") + event.answer
        shapes = [shape("title", words), shape("rect", class_=CLASSES[event.fate], x=box.x, y=top, width=box.right - box.x, height=BOX)]
        for text in box.said:
            shapes.append(shape("text", text, class_="said", x=box.x + 5, y=y))
            y += 14
        for text in box.told:
            shapes.append(shape("text", text, class_="words", x=box.x + 5, y=y))
            y += 14
        yield group("g", shapes)


def legend(it):
    """What the signs mean."""
    y = it.bottom
    yield shape("rect", class_="bar", x=8, y=y + 1, width=28, height=14)
    yield shape("text", b"waits", class_="words", x=42, y=y + 12)
    yield shape("rect", class_="held", x=92, y=y + 2, width=28, height=12)
    yield shape("text", b"holds", class_="words", x=126, y=y + 12)
    yield shape("line", class_="arrow", x1=180, y1=y + 15, x2=180, y2=y + 1)
    yield shape("text", b"waits for (when the wait began)", class_="words", x=190, y=y + 12)
    yield shape("rect", class_="failed", x=432, y=y + 1, width=28, height=14)
    yield shape("text", b"ended by an error", class_="words", x=466, y=y + 12)


def picture(moments):
    """The picture."""
    it = Layout(moments)
    height = it.bottom + BOTTOM
    parts = [
        shape("title", b"Timeline of a script, with a row for each session"),
        shape("style", CSS.encode()),
        group("pattern", [shape("path", class_="stripes", d="M-2 2l4-4M0 8l8-8M6 10l4-4")], id="hatch", patternUnits="userSpaceOnUse", width=8, height=8),
        group("marker", [shape("path", class_="head", d="M0 0l10 5-10 5z")], id="head", markerUnits="userSpaceOnUse", markerWidth=10, markerHeight=10, refX=10, refY=5, orient="auto"),
        shape("rect", class_="ground", x=0, y=0, width=it.width, height=height),
        *lanes(it), *guides(it), *bars(it), *arrows(it), *held_bars(it), *boxes(it), *legend(it),
    ]
    return group("svg", parts, xmlns="http://www.w3.org/2000/svg", width=it.width, height=height, viewBox=f"0 0 {it.width} {height}", role="img")


# ---- random scripts


def wrong(asked_for, matrices, seed):
    """Returns what is drawn wrongly for the script of a seed, or None."""
    chance = random.Random(seed)
    script = scripts.by_chance(chance, "statements", chance.choice([None, None, 300]))
    lines, refusal = language.read(script, "statements")
    assert not refusal, refusal
    last = chance.choice([None, chance.randint(1, len(lines))])
    wanted = picture(moments_of([it for it in lines if last is None or it.number <= last], matrices))
    words = [asked_for.program, "timeline", "--script", *(["--at", f"{last}"] if last else [])]
    ran = subprocess.run(words, input=script, capture_output=True, check=False)
    if (ran.returncode, ran.stdout.decode("ascii", "replace"), ran.stderr) == (0, wanted, b""):
        return None
    KEPT.mkdir(exist_ok=True)
    (KEPT / f"timelines.{seed}.replay").write_bytes(script)
    (KEPT / f"timelines.{seed}.svg").write_text(wanted, encoding="ascii")
    return f"seed {seed}: {' '.join(words)} ends with {ran.returncode}, and draws fuzz/out/timelines.{seed}.replay otherwise than fuzz/out/timelines.{seed}.svg"


def read_words():
    """Returns what the command line asks for."""
    words = argparse.ArgumentParser(description=__doc__, formatter_class=argparse.RawDescriptionHelpFormatter)
    words.add_argument("program", nargs="?", default=PROGRAM)
    words.add_argument("--mdlsim", default=MDLSIM)
    words.add_argument("--seconds", type=float, default=60)
    words.add_argument("--scripts", type=int)
    words.add_argument("--seed", type=int, default=random.randrange(10**9))
    return words.parse_args()


def main():
    """Draws the random scripts that are asked for, and returns the exit status."""
    asked_for = read_words()
    print(f"seed {asked_for.seed}", flush=True)
    matrices = locks.matrices_of(asked_for.mdlsim)
    count, end = asked_for.scripts or math.inf, math.inf if asked_for.scripts else time.monotonic() + asked_for.seconds
    drawn = 0
    while drawn < count and time.monotonic() < end:
        if found := wrong(asked_for, matrices, asked_for.seed + drawn):
            print(found, file=sys.stderr)
            return 1
        drawn += 1
    print(f"{drawn} scripts: all drawn as the plain program draws them")
    return 0 if drawn else 1


if __name__ == "__main__":
    sys.exit(main())

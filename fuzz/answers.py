"""What mdlview has to print of rows, in the plain program's own words. Texts have a character for each byte.

Usage, at the top of the repository: python3 fuzz/answers.py QUESTION [json] < ROWS     what has to be printed of rows that `mysql -B` printed
"""

import sys

from jams import Jam, Rows, upgraded
from tables import tab_rows

MOST = 8
COLUMNS = 100

HOLDER_HELP = """\
   Either the lock was taken while the instrument wait/lock/metadata/sql/mdl was off, or it is held by
   a prepared XA transaction, which has no client. These show the open transactions:
      SELECT trx_mysql_thread_id, trx_started FROM information_schema.INNODB_TRX ORDER BY 2;
      XA RECOVER;
   Begin with the oldest: KILL takes its trx_mysql_thread_id. For 0, XA ROLLBACK takes the xid.
"""
UNREAD_HELP = """\
   Who holds those: the rows with their OBJECT_TYPE and OBJECT_NAME that are GRANTED. To see all rows:
      SELECT * FROM performance_schema.metadata_locks;
"""
THREADS_NOTE = """\
The numbers below are of threads. KILL takes those of connections, which differ. To get both, run:
   mysql -B -e "$(mdlview query)" | mdlview
"""


# ---- words


def counted(count, one, many):
    """Returns a number and its noun."""
    return f"{count} {one if count == 1 else many}"


def cut(room, text):
    """Returns a text, cut behind a whole character of UTF-8 if it is too long for this room."""
    if len(text) <= room:
        return text
    end = max(room - 2, 0)
    while end > 0 and 0x80 <= ord(text[end]) < 0xC0:
        end -= 1
    return text[:end] + ".."


def line_with(start, name, rest):
    """Returns a line with a name, which is cut first."""
    return cut(COLUMNS, start + cut(max(COLUMNS - len(start) - len(rest), 0), name) + rest) + "\n"


def shown(text, special=""):
    """Returns a text of any bytes as it is printed: a control byte is \\x and two digits, and a backslash or special character has one before it."""
    return "".join("\\" + it if it in "\\" + special else f"\\x{ord(it):02x}" if ord(it) < 32 or ord(it) == 127 else it for it in text)


def name(text):
    """Returns a name as it is printed."""
    return shown(text, ".")


def name_of(key):
    """Returns what a lock is called."""
    kind, schema, thing = key
    if kind in ("GLOBAL", "COMMIT", "BACKUP", "BACKUP LOCK"):
        return kind
    if kind in ("SCHEMA", "TABLESPACE", "USER LEVEL LOCK"):
        return f"{kind.split(' ')[0]} {name(schema if kind == 'SCHEMA' else thing)}"
    return f"{kind} {name(schema)}.{name(thing)}"


def in_a_line(text):
    """Returns a text with blanks in place of tabs and line ends."""
    return shown(text.translate(str.maketrans("\t\n\r", "   ")))


def described(owner):
    """Returns who an owner is and what it does: app@10.0.0.7, Query 3 s, in a transaction since 2026-11-29 03:12:44"""
    it = {column: in_a_line(text) for column, text in owner.items()}
    who = "@".join(part for part in (it["USER"], it["HOST"]) if part)
    does = " ".join(part for part in (it["COMMAND"], it["TIME"] and it["TIME"] + " s") if part)
    since = it["TRX_STARTED"] and "in a transaction since " + it["TRX_STARTED"]
    return ", ".join(part for part in (who, does, since) if part)


# ---- objects of JSON


def json_string(text):
    """Returns a string of JSON for a text: if it isn't UTF-8, each byte of 128 or more becomes the character of that number."""
    try:
        text.encode("latin-1").decode("utf-8")
        is_text = True
    except UnicodeDecodeError:
        is_text = False
    as_number = {it for it in text if ord(it) < 32 or ord(it) == 127 or (ord(it) > 127 and not is_text)}
    return '"' + "".join("\\" + it if it in '"\\' else f"\\u00{ord(it):02x}" if it in as_number else it for it in text) + '"'


def to_json(value):
    """Returns a value as JSON without blanks."""
    if isinstance(value, dict):
        return "{" + ",".join(f'"{member}":{to_json(it)}' for member, it in value.items()) + "}"
    if isinstance(value, (list, tuple)):
        return "[" + ",".join(to_json(it) for it in value) + "]"
    return json_string(value) if isinstance(value, str) else "null" if value is None else str(value)


class Answers:
    """The answers to questions about rows."""

    def __init__(self, rows):
        self.rows = rows
        locks, self.upgrades = upgraded(rows.locks)
        self.jam = Jam(locks, len(rows.threads))

    def status(self):
        """Returns the exit status: 4 if some wait can't be explained."""
        return 4 if self.unexplained_count(self.jam) else 0

    def unexplained_count(self, jam):
        """Returns how many waits can't be explained."""
        return len(jam.unexplained) + self.rows.left_out_waits()

    # ---- sessions and tickets

    def session(self, number):
        """Returns what a session is called."""
        connection, thread = self.rows.owner(number)["PROCESSLIST_ID"], f"thread {self.rows.thread(number)}"
        return f"connection {int(connection)} ({thread})" if connection else thread

    def ticket_line(self, verb, ticket, rest=""):
        """Returns the line of a ticket."""
        return line_with(f"   {self.session(ticket.session)} {verb} {ticket.mode} of ", name_of(ticket.lock.key), rest)

    def ticket_lines(self, verb, tickets, rest=""):
        """Returns the lines of the first tickets, and how many more there are."""
        return "".join(self.ticket_line(verb, it, rest) for it in tickets[:MOST]) + and_more(len(tickets) - MOST)

    def runs(self, indent, session):
        """Returns what a session runs, if that is known."""
        statement = self.rows.owner(session)["INFO"]
        return cut(COLUMNS, f"{indent}runs: {in_a_line(statement)}") + "\n" if statement else ""

    def act_lines(self, start, indent, session, is_query):
        """Returns what to type to end a session or its statement, and what it runs."""
        return self.typed_lines(start, indent, session, is_query) + self.runs(indent, session)

    def typed_lines(self, start, indent, session, is_query):
        """Returns what to type to end a session or its statement."""
        owner, thread, kill = self.rows.owner(session), self.rows.thread(session), "KILL QUERY" if is_query else "KILL"
        if owner["PROCESSLIST_ID"]:
            who = described(owner)
            return line_with(f"{start}{kill} {int(owner['PROCESSLIST_ID'])};", f"  -- {who}" if who else "", "")
        if self.rows.knows_connections():
            return f"{start}Thread {thread} is the server's own: it has no connection, and KILL can't end it.\n"
        what = "the statement of thread" if is_query else "thread"
        return (f"{start}End {what} {thread}. {kill} takes the number that this returns:\n"
                f"{indent}SELECT PROCESSLIST_ID FROM performance_schema.threads WHERE THREAD_ID = {thread};\n")

    # ---- why

    def way_text(self, place, way):
        """Returns what is printed of a way out."""
        later = len(way.in_turn) - len(way.at_once)
        when = f": {len(way.at_once)} at once, {later} when those have ended" if later else " at once" if len(way.at_once) == 1 else ", all at once"
        granted = "".join(self.ticket_line("gets", it) + self.runs(6 * " ", it.session) for it in way.at_once[:MOST])
        return (self.act_lines(f"{place}. ", "   ", way.session, way.is_query)
                + f"   {counted(len(way.in_turn), 'wait ends', 'waits end')}{when}\n"
                + self.held_lines(way.session) + granted + and_more(len(way.at_once) - MOST))

    def held_lines(self, session):
        """Returns the locks that a session holds and at which somebody waits, and how many it holds besides."""
        wanted = [ticket for ticket in self.jam.held(session) if ticket.lock.waiting]
        others = len(self.jam.held(session)) - len(wanted)
        start = "and" if wanted else f"{self.session(session)} holds"
        return self.ticket_lines("holds", wanted) + (f"   {start} {counted(others, 'lock', 'locks')} at which nobody waits\n" if others else "")

    def joint_text(self, asked):
        """Returns what is printed of a wait that needs several acts."""
        blockers = self.jam.blockers(asked)
        start = f"{'Or, so' if self.jam.ways else 'So'} that {self.session(asked.session)} gets {asked.mode} of "
        acts = "".join(self.act_lines("   ", 6 * " ", session, self.jam.is_query_enough(asked, session)) for session in blockers[:MOST])
        return (line_with(start, name_of(asked.lock.key), ",") + self.runs("   ", asked.session)
                + f"do {'both' if len(blockers) == 2 else f'all {len(blockers)}'} of these:\n" + acts + and_more(len(blockers) - MOST))

    def stuck_text(self):
        """Returns what is printed of deadlocks."""
        stuck = self.jam.stuck
        if not stuck:
            return ""
        lines = "".join(self.ticket_line("waits for", it, f", behind {self.session(self.jam.blockers(it)[0])}") for it in stuck[:MOST])
        return (counted(len(stuck), "request is", "requests are") + " in a deadlock or behind one. A server ends a deadlock by itself: look again.\n"
                + lines + and_more(len(stuck) - MOST))

    def unexplained_text(self):
        """Returns what is printed of waits that can't be explained."""
        count, unexplained = self.unexplained_count(self.jam), self.jam.unexplained
        if not count:
            return ""
        unread = "".join(line_with("   rows that wait and aren't read: ", f"{name(kind)} {name(lock_type)}", f" {waiting}")
                         for (kind, lock_type), (_, waiting) in self.rows.left_out.items() if waiting)
        return (f"{counted(count, 'wait', 'waits')} can't be explained from these rows:\n"
                + self.ticket_lines("waits for", unexplained, ", and no row shows who holds it") + (HOLDER_HELP if unexplained else "")
                + unread + (UNREAD_HELP if unread else ""))

    def passing_line(self):
        """Returns what is printed of waits that are only behind waits that are over."""
        count = self.jam.passing()
        return counted(count, "request waits", "requests wait") + " only behind requests that are over: look again.\n" if count else ""

    def upgrade_lines(self):
        """Returns what is printed of the tickets that are taken for upgraded."""
        lines = "".join(line_with(f"   {self.session(shown.session)} has {mode} of ", name_of(shown.lock.key), f" by now, not {shown.mode}")
                        for shown, mode in self.upgrades[:MOST])
        head = "Inferred, because rows show the mode that a lock was taken with, and no upgrade:\n" if self.upgrades else ""
        return head + lines + and_more(len(self.upgrades) - MOST)

    def why(self):
        """Returns the answer to `why`."""
        jam, waits = self.jam, len(self.jam.all_waits) + self.rows.left_out_waits()
        head = counted(waits, "request waits", "requests wait") if waits else "No session waits"
        lacks = (jam.ways or jam.joint) and not self.rows.knows_connections()
        return ((THREADS_NOTE if lacks else "") + head
                + (". Ways out, the best first. Do one, and look again:\n" if waits and jam.ways else ".\n")
                + "".join(self.way_text(place, way) for place, way in enumerate(jam.ways[:MOST], 1))
                + more_line("More ways, which are no better", jam.ways)
                + "".join(self.joint_text(it) for it in jam.joint[:MOST]) + more_line("More requests that go on only after several acts", jam.joint)
                + self.stuck_text() + self.passing_line() + self.unexplained_text()
                + self.left_out_line() + self.upgrade_lines())

    def why_json(self):
        """Returns the answer to `why` as JSON."""
        jam = self.jam
        ways = [{**self.act_object(way.session, way.is_query), "holds": self.ticket_objects(jam.held(way.session)),
                 "at_once": self.ticket_objects(way.at_once), "in_turn": self.ticket_objects(way.in_turn)} for way in jam.ways[:MOST]]
        return {
            "version": 1, "waits": len(jam.all_waits) + self.rows.left_out_waits(),
            "ways": ways, "more_ways": max(len(jam.ways) - MOST, 0),
            "joint": self.blocked_objects(jam.joint), "more_joint": max(len(jam.joint) - MOST, 0),
            "deadlocked": self.blocked_objects(jam.stuck), "more_deadlocked": max(len(jam.stuck) - MOST, 0),
            **self.end_members(jam),
        }

    # ---- rows that are left out

    def left_out_line(self):
        """Returns the line for rows that are left out."""
        left_out = self.rows.left_out
        if not left_out:
            return ""
        kinds = [f"{name(kind)} {name(lock_type)} {count}" for (kind, lock_type), (count, _) in left_out.items()]
        more = f", and of {len(kinds) - MOST} more types" if len(kinds) > MOST else ""
        total = counted(sum(count for count, _ in left_out.values()), "row left out: ", "rows left out: ")
        return cut(COLUMNS, total + ", ".join(kinds[:MOST]) + more) + "\n"

    def notes(self, jam, mark=""):
        """Returns the lines below other answers."""
        count = self.unexplained_count(jam)
        lines = [f"{counted(count, 'wait', 'waits')} can't be explained from these rows: ask `mdlview why`\n"] if count else []
        return "".join(mark + line for line in [*lines, self.left_out_line()] if line)

    # ---- locks, waits, graph

    def locks(self):
        """Returns the answer to `locks`: tickets as their rows show them. The notes below are about tickets as they are by now, as elsewhere."""
        lines = [f"{name_of(lock.key)}\t{self.session(it.session)}\t{it.mode}\t{status}\n" for lock in self.rows.locks
                 for status, tickets in (("GRANTED", lock.granted), ("PENDING", lock.waiting), ("SETTLED", lock.settled)) for it in tickets]
        return "LOCK\tSESSION\tMODE\tSTATUS\n" + "".join(lines) + self.notes(self.jam) + self.upgrade_lines()

    def pairs(self):
        """Returns each waiting ticket with each ticket that blocks it, and whether that one is granted."""
        return [(asked, other, other in asked.lock.granted) for asked in self.jam.all_waits for other in self.jam.reasons[asked]]

    def waits(self):
        """Returns the answer to `waits`."""
        lines = [f"{name_of(asked.lock.key)}\t{self.session(asked.session)}\t{asked.mode}\t{self.session(other.session)}\t{reason(other, holds)}\n"
                 for asked, other, holds in self.pairs()]
        return "LOCK\tWAITING\tFOR\tBLOCKING\tREASON\n" + "".join(lines) + self.notes(self.jam) + self.upgrade_lines()

    def graph(self):
        """Returns the answer to `graph`."""
        lines = []
        for asked, other, holds in self.pairs():
            label = f"{name_of(asked.lock.key)}".replace("\\", "\\\\").replace('"', '\\"')
            lines.append(f'  "{self.session(asked.session)}" -> "{self.session(other.session)}" [label="{label}: {reason(other, holds)}"];\n')
        comment = f"// Rows show no upgrades. Locks taken for upgraded: {len(self.upgrades)}\n" if self.upgrades else ""
        return "digraph waits {\n" + "".join(lines) + "}\n" + self.notes(self.jam, "// ") + comment

    # ---- objects of JSON

    def session_object(self, number):
        """Returns a session."""
        connection = self.rows.owner(number)["PROCESSLIST_ID"]
        return {"thread": self.rows.thread(number), "connection": int(connection) if connection else None}

    def ticket_members(self, ticket):
        """Returns the session and the mode of a ticket."""
        return {"session": self.session_object(ticket.session), "mode": ticket.mode}

    def ticket_objects(self, tickets):
        """Returns tickets at locks."""
        return [{**self.ticket_members(it), "lock": name_of(it.lock.key)} for it in tickets]

    def act_object(self, session, is_query):
        """Returns an act."""
        return {"act": "KILL QUERY" if is_query else "KILL", "session": self.session_object(session)}

    def blocked_objects(self, waits):
        """Returns the first waits, with what each needs."""
        objects = []
        for asked, members in zip(waits[:MOST], self.ticket_objects(waits)):
            blockers = self.jam.blockers(asked)
            acts = [self.act_object(session, self.jam.is_query_enough(asked, session)) for session in blockers[:MOST]]
            objects.append({**members, "blockers": len(blockers), "acts": acts})
        return objects

    def end_members(self, jam):
        """Returns the last members of each object."""
        left_out = [{"object_type": kind, "lock_type": lock_type, "rows": count, "waiting": waiting}
                    for (kind, lock_type), (count, waiting) in self.rows.left_out.items()]
        return {"unexplained": self.ticket_objects(jam.unexplained), "left_out": left_out}

    def locks_json(self):
        """Returns the answer to `locks` as JSON."""
        locks = []
        for lock in self.rows.locks:
            waiting, settled = ([{**self.ticket_members(it), "status": status} for it in tickets]
                                for status, tickets in (("PENDING", lock.waiting), ("SETTLED", lock.settled)))
            granted = [self.ticket_members(it) for it in lock.granted]
            locks.append({"lock": name_of(lock.key), "granted": granted, "waiting": waiting, "settled": settled})
        return {"version": 1, "locks": locks, **self.end_members(self.jam)}

    def waits_json(self):
        """Returns the answer to `waits` as JSON."""
        waits = [{**self.ticket_members(asked), "lock": name_of(asked.lock.key), "blocking": self.session_object(other.session),
                  "reason": "holds" if holds else "waits_before", "blocking_mode": other.mode} for asked, other, holds in self.pairs()]
        return {"version": 1, "waits": waits, **self.end_members(self.jam)}

    def answer(self, question, is_json=False):
        """Returns the answer to a question, in bytes."""
        text = to_json(getattr(self, f"{question}_json")()) + "\n" if is_json else getattr(self, question)()
        return text.encode("latin-1")


def reason(other, holds):
    """Returns why a ticket blocks another."""
    return f"{'holds' if holds else 'waits before it for'} {other.mode}"


def and_more(more):
    """Returns the line that says how many more lines there would be."""
    return f"   and {more} more\n" if more > 0 else ""


def more_line(words, found):
    """Returns the line that says how many of what was found aren't printed."""
    return f"{words}: {len(found) - MOST}\n" if len(found) > MOST else ""


def main(words):
    """Prints the answer to a question about the rows on standard input."""
    question, *form = words
    answers = Answers(Rows(*tab_rows(sys.stdin.buffer.read().decode("latin-1"))))
    sys.stdout.buffer.write(answers.answer(question, form == ["json"]))
    return answers.status()


if __name__ == "__main__":
    sys.exit(main(sys.argv[1:]))

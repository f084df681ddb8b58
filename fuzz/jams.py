"""What a plain program finds in the rows of a server's metadata locks: who blocks whom, what would follow if a session or its statement were ended,
and which waits nothing explains. It looks at every pair of tickets, and tries every act. It shares nothing with the library.
"""

import dataclasses
import functools

from modes import CLASHES, KINDS, LATER, QUEUES, mode_named

WAITS = {"PENDING", "PRE_ACQUIRE_NOTIFY"}
SETTLED = {"VICTIM", "TIMEOUT", "KILLED"}
DESCRIBED = ("PROCESSLIST_ID", "USER", "HOST", "COMMAND", "TIME", "INFO", "TRX_STARTED")
DEFINITIONS = {"TABLE", "FUNCTION", "PROCEDURE", "TRIGGER", "EVENT", "PACKAGE BODY"}


@dataclasses.dataclass(eq=False)
class Ticket:
    """A ticket: its lock, the session that has it or waits for it, and whether it goes if the session's statement is killed."""

    lock: "Lock"
    session: int
    mode: str
    of_statement: bool

    def clashes(self, held):
        """Whether a granted ticket blocks this request."""
        return held.session != self.session and (self.mode, held.mode) in CLASHES[self.lock.kind]

    def is_behind(self, pending):
        """Whether this request waits behind another one."""
        return pending.session != self.session and (self.mode, pending.mode) in QUEUES[self.lock.kind]


@dataclasses.dataclass(eq=False)
class Lock:
    """A lock: what it is, its kind, and its tickets: granted, waiting, and waits that are over."""

    key: tuple
    kind: str
    granted: list = dataclasses.field(default_factory=list)
    waiting: list = dataclasses.field(default_factory=list)
    settled: list = dataclasses.field(default_factory=list)


@dataclasses.dataclass(frozen=True)
class Way:
    """An act, and the waits that are granted at once by it, and that end in turn."""

    session: int
    is_query: bool
    at_once: tuple
    in_turn: tuple

    def order(self):
        """Returns what ways are sorted by, the best first."""
        return -len(self.in_turn), not self.is_query, -len(self.at_once), self.session


class Rows:
    """The locks, the sessions and what is left out, of rows: dictionaries of the columns' values, which are empty for NULL."""

    def __init__(self, columns, rows):
        self.left_out, self.threads, self.locks, kept = {}, [], [], []
        for row in rows:
            mode = mode_named(row["OBJECT_TYPE"], row["LOCK_TYPE"])
            if mode:
                kept.append((row, mode))
            else:
                counts = self.left_out.setdefault((row["OBJECT_TYPE"], row["LOCK_TYPE"]), [0, 0])
                counts[0] += 1
                counts[1] += row["LOCK_STATUS"] in WAITS
        self.threads = list(dict.fromkeys(int(row["OWNER_THREAD_ID"]) for row, _ in kept))
        self.owners = [self.owner_in(thread, kept) for thread in self.threads]
        changers = {int(row["OWNER_THREAD_ID"]) for row, mode in kept if changes(row, mode)} if "LOCK_DURATION" in columns else set()
        by_key = {}
        for row, mode in kept:
            key = tuple(row[column] for column in ("OBJECT_TYPE", "OBJECT_SCHEMA", "OBJECT_NAME"))
            lock = by_key.setdefault(key, Lock(key, KINDS[key[0]]))
            self.add(lock, row, mode, changers)
        self.locks = list(by_key.values())

    @staticmethod
    def owner_in(thread, kept):
        """Returns what the first row says that says anything of a thread."""
        for row, _ in kept:
            if int(row["OWNER_THREAD_ID"]) == thread and any(row.get(column) for column in DESCRIBED):
                return {column: row.get(column, "") for column in DESCRIBED}
        return dict.fromkeys(DESCRIBED, "")

    def add(self, lock, row, mode, changers):
        """Adds the ticket of a row to its lock."""
        thread, status = int(row["OWNER_THREAD_ID"]), row["LOCK_STATUS"]
        duration = row.get("LOCK_DURATION", "")
        goes = duration == "STATEMENT" or (duration == "TRANSACTION" and thread in changers)
        of_statement = status != "GRANTED" or (goes and row.get("COMMAND") not in (None, "", "Sleep"))
        ticket = Ticket(lock, self.threads.index(thread) + 1, mode, of_statement)
        if status == "GRANTED":
            lock.granted.append(ticket)
        elif status in WAITS:
            lock.waiting.append(ticket)
        elif status in SETTLED:
            lock.settled.append(ticket)

    def owner(self, session):
        """Returns what is known of a session."""
        return self.owners[session - 1]

    def thread(self, session):
        """Returns the thread of a session."""
        return self.threads[session - 1]

    def knows_connections(self):
        """Whether some session's connection is known."""
        return any(owner["PROCESSLIST_ID"] for owner in self.owners)

    def left_out_waits(self):
        """Returns how many of the rows that are left out wait."""
        return sum(waiting for _, waiting in self.left_out.values())


def changes(row, mode):
    """Whether a row shows that its thread changes a definition. Such a statement commits first: all that the transaction has is the statement's."""
    return row["LOCK_DURATION"] == "TRANSACTION" and row["OBJECT_TYPE"] in DEFINITIONS and mode in {"SU", "SNW", "SNRW", "X"}


# ---- what tickets are by now


def blocking(asked, lock):
    """Returns the tickets that block a request: the granted ones first."""
    return [held for held in lock.granted if asked.clashes(held)] + [pending for pending in lock.waiting if asked.is_behind(pending)]


def lacks_reason(asked, lock):
    """Whether no ticket is the reason for a wait, not even one of a wait that is over."""
    return not blocking(asked, lock) and not any(asked.is_behind(pending) for pending in lock.settled)


def explains(held, mode, asked):
    """Whether a granted ticket would explain a wait if it had this mode."""
    return asked.clashes(dataclasses.replace(held, mode=mode))


def upgrade(lock, held):
    """Returns the mode that a granted ticket is taken to have by now, or None if it isn't taken for upgraded."""
    later = LATER.get(held.mode, [])
    reasons = [asked for asked in lock.waiting if lacks_reason(asked, lock) and any(explains(held, mode, asked) for mode in later)]
    if not reasons:
        return None
    return next((mode for mode in later if all(explains(held, mode, asked) for asked in reasons)), held.mode)


def upgraded(locks):
    """Returns the locks with each granted ticket in the mode that it is taken to have by now, and the tickets that are taken for upgraded, each with
    its mode by now."""
    changed, found = [], []
    for lock in locks:
        now = Lock(lock.key, lock.kind)
        for held in lock.granted:
            mode = upgrade(lock, held)
            now.granted.append(Ticket(now, held.session, mode or held.mode, held.of_statement))
            if mode:
                found.append((held, mode))
        now.waiting = [dataclasses.replace(it, lock=now) for it in lock.waiting]
        now.settled = [dataclasses.replace(it, lock=now) for it in lock.settled]
        changed.append(now)
    return changed, found


# ---- what is found


class Jam:
    """What is found at locks with so many sessions."""

    def __init__(self, locks, sessions):
        self.locks, self.sessions = locks, range(1, sessions + 1)
        self.all_waits = [asked for lock in locks for asked in lock.waiting]
        self.reasons = {asked: blocking(asked, asked.lock) for asked in self.all_waits}
        self.blocked = [asked for asked in self.all_waits if self.reasons[asked]]
        self.unexplained = [asked for asked in self.all_waits if lacks_reason(asked, asked.lock)]

    def passing(self):
        """Returns how many waits are only behind waits that are over."""
        return len(self.all_waits) - len(self.blocked) - len(self.unexplained)

    def held(self, session):
        """Returns what a session holds."""
        return [ticket for lock in self.locks for ticket in lock.granted if ticket.session == session]

    def blockers(self, asked):
        """Returns the sessions that block a request, each once."""
        return list(dict.fromkeys(ticket.session for ticket in self.reasons[asked]))

    def granted_at_once(self, gone):
        """Returns the waits that are granted in one pass through each queue after some tickets have gone. A wait that nothing explains isn't."""
        got = []
        for lock in self.locks:
            now = Lock(lock.key, lock.kind, [it for it in lock.granted if it not in gone], [it for it in lock.waiting if it not in gone])
            for asked in list(now.waiting):
                if self.reasons[asked] and not blocking(asked, now):
                    now.waiting.remove(asked)
                    now.granted.append(asked)
                    got.append(asked)
        return got

    def ended_in_turn(self, gone, ended):
        """Returns the sessions that end in turn, round by round: in each, those go on for one of whose waits every reason has gone."""
        while True:
            more = {asked.session for asked in self.blocked if asked not in gone and asked.session not in ended
                    and all(it in gone or it.session in ended for it in self.reasons[asked])}
            if not more:
                return ended
            ended = ended | more

    def outcome(self, session, is_query):
        """Returns what follows if a session or its statement is ended."""
        gone = {ticket for lock in self.locks for ticket in [*lock.granted, *lock.waiting]
                if ticket.session == session and (ticket.of_statement or not is_query)}
        ended = self.ended_in_turn(gone, set() if is_query else {session}) - {session}
        return Way(session, is_query, tuple(self.granted_at_once(gone)), tuple(asked for asked in self.blocked if asked.session in ended))

    @functools.cached_property
    def ways(self):
        """The acts that help, the best first. Ending a session has to help more than ending its statement."""
        found = []
        for session in self.sessions:
            query, whole = (self.outcome(session, is_query) for is_query in (True, False))
            found += [query] if query.in_turn else []
            found += [whole] if len(whole.in_turn) > len(query.in_turn) else []
        return sorted(found, key=Way.order)

    @functools.cached_property
    def joint(self):
        """The waits that need several acts, and that no way helps."""
        helped = {asked.session for way in self.ways for asked in way.in_turn}
        return [asked for asked in self.all_waits if asked.session not in helped and len(self.blockers(asked)) > 1]

    @functools.cached_property
    def stuck(self):
        """The waits in deadlocks or behind them: they would last even if each session that isn't blocked ended."""
        free = set(self.sessions) - {asked.session for asked in self.blocked}
        ended = self.ended_in_turn(set(), free)
        return [asked for asked in self.blocked if asked.session not in ended]

    def is_query_enough(self, asked, session):
        """Whether a session no longer blocks a request once its statement is ended."""
        return all(it.of_statement for it in asked.lock.granted if it.session == session and asked.clashes(it))

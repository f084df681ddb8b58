"""Locks of many keys, with tickets and waits of sessions, as plainly as can be: what plays.py runs its statements on.

A key is (0,) for GLOBAL, (1, schema), (2, schema, table), (3,) for COMMIT, or (4, name) for a user-level lock. A session pins just the places where it has a
ticket or its wait, also after a request that got nothing and after a lost wait. So a key keeps its place while a session has something there, and once it
had a definition. A call that may wait is a generator: it yields when a wait begins, and continues once that is settled."""

import dataclasses

MOST_PLACES = 256

# The modes in order. When a victim is chosen, those from SU on weigh 100, as all of GLOBAL do. Those of user-level locks weigh 50, and all others 0.
MODES = [b"IX", b"S", b"SH", b"SR", b"SW", b"SWLP", b"SU", b"SRO", b"SNW", b"SNRW", b"X"]
HEAVY = MODES.index(b"SU")

# How a wait is settled: as granted, or lost with an error.
GRANTED = "granted"
VICTIM, TIMEOUT, KILLED = 1213, 1205, 1317
NO_PLACE = 9004


class Lost(Exception):
    """A lock isn't granted: the error that says why."""


@dataclasses.dataclass(eq=False)
class Ticket:
    """A ticket, held or waited for. It lasts for a statement, a transaction, or until it is released: `S`, `T` or `E`."""

    who: int
    key: tuple
    mode: bytes
    lasts: str


class Place:
    """A key's place: its granted and waiting tickets, and the key's version and definition."""

    def __init__(self):
        self.granted = []
        self.waiting = []
        self.version = 0
        self.found = None

    def is_in_use(self):
        """Whether the key keeps its place."""
        return bool(self.granted or self.waiting or self.version)


class Space:
    """All places, the tickets of each session in the order in which it got them, and its wait, with how that is settled. And how often a place was given to
    another key."""

    def __init__(self, matrices, sessions):
        self.matrices = matrices
        self.places = {}
        self.held = {it: [] for it in sessions}
        self.waits = {}
        self.settled = {}
        self.given_anew = 0

    # ---- which modes go together

    def row(self, key, matrix, mode):
        """Returns a row of the matrices."""
        return self.matrices["object" if key[0] in (2, 4) else "scoped", matrix, mode]

    def covers(self, key, strong, weak):
        """Whether a mode is at least as strong as another one."""
        return self.row(key, "GRANTED", weak) - {b"-"} <= self.row(key, "GRANTED", strong)

    def in_the_way(self, who, key, mode):
        """Returns the tickets of other sessions that block a mode now: those held, and those that wait."""
        place, clashing, before = self.places[key], self.row(key, "GRANTED", mode), self.row(key, "WAITING", mode)
        held = [it for it in place.granted if it.who != who and it.mode in clashing]
        return held, [it for it in place.waiting if it.who != who and it.mode in before]

    def can_have(self, who, key, mode):
        """Whether a session can be granted a mode now."""
        return self.in_the_way(who, key, mode) == ([], [])

    # ---- waits

    def settle(self, who, how):
        """Settles a session's wait, unless it is settled or there is none."""
        if who in self.waits:
            self.settled.setdefault(who, how)

    def grant_waiters(self, key):
        """Grants waiting tickets: again and again the first that can be granted."""
        place = self.places[key]
        while True:
            first = next((it for it in place.waiting if it.who not in self.settled and self.can_have(it.who, key, it.mode)), None)
            if first is None:
                return
            place.waiting.remove(first)
            place.granted.append(first)
            self.settle(first.who, GRANTED)

    def ties(self):
        """Returns for each session with an unsettled wait the others of these for which it waits."""
        unsettled = {who: it for who, it in self.waits.items() if who not in self.settled}
        found = {}
        for who, it in unsettled.items():
            held, pending = self.in_the_way(who, it.key, it.mode)
            found[who] = {other.who for other in held + pending} & unsettled.keys()
        return found

    def cycle_of(self, who):
        """Returns the shortest cycle through a session, and of these the first in order, or none."""
        ties = self.ties()
        away, reached = {who: 0}, [who]
        for target in reached:
            for it in ties:
                if target in ties[it] and it not in away:
                    away[it] = away[target] + 1
                    reached.append(it)
        found = []
        nearest = [it for it in ties.get(who, ()) if it in away]
        while nearest:
            least = min(away[it] for it in nearest)
            found.append(min(it for it in nearest if away[it] == least))
            nearest = [it for it in ties[found[-1]] if it in away and away[it] < least]
        return found

    def weight(self, who):
        """Returns the weight of a session's request."""
        wish = self.waits[who]
        if wish.key[0] == 4:
            return 50
        return 100 if wish.key == (0,) or MODES.index(wish.mode) >= HEAVY else 0

    def break_cycles(self, who):
        """Makes victims in the cycles through a session, until there is no cycle, or the session is a victim itself."""
        while who not in self.settled and (cycle := self.cycle_of(who)):
            self.settle(min(cycle, key=lambda it: (self.weight(it), -it)), VICTIM)

    def wait(self, ticket):
        """Waits for a ticket."""
        self.places[ticket.key].waiting.append(ticket)
        self.waits[ticket.who] = ticket
        self.break_cycles(ticket.who)
        yield ticket
        how = self.settled.pop(ticket.who)
        del self.waits[ticket.who]
        if how != GRANTED:
            self.places[ticket.key].waiting.remove(ticket)
            self.grant_waiters(ticket.key)
            raise Lost(how)

    # ---- tickets

    def place(self, key):
        """Returns the place of a key. A key without one gets one: if all places have keys, one that isn't in use, whose key loses it."""
        if key not in self.places:
            if len(self.places) == MOST_PLACES:
                unused = next((it for it, place in self.places.items() if not place.is_in_use()), None)
                if unused is None:
                    raise Lost(NO_PLACE)
                del self.places[unused]
                self.given_anew += 1
            self.places[key] = Place()
        return self.places[key]

    def acquire(self, who, key, mode, lasts):
        """Returns a ticket: one that is held and will do, or a new one, granted at once if a stronger one is held."""
        strong = [it for it in self.held[who] if it.key == key and self.covers(key, it.mode, mode)]
        again = [it for it in strong if it.lasts == lasts != "E"]
        if again:
            return again[0]
        place, ticket = self.place(key), Ticket(who, key, mode, lasts)
        if strong or self.can_have(who, key, mode):
            place.granted.append(ticket)
        else:
            yield from self.wait(ticket)
        self.held[who].append(ticket)
        return ticket

    def upgrade(self, ticket, mode):
        """Gives a held ticket a stronger mode."""
        if self.covers(ticket.key, ticket.mode, mode):
            return
        if not self.can_have(ticket.who, ticket.key, mode):
            second = Ticket(ticket.who, ticket.key, mode, ticket.lasts)
            yield from self.wait(second)
            self.places[ticket.key].granted.remove(second)
        ticket.mode = mode
        self.grant_waiters(ticket.key)

    def downgrade(self, ticket, mode):
        """Gives a held ticket a weaker mode."""
        ticket.mode = mode
        self.grant_waiters(ticket.key)

    def release(self, tickets):
        """Releases tickets."""
        for it in list(tickets):
            self.held[it.who].remove(it)
            self.places[it.key].granted.remove(it)
            self.grant_waiters(it.key)

    # ---- definitions

    def found(self, key):
        """Returns a key's definition: `schema`, a table's columns, or None."""
        return self.places[key].found if key in self.places else None

    def change(self, key, found):
        """Changes a key's definition."""
        self.places[key].found = found
        self.places[key].version += 1

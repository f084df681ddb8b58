"""What `mdlsim replay` ought to answer, by the table of statements (docs/LANGUAGE.md), as plainly as can be. A statement is a generator: it yields
the ticket for which it begins to wait, and returns what it shows."""

from spaces import KILLED, TIMEOUT, VICTIM, Lost, Space

MOST_COLUMNS = 64
GLOBAL, COMMIT = (0,), (3,)
NAMES = {0: b"GLOBAL", 1: b"SCHEMA %b", 2: b"TABLE %b.%b", 3: b"COMMIT", 4: b"USER %b"}


class Early(Exception):
    """The error of a statement that is refused before its first lock."""


class Wrong(Exception):
    """The error of a check that is made under the locks."""


def schema(name):
    """Returns the key of a schema."""
    return 1, name


def table(word):
    """Returns the key of the table that a word names."""
    return 2, *(b"test", *word.split(b"."))[-2:]


def user_lock(name):
    """Returns the key of a user-level lock."""
    return 4, name


class Session:
    """A session: whether a transaction is open, whether that wrote, its savepoints, its locked tables, and whether it has the global read lock."""

    def __init__(self, who, space):
        self.who = who
        self.space = space
        self.is_open = self.has_wrote = self.has_read_lock = False
        self.savepoints = {}
        self.locked = None
        self.locks = []
        self.read_lock = []
        self.running = None
        self.line = None

    def lock(self, key, mode, lasts="T"):
        """Acquires a lock."""
        return self.space.acquire(self.who, key, mode, lasts)

    def lasting(self, lasts):
        """Returns the tickets of a duration, in the order in which the session got them."""
        return [it for it in self.space.held[self.who] if it.lasts == lasts]

    def let_go(self, lasts, most=0):
        """Releases the tickets of a duration after the first `most`, from the newest to the oldest."""
        self.space.release(self.lasting(lasts)[most:][::-1])

    # ---- transactions

    def end_statement(self):
        """Ends a statement, and a transaction that is the statement's own."""
        self.let_go("S")
        if not self.is_open:
            self.end_transaction()

    def end_transaction(self):
        """Ends a transaction without COMMIT's lock."""
        self.let_go("S")
        self.let_go("T")
        self.is_open = self.has_wrote = False
        self.savepoints = {}

    def commit(self):
        """Commits a transaction, with COMMIT's lock if it wrote."""
        ticket = []
        if self.has_wrote:
            ticket = [(yield from self.lock(COMMIT, b"IX", "E"))]
        self.end_transaction()
        self.space.release(ticket)

    def commit_open(self):
        """Commits an open transaction, which stays open if COMMIT's lock isn't granted."""
        if self.is_open:
            self.is_committing = True
            yield from self.commit()
        self.is_committing = False

    def mark(self):
        """Returns how many tickets there are of the statement, and of the transaction."""
        return len(self.lasting("S")), len(self.lasting("T"))

    def go_back(self, mark):
        """Releases the tickets that the session got since a mark."""
        for lasts, count in zip("ST", mark):
            self.let_go(lasts, count)

    def give_up_locked(self):
        """Releases the locked tables, and the scoped tickets that came with them."""
        self.space.release(self.locks)
        self.locked, self.locks = None, []

    # ---- statements

    def begin(self, _):
        """BEGIN."""
        yield from self.commit_open()
        self.give_up_locked()
        self.is_open = True

    def end(self, _):
        """COMMIT."""
        yield from self.commit_open()

    def roll_back(self, words):
        """ROLLBACK, or ROLLBACK TO a savepoint."""
        if not words:
            if self.is_open:
                self.end_transaction()
            return
        if words[1] not in self.savepoints:
            raise Early(1305)
        names = list(self.savepoints)
        self.go_back(self.savepoints[words[1]])
        for name in names[names.index(words[1]) + 1 :]:
            del self.savepoints[name]
        yield from ()

    def save(self, words):
        """SAVEPOINT: one of the same name is removed."""
        if self.is_open:
            self.savepoints.pop(words[0], None)
            self.savepoints[words[0]] = self.mark()
        yield from ()

    def read(self, words):
        """SELECT."""
        tables = [table(it) for it in words]
        if self.locked is not None and any(it not in self.locked for it in tables):
            raise Early(1100)
        shown = b""
        for key in tables:
            if self.locked is None:
                yield from self.lock(key, b"SR")
            if self.space.found(key) is None:
                raise Wrong(1146)
            shown += b" %b.%b@%d(%b)" % (*key[1:], self.space.places[key].version, b",".join(self.space.found(key)))
        return shown

    def look_at_locked(self, key):
        """Checks that a table to be changed under locked tables is locked, and locked to be written."""
        if key not in self.locked:
            raise Early(1100)
        if self.locked[key] == b"READ":
            raise Early(1099)

    def write(self, words):
        """INSERT, UPDATE, DELETE."""
        key = table(words[-1])
        if self.locked is not None:
            self.look_at_locked(key)
        else:
            if self.has_read_lock:
                raise Early(1223)
            yield from self.lock(GLOBAL, b"IX", "S")
            yield from self.lock(key, b"SWLP" if len(words) == 2 else b"SW")
            if self.space.found(key) is None:
                raise Wrong(1146)
        self.has_wrote = True
        if not self.is_open:
            yield from self.commit()

    def begin_change(self, schemas):
        """Commits, and takes the scoped locks of a change of definitions."""
        yield from self.commit_open()
        yield from self.lock(GLOBAL, b"IX", "S")
        for it in sorted(schemas):
            yield from self.lock(it, b"IX")

    def change(self, schemas, keys):
        """Checks whether definitions may be changed, and takes the locks for that."""
        if self.has_read_lock:
            raise Early(1223)
        if self.locked is not None:
            raise Early(1192)
        yield from self.begin_change(schemas)
        for it in sorted(keys):
            yield from self.lock(it, b"X")

    def create_table(self, words):
        """CREATE TABLE."""
        key, columns = table(words[1]), words[2:]
        yield from self.change({schema(key[1])}, [key])
        if self.space.found(schema(key[1])) is None:
            raise Wrong(1049)
        if self.space.found(key) is not None:
            raise Wrong(1050)
        if len(set(columns)) < len(columns):
            raise Wrong(1060)
        self.space.change(key, list(columns))

    def drop_tables(self, words):
        """DROP TABLE: all, or none."""
        keys = [table(it) for it in words[1:]]
        yield from self.change({schema(it[1]) for it in keys}, keys)
        if any(self.space.found(it) is None for it in keys):
            raise Wrong(1146)
        for it in keys:
            self.space.change(it, None)

    def rename(self, words):
        """RENAME TABLE."""
        old, new = table(words[1]), table(words[3])
        yield from self.change({schema(old[1]), schema(new[1])}, [old, new])
        if self.space.found(new) is not None:
            raise Wrong(1050)
        if self.space.found(old) is None:
            raise Wrong(1146)
        if self.space.found(schema(new[1])) is None:
            raise Wrong(1049)
        self.space.change(new, self.space.found(old))
        self.space.change(old, None)

    def create_schema(self, words):
        """CREATE SCHEMA."""
        key = schema(words[1])
        yield from self.change(set(), [key])
        if self.space.found(key) is not None:
            raise Wrong(1007)
        self.space.change(key, "schema")

    def drop_schema(self, words):
        """DROP SCHEMA, with its tables."""
        key = schema(words[1])
        yield from self.change(set(), [key])
        if self.space.found(key) is None:
            raise Wrong(1049)
        tables = sorted(it for it, place in self.space.places.items() if it[0] == 2 and it[1] == key[1] and place.found is not None)
        for it in tables:
            yield from self.lock(it, b"X")
        for it in [*tables, key]:
            self.space.change(it, None)

    def changed_columns(self, key, words):
        """Returns the columns as an ALTER leaves them."""
        columns, column = self.space.found(key), words[3]
        if words[2] == b"ADD":
            if column in columns:
                raise Wrong(1060)
            if len(columns) == MOST_COLUMNS:
                raise Wrong(9002)
            return [*columns, column]
        if column not in columns:
            raise Wrong(1091)
        if len(columns) == 1:
            raise Wrong(9001)
        return [it for it in columns if it != column]

    def alter(self, words):
        """ALTER TABLE."""
        key = table(words[1])
        if self.has_read_lock:
            raise Early(1223)
        if self.locked is not None:
            self.look_at_locked(key)
        yield from self.begin_change({schema(key[1])})
        if self.locked is not None:
            ticket = next(it for it in self.locks if it.key == key)
            steps = [b"X", b"SNRW"]
        else:
            ticket = yield from self.lock(key, b"SU")
            steps = [b"SNW", b"X"] if words[4] == b"COPY" else [b"X", b"SU", b"X"]
        if self.space.found(key) is None:
            raise Wrong(1146)
        columns = self.changed_columns(key, words)
        for mode in steps:
            if ticket.mode != b"X":
                yield from self.space.upgrade(ticket, mode)
            else:
                self.space.downgrade(ticket, mode)
        self.space.change(key, columns)

    def lock_tables(self, words):
        """LOCK TABLES."""
        types = dict(sorted(zip([table(it) for it in words[1::2]], words[2::2])))
        written = [it for it, how in types.items() if how == b"WRITE"]
        if self.has_read_lock and written:
            raise Early(1223)
        yield from self.commit_open()
        self.give_up_locked()
        if written:
            yield from self.begin_change({schema(it[1]) for it in written})
        for key, how in types.items():
            yield from self.lock(key, b"SRO" if how == b"READ" else b"SNRW")
        if any(self.space.found(it) is None for it in types):
            raise Wrong(1146)
        self.locked = types
        self.locks = self.lasting("S") + self.lasting("T")
        for it in self.locks:
            it.lasts = "E"

    def unlock_tables(self, _):
        """UNLOCK TABLES."""
        self.give_up_locked()
        self.space.release(self.read_lock)
        self.has_read_lock, self.read_lock = False, []
        yield from ()

    def flush(self, _):
        """FLUSH TABLES WITH READ LOCK."""
        if self.locked is not None:
            raise Early(1192)
        yield from self.commit_open()
        if self.has_read_lock:
            return
        first = yield from self.lock(GLOBAL, b"S", "E")
        try:
            second = yield from self.lock(COMMIT, b"S", "E")
        except Lost:
            self.space.release([first])
            raise
        self.has_read_lock, self.read_lock = True, [first, second]

    def get_lock(self, words):
        """GET_LOCK: a wait that is lost releases no other ticket."""
        try:
            yield from self.lock(user_lock(words[0]), b"X", "E")
        except Lost as error:
            if error.args[0] == TIMEOUT:
                return b" 0"
            if error.args[0] == VICTIM:
                raise Wrong(3058) from error
            raise
        return b" 1"

    def release_lock(self, words):
        """RELEASE_LOCK: releases the newest ticket of a name, or says whether another session holds the name."""
        key = user_lock(words[0])
        yield from ()
        had = [it for it in self.space.held[self.who] if it.key == key]
        if had:
            self.space.release(had[-1:])
            return b" 1"
        self.space.place(key)
        return b" NULL" if self.space.can_have(self.who, key, b"X") else b" 0"

    def kill(self, words):
        """KILL QUERY."""
        self.space.settle(int(words[1]), KILLED)
        yield from ()

    def time_out(self, _):
        """TIMEOUT of a session that doesn't wait."""
        self.space.settle(self.who, TIMEOUT)
        yield from ()

    def run(self, words):
        """Runs a statement to its end, and returns its answer."""
        start, self.is_committing = self.mark(), False
        try:
            shown = yield from STATEMENTS[find(words)](self, words[1:])
            self.end_statement()
            return b"OK" + (shown or b"")
        except Early as error:
            return b"ERR %d" % error.args
        except Wrong as error:
            self.end_statement()
            return b"ERR %d" % error.args
        except Lost as error:
            self.lose(error.args[0], start)
            return b"ERR %d" % error.args

    def lose(self, why, start):
        """Ends a statement that didn't get a lock."""
        if why == VICTIM or not self.is_open:
            self.end_transaction()
        elif not self.is_committing:
            self.go_back(start)


# The statements, by the first words that tell them apart.
STATEMENTS = {
    **{(it,): Session.begin for it in (b"BEGIN", b"START")},
    **{(it,): Session.write for it in (b"INSERT", b"UPDATE", b"DELETE")},
    **{(b"COMMIT",): Session.end, (b"ROLLBACK",): Session.roll_back, (b"SAVEPOINT",): Session.save, (b"SELECT",): Session.read},
    **{(b"CREATE", b"TABLE"): Session.create_table, (b"DROP", b"TABLE"): Session.drop_tables, (b"RENAME",): Session.rename},
    **{(b"CREATE", b"SCHEMA"): Session.create_schema, (b"DROP", b"SCHEMA"): Session.drop_schema, (b"ALTER",): Session.alter},
    **{(b"LOCK",): Session.lock_tables, (b"UNLOCK",): Session.unlock_tables, (b"FLUSH",): Session.flush},
    **{(b"KILL",): Session.kill, (b"TIMEOUT",): Session.time_out},
    **{(b"GET_LOCK",): Session.get_lock, (b"RELEASE_LOCK",): Session.release_lock},
}


def find(words):
    """Returns the first words of a statement, as `STATEMENTS` has them."""
    return words[:1] if words[:1] in STATEMENTS else words[:2]


def go_on(session):
    """Continues a session's statement until it is done or waits, and returns the line of answers for that."""
    head = b"%d %d " % (session.line, session.who)
    try:
        ticket = next(session.running)
        return head + b"WAIT " + NAMES[ticket.key[0]] % ticket.key[1:] + b" " + ticket.mode
    except StopIteration as done:
        return head + done.value


def played(lines, matrices):
    """Returns all answers to the lines of a script, and the space as they leave it."""
    space = Space(matrices, {it.session for it in lines})
    space.place(schema(b"test"))
    space.change(schema(b"test"), "schema")
    sessions = {it: Session(it, space) for it in space.held}
    answers = []
    for line in lines:
        session = sessions[line.session]
        if session.who not in space.waits:
            session.running, session.line = session.run(line.words), line.number
            answers.append(go_on(session))
        elif line.words == (b"TIMEOUT",):
            space.settle(session.who, TIMEOUT)
            answers.append(b"%d %d OK" % (line.number, session.who))
        else:
            answers.append(b"%d %d BUSY" % (line.number, session.who))
        while space.settled:
            answers.append(go_on(sessions[min(space.settled)]))
    return b"".join(it + b"\n" for it in [*answers, *(b"END %d WAIT" % it for it in sorted(space.waits))]), space

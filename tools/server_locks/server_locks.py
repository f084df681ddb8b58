"""Asks mdlview about the locks of a real server, ends the session that it names first, and looks whether just those go on that it foretold.

It starts a MariaDB of its own, in a temporary folder and on a socket there, and stops it at the end. It installs nothing: the programs mariadbd,
mariadb-install-db and mariadb have to be there (apt-get install mariadb-server). Some jams are made. In each the program is asked, what it names first is
typed, and the rows are read again until nothing changes; and so on, until it names nobody. Where the server can't be helped by a KILL that the rows show,
the jam ends with a statement of its own, and all sessions have to go on.

Usage, at the top of the repository: python3 tools/server_locks/server_locks.py [--program PROGRAM] [--save FOLDER] [JAM ..]
  --program PROGRAM   asked in place of crates/mdlview/out/mdlview; its words are parted by spaces
  --save FOLDER       keeps the rows of each jam as FOLDER/JAM.rows, and what the program prints of them as FOLDER/JAM.why
  JAM                 some of the jams, in place of all
"""

import argparse
import json
import os
import pathlib
import re
import shutil
import signal
import subprocess
import sys
import tempfile
import time
from typing import NamedTuple

from jams import JAMS

PROGRAM = "crates/mdlview/out/mdlview"
NEEDED = ("mariadbd", "mariadb-install-db", "mariadb")

# A statement that ends a session or its statement, as the program prints it.
KILL = re.compile(r"KILL (?:QUERY )?(\d+);")

# How long a session has to go on at once, in turn, and how long the rows have to stay as they are until nothing more is expected, in seconds.
AT_ONCE = 0.3
IN_TURN = 30
QUIET = 2

# The server reads INNODB_TRX anew once nobody has asked for it for a tenth of a second.
STALE = 0.2


class Server:
    """A MariaDB on a socket of its own."""

    def __init__(self, folder, query):
        self.query = query
        self.socket = f"{folder}/socket"
        data = f"{folder}/data"
        user = ["--user=root"] if os.getuid() == 0 else []
        subprocess.run(
            ["mariadb-install-db", "--no-defaults", *user, f"--datadir={data}", "--auth-root-authentication-method=normal", "--skip-test-db"],
            check=True, stdout=subprocess.DEVNULL, stderr=subprocess.DEVNULL,
        )
        self.log = open(f"{folder}/log", "w", encoding="utf-8")
        self.process = subprocess.Popen(
            ["mariadbd", "--no-defaults", *user, f"--datadir={data}", f"--socket={self.socket}", "--skip-networking", "--max-allowed-packet=64M",
             "--performance-schema=ON", "--performance-schema-instrument=wait/lock/metadata/sql/mdl=ON", "--lock-wait-timeout=600",
             "--innodb-lock-wait-timeout=600", "--innodb-flush-log-at-trx-commit=0"],
            stdout=self.log, stderr=self.log,
        )
        wait_until(lambda: self.run("SELECT 1", check=False) == "1\n", "the server to start", 60)
        for user in ("app", "dump", "admin"):
            self.run(f"CREATE USER {user}@localhost; GRANT ALL ON *.* TO {user}@localhost")

    def run(self, text, check=True, heads=False):
        """Runs a text in a new client, and returns what the client prints."""
        ran = subprocess.run([*self.client("root"), *([] if heads else ["-N"]), "-e", text], capture_output=True, check=False)
        if check and ran.returncode != 0:
            raise RuntimeError(f"{text}: {ran.stderr.decode()}")
        return ran.stdout.decode("utf-8", "surrogateescape")

    def client(self, user):
        """Returns the words that start a client."""
        return ["mariadb", "--no-defaults", f"--user={user}", f"--socket={self.socket}", "-B", "-n"]

    def rows(self):
        """Returns the rows of metadata locks as the client prints them."""
        return self.run(self.query, heads=True)

    def stop(self):
        """Stops the server."""
        self.process.send_signal(signal.SIGTERM)
        self.process.wait(60)
        self.log.close()


class Session:
    """A session of a client that stays connected."""

    def __init__(self, server, user):
        self.process = subprocess.Popen(
            [*server.client(user), "-N", "--force", "--unbuffered"], stdin=subprocess.PIPE, stdout=subprocess.PIPE, stderr=subprocess.DEVNULL
        )
        self.connection = int(self.ask("SELECT CONNECTION_ID()"))

    def ask(self, text):
        """Runs a statement to its end and returns the first line that it prints."""
        self.tell(text)
        return self.process.stdout.readline().decode()

    def tell(self, text):
        """Sends a statement and doesn't wait for its end."""
        self.process.stdin.write(f"{text};\n".encode())
        self.process.stdin.flush()

    def close(self):
        """Ends the client."""
        self.process.kill()
        self.process.wait()
        self.process.stdin.close()
        self.process.stdout.close()


def wait_until(test, what, seconds=20, pause=0.05):
    """Waits until a test passes."""
    end = time.monotonic() + seconds
    while not test():
        if time.monotonic() > end:
            raise RuntimeError(f"waited in vain for {what}")
        time.sleep(pause)


class Scene:
    """Sessions of a server, of which some wait; the statement that ends the jam where the rows show nobody to end, and whether some wait can't be explained."""

    def __init__(self, server):
        self.server = server
        self.sessions = []
        self.rescue = None
        self.unexplained = False
        server.run("DROP DATABASE IF EXISTS shop; DROP DATABASE IF EXISTS `Shop-1`; CREATE DATABASE shop; CREATE DATABASE `Shop-1`")

    def run(self, *texts):
        """Runs statements in a client that ends then."""
        self.server.run("; ".join(["USE shop", *texts]))

    def session(self, user="app"):
        """Returns a new session."""
        self.sessions.append(Session(self.server, user))
        return self.sessions[-1]

    def holder(self, *tables, user="app"):
        """Returns a new session that has read these tables in a transaction that stays open."""
        return self.transaction(*(f"SELECT COUNT(*) FROM {table}" for table in tables), user=user)

    def transaction(self, *texts, user="app"):
        """Returns a new session that has run statements in a transaction that stays open."""
        session = self.session(user)
        session.ask("; ".join(["BEGIN", *texts, "SELECT 'done'"]))
        self.until_idle(session)
        return session

    def idle(self, text, user="app"):
        """Returns a new session that has run a statement."""
        session = self.session(user)
        session.ask(f"{text}; SELECT 'done'")
        self.until_idle(session)
        return session

    def until_idle(self, session):
        """Waits until a session's statements have ended."""
        question = f"SELECT command FROM information_schema.processlist WHERE id = {session.connection}"
        wait_until(lambda: self.server.run(question) == "Sleep\n", "a session to be idle")

    def waiter(self, text, user="app"):
        """Returns a new session whose statement waits for a metadata lock."""
        return self.wait(self.session(user), text)

    def wait(self, session, text):
        """Sends a statement, and returns the session once it waits for a metadata lock."""
        session.tell(text)
        question = f"SELECT state FROM information_schema.processlist WHERE id = {session.connection}"
        wait_until(lambda: self.server.run(question).startswith(("Waiting for", "User lock")), text)
        return session

    def wait_for_row(self, text, user="app"):
        """Returns a new session whose statement waits for a row."""
        session = self.session(user)
        session.tell(text)
        question = f"SELECT trx_state FROM information_schema.innodb_trx WHERE trx_mysql_thread_id = {session.connection}"
        wait_until(lambda: self.server.run(question) == "LOCK WAIT\n", text, pause=STALE)
        return session

    def instrument(self, enabled):
        """Turns the instrument of metadata locks on or off."""
        self.server.run(f"UPDATE performance_schema.setup_instruments SET enabled = '{enabled}' WHERE name = 'wait/lock/metadata/sql/mdl'")

    def close(self):
        """Ends all sessions, and what would outlast them."""
        for session in self.sessions:
            session.close()
        if self.rescue:
            self.server.run(self.rescue, check=False)
        question = "SELECT COUNT(*) FROM information_schema.processlist WHERE user IN ('app', 'dump', 'admin')"
        for connection in self.server.run("SELECT id FROM information_schema.processlist WHERE user IN ('app', 'dump', 'admin')").split():
            self.server.run(f"KILL {connection}", check=False)
        wait_until(lambda: self.server.run(question) == "0\n", "all to end", 60)


class Row(NamedTuple):
    """What is looked at of a row: the thread, its connection and what that does, the lock, and the status."""

    thread: int
    connection: str
    command: str
    lock: tuple
    status: str


def rows_of(text):
    """Returns the rows of a text."""
    head, *lines = [line.split("\t") for line in text.splitlines()] or [[]]
    place = {name: column for column, name in enumerate(head)}
    return [
        Row(
            int(line[place["OWNER_THREAD_ID"]]), line[place["PROCESSLIST_ID"]], line[place["COMMAND"]],
            tuple(line[place[name]] for name in ("OBJECT_TYPE", "OBJECT_SCHEMA", "OBJECT_NAME")), line[place["LOCK_STATUS"]],
        )
        for line in lines
    ]


def waiting(text):
    """Returns the waits of some rows: a thread and a lock each."""
    return {(row.thread, row.lock) for row in rows_of(text) if row.status == "PENDING"}


class Foretold(NamedTuple):
    """What is to be typed, and the threads that go on then, at once and in turn."""

    statements: list
    at_once: set
    in_turn: set


def foretold(text, answer):
    """Returns what the program foretells of what it names first, or of sessions that have to end together; or None if it names nobody."""
    typed = [kill[0] for kill in KILL.finditer(text)]
    if answer["ways"]:
        way = answer["ways"][0]
        return Foretold(typed[:1], {it["session"]["thread"] for it in way["at_once"]}, {it["session"]["thread"] for it in way["in_turn"]})
    if answer["joint"]:
        return Foretold(typed, {answer["joint"][0]["session"]["thread"]}, set())
    return None


def ask(program, rows, *words):
    """Returns what the program prints of some rows, and whether it explains all waits: its status is 0 then, and 4 if not."""
    ran = subprocess.run([*program, "why", *words], input=rows.encode("utf-8", "surrogateescape"), capture_output=True, check=False)
    if ran.returncode not in (0, 4):
        raise RuntimeError(f"why {' '.join(words)}: status {ran.returncode}, {ran.stderr.decode()}\n{rows}")
    return ran.stdout.decode("utf-8", "surrogateescape"), ran.returncode == 0


def ends(server, before, statement):
    """Runs a KILL and waits until its session has ended, or only the session's statement. Returns the session's thread."""
    connection = KILL.match(statement)[1]
    server.run(statement)
    question = f"SELECT COUNT(*) FROM information_schema.processlist WHERE id = {connection}"
    wait_until(lambda: server.run(question + (" AND info IS NOT NULL" if "QUERY" in statement else "")) == "0\n", f"the end after {statement}")
    return next(row.thread for row in rows_of(before) if row.connection == connection)


def settled(server, before):
    """Returns the waits that ended once the rows have been quiet for a while. Sessions that have gone on and are idle then are ended, since what is
    foretold in turn is foretold for the case that they end."""
    last, since, end = None, time.monotonic(), time.monotonic() + IN_TURN
    while time.monotonic() < min(end, since + QUIET):
        rows = server.rows()
        now = waiting(rows)
        if now != last or running(server):
            last, since = now, time.monotonic()
        went_on = {thread for thread, _ in before - now}
        for connection in {row.connection for row in rows_of(rows) if row.thread in went_on and row.command == "Sleep"}:
            server.run(f"KILL {connection}", check=False)
        time.sleep(STALE)
    return before - last


def running(server):
    """Returns whether some session's statement runs and doesn't wait."""
    return server.run(
        "SELECT COUNT(*) FROM information_schema.processlist WHERE user IN ('app', 'dump', 'admin') AND command = 'Query' AND state NOT LIKE 'Waiting for%'"
        " AND state <> 'User lock' AND id NOT IN (SELECT trx_mysql_thread_id FROM information_schema.innodb_trx WHERE trx_state = 'LOCK WAIT')"
    ) != "0\n"


def wrong_end(server, program, rows):
    """Types what the program names first, and returns what was wrong, or None, and whether it named anybody."""
    if not waiting(rows):
        return None, False
    text, explained = ask(program, rows)
    if (found := foretold(text, json.loads(ask(program, rows, "--json")[0]))) is None:
        return f"some wait, and nobody is named\n{rows}{text}" if explained else None, False
    ended = {ends(server, rows, statement) for statement in found.statements}
    time.sleep(AT_ONCE)
    before = {wait for wait in waiting(rows) if wait[0] not in ended}
    early = {thread for thread, _ in before - waiting(server.rows())}
    late = {thread for thread, _ in settled(server, before)}
    if not found.at_once <= early <= late or late != found.at_once | found.in_turn:
        return f"after {' '.join(found.statements)}: foretold {found.at_once}, then {found.in_turn}; went on {early}, then {late}\n{rows}{text}", True
    print(f"  {' '.join(found.statements)} {len(early)} went on at once, {len(late)} in all, as foretold")
    return None, True


def rescued(scene):
    """Runs the statement that ends the rest of a jam where the rows name nobody."""
    if scene.rescue is None:
        return
    before = waiting(scene.server.rows())
    scene.server.run(scene.rescue, check=False)
    print(f"  {scene.rescue}; {len(settled(scene.server, before))} went on")


def still_waiting(server):
    """Returns the rows if some session waits, or None."""
    rows = server.rows()
    return f"the jam hasn't ended\n{rows}" if waiting(rows) else None


def wrong_jam(server, program, make, folder):
    """Makes a jam, ends its sessions until the program names none, and returns what was wrong, or None."""
    print(f"{make.__name__}: {make.__doc__}", flush=True)
    scene = Scene(server)
    try:
        make(scene)
        rows = server.rows()
        if folder:
            pathlib.Path(folder, f"{make.__name__}.rows").write_bytes(rows.encode("utf-8", "surrogateescape"))
            pathlib.Path(folder, f"{make.__name__}.why").write_bytes(ask(program, rows)[0].encode("utf-8", "surrogateescape"))
        wrong, named = wrong_end(server, program, rows)
        while named and not wrong:
            wrong, named = wrong_end(server, program, server.rows())
        if scene.unexplained and ask(program, rows)[1]:
            return f"{make.__name__}: all waits are explained\n{rows}"
        if not wrong:
            rescued(scene)
        return wrong or still_waiting(server)
    except RuntimeError as failed:
        return f"{make.__name__}: {failed}"
    finally:
        scene.close()


def main():
    """Makes the jams that are asked for, prints what differs from the foretold, and returns the exit status."""
    words = argparse.ArgumentParser(description=__doc__, formatter_class=argparse.RawDescriptionHelpFormatter)
    words.add_argument("--program", default=PROGRAM)
    words.add_argument("--save")
    words.add_argument("jams", nargs="*", metavar="JAM", help=", ".join(JAMS))
    asked = words.parse_args()
    if missing := [name for name in NEEDED if not shutil.which(name)]:
        print(f"{', '.join(missing)}: not there. apt-get install mariadb-server", file=sys.stderr)
        return 2
    program = asked.program.split()
    query = subprocess.run([*program, "query", "--server", "mariadb"], capture_output=True, check=True, text=True).stdout
    wrong = []
    with tempfile.TemporaryDirectory() as folder:
        server = Server(folder, query)
        try:
            for name in asked.jams or JAMS:
                wrong += [found] if (found := wrong_jam(server, program, JAMS[name], asked.save)) else []
        finally:
            server.stop()
    print(*wrong, sep="\n", end="\n" if wrong else "", file=sys.stderr)
    print(f"{len(wrong)} jams went otherwise" if wrong else "all went as foretold")
    return 1 if wrong else 0


if __name__ == "__main__":
    sys.exit(main())

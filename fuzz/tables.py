"""Random rows of a server's metadata locks, and how clients print rows. Texts have a character for each byte. A value is empty if it is NULL."""

import dataclasses
import json

from modes import KINDS, LATER, CLASHES, MODES, OF_MODE

NEEDED = ["OBJECT_TYPE", "OBJECT_SCHEMA", "OBJECT_NAME", "LOCK_TYPE", "LOCK_STATUS", "OWNER_THREAD_ID"]
PROCESSES = ["PROCESSLIST_ID", "USER", "HOST", "COMMAND", "TIME", "INFO", "TRX_STARTED"]
LONGER = {"USER", "HOST", "COMMAND", "TIME", "INFO"}
ESCAPES = {"\\": "\\\\", "\t": "\\t", "\n": "\\n", "\0": "\\0"}

DEFINITIONS = ["TABLE", "TABLE", "TABLE", "FUNCTION", "PROCEDURE", "TRIGGER", "EVENT", "LOCKING SERVICE", "PACKAGE BODY"]
SINGLE = ["GLOBAL", "COMMIT", "BACKUP", "BACKUP LOCK"]
UNKNOWN = [
    ("ACL CACHE", "SHARED"), ("RESOURCE_GROUPS", "INTENTION_EXCLUSIVE"), ("CHECK CONSTRAINT", "SHARED"), ("TABLE", "INTENTION_EXCLUSIVE"),
    ("GLOBAL", "SHARED_READ"), ("", "EXCLUSIVE"), ("FOREIGN\x01KEY.x", "EXCLUSIVE"), ("BACKUP", "BACKUP_UNHEARD_OF"), ("TABLE", "shared"),
]
STATUSES = ["VICTIM", "TIMEOUT", "KILLED", "PRE_ACQUIRE_NOTIFY", "POST_RELEASE_NOTIFY"]
NAMES = ["orders", "t", "Orders-2", "a.b", "caf\xc3\xa9", "caf\xe9", 'q"uote', "\xe2\x82\xac" * 40, "n" * 64, "x y"]
ODD_NAMES = ["tab\there", "back\\slash", "line\nend", "bell\x07", "del\x7f", "comma,s", "nul\0"]
# What may stand above the rows on a screen, and below those in boxes or with a line for each field.
ABOVE = [
    "mysql> SELECT OBJECT_TYPE, OBJECT_NAME FROM performance_schema.metadata_locks;\n", "MariaDB [shop]> SELECT a, b\n    -> FROM t\\G\n", " \n",
    "mysql: [Warning] Using a password on the command line interface can be insecure.\n", "Enter password: \n", "Database changed\n",
    "[root@db1 ~]# mysql -t < query.sql\n", "Query OK, 0 rows affected (0.00 sec)\n\n", "Empty set, 1 warning (0.00 sec)\n",
]
BELOW = ["7 rows in set (0.00 sec)\n", "1 row in set, 1 warning (0.01 sec)\n\nmysql> \n"]
STATEMENTS = [
    "SELECT 1", "ALTER TABLE t ADD c INT, ALGORITHM=COPY", "INSERT INTO t VALUES ('\xc3\xbc', \"b\")", "SELECT '" + "long " * 30 + "'", "DROP TABLE t",
]
ODD_STATEMENTS = ["SELECT 1,\n  2\n  FROM t", "SELECT\t1", "SELECT '\\x', '\x01'"]


# ---- forms


def tab_rows(text):
    """Returns the columns and the rows of a text that `mysql -B` printed."""
    head, *lines = [[value_of(field) for field in line.split("\t")] for line in text.split("\n") if line]
    return head, [dict(zip(head, line)) for line in lines]


def value_of(field):
    """Returns the value that a field between tabs stands for."""
    if field == "NULL":
        return ""
    parts = field.split("\\\\")
    for escape in ("\t", "\n", "\0"):
        parts = [part.replace(ESCAPES[escape], escape) for part in parts]
    return "\\".join(parts)


def with_tabs(columns, rows, dice):
    """Returns rows as `mysql -B` prints them."""
    del dice
    lines = ["\t".join(columns), *("\t".join("".join(ESCAPES.get(it, it) for it in row[column]) or "NULL" for column in columns) for row in rows)]
    return "".join(line + "\n" for line in lines)


def with_stars(columns, rows, dice):
    """Returns rows as `mysql -E` prints them."""
    del dice
    width = max(len(column) for column in columns)
    return "".join(f"{'*' * 27} {number}. row {'*' * 27}\n" + "".join(f"{column.rjust(width)}: {row[column] or 'NULL'}\n" for column in columns)
                   for number, row in enumerate(rows, 1))


def with_boxes(columns, rows, dice):
    """Returns rows as `mysql -t` prints them."""
    del dice
    cells = [columns, *([row[column] or "NULL" for column in columns] for row in rows)]
    widths = [max(len(line[place]) for line in cells) for place in range(len(columns))]
    edge = "+" + "".join("-" * (width + 2) + "+" for width in widths) + "\n"
    lines = ["| " + " | ".join(cell.ljust(width) for cell, width in zip(line, widths)) + " |\n" for line in cells]
    return edge + lines[0] + edge + "".join(lines[1:]) + edge


def with_commas(columns, rows, dice):
    """Returns rows as CSV: NULL is empty, `NULL` or `\\N`, and some values are in quotes that need none."""
    null, end = dice.choice(["", "NULL", "\\N"]), dice.choice(["\n", "\n", "\r\n"])
    lines = [columns, *([row[column] for column in columns] for row in rows)]
    return "".join(",".join(comma_field(value, null, dice) for value in line) + end for line in lines)


def comma_field(value, null, dice):
    """Returns a field of CSV."""
    if not value:
        return null
    if any(it in value for it in ',"\n') or value in ("NULL", "\\N") or dice.random() < 0.1:
        return '"' + value.replace('"', '""') + '"'
    return value


def with_objects(columns, rows, dice):
    """Returns rows as JSON: in an array or one after another, each on a line or not. Behind the first row, keys of NULL may be missing, and keys are in
    any order and case at times."""
    objects = [{column: json_value(row[column], dice) for column in columns} for row in rows]
    is_turned, has_nulls, is_ascii, is_list = (dice.random() < 0.5 for _ in range(4))
    indent = dice.choice([None, None, 1, 4])
    for it in objects[1:]:
        keys = [key for key in it if has_nulls or it[key] is not None]
        members = [(key.swapcase() if is_turned else key, it[key]) for key in (dice.sample(keys, len(keys)) if is_turned else keys)]
        it.clear()
        it.update(members)
    if is_list:
        text = json.dumps(objects, indent=indent, ensure_ascii=is_ascii)
    else:
        text = "".join(json.dumps(it, indent=indent, ensure_ascii=is_ascii) + dice.choice(["", "\n", "\r\n"]) for it in objects)
    return text.encode().decode("latin-1")


def json_value(value, dice):
    """Returns what stands for a value in JSON: nothing for NULL, and a number for digits at times."""
    if not value:
        return dice.choice([None, None, ""])
    is_number = value.isascii() and value.isdecimal() and value[0] != "0"
    return int(value) if is_number and dice.random() < 0.7 else value.encode("latin-1").decode()


def is_utf8(text):
    """Whether the bytes of a text are UTF-8."""
    try:
        return bool(text.encode("latin-1").decode()) or not text
    except UnicodeDecodeError:
        return False


FORMS = {"batch": with_tabs, "vertical": with_stars, "boxes": with_boxes, "csv": with_commas, "json": with_objects}


# ---- rows by chance


@dataclasses.dataclass
class Session:
    """A thread, and what its rows say of its process."""

    thread: int
    described: dict
    changes: bool


class Rows:
    """Random rows."""

    def __init__(self, dice):
        self.dice, self.rows = dice, []
        self.form = dice.choices(list(FORMS), [7, 1, 1, 1, 2])[0]
        self.has_durations = dice.random() < 0.8
        self.has_processes = dice.random() < 0.7
        self.is_odd = dice.random() < 0.15 and self.form in ("batch", "csv", "json")
        self.keys = [self.key() for _ in range(dice.choice([1, 1, 2, 3, 6]))]
        threads = dice.sample(range(1, 100000), dice.choice([2, 3, 5, 9, 14, 30, 44]))
        self.sessions = [self.session(thread) for thread in threads]

    def key(self):
        """Returns what a lock is of."""
        dice, names = self.dice, NAMES + (ODD_NAMES if self.is_odd else [])
        names = [it for it in names if is_utf8(it) or self.form != "json"]
        kind = dice.choice([*dice.sample(DEFINITIONS, 2), dice.choice(SINGLE), "SCHEMA", "TABLESPACE", "USER LEVEL LOCK", "TABLE"])
        schema, thing = dice.choice(["shop", "shop", dice.choice(names)]), dice.choice(names)
        if kind in SINGLE:
            return kind, "", ""
        return kind, "" if kind in ("TABLESPACE", "USER LEVEL LOCK") else schema, "" if kind == "SCHEMA" else thing

    def session(self, thread):
        """Returns a session, with what is known of it: all, or nothing because it is a thread of the server's own."""
        dice = self.dice
        if not self.has_processes or dice.random() < 0.12:
            return Session(thread, {}, dice.random() < 0.5)
        is_asleep = dice.random() < 0.35
        described = {
            "PROCESSLIST_ID": str(dice.randrange(1, 10**6)),
            "USER": dice.choice(["app", "o'hara", "", "root"]), "HOST": dice.choice(["localhost", "10.0.0.7", ""]),
            "COMMAND": "Sleep" if is_asleep else dice.choice(["Query", "Query", "Execute", "Daemon"]),
            "TIME": dice.choice([str(dice.randrange(5000)), ""]),
            "INFO": "" if is_asleep else dice.choice(STATEMENTS + (ODD_STATEMENTS if self.is_odd else []) + [""]),
            "TRX_STARTED": dice.choice(["", "2026-11-29 03:12:44"]),
        }
        return Session(thread, described, dice.random() < 0.4)

    def add(self, key, mode, status, session):
        """Adds a row."""
        dice = self.dice
        lock_type = mode if key[0] == "BACKUP" else MODES[mode]
        if mode == "SRO" and dice.random() < 0.3:
            lock_type = ""
        elif dice.random() < 0.1:
            lock_type = "MDL_" + lock_type
        duration = dice.choice(["TRANSACTION", "TRANSACTION", "TRANSACTION", "STATEMENT", "EXPLICIT"])
        self.rows.append({**dict.fromkeys(NEEDED, ""), **dict(zip(NEEDED, [*key, lock_type, status, str(session.thread)])), "LOCK_DURATION": duration,
                          **dict.fromkeys(PROCESSES, ""), **session.described})

    def modes(self, key, session):
        """Returns the modes that a session may want."""
        modes = OF_MODE[KINDS[key[0]]]
        if KINDS[key[0]] != "object":
            return modes
        return self.dice.choice([modes, ["SU", "SNW", "SNRW", "X"]] if session.changes else [modes, ["SR", "SW"], ["SR"], ["SR", "S", "SH", "SW"]])

    def add_any(self):
        """Adds rows of any tickets, which need not go together."""
        dice = self.dice
        shares = dice.choice([(6, 3, 0), (4, 4, 1), (2, 6, 0), (8, 1, 0)])
        for _ in range(dice.choice([3, 6, 12, 30])):
            key, session = dice.choice(self.keys), dice.choice(self.sessions)
            self.add(key, dice.choice(self.modes(key, session)), dice.choices(["GRANTED", "PENDING", dice.choice(STATUSES)], shares)[0], session)

    def add_lawful(self):
        """Adds rows as a server has them: what is granted goes together, each session waits for one lock at most, and no wait can be granted."""
        dice, granted, waiting = self.dice, [], set()
        for _ in range(dice.choice([6, 12, 25, 40])):
            key, session = dice.choice(self.keys), dice.choice(self.sessions)
            if session.thread in waiting:
                continue
            mode = dice.choice(self.modes(key, session))
            others = [(held, it) for its_key, held, it in granted if its_key == key and it is not session]
            if any((mode, held) in CLASHES[KINDS[key[0]]] for held, _ in others):
                waiting.add(session.thread)
                self.add(key, mode, "PENDING", session)
            elif mode != "X" or dice.random() < 0.2:
                granted.append((key, mode, session))
                self.add(key, mode, "GRANTED", session)

    def add_upgraded(self):
        """Adds rows of a ticket that was upgraded, which its row doesn't show, and of others that wait behind it."""
        dice = self.dice
        key = dice.choice([("BACKUP", "", ""), ("TABLE", "shop", "t"), *self.keys])
        if KINDS[key[0]] == "scoped" or len(self.sessions) < 2:
            return
        holder, *others = dice.sample(self.sessions, min(len(self.sessions), 6))
        mode = dice.choice([mode for mode in LATER if mode in OF_MODE[KINDS[key[0]]]])
        now = dice.choice(LATER[mode])
        self.add(key, mode, "GRANTED", holder)
        behind = [asked for asked, held in sorted(CLASHES[KINDS[key[0]]]) if held == now]
        for other in others:
            self.add(key, dice.choice(behind), "PENDING", other)

    def add_settled(self):
        """Adds rows of waits that are over, and of others behind them."""
        key, (one, *others) = ("TABLE", "shop", "over"), self.dice.sample(self.sessions, min(len(self.sessions), 4))
        self.add(key, "X", self.dice.choice(["VICTIM", "TIMEOUT", "KILLED"]), one)
        for other in others:
            self.add(key, self.dice.choice(["SR", "SW", "SNW"]), "PENDING", other)

    def add_pairs(self):
        """Adds rows of many tables, each with a session that has it and one that waits for it."""
        kept = [it for it in self.sessions if self.dice.random() < 0.9]
        for place, (one, other) in enumerate(zip(kept[::2], kept[1::2])):
            key = ("TABLE", "shop", f"t{place}")
            for held in range(self.dice.choice([1, 1, 12])):
                self.add((*key[:2], f"t{place}_{held}") if held else key, "SR", "GRANTED", one)
            self.add(key, "X", "PENDING", other)

    def add_crowd(self):
        """Adds rows of one lock that many sessions have, and that many wait for."""
        key, count = self.keys[0], self.dice.randrange(1, len(self.sessions))
        held = {"scoped": "IX", "object": self.dice.choice(["SR", "SW"]), "backup": self.dice.choice(["BACKUP_DML", "BACKUP_TRANS_DML"])}
        asked = {"scoped": ["S", "X"], "object": ["X", "SNRW"], "backup": ["BACKUP_FTWRL1", "BACKUP_FTWRL2"]}
        for place, session in enumerate(self.sessions):
            kind = KINDS[key[0]]
            is_held = place < count
            self.add(key, held[kind] if is_held else self.dice.choice(asked[kind]), "GRANTED" if is_held else "PENDING", session)

    def add_unread(self):
        """Adds rows that aren't read."""
        dice = self.dice
        for _ in range(dice.choice([1, 2, 20])):
            kind, lock_type = dice.choice([*UNKNOWN, (f"KIND_{dice.randrange(30)}", "EXCLUSIVE")])
            self.add(("TABLE", "shop", "t"), "X", dice.choice(["GRANTED", "PENDING", *STATUSES]), dice.choice(self.sessions))
            self.rows[-1] |= {"OBJECT_TYPE": kind, "LOCK_TYPE": lock_type}

    def make(self):
        """Makes the rows, in any order but at least one."""
        dice = self.dice
        dice.choices([self.add_any, self.add_lawful, self.add_pairs, self.add_crowd], [6, 12, 2, 2])[0]()
        for chance, make in ((0.2, self.add_upgraded), (0.15, self.add_unread), (0.03, self.add_settled)):
            if dice.random() < chance or not self.rows:
                make()
        if not self.rows:
            self.add(self.keys[0], OF_MODE[KINDS[self.keys[0][0]]][0], "GRANTED", self.sessions[0])
        if dice.random() < 0.2:
            dice.shuffle(self.rows)

    def columns(self):
        """Returns the columns, in any order at times, with names in other forms at times, and one more at times."""
        dice = self.dice
        columns = NEEDED + (["LOCK_DURATION"] if self.has_durations else []) + (PROCESSES if self.has_processes else [])
        if dice.random() < 0.2:
            columns = columns + ["OWNER_EVENT_ID"]
        if dice.random() < 0.2:
            dice.shuffle(columns)
        return columns


def pasted(text, form, dice):
    """Returns rows as they are copied from a screen at times: with other lines above them and below them, and with blanks before each line."""
    if dice.random() < 0.7:
        return text
    if form == "boxes" and dice.random() < 0.3:
        text = "".join(f"   {line}\n" for line in text.removesuffix("\n").split("\n"))
    below = dice.choice(BELOW) if form in ("boxes", "vertical") and dice.random() < 0.7 else ""
    return "".join(dice.choice(ABOVE) for _ in range(dice.randrange(4))) + text + below


def random_table(dice):
    """Returns the text of random rows, the columns that are read, and the rows."""
    made = Rows(dice)
    made.make()
    columns = made.columns()
    is_longer = dice.random() < 0.1
    printed = {column: f"PROCESSLIST_{column}" if is_longer and column in LONGER else column.lower() if is_longer else column for column in columns}
    known = [column for column in columns if column != "OWNER_EVENT_ID"]
    rows = [{column: row[column] for column in known} for row in made.rows]
    shown = [{printed[column]: row.get(column, "1") for column in columns} for row in rows]
    return pasted(FORMS[made.form](list(printed.values()), shown, dice), made.form, dice), known, rows

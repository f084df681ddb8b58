"""Rows of a server's metadata locks that mdlview has to read or to refuse: the groups of the files `view/rows` and `view/headers`, with each kind of
line end; the rows of `view/forms`, in each form in which clients print them, also as they are pasted from a terminal; and many threads, locks, types of
other rows and bytes of a name."""

import json
import pathlib
import subprocess

FOLDER = pathlib.Path(__file__).resolve().parent / "view"
COLUMNS = ("OBJECT_TYPE", "OBJECT_SCHEMA", "OBJECT_NAME", "LOCK_TYPE", "LOCK_DURATION", "LOCK_STATUS", "OWNER_THREAD_ID")
HEADER = "\t".join(COLUMNS)
WAITS = {"PENDING": "waits for", "SETTLED": "waited for"}

# What ends a line, and whether it ends the last one, too.
ENDS = [("\n", True), ("\r\n", True), ("\n", False), ("\r\n", False)]

# Texts without rows: without the header, and with a mark of Unicode before it.
NO_ROWS = ["", "\n", HEADER, HEADER + "\n", "\ufeff" + HEADER + "\n"]

# What is reported if there are no rows.
NO_ROWS_TOLD = """no rows. Either no session holds a lock, or the server keeps no rows. MySQL 5.7 keeps none until this is run:
  UPDATE performance_schema.setup_instruments SET ENABLED='YES', TIMED='YES' WHERE NAME='wait/lock/metadata/sql/mdl';
Locks that were taken before have no rows. MariaDB also needs performance_schema=ON in my.cnf, and a restart.
Until then, SHOW FULL PROCESSLIST has who waits for a metadata lock. KILL QUERY of the first ALTER or DROP
among them lets those behind it go on.
"""

# Forms in which clients print rows: with tabs, in boxes, a line for each field, and with commas (NULL as nothing, or as a word).
FORMS = ("table", "vertical", "csv", "csv_null")

# What may stand above the rows on a screen, and below them.
ABOVE = (
    "",
    "\n  \t\n",
    "mysql> SELECT OBJECT_TYPE, OBJECT_NAME\n    -> FROM performance_schema.metadata_locks;\n",
    "MariaDB [(none)]> SELECT a, b FROM t\\G\n",
    "mysql> SELECT 'a\n    '> b, c' FROM t\n    -> WHERE `a,\n    `> b` = \"a,\n    \"> b\";\n",
    "No connection. Trying to reconnect...\nConnection id:    14\nCurrent database: *** NONE ***\n\n",
    "mysql: [Warning] Using a password on the command line interface can be insecure.\n",
    "mariadb: Deprecated program name, it will be removed.\n",
    "WARNING: option --ssl-verify-server-cert is disabled, because of an insecure passwordless login.\n",
    "Warning: Using a password on the command line interface can be insecure.\n",
    "[root@db1 ~]# mysql -t -p < query.sql\nEnter password: \n",
    "app@db1:~$ mysql -t\nReading table information for completion of table and column names\n",
    "Server version: 5.7.44-log MySQL Community Server (GPL)\n\nCopyright (c) 2000, 2023, Oracle and/or its affiliates.\n",
    "mysql> UPDATE t SET a = 1, b = 2;\nQuery OK, 1 row affected (0.00 sec)\nRows matched: 1  Changed: 1  Warnings: 0\n\nmysql> SELECT a, b;\n",
    "mysql> SELECT 1, 2 FROM t;\nEmpty set, 1 warning (0.00 sec)\n\n12 rows in set, 1 warning (0.00 sec)\n1 row in set, 1 warning (0.00 sec)\n",
)
BELOW = ("", "1 row in set (0.00 sec)\n", "12 rows in set (0.00 sec)\n\nmysql> SELECT 1;\n", "  3 rows in set, 1 warning (0.01 sec)\n\n  MariaDB [(none)]>: \n")

# Texts without rows that a client prints, and texts of other things, each of which begins with a line that is no header of locks.
EMPTY = ("Empty set (0.00 sec)\n", "mysql> SELECT a, b FROM t;\nEmpty set (0.00 sec)\n\nmysql> \n", "mysql: [Warning] a, b\n", "\n \n")
OTHER = (
    "ERROR 1142 (42000): SELECT command denied to user 'a'@'b'\n",
    "ERROR 1227 (42000) at line 1: Access denied; you need (at least one of) the PROCESS privilege(s) for this operation\n",
    "bash: mysql: command not found\n",
    "nothing\n",
    "MYSQL> SELECT a, b\n",
)
NO_TABLE = "1 no table with a column OBJECT_TYPE. Give what this prints: mysql -B -e \"$(mdlview query)\"\n"

# More than any number of 16 bits.
MANY = 65_540


def found(program, text):
    """Returns the locks that the program finds in a text, a line for each, and what it leaves out; or what it reports. The status has to say whether
    some wait can't be explained."""
    ran = subprocess.run([program, "locks", "--json"], input=text.encode(), capture_output=True)
    if ran.returncode not in (0, 4):
        return [f"{ran.returncode} {ran.stderr.decode()}{ran.stdout.decode()}".replace(NO_ROWS_TOLD, "no rows\n")]
    answer = json.loads(ran.stdout.decode())
    locks = [f"{lock['lock']}: {', '.join(tickets_of(lock)) or 'nobody'}" for lock in answer["locks"]]
    left_out = [f"left out: {it['object_type']} {it['lock_type']} {it['rows']}{waiting_words(it['waiting'])}" for it in answer["left_out"]]
    lacks_reason = answer["unexplained"] or any(it["waiting"] for it in answer["left_out"])
    return locks + left_out + ([] if ran.returncode == (4 if lacks_reason else 0) else [f"status {ran.returncode}"])


def waiting_words(waiting):
    """Returns how many of the rows that are left out wait."""
    return f", {waiting} of them waiting" if waiting else ""


def tickets_of(lock):
    """Returns who holds a lock, who waits for it, and whose wait is over."""
    holds = [f"{who(it)} holds {it['mode']}" for it in lock["granted"]]
    return holds + [f"{who(it)} {WAITS[it['status']]} {it['mode']}" for it in lock["waiting"] + lock["settled"]]


def who(ticket):
    """Returns the thread of a ticket, and its connection if that is known."""
    thread, connection = ticket["session"]["thread"], ticket["session"]["connection"]
    return f"{thread}" if connection is None else f"{thread} of {connection}"


def groups(name):
    """Returns the groups of a file: the lines that are given, and those that are wanted."""
    for group in (FOLDER / name).read_text(encoding="utf-8").split("\n\n"):
        lines = [line for line in group.splitlines() if not line.startswith("#")]
        given = [line for line in lines if not line.startswith("=> ")]
        if lines:
            yield given, [line[3:] for line in lines[len(given) :]]


def field(word):
    """Returns the field that a word of a group stands for."""
    return "" if word == "''" else word.replace("~", " ")


def text_of(lines, end):
    """Returns the text of lines with this end."""
    mark, behind_all = end
    return mark.join(lines) + (mark if behind_all else "")


def wrong_groups(program):
    """Returns the groups that are read wrongly, with what was found."""
    for name, above in (("rows", [HEADER]), ("headers", [])):
        for given, wanted in groups(name):
            lines = above + ["\t".join(field(word) for word in line.split(" ")) for line in given]
            told = [f"1 {line}\n" if line.startswith(("line ", "no ")) else line for line in wanted]
            for end in ENDS:
                if (read := found(program, text_of(lines, end))) != told:
                    yield f"view/{name}, {given}, {end}", read
    for text in NO_ROWS:
        if (read := found(program, text)) != ["1 no rows\n"]:
            yield repr(text), read


def readers(threads, tables):
    """Returns rows by which `threads` threads read `tables` tables, taking both in turn."""
    rows = [f"TABLE\ts\tt{row % tables}\tSHARED_READ\tTRANSACTION\tGRANTED\t{row % threads}" for row in range(max(threads, tables))]
    return [HEADER, *rows]


def wrong_forms(program):
    """Returns the forms in which rows are read in another way than with tabs. Both files of a name were printed at the same time."""
    for name in ("plain", "odd"):
        wanted = found(program, (FOLDER / f"forms/{name}.batch").read_text(encoding="utf-8"))
        for form in FORMS:
            if (read := found(program, (FOLDER / f"forms/{name}.{form}").read_bytes().decode())) != wanted:
                yield f"view/forms/{name}.{form}", read


def wrong_pastes(program):
    """Returns the pasted rows that are read in another way than what `mysql -B` prints, the parts of rows that are read though a part above them is missing,
    and the texts that are refused for something else than what they are."""
    for name in ("plain", "odd"):
        wanted = found(program, (FOLDER / f"forms/{name}.batch").read_text(encoding="utf-8"))
        texts = {form: (FOLDER / f"forms/{name}.{form}").read_bytes().decode() for form in ("batch", *FORMS)}
        for above in ABOVE:
            for form, text in texts.items():
                if (read := found(program, above + text)) != wanted:
                    yield f"{above!r} above view/forms/{name}.{form}", read
            for form in ("table", "vertical"):
                for below in BELOW:
                    if (read := found(program, above + texts[form] + below)) != wanted:
                        yield f"{above!r} above and {below!r} below view/forms/{name}.{form}", read
    text = (FOLDER / "forms/plain.table").read_text(encoding="utf-8")
    lines, wanted = text.splitlines(), found(program, text)
    shapes = {
        "indented": [f"    {line}  " for line in lines],
        "no edges": [line for line in lines if line[0] != "+"],
        "edges of bars": ["|-" + line[2:] if line[0] == "+" else line for line in lines[1:-1]],
    }
    for shape, given in shapes.items():
        if (read := found(program, text_of(given, ENDS[0]))) != wanted:
            yield shape, read
    stars = (FOLDER / "forms/plain.vertical").read_text(encoding="utf-8").splitlines()
    if (read := found(program, text_of([f"  {line}" for line in stars], ENDS[0]))) != wanted:
        yield "indented rows of fields", read
    for text in (text_of(lines[3:], ENDS[0]), text_of(stars[1:], ENDS[0]), *OTHER):
        if (read := found(program, text)) != [NO_TABLE]:
            yield f"{text[:60]!r}", read
    for text in EMPTY:
        if (read := found(program, text)) != ["1 no rows\n"]:
            yield repr(text), read


def wrong_limits(program):
    """Returns the rows with many of something that are read wrongly."""
    many = found(program, text_of(readers(MANY, MANY), ENDS[0]))
    if many != [f"TABLE s.t{table}: {table} holds SR" for table in range(MANY)]:
        yield "many threads and locks", many[:3]
    # A bad line behind them is what is reported.
    lines = [*readers(MANY, 1), "TABLE\ts\tt\tSHARED\tEXPLICIT\tWAITS\t7"]
    if (read := found(program, text_of(lines, ENDS[0]))) != [f"1 line {MANY + 2}, column LOCK_STATUS: unknown status\n"]:
        yield "a bad line behind many threads", read
    # Thousands of other lock types, each once and then once more.
    lines = [HEADER, *(f"BACKUP\tNULL\tNULL\tB{row % 10000}\tEXPLICIT\tGRANTED\t7" for row in range(20000))]
    if (read := found(program, text_of(lines, ENDS[0]))) != [f"left out: BACKUP B{it} 2" for it in range(10000)]:
        yield "many types of rows", read[:3]
    # A name of 64 KB of backslashes: the client writes two for each, and so does mdlview.
    lines = [HEADER, "TABLE\ts\t" + 65536 * "\\\\" + "\tSHARED\tEXPLICIT\tGRANTED\t7"]
    if (read := found(program, text_of(lines, ENDS[0]))) != ["TABLE s." + 65536 * "\\\\" + ": 7 holds S"]:
        yield "a long name", [line[:50] for line in read]


def wrong_rows(program):
    """Returns what is read wrongly, with what was found."""
    return [*wrong_groups(program), *wrong_forms(program), *wrong_pastes(program), *wrong_limits(program)]

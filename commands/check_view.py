"""Gives mdlview words and scripts, and checks what it prints and its exit status: the answers of examples/view, what each form of its words
gives, objects of JSON beside the tables, timelines and pages, refused words and lines, rows of real servers and others, completions, and streams that fail.

Usage, at the top of the repository: python3 commands/check_view.py [PROGRAM]    the program that was built last, or another one
"""

import json
import pathlib
import re
import subprocess
import sys
from xml.etree import ElementTree

from devices import cases_of_mdlview, wrong_devices
from view_json import wrong_json
from view_pages import wrong_pages
from view_rows import NO_ROWS_TOLD, wrong_rows
from view_scripts import wrong_scripts

PROGRAM = "crates/mdlview/out/mdlview"
FOLDER = pathlib.Path(__file__).resolve().parent
EXAMPLES = FOLDER.with_name("examples")
SERVERS = FOLDER.with_name("tools") / "server_locks/answers"
VIEW = FOLDER / "view"
SIGNS = VIEW / "signs.replay"
COMPLETIONS = sorted(FOLDER.glob("completions/*mdlview*"))
VERSION = FOLDER.with_name("VERSION").read_text().strip()

WAITS = "1 CREATE TABLE t x\n1 BEGIN\n1 SELECT t\n2 DROP TABLE t\n"
WHY = """1 request waits. Ways out, the best first. Do one, and look again:
1. End session 1
   1 wait ends at once
   session 1 holds SR of TABLE test.t
   session 2 gets X of TABLE test.t
"""
USER_WHY = """1 request waits. Ways out, the best first. Do one, and look again:
1. End session 1
   1 wait ends at once
   session 1 holds X of USER a
   session 2 gets X of USER a
"""
NOBODY = "No session waits.\n"
HEADER = "OBJECT_TYPE\tOBJECT_SCHEMA\tOBJECT_NAME\tLOCK_TYPE\tLOCK_DURATION\tLOCK_STATUS\tOWNER_THREAD_ID\n"
SERVER = (
    HEADER
    + "TABLE\tshop\tOrders-2\tSHARED_READ\tTRANSACTION\tGRANTED\t48213\n"
    + "GLOBAL\tNULL\tNULL\tINTENTION_EXCLUSIVE\tSTATEMENT\tGRANTED\t48300\n"
    + "TABLE\tshop\tOrders-2\tEXCLUSIVE\tTRANSACTION\tPENDING\t48300\n"
)
KILL = " takes the number that this returns:\n   SELECT PROCESSLIST_ID FROM performance_schema.threads WHERE THREAD_ID = "
THREADS = """The numbers below are of threads. KILL takes those of connections, which differ. To get both, run:
   mysql -B -e "$(mdlview query)" | mdlview
"""
SERVER_WHY = f"""{THREADS}1 request waits. Ways out, the best first. Do one, and look again:
1. End thread 48213. KILL{KILL}48213;
   1 wait ends at once
   thread 48213 holds SR of TABLE shop.Orders-2
   thread 48300 gets X of TABLE shop.Orders-2
"""
CONNECTIONS = (
    HEADER.replace("\n", "\tPROCESSLIST_ID\tUSER\tHOST\tCOMMAND\tTIME\n")
    + "TABLE\tshop\torders\tSHARED_READ\tTRANSACTION\tGRANTED\t33\t8\tapp\t10.0.0.7\tSleep\t412\n"
    + "TABLE\tshop\torders\tEXCLUSIVE\tTRANSACTION\tPENDING\t34\t9\tadmin\tlocalhost\tQuery\t400\n"
)
CONNECTIONS_WHY = """1 request waits. Ways out, the best first. Do one, and look again:
1. KILL 8;  -- app@10.0.0.7, Sleep 412 s
   1 wait ends at once
   connection 8 (thread 33) holds SR of TABLE shop.orders
   connection 9 (thread 34) gets X of TABLE shop.orders
"""
LEFT_OUT = "FOREIGN KEY\tshop\tf\tSHARED\tTRANSACTION\tGRANTED\t48213\n"
OTHERS = HEADER + LEFT_OUT + "TABLESPACE\tNULL\tts\tSHARED_READ\tTRANSACTION\tGRANTED\t7\n" + LEFT_OUT
OTHERS_LEFT_OUT = "3 rows left out: FOREIGN KEY SHARED 2, TABLESPACE SHARED_READ 1\n"
UNREAD = LEFT_OUT.replace("GRANTED", "PENDING")
UNREAD_LEFT_OUT = "1 row left out: FOREIGN KEY SHARED 1\n"
UNREAD_NOTES = "1 wait can't be explained from these rows: ask `mdlview why`\n" + UNREAD_LEFT_OUT
UNREAD_WHY = (
    "1 request waits.\n1 wait can't be explained from these rows:\n   rows that wait and aren't read: FOREIGN KEY SHARED 1\n"
    + "   Who holds those: the rows with their OBJECT_TYPE and OBJECT_NAME that are GRANTED. To see all rows:\n"
    + "      SELECT * FROM performance_schema.metadata_locks;\n" + UNREAD_LEFT_OUT
)
UNSEEN = "TABLE\tshop\torders\tEXCLUSIVE\tTRANSACTION\tPENDING\t34\n"
SETTLED = "TABLE\tshop\tOrders-2\tSHARED_WRITE\tTRANSACTION\tTIMEOUT\t48301\n"
USER_LOCK = "USER LEVEL LOCK\tNULL\tjob.1\tEXCLUSIVE\tEXPLICIT\tGRANTED\t5\n"
LONG = "n" * 64
READERS = (
    HEADER
    + f"TABLE\t{LONG}\t{LONG}\tEXCLUSIVE\tTRANSACTION\tGRANTED\t18446744073709551615\n"
    + "".join(f"TABLE\t{LONG}\t{LONG}\tSHARED_READ\tTRANSACTION\tPENDING\t{n}\n" for n in range(1, 46))
)
MORE_JOINT = "More requests that go on only after several acts"
WAITS_HEAD = "LOCK\tWAITING\tFOR\tBLOCKING\tREASON\n"
LOCKS_HEAD = "LOCK\tSESSION\tMODE\tSTATUS\n"
ROWS = WAITS_HEAD + "TABLE test.t\tsession 2\tX\tsession 1\tholds SR\n"
BEHIND = "# a reader, a change, and a reader behind it\n" + WAITS + "3 SELECT t\n1 COMMIT\n"
QUERY = (VIEW / "query.sql").read_text()
GRAPH = """digraph waits {
  "session 2" -> "session 1" [label="TABLE test.t: holds SR"];
  "session 3" -> "session 2" [label="TABLE test.t: waits before it for X"];
}
"""

# Words, a script or rows, and the status, the answer and what is reported.
ROWS_OF_WORDS = [
    ("--script", WAITS, 0, WHY, ""),
    ("why --script", WAITS, 0, WHY, ""),
    ("why --script", "1 GET_LOCK a\n2 GET_LOCK a\n", 0, USER_WHY, ""),
    ("--version", "", 0, f"mdlview {VERSION}\n", ""),
    *((f"query{words}", "", 0, QUERY, "") for words in ("", " --", " --server mysql", " --server=mysql", " --server mariadb", " --server=mariadb --")),
    *((f"waits{words}", WAITS, 0, ROWS, "") for words in (" --script", " --script --", " --at=4 --script", " --script --at 0004", " --at +4 --script --")),
    ("why --script --at 18446744073709551615", WAITS, 0, WHY, ""),
    ("waits --script", "1 GET_LOCK a\n2 GET_LOCK a\n", 0, ROWS.replace("TABLE test.t", "USER a").replace("holds SR", "holds X"), ""),
    ("--script --at 3", WAITS, 0, NOBODY, ""),
    ("--script --at=4", WAITS, 0, WHY, ""),
    ("--script", "", 0, NOBODY, ""),
    ("why --script --at 4", BEHIND, 0, NOBODY, ""),
    ("waits --script --at 5", BEHIND, 0, ROWS, ""),
    ("graph --script --at 6", BEHIND, 0, GRAPH, ""),
    ("locks --script", BEHIND, 0, LOCKS_HEAD, ""),
    ("", SERVER, 0, SERVER_WHY, ""),
    ("why", SERVER, 0, SERVER_WHY, ""),
    ("why", SERVER + SETTLED, 0, SERVER_WHY, ""),
    ("why", CONNECTIONS, 0, CONNECTIONS_WHY, ""),
    ("why", CONNECTIONS.replace("COMMAND", "processlist_command"), 0, CONNECTIONS_WHY, ""),
    ("", HEADER, 1, "", NO_ROWS_TOLD),
    ("", "", 1, "", NO_ROWS_TOLD),
    ("", SERVER + "TABLE\tshop\n", 1, "", "line 5, field 3: missing, since the row has fewer fields than the header\n"),
    ("", WAITS, 1, "", 'no table with a column OBJECT_TYPE. Give what this prints: mysql -B -e "$(mdlview query)"\n'),
    ("locks", HEADER + USER_LOCK, 0, LOCKS_HEAD + "USER job\\.1\tthread 5\tX\tGRANTED\n", ""),
    ("", HEADER + LEFT_OUT, 0, NOBODY + "1 row left out: FOREIGN KEY SHARED 1\n", ""),
    ("waits", HEADER + 2 * LEFT_OUT, 0, WAITS_HEAD + "2 rows left out: FOREIGN KEY SHARED 2\n", ""),
    ("graph", HEADER + LEFT_OUT, 0, "digraph waits {\n}\n// 1 row left out: FOREIGN KEY SHARED 1\n", ""),
    ("", OTHERS, 0, NOBODY + OTHERS_LEFT_OUT, ""),
    ("graph", OTHERS, 0, "digraph waits {\n}\n// " + OTHERS_LEFT_OUT, ""),
    ("", HEADER + UNREAD, 4, UNREAD_WHY, ""),
    ("waits", HEADER + UNREAD, 4, WAITS_HEAD + UNREAD_NOTES, ""),
    ("locks", HEADER + UNREAD, 4, LOCKS_HEAD + UNREAD_NOTES, ""),
    ("graph", HEADER + UNREAD, 4, "digraph waits {\n}\n// " + UNREAD_NOTES.replace("\n1", "\n// 1"), ""),
    ("waits", HEADER + UNSEEN, 4, WAITS_HEAD + UNREAD_NOTES.splitlines(keepends=True)[0], ""),
]


def thread(number, connection=None):
    """Returns the session of a thread, as JSON has it."""
    return {"thread": number, "connection": connection}


# Words that ask for an object of JSON, what is read, the status, and the object.
OBJECTS = [
    (
        "why --json",
        SERVER + LEFT_OUT,
        0,
        {
            "version": 1,
            "waits": 1,
            "ways": [
                {
                    "act": "KILL",
                    "session": thread(48213),
                    "holds": [{"session": thread(48213), "mode": "SR", "lock": "TABLE shop.Orders-2"}],
                    "at_once": [{"session": thread(48300), "mode": "X", "lock": "TABLE shop.Orders-2"}],
                    "in_turn": [{"session": thread(48300), "mode": "X", "lock": "TABLE shop.Orders-2"}],
                }
            ],
            "more_ways": 0,
            "joint": [],
            "more_joint": 0,
            "deadlocked": [],
            "more_deadlocked": 0,
            "unexplained": [],
            "left_out": [{"object_type": "FOREIGN KEY", "lock_type": "SHARED", "rows": 1, "waiting": 0}],
        },
    ),
    (
        "locks --json --script",
        WAITS,
        0,
        {
            "version": 1,
            "locks": [
                {"lock": "SCHEMA test", "granted": [{"session": 2, "mode": "IX"}], "waiting": [], "settled": []},
                {"lock": "GLOBAL", "granted": [{"session": 2, "mode": "IX"}], "waiting": [], "settled": []},
                {
                    "lock": "TABLE test.t",
                    "granted": [{"session": 1, "mode": "SR"}],
                    "waiting": [{"session": 2, "mode": "X", "status": "PENDING"}],
                    "settled": [],
                }
            ],
            "unexplained": [],
            "left_out": [],
        },
    ),
    (
        "waits --json",
        OTHERS + UNREAD + UNSEEN,
        4,
        {
            "version": 1,
            "waits": [],
            "unexplained": [{"session": thread(34), "mode": "X", "lock": "TABLE shop.orders"}],
            "left_out": [
                {"object_type": "FOREIGN KEY", "lock_type": "SHARED", "rows": 3, "waiting": 1},
                {"object_type": "TABLESPACE", "lock_type": "SHARED_READ", "rows": 1, "waiting": 0},
            ],
        },
    ),
    (
        "waits --script --json",
        WAITS,
        0,
        {
            "version": 1,
            "waits": [
                {"session": 2, "mode": "X", "lock": "TABLE test.t", "blocking": 1, "reason": "holds", "blocking_mode": "SR"}
            ],
            "unexplained": [],
            "left_out": [],
        },
    ),
    (
        "waits --json",
        CONNECTIONS,
        0,
        {
            "version": 1,
            "waits": [
                {
                    "session": thread(34, 9),
                    "mode": "X",
                    "lock": "TABLE shop.orders",
                    "blocking": thread(33, 8),
                    "reason": "holds",
                    "blocking_mode": "SR",
                }
            ],
            "unexplained": [],
            "left_out": [],
        },
    ),
]

# Bytes of a table's name, and its text in JSON: a byte that isn't UTF-8 becomes the character with that number.
NAMES = [
    (b"caf\xc3\xa9", "TABLE s.caf\u00e9"),
    (b"caf\xe9", "TABLE s.caf\u00e9"),
    (b'a"b', 'TABLE s.a"b'),
    (b"a\\tb", "TABLE s.a\\x09b"),
    (b"a.b", "TABLE s.a\\.b"),
]

# Words that ask for no answer, and a part of what is reported.
REFUSED = [
    ("whom", "whom"),
    ("--at 3", "--script"),
    ("why --at 3", "--script"),
    ("timeline", "--script"),
    ("timeline --at 3", "--script"),
    ("timeline --html", "--script"),
    ("timeline --script --html --html", "--html"),
    ("timeline --script --html=x", "--html"),
    *((words, words) for words in ("--h", "--ht", "--helpx")),
    *((words, "'--html' goes with 'timeline'") for words in ("--html", "--script --html", "why --html --script", "locks --html", "graph --script --html", "query --html")),
    ("--script --at 0", "--at"),
    ("--script --at x", "--at"),
    ("--script --at -1", "-1"),
    ("--script --at 18446744073709551616", "--at"),
    ("--script --at", "--at"),
    ("--script --at 1 --at 1", "--at"),
    ("--script --script", "--script"),
    ("--script=x", "--script"),
    ("-x", "-x"),
    ("-- why", "why"),
    ("why waits", "waits"),
    ("--script why", "why"),
    ("--script timeline", "timeline"),
    ("graph --json", "--json"),
    ("timeline --script --json", "--json"),
    ("timeline --script --html --json", "--json"),
    ("query --json", "--json"),
    ("query --script", "--server"),
    ("query --at 1", "--server"),
    ("query --server oracle", "mariadb"),
    ("query --server -", "mariadb"),
    ("query --server", "--server"),
    ("query --server mysql --server mysql", "--server"),
    ("why --server mysql", "query"),
    ("--server mysql", "query"),
    ("--json graph", "graph"),
    ("--version why", "--version"),
]

# Words that call for help, and a part of it.
HELPED = [
    ("--help", "Usage: mdlview [COMMAND] [OPTIONS]"),
    ("--help", "mysql -B"),
    ("-h", "Usage"),
    ("help", "Usage"),
    ("--script --help", "--json"),
    ("why --help", "mdlview why --script"),
    ("locks --help", "mdlview locks --script"),
    ("waits -h", "order"),
    ("graph --help", "dot -Tsvg"),
    ("help graph", "dot -Tsvg"),
    ("query --help", "--server"),
    ("timeline --help", "--html"),
]


def run(program, words, script):
    """Runs the program with words that are separated by spaces, and returns its status, standard output and standard error."""
    ran = subprocess.run([program, *words.split()], input=script, capture_output=True, text=True)
    return ran.returncode, ran.stdout, ran.stderr


def wrong_words(program):
    """Returns the words that don't give what is expected, with what the program did."""
    for words, script, *wanted in ROWS_OF_WORDS:
        found = run(program, words, script)
        if found != tuple(wanted):
            yield words, found
    for words, part in REFUSED:
        status, printed, reported = found = run(program, words, WAITS)
        if status != 2 or printed or part not in reported:
            yield words, found
    for words, part in HELPED:
        status, printed, reported = found = run(program, words, "")
        if status or reported or part not in printed:
            yield words, found


def object_printed(program, words, script, status=0):
    """Returns the object of JSON that the program prints, or what it did if it prints none or has another status."""
    ran = subprocess.run([program, *words.split()], input=script, capture_output=True)
    try:
        if ran.returncode == status and not ran.stderr and ran.stdout.endswith(b"]}\n"):
            return json.loads(ran.stdout.decode("utf-8"))
    except ValueError:
        pass
    return ran


def wrong_objects(program):
    """Returns the words that print a wrong object, or none, and the names that are written wrongly."""
    for words, script, status, wanted in OBJECTS:
        found = object_printed(program, words, script.encode(), status)
        if found != wanted:
            yield words, found
    for name, wanted in NAMES:
        row = b"TABLE\ts\t" + name + b"\tSHARED_READ\tTRANSACTION\tGRANTED\t1\n"
        found = object_printed(program, "locks --json", HEADER.encode() + row)
        if not isinstance(found, dict) or [lock["lock"] for lock in found["locks"]] != [wanted]:
            yield name, found


def wrong_lines(program):
    """Returns what `why` prints for many readers of a table with long names, if a line has more than a hundred bytes, or readers aren't counted."""
    status, printed, reported = found = run(program, "why", READERS)
    lines = printed.splitlines()
    counted = printed.startswith(THREADS) and lines[-1] == "   and 37 more" and f"{KILL.splitlines()[1]}18446744073709551615;" in lines
    if status or reported or not counted or any(len(line) > 100 for line in lines) or not any(line.endswith("..") for line in lines):
        yield "why", found
    # No character of three bytes is cut.
    wide = READERS.replace(LONG, 100 * "\u20ac").encode()
    ran = subprocess.run([program, "why"], input=wide, capture_output=True)
    lines = ran.stdout.decode("utf-8", "replace").splitlines()
    if ran.returncode or not any(line.endswith("\u20ac..") for line in lines) or any("\ufffd" in line or len(line.encode()) > 100 for line in lines):
        yield "why", ran


def table_rows(mode, status, threads, table="t"):
    """Returns rows by which threads have a table or wait for it, or each for a table of its own."""
    return "".join(f"TABLE\ts\t{table.format(it)}\t{mode}\tTRANSACTION\t{status}\t{it}\n" for it in threads)


def wrong_crowds(program):
    """Returns the rows of many sessions and tables for which `why` gives a wrong answer."""
    # Nobody waits but one: 65,540 readers of tables of their own, and a change of one of these.
    rows = HEADER + table_rows("SHARED_READ", "GRANTED", range(1, 65_541), "t{}") + table_rows("EXCLUSIVE", "PENDING", [70_000], "t65540")
    wanted = SERVER_WHY.replace("48213", "65540").replace("48300", "70000").replace("shop.Orders-2", "s.t65540")
    if (found := run(program, "why", rows)) != (0, wanted, ""):
        yield "why, many tables", tuple(str(it)[:1000] for it in found)
    # Ten thousand readers, and as many changes behind all of them: no single act helps.
    rows = HEADER + table_rows("SHARED_READ", "GRANTED", range(1, 10_001)) + table_rows("EXCLUSIVE", "PENDING", range(10_001, 20_001))
    status, printed, reported = found = run(program, "why", rows)
    start = f"{THREADS}10000 requests wait.\nSo that thread 10001 gets X of TABLE s.t,\ndo all 10000 of these:\n"
    if status or reported or not printed.startswith(start) or not printed.endswith(f"{MORE_JOINT}: 9992\n"):
        yield "why, many readers and changes", tuple(str(it)[:1000] for it in found)
    # A reader, a change, and 19,998 readers behind it: the change's end lets all others read at once, and the reader's end lets all go on.
    rows = HEADER + table_rows("SHARED_READ", "GRANTED", [1]) + table_rows("EXCLUSIVE", "PENDING", [2])
    rows += table_rows("SHARED_READ", "PENDING", range(3, 20_001))
    status, printed, reported = found = run(program, "why", rows)
    lines = ["19999 requests wait.", "   19999 waits end: 1 at once, 19998 when those have ended\n", "   19998 waits end, all at once\n"]
    if status or reported or any(line not in printed for line in lines):
        yield "why, many readers behind a change", tuple(str(it)[:1000] for it in found)
    # Two hundred tables, each with a reader and a change: as many ways out, of which eight are described.
    rows = HEADER + table_rows("SHARED_READ", "GRANTED", range(1, 201), "t{}")
    rows += "".join(table_rows("EXCLUSIVE", "PENDING", [1000 + it], f"t{it}") for it in range(1, 201))
    status, printed, reported = found = run(program, "why", rows)
    lines = ["200 requests wait. Ways out, the best first. Do one, and look again:\n1. End thread ", "\n8. End thread ", "More ways, which are no better: 192\n"]
    if status or reported or any(line not in printed for line in lines) or "\n9. " in printed:
        yield "why, many ways", tuple(str(it)[:1000] for it in found)


def wrong_servers(program):
    """Returns the rows of real servers and others for which a question gets a wrong answer: NAME.rows with the right answers NAME.QUESTION and
    NAME.QUESTION.json, which fuzz/saved_rows.py writes."""
    for rows in sorted([*SERVERS.glob("*.rows"), *VIEW.glob("*.rows")]):
        for wanted in sorted(it for it in rows.parent.glob(f"{rows.stem}.*") if it != rows):
            question, *form = wanted.name.split(".")[1:]
            ran = subprocess.run([program, question, *(f"--{it}" for it in form)], input=rows.read_bytes(), capture_output=True)
            status = 4 if is_unexplained(wanted.read_text(encoding="utf-8"), form) else 0
            if (ran.returncode, ran.stdout, ran.stderr) != (status, wanted.read_bytes(), b""):
                yield wanted.name, ran


def is_unexplained(answer, form):
    """Whether an answer says that some wait can't be explained."""
    if not form:
        return " can't be explained from these rows" in answer
    members = json.loads(answer)
    return bool(members["unexplained"]) or any(it["waiting"] for it in members["left_out"])


def wrong_examples(program):
    """Returns the examples that get a wrong answer: view/NAME.LINE.QUESTION, for the script NAME.replay."""
    for wanted in sorted((EXAMPLES / "view").glob("*")):
        name, line, question = wanted.name.split(".")
        found = run(program, f"{question} --script --at {line}", (EXAMPLES / f"{name}.replay").read_text())
        if found != (0, wanted.read_text(), ""):
            yield wanted.name, found


def wrong_pictures(program):
    """Returns the pictures that are drawn wrongly, NAME.svg beside the script NAME.replay, also line by line, and scripts whose pictures lack something."""
    for wanted in sorted([*EXAMPLES.glob("*.svg"), *VIEW.glob("*.svg")]):
        found = run(program, "timeline --script", wanted.with_suffix(".replay").read_text())
        if found != (0, wanted.read_text(), ""):
            yield wanted.name, found
    lines = SIGNS.read_text().splitlines(keepends=True)
    for last in range(1, len(lines)):
        found = run(program, f"timeline --script --at {last}", "".join(lines))
        if found != run(program, "timeline --script", "".join(lines[:last])):
            yield f"{SIGNS.name}, up to line {last}", found
    for script in sorted(EXAMPLES.glob("*.replay")):
        status, picture, reported = run(program, "timeline --script", script.read_text())
        answers = script.with_suffix(".answers").read_text().splitlines()
        if status or reported or drawn(picture) != (len(answers), sum(" WAIT " in it for it in answers)):
            yield script.name, (status, picture, reported)


def drawn(picture):
    """Returns how many boxes and how many waits a picture has, without those that explain the signs. It has to be XML."""
    kinds = [it.get("class") for it in ElementTree.fromstring(picture).iter("{http://www.w3.org/2000/svg}rect")]
    return sum(kinds.count(it) for it in ("done", "waiting", "failed", "refused")) - 1, kinds.count("bar") - 1


def wrong_completions(program):
    """Returns the files of completions that lack words, or have options that aren't listed, with these."""
    helped = run(program, "help", "")[1]
    commands = re.findall(r"^  ([a-z]+) ", helped.partition("Options:")[0], re.MULTILINE)
    told = [helped, *(run(program, f"help {it}", "")[1] for it in commands if it != "help")]
    options = {it for text in told for it in re.findall(r"^ .* --([a-z]+)", text, re.MULTILINE)} | {"version"}
    for file in COMPLETIONS:
        text = file.read_text()
        completed = set(re.findall(r"(?:--|-l )([a-z]+)", text))
        wrong = {it for it in commands if not re.search(rf"\b{it}\b", text)} | (options ^ completed)
        if wrong:
            yield f"completions, {file.name}", sorted(wrong)


def main(words):
    """Runs all checks, prints what is wrong, and returns the exit status."""
    program = words[0] if words else PROGRAM
    wrong = [
        *wrong_words(program),
        *wrong_objects(program),
        *wrong_rows(program),
        *wrong_json(program, sorted([*SERVERS.glob("*.rows"), *VIEW.glob("*.rows")])),
        *wrong_scripts(program),
        *wrong_lines(program),
        *wrong_crowds(program),
        *wrong_servers(program),
        *wrong_examples(program),
        *wrong_pictures(program),
        *wrong_pages(program, sorted([SIGNS, *EXAMPLES.glob("*.replay")])),
        *wrong_completions(program),
        *wrong_devices(program, cases_of_mdlview),
    ]
    for what, found in wrong:
        print(f"mdlview {what}: {found}", file=sys.stderr)
    if not wrong:
        print("mdlview does what its command lines ask")
    return 1 if wrong else 0


if __name__ == "__main__":
    sys.exit(main(sys.argv[1:]))

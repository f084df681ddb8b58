"""Rows in JSON that mdlview has to read or to refuse: saved rows in each form in which clients print JSON, the groups of `view/json`, a short text cut
at each byte, and texts with a few bytes changed by chance."""

import json
import pathlib
import random
import subprocess

from view_rows import ENDS, found, groups, text_of

FOLDER = pathlib.Path(__file__).resolve().parent / "view"

# How many texts with changed bytes are tried, and what the bytes become.
CHANGED = 300
BYTES = b'[]{},:"\\ntrue0-9.e \n\r\t\0\xc3\xff/*'

ROWS = [
    {"OBJECT_TYPE": "TABLE", "OBJECT_SCHEMA": "shop", "OBJECT_NAME": "t", "LOCK_TYPE": mode, "LOCK_STATUS": status, "OWNER_THREAD_ID": thread}
    for mode, status, thread in (("SHARED_READ", "GRANTED", 7), ("EXCLUSIVE", "PENDING", 8))
]
WANTED = ["TABLE shop.t: 7 holds SR, 8 waits for X"]

# Columns of other tables, and how the refusal begins.
OTHERS = [
    ("object_schema object_name waiting_thread_id waiting_pid blocking_thread_id blocking_pid", "rows of sys.schema_table_lock_waits"),
    ("Id User Host db Command Time State Info", "rows of a process list"),
    ("ID USER HOST DB COMMAND TIME STATE INFO", "rows of a process list"),
    ("trx_id trx_state trx_started trx_mysql_thread_id", "rows of INNODB_TRX"),
    ("THREAD_ID LOCK_MODE LOCK_DURATION LOCK_TIME_MS LOCK_TYPE TABLE_CATALOG TABLE_SCHEMA TABLE_NAME", "rows of METADATA_LOCK_INFO"),
    ("THREAD_ID LOCK_MODE LOCK_TYPE TABLE_SCHEMA TABLE_NAME ID USER HOST DB COMMAND TIME STATE INFO", "rows of METADATA_LOCK_INFO"),
    ("ENGINE ENGINE_LOCK_ID THREAD_ID OBJECT_SCHEMA OBJECT_NAME LOCK_TYPE LOCK_MODE LOCK_STATUS LOCK_DATA", "no table with a column OBJECT_TYPE"),
    ("id command_line", "no table with a column OBJECT_TYPE"),
]


def value_of(field):
    """Returns the value of a field between tabs."""
    if field == "NULL":
        return None
    parts = field.split("\\\\")
    return "\\".join(part.replace("\\t", "\t").replace("\\n", "\n").replace("\\0", "\0") for part in parts)


def objects_of(text):
    """Returns the rows of a text with tabs, as objects."""
    head, *lines = [[value_of(field) for field in line.split("\t")] for line in text.split("\n") if line]
    return [dict(zip(head, line)) for line in lines]


def turned(objects):
    """Returns objects whose keys are in another order each, and in another case, without those of NULL behind the first."""
    yield from objects[:1]
    for place, it in enumerate(objects[1:]):
        members = [(key.lower() if place % 2 else key, value) for key, value in it.items() if value is not None]
        yield dict(members[place % len(members) :] + members[: place % len(members)])


def number_of(value):
    """Returns a number in place of a text of digits that don't begin with 0, and any other value as it is."""
    return int(value) if isinstance(value, str) and value.isdecimal() and value[0] != "0" else value


def numbered(objects):
    """Returns objects with numbers in place of texts of digits."""
    return [{key: number_of(value) for key, value in it.items()} for it in objects]


def forms_of(objects):
    """Returns what clients print for objects: one array, on a line, or with a line for each row or for each member, and objects one after another."""
    lines = [json.dumps(it, separators=(",", ":"), ensure_ascii=False) for it in objects]
    return {
        "one line": json.dumps(objects),
        "array": json.dumps(objects, indent=4) + "\n",
        "json/array": "[\n" + ",\n".join(lines) + "\n]\n",
        "json": "".join(json.dumps(it, indent=4, ensure_ascii=False) + "\n" for it in objects),
        "ndjson": "".join(line + "\n" for line in lines),
        "json, CRLF": "\r\n".join(json.dumps(it, indent=4) for it in objects).replace("\n", "\r\n").replace("\r\r", "\r"),
        "turned": json.dumps(list(turned(objects)), ensure_ascii=False),
        "numbers": json.dumps(numbered(objects)),
    }


def wrong_saved(program, saved):
    """Returns the forms in which saved rows get another answer to `why` than with tabs."""
    for file in saved:
        try:
            objects = objects_of(file.read_bytes().decode())
        except UnicodeDecodeError:
            continue
        wanted = subprocess.run([program, "why"], input=file.read_bytes(), capture_output=True)
        for form, text in forms_of(objects).items():
            ran = subprocess.run([program, "why"], input=text.encode(), capture_output=True)
            if (ran.returncode, ran.stdout, ran.stderr) != (wanted.returncode, wanted.stdout, b""):
                yield f"{file.name} as {form}", ran


def wrong_faults(program):
    """Returns the groups of `view/json` that are read wrongly, and rows of other tables that aren't refused as such."""
    for given, wanted in groups("json"):
        for end in ENDS:
            read = found(program, text_of(given, end))
            if read != [f"1 {line}\n" if line.startswith(("line ", "no ")) else line for line in wanted]:
                yield f"view/json, {given}, {end}", read
    for columns, begin in OTHERS:
        names = columns.split(" ")
        row = dict.fromkeys(names, "7")
        for text in ("\t".join(names) + "\n", ",".join(names) + "\n", json.dumps([row]), json.dumps(row, indent=1)):
            ran = subprocess.run([program], input=text, capture_output=True, text=True)
            told = ran.stderr.removesuffix("\n")
            is_told = told.startswith(begin) and told.endswith('mysql -B -e "$(mdlview query)"') and all(len(line) <= 105 for line in told.split("\n"))
            if ran.returncode != 1 or ran.stdout or not is_told:
                yield f"{text!r}", ran


def wrong_cuts(program):
    """Returns where a text may be cut, or what may be changed in it, so that it is neither read nor refused with a line and a column."""
    for form, text in forms_of(ROWS).items():
        if (read := found(program, text)) != WANTED:
            yield form, read
    array = json.dumps(ROWS, indent=1).encode()
    cuts = [array[:end] for end in range(2, len(array))]
    for cut in cuts:
        ran = subprocess.run([program], input=cut, capture_output=True)
        if ran.returncode != 1 or ran.stdout or not ran.stderr.startswith(b"line ") or b", column " not in ran.stderr:
            yield f"{cut[-20:]!r}", ran
    dice = random.Random(5)
    for _ in range(CHANGED):
        changed = bytearray(dice.choice(list(forms_of(ROWS).values())).encode())
        for _ in range(dice.choice([1, 1, 2, 5])):
            changed[dice.randrange(len(changed))] = dice.choice(BYTES)
        ran = subprocess.run([program], input=bytes(changed), capture_output=True)
        if ran.returncode not in (0, 1, 4) or (ran.returncode == 1) != bool(ran.stderr) or (ran.returncode == 1 and ran.stdout):
            yield f"{bytes(changed)!r}", ran


def wrong_many(program):
    """Returns whether 20,000 rows of JSON on one line are read wrongly."""
    rows = [{**ROWS[0], "OBJECT_NAME": f"t{it}", "OWNER_THREAD_ID": it + 1} for it in range(20_000)]
    if (read := found(program, json.dumps(rows))) != [f"TABLE shop.t{it}: {it + 1} holds SR" for it in range(20_000)]:
        yield "20,000 rows of JSON", read[:3]


def wrong_json(program, saved):
    """Returns what is read wrongly, with what was found."""
    return [*wrong_saved(program, saved), *wrong_faults(program), *wrong_cuts(program), *wrong_many(program)]

"""Times `mdlview why` on rows of a server's metadata locks, beside `grep -c` on the same file, and prints how much memory `why` takes.

Usage, at the top of the repository: python3 bench/mdlview.py [PROGRAM]     crates/mdlview/out/mdlview, or another program

It needs GNU time (the Debian package time). Each time is the least of five runs. Behind each line are rows for a program to read, as bench/peers.sh
keeps them: nanoseconds, kibibytes of memory, and the rows and bytes that were read. The status is 1 if `why` takes longer than it may: of 1,000 rows
of one lock a tenth of a second, and of 20,000 rows two seconds.
  one        half of the rows are readers of one table, and the others wait to change it
  alter      a reader of a table, a session that waits to change it, and readers behind that one
  behind     500 readers of a table, 500 sessions that wait to change it, and readers and writers behind those
  writers    half of the rows are writers of one table, and the others wait for modes that clash with writers, and with each other's
  upgraded   a session whose row shows SU, and readers behind it that this mode doesn't explain
  backup     a session that has FLUSH TABLES WITH READ LOCK, and others that wait to change rows or to commit
  spread     1,024 owners and 256 tables: half of the owners read up to 38 tables each, and the others wait, two for each table
  deadlocks  1,024 owners and 256 tables: all read, and half of them wait for tables that others read
  chain      each owner reads a table, and waits to change that of the owner before it
  many       65,535 owners, each of which reads a table of its own, and some hundreds of which wait for that of a neighbour
"""

import pathlib
import subprocess
import sys
import tempfile
import time

PROGRAM = "crates/mdlview/out/mdlview"
HEADER = "OBJECT_TYPE\tOBJECT_SCHEMA\tOBJECT_NAME\tLOCK_TYPE\tLOCK_DURATION\tLOCK_STATUS\tOWNER_THREAD_ID\n"
TIME = "/usr/bin/time"
OWNERS = 1024
LOCKS = 256
MOST_OWNERS = 65_535
RUNS = 5
READ, CHANGE = "SHARED_READ", "EXCLUSIVE"


def row(table, mode, status, owner):
    """Returns the row of an owner that has a table or waits for it."""
    return f"TABLE\tshop\torders_{table}\t{mode}\tTRANSACTION\t{status}\t{48000 + owner}\n"


def spread(rows):
    """Returns rows: readers, and then for each table an owner that waits to change it and one that waits to read it."""
    holders = OWNERS // 2
    held = rows - holders
    for place in range(held):
        yield row((place // holders + place) % LOCKS, READ, "GRANTED", place % holders)
    for waiter in range(holders):
        yield row(waiter % LOCKS, CHANGE if waiter < LOCKS else READ, "PENDING", holders + waiter)


def deadlocks(rows):
    """Returns rows: all owners read, and half of them wait for tables that others read."""
    waiters = OWNERS // 2
    for place in range(rows - waiters):
        yield row((place // OWNERS * 5 + place) % LOCKS, READ, "GRANTED", place % OWNERS)
    for waiter in range(waiters):
        yield row((waiter + 1) % LOCKS, CHANGE, "PENDING", waiter)


def one(rows):
    """Returns rows: half of them readers of one table, the others waiting to change it."""
    for place in range(rows):
        yield row(0, *((READ, "GRANTED") if place < rows // 2 else (CHANGE, "PENDING")), place)


def alter(rows):
    """Returns rows: a reader, an owner that waits to change the table, and readers behind it."""
    yield row(0, READ, "GRANTED", 0)
    yield row(0, CHANGE, "PENDING", 1)
    for place in range(2, rows):
        yield row(0, READ, "PENDING", place)


def behind(rows):
    """Returns rows: 500 readers, 500 that wait to change the table, and readers and writers behind them."""
    for place in range(rows):
        mode, status = (READ, "GRANTED") if place < 500 else (CHANGE, "PENDING") if place < 1000 else ((READ, "SHARED_WRITE")[place % 2], "PENDING")
        yield row(0, mode, status, place)


def writers(rows):
    """Returns rows: half of them writers of one table, the others waiting in turn for four modes."""
    modes = ("SHARED_NO_WRITE", "SHARED_READ_ONLY", "SHARED_NO_READ_WRITE", "SHARED_WRITE_LOW_PRIO")
    for place in range(rows):
        yield row(0, *(("SHARED_WRITE", "GRANTED") if place < rows // 2 else (modes[place % 4], "PENDING")), place)


def upgraded(rows):
    """Returns rows: an owner of SU, and readers behind it."""
    yield row(0, "SHARED_UPGRADABLE", "GRANTED", 0)
    for place in range(1, rows):
        yield row(0, READ, "PENDING", place)


def backup(rows):
    """Returns rows: a read lock of all tables, and owners that wait to change rows or to commit."""
    for place in range(rows):
        mode, status = ("FTWRL1", "GRANTED") if place == 0 else (("TRANS_DML", "COMMIT")[place % 2], "PENDING")
        yield f"BACKUP\tNULL\tNULL\tBACKUP_{mode}\tEXPLICIT\t{status}\t{48000 + place}\n"


def chain(rows):
    """Returns rows: each owner reads a table, and waits to change that of the owner before it."""
    for place in range(rows // 2):
        yield row(place, READ, "GRANTED", place)
        if place:
            yield row(place - 1, CHANGE, "PENDING", place)


def many(rows):
    """Returns rows: each owner reads a table, and some wait for that of their neighbours."""
    for place in range(MOST_OWNERS):
        yield row(place, READ, "GRANTED", place)
    for place in range(1, 2 * (rows - MOST_OWNERS), 2):
        yield row(place - 1, CHANGE, "PENDING", place)


# Shapes, how many rows there are about, and how many milliseconds `why` may take.
SHAPES = [
    (one, 1000, 100), (one, 20000, 2000), (alter, 20000, 2000), (behind, 20000, 2000), (writers, 20000, 2000), (upgraded, 20000, 2000),
    (backup, 20000, 2000), (spread, 5000, None), (spread, 20000, None), (deadlocks, 5000, None), (deadlocks, 20000, None), (chain, 2000, None),
    (many, 66000, None),
]


def measured(words, path, folder):
    """Returns the least seconds that a run takes with a file as its input, the most kilobytes, and how many bytes it prints."""
    memory, answer = pathlib.Path(folder, "memory"), pathlib.Path(folder, "answer")
    least, most = None, 0
    for _ in range(RUNS):
        with open(path, "rb") as rows, open(answer, "wb") as printed:
            begun = time.monotonic()
            ran = subprocess.run([TIME, "-f", "%M", "-o", memory, *words], stdin=rows, stdout=printed, check=False)
            seconds = time.monotonic() - begun
        if ran.returncode not in (0, 4):
            sys.exit(f"{' '.join(words)} ended with {ran.returncode}")
        least = seconds if least is None else min(least, seconds)
        most = max(most, int(memory.read_text(encoding="ascii")))
    return least, most, answer.stat().st_size


def main(words):
    """Prints a line for each file."""
    program, late = words or [PROGRAM], False
    if not pathlib.Path(TIME).exists():
        sys.exit("GNU time is missing: install the package time")
    print("shape       rows    KB of rows   why: ms   at most      MB   KB printed   grep -c: ms")
    with tempfile.TemporaryDirectory() as folder:
        path = pathlib.Path(folder, "rows")
        for shape, rows, most in SHAPES:
            path.write_text(HEADER + "".join(shape(rows)), encoding="ascii")
            seconds, kilobytes, printed = measured([*program, "why"], path, folder)
            beside, *_ = measured(["grep", "-c", "PENDING"], path, folder)
            late |= bool(most) and seconds * 1000 > most
            print(f"{shape.__name__:10} {rows:6} {path.stat().st_size / 1024:12.0f} {seconds * 1000:9.1f} {most or '-':>9} {kilobytes / 1024:7.1f}"
                  f" {printed / 1024:12.1f} {beside * 1000:12.1f}", flush=True)
            figures = [("why", "least", seconds * 1e9), ("grep", "least", beside * 1e9), ("why_memory", "count", kilobytes), ("rows", "count", rows),
                       ("rows_bytes", "count", path.stat().st_size)]
            for name, kind, figure in figures:
                print(f"ROW mdlview_{shape.__name__} 1 {name}_of_{rows}_{kind} {figure:.1f}", flush=True)
    return 1 if late else 0


if __name__ == "__main__":
    sys.exit(main(sys.argv[1:]))

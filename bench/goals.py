"""Prints which goals of speed are met, from the rows of one run.

Usage, at the top of the repository: python3 bench/goals.py [FILE]     bench/peers/out/rows.txt, which bench/peers.sh makes, or another file
                                     python3 bench/goals.py --check    compares what it prints of a small run with what it should

The rows are those that bench/ratios.py reads: of one thread the least of all rounds, of several the median. A goal is the most that a figure may be times
another one of the same run, or the most time, or the least number of lines a second. Beside the model of the server's design a call is compared with the
model without pins that plays the same workload: it finds a lock by its key where ours does. For each goal there is a line: what it is of, the figure and
the one beside it in nanoseconds, what is measured, what is wanted, and `met`, `missed`, or `not measured` where a row isn't there.
The status is 1 only if a line of the file isn't a row, or a row is there twice: then the file isn't of one run."""

import pathlib
import sys

from ratios import ROWS, Stale, parsed

LINE = "{:62} {:>11} {:>11} {:>10} {:>12}  {}"


def ours(workload, turn, threads=1):
    """Returns the row of a workload of the table that threads share."""
    return workload, threads, f"shared_{turn}"


def model(workload, turn, threads=1, who="lite"):
    """Returns the row of a workload of the model of the server's design."""
    return workload, threads, f"{who}_{turn}"


# What a goal is of, its row, the row beside it, and the most times of that.
TIMES = [
    ("a pair, beside its steps", ours("a_pair", "pair"), ours("a_pair_steps", "pair"), 2.1),
    ("a pair, beside the C library's lock", ours("a_pair", "pair"), model("a_pair", "pair", who="pthread_rwlock"), 1.25),
    ("acquire and release through a context, beside the model", ours("a_request", "request"), model("a_request", "request", who="lite_key"), 0.9),
    (
        "a transaction through a context by key, beside its steps",
        ours("d_transaction_context", "transaction"),
        ours("d_transaction_steps", "transaction"),
        5.0,
    ),
    (
        "a transaction through a context by key, beside the model",
        ours("d_transaction_context", "transaction"),
        model("d_transaction_context", "transaction", who="lite_key"),
        0.85,
    ),
    ("pairs at one hot place, 4 threads, beside the steps", ours("b_hot", "pair", 4), ours("b_hot_steps", "pair", 4), 1.4),
    ("pairs at one hot place, 4 threads, beside the model", ours("b_hot", "pair", 4), model("b_hot", "pair", 4), 0.5),
    ("X alone, beside its steps", ours("x_exclusive", "pair"), ours("x_exclusive_steps", "pair"), 2.6),
    ("X alone, beside the model", ours("x_exclusive", "pair"), model("x_exclusive", "pair"), 1.0),
    ("a release that grants 63, beside the model", ours("f_grant_63", "release"), model("f_grant_63", "release"), 0.8),
    ("a release that grants 63, beside one that grants 8", ours("f_grant_63", "release"), ours("f_grant_8", "release"), 9.0),
    ("a search in a chain of 63, beside taking all latches", ours("search_deadlock_63", "search"), ours("search_deadlock_steps", "search"), 4.2),
    ("the own ticket again, beside a probe", ours("h_again_1", "call"), ours("h_again_1_probe", "probe"), 3.0),
    ("the own ticket again, 1,000 held beside 1", ours("h_again_1000", "call"), ours("h_again_1", "call"), 1.2),
]

# Units: what they are called, and what a figure is in them.
MICROSECONDS = ("us", lambda figure: figure / 1e3)
MILLISECONDS = ("ms", lambda figure: figure / 1e6)
SECONDS_OF_ALL = ("s", lambda figure: figure * 100_002 / 1e9)
LINES = ("M lines/s", lambda figure: 1e3 / figure if figure > 0 else float("inf"))
INSTRUCTIONS = ("", lambda figure: figure)

# What a goal is of, its row, the unit, and the most in that unit, or the least of lines a second.
BOUNDS = [
    ("instructions of a pair", ("a_pair", 1, "instructions_known_1_held_0"), INSTRUCTIONS, 150),
    ("a search in a ring of 1,023", ("search_of_a_ring_1023", 1, "graph_search"), MICROSECONDS, 60),
    ("10,000 tickets given up by a context", ours("end_10000_context", "end"), MILLISECONDS, 2),
    ("250 fast tickets at 250 places made slow by one X", ours("materialise_250", "exclusive"), MICROSECONDS, 60),
    ("100,000 savepoints of one transaction", ("replay_savepoints", 1, "mdlsim_line_of_100000"), SECONDS_OF_ALL, 0.3),
    ("scripts of one lock, X passed on", ("lock_passing", 1, "mdlsim_line_of_1000000"), LINES, 3.0),
    ("scripts of one lock, lives", ("lock_mixed", 1, "mdlsim_line_of_1000000"), LINES, 5.0),
]

# A made-up run, and what is printed of it for the goals that it has rows for.
SAMPLE = """\
ROW a_pair 1 shared_pair_least 24.0
ROW a_pair 1 shared_pair_median 99.0
ROW a_pair_steps 1 shared_pair_least 12.0
ROW a_pair 1 pthread_rwlock_pair_least 16.0
ROW b_hot 4 shared_pair_least 1.0
ROW b_hot 4 shared_pair_median 280.0
ROW b_hot_steps 4 shared_pair_median 200.0
ROW b_hot 4 lite_pair_median 0.0
ROW a_pair 1 instructions_known_1_held_0_count 150.0
ROW end_10000_context 1 shared_end_least 2000100.0
ROW replay_savepoints 1 mdlsim_line_of_100000_mean 2000.0
ROW lock_passing 1 mdlsim_line_of_1000000_mean 250.0
ROW lock_mixed 1 mdlsim_line_of_1000000_mean 250.0
"""
TOLD = [
    "a pair, beside its steps 24.0 12.0 2.00 <= 2.1 met",
    "a pair, beside the C library's lock 24.0 16.0 1.50 <= 1.25 missed",
    "pairs at one hot place, 4 threads, beside the steps 280.0 200.0 1.40 <= 1.4 met",
    "instructions of a pair 150.0 150.00 <= 150 met",
    "10,000 tickets given up by a context 2000100.0 2.00 ms <= 2 missed",
    "100,000 savepoints of one transaction 2000.0 0.20 s <= 0.3 met",
    "scripts of one lock, X passed on 250.0 4.00 M lines/s >= 3.0 met",
    "scripts of one lock, lives 250.0 4.00 M lines/s >= 5.0 missed",
    "goals: 21, met: 5, missed: 3, not measured: 13",
]


def verdict(met):
    """Returns the word for a goal."""
    return "met" if met else "missed"


def line_of_times(rows, goal):
    """Returns the line of a goal that compares two rows."""
    what, row, beside, most = goal
    if row not in rows or rows.get(beside, 0) <= 0:
        return (what, rows.get(row, ""), rows.get(beside, ""), "", f"<= {most}", "not measured")
    times = rows[row] / rows[beside]
    return (what, rows[row], rows[beside], f"{times:.2f}", f"<= {most}", verdict(times <= most))


def line_of_bound(rows, goal):
    """Returns the line of a goal for one row."""
    what, row, unit, bound = goal
    name, turned = unit
    wanted = f"{'>=' if unit is LINES else '<='} {bound}"
    if row not in rows:
        return (what, "", "", "", wanted, "not measured")
    found = turned(rows[row])
    met = found >= bound if unit is LINES else found <= bound
    return (what, rows[row], "", f"{found:.2f} {name}".rstrip(), wanted, verdict(met))


def lines_of(text):
    """Returns what is printed of some rows: a line for each goal, and one at the end."""
    rows = parsed(text)
    table = [line_of_times(rows, goal) for goal in TIMES] + [line_of_bound(rows, goal) for goal in BOUNDS]
    counts = ", ".join(f"{word}: {sum(line[-1] == word for line in table)}" for word in ("met", "missed", "not measured"))
    return [LINE.format(*line).rstrip() for line in table] + [f"goals: {len(table)}, {counts}"]


def check():
    """Returns the status: whether the made-up run gives its lines, and a row that is there twice is refused."""
    found = [" ".join(line.split()) for line in lines_of(SAMPLE) if not line.endswith("not measured")]
    for line, wanted in zip(found, TOLD):
        if line != wanted:
            print(f"printed: {line}\nwanted:  {wanted}", file=sys.stderr)
    try:
        lines_of(SAMPLE + SAMPLE)
    except Stale:
        return int(found != TOLD)
    print("accepted: rows that are there twice", file=sys.stderr)
    return 1


def main():
    """Returns the status."""
    if sys.argv[1:] == ["--check"]:
        return check()
    path = sys.argv[1] if len(sys.argv) > 1 else ROWS
    try:
        lines = lines_of(pathlib.Path(path).read_text(encoding="utf-8"))
    except (OSError, Stale) as why:
        print(f"{path}: {why}", file=sys.stderr)
        return 1
    print(LINE.format("goal", "ns", "beside", "measured", "wanted", ""))
    print("\n".join(lines))
    return 0


if __name__ == "__main__":
    sys.exit(main())

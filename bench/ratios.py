"""Prints how long the calls of mdl_bench take beside the same workloads of the model of the server's design, from the rows of one run.

Usage, at the top of the repository: python3 bench/ratios.py [FILE]     bench/peers/out/rows.txt, which bench/peers.sh makes, or another file
                                     python3 bench/ratios.py --check    compares what it prints of a small run with what it should

A row is ROW, the workload, the threads, the name, and the nanoseconds. A name is who was timed, what a turn is, and `least` or `median`. On one thread the
least of all rounds is compared, and on several the median. There is a line for each row of ours and each model that played it. A row of ours that no
model played is listed, as is one of a model that isn't among ours. The bare steps and probes of mdl_bench aren't calls, and are left out. So are rows whose
name ends with `mean` or `count`: those of scripts, which are timed at once, and of instructions or memory, where the figure is their number.
The status is 1 if a line isn't a row, or a row is there twice: then the file isn't of one run."""

import pathlib
import sys

ROWS = "bench/peers/out/rows.txt"
OURS = ("shared", "space", "context", "book", "graph")
MODELS = ("lite", "pins", "lite_key", "pins_key", "steps", "pthread_rwlock")
BARE = ("_steps", "_probe")
KINDS = ("least", "median", "mean", "count")
LINE = "{:32} {:7} {:12} {:>12} {:15} {:>12} {:>8}"

# A made-up run, and what is printed of it.
SAMPLE = """\
ROW a_pair 1 lite_pair_least 20.0
ROW a_pair 1 lite_pair_median 25.0
ROW a_pair 1 steps_pair_least 10.0
ROW a_pair 1 shared_pair_least 30.0
ROW a_pair 1 shared_pair_median 90.0
ROW a_pair_steps 1 shared_pair_least 10.0
ROW b_hot 4 lite_pair_least 1.0
ROW b_hot 4 lite_pair_median 400.0
ROW b_hot 4 shared_pair_least 1.0
ROW b_hot 4 shared_pair_median 300.0
ROW d_transaction_context 1 lite_key_transaction_least 0.0
ROW d_transaction_context 1 pins_key_transaction_least 250.0
ROW d_transaction_context 1 shared_transaction_least 400.0
ROW e_mixed 4 shared_transaction_median 900.0
ROW e_mixed 4 pins_alter_median 5000.0
ROW e_mixed 4 shared_alter_median 6000.0
ROW e_mixed_8 4 lite_transaction_median 800.0
ROW grant_all_64 1 book_release_least 1900.0
ROW a_pair 2 peers_rust_rwlock_median 145.0
ROW lock_mixed 1 mdlsim_line_of_10000_mean 500.0
ROW a_pair 1 instructions_known_1_held_0_count 150.0
"""
TOLD = [
    "a_pair 1 pair 30.0 lite 20.0 1.50",
    "a_pair 1 pair 30.0 steps 10.0 3.00",
    "b_hot 4 pair 300.0 lite 400.0 0.75",
    "d_transaction_context 1 transaction 400.0 lite_key 0.0 none",
    "d_transaction_context 1 transaction 400.0 pins_key 250.0 1.60",
    "e_mixed 4 transaction 900.0 no model",
    "e_mixed 4 alter 6000.0 pins 5000.0 1.20",
    "grant_all_64 1 release 1900.0 no model",
    "e_mixed_8 4 transaction missing lite 800.0",
    "rows of ours: 6, without a model: 2; rows of models that aren't among ours: 1; bare steps and probes: 1, and rows of others: 3",
]


class Stale(Exception):
    """The file isn't the rows of one run."""


def parsed(text):
    """Returns the rows that are compared: the nanoseconds by workload, threads and name, without the name's last word. In the order of the file."""
    seen, rows = set(), {}
    for number, line in enumerate(text.splitlines(), 1):
        words = line.split(" ")
        kind, _, name = words[3].rpartition("_")[::-1] if len(words) == 5 else ("", "", "")
        try:
            row, threads, figure = words[0], int(words[2]), float(words[4])
        except (IndexError, ValueError):
            raise Stale(f"line {number} isn't a row: {line}") from None
        if row != "ROW" or not name or kind not in KINDS:
            raise Stale(f"line {number} isn't a row: {line}")
        if (words[1], threads, words[3]) in seen:
            raise Stale(f"line {number} is a row that was there already: {line}")
        seen.add((words[1], threads, words[3]))
        if kind in ("least" if threads == 1 else "median", "mean", "count"):
            rows[words[1], threads, name] = figure
    return rows


def split(name, who):
    """Returns who was timed, and what a turn is. Of two that fit, the longer one. Or nothing."""
    fitting = [one for one in who if name.startswith(one + "_")]
    if not fitting:
        return None
    longest = max(fitting, key=len)
    return longest, name[len(longest) + 1 :]


def sorted_out(rows):
    """Returns our rows and those of the models, by workload, threads and what a turn is; and how many are bare, and of others."""
    ours, models, bare, others = {}, {}, 0, 0
    for (workload, threads, name), figure in rows.items():
        if found := split(name, OURS):
            if workload.endswith(BARE):
                bare += 1
            else:
                ours[workload, threads, found[1]] = figure
        elif found := split(name, MODELS):
            models.setdefault((workload, threads, found[1]), {})[found[0]] = figure
        else:
            others += 1
    return ours, models, bare, others


def compared(key, figure, models):
    """Returns the lines of a row of ours."""
    if key not in models:
        return [(*key, figure, "no model", "", "")]
    return [
        (*key, figure, model, models[key][model], f"{figure / models[key][model]:.2f}" if models[key][model] > 0 else "none")
        for model in MODELS
        if model in models[key]
    ]


def lines_of(text):
    """Returns what is printed of some rows: a table, and a line at its end."""
    ours, models, bare, others = sorted_out(parsed(text))
    table = [line for key, figure in ours.items() for line in compared(key, figure, models)]
    lonely = [key for key in models if key not in ours]
    table += [(*key, "missing", model, figure, "") for key in lonely for model, figure in models[key].items()]
    without = sum(key not in models for key in ours)
    return [LINE.format(*line).rstrip() for line in table] + [
        f"rows of ours: {len(ours)}, without a model: {without}; rows of models that aren't among ours: {len(lonely)}; "
        f"bare steps and probes: {bare}, and rows of others: {others}"
    ]


def refused(text):
    """Whether some rows are refused."""
    try:
        lines_of(text)
    except Stale:
        return True
    return False


def check():
    """Returns the status: whether the made-up run gives its lines, and what isn't a run is refused."""
    found = [" ".join(line.split()) for line in lines_of(SAMPLE)]
    for line, wanted in zip(found, TOLD):
        if line != wanted:
            print(f"printed: {line}\nwanted:  {wanted}", file=sys.stderr)
    twice = SAMPLE + "ROW a_pair 1 lite_pair_least 21.0\n"
    broken = ["ROW a_pair 1 lite_pair_least\n", "ROW a_pair one lite_pair_least 1.0\n", "ROW a_pair 1 lite_pair 1.0\n", "a_pair shared 1 pair_least 1.0\n"]
    accepted = [text for text in [twice, *broken] if not refused(text)]
    for text in accepted:
        print(f"accepted: {text.splitlines()[-1]}", file=sys.stderr)
    return int(found != TOLD or bool(accepted))


def main():
    """Returns the status."""
    if sys.argv[1:] == ["--check"]:
        return check()
    path = sys.argv[1] if len(sys.argv) > 1 else ROWS
    try:
        lines = lines_of(pathlib.Path(path).read_text(encoding="utf-8"))
    except (OSError, Stale) as why:
        print(f"{path}: {why}", file=sys.stderr)
        return 1
    print(LINE.format("workload", "threads", "turn", "ours", "beside", "ns", "times"))
    print("\n".join(lines))
    return 0


if __name__ == "__main__":
    sys.exit(main())

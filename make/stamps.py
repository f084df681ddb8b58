"""Prints the libraries that programs depend on, one line each: the crate's name, and the stamp by which `rt` recognizes that the library in the crate's
out/rlib is built from these sources. The stamps are computed by the kit's own module, from the sources, crates.txt and the kit alone.

Usage, at the top of the repository: python3 make/stamps.py PROGRAM..
"""

import os
import shutil
import sys

sys.path.insert(0, os.path.dirname(os.path.realpath(shutil.which("rt"))))
import rtlib  # noqa: E402 (it lies beside rt)


def main(programs):
    """Prints the lines, and returns the exit status."""
    crates = {crate.name: crate for crate in rtlib.crates_below(os.getcwd())}
    lacking = [name for name in programs if name not in crates]
    if lacking or not programs:
        print(f"there is no program {lacking[0] if lacking else ''}", file=sys.stderr)
        return 1
    below = {crate.name: crate for name in programs for crate in crates[name].below()}
    for name in sorted(below):
        print(name, below[name].stamp())
    return 0


if __name__ == "__main__":
    sys.exit(main(sys.argv[1:]))

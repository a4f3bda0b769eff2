#!/usr/bin/env python3
"""Writes the stored tests of blockrun: tests/blockrun/NAME.in, and NAME.out, which is what tests/blockrun.py answers.
A long one is NAME.in.gz and NAME.out.gz, as `gzip -n` writes them; what is compared is the text in them.

The cases are in tests/blockrun_cases_*.py, by theme; scenarios stand one after another in a case, and tests/blockrun_script.py
says how they are written down. Where a kind of test is too long to be stored, its short form is there and the whole of it in
tests/blockrun_random.py.

    python3 tests/blockrun_cases.py          writes the files
    python3 tests/blockrun_cases.py --check  writes nothing; says whether the files are what would be written
"""

import gzip
import os
import subprocess
import sys

import blockrun_cases_counts
import blockrun_cases_lines
import blockrun_cases_losses
import blockrun_cases_places
import blockrun_cases_windows
from blockrun_script import Case, written

HERE = os.path.join(os.path.dirname(os.path.abspath(__file__)), "blockrun")
THEMES = [blockrun_cases_lines, blockrun_cases_windows, blockrun_cases_losses, blockrun_cases_counts, blockrun_cases_places]
ROW = "%-16s %4d links %6d lines %6d answers by hand %7d bytes"


def stored(path):
    """The text of a file, or None where there is none."""
    if not os.path.exists(path):
        return None
    with gzip.open(path, "rb") if path.endswith(".gz") else open(path, "rb") as file:
        return file.read()


def store(path, text):
    if path.endswith(".gz"):
        text = subprocess.run(["gzip", "-9n"], input=text, stdout=subprocess.PIPE, check=True).stdout
    with open(path, "wb") as file:
        file.write(text)


def main():
    check = sys.argv[1:] == ["--check"]
    sums = [0, 0, 0, 0]
    for function in [function for theme in THEMES for function in theme.CASES]:
        made = Case(function.__name__)
        function(made)
        text, out, by_hand = written(made)
        for ending, content in [(".in", text), (".out", out)]:
            path = os.path.join(HERE, made.name + ending + (".gz" if made.packed else ""))
            if stored(path) == content:
                continue
            if check:
                sys.exit("%s is not what tests/blockrun_cases.py writes" % path)
            os.makedirs(HERE, exist_ok=True)
            store(path, content)
        row = [made.scenarios, len(made.lines), by_hand, len(text) + len(out)]
        sums = [a + b for a, b in zip(sums, row)]
        print(ROW % (made.name, *row))
    print(ROW % ("all", *sums))


if __name__ == "__main__":
    main()

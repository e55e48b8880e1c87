#!/usr/bin/env python3
"""Writes docs/YARDSTICK.md: the yardstick for speed as it stands in compare/, whole."""
import argparse
import difflib
import sys
from pathlib import Path

sys.dont_write_bytecode = True
import repository

PAGE = "docs/YARDSTICK.md"
YARDSTICK = "compare/src/bench/yardstick.rs"
LIMITS = "compare/src/limits.rs"

EXPLAINED = """\
usage: python3 tools/yardstick.py            prints docs/YARDSTICK.md
       python3 tools/yardstick.py --check    compares docs/YARDSTICK.md with the files that it shows

Where they differ, write it again:

    python3 tools/yardstick.py > docs/YARDSTICK.md

Exit status: 0 done, or they agree; 1 they differ; 2 wrong use, or a file that can't be read."""

FRONT = f"""\
# The yardstick

Written by `tools/yardstick.py`, and held equal to the source by the test command.

The ordinary Rust program that the library's speed is measured against ([PERFORMANCE.md](PERFORMANCE.md)). It makes the same checks and gives the
same answers as `caa_judge_for` and `caa_permitted_issuers_for`. `compare library` compares its answers on the stored and the generated cases,
with every octet of the buffers, as it does for the library ([COMPARISON.md](COMPARISON.md)). Before each measurement the answers are compared again.

What makes it an ordinary program, and a fair one:

- The records are read once into a vector of borrowed parts. Nothing is copied.
- The vector is searched from its front. A comparison of names tests the lengths first, then the octets, with what Rust's library has for it.
- Values are read for the set that was found, and for no other.
- A name that leads to the same set as the name before it is not decided again.
- There is no hash table, nothing is sorted, and nothing is kept between calls.
- It needs nothing but Rust's own library. Of the package it takes the types of the answers and the limits.
"""


def page(root):
    shown = [FRONT]
    for title, path in (("The program", YARDSTICK), ("The limits that it takes", LIMITS)):
        shown.append(f"## {title}, `{path}`\n\n```rust\n{(root / path).read_text().rstrip()}\n```\n")
    return "\n".join(shown)


def main(arguments):
    parser = argparse.ArgumentParser(add_help=False)
    parser.add_argument("-h", "--help", action="store_true")
    parser.add_argument("--check", action="store_true")
    parser.add_argument("--root", type=Path, default=repository.ROOT)
    options = parser.parse_args(arguments)
    if options.help:
        print(EXPLAINED)
        return 0
    try:
        wanted = page(options.root)
        if not options.check:
            print(wanted, end="")
            return 0
        there = (options.root / PAGE).read_text()
    except (OSError, ValueError) as problem:
        print(f"yardstick: {problem}", file=sys.stderr)
        return 2
    if there == wanted:
        return 0
    sys.stdout.writelines(difflib.unified_diff(
        there.splitlines(True), wanted.splitlines(True), PAGE, "the source", n=1))
    print(f"yardstick: write it again: python3 tools/yardstick.py > {PAGE}", file=sys.stderr)
    return 1


if __name__ == "__main__":
    sys.exit(main(sys.argv[1:]))

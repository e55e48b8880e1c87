#!/usr/bin/env python3
"""Two versions of the library on the same loads, in turns."""
import argparse
import os
import re
import subprocess
import sys
from pathlib import Path

COMPARE = Path(__file__).resolve().parent

EXPLAINED = """\
usage: python3 compare/before-after.py [--rounds N] [--features LIST] BEFORE AFTER [TEXT]

BEFORE and AFTER are folders, each with a libsplinepearl.a. Runs `compare bench` of this source with each of the two,
in turns, on the loads with TEXT in their title, and prints for each load the least time of both and their ratio.
Do nothing else on the machine meanwhile. Nothing passes or fails by speed.

  --rounds N        turns (3)
  --features LIST   the calls that both libraries have (judge,list,lines)

Exit status: 0 measured; 1 a build, a run or a load fails, or the two have other loads; 2 wrong use."""

# A row of the table that `compare bench` prints: load, answer, runs, and the library's median and least time.
ROW = re.compile(r"^\| (?P<load>[^|]+) \| (?P<answer>[^|]+) \| \d+ \| [\d.]+ \((?P<least>[\d.]+)\) \|")


def fail(why, status):
    print(f"before-after: {why}", file=sys.stderr)
    sys.exit(status)


def built(folder, side, features):
    """The program, linked with the library of this folder, in a target folder of its own."""
    target = COMPARE / "target" / side
    command = ["cargo", "build", "--quiet", "--offline", "--locked", "--release", "--manifest-path", COMPARE / "Cargo.toml",
               "--features", features, "--target-dir", target]
    if subprocess.run(command, env=os.environ | {"SPLINEPEARL_LIBS": str(folder.resolve())}, check=False).returncode != 0:
        fail(f"the build with {folder} has failed", 1)
    return target / "release" / "compare"


def measured(program, text):
    """The least time of each load, in microseconds, with its answer."""
    run = subprocess.run([program, "bench", text], stdout=subprocess.PIPE, text=True, check=False)
    if run.returncode != 0:
        fail(f"{program} bench has failed", 1)
    rows = [row for line in run.stdout.splitlines() if (row := ROW.match(line))]
    return {row["load"]: (row["answer"], float(row["least"])) for row in rows if row["load"] != "Load"}


def main():
    options = argparse.ArgumentParser(usage=argparse.SUPPRESS, add_help=False)
    options.add_argument("-h", "--help", action="store_true")
    options.add_argument("--rounds", type=int, default=3)
    options.add_argument("--features", default="judge,list,lines")
    options.add_argument("given", nargs="*")
    chosen = options.parse_args()
    if chosen.help:
        print(EXPLAINED)
        return
    if len(chosen.given) not in (2, 3) or chosen.rounds < 1:
        fail("two folders are needed, and at most one text; see --help", 2)
    before, after = (Path(folder) for folder in chosen.given[:2])
    text = chosen.given[2] if len(chosen.given) == 3 else ""
    for folder in (before, after):
        if not (folder / "libsplinepearl.a").is_file():
            fail(f"there is no library {folder}/libsplinepearl.a", 2)
    sides = [built(before, "before", chosen.features), built(after, "after", chosen.features)]
    least = [{}, {}]
    for _ in range(chosen.rounds):
        for side, program in enumerate(sides):
            for load, (answer, time) in measured(program, text).items():
                _, known = least[side].get(load, (answer, time))
                least[side][load] = (answer, min(time, known))
    if not least[0] or least[0].keys() != least[1].keys():
        fail("no load has that text in its title, or the two have other loads", 1)
    print("| Load | Answer | Before, µs | After, µs | After / before |\n|---|---|---|---|---|")
    ratios = []
    for load, (answer, old) in least[0].items():
        new = least[1][load][1]
        ratios.append(new / old)
        print(f"| {load} | {answer} | {old:g} | {new:g} | {new / old:.2f} |")
    ratios.sort()
    print(f"\n{len(ratios)} loads, after / before: {ratios[0]:.2f} to {ratios[-1]:.2f}, in the middle {ratios[len(ratios) // 2]:.2f}")


if __name__ == "__main__":
    main()

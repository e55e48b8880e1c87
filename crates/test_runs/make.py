#!/usr/bin/env python3
"""Makes the stored runs: data/cases.bin, which the program `runs` reads, and stdout, what it must write.

    python3 crates/test_runs/make.py [--check]    with --check nothing is written; the stored files must be these

Every wanted answer stands in cases/, worked out by hand from the requirements and RFC 8659. No program gives any.
"""
import sys
from pathlib import Path

sys.dont_write_bytecode = True  # a run leaves nothing but the two files
from cases import aliases, applicants, limits, lines, lists, rfc8659, rule, up  # noqa: E402
from cases.forms import case_octets, case_line, number  # noqa: E402

here = Path(__file__).resolve().parent
cases = [case for topic in (rule, rfc8659, limits, lists, lines, applicants, aliases, up) for case in topic.cases]
titles = [case.title for case in cases]
twice = {title for title in titles if titles.count(title) > 1}
if twice:
    sys.exit(f"make: two cases have the title {twice}")

made = {
    "data/cases.bin": number(len(cases)) + b"".join(map(case_octets, cases)),
    "stdout": b"".join(map(case_line, cases)),
}
if sys.argv[1:] == ["--check"]:
    stale = [path for path, octets in made.items() if not (here / path).is_file() or (here / path).read_bytes() != octets]
    if stale:
        sys.exit(f"make: not what the cases give: {', '.join(stale)}")
elif sys.argv[1:]:
    sys.exit(__doc__)
else:
    for path, octets in made.items():
        (here / path).parent.mkdir(exist_ok=True)
        (here / path).write_bytes(octets)
print(f"make: {len(cases)} cases")

#!/usr/bin/env python3
"""Writes docs/FIGURES.md: lines and deliberately wrong versions (edits) of each crate, and what a whole run took."""
import argparse
import datetime
import re
import sys
from pathlib import Path

sys.dont_write_bytecode = True
import repository
from repository import Repository, counted_lines, read_lines

FIGURES = "docs/FIGURES.md"
COUNTS = ["Code", "Specs", "Proofs", "Edits"]
PROVED = re.compile(r"^rt: (\w+) (proved|is kept: .*)$")
REFUSED = re.compile(r"^rt: must-fail (\w+)/(\w+)\.edit: refused, as it must be\b")
ENDED = re.compile(r"^rt: ok; handles allowed: [^;]*; must-fail edits: (?P<refused>\d+) refused(?P<rest>[^;]*); (?P<share>.*)$", re.M)

EXPLAINED = """\
usage: python3 tools/figures.py [LOG]        prints docs/FIGURES.md
       python3 tools/figures.py --check      compares the lines and edits in docs/FIGURES.md with the tree

Lines and edits are counted in the tree. The time of a whole run comes from LOG, what `bash .ci/run`
printed; without a log it is left out. To make it:

    { time bash .ci/run; } > run.log 2>&1
    python3 tools/figures.py run.log > docs/FIGURES.md

A log is refused if it isn't of a whole run of this tree in which everything passed: each crate proved, each
edit refused, none bad. What `rt ci` passed before on this machine it keeps, and proves only the rest; how much
it proved in this run is told beside the time. The date is that of the log file.

Exit status: 0 done, or the counts agree; 1 the counts in docs/FIGURES.md are not those of the tree;
2 wrong use, or a file that can't be read or isn't of this tree."""


class Wrong(Exception):
    pass


def counted(tree):
    """For each crate the lines of code, specs and proofs, and the edits."""
    table = {}
    for crate in tree.crates:
        lines = [sum(counted_lines(p) for p in tree.files(crate, part)) for part in ("src", "specs", "proofs")]
        table[crate] = lines + [len(tree.edits[crate])]
    return table


class Run:
    """What the log of a whole run says: the crates and edits in it, how much was done in this run, and the times of the whole."""

    def __init__(self, path, tree):
        text = path.read_text(errors="replace")
        self.date = datetime.date.fromtimestamp(path.stat().st_mtime).isoformat()
        lines = text.splitlines()
        crates = {m[1] for m in map(PROVED.match, lines) if m}
        edits = {(m[1], m[2]) for m in map(REFUSED.match, lines) if m}
        last = re.findall(r"^(\d+) passed, (\d+) failed$", text, re.M)
        if not last or last[-1][1] != "0":
            raise Wrong(f"{path}: no line 'N passed, 0 failed': not a whole run in which everything passed")
        self.passed = f"{last[-1][0]} passed, 0 failed"
        wanted = {(c, e) for c in tree.crates for e in tree.edits[c]}
        for what, there, asked in (("crate", crates, set(tree.crates)), ("edit", edits, wanted)):
            if there != asked:
                shown = ", ".join("/".join([x] if isinstance(x, str) else x) for x in sorted(there ^ asked)[:5])
                raise Wrong(f"{path}: not the run of this tree: the log and the tree differ in {len(there ^ asked)} {what}s ({shown} ..)")
        ended = ENDED.search(text)
        if not ended or " bad" in ended["rest"] or int(ended["refused"]) != len(wanted):
            raise Wrong(f"{path}: its line 'rt: ok' is missing, has bad edits, or not {len(wanted)} refused")
        self.share = ended["share"]
        self.real, user, system = (self.told(text, word) for word in ("real", "user", "sys"))
        self.processor = None if user is None or system is None else user + system

    def told(self, text, word):
        """Seconds by a line of the shell's `time`."""
        m = re.findall(rf"^{word}\s+(\d+)m([\d.]+)s$", text, re.M)
        return int(m[-1][0]) * 60 + float(m[-1][1]) if m else None


def minutes(seconds):
    return f"{int(seconds // 60)} minutes and {round(seconds % 60)} seconds"


def edits_by_kind(tree):
    names = [e for c in tree.crates for e in tree.edits[c]]
    of_code = sum(e.startswith("code_") for e in names)
    return of_code, len(names) - of_code


def kind_of(stem):
    """0 for a file of definitions, 1 for one of statements, 2 for one of tables."""
    return 1 if re.match(r"Theorems|Pinned|Meaning|Door", stem) else 2 if re.search(r"Edges$|.Calls$", stem) else 0


def figures(tree, run=None):
    table = counted(tree)
    of_code, of_definitions = edits_by_kind(tree)
    edits = of_code + of_definitions
    out = ["# Figures", ""]
    out += ["Written by `tools/figures.py`. Lines without comments, blank lines and `use` lines; deliberately wrong versions (edits),",
            f"{of_code} of code (`code_..`) and {of_definitions} of definitions."]
    if run:
        whole = f" in {minutes(run.real)}" if run.real is not None else ""
        busy = f", {round(run.processor / 60)} minutes of processor time" if run.processor is not None else ""
        out += ["",
                f"The run: `bash .ci/run`, {run.date}: `{run.passed}` ({len(table)} crates, {edits} edits){whole}{busy}.",
                f"What of it was proved: {run.share}. The time varies with the machine and with what else it does."]
    titles = ["Crate", *COUNTS]
    out += ["", "| " + " | ".join(titles) + " |", "|" + "---|" * len(titles)]
    total = [0] * (len(titles) - 1)
    for crate, row in table.items():
        total = [a + b for a, b in zip(total, row)]
        out.append(f"| `{crate}` | " + " | ".join(map(str, row)) + " |")
    out.append("| all | " + " | ".join(map(str, total)) + " |")
    out += ["", "By room. The room is the prefix of a crate's name.", "",
            "| Room | Crates | Code | Specs | Proofs | Edits |", "|---|---|---|---|---|---|"]
    rooms = {}
    for crate, row in table.items():
        rooms.setdefault(crate.split("_")[0] + ("_" if "_" in crate else ""), []).append(row)
    for room, rows in rooms.items():
        out.append(f"| `{room}` | {len(rows)} | " + " | ".join(str(sum(r[k] for r in rows)) for k in range(4)) + " |")
    out += ["", "What a reader has to believe is the specs of the crates `spec_..`: definitions; statements of theorems and what they are made of",
            "(`Theorems`, `Pinned`, `Meaning`, `Door..`); and tables of examples (`..Edges`, `..Calls`). In lines:", "",
            "| Crate | Definitions | Statements | Tables |", "|---|---|---|---|"]
    total = [0, 0, 0]
    for crate in tree.crates:
        if crate.startswith("spec_"):
            row = [0, 0, 0]
            for path in tree.files(crate, "specs"):
                row[kind_of(path.stem)] += counted_lines(path)
            total = [a + b for a, b in zip(total, row)]
            out.append(f"| `{crate}` | " + " | ".join(map(str, row)) + " |")
    out.append("| all | " + " | ".join(map(str, total)) + " |")
    if run:
        out += ["", "Every edit was refused."]
    return "\n".join(out) + "\n"


def rows_of(text):
    """The rows of the tables of a document, by the first titles of the table and the first cell of the row: the line, the titles, the cells."""
    rows = {}
    for line in read_lines(text):
        if line.cells:
            key = tuple(line.header[:2]), line.cells[0].strip("`")
            if key in rows:
                raise Wrong(f"{FIGURES}:{line.number}: {key[1]} stands twice")
            rows[key] = line.number, line.header, line.cells
    return rows


def check(tree, path):
    """What differs between the document and the tree: each count, and no time."""
    text, wanted = path.read_text(), figures(tree)
    there, now = rows_of(text), rows_of(wanted)
    found = []
    for (title, name), (_, titles, cells) in now.items():
        if (title, name) not in there:
            found.append(f"{FIGURES}: no row for {name} in the table of {title[0]}, {title[1]}")
            continue
        number, old_titles, old = there[title, name]
        if old_titles[:len(titles)] != titles:
            found.append(f"{FIGURES}:{number}: the table has other columns than {', '.join(titles)}")
        differ = ", ".join(f"{t.lower()} {a}, in the tree {b}" for t, a, b in zip(titles[1:], old[1:], cells[1:]) if a != b)
        if differ:
            found.append(f"{FIGURES}:{number}: {name}: {differ}")
    found += [f"{FIGURES}:{there[key][0]}: no {key[0][0].lower()} {key[1]} in the tree" for key in there if key not in now]
    kinds = "{} of code (`code_..`) and {} of definitions".format(*edits_by_kind(tree))
    if kinds not in text.replace("\n", " "):
        found.append(f"{FIGURES}: the edits are {kinds}")
    return found


def main(arguments):
    parser = argparse.ArgumentParser(add_help=False)
    parser.add_argument("-h", "--help", action="store_true")
    parser.add_argument("--check", action="store_true")
    parser.add_argument("--root", default=str(repository.ROOT))
    parser.add_argument("log", nargs="?")
    options = parser.parse_args(arguments)
    if options.help:
        print(EXPLAINED)
        return 0
    try:
        tree = Repository(options.root)
        if options.check:
            if options.log:
                raise Wrong("--check takes no log")
            found = check(tree, tree.root / FIGURES)
            for line in found:
                print(line)
            if found:
                print("figures: write it again: python3 tools/figures.py [LOG] > docs/FIGURES.md", file=sys.stderr)
            return 1 if found else 0
        print(figures(tree, Run(Path(options.log), tree) if options.log else None), end="")
        return 0
    except (OSError, ValueError, Wrong) as problem:
        print(f"figures: {problem}", file=sys.stderr)
        return 2


if __name__ == "__main__":
    sys.exit(main(sys.argv[1:]))

#!/usr/bin/env python3
"""Counts the places in src/ that are written in a form of the older language.

docs/DESIGN-PASS.md says what each count means, and why the places that are left stay.
With --list, each place is printed. With --root DIR, another checkout is counted.
"""

import argparse
import re
import sys
from collections import defaultdict
from pathlib import Path

LINE = r"(?m)^[ \t]*"
LETTERS = re.compile(r"[A-Za-z_]\w*|\d\w*|\S")


def sources(root):
    """Each source file as (crate, path, text without comments)."""
    for path in sorted(root.glob("crates/*/src/**/*.rt")):
        text = re.sub(r"//.*", "", path.read_text())
        yield path.relative_to(root).parts[1], path.relative_to(root), text


def items(text, kind):
    """Each struct or enum as (name, body, line)."""
    for found in re.finditer(LINE + rf"(?:pub )?{kind} (\w+)(?:<[^>]*>)? \{{\n(.*?)^[ \t]*\}}", text, re.S | re.M):
        yield found[1], found[2], text.count("\n", 0, found.start(1)) + 1


def functions(text):
    """Each function as (name, parameters, clauses, body, line)."""
    for found in re.finditer(LINE + r'(?:pub )?(?:extern "C" )?fn (\w+)(?:<[^{(]*>)?\(', text):
        at, depth = found.end(), 1
        while depth:
            depth += {"(": 1, ")": -1}.get(text[at], 0)
            at += 1
        opened = re.compile(r"^[ \t]*\{\n|\{\n", re.M).search(text, at)
        if not opened:
            continue
        end, depth = opened.end(), 1
        while depth:
            depth += {"{": 1, "}": -1}.get(text[end], 0)
            end += 1
        yield (
            found[1],
            text[found.end() : at - 1],
            text[at : opened.start()],
            text[opened.end() : end - 1],
            text.count("\n", 0, found.start(1)) + 1,
        )


def variants(body):
    return [v.strip() for v in re.findall(r"(?m)^[ \t]*(\w+(?:\([^)]*\)|[ \t]*\{[^}]*\})?),?$", body)]


def shaped_like_option(body):
    names = variants(body)
    bare = [v for v in names if re.fullmatch(r"\w+", v)]
    return len(names) == 2 and len(bare) == 1


def holds_a_refusal(body):
    return any("(Refusal)" in v for v in variants(body))


def own_option(root):
    """1a: own enums of the shape of Option, or with a refusal beside values."""
    for crate, path, text in sources(root):
        for name, body, line in items(text, "enum"):
            if shaped_like_option(body) or holds_a_refusal(body):
                yield path, line, f"enum {name}"


def flag_and_value(root):
    """1b: structs with a flag that says whether the values beside it count."""
    for crate, path, text in sources(root):
        for name, body, line in items(text, "struct"):
            if re.search(r"\b(found|whole|restricted): bool", body) and body.count(":") > 1:
                yield path, line, f"struct {name}"


def number_for_kind(root):
    """1c: functions and fields in which a number stands for a kind, a verdict or a column."""
    word = re.compile(r"\b(phase|verdict|number|call|rtype|class|column|question): (?:usize|u64)\b")
    for crate, path, text in sources(root):
        for name, params, clauses, body, line in functions(text):
            for kind in sorted(set(word.findall(params))):
                yield path, line, f"fn {name}: {kind}"
        for name, body, line in items(text, "struct"):
            for kind in word.findall(body):
                yield path, line, f"struct {name}: {kind}"
        for name, params, clauses, body, line in functions(text):
            if re.fullmatch(r"tag_number|question_number", name):
                yield path, line, f"fn {name}"


def shape(params, body):
    """The tokens of a function, with types, sizes, constants, literals and paths to sister crates made alike."""
    out = []
    for token in LETTERS.findall(params + "{" + body):
        if re.fullmatch(r"u8|u16|u32|u64|usize", token):
            token = "TYPE"
        elif re.fullmatch(r"\d\w*|[A-Z][A-Z_0-9]+", token):
            token = "SIZE"
        elif re.fullmatch(r"(\w+?)(256|512)(\w*)|\w+_(u32|u64)|\w+_(short|long)", token):
            token = re.sub(r"256|512|u32|u64|short|long", "", token)
        elif re.fullmatch(r"State\w*", token):
            token = "State"
        out.append(token)
    return " ".join(out)


def twins(root):
    """2: functions that differ in types, sizes and constants alone; each group counts all of its functions."""
    groups = defaultdict(list)
    for crate, path, text in sources(root):
        if crate.endswith("_c"):
            continue
        for name, params, clauses, body, line in functions(text):
            if len(LETTERS.findall(body)) >= 12:
                groups[shape(params, body)].append((path, line, f"fn {name}"))
    for group in groups.values():
        if len(group) > 1:
            yield from group


def index_loops(root):
    """3: loops that step an index by one and read or write at it, or that step a slice by its first or last element."""
    for crate, path, text in sources(root):
        for name, params, clauses, body, line in functions(text):
            for loop in re.finditer(r"(?m)^([ \t]*)(?:while ([^\n]*)|loop) \{\n(.*?)^\1\}", body, re.S):
                condition, inner = loop[2] or "", loop[3]
                steps = set(re.findall(r"\b(\w+) [+-]= 1;", inner))
                used = any(re.search(rf"\[{s}\]|\b{s} (?:<|<=|==|!=) |(?:<|<=) {s}\b|0 < {s}\b|\({s}\)|, {s}\b", condition + inner) for s in steps)
                jumps = re.search(r"\b(at|p|from|r) = [^;]*(?:next|\+ 1|behind)", inner)
                halves = re.search(r"= &\w+\[(?:1\.\.|\.\.last)\];", inner)
                if (used and not jumps) or halves:
                    yield path, line, f"fn {name}"


HANDMADE = re.compile(r"either|less|at_most|shorter|still_same|is_same|tag_number|number_at|put_number|wide|octet_at")


def handmade(root):
    """4: equality, order, choice and copying written by hand."""
    for crate, path, text in sources(root):
        for name, params, clauses, body, line in functions(text):
            if HANDMADE.fullmatch(name) and len(re.findall(r"\n", body)) <= 14:
                yield path, line, f"fn {name}"
            fields = re.findall(r"let (\w+) = session\.\1;", body)
            if len(fields) > 3 and "Session {" in body:
                yield path, line, f"fn {name}: copies {len(fields)} fields"


GROUPS = {
    "account, method": r"account: &\[u8\],\s*method: &\[u8\]",
    "book, table": r"book: &(?:'a )?\[u8\],\s*table: &\[u16\]",
    "names, count": r"names: &(?:mut )?\[u16\],\s*count: usize",
    "rounds, t": r"rounds: &(?:mut )?\[u16\],\s*t: usize",
    "set, up, wildcard": r"up: LabelsOff,\s*wildcard: bool",
}


def groups(root):
    """5: functions with parameters that always travel together."""
    for crate, path, text in sources(root):
        for name, params, clauses, body, line in functions(text):
            for group, pattern in GROUPS.items():
                if re.search(pattern, params):
                    yield path, line, f"fn {name}: {group}"


def buffers(root):
    """6: a length beside a buffer, numbers in rows of one array, arrays that go side by side."""
    for crate, path, text in sources(root):
        for name, body, line in items(text, "struct"):
            if re.search(r"length: usize", body) and re.search(r"octets: \[u8", body):
                yield path, line, f"struct {name}"
        for name, params, clauses, body, line in functions(text):
            if re.search(r"(names|numbers): &(?:mut )?\[u16\],\s*(count|n): usize", params):
                yield path, line, f"fn {name}: a count beside an array"
            elif re.search(r"\b[26] \* (i|n|count|w)\b", body):
                yield path, line, f"fn {name}: rows of numbers in one array"


def switches(root):
    """7: enums and numbers that only pick which test or step runs."""
    for crate, path, text in sources(root):
        for name, params, clauses, body, line in functions(text):
            if re.search(r": (Class|Style|Kind|WordWidth)\b", params):
                yield path, line, f"fn {name}"
            elif re.search(r"\b(call|number): usize", params) and re.search(r"match number|if call ==", body):
                yield path, line, f"fn {name}"


def answers(root):
    """8: answers written by hand for the goals of functions, and walks."""
    for path in sorted(root.glob("crates/*/proofs/**/*.antt")):
        if path.name in ("Answers.antt", "Proof.antt"):
            text = path.read_text()
            for found in re.finditer(r"(?m)^pub (\S+) : goal\.", text):
                yield path.relative_to(root), text.count("\n", 0, found.start()) + 1, found[1]


POINTS = (
    ("1 own Option or Result", own_option),
    ("1 flag with a value", flag_and_value),
    ("1 number for a kind", number_for_kind),
    ("2 twins", twins),
    ("3 index loops", index_loops),
    ("4 written by hand", handmade),
    ("5 parameters that travel together", groups),
    ("6 buffers and rows", buffers),
    ("7 switches", switches),
    ("8 answers", answers),
)


def main():
    options = argparse.ArgumentParser(description=__doc__.split("\n")[0])
    options.add_argument("--list", action="store_true", help="print each place")
    options.add_argument("--root", type=Path, default=Path(__file__).resolve().parent.parent, help="the checkout to count")
    chosen = options.parse_args()
    for title, find in POINTS:
        places = list(find(chosen.root))
        print(f"{title}: {len(places)}")
        if chosen.list and title != "8 answers":
            for path, line, what in places:
                print(f"  {path}:{line}: {what}")


if __name__ == "__main__":
    sys.exit(main())

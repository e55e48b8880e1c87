#!/usr/bin/env python3
"""Respells the names of this repository's definitions and lemmas: types in upper camel case, everything else in snake case.

usage: python3 tools/respell.py [ROOT]

It was run once, right after the kit's port.py, when the repository came to the kit of kit-version.txt. It collects the names that
crates/*/specs and the lemma files of crates/*/proofs declare, and turns `isLabel` to `is_label`, `host-label` to `host_label` and
`Host-label` to `HostLabel`, where they are declared and wherever they are used: in specs, proofs, clauses, and between backquotes in the
documents. A lemma that would get the name of a definition ends in `_lem`; one that is named after a type keeps its dash, as `All-head`.
Names from Rattle source, names that Rattle makes and names of the kit's library keep their spelling. Two names that would fall together
stop it before anything is written.
"""
import collections
import glob
import os
import re
import sys

SIGNATURE = re.compile(r"^\s*(?:(?:pattern|unfoldable|abbrev|pub)\s+)*([A-Za-z][^\s(){}:;,.]*)(?:\s*\{[^}]*\})*\s*(?:\([^)]*\)\s*)*:(?!=)\s")
TYPE = re.compile(r"^\s*(?:(?:pattern|unfoldable|abbrev|pub)\s+)*(?:data|record)\s+([^\s(){}:]+)")
TOKEN = re.compile(r"[A-Za-z_][\w'-]*[\w']|[A-Za-z_]")
USE = re.compile(r"^\s*(?:pub )?(?:ghost )?use ([\w.'-]+?)\.?(?:\{([^}]*)\})?;?\s*$")
# Names that would fall together with a record, an enum or a definition of a file that uses both.
CHOSEN = {
    "Good-opening": "OpeningIsGood",
    "good-opening": "opening_is_good",
    "Permitted-issuers": "PermittedIssuersExactly",
    "permitted-issuers": "permitted_issuers_exactly",
    "is-caa": "is_caa_record",
    "is-of-kind": "of_kind",
    "refusal-of": "refusal_of_lem",
    "grants-to": "grants_to_lem",
    "tlsa-records": "tlsa_records_lem",
}


def words(part):
    return re.sub(r"([a-z0-9])([A-Z])", r"\1_\2", part).lower()


def snake(name):
    return "_".join(words(p) for p in name.split("-"))


def camel(name):
    return "".join(p[:1].upper() + p[1:] for p in name.split("-"))


def lemma_files(root):
    for f in glob.glob(root + "/crates/*/proofs/**/*.antt", recursive=True):
        if os.path.basename(f) not in ("Proof.antt", "Answers.antt", "Invariants.antt"):
            yield f


def declared(files):
    found = collections.OrderedDict()
    for f in files:
        for line in open(f, encoding="utf-8"):
            if line.lstrip().startswith("--"):
                continue
            m = TYPE.match(line) or SIGNATURE.match(line)
            if m:
                found.setdefault(m.group(1), f)
    return found


def is_type(name, file):
    """Whether a lemma file declares this name as a type."""
    return re.search(r"^\s*(?:\w+ )*" + re.escape(name) + r" .*Type \d$", open(file, encoding="utf-8").read(), re.M)


def mapping(root):
    specs = sorted(glob.glob(root + "/crates/*/specs/**/*.antt", recursive=True))
    of_specs, of_proofs = declared(specs), declared(sorted(lemma_files(root)))
    turned = {}
    for n in list(of_specs) + list(of_proofs):
        if n in CHOSEN:
            turned[n] = CHOSEN[n]
        elif n[0].isupper() and n not in of_specs and not is_type(n, of_proofs[n]):
            head, dash, rest = n.partition("-")
            if "-" in rest:
                turned[n] = head + dash + snake(rest)
        elif n[0].isupper():
            if "-" in n:
                turned[n] = camel(n)
        elif "-" in n or re.search("[A-Z]", n):
            turned[n] = snake(n)
    after = collections.defaultdict(list)
    for n in dict.fromkeys(list(of_specs) + list(of_proofs)):
        after[turned.get(n, n)].append(n)
    for t, ns in after.items():
        definitions = [n for n in ns if n in of_specs]
        if len(ns) == 2 and len(definitions) == 1 and ns[0][0].islower():
            lemma = [n for n in ns if n not in of_specs][0]
            turned[lemma] = t + "_lem"
    after = collections.defaultdict(list)
    for n in dict.fromkeys(list(of_specs) + list(of_proofs)):
        after[turned.get(n, n)].append(n)
    return turned, [(t, ns) for t, ns in after.items() if len(ns) > 1 and together(root, ns)]


def together(root, names):
    """The first file in which two of these names stand."""
    for f in glob.glob(root + "/crates/*/**/*.antt", recursive=True):
        if len(set(names) & set(TOKEN.findall(re.sub("--.*", "", open(f, encoding="utf-8").read())))) > 1:
            return f


def outside(text):
    """The names that a file takes from the kit's library: they keep their spelling there."""
    names = set()
    for line in text.split("\n"):
        m = USE.match(line)
        if m and m.group(2) and (not m.group(1).startswith("Rattle.") or re.match(r"Rattle\.(std|core|io|libc|os)\b", m.group(1))):
            names |= {n.split(" as ")[-1].strip() for n in m.group(2).split(",")}
    return names


def turn_line(line, turned, keep, made):
    def one(m):
        t = m.group(0)
        if t in keep or t not in turned:
            return t
        before = line[: m.start()]
        if made and re.search(r"(?:^|[^\w'-])(?:tie|goal|need|c|w|l|g)\.(?:[\w'-]+\.)*$", before) and "-" in t:
            return t
        return turned[t]

    return TOKEN.sub(one, line)


def turn_comment(text, turned, keep):
    text = re.sub(r"`[^`]*`", lambda m: turn_line(m.group(0), turned, keep, False), text)
    return TOKEN.sub(lambda m: turned[m.group(0)] if m.group(0) in turned and m.group(0) not in keep and "-" not in m.group(0) else m.group(0), text)


def turn_text(text, turned, mark, made=False):
    keep = outside(text)
    lines = []
    for line in text.split("\n"):
        code, comment = line, ""
        at = line.find(mark)
        if at >= 0 and line[:at].count('"') % 2 == 0:
            code, comment = line[:at], line[at:]
        lines.append(turn_line(code, turned, keep, made) + turn_comment(comment, turned, keep))
    return "\n".join(lines)


def turn_document(text, turned):
    return re.sub(r"`[^`\n]*`", lambda m: turn_line(m.group(0), turned, set(), False), text)


def write(f, text):
    if text != open(f, encoding="utf-8").read():
        open(f, "w", encoding="utf-8").write(text)
        return 1
    return 0


def main():
    root = sys.argv[1] if len(sys.argv) > 1 else "."
    turned, clashes = mapping(root)
    if clashes:
        for t, ns in clashes:
            print(f"{t}: {', '.join(ns)} in {together(root, ns)}", file=sys.stderr)
        raise SystemExit(1)
    count = 0
    of_clauses = {n: t for n, t in turned.items() if "-" in n or re.search("[A-Z]", n)}  # a Rust function keeps its name
    for f in sorted(glob.glob(root + "/crates/*/**/*.antt", recursive=True)):
        made = os.path.basename(f) in ("Proof.antt", "Answers.antt", "Invariants.antt")
        count += write(f, turn_text(open(f, encoding="utf-8").read(), turned, "--", made))
    for f in sorted(glob.glob(root + "/crates/*/src/**/*.rt", recursive=True)):
        count += write(f, turn_text(open(f, encoding="utf-8").read(), of_clauses, "//"))
    for f in sorted(glob.glob(root + "/README.md") + glob.glob(root + "/docs/*.md") + glob.glob(root + "/docs/landings/*.md")):
        count += write(f, turn_document(open(f, encoding="utf-8").read(), turned))
    print(f"{len(turned)} names, {count} files")


if __name__ == "__main__":
    main()

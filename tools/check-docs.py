#!/usr/bin/env python3
"""Looks up what the documents name. Every definition, theorem, function, type, crate, path and deliberately wrong version (edit) that a
document names must be there, in the crate that is named beside it; and docs/PROMISES.md must name every theorem, every public function
and every edit. It needs no Rattle, and takes a few seconds."""
import argparse
import re
import sys
from pathlib import Path

sys.dont_write_bytecode = True
import repository
from repository import Repository, edits_named, is_edit_column, near, read_document

DOCUMENTS = ["README.md", "docs/PROMISES.md", "docs/DECISIONS.md", "docs/PROVING.md", "docs/TOUR.md", "docs/ASSUMPTIONS.md"]
PROMISES = "docs/PROMISES.md"
WORDS = "tools/check-docs-words.txt"

EXPLAINED = """\
usage: python3 tools/check-docs.py [--root FOLDER]

Reads README.md and, in docs/, PROMISES.md, DECISIONS.md, PROVING.md, TOUR.md and ASSUMPTIONS.md. What
stands in backquotes is looked up by its form:

  WireForm             a statement of crates/*/specs with its proof (wire_form, or wire_form_lem) in proofs/ of the
                       same crate; or a type, constructor, record or predicate of specs, src or proofs
  check_book           a definition, function, field, law, constant, crate or edit; a name of include/ or bindings/rust
  judge, items         declared in specs or src, or a crate
  Climb::up, T.field   a method of a type, a function of a crate, a field of a record
  checked (f b)        an expression: each name in it
  specs/A.antt, a/*/b  a path of the repository, from its top, from crates/ or, by its last name, anywhere
  rt check NAME        a command: the paths and crates in it
  rattle-kit-..        the version of the Rattle kit: it must be that of kit-version.txt

Numbers, octets, DNS names, records as text, options (looked up in the scripts) and answers of the desk
program are no names. tools/check-docs-words.txt lists what no rule tells apart, each with its reason.

`Name` (crate), `Name` (`path`), `Name`, `path` and `Name` in `path`: the name must stand there. In a table
with a column Crate, what the first column names stands in that crate. In columns of edits, and after
crate/edit in a text, a name belongs to the crate named last; crate/must-fail stands for all of its edits.

A closed proposition (`abbrev pub X : Type 0`) is a statement that needs a proof: in files of theorems and tables
always, elsewhere where its name has several words. It may stand in proofs/ too, in a file of lemmas.

Of docs/PROMISES.md: it must name every statement that is proved; every exported and every public function, in the
column Function of a table, since a definition may have the same name; and every edit or its crate's must-fail folder.

Exit status: 0 all found; 1 something is missing (file, line, name, and names like it); 2 wrong use, or a
file that can't be read."""

# ---- forms of what stands in backquotes

KEYWORDS = set(  # words of Rattle and of its proof language, and of its tactics
    "Type abbrev absurd as auto by cc const crate do else ensures enum fn for ghost grind if impl in let loop match mod module mut"
    " new now old omega pub record refl requires result return rw search self simp struct subst tactic type unfoldable unfolding use where"
    " while".split())
COMMANDS = set("bash cargo cc dig echo make nm printf python3 rt".split())
KIT_CRATES = set("std core check libc io os".split())  # the libraries of the kit; no crate may have their names

NOT_NAMES = [
    (r"[^A-Za-z]+", "octets, digits, signs"),
    (r"[A-Za-z]", "one letter: an octet or a variable"),
    (r"[A-Z]{2,}", "a word that stands for another, as NAME"),
    (r"\\.*", "an escape of a line of text"),
    (r"no book|(?:verdict|refused)(?: [0-9A-Z]+(?: (?:name|record|at|up) [0-9A-Z]+)*)?|N passed, 0 failed", "a line of output"),
    (r"(?:\*\.)?X|(?:\*\.)?(?:[a-z0-9-]+\.)+(?:example|com|net|org)\.?|(?:\*\.)?(?:[a-z]\.)+", "a domain name"),
    (r"(?:\S+ )?(?:CAA|TYPE257) .*", "a record as text"),
    (r"(?=.*[;=])(?!.* = )[A-Za-z0-9 .;=-]+", "a value, or a part of one"),
    (r"\+\w+(?: \+\w+)*", "options of dig"),
    (r"issue|issuewild|iodef", "tags"),
    (r"[a-z]+--[a-z]*", "a label, or the front of one"),
    (r"[A-Z]::[A-Z]", "letters that stand for types"),
    (r"[a-z]\.(?:now|old|new|\d)", "a lent value before or after a call, or a part of a pair"),
]
SUFFIX = r"\.(?:antt|rt|md|sh|py|txt|bin|c|h|rs|edit|a|toml|json)"
PATH = re.compile(rf"(?:\.\.)?[\w.*-]*(?:/[\w.*-]*)+|[\w.*-]+{SUFFIX}|\.\.\w+{SUFFIX}")
SNAKE = re.compile(r"[a-z][a-z0-9]*(?:_[a-z0-9]+)+")
IDENTIFIER = re.compile(r"[A-Za-z][\w-]*(?:\.[A-Za-z][\w-]*)*(?:::\w+)*")


def not_a_name(span):
    return any(re.fullmatch(pattern, span) for pattern, _ in NOT_NAMES)


class Unit:
    """A text to read: a cell of a table or a paragraph, with the line of each of its parts."""

    def __init__(self, text, lines, row=None, title="", crate=None, first=False):
        self.text, self.lines, self.row, self.title, self.crate, self.first = text, lines, row, title, crate, first

    def line(self, offset):
        number = self.lines[0][1]
        for start, n in self.lines:
            if start <= offset:
                number = n
        return number


def units_of(lines, crates):
    """The cells and paragraphs of a document, code left out."""
    paragraph, units = [], []

    def close():
        if paragraph:
            text, starts = "", []
            for number, part in paragraph:
                starts.append((len(text), number))
                text += part + " "
            units.append(Unit(text, starts))
            paragraph.clear()

    for line in lines:
        if line.cells:
            close()
            titles = line.header + [""] * len(line.cells)
            of_row = None
            for title, cell in zip(titles, line.cells):
                if title == "Crate" and cell.strip("`") in crates:
                    of_row = cell.strip("`")
            for k, (title, cell) in enumerate(zip(titles, line.cells)):
                beside = re.search(r"\((\w+)\)$", title)
                crate = beside[1] if beside and beside[1] in crates else of_row
                units.append(Unit(cell, [(0, line.number)], line, title, crate, k == 0))
        elif line.code or not line.text.strip() or line.text.startswith(("|", "#", "- ")):
            close()
            if not line.code and line.text.strip() and not line.text.startswith("|"):
                paragraph.append((line.number, line.text.strip()))
        else:
            paragraph.append((line.number, line.text.strip()))
    close()
    return units


class Place:
    """Where a name stands."""

    def __init__(self, path, crate=None, declared=None):
        self.path, self.crate, self.declared = Path(path), crate, declared


class Checker:
    def __init__(self, root):
        self.root = Path(root)
        self.tree = Repository(root)
        self.errors = []
        self.words, self.words_used = self.read_words(), set()
        self.index = {}
        for part in (self.tree.specs, self.tree.code, self.tree.proofs):
            for crate, declared in part.items():
                for d in declared:
                    self.index.setdefault(d.name, []).append(d)
        self.edits = {}
        for crate, edits in self.tree.edits.items():
            for name in edits:
                self.edits.setdefault(name, []).append(crate)
        self.files = [p for p in self.walk(self.root)]
        self.of_kit = self.names_of_kit()
        self.interface = self.names_of_interface()
        self.options, self.told_files = self.words_of_scripts()
        self.renamed = self.renamed_crates()
        # what PROMISES names: (crate, name) of theorems and other declarations, of functions, and (crate, edit)
        self.promised, self.promised_functions, self.promised_edits = set(), set(), set()

    # ---- what there is

    def read_words(self):
        words, path = {}, self.root / WORDS
        for number, line in enumerate(path.read_text().splitlines(), 1):
            if line.strip() and not line.startswith("#"):
                word, _, reason = line.partition("  ")
                if not reason.strip():
                    raise ValueError(f"{WORDS}:{number}: a word, two spaces and the reason are wanted")
                words[word] = number
        return words

    def walk(self, folder):
        for p in sorted(folder.iterdir()):
            # out/ is what rt makes; unfinished/ is of crates that have not landed
            if p.name in (".git", "target", "__pycache__", "out", "unfinished"):
                continue
            yield p
            if p.is_dir():
                yield from self.walk(p)

    def names_of_kit(self):
        """What the crates take from the kit by `use` lines, and its modules."""
        names = set()
        for crate in self.tree.crates:
            for part in ("src", "specs", "proofs"):
                for path in self.tree.files(crate, part):
                    for line in path.read_text().splitlines():
                        m = re.match(r"\s*(?:ghost |pub )*use ([\w.'-]+?)(?:\.\{([^}]*)\})?(?: as .*)?;?$", line)
                        if m and not (m[1].startswith("Rattle.") and m[1].split(".")[1] in self.tree.crates) and "::" not in m[1]:
                            names.add(m[1])
                            names.update(w.split(" as ")[0].strip() for w in (m[2] or "").split(","))
        return names

    def names_of_interface(self):
        """Names of the C header and of the Rust crate that hold a capital or an underscore, comments left out."""
        names = set()
        for folder in ("include", "bindings/rust"):
            for path in sorted((self.root / folder).rglob("*")):
                if path.suffix in (".h", ".rs") and "target" not in path.parts:
                    code = re.sub(r"/\*.*?\*/|//[^\n]*", "", path.read_text(), flags=re.S)
                    names.update(w for w in re.findall(r"[A-Za-z_]\w*", code) if "_" in w or not w.islower())
        return names

    def words_of_scripts(self):
        """The options that the scripts take, and the files that they read or write."""
        options, files = set(), set()
        for path in self.files:
            if path.is_file() and (path.suffix in (".sh", ".py") or path.parent.name == "tools"):
                text = path.read_text()
                options.update(re.findall(r"--[a-z][a-z-]*", text))
                files.update(re.findall(rf"[\w-]+{SUFFIX}\b", text))
        return options, files

    def renamed_crates(self):
        """Old names of crates, where docs/RENAMES.md has them, for the hints of errors."""
        renames = self.root / "docs/RENAMES.md"
        rows = [line.cells for line in read_document(renames) if line.cells] if renames.exists() else []
        return {old.strip("`"): new.strip("`") for old, new in (row for row in rows if len(row) == 2)}

    # ---- looking up; each answers a list of places, empty where there is none

    def declared(self, name):
        return [Place(d.path, d.crate, d) for d in self.index.get(name, [])]

    def crate(self, name):
        return [Place(self.root / "crates" / name, name)] if name in self.tree.crates else []

    def path(self, text, beside=None):
        """A path of the repository. `beside` is a folder that was named before it."""
        text = text.strip("/") if text != "/" else text
        built = re.fullmatch(r"target(?:/staticlib/lib(\w+)\.a|/.*)?|lib(\w+)\.a|crates/(\w+)/out(?:/.*)?", text)
        if built:
            crate = built[1] or built[2] or built[3]
            return [Place(self.root / "target")] if crate is None or crate in self.tree.crates else []
        starts = [self.root, self.root / "crates"]
        if beside:
            starts.insert(0, beside)
        if "*" in text:
            return [Place(p, self.crate_of(p)) for s in starts for p in s.glob(text)]
        if text.startswith(".."):
            return [Place(p, self.crate_of(p)) for p in self.files if p.name.endswith(text[2:])]
        for s in starts:
            if (s / text).exists() and (s / text) != s:
                return [Place(s / text, self.crate_of(s / text))]
        tail = tuple(text.split("/"))
        return [Place(p, self.crate_of(p)) for p in self.files if p.parts[-len(tail):] == tail]

    def crate_of(self, path):
        parts = Path(path).relative_to(self.root).parts
        return parts[1] if len(parts) > 1 and parts[0] == "crates" else None

    def edit(self, name):
        return [Place(self.tree.edits[c][name], c) for c in self.edits.get(name, [])]

    def name(self, name, applied=False):
        """The places of a name, by its form. In an expression it is applied."""
        if name in KIT_CRATES:
            return [Place(self.root)]
        if "::" in name:
            head, _, last = name.rpartition("::")
            if head in KIT_CRATES:
                return [Place(self.root)]
            if head in self.tree.crates:
                return [p for p in self.declared(last) if p.crate == head]
            return [p for p in self.declared(last) if p.declared.owner == head] if head in self.index else []
        if name in self.of_kit and name not in self.index:
            return [Place(self.root)]
        if "." in name.strip("."):
            head, _, last = name.partition(".")
            owned = [p for p in self.declared(last) if p.declared.owner == head]
            return owned or [p for p in self.declared(last) if p.path.stem == head]
        if SNAKE.fullmatch(name) or name.islower() or "_" in name:
            # a law of one plain word is found as a goal that a function's proof answers, or in an expression
            found = [p for p in self.declared(name) if p.declared.kind != "law" or "_" in name or applied or p.path.stem in repository.OF_FUNCTIONS]
            found += self.crate(name)
            if "_" in name:
                found += self.edit(name)
                if not found and name in self.interface:
                    found = [Place(self.root / "include")]
            return found
        found = self.declared(name)
        if not found and name in self.interface:
            found = [Place(self.root / "bindings")]
        return found

    def similar(self, name):
        if name in self.renamed:
            return f"; the crate is {self.renamed[name]} now (docs/RENAMES.md)"
        names = set(self.index) | set(self.edits) | set(self.tree.crates)
        tried = name.rpartition("::")[2]
        shown = []
        for like in near(tried, names - {tried}):
            at = self.declared(like) or self.crate(like) or self.edit(like)
            shown.append(f"{like} ({self.tree.place(at[0].path)})")
        return "; like it: " + ", ".join(shown) if shown else ""

    # ---- reading a document

    def error(self, document, number, text):
        self.errors.append(f"{document}:{number}: {text}")

    def unproved(self, place):
        d = place.declared
        return d is not None and repository.is_claim(d) and self.tree.proof_of(d) is None

    def allowed(self, span):
        if span in self.words:
            self.words_used.add(span)
            return True
        return False

    def tokens(self, span):
        """The names in an expression: those whose form shows it, those that are applied, and fields."""
        for m in re.finditer(r"[A-Za-z_][\w-]*(?:::\w+)*(?:\.[a-z][\w-]+)?", span):
            token = m[0]
            before, after = span[:m.start()], span[m.end():]
            if before.endswith('"') or not_a_name(token) or token in KEYWORDS:
                continue
            if before.endswith("."):
                if not before.endswith(".."):
                    yield token
                continue
            shows = re.search(r"[A-Z_]|-|::", token) is not None
            applied = (not before.strip() or before.endswith("(")) and after.startswith(" ") and len(token) > 2
            if shows or applied:
                yield token

    def look_up(self, document, number, span, beside):
        """The places of what stands in one pair of backquotes. None where it is no name, or is told by an error."""
        if self.allowed(span) or not_a_name(span):
            return None
        if span.startswith("rattle-kit-"):
            now = (self.root / "kit-version.txt").read_text().strip()
            if span != now:
                self.error(document, number, f"`{span}`: kit-version.txt has {now}")
            return None
        if re.fullmatch(r"--[a-z-]+", span):
            if span not in self.options:
                self.error(document, number, f"`{span}`: no script has this option")
            return None
        if re.fullmatch(r"[a-z]+_", span):
            if not any(c.startswith(span) for c in self.tree.crates):
                self.error(document, number, f"`{span}`: no crate's name begins so")
            return None
        if span.startswith(".. "):
            ending = span[3:]
            if not any(n.endswith("_" + ending) for n in [*self.index, *self.edits]):
                self.error(document, number, f"`{span}`: no name ends so")
            return None
        if PATH.fullmatch(span):
            found = self.path(span, beside)
            if not found and span in self.told_files:
                return None
            if not found:
                like = near(span.strip("/").rpartition("/")[2], {p.name for p in self.files})
                where = [self.tree.place(p) for w in like for p in self.files if p.name == w][:3]
                self.error(document, number, f"`{span}`: no such path" + ("; like it: " + ", ".join(where) if where else ""))
            return found or None
        if not re.search(r"[\s()]", span):
            if not IDENTIFIER.fullmatch(span):
                self.error(document, number, f"`{span}` has no form that a rule tells; see --help")
                return None
            if span in KEYWORDS or span in COMMANDS:
                return None
            found = self.name(span)
            if not found:
                self.error(document, number, f"`{span}` is declared nowhere{self.similar(span)}")
                return None
            unproved = [p for p in found if self.unproved(p)]
            if unproved and len(unproved) == len(found):
                self.error(document, number, f"`{span}` has no proof `{repository.snake(span)} : {span}` in crates/{found[0].crate}/proofs")
            return found
        first = span.split()[0]
        if first in COMMANDS or PATH.fullmatch(first):
            self.command(document, number, span.split(), beside)
            return None
        for token in self.tokens(span):
            if not self.allowed(token) and not self.name(token, True):
                self.error(document, number, f"`{span}`: {token} is declared nowhere{self.similar(token)}")
        return None

    def command(self, document, number, words, beside=None):
        """The paths of a command, the crates that it gives to rt, and the edits that it gives to try-fraud."""
        fraud = any(w.endswith("try-fraud") for w in words)
        for k, word in enumerate(words):
            if fraud and re.fullmatch(r"\w+/\w+", word) and word.split("/")[0] != "tools":
                self.edit_named(document, number, *word.split("/"))
            elif words[0] == "rt" and k > 1 and words[1] != "all" and re.fullmatch(r"[a-z_]+", word):
                if word not in self.tree.crates:
                    self.error(document, number, f"`{' '.join(words)}`: no crate {word}{self.similar(word)}")
            elif PATH.fullmatch(word) and re.search(r"[a-z]", word) and (word.split("/")[0] in self.tops() or "/" not in word):
                if not self.path(word, beside):
                    self.error(document, number, f"{word}: no such path")

    def tops(self):
        return {p.name for p in self.root.iterdir()} - {"target"}

    def edit_named(self, document, number, crate, edit):
        if crate is not None and crate not in self.tree.crates:
            self.error(document, number, f"{crate}/{edit}: no crate {crate}{self.similar(crate)}")
        elif edit == "must-fail":
            if crate is None or not self.tree.edits[crate]:
                self.error(document, number, f"{crate}/must-fail: the crate has no edit")
        elif crate is None:
            if edit not in self.edits:
                self.error(document, number, f"{edit}: no crate has such an edit{self.similar(edit)}")
        elif edit not in self.tree.edits[crate]:
            like = near(edit, self.tree.edits[crate])
            elsewhere = [f"{c}/{edit}" for c in self.edits.get(edit, [])]
            hint = elsewhere or [f"{crate}/{n}" for n in like]
            self.error(document, number, f"{crate}/{edit}: no such edit" + ("; like it: " + ", ".join(hint) if hint else ""))
        if document == PROMISES:
            self.promised_edits.add((crate, edit))

    def held_to(self, document, number, span, found, wanted, where):
        """A name must stand in one of the crates or files wanted."""
        if found is None:
            return
        inside = [p for p in found if any(w == p.path or w in p.path.parents for w in wanted)]
        if not inside:
            at = ", ".join(sorted({self.tree.place(p.path) for p in found if p.path != self.root}))
            self.error(document, number, f"`{span}` is not in {where}" + (f"; it is in {at}" if at else ""))
        found[:] = inside or found

    def unit(self, document, unit):
        text = unit.text
        spans = [(m.start(), m.end(), m[1]) for m in re.finditer(r"`([^`]+)`", text)]
        beside, places = None, []
        for start, _, span in spans:
            if unit.title in ("Crate", "Crates"):
                if span not in self.tree.crates:
                    self.error(document, unit.line(start), f"`{span}`: no such crate{self.similar(span)}")
                places.append(self.crate(span) or None)
                continue
            found = self.look_up(document, unit.line(start), span, beside)
            if found and PATH.fullmatch(span):
                beside = found[0].path if found[0].path.is_dir() else found[0].path.parent
            places.append(found)
        # names beside a crate or a path
        groups, group = [], []
        for k, (start, end, span) in enumerate(spans):
            if group and not re.fullmatch(r",? (?:and )?", text[spans[k - 1][1]:start]):
                groups.append(group)
                group = []
            group.append(k)
        if group:
            groups.append(group)
        for group in groups:
            names = [k for k in group if places[k] and not PATH.fullmatch(spans[k][2]) and not self.crate(spans[k][2])]
            paths = [k for k in group if places[k] and PATH.fullmatch(spans[k][2])]
            rest = text[spans[group[-1]][1]:]
            wanted, where = [], ""
            plain = re.match(r"\s*\((\w+)\)", rest)
            if plain and plain[1] in self.tree.crates:
                wanted, where = [self.root / "crates" / plain[1]], plain[1]
            elif plain and SNAKE.fullmatch(plain[1]):
                self.error(document, unit.line(spans[group[-1]][1]), f"({plain[1]}): no such crate{self.similar(plain[1])}")
            listed = re.match(r"\s*\(((?:`[^`]+`(?:, | and )?)+)\)", rest) or re.match(r"\s+in (`[^`]+`)", rest)
            if not wanted and listed:
                items = re.findall(r"`([^`]+)`", listed[1])
                if all(PATH.fullmatch(i) or i in self.tree.crates for i in items):
                    at = groups[groups.index(group) + 1] if groups.index(group) + 1 < len(groups) else []
                    wanted = [p.path for k in at[:len(items)] for p in places[k] or []]
                    where = ", ".join(items)
                    names = names or paths
            if not wanted and names and len(paths) == 1 and paths[0] == group[-1] and re.search(r"\.(rt|antt)$", spans[paths[0]][2]):
                wanted, where = [p.path for p in places[paths[0]]], spans[paths[0]][2]
            if not wanted and unit.first and unit.crate:
                wanted, where = [self.root / "crates" / unit.crate], unit.crate
            if wanted:
                for k in names:
                    self.held_to(document, unit.line(spans[k][0]), spans[k][2], places[k], wanted, where)
        for k, (start, _, span) in enumerate(spans):
            if unit.title == "Theorem" and places[k] and not PATH.fullmatch(span):
                if not any(p.declared and (p.declared.kind == "field" or p.declared.kind == "statement" and self.tree.proof_of(p.declared)) for p in places[k]):
                    self.error(document, unit.line(start), f"`{span}` is no statement that is proved")
            if document == PROMISES:
                for p in places[k] or []:
                    if p.declared:
                        self.promised.add((p.crate, p.declared.name))
                    if p.declared and p.declared.kind == "function" and unit.title == "Function" and p.crate == (unit.crate or p.crate):
                        self.promised_functions.add((p.crate, p.declared.owner, p.declared.name))
        self.unquoted(document, unit)

    def unquoted(self, document, unit):
        """Edits, paths and crates that stand without backquotes, and targets of links."""
        for m in re.finditer(r"\]\(([^)#]+)[^)]*\)", unit.text):
            if "://" not in m[1] and not (self.root / document).parent.joinpath(m[1]).exists():
                self.error(document, unit.line(m.start()), f"the link to {m[1]} leads nowhere")
        text = re.sub(r"`[^`]*`|\]\([^)]*\)", lambda m: " " * len(m[0]), unit.text)
        if is_edit_column(unit.title):
            for crate, edit in edits_named(unit.text, unit.crate):
                self.edit_named(document, unit.line(0), crate, edit)
            return
        last = None
        for m in re.finditer(r"[A-Za-z0-9_.*-]+(?:/[A-Za-z0-9_.*-]+)+|\b[a-z][a-z0-9]*(?:_[a-z0-9]+)+\b", text):
            token, number = m[0].rstrip("."), unit.line(m.start())
            if "/" in token:
                head, _, tail = token.partition("/")
                if head in self.tree.crates or ("_" in tail and "/" not in tail and "." not in tail and head not in self.tops()):
                    last = head
                    if "/" in tail or (self.root / "crates" / head / tail).exists() and tail != "must-fail":
                        if not self.path("crates/" + token):
                            self.error(document, number, f"{token}: no such path")
                    else:
                        self.edit_named(document, number, head, tail)
                elif head in self.tops():
                    stem = [p for p in self.files if p.is_file() and str(p.relative_to(self.root).with_suffix("")) == token]
                    if not stem and not self.path(token):
                        self.error(document, number, f"{token}: no such path")
            elif token in self.tree.crates or self.allowed(token):
                continue
            elif last is not None and token in self.edits:
                self.edit_named(document, number, last if token in self.tree.edits.get(last, {}) else None, token)
            elif token in self.edits:
                self.edit_named(document, number, None, token)
            elif not self.name(token):
                self.error(document, number, f"{token} is declared nowhere, and no edit and no crate has this name{self.similar(token)}")

    def document(self, document):
        path = self.root / document
        lines = read_document(path)
        for unit in units_of(lines, set(self.tree.crates)):
            self.unit(document, unit)
        for line in lines:
            if line.code:
                self.command(document, line.number, line.text.replace("'", " ").replace('"', " ").split() or [""])

    # ---- what PROMISES must name

    def promises(self):
        for crate in self.tree.crates:
            for d in self.tree.specs[crate] + self.tree.proofs[crate]:
                if repository.is_claim(d) and self.tree.proof_of(d) is None:
                    self.errors.append(f"{self.tree.place(d.path)}:{d.line}: {d.name} is stated and not proved")
        for d in self.tree.theorems():
            if (d.crate, d.name) not in self.promised:
                self.errors.append(f"{self.tree.place(d.path)}:{d.line}: {PROMISES} doesn't name the theorem {d.name} ({d.crate})")
        for crate in self.tree.crates:
            for d in self.tree.code[crate]:
                if d.kind == "function" and (d.public or d.exported) and (crate, d.owner, d.name) not in self.promised_functions:
                    self.errors.append(f"{self.tree.place(d.path)}:{d.line}: {PROMISES} doesn't name the public function {d.name} ({crate})")
            for edit, path in self.tree.edits[crate].items():
                if not {(crate, edit), (crate, "must-fail")} & self.promised_edits and not ((None, edit) in self.promised_edits and self.edits[edit] == [crate]):
                    self.errors.append(f"{self.tree.place(path)}: {PROMISES} names neither {crate}/{edit} nor {crate}/must-fail")

    def check(self):
        for document in DOCUMENTS:
            self.document(document)
        self.promises()
        for word, number in self.words.items():
            if word not in self.words_used:
                self.errors.append(f"{WORDS}:{number}: no document has `{word}`")
        return self.errors


def main(arguments):
    parser = argparse.ArgumentParser(add_help=False)
    parser.add_argument("-h", "--help", action="store_true")
    parser.add_argument("--root", default=str(repository.ROOT))
    options = parser.parse_args(arguments)
    if options.help:
        print(EXPLAINED)
        return 0
    try:
        errors = Checker(options.root).check()
    except (OSError, ValueError) as problem:
        print(f"check-docs: {problem}", file=sys.stderr)
        return 2
    for error in errors:
        print(error)
    if errors:
        print(f"check-docs: {len(errors)} errors", file=sys.stderr)
        return 1
    print(f"check-docs: what {len(DOCUMENTS)} documents name is there")
    return 0


if __name__ == "__main__":
    sys.exit(main(sys.argv[1:]))

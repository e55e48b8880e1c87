"""What the tools for readers take from the repository: its crates, what they declare, their deliberately wrong versions (edits), and the
tables of the documents. Nothing here holds a list of names: all is read from the files."""
import difflib
import re
from pathlib import Path

ROOT = Path(__file__).resolve().parent.parent

# ---- declarations

# what a person writes of the proof of one function stands in proofs/FUNCTION/; every other file of proofs/ has lemmas
OF_FUNCTIONS = ("Invariants", "Answers", "Proof")
# files whose closed statements are theorems, each with a proof
OF_THEOREMS = re.compile(r"Theorems|Pinned|Door|.*Door$|.*Edges|.*Calls|Conflicts")
WORD = r"[^\s(){},;:.`]+"
MODIFIERS = r"(?:(?:pub|abbrev|unfoldable)\s+)*"
ANTT_BLOCK = re.compile(rf"^(?P<indent> *)(?:pub\s+)?(?P<kind>record|data)\s+(?P<name>{WORD})\s")
ANTT_NAME = re.compile(rf"^(?P<indent> *){MODIFIERS}(?P<names>{WORD}(?:\s+{WORD})*)\s*:\s*(?P<type>.*)$")
RT_FUNCTION = re.compile(r'^(?P<indent> *)(?P<pub>pub\s+)?(?P<unsafe>unsafe\s+)?(?P<extern>extern\s+"C"\s+)?fn\s+(?P<name>\w+)')
RT_TYPE = re.compile(r"^(?:pub\s+)?(?P<kind>struct|enum|trait)\s+(?P<name>\w+)")
RT_IMPL = re.compile(r"^impl(?:<[^>]*>)?\s+(?:[\w:<>, ]+\s+for\s+)?(?P<name>\w+)")
RT_CONST = re.compile(r"^(?:pub\s+)?const\s+(?P<name>\w+)\s*:")


class Declared:
    """One name that a crate declares. `kind` is a word such as 'definition', 'statement', 'field', 'law', 'function'; `owner` is the record,
    data type, struct, enum or impl that it belongs to, or None; `public` and `exported` are of functions."""

    def __init__(self, name, kind, crate, path, line, owner=None, public=False, exported=False):
        self.name, self.kind, self.crate, self.path, self.line = name, kind, crate, path, line
        self.owner, self.public, self.exported = owner, public, exported

    def __repr__(self):
        return f"{self.kind} {self.name} ({self.path}:{self.line})"


def is_use(line):
    return re.match(r"\s*(pub |ghost )*use ", line) is not None


def is_comment(line):
    return line.lstrip().startswith(("--", "//"))


def counted_lines(path):
    """Lines that are neither blank, nor a comment, nor a `use` line."""
    return sum(1 for line in path.read_text().splitlines() if line.strip() and not is_comment(line) and not is_use(line))


def antt_declarations(crate, path, inside):
    """The names that a file of specs/ or proofs/ declares. `inside` is 'specs' or 'proofs'."""
    found, block, block_indent, modules = [], None, 0, []
    for number, line in enumerate(path.read_text().splitlines(), 1):
        if not line.strip() or is_comment(line) or is_use(line):
            continue
        indent = len(line) - len(line.lstrip())
        if block and indent <= block_indent:
            block = None
        # what stands in a `module .. where` is two columns further in
        while modules and indent <= modules[-1]:
            modules.pop()
        if line.lstrip().startswith("module "):
            modules.append(indent)
            continue
        here = modules[-1] + 2 if modules else 0
        started = ANTT_BLOCK.match(line)
        if started and indent == here and " where" in line + " ":
            block, block_indent = (started["name"], started["kind"]), indent
            found.append(Declared(started["name"], started["kind"], crate, path, number))
            continue
        named = ANTT_NAME.match(line)
        if not named or "=" in named["names"].split():
            continue
        if block:
            if indent == block_indent + 2:
                kind = "field" if block[1] == "record" else "constructor"
                for name in named["names"].split():
                    found.append(Declared(name, kind, crate, path, number, owner=block[0]))
        elif indent == here and len(named["names"].split()) == 1:
            closed = indent == 0 and re.fullmatch(r"Type(?: \d)?", named["type"].strip()) is not None
            # a theorem may stand in proofs/ too, as a closed proposition with a capital letter in a file of lemmas
            stated = closed and (inside == "specs" or line.startswith("abbrev pub ") and named["names"][0].isupper() and path.stem not in OF_FUNCTIONS)
            kind = "statement" if stated else "law" if inside == "proofs" else "definition"
            found.append(Declared(named["names"], kind, crate, path, number))
    return found


def rt_declarations(crate, path):
    found, owner, exported = [], None, False
    for number, line in enumerate(path.read_text().splitlines(), 1):
        if not line.strip() or is_comment(line) or is_use(line):
            continue
        if line[0] == "}":
            owner = None
        if re.match(r"\s*#\[(?:unsafe\()?no_mangle\)?\]", line):
            exported = True
            continue
        if line.lstrip().startswith("#["):
            continue
        function, a_type, impl, const = (p.match(line) for p in (RT_FUNCTION, RT_TYPE, RT_IMPL, RT_CONST))
        if function and (not function["indent"] or owner):
            of = owner[0] if function["indent"] else None
            found.append(Declared(function["name"], "function", crate, path, number, of, bool(function["pub"]), exported))
            exported = False
        elif a_type:
            found.append(Declared(a_type["name"], a_type["kind"], crate, path, number))
            owner = (a_type["name"], a_type["kind"]) if line.rstrip().endswith("{") else None
        elif impl:
            owner = (impl["name"], "impl")
        elif const:
            found.append(Declared(const["name"], "constant", crate, path, number))
        elif owner and owner[1] == "enum" and re.match(r" {4}[A-Z]\w*", line):
            found.append(Declared(re.match(r" {4}(\w+)", line)[1], "variant", crate, path, number, owner[0]))
            for field in re.findall(r"(\w+):", line):
                found.append(Declared(field, "field", crate, path, number, owner[0]))
        elif owner and owner[1] in ("struct", "enum") and re.match(r" +(?:pub )?\w+:", line):
            found.append(Declared(re.match(r" +(?:pub )?(\w+):", line)[1], "field", crate, path, number, owner[0]))
    return found


def snake(name):
    """The name of a proof, by that of its statement: `WireForm` is proved by `wire_form`. A digit that begins a word is found by `proves` alone."""
    return re.sub(r"(?<=[a-z0-9])(?=[A-Z])|(?<=[A-Z])(?=[A-Z][a-z])", "_", name).lower()


def proves(law, statement):
    """Whether a law has the name of a statement's proof: the same words, small and joined by `_`, and `_lem` behind them where a definition
    has that name."""
    return law == law.lower() and statement.lower() in (law.replace("_", ""), law.removesuffix("_lem").replace("_", ""))


def is_claim(d):
    """A statement that needs a proof: one of a file of theorems, and every other closed proposition whose name has several words. A closed
    type of one word, such as Label, is a type of values."""
    return d.kind == "statement" and (OF_THEOREMS.match(d.path.stem) is not None or "_" in snake(d.name) or re.search(r"\d", d.name) is not None)


class Repository:
    """The repository at a folder."""

    def __init__(self, root=ROOT):
        self.root = Path(root)
        self.needs = self._needs()
        self.crates = list(self.needs)
        self.edits = {}
        self.specs, self.proofs, self.code = {}, {}, {}
        for crate in self.crates:
            folder = self.root / "crates" / crate
            if not folder.is_dir():
                raise FileNotFoundError(f"crates.txt lists {crate}, and there is no crates/{crate}")
            self.edits[crate] = {p.stem: p for p in sorted(folder.glob("must-fail/*.edit"))}
            self.specs[crate] = [d for p in self.files(crate, "specs") for d in antt_declarations(crate, p, "specs")]
            self.proofs[crate] = [d for p in self.files(crate, "proofs") for d in antt_declarations(crate, p, "proofs")]
            self.code[crate] = [d for p in self.files(crate, "src") for d in rt_declarations(crate, p)]

    def _needs(self):
        needs = {}
        for number, line in enumerate((self.root / "crates.txt").read_text().splitlines(), 1):
            line = line.split("#")[0]
            if line.strip():
                name, colon, of = line.partition(":")
                if not colon or not name.strip():
                    raise ValueError(f"crates.txt line {number}: expected NAME: DEP DEP ..")
                # words behind the name say what is built of the crate, as `staticlib`
                needs[name.split()[0]] = of.split()
        return needs

    def files(self, crate, part):
        suffix = ".rt" if part == "src" else ".antt"
        return sorted((self.root / "crates" / crate / part).rglob("*" + suffix))

    def below(self, crates):
        """The crates that these need, themselves included, as crates.txt has them in order."""
        seen, left = set(), list(crates)
        while left:
            crate = left.pop()
            if crate in self.needs and crate not in seen:
                seen.add(crate)
                left += self.needs[crate]
        return [c for c in self.crates if c in seen]

    def in_order(self, crates):
        """These crates, each behind those that it needs: crates.txt may have them in any order."""
        height = {}

        def of(crate):
            if crate not in height:
                height[crate] = 1 + max([of(c) for c in self.needs[crate] if c in self.needs], default=0)
            return height[crate]
        return sorted(crates, key=of)

    def above(self, crates):
        """The crates that need one of these, these left out."""
        wanted = set(crates)
        return [c for c in self.crates if c not in wanted and wanted & set(self.below([c]))]

    def statements(self):
        """Every closed statement, of specs/ and of files of lemmas in proofs/."""
        return [d for c in self.crates for d in self.specs[c] + self.proofs[c] if d.kind == "statement"]

    def proof_of(self, statement):
        """The proof of a statement: the law of the same name in snake case whose type is the statement, in proofs/ of the same crate, in a
        file of lemmas that proofs/Lib.antt names."""
        for law in self.proofs[statement.crate]:
            if law.kind == "law" and proves(law.name, statement.name) and law.path.stem not in OF_FUNCTIONS:
                lines = law.path.read_text().splitlines()[law.line - 1:law.line + 1]
                if re.search(rf":\s*{re.escape(statement.name)}\s*$", lines[0] if not lines[0].rstrip().endswith(":") else " ".join(lines)):
                    return law if self.is_read(law) else None
        return None

    def is_read(self, law):
        """Whether the check reads the file of a lemma: proofs/Lib.antt has a line `mod NAME` or `pub mod NAME` for it."""
        folder = self.root / "crates" / law.crate / "proofs"
        name = ".".join(law.path.relative_to(folder).with_suffix("").parts)
        lib = folder / "Lib.antt"
        return lib.exists() and re.search(rf"^(?:pub )?mod {re.escape(name)}$", lib.read_text(), re.M) is not None

    def theorems(self):
        """Every statement that has a proof."""
        return [d for d in self.statements() if self.proof_of(d)]

    def place(self, path):
        return str(Path(path).relative_to(self.root))


def text_of(declared):
    """The comment above a declaration, and its text, as lines of the file."""
    lines = declared.path.read_text().splitlines()
    start = declared.line - 1
    indent = len(lines[start]) - len(lines[start].lstrip())
    comment = start
    while comment > 0 and is_comment(lines[comment - 1]):
        comment -= 1
    end = start + 1
    while end < len(lines) and lines[end].strip():
        depth = len(lines[end]) - len(lines[end].lstrip())
        if depth < indent or (depth == indent and not lines[end].lstrip().startswith(declared.name + " ")):
            break
        end += 1
    strip = [line[indent:] for line in lines[comment:end]]
    return strip[:start - comment], strip[start - comment:]


# ---- documents

class Line:
    """A line of a document: its number, its text, whether it is code (indented or fenced), and where it is a row of a table, its cells by
    the table's header, with the heading that it stands under."""

    def __init__(self, number, text, code=False, cells=None, header=None, heading=""):
        self.number, self.text, self.code, self.cells, self.header, self.heading = number, text, code, cells, header, heading


def cells_of(line):
    """The cells of a row of a table; a | inside backquotes is text."""
    cells, cell, quoted = [], "", False
    for c in line.strip().strip("|"):
        if c == "`":
            quoted = not quoted
        if c == "|" and not quoted:
            cells.append(cell.strip())
            cell = ""
        else:
            cell += c
    return cells + [cell.strip()]


def read_document(path):
    return read_lines(path.read_text())


def read_lines(document):
    """The lines of a document."""
    lines, header, fenced, heading, blank = [], None, False, "", True
    for number, text in enumerate(document.splitlines(), 1):
        if text.startswith("```"):
            fenced = not fenced
            lines.append(Line(number, text, True, heading=heading))
            continue
        if text.startswith("#") and not fenced:
            heading = text.lstrip("# ")
        # an indented line is code where the block of it begins after a blank line; in a list it goes on with the entry
        code = fenced or (text.startswith("    ") and (blank or (lines and lines[-1].code)))
        cells = None
        if text.startswith("|") and not code:
            cells = cells_of(text)
            if header is None:
                header = cells
                cells = None
            elif all(re.fullmatch(r":?-+:?", c) for c in cells):
                cells = None
        else:
            header = None
        lines.append(Line(number, text, code, cells, header if cells else None, heading))
        blank = not text.strip()
    return lines


def is_edit_column(title):
    """A column whose cells name edits."""
    return title.startswith(("Refuses", "Edits", "In the code", "In the definition"))


NAMED_EDIT = re.compile(r"(?:(?P<crate>[a-z][a-z0-9_]*)/)?(?P<edit>[a-z][a-z0-9]*(?:_[a-z0-9]+)+|must-fail)\b")


def edits_named(cell, crate=None):
    """The edits that a text names, as pairs (crate, edit): `crate/edit`, and the names after it belong to the same crate. `crate` is the
    one for names before the first `crate/..`, where the table gives it. `crate/must-fail` stands for all edits of the crate."""
    plain = re.sub(r"`[^`]*`", "", cell)
    found = []
    for m in NAMED_EDIT.finditer(plain):
        crate = m["crate"] or crate
        found.append((crate, m["edit"]))
    return found


def near(name, names):
    """Names like this one, the nearest first."""
    return difflib.get_close_matches(name, list(names), 3, 0.6)

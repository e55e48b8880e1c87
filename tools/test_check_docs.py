#!/usr/bin/env python3
"""Tests of check-docs.py and figures.py, on scratch copies of the repository: each fault that is put in must be told, at its place, and
nothing else. Names are taken from the tree, so the tests hold whatever the crates are called."""
import importlib.util
import re
import shutil
import sys
import tempfile
import unittest
from pathlib import Path

HERE = Path(__file__).resolve().parent
sys.path.insert(0, str(HERE))
sys.dont_write_bytecode = True
import figures  # noqa: E402
from repository import ROOT, Repository, edits_named, read_document, snake  # noqa: E402


def load(path):
    spec = importlib.util.spec_from_file_location(path.stem.replace("-", "_"), path)
    module = importlib.util.module_from_spec(spec)
    spec.loader.exec_module(module)
    return module


check_docs = load(HERE / "check-docs.py")


def copy_of_the_tree(folder):
    def unneeded(where, names):
        return [n for n in names if n in (".git", "target", "__pycache__", "cases", "data", "out", "unfinished", "captured")]
    shutil.copytree(ROOT, folder, ignore=unneeded)
    # what the documents name of the folders left out
    for part in ("compare/cases", "crates/test_runs/cases", "crates/test_runs/data", "crates/desk/data", "tools/captured"):
        if (ROOT / part).is_dir():
            (folder / part).mkdir(parents=True, exist_ok=True)
            for p in (ROOT / part).iterdir():
                if p.is_file():
                    (folder / part / p.name).touch()


class Copy(unittest.TestCase):
    @classmethod
    def setUpClass(cls):
        cls.temporary = tempfile.TemporaryDirectory()
        cls.root = Path(cls.temporary.name) / "copy"
        copy_of_the_tree(cls.root)
        cls.before = check_docs.Checker(cls.root).check()
        cls.promises = (cls.root / check_docs.PROMISES).read_text()
        cls.tree = Repository(cls.root)
        cls.theorems = cls.tree.theorems()

    @classmethod
    def tearDownClass(cls):
        cls.temporary.cleanup()

    def new_errors(self):
        return [e for e in check_docs.Checker(self.root).check() if e not in self.before]

    def changed(self, path, text):
        """Writes a file for one test."""
        path = Path(path)
        old = path.read_text() if path.exists() else None

        def back():
            if old is None:
                path.unlink()
            else:
                path.write_text(old)
        self.addCleanup(back)
        path.write_text(text)

    def some_theorem(self):
        """A theorem whose name is declared once, and that PROMISES names in backquotes."""
        for t in self.theorems:
            if f"`{t.name}`" in self.promises and "_" in snake(t.name):
                if len([d for c in self.tree.crates for d in self.tree.specs[c] if d.name == t.name]) == 1:
                    return t
        self.fail("no theorem is named")

    def line_of(self, text, document=check_docs.PROMISES):
        lines = (self.root / document).read_text().splitlines()
        return next(k for k, line in enumerate(lines, 1) if text in line)

    def test_the_copy_says_what_the_tree_says(self):
        self.assertEqual(self.before, check_docs.Checker(ROOT).check())

    def test_renamed_theorem(self):
        theorem = self.some_theorem()
        new = theorem.name + "Anew"
        self.changed(theorem.path, re.sub(rf"\b{theorem.name}\b", new, theorem.path.read_text()))
        proof = self.tree.proof_of(theorem)
        self.changed(proof.path, re.sub(rf"\b{theorem.name}\b", new, re.sub(rf"\b{proof.name}\b", snake(new), proof.path.read_text())))
        found = self.new_errors()
        at = f"{check_docs.PROMISES}:{self.line_of(f'`{theorem.name}`')}: `{theorem.name}` is declared nowhere"
        self.assertTrue(any(e.startswith(at) and new in e for e in found), found)
        self.assertTrue(any(f"doesn't name the theorem {new}" in e for e in found), found)

    def test_statement_without_proof(self):
        theorem = self.some_theorem()
        proof = self.tree.proof_of(theorem)
        self.changed(proof.path, re.sub(rf"\b{proof.name}\b", "another_law", proof.path.read_text()))
        found = self.new_errors()
        self.assertTrue(any(f"`{theorem.name}` has no proof" in e for e in found), found)

    def test_proof_of_another_statement(self):
        """A law of the right name and another type is no proof."""
        theorem = self.some_theorem()
        proof = self.tree.proof_of(theorem)
        self.changed(proof.path, re.sub(rf"\b{proof.name} : {theorem.name}\b", f"{proof.name} : Another", proof.path.read_text()))
        found = self.new_errors()
        self.assertTrue(any(f"`{theorem.name}` has no proof" in e for e in found), found)
        self.assertTrue(any(f"{theorem.name} is stated and not proved" in e for e in found), found)

    def test_proof_in_a_file_that_no_check_reads(self):
        theorem = self.some_theorem()
        proof = self.tree.proof_of(theorem)
        lib = proof.path.parent / "Lib.antt"
        self.changed(lib, re.sub(rf"^(?:pub )?mod {proof.path.stem}\n", "", lib.read_text(), flags=re.M))
        found = self.new_errors()
        self.assertTrue(any(f"`{theorem.name}` has no proof" in e for e in found), found)

    def test_proof_of_the_name_of_a_definition(self):
        """The proof of a statement whose name in snake case is that of a definition ends in _lem."""
        theorem = next(t for t in self.theorems if self.tree.proof_of(t).name.endswith("_lem"))
        proof = self.tree.proof_of(theorem)
        self.changed(proof.path, re.sub(rf"\b{proof.name}\b", proof.name + "ma", proof.path.read_text()))
        self.assertTrue(any(f"{theorem.name} is stated and not proved" in e for e in self.new_errors()))

    def test_theorem_in_proofs(self):
        """A theorem may stand in proofs/; then too it is named and proved, or told."""
        theorem = self.some_theorem()
        proof = self.tree.proof_of(theorem)
        self.changed(proof.path, proof.path.read_text() + "\nabbrev pub BrandNew : Type 0\nBrandNew = 0 ≡ 0\n")
        self.assertTrue(any("BrandNew is stated and not proved" in e for e in self.new_errors()))
        proof.path.write_text(proof.path.read_text() + "\npub brand_new : BrandNew\nbrand_new = refl\n")
        found = self.new_errors()
        self.assertEqual(1, len(found), found)
        self.assertIn("doesn't name the theorem BrandNew", found[0])

    def test_missing_edit(self):
        for line in read_document(self.root / check_docs.PROMISES):
            named = edits_named(line.cells[-1]) if line.cells and check_docs.is_edit_column(line.header[-1]) else []
            named = [(c, e) for c, e in named if c and e != "must-fail"]
            if named:
                break
        crate, edit = named[0]
        path = self.tree.edits[crate][edit]
        text = path.read_text()
        path.unlink()
        self.addCleanup(path.write_text, text)
        found = self.new_errors()
        at = f"{check_docs.PROMISES}:{line.number}: {crate}/{edit}: no such edit"
        self.assertTrue(any(e.startswith(at) for e in found), found)

    def test_wrong_crate_in_a_table(self):
        for line in read_document(self.root / check_docs.PROMISES):
            if line.cells and line.header[:2] == ["Theorem", "Crate"]:
                break
        name, crate = re.search(r"`([^`]+)`", line.cells[0])[1], line.cells[1]
        other = next(c for c in self.tree.crates if c != crate)
        self.assertIn(crate, self.tree.crates)
        self.changed(self.root / check_docs.PROMISES, self.promises.replace(f"{line.cells[0]} | {crate} |", f"{line.cells[0]} | {other} |", 1))
        found = self.new_errors()
        at = f"{check_docs.PROMISES}:{line.number}: `{name}` is not in {other}; it is in crates/{crate}/specs"
        self.assertTrue(any(e.startswith(at) for e in found), found)

    def test_wrong_crate_beside(self):
        theorem = self.some_theorem()
        other = next(c for c in self.tree.crates if c != theorem.crate)
        text = f"`{theorem.name}`\n({theorem.crate}) and\n`{theorem.name}` ({other})."
        self.changed(self.root / "docs/TOUR.md", (self.root / "docs/TOUR.md").read_text() + "\n" + text + "\n")
        number = self.line_of(f"({other}).", "docs/TOUR.md")
        self.assertEqual([f"docs/TOUR.md:{number}: `{theorem.name}` is not in {other}; it is in {self.tree.place(theorem.path)}"], self.new_errors())

    def test_missing_path(self):
        path = next(m for m in re.findall(r"`(\w+/specs/\w+\.antt)`", self.promises) if (self.root / "crates" / m).exists())
        (self.root / "crates" / path).rename(self.root / "crates" / (path + "-away"))
        self.addCleanup((self.root / "crates" / (path + "-away")).rename, self.root / "crates" / path)
        found = self.new_errors()
        self.assertTrue(any(e.startswith(f"{check_docs.PROMISES}:{self.line_of(f'`{path}`')}: `{path}`: no such path") for e in found), found)

    def test_undocumented_theorem(self):
        theorem = self.some_theorem()
        proof = self.tree.proof_of(theorem)
        self.changed(theorem.path, theorem.path.read_text() + "\nabbrev pub BrandNew : Type 0\nBrandNew = 0 ≡ 0\n")
        self.changed(proof.path, proof.path.read_text() + "\npub brand_new : BrandNew\nbrand_new = refl\n")
        found = self.new_errors()
        self.assertEqual(1, len(found), found)
        self.assertRegex(found[0], rf"^crates/{theorem.crate}/specs/\w+\.antt:\d+: docs/PROMISES.md doesn't name the theorem BrandNew")

    def test_statement_that_nobody_proves(self):
        theorem = self.some_theorem()
        self.changed(theorem.path, theorem.path.read_text() + "\nabbrev pub Unproved : Type 0\nUnproved = 0 ≡ 1\n")
        self.assertTrue(any("Unproved is stated and not proved" in e for e in self.new_errors()))

    def test_undocumented_function_and_edit(self):
        crate = next(c for c in self.tree.crates if any(d.public for d in self.tree.code[c]))
        code = self.tree.files(crate, "src")[0]
        self.changed(code, code.read_text() + "\npub fn brand_new(x: usize) -> usize {\n    x\n}\n")
        bare = next(c for c in self.tree.crates if self.tree.edits[c] and f"{c}/must-fail" not in self.promises)
        self.changed(self.root / "crates" / bare / "must-fail/brand_new_edit.edit", "# nothing\n")
        found = self.new_errors()
        self.assertTrue(any(f"doesn't name the public function brand_new ({crate})" in e for e in found), found)
        self.assertTrue(any(f"names neither {bare}/brand_new_edit" in e for e in found), found)
        self.assertEqual(2, len(found), found)

    def test_a_definition_of_the_same_name_is_no_function(self):
        """A function whose row is gone is told, though a definition of its name is still named."""
        defined = {d.name for c in self.tree.crates for d in self.tree.specs[c]}
        for line in read_document(self.root / check_docs.PROMISES):
            if line.cells and line.header[0] == "Function" and line.cells[1] in self.tree.crates:
                name = re.fullmatch(r"`(\w+)`", line.cells[0])
                if name and name[1] in defined and self.promises.count(f"`{name[1]}`") > 2:
                    break
        self.changed(self.root / check_docs.PROMISES, self.promises.replace(line.text + "\n", "", 1))
        found = self.new_errors()
        self.assertTrue(any(f"doesn't name the public function {name[1]} ({line.cells[1]})" in e for e in found), found)

    def test_exported_functions_are_seen(self):
        exported = [d.name for c in self.tree.crates for d in self.tree.code[c] if d.exported]
        marked = sum(p.read_text().count("no_mangle") for c in self.tree.crates for p in self.tree.files(c, "src"))
        self.assertTrue(exported)
        self.assertEqual(marked, len(exported))

    def test_forms_of_names(self):
        """Each of these is missing, and told; and what is no name is not."""
        missing = ["NoSuchTheorem", "Wire-form", "noSuchDefinition", "no_such_function", "no-such-law", "Climbing::up_and_up", "checked (no_such_thing b)",
                   "docs/NO-SUCH.md", "crates/*/no-such-folder/", "--no-such" + "-option", "rt check no_such_crate", "SuchRecord.no_field", ".. no_such_ending"]
        told = ["256", "\\", "*.X", "ca1.example.net", "n; a=1;", "verdict 21 name K record R up U", "CAA 0 issue \"x\"", "NAME", "no book", "A"]
        text = "\n\n".join(f"`{w}`" for w in missing + told)
        self.changed(self.root / "docs/TOUR.md", (self.root / "docs/TOUR.md").read_text() + "\n" + text + "\n")
        found = self.new_errors()
        for word in missing:
            self.assertEqual(1, len([e for e in found if e.startswith(f"docs/TOUR.md:{self.line_of(f'`{word}`', 'docs/TOUR.md')}:")]), (word, found))
        self.assertEqual(len(missing), len(found), found)

    def test_an_edit_of_a_command(self):
        self.changed(self.root / "docs/TOUR.md", (self.root / "docs/TOUR.md").read_text() + f"\n\n    tools/try-fraud {self.tree.crates[0]}/no_such_edit\n")
        found = self.new_errors()
        self.assertEqual(1, len(found), found)
        self.assertIn(f"{self.tree.crates[0]}/no_such_edit: no such edit", found[0])

    def test_the_version_of_the_kit(self):
        self.changed(self.root / "kit-version.txt", "rattle-kit-0 logic 0\n")
        found = self.new_errors()
        self.assertTrue(found)
        self.assertTrue(all("kit-version.txt has rattle-kit-0 logic 0" in e for e in found), found)

    def test_a_word_that_no_document_has(self):
        words = self.root / check_docs.WORDS
        self.changed(words, words.read_text() + "neverSaid  a reason\n")
        self.assertTrue(any(e.endswith("no document has `neverSaid`") for e in self.new_errors()))
        words.write_text(words.read_text() + "without_reason\n")
        with self.assertRaises(ValueError):
            check_docs.Checker(self.root)


class Figures(unittest.TestCase):
    def setUp(self):
        self.temporary = tempfile.TemporaryDirectory()
        self.addCleanup(self.temporary.cleanup)
        self.root = Path(self.temporary.name)
        for name, code, specs in (("low", "use std::x;\n// a comment\npub fn f() {\n\n}\n", "use A.{b}\n-- a comment\nabbrev pub t : A\nt = b\n"), ("high_one", "", "")):
            for part, file, text in (("src", "lib.rt", code), ("specs", "Lib.antt", specs), ("proofs", "inner/Answers.antt", "p = q\n"), ("out", "x/Made.antt", "p = q\n")):
                path = self.root / "crates" / name / part / file
                path.parent.mkdir(parents=True)
                path.write_text(text)
        (self.root / "crates/low/must-fail").mkdir()
        for edit in ("code_wrong", "wrong"):
            (self.root / f"crates/low/must-fail/{edit}.edit").write_text("# wrong\n")
        (self.root / "crates.txt").write_text("# NAME: DEP\nlow:\nhigh_one: low\n")
        (self.root / "docs").mkdir()
        self.tree = Repository(self.root)
        self.log = self.root / "run.log"
        self.lines = ["rt: low proved", "rt: high_one is kept: an earlier run on this machine proved the same files over the same libraries",
                      "rt: must-fail low/code_wrong.edit: refused, as it must be: proofs/f/Answers.antt:1:2: error: `returns`: no", "rt: must-fail low/wrong.edit: refused, as it must be",
                      "rt: ok; handles allowed: none; must-fail edits: 2 refused; done in this run: 1 of the 2 proofs; the others are kept from earlier runs",
                      "4 passed, 0 failed", "", "real\t18m44.4s", "user\t30m0.0s", "sys\t5m0.0s"]
        self.log.write_text("\n".join(self.lines) + "\n")

    def test_counts_and_times(self):
        text = figures.figures(self.tree, figures.Run(self.log, self.tree))
        self.assertIn("| `low` | 2 | 2 | 1 | 2 |", text)
        self.assertIn("| `high_one` | 0 | 0 | 1 | 0 |", text)
        self.assertIn("| all | 2 | 2 | 2 | 2 |", text)
        self.assertIn("1 of code (`code_..`) and 1 of definitions", text)
        self.assertIn("`4 passed, 0 failed` (2 crates, 2 edits) in 18 minutes and 44 seconds, 35 minutes of processor time", text)
        self.assertIn("What of it was proved: done in this run: 1 of the 2 proofs; the others are kept from earlier runs.", text)

    def test_without_a_log(self):
        text = figures.figures(self.tree)
        self.assertIn("| `low` | 2 | 2 | 1 | 2 |\n", text)
        self.assertNotIn("The run", text)

    def test_check(self):
        document = self.root / figures.FIGURES
        for text in (figures.figures(self.tree), figures.figures(self.tree, figures.Run(self.log, self.tree))):
            document.write_text(text)
            self.assertEqual([], figures.check(self.tree, document))
            document.write_text(text.replace("| `low` | 2 | 2 |", "| `low` | 2 | 3 |"))
            number = 1 + text.splitlines().index(next(x for x in text.splitlines() if x.startswith("| `low` |")))
            self.assertEqual([f"docs/FIGURES.md:{number}: low: specs 3, in the tree 2"], figures.check(self.tree, document))
            document.write_text(text.replace("| `high_one` |", "| `gone` |"))
            self.assertEqual(2, len(figures.check(self.tree, document)))
            document.write_text(text.replace("1 of code", "3 of code"))
            self.assertEqual(1, len(figures.check(self.tree, document)))

    def test_logs_that_are_refused(self):
        for gone in (0, 2, 4, 5):
            self.log.write_text("\n".join(line for k, line in enumerate(self.lines) if k != gone) + "\n")
            with self.assertRaises(figures.Wrong):
                figures.Run(self.log, self.tree)
        self.log.write_text("\n".join(self.lines).replace("0 failed", "1 failed"))
        with self.assertRaises(figures.Wrong):
            figures.Run(self.log, self.tree)
        for old, new in (("rt: low proved", "rt: low NOT PROVED"), ("low/wrong.edit: refused, as it must be", "low/wrong.edit: BAD EDIT: it changes nothing"),
                         ("2 refused;", "2 refused, 1 bad;"), ("2 refused;", "1 refused;"), ("rt: ok;", "rt: high_one")):
            self.log.write_text("\n".join(self.lines).replace(old, new))
            with self.assertRaises(figures.Wrong):
                figures.Run(self.log, self.tree)


if __name__ == "__main__":
    unittest.main()

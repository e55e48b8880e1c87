#!/usr/bin/env python3
"""Tests of try-fraud: three of the frauds that the requirements name, a change that is none, patches, and wrong use. It needs rt, and takes
some minutes, less where the crates are proved already. The frauds are taken from docs/PROMISES.md, those of the smallest crates."""
import difflib
import importlib.machinery
import importlib.util
import re
import subprocess
import sys
import tempfile
import unittest
from pathlib import Path

HERE = Path(__file__).resolve().parent
sys.path.insert(0, str(HERE))
sys.dont_write_bytecode = True
from repository import ROOT, Repository, counted_lines, edits_named, read_document  # noqa: E402

loader = importlib.machinery.SourceFileLoader("try_fraud", str(HERE / "try-fraud"))
try_fraud = importlib.util.module_from_spec(importlib.util.spec_from_loader("try_fraud", loader))
loader.exec_module(try_fraud)

TREE = Repository()


def run(*arguments):
    done = subprocess.run([sys.executable, str(HERE / "try-fraud"), *arguments], stdout=subprocess.PIPE, stderr=subprocess.PIPE, text=True)
    return done.returncode, done.stdout, done.stderr


def size(crate):
    return sum(counted_lines(p) for part in ("src", "specs", "proofs") for p in TREE.files(crate, part))


def named():
    """The edits of the frauds and shortcuts that the requirements name, those of small crates first."""
    edits = dict.fromkeys((crate, edit) for _, _, found in try_fraud.named_frauds(TREE) for crate, edit in found)
    return sorted(edits, key=lambda e: size(e[0]))


def theorems_said_to_refuse(crate, edit):
    """By the table of theorems in docs/PROMISES.md."""
    for line in read_document(ROOT / "docs/PROMISES.md"):
        if line.cells and line.header[:2] == ["Theorem", "Crate"] and (crate, edit) in edits_named(line.cells[3], line.cells[1]):
            yield from re.findall(r"`([^`]+)`", line.cells[0])


class Frauds(unittest.TestCase):
    def test_two_frauds_in_definitions(self):
        of_definitions = [(c, e) for c, e in named() if not e.startswith("code_")]
        for crate, edit in of_definitions[:2]:
            status, out, err = run(f"{crate}/{edit}")
            self.assertEqual(0, status, out + err)
            self.assertIn(f"REFUSED, in the crate {crate}.", out)
            self.assertIn(try_fraud.comment_of(TREE.edits[crate][edit]), out)
            refusing = list(theorems_said_to_refuse(crate, edit))
            self.assertTrue(refusing, f"docs/PROMISES.md names no theorem that refuses {crate}/{edit}")
            self.assertTrue(any(f"`{t}`" in out for t in refusing), f"none of {refusing} in:\n{out}")

    def test_a_fraud_in_code(self):
        crate, edit = next((c, e) for c, e in named() if e.startswith("code_"))
        status, out, err = run(f"{crate}/{edit}")
        self.assertEqual(0, status, out + err)
        stopped = re.search(r"^It stops at the function `([^`]+)` \(crates/(\w+)/src\)", out, re.M)
        self.assertIsNotNone(stopped, out)
        self.assertEqual(crate, stopped[2])
        self.assertIn(stopped[1].rpartition("::")[2], {d.name for d in TREE.code[crate]})
        self.assertIn("ensures ", out)

    def test_rows_of_a_table(self):
        """An edit of a number that a list of equations states, with both values."""
        crate, edit = next((c, e) for c in TREE.crates for e, p in TREE.edits[c].items()
                           if re.search(r"^old: (\w+) = (\d+)\nnew: \1 = \d+$", p.read_text(), re.M) and size(c) < 100)
        name, old, new = re.search(r"^old: (\w+) = (\d+)\nnew: \w+ = (\d+)$", TREE.edits[crate][edit].read_text(), re.M).groups()
        status, out, err = run(f"{crate}/{edit}")
        self.assertEqual(0, status, out + err)
        self.assertIn(f"({name} ≡ {old})", out)
        self.assertRegex(out, rf"stated: +{old}\n.*with the fraud: {new}\n")


class Patches(unittest.TestCase):
    def setUp(self):
        self.temporary = tempfile.TemporaryDirectory()
        self.addCleanup(self.temporary.cleanup)
        self.folder = Path(self.temporary.name)
        self.crate = min((c for c in TREE.crates if TREE.edits[c]), key=size)
        self.edit = next(iter(TREE.edits[self.crate].values()))

    def written(self, name, text):
        path = self.folder / name
        path.write_text(text)
        return str(path)

    def test_a_change_that_is_no_fraud_is_told(self):
        path = next(p for part in ("specs", "src") for p in TREE.files(self.crate, part) if re.match("(?:--|//) ", p.read_text()))
        comment = path.read_text().splitlines()[0]
        file = path.relative_to(ROOT / "crates" / self.crate)
        patch = self.written("own.edit", f"# Another comment.\nfile: {file}\nold: {comment}\nnew: {comment}!\n")
        status, out, err = run("--patch", patch, "--crate", self.crate)
        self.assertEqual(1, status, out + err)
        self.assertIn("NOT REFUSED", out)

    def test_a_diff_is_refused_as_the_edit_is(self):
        copy = self.folder / self.crate
        for part in ("src", "specs", "proofs"):
            for path in TREE.files(self.crate, part):
                to = copy / path.relative_to(ROOT / "crates" / self.crate)
                to.parent.mkdir(parents=True, exist_ok=True)
                to.write_text(path.read_text())
        diff = ""
        for file, _, _ in try_fraud.apply_edit(self.edit.read_text(), copy, "edit"):
            name = f"crates/{self.crate}/{file}"
            diff += "".join(difflib.unified_diff((ROOT / name).read_text().splitlines(True), (copy / file).read_text().splitlines(True), "a/" + name, "b/" + name))
        status, out, err = run("--patch", self.written("own.patch", diff))
        self.assertEqual(0, status, out + err)
        self.assertIn(f"REFUSED, in the crate {self.crate}.", out)
        _, by_edit, _ = run(f"{self.crate}/{self.edit.stem}")
        self.assertEqual(by_edit.partition("REFUSED")[2], out.partition("REFUSED")[2])

    def test_patches_that_can_not_be_tried(self):
        for name, text, more in (
                ("empty.patch", "nothing\n", []),
                ("outside.patch", "--- a/README.md\n+++ b/README.md\n@@ -1 +1 @@\n-x\n+y\n", []),
                ("away.edit", "file: ../../x\nold: a\nnew: b\n", ["--crate", self.crate]),
                ("absent.edit", f"file: {self.edit.read_text().split('file: ')[1].splitlines()[0]}\nold: no such text\nnew: b\n", ["--crate", self.crate]),
                ("no-crate.edit", self.edit.read_text(), []),
                ("wrong-crate.edit", self.edit.read_text(), ["--crate", "no_such_crate"])):
            status, out, err = run("--patch", self.written(name, text), *more)
            self.assertEqual(2, status, name + out + err)
            self.assertTrue(err.startswith("try-fraud: "), err)

    def test_a_change_that_does_not_parse_shows_nothing(self):
        path = TREE.files(self.crate, "src")[0]
        line = next(x for x in path.read_text().splitlines() if path.read_text().count(x) == 1 and x.strip() and not x.startswith("//"))
        status, out, err = run("--patch", self.written("own.edit", f"file: src/{path.name}\nold: {line}\nnew: fn fn fn\n"), "--crate", self.crate)
        self.assertEqual(2, status, out + err)
        self.assertIn("didn't reach the prover", err)


class Use(unittest.TestCase):
    def test_list(self):
        status, out, _ = run()
        self.assertEqual(0, status)
        for crate, edit in named():
            self.assertIn(f"tools/try-fraud {crate}/{edit}", out)

    def test_help(self):
        status, out, _ = run("--help")
        self.assertEqual(0, status)
        self.assertTrue(out.startswith("usage: tools/try-fraud"))

    def test_bad_names(self):
        crate, edit = named()[0]
        for name, hint in ((f"{crate}/{edit}x", f"{crate}/{edit}"), (f"{crate}x/{edit}", crate), (edit + "x", edit), ("zzzzzz", None)):
            status, out, err = run(name)
            self.assertEqual(2, status, out + err)
            self.assertEqual("", out)
            if hint:
                self.assertRegex(err, rf"did you mean .*{hint}")
        twice = next((e for c in TREE.crates for e in TREE.edits[c] if sum(e in TREE.edits[d] for d in TREE.crates) > 1), None)
        if twice:
            status, _, err = run(twice)
            self.assertEqual(2, status)
            self.assertIn("more than one crate", err)

    def test_wrong_use(self):
        for arguments in (["a", "--patch", "b"], ["a", "--crate", "b"], ["--no-such"], ["--patch", "/no/such/file"]):
            self.assertEqual(2, run(*arguments)[0], arguments)


class Words(unittest.TestCase):
    def test_goals(self):
        self.assertIn("ensures holds", try_fraud.goal_in_words("returns-then-b-ge65"))
        self.assertIn("where the loop begins", try_fraud.goal_in_words("loop-i-init"))
        self.assertIn("judge_name", try_fraud.goal_in_words("judge_name-requires"))
        self.assertIn("comes to an end", try_fraud.goal_in_words("loop-at-smaller"))
        self.assertIn("handed to is_label", try_fraud.goal_in_words("slice_bounds-is_label-end"))
        self.assertIsNone(try_fraud.goal_in_words("enum-told"))

    def test_stops(self):
        output = ("./proofs/A.antt:9:43: error: `a_law`: expected type `A`\n  more of it\nnote: src/lib.rt:24:9: it is not proved that the loop ends (`loop-i-smaller`); `search` gave up\n"
                  "./proofs/f/Answers.antt:11:27: error: `returns`: module `G` has no `returns` that can be named from here\nlogic=not-proved\n")
        law, goal, gone = try_fraud.stops_in(output)
        self.assertEqual(("a_law", "expected type `A`\nmore of it", None), (law.name, law.text, law.goal))
        self.assertEqual(("loop-i-smaller", "the loop ends", 24), (goal.name, goal.goal, goal.line))
        self.assertEqual([False, False, True], [law.is_gone(), goal.is_gone(), gone.is_gone()])
        self.assertEqual("f", try_fraud.function_of(gone.path))
        self.assertIsNone(try_fraud.function_of(law.path))

    def test_what_can_not_be_read(self):
        self.assertIsNotNone(try_fraud.unread("./specs/A.antt:1:2: error: expected the end of the term\n", set()))
        self.assertIsNone(try_fraud.unread("./proofs/A.antt:1:2: error: `a`: expected type `A`\n", set()))
        self.assertIsNone(try_fraud.unread("./proofs/A.antt:1:2: error: `a`: `b` is not in scope\n", set()))
        self.assertIsNotNone(try_fraud.unread("./proofs/A.antt:1:2: error: `a`: `b` is not in scope\n", {"proofs/A.antt"}))
        self.assertIsNone(try_fraud.unread("./proofs/A.antt:1:2: error: 2 declarations that depend on `a`, which was rejected, were not checked: b, c\n", {"proofs/A.antt"}))

    def test_the_two_sides_of_a_difference(self):
        text = "expected type `A`\ncomputed as far as they go, the two types are `Path Prim.Native.Nat.ℕ 251 250` (expected) and `Path Prim.Native.Nat.ℕ 251 251` (found)"
        self.assertEqual(("250", "251"), try_fraud.differing(text))

    def test_terms(self):
        self.assertEqual('named "ca"', try_fraud.short("A.B.named (mathlib.Core.List.◌∷◌ 99 (mathlib.Core.List.◌∷◌ 97 []))"))
        self.assertEqual("granted 0 []", try_fraud.short("granted {A = ℕ} 0 mathlib.Core.List.[]"))
        self.assertEqual("named ..", try_fraud.short("(named (◌∷◌ 99 (◌…[357 bytes]…◌∷◌ 116 [])))"))

    def test_rows(self):
        body = '\n    -- one\n    (text "a ∷ b\\"", x)\n    -- two\n    -- lines\n    ∷ (y ∷ [], z)\n    ∷ []\n'
        self.assertEqual([("one", '(text "a ∷ b\\"", x)'), ("two lines", "(y ∷ [], z)"), ("two lines", "[]")], try_fraud.split_rows(body, "∷"))


if __name__ == "__main__":
    unittest.main()

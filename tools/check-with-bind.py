#!/usr/bin/env python3
"""Holds the library's text form of CAA data against BIND's, and against that of ldns and Knot where
they are installed (Debian: bind9, ldnsutils, knot-dnsutils).

  check-with-bind.py [--records N] [--seed S]   random CAA data: the other has to read the library's line
                                                to the same octets, and the library the other's line
  check-with-bind.py --edges                    prints which of them reads which edge of the form, and
                                                fails where one reads a line to other octets than the library

The archive is that of the folder SPLINEPEARL_LIBS, or else of target/staticlib.
"""

import argparse
import os
import random
import re
import shutil
import string
import subprocess
import sys
import tempfile

ROOT = os.path.join(os.path.dirname(os.path.abspath(__file__)), "..")
LETTERS_DIGITS = string.ascii_letters + string.digits
MAX_DATA = 4096

# What stands for a line that a program doesn't read.
REJECTED = None


def run(command, text):
    """Standard output as text, octet by octet, and whether the program was content."""
    done = subprocess.run(command, input=text.encode("latin-1"), capture_output=True, check=False)
    return done.stdout.decode("latin-1"), done.returncode == 0


class Library:
    """The library's two line calls, by tools/caa-lines.c."""

    def __init__(self, folder):
        libs = os.environ.get("SPLINEPEARL_LIBS") or os.path.join(ROOT, "target", "staticlib")
        self.program = os.path.join(folder, "caa-lines")
        source = os.path.join(ROOT, "tools", "caa-lines.c")
        include = "-I" + os.path.join(ROOT, "include")
        archive = os.path.join(libs, "libsplinepearl.a")
        subprocess.run(["cc", "-std=c99", "-O2", include, "-o", self.program, source, archive], check=True)

    def lines(self, mode, inputs):
        out, _ = run([self.program, mode], "".join(line + "\n" for line in inputs))
        lines = [REJECTED if line.startswith("refused") else line for line in out.split("\n")[:-1]]
        if len(lines) != len(inputs):
            sys.exit("check-with-bind.py: caa-lines didn't answer every line")
        return lines

    def written(self, data):
        return self.lines("write", [one.hex() for one in data])

    def read(self, lines):
        return [line if line is REJECTED else bytes.fromhex(line) for line in self.lines("read", lines)]


class Reading:
    """How another program reads a line: to these octets, and what line it writes for them."""

    def __init__(self, octets, line):
        self.octets = octets
        self.line = line


# ---- The others. Each takes lines and gives for each a Reading, or REJECTED.


class Bind:
    name = "BIND"
    program = "named-rrchecker"

    def version(self):
        return run(["named", "-V"], "")[0].split()[1].split("-")[0]

    def readings(self, lines):
        return [self.reading(line) for line in lines]

    def reading(self, line):
        out, good = run([self.program, "-p", "-u"], f"IN CAA {line}\n")
        if not good:
            return REJECTED
        written, generic = out.split("\n")[:2]
        return Reading(generic_octets(generic), written.split("\t", 2)[2])


class Ldns:
    name = "ldns"
    program = "ldns-read-zone"

    def version(self):
        return run([self.program, "-v"], "")[0].split()[3]

    def readings(self, lines):
        zone = "".join(f"r{number}. 1 IN CAA {line}\n" for number, line in enumerate(lines))
        # It reads no zone without an SOA record.
        zone = ". 1 IN SOA a. b. 1 1 1 1 1\n" + zone
        generic, good = run([self.program, "-n", "-u", "CAA"], zone)
        written, _ = run([self.program, "-n"], zone)
        if not good or generic.count("\n") != len(lines):
            return one_by_one(self, lines)
        return [
            Reading(generic_octets(one), other.split("\t", 4)[4])
            for one, other in zip(generic.split("\n"), written.split("\n"))
            if one
        ]


class Knot:
    """knsupdate reads by the server's zone scanner. It prints no octets, so what it read is known by its
    line alone."""

    name = "Knot"
    program = "knsupdate"
    batch = 12  # an update holds at most 65,535 octets

    def version(self):
        return run([self.program, "-V"], "")[0].split()[-1]

    def readings(self, lines):
        readings = []
        for first in range(0, len(lines), self.batch):
            readings += self.update(lines[first : first + self.batch])
        return readings

    def update(self, lines):
        adds = "".join(f"add r{number}. 1 IN CAA {line}\n" for number, line in enumerate(lines))
        out, _ = run([self.program], f"zone .\n{adds}show\nquit\n")
        written = re.findall(r"^r\d+\.\s+1\s+IN\s+CAA\s+(.*)$", out, re.MULTILINE)
        if len(written) != len(lines):
            return one_by_one(self, lines)
        # A blank stands behind each line that it prints.
        written = [line.rstrip(" ") for line in written]
        return [Reading(canonical_octets(line), line) for line in written]


def one_by_one(other, lines):
    """A program that stops at the first line that it doesn't read gets each by itself."""
    if len(lines) == 1:
        return [REJECTED]
    return [reading for line in lines for reading in other.readings([line])]


def generic_octets(line):
    """The octets of a record in the form of RFC 3597."""
    length, digits = re.search(r"\\# (\d+)(.*)$", line).groups()
    octets = bytes.fromhex(digits)
    assert len(octets) == int(length), line
    return octets


def canonical_octets(line):
    """The octets of a line with its value in quotes."""
    flags, tag, value = re.fullmatch(r'([0-9]+) (\S+) "(.*)"', line).groups()
    value = re.sub(r"\\([0-9]{3}|.)", lambda found: chr(int(found[1])) if found[1].isdigit() else found[1], value)
    return bytes([int(flags), len(tag)]) + (tag + value).encode("latin-1")


# ---- Random records


def random_data(chance):
    tag_length = chance.choice([1, 5, 9, chance.randint(1, 15), chance.randint(1, 255)])
    tag = "".join(chance.choices(LETTERS_DIGITS, k=tag_length)).encode()
    flags = chance.choice([0, 128, 255, chance.randrange(256)])
    room = MAX_DATA - 2 - len(tag)
    length = min(room, chance.choice([0, 1, 2, chance.randint(3, 40), chance.randint(3, 300), chance.choice([room, 1000])]))
    alphabet = chance.choice(
        [range(256), range(32, 127), b'"\\', b' \t;()"\\@$#', range(128, 256), b"0123456789\\", b"ca1.example.net; "]
    )
    return bytes([flags, len(tag)]) + tag + bytes(chance.choices(alphabet, k=length))


def with_small_tag(data):
    """What writing a line keeps of the data."""
    end = 2 + data[1]
    return data[:2] + data[2:end].lower() + data[end:]


def check_records(library, others, count, seed):
    chance = random.Random(seed)
    every = [random_data(chance) for _ in range(count)]
    lines = [line or "" for line in library.written(every)]
    kept = [with_small_tag(data) for data in every]
    print(f"{count} records from seed {seed}, {sum(map(len, every))} octets of data")
    differ = report("the library reads its own lines to the same octets", lines, kept, library.read(lines))
    for other in others:
        who = f"{other.name} {other.version()}"
        readings = other.readings(lines)
        octets = [reading and reading.octets for reading in readings]
        differ += report(f"{who} reads the library's lines to the same octets", lines, kept, octets)
        written = [reading.line if reading else "" for reading in readings]
        theirs = [without_raw_tabs(line) for line in written]
        differ += report(f"the library reads {who}'s lines to the same octets", theirs, kept, library.read(theirs))
        same_text = sum(one == other for one, other in zip(lines, written))
        print(f"  {same_text} of {count} lines of {who} are the library's, octet for octet")
        raw_tabs = sum("\t" in line for line in written)
        if raw_tabs:
            print(f"  {raw_tabs} have a raw tab, which the library reads only as \\009")
    return differ == 0


def without_raw_tabs(line):
    """A raw tab in a value is outside the form that the library reads."""
    return line.replace("\t", "\\009")


def report(what, lines, expected, got):
    wrong = [(line, one) for line, one, other in zip(lines, expected, got) if one != other]
    print(f"{what}: {len(expected) - len(wrong)} of {len(expected)}")
    for line, data in wrong[:3]:
        print(f"  differs: {line[:200]} for {data.hex()[:200]}")
    return len(wrong)


# ---- Edges

EDGES = [
    ("the canonical form", '0 issue "ca1.example.net"'),
    ("a bare value", "0 issue ca1.example.net"),
    ("several blanks, a tab between fields", '0  \t issue \t "x"'),
    ("an empty quoted value", '0 issue ""'),
    ("a value left out", "0 issue"),
    ("a value left out, blank behind the tag", "0 issue "),
    ("a blank before", ' 0 issue "x"'),
    ("a blank behind", '0 issue "x" '),
    ("a tab behind", '0 issue "x"\t'),
    ("a CR behind", '0 issue "x"\r'),
    ("a comment behind", '0 issue "x" ; c'),
    ("a comment at once behind the quote", '0 issue "x"; c'),
    ("something else behind", '0 issue "x" y'),
    ("a second quoted string", '0 issue "x" "y"'),
    ("parentheses around the fields", '( 0 issue "x" )'),
    ("a raw tab in quotes", '0 issue "x\ty"'),
    ("a raw octet 127 in quotes", '0 issue "x\x7fy"'),
    ("a raw octet 200 in quotes", '0 issue "x\xc8y"'),
    ("a raw octet 200, bare", "0 issue x\xc8y"),
    ("`;` in quotes", '0 issue "x;y"'),
    ("`;` bare", "0 issue x;y"),
    ("`(` bare", "0 issue x(y"),
    ("`\"` inside a bare value", '0 issue x"y"'),
    ("`\\;` bare", "0 issue x\\;y"),
    ("`\\ ` bare", "0 issue x\\ y"),
    ("`\\032` bare", "0 issue x\\032y"),
    ("`\\(` bare", "0 issue x\\(y"),
    ("`\\\"` bare", '0 issue x\\"y'),
    ("`\\\"` in quotes", '0 issue "x\\"y"'),
    ("`\\x` for a plain letter", '0 issue "\\x"'),
    ("`\\255`", '0 issue "\\255"'),
    ("`\\256`", '0 issue "\\256"'),
    ("`\\999`", '0 issue "\\999"'),
    ("`\\12` with two digits", '0 issue "\\12"'),
    ("`\\` at the end", "0 issue x\\"),
    ("a quote that isn't closed", '0 issue "x'),
    ("flags 255", '255 issue "x"'),
    ("flags 256", '256 issue "x"'),
    ("flags 007", '007 issue "x"'),
    ("flags 0000", '0000 issue "x"'),
    ("flags 0x80", '0x80 issue "x"'),
    ("flags -1", '-1 issue "x"'),
    ("flags +1", '+1 issue "x"'),
    ("flags in quotes", '"0" issue "x"'),
    ("a tag with capitals", '0 ISSUE "x"'),
    ("a tag in quotes", '0 "issue" "x"'),
    ("a tag with a hyphen", '0 is-sue "x"'),
    ("a tag with an escape", '0 iss\\117e "x"'),
    ("a tag of 15", f'0 {"t" * 15} "x"'),
    ("a tag of 16", f'0 {"t" * 16} "x"'),
    ("a tag of 255", f'0 {"t" * 255} "x"'),
    ("a tag of 256", f'0 {"t" * 256} "x"'),
    ("a value of 256 octets", f'0 issue "{"x" * 256}"'),
    ("data of 4,096 octets", f'0 issue "{"x" * 4_089}"'),
    ("data of 4,097 octets", f'0 issue "{"x" * 4_090}"'),
    ("the generic form", "\\# 8 0005697373756578"),
]


def check_edges(library, others):
    """One row for each edge. What the library reads, each of the others has to read to the same octets."""
    lines = [line for _, line in EDGES]
    ours = library.read(lines)
    columns = [other.readings(lines) for other in others]
    print("| Edge | Line | Library |" + "".join(f" {other.name} {other.version()} |" for other in others))
    print("|---|---|---|" + "---|" * len(others))
    good = True
    for number, (what, line) in enumerate(EDGES):
        cells = [cell(ours[number], ours[number])]
        for column in columns:
            reading = column[number]
            octets = reading and reading.octets
            cells.append(cell(octets, ours[number]))
            good = good and (ours[number] is REJECTED or octets in (REJECTED, ours[number]))
        print(f"| {what} | {shown(line)} | " + " | ".join(cells) + " |")
    return good


def cell(octets, ours):
    if octets is REJECTED:
        return "no"
    if octets == ours:
        return "reads"
    flags, length = octets[:2]
    tag, value = octets[2 : 2 + length].decode("latin-1"), octets[2 + length :].decode("latin-1")
    return "reads " + shown(f'{flags} {tag} "{value}"')


def shown(line):
    """For a table: what isn't printable in angle brackets, and what is long cut."""
    line = "".join(c if " " <= c <= "~" else f"<{ord(c)}>" for c in line)
    if len(line) > 40:
        line = line[:20] + " .. " + line[-4:]
    return "`` " + line.replace("|", "\\|") + " ``"


def main():
    parser = argparse.ArgumentParser(description=__doc__, formatter_class=argparse.RawDescriptionHelpFormatter)
    parser.add_argument("--records", metavar="N", type=int, default=1000, help="how many random records (1000)")
    parser.add_argument("--seed", metavar="S", type=int, default=1, help="where the random records start (1)")
    parser.add_argument("--edges", action="store_true", help="print the table of edges")
    options = parser.parse_args()
    if shutil.which(Bind.program) is None:
        sys.exit(f"check-with-bind.py: {Bind.program} is not on the path (Debian: apt-get install bind9)")
    with tempfile.TemporaryDirectory() as folder:
        library = Library(folder)
        others = [other() for other in (Bind, Ldns, Knot) if shutil.which(other.program)]
        if options.edges:
            good = check_edges(library, others)
        else:
            good = check_records(library, others, options.records, options.seed)
    print("all the same" if good else "some differ")
    sys.exit(0 if good else 1)


if __name__ == "__main__":
    main()

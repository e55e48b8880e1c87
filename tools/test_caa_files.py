"""Tests of caa-files.py: python3 tools/test_caa_files.py"""

import contextlib
import glob
import importlib.util
import io
import os
import random
import re
import resource
import subprocess
import sys
import tempfile
import unittest

HERE = os.path.dirname(os.path.abspath(__file__))
TOOL = os.path.join(HERE, "caa-files.py")
WHOLE_CASE = os.path.join(HERE, "..", "examples", "whole-case")
CAPTURED = os.path.join(HERE, "captured")

# The files that make writes, and others in their place.
FILES = ["request.bin", "issuer.txt", "account.txt", "method.txt", "book.bin"]
NEW_FILES = {"request.bin": b"r", "issuer.txt": b"i", "account.txt": b"a", "method.txt": b"m", "book.bin": b"b"}

# What make is given, and what it tells of that.
APPLICANT = ["--issuer", "ca1.example.net", "--account", "https://ca1.example.net/acct/230123", "--method", "dns-01"]
TOLD = "issuer ca1.example.net, account https://ca1.example.net/acct/230123, method dns-01"

# The file's name is no module name.
_spec = importlib.util.spec_from_file_location("caa_files", TOOL)
caa = importlib.util.module_from_spec(_spec)
_spec.loader.exec_module(caa)


def octets_of(path):
    with open(path, "rb") as file:
        return file.read()


def captured(name):
    """A stored output; captured/README.md says how they were made."""
    return octets_of(os.path.join(CAPTURED, name + ".txt")).decode()


def properties_of(book):
    """Owner, flags, tag and value of each CAA record."""
    return [(caa.name_text(labels), *caa.property_of(data)) for labels, _, data in caa.caa_records(book)]


def aliases_of(book):
    """Owner and target of each alias."""
    return [
        (caa.name_text(labels), caa.name_text(caa.target_of(data)))
        for labels, rr_type, rr_class, _, data in caa.records_in(book)
        if (rr_type, rr_class) == (5, 1)
    ]


class Octets(unittest.TestCase):
    """What a line stands for, octet by octet."""

    def test_names(self):
        for text, wire in [
            ("www.example.com", b"\3www\7example\3com\0"),
            ("www.Example.com.", b"\3www\7Example\3com\0"),
            ("*.x", b"\1*\1x\0"),
            (r"a\.b.\065\\", b"\3a.b\2A\\\0"),
            (r"\000\255\ ", b"\3\0\xff \0"),
            (".", b"\0"),
            ("a" * 63, b"\x3f" + b"a" * 63 + b"\0"),
        ]:
            self.assertEqual(caa.wire_name(caa.labels_of(text)), wire)

    def test_the_longest_name(self):
        longest = ".".join(["a" * 63] * 3 + ["b" * 61])
        self.assertEqual(len(caa.wire_name(caa.labels_of(longest))), 255)
        with self.assertRaisesRegex(caa.Fault, "256 octets"):
            caa.labels_of(longest + "b")

    def test_records(self):
        data = b"\0\5issueca1.example.net"
        head = b"\1a\0\1\1\0\1"
        for line in [
            'a CAA 0 issue "ca1.example.net"',
            "a. CAA 0 issue ca1.example.net",
            'a 3600 IN CAA 0 issue "ca1.example.net"',
            'a\tIN 3600\tcaa  000\tissue \t"ca1.example\\.n\\101t"',
            r"a CLASS1 TYPE257 \# 22 00056973737565 6361312e6578616d706c652e6e6574",
            r"a CAA \# 22 000569737375656361312E6578616D706C652E6E6574",
        ]:
            self.assertEqual(caa.record(line), head + b"\0\0\x0e\x10\0\x16" + data, line)
        self.assertEqual(caa.record(r"a 0 CLASS3 TYPE65535 \# 0"), b"\1a\0\xff\xff\0\3" + bytes(6))
        self.assertEqual(caa.record(r". 4294967295 TYPE1 \# 1 fF"), b"\0\0\1\0\1\xff\xff\xff\xff\0\1\xff")

    def test_aliases(self):
        head, data = b"\3www\7example\3com\0\0\5\0\1", b"\3web\7example\3org\0"
        for line in [
            "www.example.com. 300 IN CNAME web.example.org.",
            "www.example.com\t300 cname  web.example.org",
            r"www.example.com 300 CLASS1 TYPE5 \# 17 03776562 076578616D706C65 036F726700",
            r"www.example.com 300 IN CNAME w\101b.example\.org",
        ]:
            wanted = data if "\\." not in line else b"\3web\x0bexample.org\0"
            self.assertEqual(caa.record(line), head + b"\0\0\1\x2c\0" + bytes([len(wanted)]) + wanted, line)
        self.assertEqual(caa.record(". 0 CNAME ."), b"\0\0\5\0\1" + bytes(4) + b"\0\1\0")
        # Data of another class may hold anything.
        self.assertEqual(caa.record(r"a 0 CLASS3 TYPE5 \# 2 C00C"), b"\1a\0\0\5\0\3" + bytes(4) + b"\0\2\xc0\x0c")
        longest = ".".join(["a" * 63] * 3 + ["b" * 61])
        self.assertEqual(len(caa.record("a CNAME " + longest)), 13 + 255)

    def test_values(self):
        for text, value in [
            ('""', b""),
            ('"; "', b"; "),
            (r'"\"\\\009"', b'"\\\t'),
            (r"a\;b\032c", b"a;b c"),
        ]:
            self.assertEqual(caa.value_of(text), value)


class Faults(unittest.TestCase):
    """What is told of a line that can't be taken."""

    def check(self, call, cases):
        for text, reason in cases:
            with self.subTest(text), self.assertRaisesRegex(caa.Fault, reason):
                call(text)

    def test_requested_names(self):
        self.check(
            caa.requested_name,
            [
                (".", "no label"),
                ("*", "no label"),
                ("a..b", "empty label"),
                (".a", "empty label"),
                ("a_b.example", "label a_b: letters, digits and hyphens"),
                ("-a", "hyphen"),
                ("a-", "hyphen"),
                ("a.*.b", r"label \*"),
                ("a" * 64, "64 octets"),
                ("caf\u00e9.example", "xn--"),
                ("a b", "one name per line"),
                ("a.example,b.example", "one name per line"),
                ("a.example # mine", "one name per line"),
                ("https://a.example/", "host name alone"),
                ("a.example:443", "host name alone"),
                ("a\u200b.example", "U\\+200B ZERO WIDTH SPACE.*take it out"),
                (r"\256", "no escape"),
                (r"\1", "no escape"),
                ("a\\", "backslash"),
                ("@", "write the name out"),
            ],
        )

    def test_records(self):
        self.check(
            caa.record,
            [
                (' CAA 0 issue "x"', "owner on each line"),
                ("$ORIGIN example.com.", "directives"),
                ("a", "ends before its type"),
                ("a IN", "ends before its type"),
                ('CAA 0 issue "x"', "type issue is not read"),
                ("a A 192.0.2.1", "type A is not read"),
                ("a 1h CAA 0 t x", "seconds"),
                ("a 4294967296 CAA 0 t x", "4 octets"),
                ("a TYPE1 192.0.2.1", "length hex"),
                (r"a TYPE65536 \# 0", "65535"),
                (r"a TYPE1 \# 2 00", "2 octets, and 1 follow"),
                (r"a TYPE1 \# x 00", "length up to 65535"),
                (r"a TYPE1 \# 1 0", "pairs"),
                (r"a CAA \# 1 00", "at least"),
                (r"a CAA \# 3 000041", "empty"),
                (r"a CAA \# 3 000241", "no room for a tag of 2"),
                ("a CAA 256 issue x", "0 to 255"),
                ("a CAA issue x", "0 to 255"),
                (r"a CAA \# 6 0004 74625F73", "tag of the CAA data is tb_s, and a tag is letters and digits. A book with any other tag is ref"),
                (r"a CAA \# 6 8004 74625F73", "tb_s"),
                (r"a TYPE257 \# 5 0003 612D62", "a-b"),
                (r"a TYPE257 \# 5 0003 005CFF", r"is \\000\\\\\\255,"),
                ("a CAA 0 tb_s x", 'letters and digits, not tb_s; a record is: .*"value". A book with any other tag is refused'),
                ("a CAA 128 a-b x", "letters and digits, not a-b"),
                ('a CAA 0 "issue" x', 'letters and digits, not "issue"'),
                ("a CAA 0 issue", "value is missing"),
                ('a CAA 0 issue "x', "closing quote"),
                ('a CAA 0 issue "x" ; mine', "; mine stands behind"),
                ("a CAA 0 issue x; y=1", "double quotes"),
                ('a CAA 0 issue "x\ty"', r"write it as \\009"),
                ('a CAA 0 t "%s"' % ("x" * 65_533), "65535 fit"),
                ("a CAA 0 issue \u201cx\u201d", "straight double quote"),
                ('a CAA 0 issue "x\x7fy"', r"not printable: write it as \\127"),
                ("a CH CAA 0 t x", "class CH: write IN"),
                ("a CNAME", "the target of the alias is missing; an alias is: owner"),
                ("a 300 IN CNAME", "the target of the alias is missing"),
                ("a CNAME b c", "c stands behind the target"),
                ("a CNAME b. ; mine", "; mine stands behind the target"),
                ("a CNAME b..c", "empty label"),
                ("a CNAME @", "write the name out"),
                ("a CNAME " + "b" * 64, "64 octets"),
                ("a CNAME " + ".".join(["a" * 63] * 3 + ["b" * 62]), "256 octets"),
                ("a CH CNAME b", "class CH: write IN"),
                ("a TYPE5 b", "length hex"),
                ("a TYPE00005 b", "length hex"),
                (r"a CNAME \# 0", "not one name in wire form"),
                (r"a TYPE5 \# 2 0162", "not one name in wire form"),
                (r"a TYPE5 \# 4 01620000", "not one name in wire form"),
                (r"a TYPE5 \# 2 C00C", "without compression"),
                (r"a TYPE5 \# 66 40" + "61" * 64 + "00", "not one name in wire form"),
            ],
        )

    def test_issuers(self):
        self.check(
            caa.check_issuer,
            [
                (b"", "0 octets"),
                (b"ca1.example.net\n", "line end"),
                (b"ca1.example.net.", "closing dot"),
                (b"ca1..net", "0 octets"),
                (b"a" * 64, "64 octets"),
                (b"ca_1", "letters, digits and hyphens"),
                (b".".join([b"a" * 63] * 4), "255 octets"),
                ("b\u00fccher.example".encode(), "not ASCII: write it in its xn-- form"),
                ("b\u00fccher.example".encode("latin-1"), "xn-- form"),
                (b"ca1.example.net; account=1", "domain name alone"),
                (b"https://ca1.example.net", "domain name alone"),
            ],
        )

    def test_accounts(self):
        for good in [b"https://ca1.example.net/acct/230123", b"!", b"~", b"a,b", b"a" * 255]:
            caa.check_account(good)
        self.check(
            caa.check_account,
            [
                (b"", "the account has 0 octets; 1 to 255 are allowed: give the URI of the account that asks"),
                (b"a" * 256, "256 octets"),
                (b"a b", "has ' ' in it"),
                (b"a\tb", r"has '\\t' in it"),
                (b"https://x/1\n", "line end behind it: write the file with printf"),
                (b"https://x/1\r\n", "line end behind it"),
                (b"a\nb", r"has '\\n' in it"),
                (b"a;b", "has ';' in it"),
                (b"a\x7f", "has octet 127 in it"),
                ("b\u00fccher".encode(), "has octet 195 in it; only printable ASCII"),
            ],
        )

    def test_methods(self):
        for good in [b"dns-01", b"m" * 255]:
            caa.check_method(good)
        self.check(
            caa.check_method,
            [
                (b"", "the method has 0 octets; 1 to 255 are allowed: give the one validation method that was used"),
                (b"m" * 256, "256 octets"),
                (b"dns 01", "has ' ' in it"),
                (b"dns-01\n", "line end behind it"),
                (b"dns-01;", "has ';' in it"),
                (b"dns-01\xff", "has octet 255 in it"),
                (b"http-01,dns-01", "has a comma: give the one validation method"),
            ],
        )

    def test_file_and_line_are_named(self):
        with self.assertRaisesRegex(caa.Fault, "^names.txt:4: .*hyphen"):
            caa.items_of("names.txt", "a\n\n# c\n-b\n", caa.requested_name, "names", 250, 16384)

    def test_a_lookup_that_failed_is_no_comment(self):
        answered = ";; ->>HEADER<<- opcode: QUERY, status: {}, id: 1\n"
        failed = [answered.format("SERVFAIL"), answered.format("REFUSED"), ";; no servers could be reached"]
        failed.append(";; communications error: timed out\n")
        for text in failed:
            with self.assertRaisesRegex(caa.Fault, "^f:2: a lookup failed"):
                caa.book_of("f", "a CAA 0 t x\n" + text)
        counts = ";; flags: qr rd ra; QUERY: 1, ANSWER: 0, AUTHORITY: 1, ADDITIONAL: 1\n"
        good = answered.format("NOERROR") + counts + answered.format("NXDOMAIN") + counts
        self.assertEqual(caa.book_of("f", good).items.octets, b"")

    def test_limits(self):
        with self.assertRaisesRegex(caa.Fault, "^f:3: 2 names are allowed"):
            caa.items_of("f", "a\nb\nc\n", caa.requested_name, "names", 2, 100)
        with self.assertRaisesRegex(caa.Fault, "^f:2: 5 octets of names are allowed, and this makes 6"):
            caa.items_of("f", "a\nb\n", caa.requested_name, "names", 2, 5)

    def test_octets_that_are_no_request_or_book(self):
        for octets, reason in [
            (b"\1a\0\3ab", "name 1, at octet 3: the file ends"),
            (b"\1a", "name 0, at octet 0: the file ends, and 1 more"),
            (b"\xc0\0", "compressed"),
            ((b"\x3f" + b"a" * 63) * 4 + b"\0", "257 octets"),
        ]:
            with self.assertRaisesRegex(caa.Fault, "^r: .*" + reason):
                caa.names_shown("r", octets)
        with self.assertRaisesRegex(caa.Fault, "record 1, at octet 13: the file ends, and 2 more"):
            caa.records_shown("b", b"\1a\0\0\1\0\1" + bytes(6) + b"\1a\0\0\1\0\1" + bytes(5) + b"\2")


class ThereAndBack(unittest.TestCase):
    def test_random_books(self):
        chance = random.Random(8659)
        for _ in range(300):
            book = b"".join(self.record(chance) for _ in range(chance.randrange(4)))
            text = "\n".join(caa.records_shown("b", book))
            self.assertEqual(caa.book_of("t", text).items.octets, book)

    def record(self, chance):
        labels = [chance.randbytes(chance.randint(1, 9)) for _ in range(chance.randrange(4))]
        rr_type, rr_class = chance.choice([(257, 1), (257, 1), (5, 1), (1, 1), (257, 3), (5, 3), (65_535, 65_535)])
        data = chance.randbytes(chance.randrange(40))
        if (rr_type, rr_class) == (5, 1):
            labels.append(chance.randbytes(9))  # an owner of its own
            data = caa.wire_name([chance.randbytes(chance.randint(1, 9)) for _ in range(chance.randrange(4))])
        if (rr_type, rr_class) == (257, 1):
            tag = chance.choice([b"issue", b"IssueWild", b"T0Z", b"9"])
            data = chance.randbytes(1) + bytes([len(tag)]) + tag + data
        numbers = rr_type.to_bytes(2, "big") + rr_class.to_bytes(2, "big") + chance.randbytes(4)
        return caa.wire_name(labels) + numbers + len(data).to_bytes(2, "big") + data

    def test_a_label_of_every_octet(self):
        for octet in range(256):
            labels = [bytes([octet]), bytes([octet]) * 2]
            self.assertEqual(caa.labels_of(caa.name_text(labels)), labels)
            line = caa.record_text(labels, 1, 1, 0, b"")
            self.assertEqual(caa.book_of("t", line).items.count, 1, line)


# ---- Stored outputs. What is expected was worked out by hand from the zones and commands of captured/make.sh.

EXAMPLE_COM = {
    ("example.com", 0, b"issue", b"ca1.example.net; account=230123"),
    ("example.com", 0, b"issuewild", b";"),
    ("example.com", 128, b"tbs", b"Unknown"),
}
LONG = {
    ("long.example.com", 0, b"issue", b"ca1.example.net"),
    ("long.example.com", 0, b"issue", b'ca2.example.org; policy=ev; text="a\\b"'),
}
LARGE = {
    ("large.example.com", 0, b"issue", f"ca{n}.example.net; account={f'{n}' * 6}".encode()) for n in range(100, 140)
}
ISSUE_CA1 = (0, b"issue", b"ca1.example.net")

# Each good output: the names looked up, None where the output does not show it, the CAA records, and the aliases if there are any.
FOUR = ["dig-{}", "dig-{}.answer", "drill-{}", "kdig-{}"]
THREE = ["dig-{}", "drill-{}", "kdig-{}"]
GOOD = {
    **{form.format(name): (["example.com"], EXAMPLE_COM) for form in FOUR for name in ["found", "found-by-resolver"]},
    **{form.format("found-two"): (["long.example.com"], LONG) for form in FOUR},
    **{
        form.format("pay"): (["pay.example.com"], {("pay.example.com", 0, b"issue", b"ca2.example.org")}) for form in FOUR
    },
    **{form.format("signed"): (["signed.example"], {("signed.example", *ISSUE_CA1)}) for form in THREE},
    **{form.format("signed-nxdomain"): (["no-such.signed.example"], set()) for form in THREE},
    **{
        form.format(name): ([None if form.endswith(".answer") else looked_up], set())
        for form in FOUR
        for name, looked_up in [
            ("no-caa", "www.example.com"),
            ("no-caa-by-resolver", "www.example.com"),
            ("nxdomain", "no-such.example.com"),
            ("nxdomain-by-resolver", "no-such.example.com"),
            ("com", "com"),
        ]
    },
    **{
        name: (["example.com"], EXAMPLE_COM)
        for name in [
            "dig-question",
            "dig-unknownformat",
            "dig-bad-cookie",
            "dig-by-tcp",
            "dig-by-tls",
            "kdig-by-tcp",
            "kdig-by-tls",
            "kdig-by-https",
            "kdig-cookie",
            "kdig-noall-header",
        ]
    },
    "dig-two-names": (["www.example.com", "example.com"], EXAMPLE_COM),
    # The records alone say nothing of a lookup.
    "dig-noall-answer": ([], EXAMPLE_COM),
    "dig-by-tcp-after-truncated": (["large.example.com"], LARGE),
    "kdig-by-tcp-after-truncated": (["large.example.com"], LARGE),
    "drill-by-tcp": (["large.example.com"], LARGE),
    # A resolver has followed the alias; a server that is not in charge of the target has not.
    **{
        form.format(name): (["alias.example.com"], properties, {("alias.example.com", "target.example.org")})
        for form in FOUR
        for name, properties in [("alias", set()), ("alias-by-resolver", {("target.example.org", 0, b"issue", b"ca2.example.org")})]
    },
    **{
        form.format("alias-of-none"): (
            ["alias-of-none.example.com"],
            set(),
            {("alias-of-none.example.com", "none.example.org")},
        )
        for form in FOUR
    },
    "dig-alias-signed": (
        ["alias.signed.example"],
        {("signed.example", *ISSUE_CA1)},
        {("alias.signed.example", "signed.example")},
    ),
    # drill takes these without a word.
    "drill-extra": (["extra.example.com"], {("extra.example.com", *ISSUE_CA1)}),
    "drill-other-id": (["other-id.example.com"], set()),
    "drill-other-question": (["other.other-question.example.com"], set()),
}

# Each output that is refused: what the line that is told has, and what the reason has.
DNAME = "reads CNAME records but no DNAME"
FAILED = "a lookup failed .* look the name up again"
DAMAGED = "an answer is damaged .* look the name up again"
TRUNCATED = "truncated .* look the name up again"
REFUSED = {
    **{form.format("dname"): ("DNAME", DNAME) for form in FOUR},
    "dig-alias-unknownformat": ("TYPE39", DNAME),
    **{
        form.format(name): (status, rf"a lookup failed \(status {re.escape(status)}\)")
        for name, statuses in {
            "servfail": 4 * ["SERVFAIL"],
            "servfail-by-resolver": 4 * ["SERVFAIL"],
            "refused": 4 * ["REFUSED"],
            "formerr": 4 * ["FORMERR"],
            "notimp": ["NOTIMP", "NOTIMP", "NOTIMPL", "NOTIMPL"],
            "notauth": 4 * ["NOTAUTH"],
            "unknown-rcode": ["RESERVED11", "RESERVED11", "?? (11)", "RCODE 11"],
        }.items()
        for form, status in zip(FOUR, statuses)
    },
    "dig-badvers": ("BADVERS", FAILED),
    "kdig-badvers": ("BADVERS", FAILED),
    "dig-nobody": ("communications error to 127.0.0.1#53533: connection refused", FAILED),
    "dig-nobody.answer": ("communications error to 127.0.0.1#53533: connection refused", FAILED),
    "drill-nobody": ("Error: error sending query", FAILED),
    "kdig-nobody": ("response timeout", FAILED),
    "dig-silent": ("communications error to 127.0.0.1#53532: timed out", FAILED),
    "dig-silent.answer": ("communications error to 127.0.0.1#53532: timed out", FAILED),
    "drill-silent": ("Error: error sending query", FAILED),
    "kdig-silent": ("response timeout", FAILED),
    "dig-second-try": ("communications error", FAILED),
    "dig-tcp-refused": ("Connection to 127.0.0.1#53532", FAILED),
    "dig-tcp-refused.answer": ("Connection to 127.0.0.1#53532", FAILED),
    "drill-tcp-refused": ("flags: qr tc", TRUNCATED),
    "kdig-tcp-refused": ("can't connect", FAILED),
    "dig-by-tcp-refused": ("Connection to 127.0.0.1#53532", FAILED),
    "drill-by-tcp-refused": ("Error: error sending query", FAILED),
    "kdig-by-tcp-refused": ("can't connect", FAILED),
    "kdig-tls-refused": ("can't connect", FAILED),
    "dig-no-such-server": ("couldn't get address", FAILED),
    **{form.format("truncated"): (" tc ", TRUNCATED) for form in FOUR},
    **{
        f"dig-{name}{form}": (sign, DAMAGED)
        for form in ["", ".answer"]
        for name, sign in [
            ("malformed", "malformed message packet"),
            ("malformed-empty", "malformed message packet"),
            ("extra", "3 extra bytes"),
            ("too-short", "short (< header size)"),
            ("other-id", "ID mismatch"),
            ("no-qr", "query response not set"),
            ("other-question", "Question section mismatch"),
            ("bad-caa", "Got bad packet"),
        ]
    },
    "dig-malformed-nobesteffort": ("Got bad packet", DAMAGED),
    **{
        f"drill-{name}": ("Error: error sending query", FAILED)
        for name in ["malformed", "malformed-empty", "too-short", "bad-caa"]
    },
    "drill-no-qr": ("flags: rd ra", "no flag qr"),
    **{
        f"kdig-{name}": (sign, DAMAGED)
        for name, sign in [
            ("malformed", "malformed reply packet"),
            ("malformed-empty", "malformed reply packet"),
            ("extra", "malformed reply packet"),
            ("too-short", "malformed reply packet"),
            ("other-id", "reply ID"),
            ("no-qr", "QR bit not set"),
            ("other-question", "question sections are different"),
            ("bad-caa", "can't print whole section"),
        ]
    },
    **{form.format("filtered"): ("EDE: 17", "another resolver") for form in FOUR},
    # The header is told, because its flags and counts show it.
    **{form.format("referral"): ("->>HEADER<<-", "this is a referral") for form in FOUR},
    "dig-norecurse": ("->>HEADER<<-", "this is a referral"),
    "kdig-bad-cookie": ("bad cookie", "not known"),
    "dig-query-shown": ("Sending:", "do not use [+]qr"),
    "kdig-query-shown": ("Flags: rd", "without [+]qr"),
    "dig-other-type": ("MX", "does not tell the CAA records"),
    "dig-multiline": ("SOA", "without [+]multiline"),
    "dig-nocomments": ("<<>> DiG", "no header"),
    "kdig-noheader": ("QUESTION SECTION", "header .* is missing"),
    **{name: ("", "dig [+]short") for name in ["dig-plus-short", "dig-plus-short-alias", "kdig-plus-short", "drill-quiet"]},
    **{name: ("", "this form of output is not read") for name in ["dig-yaml", "kdig-json", "host", "nslookup"]},
}


class StoredOutputs(unittest.TestCase):
    def test_each_output_is_looked_at(self):
        files = {os.path.basename(path)[: -len(".txt")] for path in glob.glob(os.path.join(CAPTURED, "*.txt"))}
        self.assertEqual(files, set(GOOD) | set(REFUSED))
        self.assertFalse(set(GOOD) & set(REFUSED))

    def check_good(self, name, text):
        names, properties, aliases = (*GOOD[name], set())[:3]
        reader = caa.book_of(name, text)
        found, followed = properties_of(reader.items.octets), aliases_of(reader.items.octets)
        self.assertEqual((set(found), set(followed)), (properties, aliases))
        self.assertEqual((len(found), len(followed)), (len(properties), len(aliases)))
        self.assertEqual(reader.items.count, len(properties) + len(aliases))
        self.assertEqual([caa.name_text(labels) for labels in reader.answers], [one for one in names if one])
        self.assertEqual(len(reader.unnamed), names.count(None))

    def check_refused(self, name, text, before=0):
        sign, reason = REFUSED[name]
        with self.assertRaisesRegex(caa.Fault, rf"^{re.escape(name)}:\d+: .*{reason}") as caught:
            caa.book_of(name, text)
        line = int(re.match(r".*?:(\d+): ", str(caught.exception))[1])
        self.assertIn(sign, text.split("\n")[line - 1])
        self.assertGreater(line, before)

    def test_good(self):
        for name in GOOD:
            with self.subTest(name):
                self.check_good(name, captured(name))

    def test_refused(self):
        for name in REFUSED:
            with self.subTest(name):
                self.check_refused(name, captured(name))

    def test_refused_behind_a_good_answer_and_before_one(self):
        good = captured("dig-found")
        for name in REFUSED:
            with self.subTest(name):
                self.check_refused(name, good + captured(name), good.count("\n"))
                self.check_refused(name, captured(name) + good)

    def test_indented(self):
        """A header and other comments count with white space before them too."""
        for name in REFUSED:
            with self.subTest(name), self.assertRaises(caa.Fault):
                caa.book_of(name, captured(name).replace("\n", "\n \t "))
        for name, (_, properties, *_) in GOOD.items():
            if not properties and "drill" not in name:
                text = re.sub("(?m)^(?=;)", "    ", captured(name))
                with self.subTest(name):
                    self.check_good(name, text)

    def test_line_ends_and_trailing_blanks(self):
        for name in GOOD:
            for end in ["\r\n", "\r", " \t\n"]:
                with self.subTest(name, end=end):
                    self.check_good(name, captured(name).replace("\n", end))

    def test_without_its_first_lines(self):
        """An answer that lost its header is refused, as long as a line shows that it is an answer."""
        for name in GOOD:
            lines = captured(name).split("\n")
            headers = [number for number, line in enumerate(lines) if "->>HEADER<<-" in line]
            for number in range(headers[-1] + 1, len(lines)) if headers else []:
                if any(re.match(";;|; EDNS|; COOKIE", line) for line in lines[number:]):
                    with self.subTest(name, line=number), self.assertRaises(caa.Fault):
                        caa.book_of(name, "\n".join(lines[number:]))

    def test_without_any_one_answer_record(self):
        record = re.compile(r"[a-z]\S*\s+\d+\s+\S+\s+(CAA|TYPE257|CNAME|RRSIG\s+(CAA|CNAME))\s")
        for name, (_, properties, *aliases) in GOOD.items():
            lines = captured(name).split("\n")
            records = [n for n, line in enumerate(lines) if record.match(line)]
            if name == "dig-noall-answer":
                continue
            self.assertGreaterEqual(len(records), len(properties) + sum(map(len, aliases)))
            for number in records:
                text = "\n".join(lines[:number] + lines[number + 1 :])
                with self.subTest(name, line=number), self.assertRaisesRegex(caa.Fault, "the header says ANSWER: "):
                    caa.book_of(name, text)

    def test_cut_off(self):
        """Ends at any line before the last answer record."""
        for name, (_, properties, *aliases) in GOOD.items():
            lines = captured(name).split("\n")
            if not (properties or aliases) or name in ("dig-noall-answer", "dig-two-names"):
                continue
            last = max(n for n, line in enumerate(lines) if re.match(r"[a-z]\S*\s+\d+\s+\S+\s+(CAA|TYPE257|CNAME|RRSIG)", line))
            first = next(n for n, line in enumerate(lines) if line)
            for number in range(first + 1, last + 1):
                with self.subTest(name, line=number), self.assertRaises(caa.Fault):
                    caa.book_of(name, "\n".join(lines[:number]))


HEADER = ";; ->>HEADER<<- opcode: QUERY, status: NOERROR, id: 1\n"


def flags(answer, authority=0, flags="qr rd ra"):
    return f";; flags: {flags}; QUERY: 1, ANSWER: {answer}, AUTHORITY: {authority}, ADDITIONAL: 0\n"


class Lookups(unittest.TestCase):
    """Pasted text that no program printed in this way."""

    def check(self, text, reason, line):
        with self.subTest(text), self.assertRaisesRegex(caa.Fault, f"^f:{line}: .*{reason}"):
            caa.book_of("f", text)

    def test_dname(self):
        for line in [
            "a 5 hs DNAME b",
            "a DNAME b",
            "a 300 CLASS1 dname b",
            "a IN TYPE39 \\# 3 016200",
            "a CLASS3 TYPE00039 b",
            "a RRSIG DNAME 13 1 300 1 1 1 a. AAAA",
            "a\\.b DNAME c",
        ]:
            self.check("b CAA 0 t x\n" + line, "has a .* record, and the desk program reads CNAME records but no DNAME", 2)
            self.check(HEADER + flags(2) + line, "no DNAME", 3)
            if "RRSIG" not in line:
                self.check(HEADER + flags(0, 1) + "\n;; AUTHORITY SECTION:\n" + line, "no DNAME", 5)
        self.check("a TYPE39 \\# 0", r"a has a TYPE39 \(DNAME\) record.* write its CNAME and CAA records as lines of your own", 1)

    def answer(self, *records, name="a.example", status="NOERROR", counts=None):
        """An answer of a resolver for a name, with these records."""
        head = HEADER.replace("NOERROR", status) + (counts or flags(len(records)))
        return head + f";; QUESTION SECTION:\n;{name}. IN CAA\n\n;; ANSWER SECTION:\n" + "".join(f"{record}\n" for record in records) + "\n"

    def test_records_along_aliases(self):
        first, second, third = "A.example 9 CNAME b.example.", "b.EXAMPLE 9 IN CNAME c.", "C 9 IN CAA 0 issue x"
        for records in [(first,), (first, second), (first, second, third), (third, second, first), ("a.example CAA 0 issue x",)]:
            reader = caa.book_of("f", self.answer(*records))
            self.assertEqual((reader.items.count, list(reader.answers)), (len(records), [(b"a", b"example")]))
        # The answer is for a.example, whether its question is shown or not.
        shown = self.answer(first, second, third)
        reader = caa.book_of("f", shown.replace(";a.example. IN CAA\n", "").replace(";; QUESTION SECTION:\n", ""))
        self.assertEqual(list(reader.answers), [(b"a", b"example")])
        # Each record is for a name on the way, and CAA records for its end.
        self.check(self.answer(first, "d CNAME e"), "this record is for d, and the answer is for another name", 8)
        self.check(self.answer(first, "d CAA 0 issue x"), "this record is for d, and the answer is for another name", 8)
        self.check(self.answer(second, third), "this record is for b.example, and the answer is for another name", 7)
        self.check(self.answer(first, third), "this record is for c, and", 8)
        self.check(self.answer(first, second, "b.example CAA 0 issue x"), "b.example has a CNAME record and a CAA record", 9)
        self.check(self.answer(first, second, "a.example CAA 0 issue x"), "a.example has a CNAME record and a CAA record", 9)
        self.check(self.answer(first, second, r"b.example TYPE1 \# 0"), "this record is for b.example|none is a CAA record", "[19]")
        self.check(self.answer(first, r"b.example TYPE1 \# 0"), "none is a CAA record", 1)
        self.assertEqual(caa.book_of("f", self.answer(first, second, third, r"c TYPE1 \# 0")).items.count, 4)
        self.check(self.answer(first, second, third, r"b.example TYPE1 \# 0"), "this record is for b.example, and", 10)
        # A loop has no end.
        reader = caa.book_of("f", self.answer(first, "b.example CNAME a.example"))
        self.assertEqual(aliases_of(reader.items.octets), [("A.example", "b.example"), ("b.example", "a.example")])
        self.assertEqual(caa.book_of("f", self.answer("a.example CNAME a.example")).items.count, 1)
        self.assertEqual(caa.book_of("f", self.answer(first, "b.example CNAME a.example", counts=flags(2, 1))).items.count, 2)
        self.check(self.answer(first, "b.example CNAME a.example", "b.example CAA 0 t x"), "b.example has a CNAME record and a CAA", 9)

    def test_signatures_over_aliases(self):
        alias, over = "a.example CNAME b", "a.example RRSIG CNAME 13 1 300 1 1 1 a. AAAA"
        for number in ["CNAME", "TYPE5"]:
            self.assertEqual(caa.book_of("f", self.answer(alias, over.replace("CNAME", number))).items.count, 1)
        self.assertEqual(caa.book_of("f", f"{alias}\n{over}\n").items.count, 1)
        self.check(over, "this signs the CNAME records of a.example, and none is here", 1)
        self.check(self.answer(alias, over.replace("a.example", "b", 1)), "this signs the CNAME records of b, and none is here", 8)
        self.check(self.answer(alias, over.replace("a.example", "c", 1)), "this record is for c", 8)
        self.check(alias + "\n" + over.replace("CNAME", "A"), "only CAA and CNAME records and their signatures are", 2)

    def test_a_status_of_the_last_target(self):
        alias = "a.example CNAME b"
        reader = caa.book_of("f", self.answer(alias, status="NXDOMAIN"))
        self.assertEqual(reader.items.count, 1)
        self.check(self.answer(alias, "b CAA 0 t x", status="NXDOMAIN"), "NXDOMAIN", 1)
        self.check(self.answer(alias, r"b TYPE1 \# 0", status="NXDOMAIN"), "NXDOMAIN", 1)
        self.check(self.answer(alias, status="SERVFAIL"), "a lookup failed", 1)

    def test_aliases_in_other_sections(self):
        for section in ["AUTHORITY", "ADDITIONAL"]:
            head = HEADER + flags(0, 1).replace("ADDITIONAL: 0", "ADDITIONAL: 1") + f"\n;; {section} SECTION:\n"
            for line in ["a CNAME b", "a 300 IN TYPE5 \\# 3 016200"]:
                self.check(head + line, f"is not expected in the {section} section", 5)

    def test_aliases_that_are_told_twice(self):
        """An alias of two answers is taken once, and so are the CAA records at its end."""
        alias, caa_record = "b.example CNAME c", "c CAA 0 issue x"
        one = self.answer("a.example CNAME b.example", alias, caa_record)
        two = self.answer(alias.replace("CNAME c", "9 CNAME C"), caa_record.replace("c CAA", "C 9 CAA"), name="b.example")
        for text, count in [(one + two, 3), (two + one, 3), (one + one, 3), (two + self.answer(caa_record, name="c"), 3)]:
            reader = caa.book_of("f", text)
            self.assertEqual(reader.items.count, count)
        lines = one.count("\n")
        self.check(one + self.answer("b.example CNAME d", name="b.example"), "b.example has two CNAME records: .* line 8. ", lines + 7)
        self.check(one + self.answer(name="b.example", counts=flags(0)), "b.example is looked up a second time .* line 1:", lines + 1)
        other = self.answer("d CNAME c", "c CAA 0 issue y", name="d")
        self.check(one + other, "c is looked up a second time here, and its records are not those of the answer at line 1:", lines + 1)
        none = self.answer("d CNAME c", name="d", counts=flags(1, 1))
        self.check(one + none, "c is looked up a second time", lines + 1)
        self.check(none + one, "c is looked up a second time", none.count("\n") + 1)
        # An answer that stops before the target says nothing of it.
        self.assertEqual(caa.book_of("f", one + self.answer("d CNAME c", name="d")).items.count, 4)

    def test_aliases_beside_other_records(self):
        both, two = "[aA] has a CNAME record and a CAA record", "[aA] has two CNAME records"
        alias, other, record = "a CNAME b\n", "A CNAME c\n", "A CAA 0 t x\n"
        before, between = "b CAA 0 t x\n# mine\n\nc CNAME d\n", "e CAA 0 t x\n# mine\n\nf CNAME d\n"
        for first, second, reason in [(alias, record, both), (record, alias, both), (alias, other, two), (alias, alias, two)]:
            reason += ": this one, and the one of line 5. A name with a CNAME record has no other"
            self.check(before + first + between + second, reason, 10)
            self.check(re.sub("(?m)^[aA] ", ". ", first + second), "[.] has", 2)
        # Records of other types and classes, and CAA records beside each other, are none.
        for text in [
            alias + "a TYPE1 \\# 0\n" + "a CLASS3 TYPE257 \\# 0\n" + "a CLASS3 TYPE5 \\# 0\n",
            record + record + "a CLASS3 TYPE5 \\# 0\n",
            alias + "b CAA 0 t x\n" + "*.a CAA 0 t x\n" + "aa CNAME b\n",
        ]:
            self.assertEqual(caa.book_of("f", text).items.count, text.count("\n"))

    def test_the_count_of_answers(self):
        record = 'a 300 IN CAA 0 issue "x"\n'
        drill = (
            ";; ->>HEADER<<- opcode: QUERY, rcode: NOERROR, id: 1\n"
            ";; flags: qr rd ra ; QUERY: 1, ANSWER: 1, AUTHORITY: 0, ADDITIONAL: 0 \n"
        )
        kdig = (
            ";; ->>HEADER<<- opcode: QUERY; status: NOERROR; id: 1\n"
            ";; Flags: qr rd ra; QUERY: 1; ANSWER: 1; AUTHORITY: 0; ADDITIONAL: 0\n"
        )
        for head in [HEADER + flags(1), drill, kdig]:
            self.check(head, "ANSWER: 1, and 0 answer records follow", 1)
            self.check("\n" + head + record + record.replace("x", "y"), "ANSWER: 1, and 2 answer records follow.*empty line", 2)
            self.check(head + head + record, "ANSWER: 1, and 0", 1)
            self.check(head + record + head, "ANSWER: 1, and 0", 4)
            self.check(head + "\n\n; mine\n" + head + record, "ANSWER: 1, and 0", 1)
            self.assertEqual(caa.book_of("f", head + record).items.count, 1)
            self.assertEqual(caa.book_of("f", head + record + "\n" + record).items.count, 2)
        self.check(HEADER + flags(0) + record, "ANSWER: 0, and 1", 1)
        self.check(HEADER + flags(2) + record + "\n" + record, "ANSWER: 2, and 1", 1)
        signature = "a 300 IN RRSIG CAA 13 1 300 1 1 1 a. AAAA\n"
        self.check(HEADER + flags(1) + record + signature, "ANSWER: 1, and 2", 1)
        self.assertEqual(caa.book_of("f", HEADER + flags(2) + record + signature).items.count, 1)
        self.check(HEADER + flags(1) + signature, "none is a CAA record|signs the CAA records", "[13]")
        self.check(signature, "signs the CAA records of a, and none is here", 1)

    def test_a_header_that_is_not_whole(self):
        record = 'a 300 IN CAA 0 issue "x"\n'
        self.check(HEADER + record, "flags and counts is missing", 1)
        counts = ";; QUERY: 1, ANSWER: 1, AUTHORITY: 0, ADDITIONAL: 0\n"
        self.check(HEADER + counts + record, "flags of this answer are missing", 2)
        self.check(flags(1) + record, "header .* is missing", 1)
        self.check(HEADER + flags(1) + record + "\n" + flags(1) + record, "second time", 5)
        self.check(";; ANSWER SECTION:\n" + record, "header .* is missing", 1)
        self.check(";; Query time: 0 msec\n", "header .* is missing", 1)
        self.check(";; Got answer:\n", "no header", 1)
        self.check(HEADER + flags(0) + ";; Got answer:\n;; OPT PSEUDOSECTION:\n", "header .* is missing", 4)
        self.check("; <<>> DiG 9.18.49 <<>> a CAA\n;; global options: +cmd\n", "no header", 1)
        self.check("; <<>> DiG 9.18.49 <<>> a CAA\n; <<>> DiG 9.18.49 <<>> b CAA\n" + HEADER + flags(0), "no header", 1)
        self.check(";; Truncated, retrying in TCP mode.\n", "no header", 1)
        self.check(record + ";; Truncated, retrying in TCP mode.\n" + record, "no header", 2)
        self.check(";; ->>HEADER<<- opcode: QUERY\n", "not in a form", 1)
        self.check("; ->>HEADER<<- opcode: QUERY, status: SERVFAIL, id: 1\n", "a lookup failed", 1)
        self.check(HEADER.replace("QUERY", "UPDATE"), "opcode UPDATE", 1)
        self.check(HEADER + flags(0, flags="rd"), "no flag qr", 2)
        self.check(HEADER + flags(0).replace("QUERY: 1", "QUERY: 0"), "QUERY: 0", 2)
        self.check(HEADER.replace("NOERROR", "NXDOMAIN") + flags(1) + record, "NXDOMAIN", 1)

    def test_an_answer_of_a_server_that_does_not_know(self):
        for good in ["qr aa", "qr aa rd", "qr rd ra", "qr rd ra ad"]:
            self.assertEqual(len(caa.book_of("f", HEADER + flags(0, flags=good)).unnamed), 1)
        for bad in ["qr", "qr rd", "qr ra"]:
            self.check(HEADER + flags(0, flags=bad), "referral", 1)
        section = ";; AUTHORITY SECTION:\nexample. 300 IN {} ns.example.\n"
        self.check(HEADER + flags(0, 1) + section.format("NS"), "referral", 1)
        self.assertEqual(len(caa.book_of("f", HEADER + flags(0, 1) + section.format("SOA")).unnamed), 1)

    def test_other_sections(self):
        head = HEADER + flags(0, 1) + "\n;; AUTHORITY SECTION:\n"
        soa = "example. 300 IN SOA ns.example. h.example. 1 1 1 1 1\n"
        own = 'a CAA 0 issue "x"\n'
        self.check(head + own, "CAA is not expected in the AUTHORITY section. Leave an empty line", 5)
        self.check(head + soa + own, "CAA is not expected in the AUTHORITY section", 6)
        self.check(head + soa + soa, "AUTHORITY: 1, and more", 6)
        self.check(head + "example. TXT x\n", "TXT is not expected", 5)
        self.assertEqual(caa.book_of("f", head + soa + "\n" + own).items.count, 1)
        self.assertEqual(caa.book_of("f", head + soa + ";; MSG SIZE  rcvd: 9\n" + own).items.count, 1)
        self.check(HEADER + flags(1) + ";; ANSWER SECTION:\n" + own + "\n;; ANSWER SECTION:\n" + own, "second ANSWER SECTION", 6)

    def test_questions(self):
        def question(line, answer=0):
            return HEADER + flags(answer) + f";; QUESTION SECTION:\n{line}\n\n"

        for line in [";A.example.\t\tIN\tCAA", ";; a.EXAMPLE. IN CAA", ";a.example. CLASS1 TYPE257", ";a.example. CAA"]:
            self.assertEqual(list(caa.book_of("f", question(line)).answers), [(b"a", b"example")])
        for line in [";a.example. IN A", ";a.example. CH CAA", ";a.example. IN ANY", ";; a.example. IN TYPE5", ";a.example. A"]:
            self.check(question(line), "does not tell the CAA records", 4)
        self.check(question(";a.example. IN CAA", 1) + "b.example CAA 0 t x", "b.example, and the answer is for another name", 6)
        self.check(HEADER + flags(2) + "a CAA 0 t x\nb CAA 0 t x\n", "record is for b", 4)
        self.check(question(";a. IN CAA", 1) + "a TYPE1 \\# 0", "none is a CAA record", 1)

    def test_the_same_name_twice(self):
        text = captured("dig-found")
        self.assertEqual(caa.book_of("f", text + text).items.count, 6)
        self.assertEqual(text.count("\n"), 25)
        self.check(text + text.replace("ca1.", "ca9."), "example.com is looked up a second time .* line 6", 25 + 6)
        twice = HEADER + flags(2) + "a 300 IN CAA 0 issue x\nA 3 CAA 0 issue \"x\"\n"
        self.check(twice, "no record twice", 4)
        head = HEADER + flags(0) + ";; QUESTION SECTION:\n;example.com. IN CAA\n\n"
        self.check(text + head, "looked up a second time", 26)

    def test_comments(self):
        good = "# ;; connection timed out\n; timed out, says my colleague\n  ; x\n;\n;;\n;;;;;;;\n# ->>HEADER<<-\na CAA 0 t x\n"
        self.assertEqual(caa.book_of("f", good).items.count, 1)
        for line in [";; mine", " ;;; mine", ";; Got SERVFAIL reply from 127.0.0.1, trying next server"]:
            self.check(line, "not known, .* begin it with # or with one ;", 1)
        for hidden in ["\x0b", "\x0c", "\x1c", "\x85", "\u2028", "\u2029", "\0", "\x1b"]:
            self.check(f"# mine{hidden}a CAA 0 issue x", "may look like a line end", 1)
        self.assertEqual(caa.book_of("f", "# mine\ra CAA 0 t x\r").items.count, 1)

    def test_lines_of_another_kind(self):
        prompts = ["$ dig a CAA", "root@host:/# dig a CAA", "user@host ~ % kdig a CAA", "PS C:\\> drill a CAA", "u@h:~$"]
        for line in [*prompts, "dig a CAA"]:
            self.check(line, "command line", 1)
        for line in ["Error: error sending query: x", "dig: couldn't get address for 'x': not found"]:
            self.check(line, "a lookup failed", 1)
        self.check("> ;; ->>HEADER<<- opcode: QUERY, status: NOERROR, id: 1", "type", 1)
        # Where they are records, they are taken.
        self.assertEqual(caa.book_of("f", "dig: CAA 0 t x\nhost 3 IN CAA 0 t x\nError: CAA 0 t x\n").items.count, 3)

    def test_none(self):
        reader = caa.book_of("f", "A.example CAA none\nb.example. 300 IN CAA NONE\n")
        self.assertEqual((reader.items.count, list(reader.without)), (0, [(b"a", b"example"), (b"b", b"example")]))
        self.check("a CAA none\nA CAA 0 t x", "CAA records of a: take one of the two out", 1)
        self.check("a CLASS3 CAA none", "flags are a number", 1)
        self.check("A CNAME b\na CAA none\n", "this says none, and the file has a CNAME record of a: .* say none of the target", 2)
        self.assertEqual(caa.book_of("f", "a CNAME b\nb CAA none\n").items.count, 1)


class Climbs(unittest.TestCase):
    """Whether each name that the desk program looks at was looked up."""

    def notes(self, names, text):
        request = b"".join(caa.requested_name(name) for name in names.split())
        return caa.check_climbs("r", request, caa.book_of("r", text))

    def check(self, names, text, missing):
        with self.assertRaisesRegex(caa.Fault, f"^r: not looked up: {missing}[. ]"):
            self.notes(names, text)

    def test_pasted_lookups(self):
        www, example, com = captured("dig-no-caa"), captured("kdig-found"), captured("drill-com")
        self.assertEqual(self.notes("www.example.com", www + example), [])
        self.assertEqual(self.notes("*.WWW.example.com example.com", example + www), [])
        self.assertIn("there is no record", self.notes("www.example.com", www + com + "\nexample.com CAA none")[0])
        self.check("www.example.com", example, "www.example.com")
        self.check("www.example.com", www, "example.com, com")
        self.check("www.example.com", www + com, "example.com")
        self.check("www.example.com other.example.org", www + example, "other.example.org, example.org, org")
        # Above a name with CAA records nothing is looked at.
        self.assertEqual(self.notes("pay.example.com", captured("dig-pay")), [])
        # drill shows the question that came back, and not the one that was sent.
        self.check("other-question.example.com", captured("drill-other-question") + example, "other-question.example.com")
        # A wildcard's own lookup is not at the name with the star.
        self.check("*.a.example", www.replace("www.example.com", "*.a.example"), "a.example, example")

    def test_answers_that_do_not_show_their_name(self):
        www, example, com = captured("dig-no-caa.answer"), captured("dig-found.answer"), captured("dig-com.answer")
        self.assertEqual(self.notes("www.example.com", www + example), [])
        self.assertEqual(len(self.notes("www.example.com", www + www + com)), 1)
        self.check("www.example.com", example, "www.example.com")
        self.check("www.example.com", www, "www.example.com, example.com, com")
        self.check("www.example.com a.www.example.com", www + example, "www.example.com, a.www.example.com")
        # A lookup of another type is none of CAA.
        self.check("a.example", HEADER + flags(1) + "a.example TYPE1 \\# 0\n", "a.example, example")

    def test_aliases(self):
        found, none = captured("dig-alias-by-resolver"), captured("dig-alias-of-none")
        example, com = captured("kdig-found"), captured("drill-com")
        # The target's CAA records end the climb; without any it goes on above the name, not above the target.
        self.assertEqual(self.notes("alias.example.com *.ALIAS.example.com", found), [])
        self.check("alias-of-none.example.com", none, "example.com, com")
        self.assertEqual(self.notes("alias-of-none.example.com", none + example), [])
        self.assertEqual(self.notes("x.alias-of-none.example.com", none + example + "\nx.alias-of-none.example.com CAA none"), [])
        self.check("other.example.com", found + example, "other.example.com")
        # An alias of a name above counts too.
        self.assertEqual(self.notes("x.alias.example.com", found + "\nx.alias.example.com CAA none"), [])
        # Each stored answer of a resolver says so, also in its short form.
        for form in FOUR:
            text = captured(form.format("alias-of-none")) + example
            self.assertEqual(self.notes("alias-of-none.example.com", text), [], form)
        notes = self.notes("alias.example.com", "alias.example.com CNAME a.example\na.example CAA 0 t x\nb.example CAA 0 t x\n")
        self.assertRegex(notes[0], "count for no requested name: b.example$")

    def test_answers_that_end_before_the_target(self):
        example = captured("kdig-found")
        for form in FOUR:
            text = captured(form.format("alias")) + example
            self.check("alias.example.com", text, "target.example.org")
            reason = r"target.example.org is the final target of alias.example.com \(line \d+\), and no answer says whether"
            with self.assertRaisesRegex(caa.Fault, reason):
                self.notes("alias.example.com", text)
            # Nobody asks for that name.
            self.assertEqual(self.notes("example.com", text), [])
            # Mended by a lookup of the target, or by a line of one's own.
            for more in ["target.example.org CAA none\n", 'target.example.org CAA 0 issue "ca2.example.org"\n']:
                self.assertEqual(self.notes("alias.example.com", text + "\n" + more), [])
            found = captured("dig-pay").replace("pay.example.com", "TARGET.example.org")
            self.assertEqual(self.notes("alias.example.com", text + found), [])
            empty = captured("dig-no-caa").replace("www.example.com", "target.example.org")
            self.assertEqual(self.notes("alias.example.com", text + empty), [])
            self.assertEqual(self.notes("alias.example.com", text + captured("dig-no-caa.answer")), [])

    def test_what_an_answer_says_of_the_last_target(self):
        def text(more="", status="NOERROR", counts=(1, 0), flags_="qr rd ra"):
            head = HEADER.replace("NOERROR", status) + flags(*counts, flags=flags_)
            answer = head + ";; QUESTION SECTION:\n;a. IN CAA\n\n;; ANSWER SECTION:\na CNAME t.z.example.\n\n"
            return answer + (f";; AUTHORITY SECTION:\n{more}\n" if more else "")

        soa = "{} 300 IN SOA ns.example. h.example. 1 1 1 1 1".format
        name_server = "z.example. 300 IN NS ns.z.example."
        said = [
            text(status="NXDOMAIN"),
            text(status="NXDOMAIN", flags_="qr aa"),
            text(soa("Z.example"), counts=(1, 1)),
            text(soa("t.z.example"), counts=(1, 1), flags_="qr aa"),
            text(soa("."), counts=(1, 1), flags_="qr aa rd"),
            text(soa("example") + "\n" + name_server, counts=(1, 2)),
            text(counts=(1, 1)),
        ]
        not_said = [
            text(),
            text(flags_="qr aa"),
            text(flags_="qr aa rd ra"),
            text(counts=(1, 1), flags_="qr aa rd"),
            text(counts=(1, 1), flags_="qr aa ra"),
            text(name_server, counts=(1, 1)),
            text(soa("other.example"), counts=(1, 1)),
            text(soa("y.t.z.example"), counts=(1, 1)),
            text(soa("a"), counts=(1, 1), flags_="qr aa"),
        ]
        for good in said:
            with self.subTest(good):
                self.assertRegex(self.notes("a", good)[0], "no CAA record restricts these names")
        for bad in not_said:
            with self.subTest(bad):
                self.check("a", bad, "t.z.example")
                self.assertRegex(self.notes("a", bad + "\nt.z.example CAA none\n")[0], "no CAA record restricts these names")

    def test_a_lookup_of_another_type_through_an_alias(self):
        # Its alias counts, and it says nothing of the CAA records of the target.
        other = HEADER + flags(2, 1) + "a.example CNAME b\nb TYPE1 \\# 0\n\nexample CAA none\n"
        self.check("a.example", other, "b")
        self.assertRegex(self.notes("a.example", other + "b CAA none\n")[0], "no CAA record restricts")

    def test_how_many_aliases(self):
        def chain(count, last):
            return "".join(f"a{n}.example CNAME a{n + 1}.example\n" for n in range(count)) + last

        restricting = "a{}.example CAA 0 t x\n".format
        self.assertEqual(self.notes("a0.example", chain(8, restricting(8))), [])
        self.assertRegex(self.notes("a0.example", chain(9, restricting(9)))[0], r"more than 8 aliases .* \(verdict 22\): a0.example$")
        self.assertEqual(self.notes("a1.example", chain(9, restricting(9))), [])
        # A loop, also in a pasted answer, needs no more lookups.
        loop = "a.example CNAME b\nb CNAME a.example\n"
        self.assertRegex(self.notes("*.a.example b", loop)[0], r"verdict 22\): [*].a.example, b$")
        self.assertRegex(self.notes("a.example", "a.example CNAME A.example\n")[0], "verdict 22")
        pasted = HEADER + flags(2) + loop
        self.assertRegex(self.notes("a.example", pasted)[0], "verdict 22")
        self.check("x.a.example", pasted, "x.a.example")
        # The count begins anew at each name: 5 aliases at the name, and 5 at the one above.
        names = [("x.y", "c"), ("y", "d")]
        fives = "".join(f"{name} CNAME {t}0\n" + "".join(f"{t}{n} CNAME {t}{n + 1}\n" for n in range(4)) for name, t in names)
        self.assertEqual(self.notes("x.y", fives + "d4 CAA 0 t x\n"), [])

    def test_an_alias_of_the_root(self):
        self.assertEqual(self.notes("a", "a CNAME .\n. CAA 0 t x\n"), [])
        pasted = HEADER + flags(1) + "a CNAME .\n\n"
        self.check("a", pasted, "[.]")
        root = HEADER + flags(0) + ";; QUESTION SECTION:\n;. IN CAA\n\n"
        self.assertRegex(self.notes("a", pasted + root)[0], "no CAA record restricts")
        self.assertEqual(list(caa.book_of("r", root).answers), [()])

    def test_lines_by_hand(self):
        text = "example.com CAA 0 t x\n"
        self.assertEqual(self.notes("www.example.com", text), [])
        notes = self.notes("example.org www.example.com", text)
        self.assertRegex(notes[0], "no CAA record restricts these names.*: example.org$")
        notes = self.notes("www.example.com", text + ". CAA 0 t x\nA.org CAA 0 t x")
        self.assertRegex(notes[0], "count for no requested name: [.], a.org$")


class Commands(unittest.TestCase):
    def setUp(self):
        folder = tempfile.TemporaryDirectory()
        self.addCleanup(folder.cleanup)
        self.folder = folder.name

    def path(self, file):
        return os.path.join(self.folder, file)

    def write(self, file, text):
        with open(self.path(file), "wb") as out:
            out.write(text if isinstance(text, bytes) else text.encode())

    def run_tool(self, *words, stdin=b""):
        done = subprocess.run([sys.executable, TOOL, *words], input=stdin, capture_output=True, check=False)
        return done.returncode, done.stdout.decode(), done.stderr.decode()

    def make(self, *words, **more):
        return self.run_tool("make", self.folder, *APPLICANT, *words, **more)

    def whole_case(self):
        for command, file, text in [("names", "request.bin", "names.txt"), ("records", "book.bin", "records.txt")]:
            status, out, _ = self.run_tool(command, os.path.join(WHOLE_CASE, file))
            self.assertEqual(status, 0)
            self.write(text, "; from the example\r\n" + out.replace("\n", " \r\n"))

    def test_the_whole_case_there_and_back(self):
        self.whole_case()
        status, out, error = self.make()
        self.assertEqual((status, error), (0, ""))
        self.assertEqual(out, f"{self.folder}: names 2, records 4, {TOLD}\n")
        for file in FILES:
            self.assertEqual(octets_of(self.path(file)), octets_of(os.path.join(WHOLE_CASE, file)), file)

    def test_show(self):
        status, out, _ = self.run_tool("show", WHOLE_CASE)
        self.assertEqual(status, 0)
        self.assertIn("  name 1: pay.example.com\n", out)
        self.assertIn("issuer.txt:\n  ca1.example.net\n", out)
        self.assertIn("account.txt:\n  https://ca1.example.net/acct/230123\n", out)
        self.assertIn("method.txt:\n  dns-01\n", out)
        self.assertIn('  record 3: pay.example.com 3600 IN CAA 0 issue "ca2.example.org"\n', out)

    def test_show_tells_of_each_file(self):
        self.write("issuer.txt", "ca1.example.net\n")
        self.write("book.bin", "")
        status, out, error = self.run_tool("show", self.folder)
        self.assertEqual((status, out), (1, "book.bin: empty\n"))
        self.assertIn("request.bin: No such file", error)
        self.assertIn("issuer.txt: the issuer name has a line end", error)
        self.assertIn("account.txt: No such file", error)
        self.assertIn("method.txt: No such file", error)
        self.write("account.txt", "")
        self.write("method.txt", "dns-01\n")
        error = self.run_tool("show", self.folder)[2]
        self.assertIn("account.txt: the account has 0 octets", error)
        self.assertIn("method.txt: the method has a line end behind it: write the file with printf '%s', not with echo", error)

    def test_show_tells_why_a_record_is_refused(self):
        def caa_record(data, rr_class=1):
            return b"\1a\0\1\1\0" + bytes([rr_class]) + bytes(5) + bytes([len(data)]) + data

        good, tag, short = caa_record(b"\0\1t_"), caa_record(b"\0\4tb_s"), caa_record(b"\0")
        self.write("book.bin", good + tag + caa_record(b"\0\4tb_s", 3) + short)
        texts = [r'a 0 IN CAA 0 t "_"', r"a 0 IN TYPE257 \# 6 000474625F73", r"a 0 CLASS3 TYPE257 \# 6 000474625F73", r"a 0 IN TYPE257 \# 1 00"]
        reasons = [
            "record 1 is refused: the tag of the CAA data is tb_s, and a tag is letters and digits. A book with any other tag is refused.",
            "record 3 is refused: CAA data of 1 octets; it has at least flags and the tag's length",
        ]
        status, out, error = self.run_tool("show", self.folder)
        self.assertEqual((status, out), (1, "book.bin:\n" + "".join(f"  record {n}: {text}\n" for n, text in enumerate(texts))))
        for command, path in [("show", self.folder), ("records", self.path("book.bin"))]:
            status, out, error = self.run_tool(command, path)
            self.assertEqual(status, 1)
            for text in texts:
                self.assertIn(text + "\n", out)
            lines = [line for line in error.splitlines() if "record" in line]
            self.assertEqual(len(lines), 2, error)
            for line, reason in zip(lines, reasons):
                self.assertIn(self.path("book.bin") + ": " + reason, line)
        # Written as such lines, the records are refused too.
        self.write("names.txt", "a\n")
        for text, reason in [(texts[1], "tb_s"), (texts[3], "at least")]:
            self.write("records.txt", texts[0] + "\n" + text + "\n")
            status, out, error = self.make("--force")
            self.assertEqual((status, out), (1, ""))
            self.assertIn("records.txt:2: ", error)
            self.assertIn(reason, error)
        self.write("records.txt", texts[0] + "\n" + texts[2] + "\n")
        self.assertEqual(self.make("--force")[0], 0)

    def test_show_tells_of_aliases_in_conflict(self):
        def wire(*lines):
            return b"".join(map(caa.record, lines))

        texts = ["a 0 IN CNAME b.c", "a 0 CLASS3 TYPE5 \\# 1 FF", 'A 0 IN CAA 0 t "x"', "a 0 IN CNAME .", "b 0 IN TYPE1 \\# 0"]
        self.write("book.bin", wire(*texts))
        for command, path in [("show", self.folder), ("records", self.path("book.bin"))]:
            status, out, error = self.run_tool(command, path)
            self.assertEqual(status, 1)
            for text in texts:
                self.assertIn(text + "\n", out)
            lines = [line for line in error.splitlines() if "record" in line]
            self.assertEqual(len(lines), 2, error)
            self.assertIn("record 2 is refused: A has a CNAME record and a CAA record: this one, and the one of record 0. A name", lines[0])
            self.assertIn("record 3 is refused: a has two CNAME records: this one, and the one of record 0. A name", lines[1])
        # Malformed records come first, as the desk program finds them first.
        self.write("book.bin", wire(*texts[:3]) + b"\1b\0\0\5\0\1\0\0\0\0\0\2\1a")
        status, out, error = self.run_tool("records", self.path("book.bin"))
        self.assertEqual(status, 1)
        self.assertIn("b 0 IN TYPE5 \\# 2 0161\n", out)
        self.assertRegex(error, "^[^\n]*record 3 is refused: the data of the CNAME record is not one name[^\n]*\n[^\n]*record 2 is refused: A has")

    def test_nothing_is_overwritten(self):
        self.whole_case()
        self.write("book.bin", "mine")
        status, _, error = self.make()
        self.assertEqual(status, 1)
        self.assertIn("book.bin: is there already", error)
        self.assertEqual(octets_of(self.path("book.bin")), b"mine")
        self.assertFalse(os.path.exists(self.path("request.bin")))
        self.assertEqual(self.make("--force")[0], 0)
        self.assertNotEqual(octets_of(self.path("book.bin")), b"mine")

    def test_a_fault_writes_nothing(self):
        self.write("names.txt", "a.example\n")
        self.write("records.txt", "# mine\na.example CAA 256 issue x\n")
        status, out, error = self.make()
        self.assertEqual((status, out), (1, ""))
        self.assertIn("records.txt:2: flags are a number from 0 to 255, not 256", error)
        self.assertEqual(sorted(os.listdir(self.folder)), ["names.txt", "records.txt"])

    def test_both_sides_of_each_limit(self):
        # Before, the limits were 100 names in 8,192 octets and 256 records in 32,768. A name of 255 octets in wire form, one of n + 2
        # octets for n letters, and a record of n + 16 octets:
        longest, short = ".".join(["a" * 63] * 3 + ["a" * 61]) + "\n", "{}\n".format
        record = "b CAA 0 t {}\n".format
        for names, records, sizes in [
            ("a\n" * 100, "", (300, 0)),
            ("a\n" * 101, "", (303, 0)),
            ("a\n" * 250, "", (750, 0)),
            (longest * 32 + short("a" * 30), "", (8192, 0)),
            (longest * 32 + short("a" * 31), "", (8193, 0)),
            (longest * 64 + short("a" * 62), "", (16384, 0)),
            ("a\n", record("x") * 256, (3, 4352)),
            ("a\n", record("x") * 257, (3, 4369)),
            ("a\n", record("x") * 1024, (3, 17408)),
            ("a\n", record("x" * 32752), (3, 32768)),
            ("a\n", record("x" * 32753), (3, 32769)),
            ("a\n", record("x" * 49136), (3, 49152)),
        ]:
            self.write("names.txt", names)
            self.write("records.txt", records)
            status, _, error = self.make("--force")
            self.assertEqual((status, error), (0, ""))
            self.assertEqual(tuple(len(octets_of(self.path(file))) for file in ["request.bin", "book.bin"]), sizes)
        for names, records, reason in [
            ("a\n" * 251, "", "names.txt:251: 250 names are allowed"),
            (longest * 64 + short("a" * 63), "", "names.txt:65: 16384 octets of names are allowed, and this makes 16385"),
            ("a\n", record("x") * 1025, "records.txt:1025: 1024 records are allowed"),
            ("a\n", record("x" * 49137), "records.txt:1: 49152 octets of records are allowed, and this makes 49153"),
        ]:
            self.write("names.txt", names)
            self.write("records.txt", records)
            status, _, error = self.make("--force")
            self.assertEqual(status, 1)
            self.assertIn(reason, error)

    def test_other_faults_of_files(self):
        self.assertIn("names.txt: No such file", self.make()[2])
        self.write("names.txt", "# none\n")
        self.assertIn("there is no name in it", self.make()[2])
        self.write("names.txt", b"a\nb\xff\n")
        self.assertIn("names.txt:2: octet 255 is not ASCII", self.make()[2])
        self.write("names.txt", "a\n")
        self.write("records.txt", "")
        self.assertIn("closing dot", self.make("--issuer", "x.")[2])
        self.assertIn("--account: the account has ';' in it", self.make("--account", "x;y")[2])
        self.assertIn("--method: the method has a comma", self.make("--method", "http-01,dns-01")[2])
        status, out, _ = self.make()
        self.assertEqual(status, 0)
        self.assertIn("records.txt: there is no record in it, so the book restricts nothing", out)
        self.assertEqual(octets_of(self.path("book.bin")), b"")

    def test_standard_input_and_a_mark_at_the_front(self):
        self.write("names.txt", b"\xef\xbb\xbfa\n")
        self.assertEqual(self.make("--records", "-", stdin=b"a CAA 0 t x")[0], 0)
        self.assertEqual(octets_of(self.path("request.bin")), b"\1a\0")
        self.assertTrue(octets_of(self.path("book.bin")).endswith(b"\0\1tx"))

    def test_help(self):
        with contextlib.redirect_stdout(io.StringIO()) as out, self.assertRaises(SystemExit):
            caa.arguments().parse_args(["--help"])
        self.assertIn("names.txt: one requested name to a line", out.getvalue())
        self.assertEqual(self.run_tool()[0], 2)
        for command, sign in [
            ("make", "--force"),
            ("make", "DNAME records are refused"),
            ("make", "--account URI"),
            ("make", "--method NAME"),
            ("show", "the folder that has the five files"),
            ("names", "a request.bin; - is standard input"),
            ("records", "a book.bin; - is standard input"),
        ]:
            status, out, error = self.run_tool(command, "--help")
            self.assertEqual((status, error), (0, ""))
            self.assertIn(sign, out)
            self.assertIn("Exit status: 0 done", out)

    def test_issuer_account_and_method_are_needed(self):
        self.whole_case()
        for left_out in range(0, len(APPLICANT), 2):
            words = APPLICANT[:left_out] + APPLICANT[left_out + 2 :]
            status, _, error = self.run_tool("make", self.folder, *words)
            self.assertEqual(status, 2)
            self.assertIn(f"required: {APPLICANT[left_out]}", error)

    def snapshot(self):
        """All that is in the folder: each path with its octets, None for a folder."""
        found = {}
        for folder, folders, files in os.walk(self.folder):
            found.update({os.path.join(folder, name): None for name in folders})
            found.update({os.path.join(folder, name): octets_of(os.path.join(folder, name)) for name in files})
        return found

    def old_case(self):
        """Texts for a new case, and files of an old one."""
        self.whole_case()
        for file in FILES:
            self.write(file, "old " + file)
        return self.snapshot()

    def test_a_pasted_failure_writes_nothing(self):
        before = self.old_case()
        for name in ["dig-dname", "dig-servfail.answer", "drill-nobody", "kdig-truncated", "dig-malformed", "dig-plus-short"]:
            status, out, error = self.make("--force", "--records", os.path.join(CAPTURED, name + ".txt"))
            self.assertEqual((status, out), (1, ""))
            self.assertRegex(error, rf"^caa-files.py: .*{name}.txt:\d+: [^\n]*\n$")
            self.assertEqual(self.snapshot(), before)

    def test_an_answer_that_came_through_an_alias(self):
        self.write("names.txt", "alias.example.com\n")
        self.write("records.txt", captured("dig-alias-by-resolver"))
        self.assertEqual(self.make()[:2], (0, f"{self.folder}: names 1, records 2, {TOLD}\n"))
        book = octets_of(self.path("book.bin"))
        self.assertEqual(aliases_of(book), [("alias.example.com", "target.example.org")])
        self.assertEqual(properties_of(book), [("target.example.org", 0, b"issue", b"ca2.example.org")])
        out = self.run_tool("show", self.folder)[1]
        self.assertIn("  record 0: alias.example.com 3505 IN CNAME target.example.org\n", out)

    def test_an_answer_without_its_target_mended_as_the_message_says(self):
        self.write("names.txt", "alias.example.com\n")
        self.write("records.txt", captured("dig-alias") + captured("kdig-found"))
        status, out, error = self.make()
        self.assertEqual((status, out), (1, ""))
        reason = "target.example.org is the final target of alias.example.com (line 6), and no answer says whether it has CAA records. "
        self.assertIn("records.txt: not looked up: target.example.org. " + reason, error)
        self.write("records.txt", captured("dig-alias") + captured("kdig-found") + "target.example.org CAA none\n")
        self.assertEqual(self.make()[:2], (0, f"{self.folder}: names 1, records 4, {TOLD}\n"))

    def test_a_dname_mended_as_the_message_says(self):
        self.write("names.txt", "www.branch.example.com\n")
        self.write("records.txt", captured("dig-dname"))
        status, _, error = self.make()
        self.assertEqual(status, 1)
        self.assertIn("write its CNAME and CAA records as lines of your own, without the DNAME record", error)
        kept = [line for line in captured("dig-dname").split("\n") if re.search(r"\t(CNAME|CAA)\t[w0]", line)]
        self.write("records.txt", "\n".join(kept))
        self.assertEqual(self.make()[:2], (0, f"{self.folder}: names 1, records 2, {TOLD}\n"))

    def test_an_alias_of_a_name_without_records(self):
        self.write("names.txt", "alias-of-none.example.com\n")
        self.write("records.txt", captured("kdig-alias-of-none") + captured("kdig-found"))
        self.assertEqual(self.make()[:2], (0, f"{self.folder}: names 1, records 4, {TOLD}\n"))
        self.write("records.txt", captured("kdig-found") + "alias-of-none.example.com CAA none\n")
        self.assertEqual(self.make("--force")[:2], (0, f"{self.folder}: names 1, records 3, {TOLD}\n"))

    def test_a_conflict_names_both_lines(self):
        self.write("names.txt", "www.example.com\n")
        self.write("records.txt", 'www.example.com CAA 0 issue "x"\n\nWWW.example.com. 300 IN CNAME web.example.org.\n')
        status, out, error = self.make()
        self.assertEqual((status, out), (1, ""))
        self.assertIn("records.txt:3: WWW.example.com has a CNAME record and a CAA record: this one, and the one of line 1.", error)

    def test_lookups_of_all_three_programs(self):
        self.write("names.txt", "www.example.com\n*.pay.example.com\nno-such.example.com\n")
        parts = ["dig-no-caa", "drill-pay", "kdig-nxdomain", "dig-found.answer"]
        self.write("records.txt", "".join(map(captured, parts)))
        self.assertEqual(self.make()[:2], (0, f"{self.folder}: names 3, records 4, {TOLD}\n"))
        self.write("records.txt", "".join(map(captured, parts[:-1])))
        status, out, error = self.make("--force")
        self.assertEqual((status, out), (1, ""))
        self.assertIn("records.txt: not looked up: example.com, com. ", error)

    def test_one_input_for_both(self):
        before = self.old_case()
        for words in [
            ["--names", "-", "--records", "-"],
            ["--names", "/dev/stdin", "--records", "-"],
            ["--records", self.path("names.txt")],
        ]:
            status, out, error = self.make("--force", *words, stdin=b"a\n")
            self.assertEqual((status, out), (2, ""))
            self.assertIn("names and records are read from the same input", error)
            self.assertEqual(self.snapshot(), before)

    def test_standard_input_that_is_empty_or_closed(self):
        before = self.old_case()
        status, _, error = self.make("--force", "--records", "-")
        self.assertEqual(status, 1)
        self.assertIn("standard input is empty", error)
        status, error = self.make_with("--force", "--records", "-", preexec_fn=lambda: os.close(0))
        self.assertEqual(status, 1)
        self.assertRegex(error, "^caa-files.py: -: standard input is closed[^\\n]*\n$")
        self.assertEqual(self.snapshot(), before)

    def make_with(self, *words, preexec_fn):
        command = [sys.executable, TOOL, "make", self.folder, *APPLICANT, *words]
        done = subprocess.run(command, capture_output=True, check=False, preexec_fn=preexec_fn)
        return done.returncode, done.stderr.decode()

    def test_an_output_that_is_closed_or_full(self):
        before = self.old_case()
        reading, writing = os.pipe()
        os.close(reading)
        self.addCleanup(os.close, writing)
        commands = [
            ["make", self.folder, *APPLICANT, "--force"],
            ["show", WHOLE_CASE],
            ["records", os.path.join(WHOLE_CASE, "book.bin")],
            ["--help"],
            ["names", "--help"],
        ]
        with open("/dev/full", "wb") as full:
            outputs = [
                ({"stdout": writing}, "standard output: Broken pipe"),
                ({"stdout": full}, "standard output: No space left on device"),
                ({"preexec_fn": lambda: os.close(1)}, "standard output is closed"),
            ]
            for words in commands:
                for more, reason in outputs:
                    for unbuffered in ["", "1"] if words[0] in ("make", "--help") else [""]:
                        done = subprocess.run(
                            [sys.executable, TOOL, *words],
                            stderr=subprocess.PIPE,
                            check=False,
                            env={**os.environ, "PYTHONUNBUFFERED": unbuffered},
                            **more,
                        )
                        self.assertEqual((done.returncode, done.stderr.decode()), (1, f"caa-files.py: {reason}\n"))
                        self.assertEqual(self.snapshot(), before)

    def test_a_file_that_cannot_be_written_whole(self):
        """A limit for the size of files stands for a full disk: request.bin fits, and book.bin does not."""
        before = self.old_case()

        def limited():
            resource.setrlimit(resource.RLIMIT_FSIZE, (100, 100))

        status, error = self.make_with("--force", preexec_fn=limited)
        self.assertEqual((status, error), (1, f"caa-files.py: {self.path('book.bin')}: File too large; nothing was written\n"))
        self.assertEqual(self.snapshot(), before)

    def test_a_step_that_fails_is_undone(self):
        """Each call that changes something fails once, over an old case and in a new folder."""
        before = self.old_case()
        for folder, calls in [
            (self.folder, {"open": 5, "fsync": 5, "rename": 10}),
            (self.path("new/folder"), {"mkdir": 2, "open": 5, "fsync": 5, "rename": 5}),
        ]:
            for name, count in calls.items():
                for failing in range(count):
                    with self.subTest(folder=folder, name=name, failing=failing):
                        with failing_call(name, failing), self.assertRaisesRegex(caa.Fault, ": Input/output error"):
                            caa.write_all(folder, NEW_FILES, True, lambda: None)
                        self.assertEqual(self.snapshot(), before)
        # These were all renames: one more is not made.
        with failing_call("rename", 10):
            caa.write_all(self.folder, NEW_FILES, True, lambda: None)
        self.assertEqual(octets_of(self.path("book.bin")), b"b")

    def test_an_interrupt_is_undone(self):
        before = self.old_case()

        def announce():
            raise caa.Interrupted("SIGTERM")

        for folder in [self.folder, self.path("new")]:
            with self.assertRaises(caa.Interrupted):
                caa.write_all(folder, NEW_FILES, True, announce)
            self.assertEqual(self.snapshot(), before)

    def test_the_book_goes_first_and_comes_last(self):
        """While the files change, there is no book."""
        self.old_case()
        seen = []
        rename = os.rename

        def watched(*paths):
            rename(*paths)
            seen.append(os.path.exists(self.path("book.bin")))

        os.rename = watched
        try:
            caa.write_all(self.folder, NEW_FILES, True, lambda: None)
        finally:
            os.rename = rename
        self.assertEqual(seen, [False] * 9 + [True])
        self.assertEqual(octets_of(self.path("book.bin")), b"b")
        self.assertEqual(sorted(os.listdir(self.folder)), sorted([*FILES, "names.txt", "records.txt"]))

    def test_a_folder_in_the_way(self):
        self.whole_case()
        os.mkdir(self.path("book.bin"))
        self.write("request.bin", "mine")
        before = self.snapshot()
        status, _, error = self.make("--force")
        self.assertEqual(status, 1)
        self.assertIn("book.bin: is a folder", error)
        self.assertEqual(self.snapshot(), before)
        self.write("file", "x")
        status, _, error = self.make_in("file/x")
        self.assertEqual((status, error), (1, f"caa-files.py: {self.path('file')}: is not a folder\n"))

    def make_in(self, folder):
        """With the texts of this folder, in another one."""
        texts = ["--names", self.path("names.txt"), "--records", self.path("records.txt")]
        return self.run_tool("make", self.path(folder), *APPLICANT, *texts)

    def test_a_new_folder(self):
        self.whole_case()
        status, _, error = self.make_in("a/b/")
        self.assertEqual((status, error), (0, ""))
        self.assertEqual(sorted(os.listdir(self.path("a/b"))), sorted(FILES))

    def test_text_in_another_encoding(self):
        self.write("names.txt", "a\n")
        self.write("records.txt", captured("dig-found").encode("utf-16"))
        self.assertIn("the file is in UTF-16", self.make()[2])
        self.write("names.txt", "\u00fc.example\n")
        self.assertIn("names.txt:1: '\u00fc' (U+00FC LATIN SMALL LETTER U WITH DIAERESIS) is not ASCII", self.make()[2])
        self.write("names.txt", "a\n")
        self.write("records.txt", "")
        self.assertIn("write it in its xn-- form", self.make("--issuer", "b\u00fccher.example")[2])


@contextlib.contextmanager
def failing_call(name, failing):
    """The call of os.NAME with this number, counted from 0, fails."""
    real = getattr(os, name)
    made = 0

    def call(*words, **more):
        nonlocal made
        made += 1
        if made == failing + 1:
            raise OSError(5, "Input/output error")
        return real(*words, **more)

    setattr(os, name, call)
    try:
        yield
    finally:
        setattr(os, name, real)


if __name__ == "__main__":
    unittest.main()

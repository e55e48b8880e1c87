#!/usr/bin/env python3
"""Makes the files that the desk program reads from readable text, and shows them as text.

  caa-files.py make FOLDER --issuer NAME --account URI --method NAME
                              writes request.bin, issuer.txt, account.txt, method.txt and book.bin to
                              FOLDER, from FOLDER/names.txt and FOLDER/records.txt
  caa-files.py show FOLDER    shows the five files, with the numbers that the desk program gives to
                              names and records
  caa-files.py names FILE     prints a request.bin as a names.txt
  caa-files.py records FILE   prints a book.bin as a records.txt

caa-files.py COMMAND --help tells more about one command.
"""

import argparse
import collections
import contextlib
import os
import re
import secrets
import signal
import string
import sys
import unicodedata

TEXT_FORM = r"""
names.txt: one requested name to a line, a wildcard name as *.example.com.

    www.example.com
    *.pay.example.com

records.txt: one record to a line, CAA and CNAME records as in a zone file. TTL and class may be left out
(3600, IN).

    example.com CAA 0 issue "ca1.example.net; account=230123"
    example.com. 300 IN CAA 128 tbs "Unknown"
    shop.example.com. 300 IN CNAME web.example.org.
    www.example.com CAA none

The last line says that www.example.com was looked up and has neither a CAA nor a CNAME record. A tag is
letters and digits: the desk program refuses a book with any other, and so does make. A record of another
type is written in the form of RFC 3597, such as: example.com TYPE1 \# 4 C0000201

The output of dig, drill and kdig can be pasted into records.txt as it is. Look up every requested name and
every name above it, up to the top-level domain:

    dig +noall +comments +question +answer www.example.com CAA

Keep all lines of the output: they show which name was looked up, and whether the lookup failed. Refused
are a failed lookup, a truncated answer, and an answer with records missing. Once an answer is pasted,
every name must have an answer or a line of its own: a name that was not looked up is refused too. Leave
an empty line between pasted output and lines of your own.

The desk program follows aliases: it looks for the CAA records of shop.example.com at web.example.org, and
goes on with example.com if there are none. A resolver follows them too, so an answer that came through
aliases counts as it stands. If it ends with a CNAME record and says nothing about the target, look up the
target too. A name with a CNAME record has no other CNAME record and no CAA record: the desk program refuses
such a book, and so does make. DNAME records are refused: write the CNAME record that dig prints with them.

Write names in full, with or without the final dot: $ORIGIN, @ and an omitted owner are not understood.
In a name, \. is a dot inside a label, \DDD is an octet in decimal, and \ before any other character is that
character; in a quoted value, use \" \\ and \DDD. Empty lines and comments are skipped: a comment is a whole
line that begins with # or with one ;. FILE may be - for standard input.
"""

EXIT_STATUS = """
Exit status: 0 done; 1 something is wrong with a file or with the output, and make has written nothing;
2 wrong use.
"""

# The desk program's limits.
MAX_LABEL = 63
MAX_NAME = 255
MAX_ISSUER = 253
MAX_ACCOUNT = 255  # of the method too
MAX_NAMES = 250
MAX_REQUEST = 16_384
MAX_RECORDS = 1_024
MAX_BOOK = 49_152
MAX_ALIASES = 8

TYPE_CNAME = 5
TYPE_DNAME = 39
TYPE_CAA = 257
CLASS_IN = 1
DEFAULT_TTL = 3600

LETTERS_DIGITS = frozenset((string.ascii_letters + string.digits).encode())
RECORD_FORM = 'a record is: owner [TTL] [IN] CAA flags tag "value"'
ALIAS_FORM = "an alias is: owner [TTL] [IN] CNAME target"
CONFLICT_ADVICE = (
    "A name with a CNAME record has no other CNAME record and no CAA record (RFC 1034, section 3.6.2), and a book in which it has one "
    "is refused. Look the name up again, and take the old record out. If both are there, the owner of the domain has to correct it"
)
TAG_ADVICE = "A book with any other tag is refused. Don't leave the record out: its owner has to correct it"
LOOKUP = "dig +noall +comments +question +answer NAME CAA"


class Fault(Exception):
    """Something is wrong with the input: the reason, for people. `line` is the number of the line it stands
    on, where that is not the line being read."""

    def __init__(self, reason, line=None):
        super().__init__(reason)
        self.line = line


# ---- Text to octets


def unescaped(text, plain):
    """The octets that text stands for, each with whether a backslash made it; plain(c) says of a
    character whether it may stand for itself."""
    octets = []
    at = 0
    while at < len(text):
        if text[at] != "\\":
            if not plain(text[at]):
                raise Fault(not_plain(text[at]))
            octets.append((ord(text[at]), False))
            at += 1
            continue
        behind = text[at + 1 : at + 4]
        if re.match("[0-9]", behind):
            if not re.fullmatch("[0-9]{3}", behind) or int(behind) > 255:
                raise Fault(rf"\{behind} is no escape: after a backslash, write three digits up to 255")
            octets.append((int(behind), True))
            at += 4
        elif behind and " " <= behind[0] <= "~":
            octets.append((ord(behind[0]), True))
            at += 2
        else:
            raise Fault("a backslash is followed by nothing that it can escape")
    return octets


def not_plain(c):
    if ord(c) < 128:
        if " " <= c <= "~":
            return f"{c!r} must stand in double quotes, or have a backslash before it"
        return f"{c!r} is not printable: write it as \\{ord(c):03}"
    what = f"{c!r} (U+{ord(c):04X} {unicodedata.name(c, 'without a name')}) is not ASCII"
    if c in "\u201c\u201d\u201e\u201f\u00ab\u00bb":
        return f'{what}: use the straight double quote "'
    if unicodedata.category(c)[0] in "ZC":
        return f"{what}, and looks like a space or like nothing: take it out, or use a plain space"
    return f"{what}: write a name that holds it in its xn-- form (dig +noidnout, kdig +noidn), an octet as \\DDD"


def labels_of(text):
    """The labels of a name; none for the root."""
    if text == "@":
        raise Fault(r"@ stands for no name here: write the name out (\@ for a label that is @)")
    labels = [b""]
    for octet, escaped in [] if text == "." else unescaped(text, lambda c: "!" <= c <= "~"):
        if octet == ord(".") and not escaped:
            labels.append(b"")
        else:
            labels[-1] += bytes([octet])
    if labels[-1] == b"":
        labels.pop()  # a final dot, or the root
    for label in labels:
        if not label:
            raise Fault(f"{text} has an empty label: two dots in a row, or a dot at the front")
        if len(label) > MAX_LABEL:
            raise Fault(f"a label of {len(label)} octets; {MAX_LABEL} are allowed")
    if len(wire_name(labels)) > MAX_NAME:
        raise Fault(f"a name of {len(wire_name(labels))} octets in wire form; {MAX_NAME} are allowed")
    return labels


def wire_name(labels):
    return b"".join(bytes([len(label)]) + label for label in labels) + b"\0"


def check_host_label(label):
    """Letters, digits and inner hyphens."""
    for octet in label:
        if octet not in LETTERS_DIGITS and octet != ord("-"):
            hint = "; * may only be the whole first label of a requested name" if octet == ord("*") else ""
            raise Fault(f"label {label_text(label)}: letters, digits and hyphens alone are allowed{hint}")
    if label.startswith(b"-") or label.endswith(b"-"):
        raise Fault(f"label {label_text(label)} begins or ends with a hyphen")


def requested_name(text):
    """One name of a request, in wire form."""
    if re.search("[ \t,]", text):
        raise Fault(f"{text}: more than one name, or something behind the name: write one name per line, and nothing else")
    if re.search("[/:]", text):
        raise Fault(f"{text}: write the host name alone, without https://, port or path")
    labels = labels_of(text)
    rest = labels[1:] if labels[:1] == [b"*"] else labels
    if not rest:
        raise Fault(f"{text} has no label to ask for: write a name such as www.example.com or *.example.com")
    for label in rest:
        check_host_label(label)
    return wire_name(labels)


def check_issuer(issuer):
    """An issuer domain name, as octets."""
    if issuer.endswith((b"\n", b"\r")):
        raise Fault("the issuer name has a line end behind it")
    if not 1 <= len(issuer) <= MAX_ISSUER:
        raise Fault(f"an issuer name of {len(issuer)} octets; 1 to {MAX_ISSUER} are allowed")
    if not issuer.isascii():
        raise Fault("the issuer name has letters that are not ASCII: write it in its xn-- form, such as xn--bcher-kva.example")
    if re.search(rb"[ \t;/:]", issuer):
        raise Fault("the issuer name is a domain name alone: no white space, parameters, https://, port or path")
    if issuer.endswith(b"."):
        raise Fault("an issuer name has no closing dot: take the dot off")
    for label in issuer.split(b"."):
        if not 1 <= len(label) <= MAX_LABEL:
            raise Fault(f"a label of {len(label)} octets in the issuer name; 1 to {MAX_LABEL} are allowed")
        check_host_label(label)


def check_account(account):
    """An account text, as octets."""
    check_limited_text("the account", account, "give the URI of the account that asks, such as https://ca1.example.net/acct/230123")


def check_method(method):
    """A method text, as octets."""
    advice = "give the one validation method that was used, such as dns-01"
    check_limited_text("the method", method, advice)
    if b"," in method:
        raise Fault(f"the method has a comma: {advice}")


def check_limited_text(what, text, advice):
    """What an account and a method have in common: 1 to 255 octets of 33 to 126, and no semicolon."""
    if text.endswith((b"\n", b"\r")):
        raise Fault(f"{what} has a line end behind it: write the file with printf '%s', not with echo")
    if not 1 <= len(text) <= MAX_ACCOUNT:
        raise Fault(f"{what} has {len(text)} octets; 1 to {MAX_ACCOUNT} are allowed: {advice}")
    for octet in text:
        if not 33 <= octet <= 126 or octet == ord(";"):
            shown = repr(chr(octet)) if octet < 127 else f"octet {octet}"
            raise Fault(f"{what} has {shown} in it; only printable ASCII without white space and without ; is allowed: {advice}")


# ---- Records

Head = collections.namedtuple("Head", "labels ttl rr_class type_word rest")

TYPES = {"CAA": TYPE_CAA, "CNAME": TYPE_CNAME}  # those that are read by name
KNOWN_TYPES = {**TYPES, "DNAME": TYPE_DNAME, "RRSIG": 46}


class Dname(Fault):
    """A DNAME record, or a signature over one."""

    def __init__(self, word, owner):
        word = {"TYPE39": "TYPE39 (DNAME)"}.get(word.upper(), word)
        super().__init__(
            f"{owner} has a {word} record, and the desk program reads CNAME records but no DNAME. Take this whole answer out, "
            "with its header, and write its CNAME and CAA records as lines of your own, without the DNAME record. If the final "
            "target of the aliases has no CAA record, write: TARGET CAA none"
        )


def head_of(line):
    """What stands before the data of a record. A DNAME record is a fault, whatever its class."""
    if line[0] in " \t":
        raise Fault("the line begins with white space: write the owner on each line, at its front")
    if line[0] == "$":
        raise Fault("directives such as $ORIGIN are not read: write names and times in full")
    owner, rest = field(line)
    labels = labels_of(owner)
    ttl = rr_class = None
    while True:
        word, rest = field(rest)
        if word[:1].isdigit() and ttl is None:
            if not re.fullmatch("[0-9]{1,10}", word) or int(word) >= 1 << 32:
                raise Fault(f"a time to live is a number of seconds that fits 4 octets, not {word}; {RECORD_FORM}")
            ttl = int(word)
        elif rr_class is None and (number := numbered("CLASS", word, {"IN": CLASS_IN})) is not None:
            rr_class = number
        else:
            break
    if word.upper() in ("CH", "HS", "CS"):
        if numbered("TYPE", field(rest)[0], KNOWN_TYPES) != TYPE_DNAME:
            raise Fault(f"class {word}: write IN, the only class whose records count, or another as CLASSn")
        word, rest = field(rest)
    if numbered("TYPE", word, KNOWN_TYPES) == TYPE_DNAME:
        raise Dname(word, name_text(labels))
    ttl = DEFAULT_TTL if ttl is None else ttl
    rr_class = CLASS_IN if rr_class is None else rr_class
    return Head(labels, ttl, rr_class, word, rest)


def record(line):
    """One record in wire form."""
    labels, ttl, rr_class, word, rest = head_of(line)
    rr_type = numbered("TYPE", word, TYPES)
    if rr_type is None:
        raise Fault(
            rf"type {word} is not read by name, only CAA and CNAME are (others as TYPEn \# length hex); {RECORD_FORM}"
            if word
            else f"the record ends before its type; {RECORD_FORM}"
        )
    if rest.startswith("\\#"):
        data = generic_data(rest[2:])
    elif word.upper() == "CAA":
        data = caa_data(rest)
    elif word.upper() == "CNAME":
        data = alias_data(rest)
    else:
        raise Fault(rf"the data of {word} must be written as \# length hex")
    if len(data) > 65_535:
        raise Fault(f"{len(data)} octets of data; 65535 fit a record")
    check_data(rr_type, rr_class, data)
    numbers = [(rr_type, 2), (rr_class, 2), (ttl, 4), (len(data), 2)]
    return wire_name(labels) + b"".join(n.to_bytes(size, "big") for n, size in numbers) + data


def check_data(rr_type, rr_class, data):
    """The data of a record that counts: the desk program refuses a book in which it is malformed."""
    if (rr_type, rr_class) == (TYPE_CAA, CLASS_IN):
        property_of(data)
    if (rr_type, rr_class) == (TYPE_CNAME, CLASS_IN):
        target_of(data)


def field(text):
    """What stands before the first white space, and what stands behind it. A backslash keeps a space."""
    word = re.match(r"(?:\\.|[^ \t\\])*\\?", text).group()
    return word, text[len(word) :].lstrip(" \t")


def numbered(prefix, word, mnemonics):
    """The number of a type or class by its mnemonic or as TYPE257; None where it is neither."""
    if word.upper() in mnemonics:
        return mnemonics[word.upper()]
    number = re.fullmatch(prefix + "([0-9]{1,5})", word, re.IGNORECASE)
    if number is None:
        return None
    if int(number[1]) > 65_535:
        raise Fault(f"{word}: a number up to 65535 is allowed")
    return int(number[1])


def generic_data(text):
    """Data as a length and hex digits, with white space anywhere between (RFC 3597)."""
    length, digits = field(text.lstrip(" \t"))
    digits = re.sub("[ \t]", "", digits)
    if not re.fullmatch("[0-9]{1,5}", length):
        raise Fault(rf"a length up to 65535 must follow \#, not {length or 'nothing'}")
    if not re.fullmatch("(?:[0-9A-Fa-f]{2})*", digits):
        raise Fault(r"after \# and the length, only pairs of hex digits are allowed")
    data = bytes.fromhex(digits)
    if len(data) != int(length):
        raise Fault(rf"\# says {int(length)} octets, and {len(data)} follow")
    return data


def caa_data(text):
    """CAA data from flags, tag and value as a line has them."""
    flags, rest = field(text)
    tag, value = field(rest)
    if not re.fullmatch("[0-9]{1,3}", flags) or int(flags) > 255:
        raise Fault(f"flags are a number from 0 to 255, not {flags or 'nothing'}; {RECORD_FORM}")
    if not re.fullmatch("[A-Za-z0-9]{1,255}", tag):
        advice = f". {TAG_ADVICE}" if tag else ""
        raise Fault(f"a tag is 1 to 255 letters and digits, not {tag or 'nothing'}; {RECORD_FORM}{advice}")
    if not value:
        raise Fault('the value is missing: write "" for an empty one')
    return bytes([int(flags), len(tag)]) + tag.encode() + value_of(value)


def alias_data(text):
    """The data of a CNAME record from its target."""
    target, rest = field(text)
    if not target:
        raise Fault(f"the target of the alias is missing; {ALIAS_FORM}")
    if rest:
        raise Fault(f"{rest} stands behind the target; write a comment on a line of its own")
    return wire_name(labels_of(target))


def value_of(text):
    """The octets of a value, quoted or bare."""
    if text.startswith('"'):
        inner = re.match(r'"((?:\\.|[^"\\])*)"', text)
        if inner is None:
            raise Fault("the value's closing quote is missing")
        if inner.end() != len(text):
            raise Fault(f"{text[inner.end():].strip()} stands behind the value; write a comment on a line of its own")
        octets = unescaped(inner[1], lambda c: " " <= c <= "~")
    else:
        octets = unescaped(text, lambda c: "!" <= c <= "~" and c not in '";()')
    return bytes(octet for octet, _ in octets)


def property_of(data):
    """Flags, tag and value of CAA data."""
    if len(data) < 2:
        raise Fault(f"CAA data of {len(data)} octets; it has at least flags and the tag's length")
    length = data[1]
    if length == 0:
        raise Fault("the tag of the CAA data is empty")
    if length + 2 > len(data):
        raise Fault(f"CAA data of {len(data)} octets has no room for a tag of {length}")
    tag = data[2 : 2 + length]
    if not LETTERS_DIGITS.issuperset(tag):
        shown_tag = "".join(octet_text(octet, "\\") for octet in tag)
        raise Fault(f"the tag of the CAA data is {shown_tag}, and a tag is letters and digits. {TAG_ADVICE}")
    return data[0], tag, data[2 + length :]


def target_of(data):
    """The labels of the target in the data of a CNAME record."""
    reader = Reader(data)
    try:
        labels = reader.name()
    except Fault:
        labels = None
    if labels is None or reader.at != len(data):
        raise Fault("the data of the CNAME record is not one name in wire form without compression, and nothing else")
    return labels


# ---- The lines of a text file


def lines_of(text):
    """The lines with their numbers, without white space at their ends."""
    for number, line in enumerate(re.split("\r\n|\n|\r", text), 1):
        yield number, line.rstrip(" \t")


def is_comment(line):
    """Whether the line is empty or a comment. A comment must not hide a second line."""
    text = line.lstrip(" \t")
    if text and text[0] not in "#;":
        return False
    for c in text:
        if unicodedata.category(c) in ("Cc", "Zl", "Zp") and c != "\t":
            raise Fault(f"the comment holds U+{ord(c):04X}, which may look like a line end: take it out")
    return True


@contextlib.contextmanager
def placed(file, number):
    """Tells a fault with its file and line."""
    try:
        yield
    except Fault as fault:
        raise Fault(f"{file}:{fault.line or number}: {fault}") from None


class Items:
    """Items end to end, within the desk program's limits."""

    def __init__(self, what, most, most_octets):
        self.what, self.most, self.most_octets = what, most, most_octets
        self.octets = b""
        self.count = 0

    def add(self, octets):
        self.octets += octets
        self.count += 1
        if self.count > self.most:
            raise Fault(f"{self.most} {self.what} are allowed, and this is one more")
        if len(self.octets) > self.most_octets:
            raise Fault(f"{self.most_octets} octets of {self.what} are allowed, and this makes {len(self.octets)}")


def items_of(file, text, item, what, most, most_octets):
    """One item from each line that is neither empty nor a comment."""
    items = Items(what, most, most_octets)
    for number, line in lines_of(text):
        with placed(file, number):
            if not is_comment(line):
                items.add(item(line))
    return items.octets, items.count


def book_of(file, text):
    """The records of a records.txt, as RecordsReader has them at the end."""
    reader = RecordsReader()
    for number, line in lines_of(text):
        with placed(file, number):
            reader.read(number, line)
    with placed(file, reader.number):
        reader.end()
    return reader


# ---- What dig, drill and kdig print

HEADER_MARK = "->>HEADER<<-"
HEADER = re.compile(HEADER_MARK + r"\s+opcode: ([^,;]+)[,;] +(?:status|rcode): ([^,;]+)[,;] +id: *\d+")
FLAGS_AND_COUNTS = re.compile(
    r"(?:flags:(?P<flags>[a-z ]*?) *(?:; MBZ: 0x[0-9a-f]+)?; *)?"
    r"QUERY: (?P<QUERY>\d+)[,;] ANSWER: (?P<ANSWER>\d+)[,;] AUTHORITY: (?P<AUTHORITY>\d+)[,;] ADDITIONAL: (?P<ADDITIONAL>\d+)",
    re.IGNORECASE,
)
SECTION = re.compile(r"(QUESTION|ANSWER|AUTHORITY|ADDITIONAL) SECTION:|(?:OPT|EDNS|TSIG|SIG0) PSEUDOSECTION:")
# Lines that come before the header of an answer, in this order.
BEFORE_HEADER = [
    re.compile(
        r"Truncated, retrying|WARNING: truncated reply from .*, retrying|BADCOOKIE, retrying"
        r"|TLS session |HTTP session .*\(status: 200\)$|QUIC session "
    ),
    re.compile(r"<<>> DiG .*<<>>"),
    re.compile(r"global options:"),
    re.compile(r"Got answer:"),
]
# Lines of an answer that say nothing about its records, between its header and its sections, and behind its sections.
BEFORE_SECTIONS = re.compile(
    r"WARNING: recursion requested but not available$"  # what matters is in the flags
    r"|Version: 0; flags:[a-z ]*; UDP size: \d+ B; ext-rcode: (NOERROR|NXDOMAIN)$"
    r"|(NSID|CLIENT-SUBNET|PADDING|COOKIE|EXPIRE|Option \(\d+\)): "  # kdig's options of EDNS
)
BEHIND_SECTIONS = re.compile(
    r"Query time: |SERVER: |WHEN: |MSG SIZE +rcvd: |Received \d+ B$|Time \d|From \S+ in "
    r"|EDNS: version 0; flags:[a-z ]*; udp: \d+$|Data: "
)
# Lines with one ; that dig prints within an answer. Other lines with one ; are comments.
WITHIN_ANSWER = re.compile(r"EDNS: version: |COOKIE: [0-9a-f]")
# Other lines of these programs, with a reason for people. They are refused, and so is every line that is not known.
FAILURES = [
    (r"malformed|bad packet|extra byte|short \(|mismatch|(is|are) different|not set|can't print", "an answer is damaged"),
    (r"truncated", "an answer was truncated"),
    (r"^(Sending:|To |Sent )", "this is a query and no answer (do not use +qr)"),
    (r"communications error|no servers|timed out|timeout|too long|failed|can't (connect|send|receive)|ERROR", "a lookup failed"),
]
# Types that may stand beside an answer.
BESIDE = {"SOA", "NS", "DS", "NSEC", "NSEC3", "RRSIG", "A", "AAAA"}
CLOSED = "closed"  # in the place of a section: the answer may be at its end, and other lines may follow
OWN_LINES = "Leave an empty line between a pasted answer and lines of your own"


class LookupFault(Fault):
    """A lookup that failed, or may have failed."""

    def __init__(self, reason, line=None, hint=""):
        what_to_do = "look the name up again, and paste all lines of a good answer"
        super().__init__(f"{reason}, so it is not known which records there are: {what_to_do}{hint}", line)


class Answer:
    """One pasted answer, from its header on."""

    def __init__(self, line, status):
        self.line = line
        self.status = status
        self.flags = self.counts = self.question = None
        self.section = None
        self.sections = []
        self.records = collections.Counter()  # by section
        self.owners = []  # of each record of the answer section: the name, the line, and whether it tells of an alias
        self.aliases = {}  # name to its target
        self.properties = []  # the CAA data
        self.others = 0  # records of other types
        self.taken = set()  # the aliases and CAA records, to know them again
        self.authority = set()  # the types in the authority section
        self.zones = []  # the owners of the SOA records there

    def check(self):
        """At the end of the answer: all of it is there, and it is an answer."""
        if self.counts is None:
            raise LookupFault("the line with flags and counts is missing behind this header", self.line)
        announced, found = self.counts["ANSWER"], self.records["ANSWER"]
        if announced != found:
            hint = f". {OWN_LINES}" if found > announced else ""
            raise LookupFault(f"the header says ANSWER: {announced}, and {found} answer records follow", self.line, hint)
        # Of a name that came through aliases, the status is that of the last target (RFC 6604).
        if found and self.status == "NXDOMAIN" and (self.properties or self.others or not self.aliases):
            raise LookupFault("the status is NXDOMAIN (no such name), and records follow", self.line)
        if not found and "aa" not in self.flags and (self.is_referral() or not {"rd", "ra"} <= self.flags):
            raise LookupFault(
                "this is a referral: the server that answered is not in charge of the name (no flag aa), and did not ask others",
                self.line,
                ", from a resolver or from a server of the zone",
            )

    def is_referral(self):
        return self.authority & {"NS", "TYPE2"} and not self.authority & {"SOA", "TYPE6"}

    def name(self):
        """The name that was looked up; None where the answer does not show it."""
        if self.question is not None:
            return self.question
        return next((owner for owner, *_ in self.owners), None)

    def is_of_another_type(self):
        """Whether the records are those of a lookup for another type. It tells nothing about CAA records."""
        return bool(self.records["ANSWER"] and not self.properties and (self.others or not self.aliases))

    def chain(self):
        """The names from the one that was looked up to the last target. Each record of the answer must be for one of them."""
        names = chain_of(self.aliases, self.name())
        for owner, line, of_alias in self.owners:
            if owner not in names if of_alias else owner != names[-1]:
                raise Fault(
                    f"this record is for {name_text(owner)}, and the answer is for another name: leave pasted answers as they "
                    f"are, and write records of your own outside of them. {OWN_LINES}",
                    line,
                )
        return names

    def tells_none(self, name):
        """Of an answer without CAA records whose aliases end at `name`: whether it says that this name has none. A server
        follows aliases as far as it can (RFC 1034, section 3.6.2). One that is not in charge of the target, and asks nobody,
        stops there with NOERROR. One that knows that there is no record adds the SOA record of the target's zone (RFC 2308,
        section 3). Where only the count of that section is shown, the server must be a resolver."""
        if not self.aliases or self.status == "NXDOMAIN":
            return True
        if self.records["AUTHORITY"]:
            return any(name[max(0, len(name) - len(zone)) :] == zone for zone in self.zones)
        return {"rd", "ra"} <= self.flags and self.counts["AUTHORITY"] > 0


class RecordsReader:
    """Reads a records.txt line by line: records, and what dig, drill and kdig print around them. What could hide a failed
    lookup is a fault."""

    def __init__(self):
        self.number = 0
        self.items = Items("records", MAX_RECORDS, MAX_BOOK)
        self.answer = None
        self.begun = None  # of a lookup that has no header yet: line number and place in BEFORE_HEADER
        self.pasted = 0  # answers
        self.answers = {}  # name to its answer
        self.told = {}  # name to what answers say of it (its alias, or its CAA data), and the line
        self.taken = set()  # the aliases and CAA records of answers, to know them again
        self.unnamed = []  # answers without records that do not show the name that was looked up
        self.without = {}  # names with "CAA none", and the line
        self.owners = Owners()
        self.signatures = {}  # owner and type of the records that an RRSIG record is over, and the line

    def read(self, number, line):
        self.number = number
        text = line.lstrip(" \t")
        if not is_comment(line):
            self.record(line)
        elif not text:
            self.empty_line()
        elif text[0] == ";":
            self.comment(text)

    def end(self):
        """The text is at its end."""
        self.close()
        for (name, rr_type), line in self.signatures.items():
            if (name, rr_type) not in self.owners.first:
                word = next(word for word, number in TYPES.items() if number == rr_type)
                raise LookupFault(f"this signs the {word} records of {name_text(name)}, and none is here", line)
        for name, line in self.without.items():
            if (name, TYPE_CAA) in self.owners.first:
                raise Fault(f"this says none, and the file has CAA records of {name_text(name)}: take one of the two out", line)
            if (name, TYPE_CNAME) in self.owners.first:
                raise Fault(
                    f"this says none, and the file has a CNAME record of {name_text(name)}: take one of the two out. If the final "
                    "target of the alias has no CAA record, say none of the target",
                    line,
                )

    def close(self):
        """The answer that was read is at its end."""
        self.check_begun()
        answer, self.answer = self.answer, None
        if answer is None:
            return
        answer.check()
        self.pasted += 1
        if answer.question is not None and answer.is_of_another_type():
            raise LookupFault("the answer has records, and none is a CAA record", answer.line)
        if answer.name() is None:
            self.unnamed.append(answer)
            return
        names = answer.chain()
        self.taken |= answer.taken
        for name, target in answer.aliases.items():
            self.tell(name, target, answer)
        if answer.is_of_another_type():
            return
        self.answers.setdefault(answer.name(), answer)
        if names[-1] not in answer.aliases and (answer.properties or answer.tells_none(names[-1])):
            self.tell(names[-1], sorted(answer.properties), answer)

    def tell(self, name, what, answer):
        """Two answers say the same of a name: its target, or its CAA data."""
        before, line = self.told.setdefault(name, (what, answer.line))
        if before != what:
            raise Fault(
                f"{name_text(name)} is looked up a second time here, and its records are not those of the answer at line {line}: "
                "take the old answer out",
                answer.line,
            )

    def check_begun(self):
        if self.begun is not None:
            line, _ = self.begun
            raise LookupFault("a lookup begins here, and its answer has no header (->>HEADER<<-)", line)

    # -- Lines that are no records

    def empty_line(self):
        answer = self.answer
        if answer and answer.counts and (answer.records[answer.section] or answer.records["ANSWER"] == answer.counts["ANSWER"]):
            answer.section = CLOSED

    def comment(self, text):
        body = text.lstrip("; \t")
        if HEADER_MARK in text:
            self.header(text[text.index(HEADER_MARK) :])
        elif found := FLAGS_AND_COUNTS.fullmatch(body):
            self.flags_and_counts(found)
        elif found := SECTION.fullmatch(body):
            self.begin_section(found[1])
        elif self.answer and self.answer.section == "QUESTION" and self.answer.question is None:
            self.question(body)
        elif body.startswith("EDE:"):
            raise Fault(f"the resolver reports a problem with this answer ({body}): look the name up with another resolver")
        elif BEFORE_HEADER[1].match(body):
            self.before_header(1)
        elif WITHIN_ANSWER.match(body):
            self.need_header()
        elif text.startswith(";;") and body:
            self.program_line(body)

    def program_line(self, body):
        """A line that begins with ;; and is no part of an answer."""
        for place, form in enumerate(BEFORE_HEADER):
            if form.match(body):
                self.before_header(place)
                return
        if BEFORE_SECTIONS.match(body):
            self.need_header()
            return
        if BEHIND_SECTIONS.match(body):
            self.need_header()
            self.answer.section = CLOSED
            return
        for form, reason in FAILURES:
            if re.search(form, body, re.IGNORECASE):
                raise LookupFault(f"{reason} ({body})")
        raise Fault(
            f"this line is not known, and could tell of a failed lookup: {body}. If it is a comment of yours, begin it with # or "
            f"with one ;. If a program printed it, look the name up again with {LOOKUP}"
        )

    def need_header(self):
        if self.answer is None or self.begun is not None:
            raise LookupFault("the header (->>HEADER<<-) of this answer is missing")

    def before_header(self, place):
        """A line that a lookup begins with. An earlier lookup must have had its answer."""
        if self.begun is not None and place <= self.begun[1] and place != 0:
            self.check_begun()
        self.begun = (self.number if self.begun is None else self.begun[0], place)

    def header(self, text):
        self.begun = None
        self.close()
        found = HEADER.fullmatch(text)
        if found is None:
            raise LookupFault("this header is not in a form of dig, drill or kdig")
        opcode, status = found.groups()
        if opcode != "QUERY":
            raise Fault(f"this is no lookup (opcode {opcode}): use {LOOKUP}")
        if status not in ("NOERROR", "NXDOMAIN"):
            raise LookupFault(f"a lookup failed (status {status})")
        self.answer = Answer(self.number, status)

    def flags_and_counts(self, found):
        self.need_header()
        if self.answer.counts is not None:
            raise LookupFault("flags and counts stand here a second time: the header of another answer is missing")
        if found["flags"] is None:
            raise LookupFault("the flags of this answer are missing")
        flags = set(found["flags"].lower().split())
        if "tc" in flags:
            raise LookupFault("the answer was truncated (flag tc)", hint=" (by TCP: +tcp with dig and kdig, -t with drill)")
        if "qr" not in flags:
            raise Fault("this is a query and no answer (no flag qr): look the name up without +qr")
        if int(found["QUERY"]) != 1:
            raise LookupFault(f"an answer is to one question, and the header says QUERY: {found['QUERY']}")
        self.answer.flags = flags
        self.answer.counts = {name: int(found[name]) for name in ("ANSWER", "AUTHORITY", "ADDITIONAL")}

    def begin_section(self, name):
        self.need_header()
        if name in self.answer.sections:
            raise LookupFault(f"a second {name} SECTION stands here: the header of another answer is missing")
        self.answer.section = name
        if name:
            self.answer.sections.append(name)

    def question(self, body):
        """A name with class and type, behind QUESTION SECTION."""
        name, rest = field(body)
        words = rest.split()
        if len(words) not in (1, 2):
            raise LookupFault(f"this is no question of a lookup: {body}")
        rr_class = numbered("CLASS", words[0], {"IN": CLASS_IN}) if len(words) == 2 else CLASS_IN
        if (numbered("TYPE", words[-1], KNOWN_TYPES), rr_class) != (TYPE_CAA, CLASS_IN):
            raise Fault(f"this lookup was for {' '.join(words)}, and does not tell the CAA records: look {name} up with {LOOKUP}")
        self.answer.question = lower(labels_of(name))

    # -- Records

    def record(self, line):
        self.check_begun()
        answer = self.answer
        try:
            if answer is None or answer.section == CLOSED:
                self.own_record(line)
            elif answer.section in ("AUTHORITY", "ADDITIONAL"):
                self.record_beside(line)
            else:
                # kdig +noall +header +answer prints no section titles.
                answer.section = "ANSWER"
                self.answer_record(line)
        except Dname:
            raise
        except Fault as fault:
            raise Fault(no_record(line) or str(fault), fault.line) from None

    def own_record(self, line):
        head = head_of(line)
        if (head.rr_class, head.type_word.upper(), head.rest.lower()) == (CLASS_IN, "CAA", "none"):
            self.without[lower(head.labels)] = self.number
        elif not self.is_signature(head):
            self.add(record(line))

    def add(self, octets):
        """A record for the book. An alias beside a CAA record or another alias of the same owner is a fault."""
        labels, rr_type, rr_class, *_ = Reader(octets).record()
        if conflict := self.owners.conflict(labels, rr_type, rr_class, f"line {self.number}"):
            raise Fault(conflict)
        self.items.add(octets)

    def answer_record(self, line):
        answer = self.answer
        head = head_of(line)
        owner = lower(head.labels)
        answer.records["ANSWER"] += 1
        is_signature = self.is_signature(head)
        word = field(head.rest)[0] if is_signature else head.type_word
        answer.owners.append((owner, self.number, numbered("TYPE", word, TYPES) == TYPE_CNAME))
        if not is_signature:
            self.take(answer, owner, record(line))

    def take(self, answer, owner, octets):
        """A record of an answer. Of those that aliases lead to, each is taken once, however many answers have it."""
        _, rr_type, rr_class, _, data = Reader(octets).record()
        if not counts(rr_type, rr_class):
            answer.others += 1
            self.add(octets)
            return
        what = lower(target_of(data)) if rr_type == TYPE_CNAME else data
        this = (owner, rr_type, what)
        if this in answer.taken:
            raise LookupFault("an answer has no record twice, and this one is the same as one before it")
        answer.taken.add(this)
        if this not in self.taken or (rr_type == TYPE_CAA and owner == answer.name()):
            self.add(octets)
        if rr_type == TYPE_CNAME:
            answer.aliases[owner] = what
        else:
            answer.properties.append(data)

    def is_signature(self, head):
        """An RRSIG record over CAA or CNAME records says nothing more than they do."""
        if head.type_word.upper() != "RRSIG":
            return False
        covered, rest = field(head.rest)
        check_one_line(rest)
        number = numbered("TYPE", covered, KNOWN_TYPES)
        if number == TYPE_DNAME:
            raise Dname(f"RRSIG {covered}", name_text(head.labels))
        if number not in TYPES.values():
            raise Fault(f"a signature over {covered} records is not expected here; only CAA and CNAME records and their signatures are")
        self.signatures[lower(head.labels), number] = self.number
        return True

    def record_beside(self, line):
        """A record of the authority or the additional section: no answer, and passed over."""
        section = self.answer.section
        head = head_of(line)
        word = head.type_word.upper()
        number = numbered("TYPE", word, KNOWN_TYPES)
        check_one_line(head.rest)
        if number in TYPES.values() or (word not in BESIDE and number is None):
            raise Fault(f"a record of type {word or 'nothing'} is not expected in the {section} section. {OWN_LINES}")
        self.answer.records[section] += 1
        if self.answer.counts and self.answer.records[section] > self.answer.counts[section]:
            raise LookupFault(f"the header says {section}: {self.answer.counts[section]}, and more records follow")
        if section == "AUTHORITY":
            self.answer.authority.add(word)
            if word in ("SOA", "TYPE6"):
                self.answer.zones.append(lower(head.labels))


def check_one_line(data):
    if data.endswith("("):
        raise Fault("this record goes over several lines, which is not read: look the name up without +multiline")


def no_record(line):
    """The reason why a line is no record, where it has a form that people paste by mistake."""
    text = line.strip(" \t")
    if re.match(r"(.*[$#%>] *)?(\S*/)?(dig|kdig|drill|delv|host|nslookup)( |$)", text) or re.fullmatch(r"\S*[$#%>]", text):
        return "this is a command line, and no record: take it out, and paste only what the command prints"
    if re.match(r"(Error|Warning|dig|kdig|drill|host|nslookup)[:;] ", text):
        return str(LookupFault(f"a lookup failed ({text})"))
    if re.match(r"\d{1,3} [A-Za-z0-9]+ ", text) or re.fullmatch(r"\S+\.", text):
        return f"this looks like the output of dig +short or drill -Q, which leaves the name out: use {LOOKUP}"
    if re.match(r"- type: MESSAGE|\{|Using domain server|Server:\s|Name:\s|\*\* server|\S+ (has|is an alias)", text):
        return f"this form of output is not read: use {LOOKUP}"
    return None


def lower(labels):
    """The labels of a name for comparing."""
    return tuple(label.lower() for label in labels)


def records_in(octets):
    """The records in wire form, each as its fields."""
    reader = Reader(octets)
    while reader.at < len(octets):
        yield reader.record()


def caa_records(octets):
    """The CAA records among records in wire form."""
    for labels, rr_type, rr_class, ttl, data in records_in(octets):
        if (rr_type, rr_class) == (TYPE_CAA, CLASS_IN):
            yield labels, ttl, data


def aliases_in(octets):
    """The aliases among records in wire form: each owner with its target, for comparing."""
    return {
        lower(labels): lower(target_of(data))
        for labels, rr_type, rr_class, _, data in records_in(octets)
        if (rr_type, rr_class) == (TYPE_CNAME, CLASS_IN)
    }


def chain_of(aliases, name):
    """A name, its target, the target of that, and so on. The last has no alias, or its target came before."""
    names = {name: None}  # a dict, which finds a name faster than a list
    while name in aliases and aliases[name] not in names:
        name = aliases[name]
        names[name] = None
    return list(names)


def counts(rr_type, rr_class):
    """Whether the desk program reads the data of such a record."""
    return rr_class == CLASS_IN and rr_type in TYPES.values()


class Owners:
    """The owners of the records that count. An alias stands alone: beside a CAA record or another alias it is a conflict."""

    def __init__(self):
        self.first = {}  # owner and type to the place of the first such record

    def conflict(self, labels, rr_type, rr_class, place):
        """Takes a record, and gives the reason why it is in conflict with one before it; None where it is not."""
        if not counts(rr_type, rr_class):
            return None
        owner = lower(labels)
        reason = None
        for other in TYPES.values():
            if (owner, other) in self.first and TYPE_CNAME in (rr_type, other):
                what = "two CNAME records" if rr_type == other else "a CNAME record and a CAA record"
                reason = f"{name_text(labels)} has {what}: this one, and the one of {self.first[owner, other]}. {CONFLICT_ADVICE}"
        self.first.setdefault((owner, rr_type), place)
        return reason


# ---- Whether everything was looked up


def check_climbs(file, request, reader):
    """Looks for the CAA records of each requested name as the desk program does: at the name, then at each name above it, and
    where one is an alias at its final target. Where lookups were pasted, each name looked at must have been looked up. Returns
    notes for people."""
    owners = {lower(labels) for labels, *_ in caa_records(reader.items.octets)}
    aliases = aliases_in(reader.items.octets)
    known = set(reader.told) | set(reader.without)
    unknown, unrestricted, too_many, climbed = {}, {}, {}, set()
    for name in names_in(request):
        at = lower(name[1:] if name[0] == b"*" else name)
        while at:
            chain = chain_of(aliases, at)
            climbed.update(chain)
            if len(chain) > MAX_ALIASES + 1 or chain[-1] in aliases:
                too_many[lower(name)] = True
                break
            if chain[-1] in owners:
                break
            if chain[-1] not in known:
                unknown[chain[-1]] = at
            at = at[1:]
        climbed.update(at[place:] for place in range(len(at)))
        if not at:
            unrestricted[lower(name)] = True
    if reader.pasted and len(unknown) > len(reader.unnamed):
        unnamed = (
            f" (answers without records that do not show the name that was looked up: {len(reader.unnamed)}; use +question)"
            if reader.unnamed
            else ""
        )
        targets = [
            f"{name_text(target)} is the final target of {name_text(at)}{answered_at(reader, at)}, and no answer says whether it has "
            "CAA records. "
            for target, at in unknown.items()
            if target != at
        ]
        raise Fault(
            f"{file}: not looked up: {listed(unknown)}{unnamed}. {''.join(targets[:1])}The CAA records of a requested name are looked "
            "for at the name itself and at every name above it, up to the top-level domain, until a name has some: look each of "
            f"them up with {LOOKUP}, and paste the answers. For a name known to have no CAA record you can write: NAME CAA none"
        )
    if not reader.items.octets:
        return [f"{file}: there is no record in it, so the book restricts nothing"]
    notes = []
    if unrestricted:
        notes.append(f"{file}: no CAA record restricts these names, neither their own nor one above: {listed(unrestricted)}")
    if too_many:
        notes.append(f"{file}: more than {MAX_ALIASES} aliases follow one another, so nobody may issue (verdict 22): {listed(too_many)}")
    if owners - climbed:
        notes.append(f"{file}: these CAA records count for no requested name: {listed(sorted(owners - climbed))}")
    return notes


def answered_at(reader, name):
    """Where the answer for a name stands, if there is one."""
    return f" (line {reader.answers[name].line})" if name in reader.answers else ""


def names_in(request):
    reader = Reader(request)
    while reader.at < len(request):
        yield reader.name()


def listed(names, most=5):
    names = list(names)
    more = f" and {len(names) - most} more" if len(names) > most else ""
    return ", ".join(map(name_text, names[:most])) + more


# ---- Octets to text


def label_text(label):
    return "".join(octet_text(octet, '.\\"#;()@$') for octet in label)


def octet_text(octet, escaped):
    if not 33 <= octet <= 126:
        return f"\\{octet:03}"
    return "\\" + chr(octet) if chr(octet) in escaped else chr(octet)


def name_text(labels):
    return ".".join(map(label_text, labels)) or "."


def record_text(labels, rr_type, rr_class, ttl, data):
    of_class = "IN" if rr_class == CLASS_IN else f"CLASS{rr_class}"
    line = None
    if (rr_type, rr_class) == (TYPE_CAA, CLASS_IN):
        line = caa_text(data)
    if (rr_type, rr_class) == (TYPE_CNAME, CLASS_IN):
        line = alias_text(data)
    if line is None:
        line = f"TYPE{rr_type} \\# {len(data)} {data.hex().upper()}".rstrip()
    return f"{name_text(labels)} {ttl} {of_class} {line}"


def caa_text(data):
    """None where the data is malformed, and has no such text."""
    try:
        flags, tag, value = property_of(data)
    except Fault:
        return None
    quoted = "".join(" " if octet == 32 else octet_text(octet, '\\"') for octet in value)
    return f'CAA {flags} {tag.decode()} "{quoted}"'


def alias_text(data):
    """None where the data is malformed, and has no such text."""
    try:
        return f"CNAME {name_text(target_of(data))}"
    except Fault:
        return None


class Reader:
    """Takes parts off the front of octets."""

    def __init__(self, octets):
        self.octets = octets
        self.at = 0

    def take(self, count):
        part = self.octets[self.at : self.at + count]
        if len(part) < count:
            raise Fault(f"the file ends, and {count - len(part)} more octets should follow")
        self.at += count
        return part

    def number(self, size):
        return int.from_bytes(self.take(size), "big")

    def name(self):
        labels = []
        while length := self.number(1):
            if length > MAX_LABEL:
                raise Fault(f"a length octet of {length} for a label (compressed names are not read)")
            labels.append(self.take(length))
        if len(wire_name(labels)) > MAX_NAME:
            raise Fault(f"a name of {len(wire_name(labels))} octets; {MAX_NAME} are allowed")
        return labels

    def record(self):
        labels = self.name()
        rr_type, rr_class, ttl = self.number(2), self.number(2), self.number(4)
        return labels, rr_type, rr_class, ttl, self.take(self.number(2))


def shown(file, octets, item, what):
    """The text of each item. A fault is told with the file, the item's number and its place."""
    reader = Reader(octets)
    texts = []
    while reader.at < len(octets):
        begin = reader.at
        try:
            texts.append(item(reader))
        except Fault as fault:
            raise Fault(f"{file}: {what} {len(texts)}, at octet {begin}: {fault}") from None
    return texts


def names_shown(file, octets):
    return shown(file, octets, lambda reader: name_text(reader.name()), "name")


def records_shown(file, octets):
    return shown(file, octets, lambda reader: record_text(*reader.record()), "record")


def refused_records(file, octets):
    """Of records that can be shown, the reason for each whose data is malformed, and for each that is in conflict with one before
    it: the desk program refuses a book at the first malformed one, and else at the first conflict."""
    owners = Owners()
    conflicts = []
    for number, (labels, rr_type, rr_class, _, data) in enumerate(records_in(octets)):
        try:
            check_data(rr_type, rr_class, data)
        except Fault as fault:
            yield f"{file}: record {number} is refused: {fault}"
        if conflict := owners.conflict(labels, rr_type, rr_class, f"record {number}"):
            conflicts.append(f"{file}: record {number} is refused: {conflict}")
    yield from conflicts


# ---- Files and commands


def file_octets(path):
    try:
        if path == "-":
            if sys.stdin is None:
                raise Fault("-: standard input is closed")
            return sys.stdin.buffer.read()
        with open(path, "rb") as file:
            return file.read()
    except OSError as error:
        raise Fault(f"{path}: {error.strerror}") from None


def file_text(path, option):
    try:
        octets = file_octets(path)
    except Fault as fault:
        raise Fault(f"{fault}: give another file with {option}") from None
    if path == "-" and not octets:
        raise Fault("-: standard input is empty: did the command before it fail? To hand in no records, use an empty file")
    try:
        return octets.decode("utf-8-sig")
    except UnicodeDecodeError as error:
        line = octets[: error.start].count(b"\n") + 1
        hint = " (the file is in UTF-16)" if octets[:2] in (b"\xff\xfe", b"\xfe\xff") else ""
        raise Fault(f"{path}:{line}: octet {octets[error.start]} is not ASCII{hint}: save the file as plain text") from None


def same_input(one, other):
    """Whether two inputs are the same file, or both are standard input."""

    def status(path):
        return os.fstat(0) if path == "-" else os.stat(path)

    try:
        return one == other or os.path.samestat(status(one), status(other))
    except OSError:
        return False  # told when it is read


def make(options):
    names = options.names or os.path.join(options.folder, "names.txt")
    records = options.records or os.path.join(options.folder, "records.txt")
    if same_input(names, records):
        options.wrong_use(f"names and records are read from the same input ({names} and {records})")
    request, name_count = items_of(
        names, file_text(names, "--names"), lambda line: requested_name(line.strip(" \t")), "names", MAX_NAMES, MAX_REQUEST
    )
    if not request:
        raise Fault(f"{names}: there is no name in it: write one requested name to a line")
    book = book_of(records, file_text(records, "--records"))
    issuer = os.fsencode(options.issuer)
    try:
        check_issuer(issuer)
    except Fault as fault:
        raise Fault(f"--issuer {options.issuer}: {fault}") from None
    account, method = os.fsencode(options.account), os.fsencode(options.method)
    for option, check, text in [("account", check_account, account), ("method", check_method, method)]:
        try:
            check(text)
        except Fault as fault:
            raise Fault(f"--{option}: {fault}") from None
    notes = check_climbs(records, request, book)

    def announce():
        counts = f"names {name_count}, records {book.items.count}"
        print(f"{options.folder}: {counts}, issuer {options.issuer}, account {options.account}, method {options.method}")
        for note in notes:
            print(note)
        flush_output()

    files = {
        "request.bin": request,
        "issuer.txt": issuer,
        "account.txt": account,
        "method.txt": method,
        "book.bin": book.items.octets,
    }
    write_all(options.folder, files, options.force, announce)


def write_all(folder, files, force, announce):
    """Writes all files and announces it, or does nothing: the files are written under other names first, and renamed when all
    of them are there. On a fault the old files are put back. The last file, the book, is the first to go and the last to come, so
    that the desk program never finds a book beside another request."""
    paths = {file: os.path.join(folder, file) for file in files}
    for path in paths.values():
        if os.path.lexists(path) and not force:
            raise Fault(f"{path}: is there already; --force overwrites it")
        if os.path.isdir(path) and not os.path.islink(path):
            raise Fault(f"{path}: is a folder: move it away")
    token = secrets.token_hex(8)
    new = {file: os.path.join(folder, f".{file}.{token}.new") for file in files}
    old = {file: os.path.join(folder, f".{file}.{token}.old") for file in files}
    with contextlib.ExitStack() as undo:
        make_folder(folder, undo)
        for file, octets in files.items():
            undo.callback(undone, os.unlink, new[file])
            write_file(new[file], paths[file], octets)
        for file, path in reversed(paths.items()):
            undo.callback(undone, os.rename, old[file], path)
            if os.path.lexists(path):
                rename(path, old[file], path)
        for file, path in paths.items():
            undo.callback(undone, os.unlink, path)
            rename(new[file], path, path)
        announce()
        undo.pop_all()
    for path in old.values():
        undone(os.unlink, path)


def make_folder(folder, undo):
    missing = []
    while not os.path.lexists(folder or "."):
        missing.append(folder)
        folder = os.path.dirname(folder.rstrip(os.sep))
    if not os.path.isdir(folder or "."):
        raise Fault(f"{folder}: is not a folder")
    for path in reversed(missing):
        try:
            os.mkdir(path)
        except OSError as error:
            raise Fault(f"{path}: {error.strerror}") from None
        undo.callback(undone, os.rmdir, path)


def write_file(path, shown_path, octets):
    try:
        with open(os.open(path, os.O_WRONLY | os.O_CREAT | os.O_EXCL, 0o666), "wb") as file:
            file.write(octets)
            file.flush()
            os.fsync(file.fileno())
    except OSError as error:
        raise Fault(f"{shown_path}: {error.strerror}; nothing was written") from None


def rename(path, to, shown_path):
    try:
        os.rename(path, to)
    except OSError as error:
        raise Fault(f"{shown_path}: {error.strerror}; nothing was written") from None


def undone(step, path, *to):
    """Does a step of tidying up, where there is something to do. The other steps must be done even if this one fails."""
    try:
        if os.path.lexists(path):
            step(path, *to)
    except OSError as error:
        left = f"{path}: is left behind{f' and should be {to[0]}' if to else ''}: {error.strerror}"
        print(f"caa-files.py: {left}", file=sys.stderr)


def show(options):
    """Each file by itself, so that a fault in one doesn't hide the others."""
    faults = []
    for file, texts_of, what in [
        ("request.bin", names_shown, "name"),
        ("issuer.txt", text_shown(check_issuer), None),
        ("account.txt", text_shown(check_account), None),
        ("method.txt", text_shown(check_method), None),
        ("book.bin", records_shown, "record"),
    ]:
        path = os.path.join(options.folder, file)
        try:
            octets = file_octets(path)
            texts = texts_of(path, octets)
        except Fault as fault:
            faults.append(str(fault))
            continue
        print(f"{file}:" if texts else f"{file}: empty")
        for number, text in enumerate(texts):
            print(f"  {what} {number}: {text}" if what else f"  {text}")
        if what == "record":
            faults += refused_records(path, octets)
    if faults:
        raise Fault("\n".join(faults))


def text_shown(check):
    """Shows a file that holds one text, once it is checked."""

    def shown(path, octets):
        try:
            check(octets)
        except Fault as fault:
            raise Fault(f"{path}: {fault}") from None
        return [octets.decode()]

    return shown


def print_names(options):
    for text in names_shown(options.file, file_octets(options.file)):
        print(text)


def print_records(options):
    octets = file_octets(options.file)
    for text in records_shown(options.file, octets):
        print(text)
    if faults := list(refused_records(options.file, octets)):
        raise Fault("\n".join(faults))


class Parser(argparse.ArgumentParser):
    """Its help fails where standard output fails; argparse's own passes over that."""

    def print_help(self, file=None):
        print(self.format_help(), end="", file=file)


def arguments():
    parser = Parser(
        prog="caa-files.py",
        usage="caa-files.py make FOLDER --issuer NAME --account URI --method NAME\n"
        "                    [--names FILE] [--records FILE] [--force]\n"
        "       caa-files.py show FOLDER | names FILE | records FILE",
        description=__doc__,
        epilog=TEXT_FORM + EXIT_STATUS,
        formatter_class=argparse.RawDescriptionHelpFormatter,
    )
    commands = parser.add_subparsers(prog=parser.prog, required=True, metavar="COMMAND", help=argparse.SUPPRESS)

    def add(name, description, run, epilog=EXIT_STATUS):
        command = commands.add_parser(
            name,
            help=argparse.SUPPRESS,
            description=description,
            epilog=epilog,
            formatter_class=argparse.RawDescriptionHelpFormatter,
        )
        command.set_defaults(run=run, wrong_use=command.error)
        return command

    command = add(
        "make",
        "Writes request.bin, issuer.txt, account.txt, method.txt and book.bin to FOLDER: all five, or on any\nfault none.",
        make,
        TEXT_FORM + EXIT_STATUS,
    )
    command.add_argument("folder", metavar="FOLDER", help="where the five files go; it is made if it is missing")
    command.add_argument("--issuer", metavar="NAME", required=True, help="the CA's issuer domain name, such as ca1.example.net")
    command.add_argument(
        "--account", metavar="URI", required=True, help="the account that asks, such as https://ca1.example.net/acct/230123"
    )
    command.add_argument("--method", metavar="NAME", required=True, help="the validation method that was used, such as dns-01")
    command.add_argument("--names", metavar="FILE", help="the requested names (default: FOLDER/names.txt; - is standard input)")
    command.add_argument("--records", metavar="FILE", help="the records (default: FOLDER/records.txt; - is standard input)")
    command.add_argument("--force", action="store_true", help="overwrite the five files if they are there")

    command = add("show", "Shows the request.bin, issuer.txt, account.txt, method.txt and book.bin of FOLDER as text.", show)
    command.add_argument("folder", metavar="FOLDER", help="the folder that has the five files")

    for name, print_all, file in [("names", print_names, "request.bin"), ("records", print_records, "book.bin")]:
        command = add(name, f"Prints a {file} as a {name}.txt.", print_all)
        command.add_argument("file", metavar="FILE", help=f"a {file}; - is standard input")
    return parser


class Interrupted(BaseException):
    """A signal asks the program to end."""


def interrupted(number, _):
    raise Interrupted(signal.Signals(number).name)


def flush_output():
    """A fault of standard output is told here, and not when the program ends."""
    try:
        sys.stdout.flush()
    except OSError as error:
        # What could not be written must not be tried again.
        os.dup2(os.open(os.devnull, os.O_WRONLY), sys.stdout.fileno())
        raise Fault(f"standard output: {error.strerror}") from None


def run():
    if sys.stdout is None:
        raise Fault("standard output is closed")
    sys.stdout.reconfigure(errors="backslashreplace")
    try:
        options = arguments().parse_args()
        options.run(options)
    except OSError as error:
        # Other files' faults have been told: this is a long output that was written in parts.
        flush_output()
        raise Fault(f"standard output: {error.strerror}") from None
    finally:
        flush_output()


def main():
    for number in {signal.SIGINT, signal.SIGTERM, getattr(signal, "SIGHUP", signal.SIGTERM)}:
        if signal.getsignal(number) != signal.SIG_IGN:
            signal.signal(number, interrupted)
    try:
        run()
    except Fault as fault:
        sys.exit("\n".join(f"caa-files.py: {line}" for line in str(fault).split("\n")))
    except Interrupted as signal_name:
        sys.exit(f"caa-files.py: ended by {signal_name}")


if __name__ == "__main__":
    main()

"""Wire forms, the answers as the requirements number them, and a case as the program reads and prints it."""
from collections import namedtuple

FILL = ord("_")  # what every lent buffer holds before its call
TITLE_ROOM, SHOWN = 60, 64  # as in src/main.rt

Case = namedtuple("Case", "title call request issuer account method book room answer made")

# The account and the method of a case, if it tells no others. No record of such a case sets a limit.
ACCOUNT, METHOD = "https://ca1.example.net/account/1", "dns-01"


# Wire forms.

def octets(text):
    """Text with one octet for each character."""
    return text if isinstance(text, bytes) else text.encode("latin-1")


def labels(*lengths, of="a"):
    """A name whose labels have these lengths."""
    return b"".join(bytes([n]) + octets(of) * n for n in lengths) + b"\0"


def name(text):
    """A name in wire form; `` is the root."""
    return b"".join(bytes([len(label)]) + octets(label) for label in text.split(".") if text) + b"\0"


def names(*texts):
    return b"".join(map(name, texts))


def number(n, width=3):
    return n.to_bytes(width, "big")


def record(owner, rtype, rclass, data, ttl=3600, length=None):
    """A record; its data length can be told wrongly."""
    owner = owner if isinstance(owner, bytes) else name(owner)
    told = len(data) if length is None else length
    return owner + number(rtype, 2) + number(rclass, 2) + number(ttl, 4) + number(told, 2) + data


def data(flags, tag, value=""):
    return bytes([flags, len(tag)]) + octets(tag) + octets(value)


def caa(owner, flags, tag, value=""):
    return record(owner, 257, 1, data(flags, tag, value))


def cname(owner, target):
    """An alias."""
    return record(owner, 5, 1, name(target))


def issue(owner, value):
    return caa(owner, 0, "issue", value)


def issuewild(owner, value):
    return caa(owner, 0, "issuewild", value)


# Answers: number, a, b, c.

PERMITTED = (0, 0, 0, 0)
ANYONE = (30, 0, 0, 0)


# "the number of labels taken off X to reach it (where aliases were followed, to reach the name they start from), 0 at X itself"

def critical(name_number, record_number, labels_off):
    return (20, name_number, record_number, labels_off)


def not_granted(name_number, record_number, labels_off):
    return (21, name_number, record_number, labels_off)


def too_many_aliases(name_number, record_number, labels_off):
    return (22, name_number, record_number, labels_off)


def refused(number_, place):
    return (number_, place, 0, 0)


# Cases of the four calls. Where no room is told, it is three octets more than what is made, and enough for a list of one or for the data
# of a short line where nothing is.

def room_for(made):
    return len(made) + 3 if made else 20


def judge(title, request, issuer, book, answer, account=ACCOUNT, method=METHOD):
    return Case(title, 1, request, octets(issuer), octets(account), octets(method), book, 0, answer, b"")


def listed(title, request, book, answer, room=None, account=ACCOUNT, method=METHOD):
    """The answer is ANYONE, a refusal, or the listed names: "each permitted issuer name as one length octet and the name"."""
    made = b""
    if isinstance(answer, list):
        made = b"".join(bytes([len(n)]) + octets(n) for n in answer)
        answer = (31, len(made), len(answer), 0)
    return Case(title, 2, request, b"", octets(account), octets(method), book, room_for(made) if room is None else room, answer,
                made)


def asked(title, request, book, answers, who):
    """Each issuer's verdict, and who may issue."""
    return [judge(f"{title} by {issuer}", request, issuer, book, answer) for issuer, answer in answers.items()] + [
        listed(title, request, book, who)]


def of_line(title, call, given, answer, room):
    made = b""
    if not isinstance(answer, tuple):
        made = octets(answer)
        answer = (0, len(made), 0, 0)
    return Case(title, call, octets(given), b"", b"", b"", b"", room_for(made) if room is None else room, answer, made)


def write(title, data_, answer, room=None):
    """The answer is the line or a refusal."""
    return of_line("write: " + title, 3, data_, answer, room)


def read(title, line, answer, room=None):
    """The answer is the data or a refusal."""
    return of_line("read: " + title, 4, line, answer, room)


# The program's input and output.

def part(s):
    return number(len(s)) + s


def case_octets(case):
    assert len(case.title) <= TITLE_ROOM, case.title
    return (part(octets(case.title)) + number(case.call) + part(case.request) + part(case.issuer) + part(case.account)
            + part(case.method) + part(case.book) + number(case.room))


def shown(octet):
    return chr(octet) if 32 <= octet <= 126 and octet != 92 else f"\\{octet:02x}"


def buffer_text(case):
    """What was made, then the rest as it was: the front as text, and a checksum of all."""
    buffer = case.made + bytes([FILL]) * (case.room - len(case.made))
    assert len(buffer) == case.room, case.title
    checksum = 0
    for octet in buffer:
        checksum = (checksum * 31 + octet) % 2**32
    front = "".join(map(shown, buffer[:SHOWN])) + (".." if len(buffer) > SHOWN else "")
    return f" [{front}] {checksum:08x}"


def case_line(case):
    text = "{}: {} {} {} {}".format(case.title, *case.answer)
    return octets(text + (buffer_text(case) if case.call != 1 else "") + "\n")

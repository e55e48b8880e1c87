"""Both sides of every limit of a request, an issuer name and a book, and every way to break their rules. Quoted: the requirements."""
from .forms import ANYONE, PERMITTED, caa, critical, data, issue, judge, labels, listed, name, not_granted, record, refused

CA1 = "ca1.example.net"
X = name("x")
cases = []


def request(title, octets, answer, book=b""):
    """The verdict on a request, and who may issue: a refusal is the same for both."""
    cases.append(judge(f"request: {title}", octets, CA1, book, answer))
    cases.append(listed(f"request: {title}, list", octets, book, answer if answer[0] else ANYONE))


# "each label a length octet 1 to 63 and its octets"
request("a label of 63", labels(63, 3), PERMITTED)
request("a label of 64", labels(64, 3), refused(2, 0))
request("a label of 64 in the third name", labels(63) + labels(3, 3) + labels(3, 64), refused(2, 2))
request("a length octet of C0", b"\xc0\x00", refused(2, 0))

# "A name is at most 255 octets with that zero": 64 + 64 + 64 + 62 + 1
at_most, over = labels(63, 63, 63, 61), labels(63, 63, 63, 62)
assert (len(at_most), len(over)) == (255, 256)
request("a name of 255", at_most, PERMITTED)
request("a name of 256", over, refused(2, 0))
request("a name of 256, the second", at_most + over, refused(2, 1))
request("a name of 255, many labels", labels(*[1] * 127), PERMITTED)
request("a name of 256, many labels", labels(*[1] * 126 + [2]), refused(2, 0))
# the star and its length octet count
star_at_most, star_over = b"\1*" + labels(63, 63, 63, 59), b"\1*" + labels(63, 63, 63, 60)
assert (len(star_at_most), len(star_over)) == (255, 256)
request("a star name of 255", star_at_most, PERMITTED)
request("a star name of 256", star_over, refused(2, 0))
# names of 255 are looked up whole
book = issue(at_most, CA1) + issue(star_at_most[2:], CA1)
for title, octets, rr in ("a name of 255", at_most, 0), ("a star name of 255", star_at_most, 1):
    cases.append(judge(f"looked up: {title}", octets, "x.example", book, not_granted(0, rr, 0)))
    cases.append(listed(f"looked up: {title}, list", octets, book, [CA1]))

# "250 names"; octets that remain after 250 good ones are refusal 3 at 250
book = issue("z", CA1)
request("250 names", X * 250, PERMITTED)
request("251 names", X * 251, refused(3, 250))
request("an octet after 250 names", X * 250 + b"\x40", refused(3, 250))
request("a bad 250th name", X * 249 + b"\0", refused(2, 249))
request("a bad name after 250", X * 250 + b"\0", refused(3, 250))
# 100 names were the limit before
request("100 names", X * 100, PERMITTED)
request("101 names", X * 101, PERMITTED)
for count in 101, 250:
    title, octets = f"request: name {count - 1} decides", X * (count - 1) + name("z")
    cases.append(judge(title, octets, "x.example", book, not_granted(count - 1, 0, 0)))
    cases.append(listed(f"{title}, list", octets, book, [CA1]))

# "16,384 request octets": 64 names of 255 and one of 64, or of 65
request("16,384 octets", at_most * 64 + labels(62), PERMITTED)
request("16,385 octets", at_most * 64 + labels(63), refused(1, 0))
cases.append(judge("request: 16,384 zeros", b"\0" * 16384, CA1, b"", refused(2, 0)))
cases.append(listed("request: 16,385 zeros", b"\0" * 16385, b"", refused(1, 0)))
# 8,192 octets were the limit before: 32 names of 255 and one of 32, or of 33
request("8,192 octets", at_most * 32 + labels(30), PERMITTED)
request("8,193 octets", at_most * 32 + labels(31), PERMITTED)
# 251 names of 66 are over both limits
cases.append(judge("request: 251 names in 16,566 octets", labels(62, 1) * 251, CA1, b"", refused(1, 0)))

# "request empty, or a name breaks a rule": "name number (0 if empty)"
request("empty", b"", refused(2, 0))
request("the root", b"\0", refused(2, 0))  # "The root by itself is no name"
request("the root behind a name", X + b"\0", refused(2, 1))
request("a star alone", name("*"), refused(2, 0))  # "nor is `*` with only the root after it"
request("a star before one label", name("*.x"), PERMITTED)
request("a star in the second label", name("x.*.x"), refused(2, 0))  # "The first label alone"
request("two stars", name("*.*.x"), refused(2, 0))
request("a star in a longer label", name("*a.x"), refused(2, 0))  # "the single octet `*`"
request("a hyphen inside", name("a-b.c--d"), PERMITTED)
request("a hyphen first", name("-a.x"), refused(2, 0))  # "neither begins nor ends with a hyphen"
request("a hyphen last", name("a-.x"), refused(2, 0))
request("a hyphen alone", name("-"), refused(2, 0))
request("letters and digits", name("AZaz09"), PERMITTED)
for octet in "_", "/", ":", "@", "[", "`", "{", " ", "\0", "\x7f", "\xc1":  # beside the letters, digits and hyphens
    request(f"octet {ord(octet):02x} in a label", name("a" + octet + "b"), refused(2, 0))
request("without its zero", X[:-1], refused(2, 0))  # "each name closed by a zero octet"
request("cut inside a label", X + b"\3ab", refused(2, 1))
request("a dotted text", b"x.example", refused(2, 0))

# The request is told apart by names: a fault in the second name behind a restricted one is still a refusal.
request("a fault behind a good name", name("z") + name("-"), refused(2, 1), issue("z", CA1))


def issuer(title, text, answer, book=b""):
    cases.append(judge(f"issuer: {title}", X, text, book, answer))


# "text, labels joined by dots, 1 to 253 octets": 63 + 1 + 63 + 1 + 63 + 1 + 61
at_most, over = ".".join(["a" * 63] * 3 + ["a" * 61]), ".".join(["a" * 63] * 3 + ["a" * 62])
assert (len(at_most), len(over)) == (253, 254)
issuer("253 octets", at_most, PERMITTED)
issuer("254 octets", over, refused(4, 0))
issuer("253 octets, granted", at_most, PERMITTED, issue("x", at_most))
issuer("253 octets, not granted", at_most, not_granted(0, 0, 0), issue("x", at_most[:-1] + "b"))
issuer("1 octet", "a", PERMITTED)
issuer("empty", "", refused(4, 0))
issuer("a label of 63", "a" * 63 + ".net", PERMITTED)  # "each label 1 to 63"
issuer("a label of 64", "a" * 64 + ".net", refused(4, 0))
issuer("a last label of 64", "net." + "a" * 64, refused(4, 0))
issuer("a closing dot", CA1 + ".", refused(4, 0))  # "no closing dot"
issuer("a dot first", "." + CA1, refused(4, 0))
issuer("two dots", "ca1..net", refused(4, 0))
issuer("a dot alone", ".", refused(4, 0))
issuer("a hyphen inside", "c--a.ex-ample", PERMITTED)
issuer("a hyphen first", "-ca.example", refused(4, 0))  # "under the same hyphen rule"
issuer("a hyphen last in a label", "ca-.example", refused(4, 0))
issuer("a hyphen last", "ca.example-", refused(4, 0))
issuer("a star", "*.example", refused(4, 0))
issuer("a blank before", " " + CA1, refused(4, 0))
issuer("a blank behind", CA1 + " ", refused(4, 0))
issuer("a line end", CA1 + "\n", refused(4, 0))  # "a line end in `issuer.txt` is refusal 4"
issuer("an underscore", "ca_1.example", refused(4, 0))
issuer("an octet over 127", "ca\xe9.example", refused(4, 0))
issuer("in large letters", "CA1.EXAMPLE.NET", PERMITTED, issue("x", CA1))


def book_of(title, octets, answer, requested=X):
    """The verdict on a book that grants CA1 at most, and who may issue: a refusal is the same for both."""
    cases.append(judge(f"book: {title}", requested, "x.example", octets, answer))
    who = {0: ANYONE, 21: [CA1]}.get(answer[0], answer)
    cases.append(listed(f"book: {title}, list", requested, octets, who))


txt = record("y", 16, 1, b"\0")
last = issue("x", CA1)

book_of("empty", b"", PERMITTED)  # "An empty book is good."

# "1,024 records"; octets that remain after 1,024 good ones are refusal 7 at 1,024
least = record("", 1, 1, b"")  # 11 octets
book_of("1,024 records", least * 1023 + last, not_granted(0, 1023, 0))
book_of("1,025 records", least * 1024 + last, refused(7, 1024))
book_of("1,024 CAA records", caa("y", 0, "issue") * 1024, PERMITTED)
cases.append(judge("book: 1,025 CAA records", X, CA1, caa("y", 0, "issue") * 1025, refused(7, 1024)))
book_of("an octet after 1,024 records", least * 1024 + b"\0", refused(7, 1024))
book_of("a bad 1,024th record", least * 1023 + b"\x40", refused(6, 1023))
book_of("a bad record after 1,024", least * 1024 + b"\x40", refused(7, 1024))
cases.append(judge("book: record 1,023 is critical", X, CA1, least * 1023 + caa("x", 128, "tbs"), critical(0, 1023, 0)))
cases.append(listed("book: record 1,023 is critical, list", X, last + least * 1022 + caa("x", 128, "tbs"), []))
# 256 records were the limit before
book_of("256 records", txt * 255 + last, not_granted(0, 255, 0))
book_of("257 records", txt * 256 + last, not_granted(0, 256, 0))
book_of("257 CAA records", caa("y", 0, "issue") * 257, PERMITTED)


def of_octets(n):
    """A book of n octets: a record of the root that fills it up to the last one."""
    return record("", 16, 1, b"a" * (n - len(last) - 11)) + last


# "49,152 book octets"
cases.append(judge("book: 49,152 octets", X, "x.example", of_octets(49152), not_granted(0, 1, 0)))
cases.append(judge("book: 49,153 octets", X, CA1, of_octets(49153), refused(5, 0)))
cases.append(judge("book: 49,152 octets, badly laid out", X, CA1, b"\xff" * 49152, refused(6, 0)))
cases.append(listed("book: 49,153 octets, badly laid out", X, b"\xff" * 49153, refused(5, 0)))
# 32,768 octets were the limit before
book_of("32,769 octets", of_octets(32769), not_granted(0, 1, 0))

# All four limits at once, and the last name is governed by the last record. 250 names of 65 octets take 16,250, and 134 of them have one
# octet more; 1,024 records of 48 octets.
full = labels(62, 1) * 133 + labels(63) * 116 + labels(62, 1, of="b")
one, other = "ca01.authorities.example.net", "ca02.authorities.example.net"
full_book = issue("y", one) * 1023 + issue("b", other)
assert (len(full), len(full_book)) == (16384, 49152)
cases.append(judge("the largest request and book", full, one, full_book, not_granted(249, 1023, 1)))
cases.append(listed("the largest request and book, list", full, full_book, [other]))

# "Owner labels may hold any octets; a length octet above 63 is a fault; an owner is at most 255 octets and may be the root."
book_of("an owner's label of 63", record(labels(63), 16, 1, b"") + last, not_granted(0, 1, 0))
book_of("an owner's label of 64", record(labels(64), 16, 1, b"") + last, refused(6, 0))
book_of("an owner of 255", record(labels(63, 63, 63, 61), 16, 1, b"") + last, not_granted(0, 1, 0))
book_of("an owner of 256", record(labels(63, 63, 63, 62), 16, 1, b"") + last, refused(6, 0))
book_of("a CAA owner of 255", issue(labels(63, 63, 63, 61), CA1), not_granted(0, 0, 0), labels(63, 63, 63, 61))
book_of("a CAA owner of 256", issue(labels(63, 63, 63, 62), CA1), refused(6, 0), labels(63, 63, 63, 61))
book_of("an owner of 255, many labels", issue(labels(*[1] * 127), CA1), not_granted(0, 0, 0), labels(*[1] * 127))
book_of("the root's owner", issue("", CA1), PERMITTED)
book_of("owners of any octets", record(b"\4\0-*.\0", 16, 1, b"") + issue(b"\2\xff_\1x\0", CA1) + last, not_granted(0, 2, 0))
book_of("compression", record(b"\xc0\x0c", 16, 1, b"") + last, refused(6, 0))  # "without compression"
book_of("an owner without its zero", b"\1y", refused(6, 0))

# A record cut short anywhere "is laid out wrongly"; the place is the record's number.
for cut in 1, 4, 5, 7, 12, 13:  # in the owner, the type, the class, the time to live, before the data length and inside it
    book_of(f"the second record cut after {cut}", txt + record("y", 16, 1, b"ab")[:cut], refused(6, 1))
book_of("data cut short", txt + record("y", 16, 1, b"ab", length=3), refused(6, 1))
book_of("no data", record("y", 16, 1, b"") + last, not_granted(0, 1, 0))
book_of("a data length of FFFF", record("y", 16, 1, b"ab", length=0xFFFF), refused(6, 0))
book_of("an octet behind the records", txt + last + b"\0", refused(6, 2))

# "It is a fault if the data has fewer than 2 octets, if n is 0, or if n + 2 exceeds the data length."
for title, octets in (
    ("CAA data of 0 octets", b""),
    ("CAA data of 1 octet", b"\0"),
    ("a tag length of 0", b"\0\0"),
    ("a tag length of 0 and a value", b"\0\0issue"),
    ("a tag one longer than the data", b"\0\x06issue"),
    ("a tag length of 255", b"\0\xffissue"),
):
    book_of(title, txt + record("y", 257, 1, octets) + last, refused(6, 1))
    book_of(title + ", class 3", txt + record("y", 257, 3, octets) + last, not_granted(0, 2, 0))  # "passed over"
book_of("a tag that fills the data", record("y", 257, 1, b"\0\5issue") + last, not_granted(0, 1, 0))
book_of("a tag of 255", caa("y", 128, "a" * 255) + last, not_granted(0, 1, 0))
book_of("data of CAA's least length", record("y", 257, 1, b"\0\1i") + last, not_granted(0, 1, 0))
# a tag octet that is no letter or digit, in any place of the tag; the value and other classes may have any
for octet in "-", "_", " ", "/", ":", "@", "[", "`", "{", "\0", "\x7f", "\x80", "\xff":
    book_of(f"octet {ord(octet):02x} last in a tag", txt + caa("y", 0, "is" + octet, "a") + last, refused(6, 1))
book_of("octet 5f first in a tag", txt + caa("y", 0, "_is") + last, refused(6, 1))
book_of("octet 5f alone in a tag", txt + caa("y", 0, "_") + last, refused(6, 1))
book_of("octet 5f last in a tag of 255", txt + caa("y", 128, "a" * 254 + "_") + last, refused(6, 1))
book_of("octet 5f in a tag, class 3", txt + record("y", 257, 3, data(128, "tb_s")) + last, not_granted(0, 2, 0))
book_of("octet 5f in a tag, type 256", txt + record("y", 256, 1, data(128, "tb_s")) + last, not_granted(0, 2, 0))
book_of("letters and digits in a tag", txt + caa("y", 128, "09AZaz", "_-/:@[`{\0\xff") + last, not_granted(0, 2, 0))
book_of("octet 5f behind a tag", txt + caa("y", 0, "is", "_") + last, not_granted(0, 2, 0))
# "Reading stops at the first fault."
book_of("a fault before 1,025 records", b"\x40" + least * 1024, refused(6, 0))
book_of("two faults", txt + record("y", 257, 1, b"") + record("y", 257, 1, b""), refused(6, 1))
cut, wrong = txt[:5], record("y", 257, 1, b"\0")
book_of("wrong CAA data, then a record cut off", wrong + cut, refused(6, 0))
book_of("a record, wrong CAA data, then one cut off", txt + wrong + cut, refused(6, 1))
book_of("a record, then one cut off", txt + cut, refused(6, 1))
tagged = caa("y", 128, "tb_s")
book_of("a record, a wrong tag, then one cut off", txt + tagged + cut, refused(6, 1))
book_of("a wrong tag in the 1,024th record", least * 1023 + tagged, refused(6, 1023))
book_of("a wrong tag after 1,024 records", least * 1024 + tagged, refused(7, 1024))
book_of("a record cut off and nothing else", cut, refused(6, 0))

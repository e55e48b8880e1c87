"""The whole case, the edges that the requirements mark P, their shortcuts, and the rule of issue. Quoted: the requirements."""
from .forms import (ANYONE, PERMITTED, asked, caa, critical, data, issue, issuewild, judge, labels, listed, name, names, not_granted, read,
                    record, refused)

CA1, CA2 = "ca1.example.net", "ca2.example.org"
WWW = name("www.example.com")
cases = []

# The whole case: "For `www.example.com` the list has count 2 and 32 octets: 0F 63 .. 67. With `pay.example.com` added to the request,
# count 1 and the last 16 of these." and "`verdict 21 name 1 record 3`".
book = (issue("example.com", "CA1.example.net") + issue("example.com", "ca2.example.org; account=230123")
        + issue("example.com", CA1) + issue("pay.example.com", CA2))
printed = bytes.fromhex("0F 63 61 31 2E 65 78 61 6D 70 6C 65 2E 6E 65 74 0F 63 61 32 2E 65 78 61 6D 70 6C 65 2E 6F 72 67")
pay = names("www.example.com", "pay.example.com")
cases += asked("whole case, www", WWW, book, {CA1: PERMITTED, CA2: PERMITTED, "ca3.example.com": not_granted(0, 0, 1)}, [CA1, CA2])
assert cases[-1].made == printed
cases += asked("whole case, www and pay", pay, book, {CA1: not_granted(1, 3, 0), CA2: PERMITTED}, [CA2])
assert cases[-1].made == printed[16:]

# P, values. "optional blanks (space, tab); optionally a name and blanks; optionally `;`, blanks, and optionally parameters and blanks."
grants = [
    CA1,
    "CA1.Example.NET",  # "`A` to `Z` counting as `a` to `z`"
    " \tca1.example.net",
    "ca1.example.net \t",
    "ca1.example.net;",  # P
    "ca1.example.net ; ",
    "ca1.example.net; a=",  # P
    "ca1.example.net; a=1",
    "ca1.example.net;a=1",
    "ca1.example.net; a \t= \t1 \t",  # "A parameter is a tag, blanks, `=`, blanks, a value."
    "ca1.example.net; a=1 ; b=2;c=3",  # "joined by `;` with blanks allowed around it"
    "ca1.example.net; A9z=!~:<==",  # "zero or more octets 33 to 126 except `;`"
    "ca1.example.net; cert-tier=gold",  # "That value now grants"
    "ca1.example.net; a-b=1",  # "hyphens between letters and digits"
    "ca1.example.net; a--b-0 =1",
    "ca1.example.net; a=1; b-c=2",
]
nobody = [
    "",  # P
    ";",  # P
    " \t",
    " ; \t",
    "; a=1",  # "or holds no name"
    "%%%%%",  # P
    "ca1.example.net; a=1;",  # P, "no `;` follows the last one"
    "ca1.example.net;;",
    "ca1.example.net; ;a=1",
    "ca1.example.net.",  # P
    ".ca1.example.net",
    "ca..net",  # P, "labels joined by single dots"
    "-ca1.example.net",  # "each of letters, digits and inner hyphens"
    "ca1.example.net-",
    "ca1.-example.net",
    "ca1-.example.net",
    "ca1_.example.net",
    "ca1.example.net,ca2.example.org",
    "ca1.example.net ca1.example.net",
    "ca1.example.net a=1",
    "ca1.example.net; a",
    "ca1.example.net; =1",
    "ca1.example.net; a=1 2",
    "ca1.example.net; a b=1",
    "ca1.example.net; a=\x7f",  # the value ends at 126
    "ca1.example.net; a=\x80",
    "ca1.example.net; a=\x1f",
    "ca1.example.net; a_=1",  # "A parameter tag is one or more letters and digits", and by Q-2 hyphens between them
    "ca1.example.net; -t=1",  # "`-t=1` and `t-=1` still don't fit"
    "ca1.example.net; t-=1",
    "ca1.example.net; -=1",  # "never first or last"
    "ca1.example.net; t- =1",
    "ca1.example.net; a -b=1",
    "ca1.example.net; a=1; -b=2",
    "ca1.example.net; a=1; b-=2",
    "; cert-tier=gold",  # "or holds no name"
    "ca1.example.net\n",  # a blank is space or tab
    "ca1.example.net\0",
    '"ca1.example.net"',
]
for value in grants:
    cases += asked(f"value {value!a}", WWW, issue("example.com", value), {CA1: PERMITTED, CA2: not_granted(0, 0, 1)}, [CA1])
for value in nobody:
    cases += asked(f"value {value!a}", WWW, issue("example.com", value), {CA1: not_granted(0, 0, 1)}, [])
cases += asked("value of inner hyphens", WWW, issue("example.com", "c--a-1.net"), {"c--a-1.net": PERMITTED}, ["c--a-1.net"])
tier = issuewild("example.com", "ca1.example.net; cert-tier=gold")
cases += asked("issuewild, a hyphen in a tag", name("*.example.com"), tier, {CA1: PERMITTED, CA2: not_granted(0, 0, 0)}, [CA1])
tier = issuewild("example.com", "ca1.example.net; cert-tier-=gold")
cases += asked("issuewild, a hyphen last in a tag", name("*.example.com"), tier, {CA1: not_granted(0, 0, 0)}, [])
cases += asked("value of one label", WWW, issue("example.com", "Ca"), {"cA": PERMITTED}, ["ca"])

# "or holds one beyond the issuer-name limits above, grants nobody, and still governs": a name of 253 octets, a label of 63
for title, good, bad in (
    ("253 and 254 octets", ".".join(["a" * 63] * 3 + ["a" * 61]), ".".join(["a" * 63] * 3 + ["a" * 62])),
    ("a label of 63 and 64", "a" * 63 + ".net", "a" * 64 + ".net"),
):
    book = issue("example.com", good)
    cases += [
        judge(f"value, {title}: the first", WWW, good, book, PERMITTED),
        listed(f"value, {title}: the first lists", WWW, book, [good]),
    ]
    cases += asked(f"value, {title}: the second", WWW, issue("example.com", bad), {CA1: not_granted(0, 0, 1)}, [])

# P: "an `issuewild "ca2.example.org"` set alone leaves X open to anyone and `*.X` to ca2 only"
book = issuewild("example.com", CA2)
cases += asked("issuewild alone, X", name("example.com"), book, {CA1: PERMITTED, CA2: PERMITTED}, ANYONE)
cases += asked("issuewild alone, *.X", name("*.example.com"), book, {CA1: not_granted(0, 0, 0), CA2: PERMITTED}, [CA2])

# P: "an `iodef` set alone opens its name though the parent restricts"; the shortcut "Climbing past a set that holds only `iodef`"
book = issue("example.com", CA1) + caa("www.example.com", 0, "iodef", "mailto:a@example.com")
cases += asked("iodef alone, below a restricted name", WWW, book, {CA2: PERMITTED}, ANYONE)
cases += asked("iodef alone, star", name("*.www.example.com"), book, {CA2: PERMITTED}, ANYONE)
cases += asked("iodef alone, its parent", name("example.com"), book, {CA1: PERMITTED, CA2: not_granted(0, 0, 0)}, [CA1])

# P: "`128 tbs "Unknown"` forbids; P: `127 tbs "Unknown"` doesn't"; the shortcut "Testing the bit worth 1 for critical". "The critical
# flag is the bit worth 128; the other seven mean nothing."
for flags in 128, 129, 255:
    cases += asked(f"flags {flags}, unknown tag", WWW, caa("example.com", flags, "tbs", "Unknown"), {CA1: critical(0, 0, 1)}, [])
for flags in 0, 1, 127:
    cases += asked(f"flags {flags}, unknown tag", WWW, caa("example.com", flags, "tbs", "Unknown"), {CA1: PERMITTED}, ANYONE)
# "The known tags are `issue`, `issuewild` and `iodef`, letter case ignored."
book = caa("example.com", 128, "ISSUE", CA1) + caa("example.com", 255, "IssueWild", CA2) + caa("example.com", 128, "ioDef", "x")
cases += asked("flags 128, known tags, X", WWW, book, {CA1: PERMITTED, CA2: not_granted(0, 0, 1)}, [CA1])
cases += asked("flags 128, known tags, *.X", name("*.example.com"), book, {CA1: not_granted(0, 1, 0), CA2: PERMITTED}, [CA2])
for tag in "issu", "issuee", "issuewil", "iode", "iodeff", "i", "T0Z", "5":
    cases += asked(f"unknown tag {tag!a}", WWW, caa("example.com", 128, tag, CA1), {CA1: critical(0, 0, 1)}, [])
    cases += asked(f"unknown tag {tag!a}, not critical", WWW, caa("example.com", 0, tag, CA1), {CA2: PERMITTED}, ANYONE)
# a tag octet that is no letter or digit refuses the book at that record, critical or not.
for tag in "tb_s", "\xc9ssue", "issue ", "is-sue":
    cases += asked(f"tag {tag!a}", WWW, caa("example.com", 128, tag, CA1), {CA1: refused(6, 0)}, refused(6, 0))
    cases += asked(f"tag {tag!a}, not critical", WWW, caa("example.com", 0, tag, CA1), {CA2: refused(6, 0)}, refused(6, 0))
book = issue("example.com", CA1) + caa("elsewhere.example", 128, "tb_s")
cases += asked("tag tb_s at an owner nobody asks for", WWW, book, {CA1: refused(6, 1)}, refused(6, 1))
book = issue("example.com", CA1) + caa("", 0, "tb_s")
cases += asked("tag tb_s of the root", WWW, book, {CA1: refused(6, 1)}, refused(6, 1))

# P: "`256` is no flags field"
cases += [read("256 is no flags field", "256 issue x", refused(9, 0)), read("255 is a flags field", "255 issue x", data(255, "issue", "x"))]

# Shortcut: "Comparing ends: `notca1.example.net` isn't `ca1.example.net`; `badexample.com` isn't under `example.com`."
book = issue("example.com", CA1)
cases += asked("ends of issuers", WWW, book, {"not" + CA1: not_granted(0, 0, 1), "a1.example.net": not_granted(0, 0, 1)}, [CA1])
cases += asked("ends of issuers, turned", WWW, issue("example.com", "not" + CA1), {CA1: not_granted(0, 0, 1)}, ["not" + CA1])
cases += asked("ends of names", names("badexample.com", "www.badexample.com"), issue("example.com", CA1), {CA2: PERMITTED}, ANYONE)
cases += asked("fronts of names", names("example.co", "example"), issue("example.com", CA1), {CA2: PERMITTED}, ANYONE)

# Shortcut: "Letting `issue` still count for a star once `issuewild` is there."
book = issue("example.com", CA1) + issuewild("example.com", ";")
cases += asked("issue beside issuewild, *.X", name("*.example.com"), book, {CA1: not_granted(0, 1, 0)}, [])
cases += asked("issue beside issuewild, X", name("example.com"), book, {CA1: PERMITTED}, [CA1])
book = issue("example.com", CA1)
cases += asked("issue for a star without issuewild", name("*.example.com"), book, {CA1: PERMITTED, CA2: not_granted(0, 0, 0)}, [CA1])

# Shortcut: "Taking a badly formed value as absent: then a lone one opens the name to all."
cases += asked("badly formed and lone", WWW, issue("example.com", "%"), {CA1: not_granted(0, 0, 1)}, [])
book = issuewild("example.com", "%") + issue("example.com", CA1)
cases += asked("badly formed and lone, star", name("*.example.com"), book, {CA1: not_granted(0, 0, 0)}, [])
book = issue("example.com", "%") + issue("example.com", CA1)
cases += asked("badly formed beside good", WWW, book, {CA1: PERMITTED, CA2: not_granted(0, 0, 1)}, [CA1])

# Step 1: "If the book has a CAA record with that owner, all such records are the relevant set. Otherwise the climb takes off one label
# and looks again. The root is never looked at."
book = issue("com", "top.example") + issue("www.example.com", CA1) + issue("EXAMPLE.com", CA2) + issue("WwW.eXample.COM", "x.example")
cases += asked("climb, found at X", WWW, book, {CA1: PERMITTED, "X.example": PERMITTED, CA2: not_granted(0, 1, 0)}, [CA1, "x.example"])
cases += asked("climb, one label off", name("mail.example.com"), book, {CA2: PERMITTED, CA1: not_granted(0, 2, 1)}, [CA2])
cases += asked("climb, three labels off", name("a.b.c.com"), book, {"top.example": PERMITTED, CA1: not_granted(0, 0, 3)}, ["top.example"])
cases += asked("climb, star starts at X", name("*.www.example.com"), book, {CA1: PERMITTED, CA2: not_granted(0, 1, 0)}, [CA1, "x.example"])
cases += asked("climb, the set at the root", WWW, issue("", CA1), {CA2: PERMITTED}, ANYONE)
# "A `*` in an owner is only a label"
cases += asked("a star in an owner", names("www.example.com", "*.example.com"), issue("*.example.com", CA1), {CA2: PERMITTED}, ANYONE)
# "Owner labels may hold any octets": a dot inside a label joins nothing
cases += asked("a dot inside an owner's label", WWW, issue(b"\x0bexample.com\0", CA1), {CA2: PERMITTED}, ANYONE)
# "`A` to `Z` counting as `a` to `z`" and nothing else: octet 10 is not `0`, 30, though they differ in the bit of letter case alone
cases += asked("an owner that differs in the bit worth 32", name("a0.example"), issue(b"\2a\x10\7example\0", CA1), {CA2: PERMITTED}, ANYONE)

# "Class 1 with type 257 is a CAA record. Others must be laid out rightly and are then passed over." The time to live is not used.
caa_data = data(0, "issue", CA1)
book = (record("example.com", 257, 3, caa_data) + record("example.com", 256, 1, caa_data) + record("example.com", 1, 257, caa_data)
        + record("example.com", 513, 1, caa_data))
cases += asked("other classes and types", WWW, book, {CA2: PERMITTED}, ANYONE)
cases += asked("records numbered over all", WWW, book + issue("example.com", CA1), {CA1: PERMITTED, CA2: not_granted(0, 4, 1)}, [CA1])
cases += asked("the longest time to live", WWW, record("example.com", 257, 1, caa_data, ttl=2**32 - 1), {CA2: not_granted(0, 0, 1)}, [CA1])

# "20 and 21 carry the lowest name number that isn't permitted and a record number: for 20 the first unknown critical record, for 21 the
# first governing one. A set with both faults says 20."
book = (issue("a.example", CA1) + caa("b.example", 0, "tbs") + issue("b.example", CA1) + caa("b.example", 128, "tbs")
        + caa("b.example", 128, "tbt") + issue("b.example", CA2))
cases += asked("both faults in a set", name("b.example"), book, {CA1: critical(0, 3, 0), "x.example": critical(0, 3, 0)}, [])
cases += asked("20 for the second name", names("a.example", "b.example"), book, {CA1: critical(1, 3, 0), CA2: not_granted(0, 0, 0)}, [])
cases += asked("20 for the first name", names("b.example", "a.example"), book, {CA2: critical(0, 3, 0)}, [])
cases += asked("20 below the star too", name("*.b.example"), book, {CA1: critical(0, 3, 0)}, [])
cases += asked("20 behind open names", names("c.example", "d.example", "b.example"), book, {CA1: critical(2, 3, 0)}, [])
# "The same name may come twice."
cases += asked("the same name twice", names("a.example", "A.Example"), book, {CA1: PERMITTED, CA2: not_granted(0, 0, 0)}, [CA1])

# "Order of checks: request (1, then 2 and 3 in reading order), issuer name where given, book (5, then 6 and 7 in reading order), room."
bad_book = b"\x40"
cases += [
    judge("order: request before issuer and book", b"\0", "", bad_book, refused(2, 0)),
    judge("order: request's size first", b"\0" * 16385, "", bad_book, refused(1, 0)),
    judge("order: issuer before book", WWW, "", bad_book, refused(4, 0)),
    judge("order: issuer before the book's size", WWW, "", b"\0" * 49153, refused(4, 0)),
    judge("order: book", WWW, CA1, bad_book, refused(6, 0)),
    listed("order: list, request before book", b"\0", bad_book, refused(2, 0)),
    listed("order: list, book before room", WWW, issue("example.com", CA1) + bad_book, refused(6, 1), room=0),
    listed("order: list, room last", WWW, issue("example.com", CA1), refused(8, 16), room=0),
]

# "Otherwise the climb takes off one label and looks again. The root is never looked at.": however many labels are taken off. A name of 127
# labels of one octet has 255 octets with its zero, so 126 is the most.
for up in 3, 41, 126:
    deep = labels(*[1] * (up + 1))
    cases += asked(f"{up} labels taken off", deep, issue(labels(1), CA1), {CA1: PERMITTED, CA2: not_granted(0, 0, up)}, [CA1])
deepest = labels(*[1] * 127)
cases += asked("126 labels taken off, only the root owns", deepest, issue("", CA1), {CA1: PERMITTED, CA2: PERMITTED}, ANYONE)
cases += asked("a star and 125 labels taken off", b"\1*" + labels(*[1] * 126), issuewild(labels(1), CA1),
               {CA1: PERMITTED, CA2: not_granted(0, 0, 125)}, [CA1])

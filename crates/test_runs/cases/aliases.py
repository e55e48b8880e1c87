"""Aliases: which set counts for a name that is one, verdict 22, the data of an alias, refusal 12. Quoted: the request."""
from .forms import (ANYONE, PERMITTED, asked, caa, cname, critical, issue, issuewild, judge, labels, listed, name, names, not_granted,
                    record, refused, too_many_aliases)

CA, OTHER = "ca1.example.net", "ca2.example.org"
X, WEB, PARENT = "www.example.com", "web.example.org", "example.com"
cases = []


def granted(title, book, record_number, request=X, up=0):
    """CA alone is granted, and the record of this number governs, found so many labels up."""
    cases.extend(asked("alias: " + title, names(request), book, {CA: PERMITTED, OTHER: not_granted(0, record_number, up)}, [CA]))


def unrestricted(title, book, request=X):
    cases.extend(asked("alias: " + title, names(request), book, {CA: PERMITTED}, ANYONE))


def endless(title, book, record_number, request=X, up=0):
    cases.extend(asked("alias: " + title, names(request), book, {CA: too_many_aliases(0, record_number, up)}, []))


def refuses(title, book, answer):
    cases.extend(asked("alias: " + title, names(X), book, {CA: answer}, answer))


def chain(first, count, target):
    """So many aliases, from the name `first` on; the targets are target1, target2 and so on."""
    owners = [first] + [f"{target}{k}" for k in range(1, count)]
    return b"".join(cname(owner, f"{target}{k}") for k, owner in enumerate(owners, 1))


# "Each look at a name follows its alias"; "the final target's CAA records are the set, whatever name it is"
granted("of a name that grants", cname(X, WEB) + issue(WEB, CA), 1)
granted("of an alias", cname("b", "c") + issue("c", CA) + cname(X, "b"), 1)
granted("letter case ignored", cname("WWW.example.COM", "Web.Example.org") + issue("wEB.eXAMPLE.ORG", CA), 1)
granted("the target a name above", cname(X, "com") + issue("com", CA) + issue(PARENT, OTHER), 1)
granted("the target a name below", cname(X, "a." + X) + issue("a." + X, CA) + issue(PARENT, OTHER), 1)
granted("the target the root", cname(X, "") + issue("", CA) + issue(PARENT, OTHER), 1)
granted("an alias of the root followed", cname(X, "") + cname("", "b") + issue("b", CA), 2)
granted("the target a star owner", cname(X, "*.b") + issue("*.b", CA), 1)
granted("of the name above alone", cname(PARENT, "example.org") + issue("example.org", CA), 1, up=1)
granted("other records before both", record("b", 1, 1, b"\1\2\3\4") + cname(X, WEB) + record(WEB, 16, 1, b"\1t") + issue(WEB, CA), 3)
granted("of X in *.X", cname(X, WEB) + issuewild(WEB, CA) + issue(WEB, OTHER), 1, request="*." + X)
unrestricted("of *.X itself", cname("*." + X, WEB) + issue(WEB, OTHER), request="*." + X)
unrestricted("of the root alone", cname("", "b") + issue("b", OTHER))
unrestricted("the target has iodef alone", cname(X, WEB) + caa(WEB, 0, "iodef", "mailto:a@b") + issue(PARENT, OTHER))
cases += asked("alias: the target forbids", names(X), cname(X, WEB) + caa(WEB, 128, "tbs", "x") + issue(PARENT, CA),
               {CA: critical(0, 1, 0)}, [])

# "If it has none, the climb goes on from the parent of the name looked at, as RFC 8659 says; RFC 6844 climbed the target"
granted("to nothing, a set at the parent", cname(X, WEB) + issue("example.org", OTHER) + issue(PARENT, CA), 2, up=1)
unrestricted("to nothing below a set", cname(X, WEB) + issue("example.org", OTHER))

# "Type 5, class 1 now counts"
unrestricted("type 5 of class 3", record(X, 5, 3, name(WEB)) + issue(WEB, OTHER))
unrestricted("type 39", record(X, 39, 1, name(WEB)) + issue(WEB, OTHER))

# "up to 8 for that look"; "If a ninth alias would be followed, the name is restricted, grants nobody"
granted("8 of them", chain(X, 8, "t") + issue("t8", CA), 8)
unrestricted("8 of them to nothing", chain(X, 8, "t"))
granted("5 to nothing and 5 above", chain(X, 5, "t") + chain(PARENT, 5, "s") + issue("s5", CA), 10, up=1)
endless("9 of them", issue("com", CA) + chain(X, 9, "t") + issue("t9", CA) + issue(PARENT, CA), 1)
endless("of itself", issue(PARENT, CA) + cname(X, X), 1)
endless("a loop of two", cname("b", X) + cname(X, "b") + issue(PARENT, CA), 1)
endless("a loop behind an alias", cname("b", "c") + cname("c", "b") + cname(X, "b") + issue(PARENT, CA), 2)
endless("a loop above X", cname("b", PARENT) + cname(PARENT, "b") + issue("com", CA), 1, up=1)
granted("a set below a loop", issue(X, CA) + cname(PARENT, PARENT), 0)

# "verdict 22 carries the name number, as 21 does": the lowest name that is not permitted decides
circular = issue(PARENT, CA) + cname("pay." + PARENT, "pay." + PARENT)
both, turned = names(X, "pay." + PARENT), names("pay." + PARENT, X)
cases += asked("alias: 22 for name 1", both, circular, {CA: too_many_aliases(1, 1, 0), OTHER: not_granted(0, 0, 1)}, [])
cases += asked("alias: 22 for name 0", turned, circular, {CA: too_many_aliases(0, 1, 0), OTHER: too_many_aliases(0, 1, 0)}, [])
cases.append(listed("alias: 22 and no room", both, circular, [], room=0))

# "data is one name by 01's owner rule, filling its length exactly (else refusal 6)"
for title, target in {"empty": b"", "with an octet behind": name("b") + b"\0", "cut off": b"\1b", "of two names": names("b", "c"),
                      "compressed": b"\xc0\x0c", "with a label of 64": labels(64), "of 256 octets": labels(63, 63, 63, 62)}.items():
    refuses("data " + title, issue(PARENT, CA) + record("a", 5, 1, target), refused(6, 1))
    unrestricted("class 3, data " + title, record("a", 5, 3, target))
for title, target in {"of 255 octets": labels(63, 63, 63, 61), "of any octets": b"\2.\xff\0"}.items():
    granted("data " + title, cname("b", "c") + record(X, 5, 1, target) + issue(target, CA), 2)

# "An owner with an alias and a CAA record, or two aliases, is refusal 12 with the later record's number, the lowest such"
refuses("behind a CAA record", issue("a", CA) + cname("a", "b"), refused(12, 1))
refuses("before a CAA record", cname("a", "b") + issue("a", CA), refused(12, 1))
refuses("twice", cname("a", "b") + cname("a", "c"), refused(12, 1))
refuses("twice the same", cname("a", "b") + cname("c", "b") + cname("a", "b"), refused(12, 2))
refuses("twice in other letters", cname("a.B", "c") + cname("A.b", "c"), refused(12, 1))
refuses("twice at the root", cname("", "b") + cname("", "b"), refused(12, 1))
refuses("beside CAA of X", issue(X, CA) + cname(X, WEB), refused(12, 1))
refuses("the lowest of two conflicts", issue("a", CA) + cname("b", "c") + cname("b", "d") + cname("a", "c"), refused(12, 2))
granted("beside other types", cname(X, WEB) + record(X, 1, 1, b"\1\2\3\4") + record(X, 5, 3, b"") + record(X, 257, 3, b"") + issue(WEB, CA), 4)
granted("none beside two CAA records", issue(X, CA) + issue(X, CA), 0)
granted("beside CAA above and below", cname("a.b", "c") + issue("b", OTHER) + issue("a.a.b", OTHER) + issue(X, CA), 3)
# "found after 6 and 7", and so after all but the room
conflict = issue(PARENT, CA) + issue("a", CA) + cname("a", "b")
refuses("12 after 6", conflict + b"\1", refused(6, 3))
refuses("12 after 6 of an alias", conflict + record("c", 5, 1, b""), refused(6, 3))
cases.append(judge("alias: 12 after 2", names(""), CA, conflict, refused(2, 0)))
cases.append(judge("alias: 12 after 4", names(X), "-", conflict, refused(4, 0)))
cases.append(judge("alias: 12 after 15", names(X), CA, conflict, refused(15, 0), account=""))
cases.append(listed("alias: 12 before 8", names(X), conflict, refused(12, 2), room=15))
cases.append(listed("alias: 12 with room", names(X), conflict, refused(12, 2), room=16))

"""Who may issue: order, repeats, several names, room. Quoted: the requirements."""
from .forms import ANYONE, caa, issue, issuewild, listed, names, refused

A, B, C, D = "a.example", "b.example", "c.example", "d.example"
cases = []


def who(title, request, book, answer, room=None):
    cases.append(listed("list: " + title, names(*request.split()), book, answer, room))


def issues(owner, *values):
    return b"".join(issue(owner, value) for value in values)


# "the listed names stand in the order of the first of these records that grants each"; "in small letters"
who("order of the records", "x", issues("x", D, B, C, A), [D, B, C, A])
who("each name once", "x", issues("x", "B.Example", A, "b.example; a=1", " a.EXAMPLE ", B), [B, A])
who("the front of another name", "x", issues("x", "ab.example", "a.example", "b.example"), ["ab.example", A, B])

# "Take the records that govern the restricted name with the lowest number": every restricted name has to grant
book = issues("x", A, B, C) + issues("y", D, C, B) + caa("open", 0, "iodef", "x") + issues("none", ";") + caa("crit", 128, "tbs")
who("two names, the first's order", "x y", book, [B, C])
who("two names, turned", "y x", book, [C, B])
who("open names before and between", "open y other x", book, [C, B])
who("open names alone", "open other *.open", book, ANYONE)
who("a name that grants nobody", "x y none", book, [])
who("nothing shared", "x lone", book + issues("lone", D), [])
# "An unknown critical record in the relevant set of any requested name gives an empty list."
who("a critical name last", "x open crit", book, [])
who("a critical name alone", "crit", book, [])
who("the same name twice", "x x", book, [A, B, C])
# a star goes by its own tag
book = issues("x", A, B) + issuewild("x", C) + issuewild("x", B)
who("a name", "x", book, [A, B])
who("a star name", "*.x", book, [C, B])
who("a name and its star", "x *.x", book, [B])
who("a star and its name", "*.x x", book, [B])

# "room is enough when the buffer has that many, and "anyone" needs none"; refusal 8 has the octets needed
book = issues("x", A, "bb.example")
who("room exactly", "x", book, [A, "bb.example"], room=21)
who("room one less", "x", book, refused(8, 21), room=20)
who("room for the first name", "x", book, refused(8, 21), room=10)
who("room of 0", "x", book, refused(8, 21), room=0)
who("much room", "x", book, [A, "bb.example"], room=50000)
who("anyone, room of 0", "y", book, ANYONE, room=0)
who("anyone, much room", "y", book, ANYONE, room=50000)
who("an empty list, room of 0", "x", issues("x", ";"), [], room=0)

# A full book, each record with a name of its own: 1,024 records of 48 octets, and as many entries of 29.
many = [f"ca{k:04}.authority.example.net" for k in range(1024)]
book = issues("x", *many)
assert len(book) == 49152
who("1,024 names, room exactly", "x", book, many, room=29696)
who("1,024 names, room one less", "x", book, refused(8, 29696), room=29695)
# As many as a book could hold before, and one more: entries of 14 octets. "A buffer as long as the book is always enough."
many = [f"ca{k:03}.example" for k in range(257)]
who("256 names, room exactly", "x", issues("x", *many[:256]), many[:256], room=3584)
book = issues("x", *many)
who("257 names, room of the book", "x", book, many, room=len(book))
# the longest name fills its length octet: 253
longest = ".".join(["a" * 63] * 3 + ["a" * 61])
who("the longest name, room exactly", "x", issues("x", longest), [longest], room=254)
who("the longest name, room one less", "x", issues("x", longest), refused(8, 254), room=253)

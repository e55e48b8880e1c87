"""Labels taken off X, on verdicts 20, 21 and 22 (Q-7). Quoted: the requirements."""
from .forms import (PERMITTED, asked, caa, cname, critical, issue, issuewild, labels, name, names, not_granted, record,
                    too_many_aliases)

CA1, CA2 = "ca1.example.net", "ca2.example.org"
WWW = name("www.example.com")
txt = record("y", 16, 1, b"\0")
cases = []


def up(title, request, book, answers, who):
    cases.extend(asked(f"up: {title}", request, book, answers, who))


# "the number of labels taken off X to reach it .. 0 at X itself"
book = txt + issue("example.com", CA1)
for requested, count in ("example.com", 0), ("www.example.com", 1), ("a.www.example.com", 2), ("a.b.c.example.com", 3):
    up(requested, name(requested), book, {CA1: PERMITTED, CA2: not_granted(0, 1, count)}, [CA1])
    # X, and so not the star
    up("*." + requested, name("*." + requested), book, {CA1: PERMITTED, CA2: not_granted(0, 1, count)}, [CA1])
up("a star, issuewild at the parent", name("*.www.example.com"), txt + issue("example.com", CA2) + issuewild("example.com", CA1),
   {CA2: not_granted(0, 2, 1)}, [CA1])
up("labels of 63", labels(63, 63, 3), issue(labels(3), CA1), {CA2: not_granted(0, 0, 2)}, [CA1])
# "Every verdict 20, 21 or 22"
book = txt + txt + caa("com", 128, "tbs")
for requested, count in ("com", 0), ("*.com", 0), ("www.example.com", 2), ("*.www.example.com", 2):
    up("20, " + requested, name(requested), book, {CA1: critical(0, 2, count)}, [])
up("20 at the top of 127 labels", labels(*[1] * 127), caa(labels(1), 128, "tbs"), {CA1: critical(0, 0, 126)}, [])

# "(where aliases were followed, to reach the name they start from)", wherever the target stands
for target in "t", "a.b.c.d.e.example.org", "example.com", "b.www.example.com", "":
    book = cname("www.example.com", target) + issue(target, CA1)
    title = target or "the root"
    up(f"alias at X to {title}", WWW, book, {CA1: PERMITTED, CA2: not_granted(0, 1, 0)}, [CA1])
    below = names("x.y.www.example.com")
    up(f"alias 2 up to {title}", below, book, {CA2: not_granted(0, 1, 2)}, [CA1])
up("an alias for a star", name("*.www.example.com"), txt + cname("example.com", "t") + issue("t", CA1), {CA2: not_granted(0, 2, 1)}, [CA1])
# "If it has none, the climb goes on from the parent of the name looked at"
book = cname("www.example.com", "t") + cname("t", "u") + cname("example.com", "u") + issue("com", CA1)
up("aliases to no set at X and above it", WWW, book, {CA2: not_granted(0, 3, 2)}, [CA1])

# 22: the name whose look has a ninth alias
book = issue("t9", CA1) + cname("example.com", "t1") + b"".join(cname(f"t{k}", f"t{k + 1}") for k in range(1, 9))
up("22 at X", name("example.com"), book, {CA1: too_many_aliases(0, 1, 0)}, [])
up("22 at X, star", name("*.example.com"), book, {CA1: too_many_aliases(0, 1, 0)}, [])
up("22 three labels up", name("a.b.c.example.com"), book, {CA1: too_many_aliases(0, 1, 3)}, [])
up("8 aliases from the second name", name("a.t1"), book, {CA1: PERMITTED, CA2: not_granted(0, 0, 1)}, [CA1])
book = cname("www.example.com", "t") + txt + cname("com", "com")
up("22 behind an alias to no set", WWW, book, {CA1: too_many_aliases(0, 2, 2)}, [])

# the name that is told, and no other
book = issue("com", CA1) + issue("b.example", CA2) + caa("org", 128, "tbs")
three = names("a.b.c.com", "www.b.example", "x.org")
up("the second of three names", three, book, {CA1: not_granted(1, 1, 1), CA2: not_granted(0, 0, 3)}, [])
up("behind an open name", names("a.b.c.d.e", "x.y.org"), book, {CA1: critical(1, 2, 2)}, [])
up("the same name twice", names("a.com", "a.com"), book, {CA2: not_granted(0, 0, 1)}, [CA1])

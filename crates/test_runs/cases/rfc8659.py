"""Every example of RFC 8659, in its order."""
from .forms import ANYONE, PERMITTED, asked, caa, critical, data, issue, issuewild, names, not_granted, read, write

CA1, CA2, CA3 = "ca1.example.net", "ca2.example.org", "ca3.example.com"
cases = []


def section(number, requested, book, answers, who):
    cases.extend(asked(f"8659-{number} {requested}", names(*requested.split()), book, answers, who))


# 3: `processing CAA for the FQDN "X.Y.Z" where there are no CAA records at any level in the tree .. return Empty`
section("3", "X.Y.Z", b"", {CA1: PERMITTED}, ANYONE)

# 3: `the FQDN "A.B.C" where there is a CAA record "issue example.com" at "B.C" would terminate early`
section("3", "A.B.C", issue("B.C", "example.com"), {"example.com": PERMITTED, CA1: not_granted(0, 0, 1)}, ["example.com"])

# 3: `if it contains only iodef Property Tags or only Property Tags unrecognized by the CA .. CAA does not restrict issuance`
section("3", "iodef.example.com", caa("iodef.example.com", 0, "iodef", "mailto:a@example.com"), {CA1: PERMITTED}, ANYONE)
section("3", "unrecognized.example.com", caa("unrecognized.example.com", 0, "tbs", "Unknown"), {CA1: PERMITTED}, ANYONE)

# 3: `Issuers MUST verify authorization for all the FQDNs and Wildcard Domain Names specified in the request.`
book = issue("a.example", CA1) + issue("b.example", CA2)
section("3", "a.example *.b.example", book, {CA1: not_granted(1, 1, 0), CA2: not_granted(0, 0, 0)}, [])

# 4.1: `the Flags value 1 means that bit 7 is set, while a value of 128 means that bit 0 is set`
section("4.1", "bit7.example.com", caa("bit7.example.com", 1, "tbs", "Unknown"), {CA1: PERMITTED}, ANYONE)
section("4.1", "bit0.example.com", caa("bit0.example.com", 128, "tbs", "Unknown"), {CA1: critical(0, 0, 0)}, [])

# 4.2: `no certificates be issued for the FQDN "certs.example.com" by any Issuer other than ca1.example.net or ca2.example.org`
book = issue("certs.example.com", CA1) + issue("certs.example.com", CA2)
section("4.2", "certs.example.com", book, {CA1: PERMITTED, CA2: PERMITTED, CA3: not_granted(0, 0, 0)}, [CA1, CA2])

# 4.2: `no certificates be issued for the FQDN "nocerts.example.com" by any Issuer`
section("4.2", "nocerts.example.com", issue("nocerts.example.com", ";"), {CA1: not_granted(0, 0, 0)}, [])

# 4.2: `the following malformed CAA RRset forbids issuance`
section("4.2", "malformed.example.com", issue("malformed.example.com", "%%%%%"), {CA1: not_granted(0, 0, 0)}, [])

# 4.2: `both an empty issuer-domain-name and a non-empty issuer-domain-name is the same as specifying just the non-empty`
book = issue("additive.example.com", ";") + issue("additive.example.com", CA1)
section("4.2", "additive.example.com", book, {CA1: PERMITTED, CA2: not_granted(0, 0, 0)}, [CA1])

# 4.2: `account.example.com CAA 0 issue "ca1.example.net; account=230123"`
book = issue("account.example.com", "ca1.example.net; account=230123")
section("4.2", "account.example.com", book, {CA1: PERMITTED, CA2: not_granted(0, 0, 0)}, [CA1])

# 4.3: `_only_ ca1.example.net issue certificates for "wild.example.com" or "sub.wild.example.com", and that _only_ ca2.example.org
# issue certificates for "*.wild.example.com" or "*.sub.wild.example.com"`
book = issue("wild.example.com", CA1) + issuewild("wild.example.com", CA2)
for up, plain in enumerate(("wild.example.com", "sub.wild.example.com")):
    section("4.3", plain, book, {CA1: PERMITTED, CA2: not_granted(0, 0, up)}, [CA1])
    section("4.3", "*." + plain, book, {CA1: not_granted(0, 1, up), CA2: PERMITTED}, [CA2])

# 4.3: `_only_ ca1.example.net issue certificates for "wild2.example.com", "*.wild2.example.com", or "*.sub.wild2.example.com"`
for requested, up in ("wild2.example.com", 0), ("*.wild2.example.com", 0), ("*.sub.wild2.example.com", 1):
    section("4.3", requested, issue("wild2.example.com", CA1), {CA1: PERMITTED, CA2: not_granted(0, 0, up)}, [CA1])

# 4.3, the first wild3 set: `_only_ ca2.example.org issue certificates for "*.wild3.example.com" or "*.sub.wild3.example.com". It does
# not permit any Issuer to issue for "wild3.example.com" or "sub.wild3.example.com".`
book = issuewild("wild3.example.com", CA2) + issue("wild3.example.com", ";")
for up, plain in enumerate(("wild3.example.com", "sub.wild3.example.com")):
    section("4.3-first", plain, book, {CA1: not_granted(0, 1, up), CA2: not_granted(0, 1, up)}, [])
    section("4.3-first", "*." + plain, book, {CA1: not_granted(0, 0, up), CA2: PERMITTED}, [CA2])

# 4.3, the second: `It permits any Issuer to issue for "wild3.example.com" or "sub.wild3.example.com".`
book = issuewild("wild3.example.com", CA2)
for up, plain in enumerate(("wild3.example.com", "sub.wild3.example.com")):
    section("4.3-second", plain, book, {CA1: PERMITTED, CA2: PERMITTED}, ANYONE)
    section("4.3-second", "*." + plain, book, {CA1: not_granted(0, 0, up), CA2: PERMITTED}, [CA2])

# 4.4: `report.example.com`: the iodef records restrict nothing, the issue record does
book = (issue("report.example.com", CA1) + caa("report.example.com", 0, "iodef", "mailto:security@example.com")
        + caa("report.example.com", 0, "iodef", "https://iodef.example.com/"))
section("4.4", "report.example.com", book, {CA1: PERMITTED, CA2: not_granted(0, 0, 0)}, [CA1])

# 4.5: `Neither the ca1.example.net CA nor any other Issuer is authorized to issue for "new.example.com" (or any other domains for
# which this is the Relevant RRset)`
book = issue("new.example.com", CA1) + caa("new.example.com", 128, "tbs", "Unknown")
for requested, up in ("new.example.com", 0), ("*.new.example.com", 0), ("www.new.example.com", 1):
    section("4.5", requested, book, {CA1: critical(0, 1, up), CA2: critical(0, 1, up)}, [])

# 4.1.1: `CAA <flags> <tag> <value>`: the records of the examples as lines
for flags, tag, value in (
    (0, "issue", "ca1.example.net"),
    (0, "issue", ";"),
    (0, "issue", "%%%%%"),
    (0, "issue", "ca1.example.net; account=230123"),
    (0, "issuewild", "ca2.example.org"),
    (0, "iodef", "mailto:security@example.com"),
    (0, "iodef", "https://iodef.example.com/"),
    (128, "tbs", "Unknown"),
):
    line = f'{flags} {tag} "{value}"'
    cases.append(write("8659 " + line, data(flags, tag, value), line))
    cases.append(read("8659 " + line, line, data(flags, tag, value)))

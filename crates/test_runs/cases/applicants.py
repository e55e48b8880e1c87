"""Account and method: their rule, and the limits that a record sets (RFC 8657). Quoted: the requirements."""
from .forms import ACCOUNT, METHOD, PERMITTED, issue, issuewild, judge, listed, names, not_granted, refused

CA, OTHER = "ca1.example.net", "ca2.example.net"
X = names("x")
cases = []


def asked(title, book, permitted, request=X, account=ACCOUNT, method=METHOD):
    """One issuer: granted, or denied by the record 0; and who may issue."""
    answer, issuers = (PERMITTED, [CA]) if permitted else (not_granted(0, 0, 0), [])
    cases.append(judge("applicant: " + title, request, CA, book, answer, account, method))
    cases.append(listed("applicant list: " + title, request, book, issuers, account=account, method=method))


def limits(title, parameters, permitted, **more):
    asked(title, issue("x", f"{CA};{parameters}"), permitted, **more)


def bad(title, account=ACCOUNT, method=METHOD, request=X, issuer=CA, book=b"", answer=refused(15, 0), listing=None):
    cases.append(judge("refused: " + title, request, issuer, book, answer, account, method))
    cases.append(listed("refused list: " + title, request, book, listing or answer, account=account, method=method))


# "each 1 to 255 octets of 33 to 126 except `;`, the method without comma, else refusal 15, place 0"
bad("an empty account", account="")
bad("an empty method", method="")
bad("an account of 256 octets", account="a" * 256)
bad("a method of 256 octets", method="m" * 256)
bad("an account with a space", account="a b")
bad("a method with an octet of 127", method="m\x7f")
bad("an account with a semicolon", account="a;b")
bad("a method with a comma", method="dns-01,http-01")
# "checked after the issuer name or in its place"
bad("account 15 after request 2", account="", request=names(""), answer=refused(2, 0))
bad("account 15 after issuer 4", account="", issuer="-", answer=refused(4, 0), listing=refused(15, 0))
bad("account 15 before book 6", account="", book=b"\0")
bad("book 6 after a good account", book=b"\0", answer=refused(6, 0))

longest = "a" * 255
limits("255 octets each", f" accounturi={longest}; validationmethods={longest}", True, account=longest, method=longest)
limits("a comma in the account", " accounturi=a,b", True, account="a,b")

# "A governing record with `accounturi` grants only if that equals the account", octet for octet
limits("this account", f" accounturi={ACCOUNT}", True)
limits("another account", f" accounturi={ACCOUNT}0", False)
limits("the account in capitals", f" accounturi={ACCOUNT.upper()}", False)
limits("an empty accounturi", " accounturi=", False)
# "with `validationmethods` only if the method is one of its comma-parted items"
limits("this method", " validationmethods=dns-01", True)
limits("another method", " validationmethods=http-01", False)
limits("the method last of three", " validationmethods=http-01,tls-alpn-01,dns-01", True)
limits("the method in capitals", " validationmethods=DNS-01", False)
limits("an empty item", " validationmethods=dns-01,", False)
limits("an empty validationmethods", " validationmethods=", False)
# Both, and "Two parameters of the same one of these tags"
limits("both limits met", f" accounturi={ACCOUNT}; validationmethods=dns-01", True)
limits("the method alone met", f" accounturi=a; validationmethods=dns-01", False)
limits("the account alone met", f" accounturi={ACCOUNT}; validationmethods=a", False)
limits("accounturi twice", f" accounturi={ACCOUNT}; accounturi={ACCOUNT}", False)
limits("validationmethods twice", " validationmethods=dns-01; a=1; validationmethods=dns-01", False)
# "these two tags are known whatever their letter case"; "Other parameters don't matter"
limits("AccountURI, another account", " AccountURI=a", False)
limits("AccountURI twice in two cases", f" accounturi={ACCOUNT}; ACCOUNTURI={ACCOUNT}", False)
limits("other parameters, one twice", " account=a; methods=b; account=c", True)

# A record that does not admit the applicant still governs. Another record may grant.
asked("a second record admits", issue("x", f"{CA}; accounturi=a") + issue("x", f"{CA}; accounturi={ACCOUNT}"), True)
asked("a second record for another", issue("x", f"{CA}; accounturi=a") + issue("x", f"{CA}; accounturi=b"), False)
asked("issuewild for another account", issuewild("x", f"{CA}; accounturi=a") + issue("x", CA), False, request=names("*.x"))
cases.append(listed("applicant list: one of two", X, issue("x", f"{OTHER}; accounturi=a") + issue("x", CA), [CA]))
cases.append(listed("applicant list: order of grants", X,
                    issue("x", f"{CA}; accounturi=a") + issue("x", OTHER) + issue("x", CA), [OTHER, CA]))

"""A record as a line, written and read: every kind of escape, every refusal, both sides of each limit. Quoted: the requirements."""
from .forms import data, read, refused, write

cases = []


def both(title, given, line, lowered=None):
    """What is written, and what is read back: the same data, tag in small letters."""
    cases.append(write(title, given, line))
    cases.append(read(title, line, lowered or given))


# "flags in decimal with no needless zero, one space, tag in small letters, one space, the value in double quotes"
for flags in 0, 1, 9, 10, 99, 100, 127, 128, 199, 200, 249, 250, 255:
    both(f"flags {flags}", data(flags, "issue", "a"), f'{flags} issue "a"')
both("an empty value", data(0, "issue"), '0 issue ""')
both("a tag of one octet", data(0, "a", "b"), '0 a "b"')
both("a tag of digits", data(0, "09", "b"), '0 09 "b"')
both("a tag in large letters", data(128, "TbSaZAz09", "Aa"), '128 tbsazaz09 "Aa"', data(128, "tbsazaz09", "Aa"))
both("a tag of 255", data(0, "a" * 255, "b"), "0 " + "a" * 255 + ' "b"')

# "Octets 32 to 126 stand as they are, but `"` and `\` take a `\` before them; all others are `\` and three decimal digits."
both("blanks in a value", data(0, "issue", " a  b "), '0 issue " a  b "')
both("quotes and backslashes", data(0, "issue", 'a"b\\c\\"'), r'0 issue "a\"b\\c\\\""')
both("the octets at the edges", data(0, "issue", "\0\x1f ~\x7f\x80\xff"), r'0 issue "\000\031 ~\127\128\255"')
both("tab and line end", data(0, "issue", "\t\r\n"), r'0 issue "\009\013\010"')
both("signs that end a bare value", data(0, "issue", "();"), '0 issue "();"')
both("an octet before digits", data(0, "issue", "\x011"), r'0 issue "\0011"')
both("every octet", data(0, "issue", bytes(range(256))), '0 issue "'
     + "".join(f"\\{k:03}" for k in range(32))
     + r""" !\"#$%&'()*+,-./0123456789:;<=>?@ABCDEFGHIJKLMNOPQRSTUVWXYZ[\\]^_`abcdefghijklmnopqrstuvwxyz{|}~"""
     + "".join(f"\\{k:03}" for k in range(127, 256)) + '"')

# Refusal 11: "CAA data laid out wrongly, or a tag octet no letter or digit, when writing a line"
for title, given in (
    ("no data", b""),
    ("data of 1 octet", b"\0"),
    ("a tag length of 0", b"\0\0"),
    ("a tag length of 0 and a value", b"\0\0a"),
    ("a tag one longer than the data", b"\0\x06issue"),
    ("a tag length of 255", b"\0\xffissue"),
):
    cases.append(write(title, given, refused(11, 0)))
for octet in "-", "_", " ", "/", ":", "@", "[", "`", "{", "\0", "\x7f", "\x80", "\xff":
    cases.append(write(f"octet {ord(octet):02x} in a tag", data(0, "is" + octet, "a"), refused(11, 0)))

# "Data made or given is at most 4,096 octets": the data has 4 octets before its value
longest = data(0, "aB", "x" * 4092)
assert len(longest) == 4096
both("4,096 octets", longest, '0 ab "' + "x" * 4092 + '"', data(0, "ab", "x" * 4092))
cases.append(write("4,097 octets", longest + b"x", refused(10, 0)))
cases.append(read("4,097 octets", '0 ab "' + "x" * 4093 + '"', refused(10, 0)))
cases.append(read("4,097 octets, bare", "0 ab " + "x" * 4093, refused(10, 0)))
# the longest line that is written: flags of 3 digits, a tag of 1 and 4,093 octets of 4 each: 3 + 1 + 1 + 1 + 1 + 16,372 + 1
both("the longest line", data(255, "a", "\xff" * 4093), '255 a "' + r"\255" * 4093 + '"')
assert len(cases[-1].request) == 16380

# "a line at most 16,384"; "For lines: 10 on the input, 9 or 11, 10 on the data made, 8."
line = "0 issue" + " " * 16376 + "x"
assert len(line) == 16384
cases += [
    read("16,384 octets", line, data(0, "issue", "x")),
    read("16,385 octets", line + "x", refused(10, 0)),
    read("16,384 octets that break a rule", "x" * 16384, refused(9, 0)),
    read("16,385 octets that break a rule", "x" * 16385, refused(10, 0)),
    read("too much data in a line that breaks a rule", '0 ab "' + "x" * 4093, refused(9, 0)),
    read("too much data and no room", '0 ab "' + "x" * 4093 + '"', refused(10, 0), room=0),
    read("a line that breaks a rule and no room", "0 ab", refused(9, 0), room=0),
    write("4,097 octets laid out wrongly", b"\0" * 4097, refused(10, 0)),
    write("4,096 octets laid out wrongly", b"\0" * 4096, refused(11, 0)),
    write("data laid out wrongly and no room", b"\0", refused(11, 0), room=0),
]

# "lent buffer shorter than the output": "octets needed"
given, line = data(0, "issue", "a\0"), r'0 issue "a\000"'
assert (len(given), len(line)) == (9, 15)
cases += [
    write("room exactly", given, line, room=15),
    write("room one less", given, refused(8, 15), room=14),
    write("room of 0", given, refused(8, 15), room=0),
    write("much room", given, line, room=33000),
    read("room exactly", line, given, room=9),
    read("room one less", line, refused(8, 9), room=8),
    read("room of 0", line, refused(8, 9), room=0),
    read("much room", line, given, room=33000),
    write("4,096 octets, room one less", longest, refused(8, 4099), room=4098),
    read("4,096 octets, room one less", '0 ab "' + "x" * 4092 + '"', refused(8, 4096), room=4095),
]


def reads(line, given):
    cases.append(read(ascii(line), line, given))


def breaks(line):
    cases.append(read(ascii(line), line, refused(9, 0)))


# "1 to 3 digits not above 255"
reads("000 issue x", data(0, "issue", "x"))
reads("007 issue x", data(7, "issue", "x"))
reads("00 issue x", data(0, "issue", "x"))
reads("099 issue x", data(99, "issue", "x"))
for line in (" issue x", "issue x", "0000 issue x", "0255 issue x", "260 issue x", "300 issue x", "999 issue x", "-1 issue x", "+1 issue x",
             "a issue x", "1a issue x", "0x1 issue x", "\\048 issue x", '"0" issue x'):
    breaks(line)

# "one or more blanks; a tag of 1 to 255 letters and digits, kept as it stands; one or more blanks"
reads("0 \t issue\t\tx", data(0, "issue", "x"))
reads("0\tIsSuE x", data(0, "IsSuE", "x"))
reads("0 0 0", data(0, "0", "0"))
cases.append(read("a tag of 255, large", "0 " + "A" * 255 + " b", data(0, "A" * 255, "b")))
cases.append(read("a tag of 256", "0 " + "a" * 256 + " b", refused(9, 0)))
for line in ("", "0", "0 ", "0issue x", "0 issue", '0 issue"x"', "0\nissue x", "0 issue\nx", "0 is-sue x", "0 is_sue x", "0 i\\115sue x",
             "0 \xe9ssue x", '0 "issue" x', '0 "x"', "0  "):
    breaks(line)

# "a value, quoted, or bare and not empty. No blank before or after the whole."
reads("0 issue x", data(0, "issue", "x"))
reads('0 issue ""', data(0, "issue"))
reads('0 issue " "', data(0, "issue", " "))
for line in ("0 issue ", "0 issue \t", " 0 issue x", "\t0 issue x", "0 issue x ", "0 issue x\t", '0 issue "x" ', '0 issue "x"\t',
             "0 issue x\n", '0 issue "x"\n', "0 issue x y", '0 issue "x" y', '0 issue "x"y', '0 issue "x""y"', '0 issue "x',
             '0 issue "', '0 issue x"', '0 issue """'):
    breaks(line)

# "Inside quotes, octets 32 to 126 except `"` and `\`"
reads('0 issue "!#[]~;() "', data(0, "issue", "!#[]~;() "))
for octet in "\0", "\t", "\n", "\x1f", "\x7f", "\x80", "\xff":
    breaks(f'0 issue "a{octet}b"')
# "bare, 33 to 126 except `"`, `\`, `;`, `(`, `)`"
reads("0 issue !#$%&'*+,-./:<=>?@[]^_`{|}~", data(0, "issue", "!#$%&'*+,-./:<=>?@[]^_`{|}~"))
for octet in '"', ";", "(", ")", " ", "\0", "\t", "\n", "\x1f", "\x7f", "\x80", "\xff":
    breaks(f"0 issue a{octet}b")
breaks("0 issue ;")

# "`\` with three digits up to 255 gives that octet; `\` with a non-digit 32 to 126 gives that octet."
for q in '"', "":
    reads(rf"0 issue {q}\000\009\010\065\127\255{q}", data(0, "issue", "\0\t\nA\x7f\xff"))
    reads(rf"0 issue {q}\0651\1280{q}", data(0, "issue", "A1\x800"))
    reads(rf"0 issue {q}\"\\\;\(\)\ \a\~\/\:{q}", data(0, "issue", '"\\;() a~/:'))
    for escaped in "256", "300", "999", "1", "12", "12a", "1a2", "", "\t", "\0", "\x1f", "\x7f", "\x80", "\xff":
        breaks(f"0 issue {q}a\\{escaped}{q}")
reads(r"0 issue \"", data(0, "issue", '"'))
reads(r"0 issue \032", data(0, "issue", " "))

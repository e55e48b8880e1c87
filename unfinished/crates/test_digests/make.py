#!/usr/bin/env python3
"""Makes data/messages.bin, which the program `test_digests` reads, stdout, what it must write, and origins.txt, where each digest comes from.

    python3 crates/test_digests/make.py [--check]    with --check nothing is written; the stored files must be these

Each digest comes from sha256sum or sha512sum and from Python's hashlib; both must agree. Those of the messages that NIST publishes with
FIPS 180-4 are also written out below, as published.
"""
import hashlib
import subprocess
import sys
import tempfile
from pathlib import Path

here = Path(__file__).resolve().parent

# Each message with its digests, where NIST publishes them: examples of FIPS 180-4 and 180-2, and the test vectors for the empty message.
published = [
    (b"", "e3b0c44298fc1c149afbf4c8996fb92427ae41e4649b934ca495991b7852b855",
     "cf83e1357eefb8bdf1542850d66d8007d620e4050b5715dc83f4a921d36ce9ce47d0d13c5d85f2b0ff8318d2877eec2f63b931bd47417a81a538327af927da3e"),
    (b"abc", "ba7816bf8f01cfea414140de5dae2223b00361a396177a9cb410ff61f20015ad",
     "ddaf35a193617abacc417349ae20413112e6fa4e89a97ea20a9eeee64b55d39a2192992a274fc1a836ba3c23a3feebbd454d4423643ce80e2a9ac94fa54ca49f"),
    (b"abcdbcdecdefdefgefghfghighijhijkijkljklmklmnlmnomnopnopq",
     "248d6a61d20638b8e5c026930c3e6039a33ce45964ff2167f6ecedd419db06c1", None),
    (b"abcdefghbcdefghicdefghijdefghijkefghijklfghijklmghijklmnhijklmnoijklmnopjklmnopqklmnopqrlmnopqrsmnopqrstnopqrstu", None,
     "8e959b75dae313da8cf4f72814fc143f8f7779c6eb9f7fa17299aeadb6889018501d289e4900f7e4331b99dec4b5433ac7d329eeb6dd26545e96e55b874be909"),
]
# The program makes this message itself.
million = (b"a" * 1000000, "cdc76e5c9914fb9281a1c7e284d73e67f1809a48a497200e046d39ccc7112cd0",
           "e718483d0ce769644e2e42c7bc15b4638e1f98b13b2044285632a803afa973ebde0ff244877ea60a4cb0432ce577c31beb009c5c2c49aa2e4eadb217ad8cc09b")


def octets(length):
    """The first octets of a sequence in which neighbours, and octets a block apart, differ."""
    return bytes((i * 167 + i // 64 * 29 + 13) % 256 for i in range(length))


def sums(command, messages):
    """What sha256sum or sha512sum says of each message."""
    with tempfile.TemporaryDirectory() as folder:
        names = [f"{k:04}" for k in range(len(messages))]
        for name, message in zip(names, messages):
            (Path(folder) / name).write_bytes(message)
        lines = subprocess.run([command, "--", *names], cwd=folder, check=True, stdout=subprocess.PIPE, text=True).stdout.splitlines()
    return [line.split()[0] for line in lines]


edges = [55, 56, 63, 64, 111, 112, 119, 120, 127, 128, 239, 240, 255, 256]
rows = [(m, "the text " + m.decode() if m else "nothing") for m, _, _ in published]
rows += [(octets(n), "octets") for n in [*range(301), 511, 512, 513, 1023, 1024, 1025, 4096, 16383, 16384]]
rows += [(bytes([x]) * n, f"the octet {x}") for x in (0, 255) for n in edges]
rows += [(million[0], "the letter a")]
messages = [m for m, _ in rows]

digests = [(hashlib.sha256(m).hexdigest(), hashlib.sha512(m).hexdigest()) for m in messages]
if digests != list(zip(sums("sha256sum", messages), sums("sha512sum", messages))):
    sys.exit("make: hashlib and sha256sum or sha512sum differ")
known = {message: (short, long) for message, short, long in [*published, million]}
for message, wanted in known.items():
    if any(w not in (None, d) for w, d in zip(wanted, digests[messages.index(message)])):
        sys.exit(f"make: hashlib and the published digest of {message[:20]} differ")


def origin(message):
    short, long = ("NIST, " if wanted else "" for wanted in known.get(message, (None, None)))
    return f"SHA-256: {short}sha256sum, hashlib; SHA-512: {long}sha512sum, hashlib"


made = {
    "data/messages.bin": b"".join(len(m).to_bytes(3, "big") + m for m in messages[:-1]),
    "stdout": b"".join(b"%d %s %s\n" % (len(m), short.encode(), long.encode()) for m, (short, long) in zip(messages, digests)),
    "origins.txt": (
        "# Where the digests come from, for each line of stdout: its number, the length of the message, what it is made of, the origins.\n"
        "# `octets` are those of make.py.\n"
        + "".join(f"{k}: {len(m)}, {what}. {origin(m)}\n" for k, (m, what) in enumerate(rows, 1))
    ).encode(),
}
if sys.argv[1:] == ["--check"]:
    stale = [path for path, content in made.items() if not (here / path).is_file() or (here / path).read_bytes() != content]
    if stale:
        sys.exit(f"make: not what the messages give: {', '.join(stale)}")
elif sys.argv[1:]:
    sys.exit(__doc__)
else:
    for path, content in made.items():
        (here / path).parent.mkdir(exist_ok=True)
        (here / path).write_bytes(content)
print(f"make: {len(messages)} messages")

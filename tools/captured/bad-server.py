"""A DNS server that answers wrongly on purpose, for make.sh: python3 bad-server.py PORT

It listens on 127.0.0.1, UDP only, so a TCP connection to the port is refused. What it does is said by the first label of the
name that is asked for. Names in BEHAVIOUR and rcode-N are known; it stays silent at others.
"""

import socket
import struct
import sys

CAA = struct.pack("!HHHIH", 0xC00C, 257, 1, 300, 22) + b"\0\5issueca1.example.net"
QR, TC, RD, RA = 0x8000, 0x0200, 0x0100, 0x0080
GOOD = QR | RD | RA


def message(number, flags, question, count, answer, additional=b""):
    return struct.pack("!6H", number, flags, 1, count, 0, int(additional != b"")) + question + answer + additional


# An OPT record with the extended error 17 (filtered).
FILTERED = b"\0" + struct.pack("!HHIHHHH", 41, 1232, 0, 6, 15, 2, 17)

asked = set()  # numbers of queries for second-try
BEHAVIOUR = {
    # The answer was cut: the client has to ask by TCP, where nobody listens.
    b"tcp-refused": lambda n, q: message(n, GOOD | TC, q, 0, b""),
    # One answer is announced, and the message ends within it.
    b"malformed": lambda n, q: message(n, GOOD, q, 1, CAA[:20]),
    # One answer is announced, and none is there.
    b"malformed-empty": lambda n, q: message(n, GOOD, q, 1, b""),
    # Octets behind the last record.
    b"extra": lambda n, q: message(n, GOOD, q, 1, CAA + b"\0\0\0"),
    # Fewer octets than a header has.
    b"too-short": lambda n, q: message(n, GOOD, q, 0, b"")[:7],
    b"other-id": lambda n, q: message(n ^ 1, GOOD, q, 0, b""),
    # A query sent back, without the flag qr.
    b"no-qr": lambda n, q: message(n, RD | RA, q, 0, b""),
    b"other-question": lambda n, q: message(n, GOOD, b"\5other" + q, 0, b""),
    b"filtered": lambda n, q: message(n, GOOD, q, 0, b"", FILTERED),
    # Silent at first, and good when asked again.
    b"second-try": lambda n, q: message(n, GOOD, q, 1, CAA) if n in asked else asked.add(n),
    # CAA data that says it has a longer tag than it has octets.
    b"bad-caa": lambda n, q: message(n, GOOD, q, 1, CAA[:10] + b"\0\3\0\x20t"),
}


def reply(query):
    number = struct.unpack("!H", query[:2])[0]
    end = query.index(0, 12) + 5
    question = query[12:end]
    first = question[1 : 1 + question[0]].lower()
    if first.startswith(b"rcode-"):
        return message(number, GOOD | int(first[6:]), question, 0, b"")
    return BEHAVIOUR[first](number, question) if first in BEHAVIOUR else None


def main():
    server = socket.socket(socket.AF_INET, socket.SOCK_DGRAM)
    server.bind(("127.0.0.1", int(sys.argv[1])))
    while True:
        query, client = server.recvfrom(4096)
        answer = reply(query)
        if answer is not None:
            server.sendto(answer, client)


if __name__ == "__main__":
    main()

#!/usr/bin/env python3
"""The table for link planners in docs/READING.md, and whether the proved sender needs as few octets as can be.

    python3 tests/model/planners.py               prints the table
    python3 tests/model/planners.py --send SEND   and holds the program `send` against the fewest octets

For COBS the fewest octets are looked for among all lists of blocks that the code table has (the COBS draft, section 3),
from the end of D to its front; how a sender chooses its blocks is not written here. Octet stuffing is counted by RFC
1662's rule (sections 4.2 and 7.1). In the table the FCS has 16 bits; `send` is held against the fewest with 16 and with 32.
"""
import functools
import hashlib
import random
import struct
import subprocess
import sys

from compare import fcs

SIZE = 1500
FLAG = 0x7E

# ---- octets of a frame, without its flag


def rows(zxe):
    """The code table: of each code that is agreed, its data octets and the zeros behind them."""
    table = {code: (code - 1, 1) for code in range(0x01, 0xD0)}
    table[0xD0] = (207, 0)
    if zxe:
        table |= {code: (0, code - 0xD0) for code in range(0xD3, 0xE0)}
        table |= {code: (code - 0xE0, 2) for code in range(0xE0, 0xFF)}
    return sorted(set(table.values()))


def fewest(frame, zxe):
    """The octets of the shortest list of blocks that stands for D, the frame and the phantom; by trying every row at every place."""
    d = frame + b"\0"
    data, zeros = [0] * (len(d) + 1), [0] * (len(d) + 1)  # how many octets that are not zero, and how many zeros, come next
    for at in reversed(range(len(d))):
        data[at] = data[at + 1] + 1 if d[at] else 0
        zeros[at] = 0 if d[at] else zeros[at + 1] + 1
    table, least = rows(zxe), [float("inf")] * len(d) + [0]
    for at in reversed(range(len(d))):
        for n, z in table:
            if n <= data[at] and z <= zeros[at + n]:
                least[at] = min(least[at], 1 + n + least[at + n + z])
    return least[0]


def stuffed(frame, control):
    """Octet stuffing: two octets for each 7D, each 7E and each octet of the map, which has all below `control`."""
    return sum(2 if octet in (0x7D, 0x7E) or octet < control else 1 for octet in frame)


# ---- the table


def packets():
    """The packets of the table, of SIZE octets each."""
    line = b"Station 44: wind 12 m/s from 230, pressure 1013 hPa\r\n"
    digests = (hashlib.sha256(struct.pack(">I", i)).digest() for i in range(SIZE))
    yield "all 00", bytes(SIZE)
    yield "all 7E", bytes([FLAG]) * SIZE
    yield "random octets", b"".join(digests)[:SIZE]
    yield "lines of text", (line * SIZE)[:SIZE]
    yield "numbers of 32 bits, below 65,536", b"".join(struct.pack(">I", i * 7919 % 65536) for i in range(SIZE // 4))


def columns(packet):
    frame = packet + fcs(packet)
    return [fewest(frame, True), fewest(frame, False), stuffed(frame, 0), stuffed(frame, 0x20)]


def at_most():
    """Document 01's bound for a frame of COBS; and a frame of which each octet is stuffed."""
    n = SIZE + len(fcs(bytes(SIZE)))
    return [n + 1 + n // 207] * 2 + [2 * n] * 2


def table():
    yield "| Packet | COBS, ZXE | COBS | stuffing, map empty | stuffing, map full |"
    yield "|---|---|---|---|---|"
    for name, octets in [(name, columns(packet)) for name, packet in packets()] + [("any, at most", at_most())]:
        yield f"| {name} | " + " | ".join(f"{n + 1:,}" for n in octets) + " |"


# ---- the proved sender


def stretches(numbers, size):
    """Data and zeros in turn, as long as the edges of the table, of the size or somewhat more."""
    packet = b""
    while len(packet) < size:
        packet += bytes([numbers.choice((1, 0x7D, FLAG, 0xFF))]) * numbers.choice((0, 1, 2, 29, 30, 31, 32, 205, 206, 207, 208))
        packet += bytes(numbers.choice((0, 1, 2, 3, 4, 14, 15, 16, 17, 29, 30, 31, 32, 45, 46)))
    return packet


@functools.cache
def trials(width):
    """The packets of the table; a thousand others; and some whose FCS ends in a zero, which the phantom follows."""
    numbers = random.Random(9)
    others, ending = set(), set()
    while len(others) < 1000:
        others.add(stretches(numbers, numbers.choice((2, 4, 40, 400))))
    while len(ending) < 50:
        packet = bytes(numbers.choices((0, 1, FLAG), k=numbers.randrange(2, 13)))
        if fcs(packet, width)[-1] == 0:
            ending.add(packet)
    return [packet for _, packet in packets()] + sorted(others) + sorted(ending)


def unlike(send, zxe, width, head):
    """Sends them all, behind this head of a file, and gives what took more or fewer octets than the fewest."""
    tried = trials(width)
    records = b"".join(struct.pack(">cHH", b"L", 65535, len(packet)) + packet for packet in tried)
    line = subprocess.run([send], input=head + records, stdout=subprocess.PIPE, check=True, timeout=60).stdout
    frames = line.split(bytes([FLAG]))
    if len(frames) != len(tried) + 1 or frames[-1]:
        yield f"{len(tried)} packets, but {len(frames) - 1} frames"
        return
    for packet, frame in zip(tried, frames):
        if len(frame) != (least := fewest(packet + fcs(packet, width), zxe)):
            yield f"{packet.hex()}, ZXE {zxe}, {width} bits: {len(frame)} octets, {least} are enough"


def differing(send):
    """With ZXE and without, and at either width."""
    for zxe in (True, False):
        for width, said in ((16, b""), (32, b"W\x20")):
            yield from unlike(send, zxe, width, bytes([zxe]) + said)


if __name__ == "__main__":
    print("\n".join(table()))
    if sys.argv[1:2] == ["--send"]:
        faults = list(differing(sys.argv[2]))
        for fault in faults:
            print(fault, file=sys.stderr)
        sys.exit(bool(faults))

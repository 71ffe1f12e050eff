#!/usr/bin/env python3
"""What the program `vectors` has to print, by an independent implementation:

    python3 tests/vectors.py | diff - crates/vectors/stdout

The check sequence is Python's own: of 16 bits binascii.crc_hqx with its bits reversed, of 32 bits zlib.crc32; the code table and the sender's choice are written
from the COBS draft, sections 3 to 3.3, with document 01's rule for which code is chosen; the two ends from docs/READING.md. What is asked, and
how a line is worded, is the program's; every answer is computed here.
"""
import binascii
import zlib


def shown(octets):
    return "".join(f" {o:02X}" for o in octets)


def line(asked, of, answer):
    print(f"ok    {asked}{shown(of)}:{shown(answer)}")


# ---- the check sequence


def reversed_bits(value, width):
    return int(f"{value:0{width}b}"[::-1], 2)


def register(octets, start=0xFFFF):
    flipped = bytes(reversed_bits(o, 8) for o in octets)
    return reversed_bits(binascii.crc_hqx(flipped, reversed_bits(start, 16)), 16)


def register32(octets, start=0xFFFFFFFF):
    """zlib's value is the complement of the register, which it is also handed complemented."""
    return zlib.crc32(bytes(octets), start ^ 0xFFFFFFFF) ^ 0xFFFFFFFF


def fcs(packet, width=16):
    if width == 32:
        return (register32(packet) ^ 0xFFFFFFFF).to_bytes(4, "little")
    return (register(packet) ^ 0xFFFF).to_bytes(2, "little")


def good(frame, width):
    return register32(frame) == 0xDEBB20E3 if width == 32 else register(frame) == 0xF0B8


def high_first(value):
    return value.to_bytes(2, "big")


def check_sequence():
    for place in (0, 1, 11, 13, 56, 88, 107, 143, 255):
        line(f"entry {place}", b"", high_first(register(bytes([place]), 0)))
    for packet in (b"123456789", b"\0\0", b"~~", b""):
        frame = packet + fcs(packet)
        line("FCS of", packet, fcs(packet))
        line("register over", frame, high_first(register(frame)))
        line("good", frame, [register(frame) == 0xF0B8])
    line("good", b"1111", [register(b"1111") == 0xF0B8])
    for place in (0, 1, 15, 20, 102, 128, 153, 161, 169, 229, 237, 255):
        line(f"32 bits, entry {place}", b"", register32(bytes([place]), 0).to_bytes(4, "big"))
    line("32 bits, complement of the register over", b"123456789", zlib.crc32(b"123456789").to_bytes(4, "big"))
    for packet in (b"123456789", b"\0\0", b"~~", b""):
        frame = packet + fcs(packet, 32)
        line("32 bits, FCS of", packet, fcs(packet, 32))
        line("32 bits, register over", frame, register32(frame).to_bytes(4, "big"))
        line("32 bits, good", frame, [good(frame, 32)])
    line("32 bits, register over", b"123456789", register32(b"123456789").to_bytes(4, "big"))
    line("32 bits, good", b"111111", [good(b"111111", 32)])


# ---- code blocks

NO_CODE, NOT_AGREED = [7, 0, 0], [6, 0, 0]
TABLE = {code: NO_CODE for code in range(256)}
TABLE.update({code: [0, code - 1, 1] for code in range(0x01, 0xD0)})
TABLE[0xD0] = [0, 0xD0 - 1, 0]
TABLE.update({code: [0, 0, code - 0xD0] for code in range(0xD3, 0xE0)})
TABLE.update({code: [0, code - 0xE0, 2] for code in range(0xE0, 0xFF)})


def code(octets, zxe):
    if 0xD3 <= octets[0] <= 0xFE and not zxe:
        return NOT_AGREED
    return TABLE[octets[0]]


def choice(rest, zxe):
    """The code by document 01's rule; its data octets and zeros by the table."""
    d = bytes(rest) + b"\0"
    run = min(len(d) - len(d.lstrip(b"\0")), 15)
    k = min(d.index(0), 207)
    if zxe and run >= 3:
        chosen = 0xD0 + run
    elif k == 207:
        chosen = 0xD0
    elif zxe and k <= 30 and d[k : k + 2] == b"\0\0":
        chosen = 0xE0 + k
    else:
        chosen = k + 1
    return [chosen] + TABLE[chosen][1:]


def nonzero(count, zxe):
    return choice(b"1" * count[0], zxe)


def exchange(octets, _):
    sent = bytes(octets).replace(b"\x7e", b"\0")
    back = bytes(octets).replace(b"\0", b"\x7e")
    return octets + sent + back


def ask(question, asked, zxe, *rows):
    for row in rows:
        octets = bytes.fromhex(row)
        line(asked if zxe else f"without ZXE, {asked}", octets, question(octets, zxe))


def code_blocks():
    ask(code, "code", True, *"01 CF D0 D3 DF E0 FE 00 D1 D2 FF".split())
    ask(code, "code", False, *"CF D0 D2 D3 FE FF".split())
    ask(exchange, "exchange", True, "7E", "00", "D1")
    stream = "7E 08 01 02 03 7E 04 11 12 13 7E 04 21 22 23 7E D1 05 04 05 06 07 7E"
    frames = [frame.strip().removeprefix("D1 ") for frame in stream.split("7E")]
    ask(code, "block", True, *filter(None, frames))
    packets = ["01 02 03 04 05 06 07", "11 12 13", "21 22 23", "04 05 06 07"]
    marked = ["00 00 47 0F", "47 0F", "7E 7E 6A FF", "31 32 33 34 35 36 37 38 39 6E 90"]
    runs = ["00 " * zeros for zeros in (1, 2, 14, 16)]
    thirty = "31 32 33 34 35 36 37 38 39 30 " * 3
    pairs = [thirty + "00", thirty + "00 31", thirty + "31 00"]
    ask(choice, "choice at", True, *packets, *marked, *runs, *pairs)
    ask(choice, "choice at", False, marked[0], runs[-1], pairs[0])
    ask(nonzero, "choice at non-zero octets", True, "01", "CE", "CF")


# ---- the two ends


def unopened(width, limit):
    """Why no end is opened with these, or nothing."""
    return b"R\x17" if not 2 <= limit <= 16384 else b"R\3" if width not in (16, 32) else b""


def sent(packet, settings, loads=1, width=16, limit=2048):
    """A fresh sender, loaded so often, until it is idle; nothing interrupts it."""
    if unopened(width, limit):
        return unopened(width, limit)
    answers = b""
    held = None
    for _ in range(loads):
        if held is not None:
            answers += b"R\4"
        elif not 2 <= len(packet) <= limit:
            answers += b"R\1"
        else:
            held = packet
            answers += b"D"
    if held is None:
        return answers
    rest = bytes(held) + fcs(held, width)
    while rest is not None:
        code, octets, zeros = choice(rest, settings & 1)
        answers += (bytes([code]) + rest[:octets]).replace(b"\x7e", b"\0")
        covered = octets + zeros
        rest = rest[covered:] if covered <= len(rest) else None
    return answers + b"\x7e"


def reported(line_octets, settings, short=0, left=0, width=16, limit=2048):
    """A fresh receiver over the octets, frame by frame; the frame's octets are decoded as a whole. short: of the second area."""
    if unopened(width, limit):
        return unopened(width, limit)
    tail = width // 8
    most = limit + tail + 1
    if short:
        return b"R\2" * len(line_octets)
    if left > 207:
        return b"R\3" * len(line_octets)
    answers, work, held = b"", 0, None
    *frames, _ = bytes(line_octets).split(b"\x7e")
    for frame in filter(None, frames):
        octets = list(frame.replace(b"\0", b"\x7e"))
        decoded, last, open_block, refusal = b"", None, False, None
        resumed = octets[0] == 0xD1
        keeps = held
        if octets[0] == 0xFF:
            refusal, octets, keeps = 5, [], None
        elif resumed:
            octets = octets[1:]
            keeps = None
            if not settings & 2:
                refusal = 6
            elif held is None:
                refusal = 8
            else:
                decoded, work = held, 1 - work
        while octets and refusal is None:
            row = code(octets[:1], settings & 1)
            if row[0]:
                refusal = row[0]
                break
            last, data = octets[0], octets[1 : 1 + row[1]]
            open_block = len(data) < row[1]
            octets = octets[1 + row[1] :]
            decoded += bytes(data)
            if len(decoded) > most:
                refusal = 10
            elif not open_block:
                decoded += bytes(row[2])
                refusal = 10 if len(decoded) > most else None
        if refusal is None:
            if last is None:
                refusal = 9
            elif open_block and settings & 2:
                answers += b"H" + bytes([len(decoded) % 256, held is not None and not resumed])
                held, work = decoded, 1 - work
                continue
            elif open_block:
                refusal = 11
            elif last == 0xD0:
                refusal = 12
            elif len(decoded) - 1 < 2 + tail:
                refusal = 13
            elif not good(decoded[:-1], width):
                refusal = 14
        if refusal is None:
            packet = decoded[: -1 - tail]
            answers += b"P" + bytes([work, len(packet)]) + packet
        else:
            answers += b"R" + bytes([refusal])
        held = keeps
    return answers


def two_ends():
    for packet in ("00 00", "7E 7E", "31 32 33 34 35 36 37 38 39", "31"):
        octets = bytes.fromhex(packet)
        line("sent of", octets, sent(octets, 3))
    line("settings 00, high lane, sent of", b"\0\0", sent(b"\0\0", 0))
    line("loaded twice, sent of", b"\0\0", sent(b"\0\0", 3, 2))
    capture = "0C 31 32 33 7E 0C 31 32 33 34 35 36 37 38 39 6E 90 7E D1 09 34 35 36 37 38 39 6E 90 7E D3 7E"
    examples = ["FF 03 C0 21 7E", "D2 7E", "D1 01 7E", "05 31 7E D1 7E"]
    examples += ["05 31 7E FF 03 7E D1 01 7E", "05 31 7E D2 7E D1 01 7E", "D3 7E", "05 31 31 31 31 7E"]
    for octets in map(bytes.fromhex, [capture, "7E 7E", "05 31 7E 05 32 7E", *examples]):
        line("reported of", octets, reported(octets, 3))
    for octets in map(bytes.fromhex, ["E0 7E", "05 31 7E"]):
        line("settings 00, reported of", octets, reported(octets, 0))
    for times, octet, octets in ((136, 0, "DF DB 7E"), (136, 0, "DF DC 7E"), (137, 0, "DF 7E"), (207, 1, "D0 31 7E")):
        once = bytes.fromhex(octets)
        repeated = once[:octet] + once[octet : octet + 1] * times + once[octet + 1 :]
        line(f"{once[octet]:02X} {times} times, reported of", once, reported(repeated, 3))
    line("second area one short, reported of", b"\x7e", reported(b"\x7e", 3, short=1))
    line("208 data octets left, reported of", b"\x7e", reported(b"\x7e", 3, left=208))
    for packet, settings, words in (
        (b"123456789", 3, ""),
        (b"\0\0", 3, ""),
        (b"\0\0", 0, "settings 00, high lane, "),
        (b"~~", 3, ""),
        (b"1", 3, ""),
    ):
        line(f"32 bits, {words}sent of", packet, sent(packet, settings, width=32))
    frames = ["0E 31 32 33 34 35 36 37 38 39 26 39 F4 CB 7E", "0C 31 32 33 34 35 36 37 38 39 6E 90 7E"]
    for octets in map(bytes.fromhex, [*frames, "05 31 31 31 31 7E", "06 31 31 31 31 31 7E", "07 31 31 31 31 31 31 7E"]):
        line("32 bits, reported of", octets, reported(octets, 3, width=32))
    for octets in map(bytes.fromhex, ("DF DD 7E", "DF DE 7E")):
        line("32 bits, DF 136 times, reported of", octets, reported(octets[:1] * 135 + octets, 3, width=32))
    line("32 bits, second area one short, reported of", b"\x7e", reported(b"\x7e", 3, short=1, width=32))
    line("24 bits, sent of", b"1", sent(b"1", 3, width=24))
    line("24 bits, reported of", b"\x7e", reported(b"\x7e", 3, width=24))
    for packet in (b"AB", b"123", b"1"):
        line("limit 2, sent of", packet, sent(packet, 3, limit=2))
    for octets in map(bytes.fromhex, ("05 41 42 EF 31 7E", "06 31 32 33 B4 9C 7E", "D5 7E", "D6 7E")):
        line("limit 2, reported of", octets, reported(octets, 3, limit=2))
    line("limit 2, second area one short, reported of", b"\x7e", reported(b"\x7e", 3, short=1, limit=2))
    line("32 bits, limit 16,384, sent of", b"123456789", sent(b"123456789", 3, width=32, limit=16384))
    octets = bytes.fromhex(frames[0])
    line("32 bits, limit 16,384, reported of", octets, reported(octets, 3, width=32, limit=16384))
    line("32 bits, limit 16,384, second area one short, reported of", b"\x7e", reported(b"\x7e", 3, short=1, width=32, limit=16384))
    for width, limit, words in ((24, 1, "24 bits, limit 1"), (16, 16385, "limit 16,385")):
        line(f"{words}, sent of", b"1", sent(b"1", 3, width=width, limit=limit))
        line(f"{words}, reported of", b"\x7e", reported(b"\x7e", 3, width=width, limit=limit))


check_sequence()
code_blocks()
two_ends()

#!/usr/bin/env python3
"""Holds three programs of another team against the model (model.rs).

    python3 compare.py --ours DIR [--octets N] [--calls N] [--seed S] [--save DIR]

DIR/capture, DIR/count and DIR/exercise read standard input and write standard output; the output of
each must be that of `model capture|count|exercise`, octet for octet, on random inputs made here.
Exits 0 when nothing differs, 1 at the first difference (input and both outputs are saved) or when a
run of full size did not see every answer of every call, at 16 bits and at 32, with limits of 2 to 20,
2,048 and 16,384, what a wrong width and a limit out of range are answered, restarts with something
held, registers of what is held that are right, wrong and out of bounds, areas changed before a D1,
plain PPP read, sent and out of bounds, pairs opened and refused, and every area shown inside, to its
end and beyond it; 2 when a program is missing. All three programs must end with status 0, also after
`E`.
"""
import argparse
import collections
import itertools
import os
import random
import re
import subprocess
import sys
import tempfile

HERE = os.path.dirname(os.path.abspath(__file__))
DEFAULT_OCTETS = 10_000_000
DEFAULT_CALLS = 3_000_000
TIME_LIMIT = 300

FLAG = b"\x7e"
CODES = bytes.fromhex("00 01 02 7E CF D0 D1 D2 D3 DF E0 FE FF")


# ------------------------------------------------------------------------------------------------
# Running
# ------------------------------------------------------------------------------------------------

def run(command, data):
    """Output and exit status of a program on an input."""
    try:
        done = subprocess.run(command, input=data, stdout=subprocess.PIPE, timeout=TIME_LIMIT)
    except subprocess.TimeoutExpired as late:
        return late.stdout or b"", f"none, {TIME_LIMIT} seconds being over"
    return done.stdout, done.returncode


class Programs:
    """The model, the other team's programs, and where a difference is saved."""

    def __init__(self, model, ours, save):
        self.model, self.ours, self.save = model, ours, save

    def of_model(self, mode, data):
        out, status = run([self.model, mode], data)
        if status != 0:
            sys.exit(f"model {mode} ended with status {status}")
        return out

    def same(self, mode, data, name):
        """The model's output, the other team's being the same."""
        want = self.of_model(mode, data)
        got, status = run([os.path.join(self.ours, mode)], data)
        if status != 0 or got != want:
            self.difference(mode, data, name, want, got, status)
        return want

    def difference(self, mode, data, name, want, got, status):
        os.makedirs(self.save, exist_ok=True)
        base = os.path.join(self.save, f"difference-{mode}")
        for ending, octets in ((".in", data), (".model", want), (".ours", got)):
            with open(base + ending, "wb") as file:
                file.write(octets)
        print(f"DIFFERENT: {mode}, input {name}, {len(data)} octets, saved as {base}.in")
        if status != 0:
            print(f"  {mode} ended with status {status}")
        wanted, gotten = want.split(b"\n"), got.split(b"\n")
        for number, (a, b) in enumerate(zip(wanted, gotten), 1):
            if a != b:
                print(f"  line {number}: model {a[:200].decode()!r}")
                print(f"  {' ' * len(str(number))}       ours {b[:200].decode(errors='replace')!r}")
                break
        print(f"  lines: model {len(wanted) - 1}, ours {len(gotten) - 1}")
        sys.exit(1)


def build_model(folder):
    model = os.path.join(folder, "model")
    subprocess.run(["rustc", "-C", "opt-level=3", "--edition", "2021", "-o", model,
                    os.path.join(HERE, "model.rs")], check=True)
    return model


# ------------------------------------------------------------------------------------------------
# Commands of docs/EXERCISE.md
# ------------------------------------------------------------------------------------------------

COMMANDS = b"oOlhnraAfstdxpPw"
WHOLE_AREAS = (20480, 20480, 20480, 20480, 40960)  # low, high, first, second, out
WIDTHS = (16, 32)
LIMITS = range(2, 16385)


class Agreed(collections.namedtuple("Agreed", "width limit")):
    """A width and a limit of an end, any; and the lengths that follow from good ones."""

    @property
    def good(self):
        return self.width in WIDTHS and self.limit in LIMITS

    @property
    def shortest(self):
        """Octets of the shortest frame."""
        return 2 + self.width // 8

    @property
    def longest(self):
        """Octets of the longest frame."""
        return self.limit + self.width // 8

    @property
    def most(self):
        """Octets that are decoded at most."""
        return self.longest + 1

    @property
    def areas(self):
        """Lengths of low, high, first and second that are exactly long enough."""
        return self.longest, self.longest, self.most, self.most

    @property
    def start(self):
        """The register's start value, and its largest; for a wrong width that of 16 bits, since nothing asks."""
        return 2 ** 32 - 1 if self.width % 256 == 32 else 2 ** 16 - 1

    def with_other_width(self):
        return self._replace(width=48 - self.width)


START = Agreed(16, 2048)  # what both ends have at the start, when areas exactly long enough for it are lent


def lent(width, limit=START.limit):
    return Agreed(width, limit).areas


def number(n):
    return bytes((n & 255, n >> 8))


def octets(data):
    return number(len(data)) + data


def open_sender(settings, width=START.width, limit=START.limit):
    return b"o" + bytes((settings, width)) + number(limit)


def long(n):
    return n.to_bytes(4, "little")


def open_receiver(settings, width=START.width, limit=START.limit, plain=0, control=0):
    """Plain reading is off unless said; `control` is the receiving map."""
    return b"O" + bytes((settings, width)) + number(limit) + bytes((plain,)) + long(control)


def marks(octets):
    """A sending map's 32 octets, by the octets that it marks."""
    return sum(1 << octet for octet in set(octets)).to_bytes(32, "little")


def open_pair(settings, width=START.width, limit=START.limit, control=0, sending=marks(b"")):
    return b"p" + bytes((settings, width)) + number(limit) + long(control) + sending


def load_low(packet):
    return b"l" + octets(packet)


def load_high(packet):
    return b"h" + octets(packet)


def next_octets(count):
    return b"n" + number(count)


def receive(data):
    return b"r" + octets(data)


def lend(lengths):
    return b"a" + b"".join(map(number, lengths))


def lend_out(length):
    return b"A" + number(length)


def fill(area, at, data):
    return b"f" + bytes((area,)) + number(at) + octets(data)


def hand_sender(numbers):
    return b"s" + b"".join(map(number, numbers))


PLAIN_OFF = (0, 0, 0)  # a receiver's last three numbers, mode and map, where plain reading is off


def hand_receiver(numbers):
    """Its seventeen numbers; with the last three left out, plain reading is off."""
    return b"t" + b"".join(map(number, (*numbers, *PLAIN_OFF)[:17]))


def hand_plain_sender(width, limit, sending):
    return b"P" + bytes((width,)) + number(limit) + sending


def send_plain(packet):
    return b"w" + octets(packet)


def show(area, at, count):
    return b"x" + bytes((area,)) + number(at) + number(count)


SHOW_STATES = b"d"


def bit_by_bit(register, polynomial):
    """A register when an octet has been shifted out of it."""
    for _ in range(8):
        register = (register >> 1) ^ (polynomial if register & 1 else 0)
    return register


SHIFTED = {width: [bit_by_bit(low, polynomial) for low in range(256)]
           for width, polynomial in ((16, 0x8408), (32, 0xEDB88320))}


def register_over(octets, width=16):
    """The check register over octets, from its start value, without complement."""
    register, shifted = 2 ** width - 1, SHIFTED[width]
    for octet in octets:
        register = register >> 8 ^ shifted[register & 255 ^ octet]
    return register


def fcs(packet, width=16):
    """RFC 1662's FCS, low octet first."""
    return (register_over(packet, width) ^ 2 ** width - 1).to_bytes(width // 8, "little")


def halves(register):
    """A register or a map as the two numbers of a receiver state, low half first."""
    return register & 0xFFFF, register >> 16


ESCAPE = b"\x7d"


def stuffed(frame, marked=b""):
    """A frame in plain PPP, without a flag: 7D, 7E and each octet that is marked are escaped."""
    escaped = {*ESCAPE, *FLAG, *marked}
    return b"".join(bytes((0x7D, octet ^ 0x20)) if octet in escaped else bytes((octet,)) for octet in frame)


# ------------------------------------------------------------------------------------------------
# Random packets
# ------------------------------------------------------------------------------------------------

def from_set(rng, values, length):
    return bytes(rng.choices(values, k=length))


def zero_free(rng, length):
    return rng.randbytes(length).replace(b"\0", b"\x01")


def zero_heavy(rng, length):
    """Stretches of zeros and of other octets, of lengths near the limits of the codes."""
    parts, room = [], length
    while room > 0:
        zeros = rng.choice((1, 1, 2, 2, 3, 4, 14, 15, 16, 17, 31))
        data = rng.choice((0, 1, 2, 5, 29, 30, 31, 32, 205, 206, 207, 208))
        part = zero_free(rng, data) + bytes(zeros)
        parts.append(part)
        room -= len(part)
    return b"".join(parts)[:length]


CONTENTS = (
    lambda rng, n: rng.randbytes(n),
    lambda rng, n: rng.randbytes(n),
    lambda rng, n: bytes(n),
    zero_heavy,
    zero_heavy,
    lambda rng, n: from_set(rng, b"\x7e\x00\xff", n),
    lambda rng, n: from_set(rng, b"\x7e\xff\x01\xd1", n),
    zero_free,
    lambda rng, n: bytes((rng.randrange(256),)) * n,
)


def packet_length(rng):
    kind = rng.random()
    if kind < 0.30:
        return rng.choice((2, 3, 4))
    if kind < 0.55:
        return rng.randint(2, 40)
    if kind < 0.65:
        return rng.randint(27, 33)
    if kind < 0.75:
        return rng.randint(203, 210)
    if kind < 0.85:
        return rng.randint(2, 2048)
    if kind < 0.95:
        return rng.randint(2046, 2048)
    return rng.randint(410, 420)


def packet(rng, length=None):
    length = packet_length(rng) if length is None else length
    return rng.choice(CONTENTS)(rng, length)


# ------------------------------------------------------------------------------------------------
# Captures: what the model's sender sends, then damaged
# ------------------------------------------------------------------------------------------------

def sound_script(rng, least, urgent, width, limit):
    """A script whose sender sends at least so many octets (about)."""
    parts, sent = [lend(lent(width, limit)), open_sender(rng.choice((3, 3, 3, 3, 2, 0xFF, 1, 0)), width, limit)], 0
    while sent < least:
        low = packet(rng, None if limit == 2048 else rng.randint(2, limit))
        parts.append(load_low(low))
        sent += len(low) + 4
        if rng.random() < urgent:
            for _ in range(rng.choice((1, 1, 2, 3))):
                high = packet(rng, min(limit, rng.choice((2, 3, 4, rng.randint(2, 40), rng.randint(2, 300)))))
                parts.append(next_octets(rng.choice((1, 2, 3, rng.randint(1, len(low) + 6)))))
                parts.append(load_high(high))
                sent += len(high) + 8
                if rng.random() < 0.4:
                    parts.append(next_octets(len(high) + rng.randint(3, 9)))
        parts.append(next_octets(len(low) + rng.choice((4, 16, 320))))
    parts.append(next_octets(5000))
    return b"".join(parts)


def sent_octets(out):
    """The octets of the lines `O XX`."""
    lines = re.sub(rb"(?m)^[^O\n].*\n", b"", out)
    digits = bytearray(len(lines) // 5 * 2)
    digits[0::2] = lines[2::5]
    digits[1::2] = lines[3::5]
    return bytes.fromhex(digits.decode())


def sound_line(programs, rng, least, urgent=0.5, width=16, limit=2048):
    """Undamaged octets of a line, whole frames."""
    pieces, have = [], 0
    while have < least:
        script = sound_script(rng, min(least - have, 400_000), urgent, width, limit)
        piece = sent_octets(programs.of_model("exercise", script))
        pieces.append(piece)
        have += len(piece)
    return b"".join(pieces)


def place(rng, data):
    return rng.randint(0, len(data))


def stretch(rng, data, longest):
    begin = place(rng, data)
    return begin, min(len(data), begin + rng.randint(1, longest))


def flags_of(data):
    return [match.start() for match in re.finditer(FLAG, data)]


def flip_bits(rng, data):
    data = bytearray(data)
    for _ in range(rng.choice((1, 1, 2, 8))):
        if data:
            data[rng.randrange(len(data))] ^= 1 << rng.randrange(8)
    return bytes(data)


def drop_octets(rng, data):
    for _ in range(rng.choice((1, 1, 2, 5))):
        at = place(rng, data)
        data = data[:at] + data[at + 1:]
    return data


def insert(rng, data, piece):
    at = place(rng, data)
    return data[:at] + piece + data[at:]


def insert_octets(rng, data):
    return insert(rng, data, rng.randbytes(rng.choice((1, 1, 2, 5))))


def insert_codes(rng, data):
    return insert(rng, data, from_set(rng, CODES, rng.randint(1, 6)))


def lose_stretch(rng, data):
    begin, end = stretch(rng, data, rng.choice((4, 40, 400)))
    return data[:begin] + data[end:]


def lose_flag(rng, data):
    flags = flags_of(data)
    if not flags:
        return data
    at = rng.choice(flags)
    return data[:at] + data[at + 1:]


def lose_flags(rng, data):
    begin, end = stretch(rng, data, 3000)
    return data[:begin] + data[begin:end].replace(FLAG, b"") + data[end:]


def insert_flags(rng, data):
    for _ in range(rng.choice((1, 1, 3))):
        data = insert(rng, data, FLAG * rng.choice((1, 1, 2)))
    return data


def repeat_stretch(rng, data):
    begin, end = stretch(rng, data, rng.choice((4, 60, 1000)))
    return data[:end] + data[begin:end] * rng.choice((1, 2)) + data[end:]


def swap_frames(rng, data):
    frames = data.split(FLAG)
    a, b = rng.randrange(len(frames)), rng.randrange(len(frames))
    frames[a], frames[b] = frames[b], frames[a]
    return FLAG.join(frames)


def repeat_frame(rng, data):
    frames = data.split(FLAG)
    a = rng.randrange(len(frames))
    return FLAG.join(frames[:a + 1] + frames[a:])


def lose_resumed(rng, data):
    """Loses a frame that begins D1, so that what it would have finished goes stale."""
    frames = data.split(FLAG)
    resumed = [i for i, frame in enumerate(frames) if frame[:1] == b"\xd1"]
    if resumed:
        del frames[rng.choice(resumed)]
    return FLAG.join(frames)


def restart_frame(rng):
    """A frame that begins FF, without its flag."""
    return b"\xff" + rng.choice((b"", b"\x03\xc0\x21", rng.randbytes(rng.randint(1, 9)).replace(FLAG, b"1")))


def restart_suspended(rng, data):
    """Puts one frame that begins FF, or two, before one that begins D1. The one or two frames that stood there stay, come
    once more behind FF, move behind it, or are lost."""
    frames = data.split(FLAG)
    resumed = [i for i, frame in enumerate(frames) if frame[:1] == b"\xd1"]
    if resumed:
        end = rng.choice(resumed)
        begin = max(0, end - rng.choice((1, 1, 2)))
        some = frames[begin:end]
        restarts = [restart_frame(rng) for _ in range(rng.choice((1, 1, 1, 2)))]
        frames[begin:end] = rng.choice((some + restarts, some + restarts + some, restarts + some, restarts))
    return FLAG.join(frames)


def insert_frame(rng, data):
    """A frame that is an edge of its own."""
    some = rng.randbytes(rng.choice((0, 1, 3, 12))).replace(FLAG, b"1")
    frame = rng.choice((
        b"\xff\x03\xc0\x21", b"\xff", b"\xff" + some, b"\xd1" + some, b"\xd1", b"\xd1\xff", b"\xd1\xd1", b"\xd1\xd2",
        b"\xd2" + some, b"\x01", b"\xd3", b"\x02", b"\x05", b"\xe0", b"\xd3" + some,
        b"\x05" + b"1111", b"\xd0" + b"1" * 207, b"\xd0" + b"1" * 206, b"\xd0" + b"1" * 207 + b"\x01",
        b"\x06" + b"11111", b"\x07" + b"111111",
        b"\xd1\x01", b"\xd1\xd0" + b"1" * 207, b"\xcf" + b"1" * 206,
    ))
    return insert(rng, data, FLAG + frame + FLAG)


def insert_long(rng, data):
    """A frame that decodes to about 2,051 octets or 2,053, or far beyond."""
    runs = rng.randint(134, 138)
    frame = rng.choice((
        b"\xdf" * runs + bytes((rng.randint(0xD3, 0xDF),)),
        b"\xdf" * 136 + rng.choice((b"\xdb", b"\xdc", b"\xda\x01", b"\xda\xe0", b"\xd9\x02\x31", b"\xd9\xe1\x31",
                                    b"\xd9\x03\x31\x32", b"\xdb\x31", b"\xdb\x01", b"\xdb\x02\x31", b"\xda\x02\x31")),
        b"\xdf" * 136 + rng.choice((b"\xdd", b"\xde", b"\xdc\x01", b"\xdc\xe0", b"\xdb\xe0", b"\xdb\xe1\x31",
                                    b"\xdb\x03\x31\x32", b"\xdd\x31", b"\xdd\x01", b"\xdd\x02\x31", b"\xdc\x02\x31")),
        b"\xdf" * rng.randint(137, 3000),
        (b"\xd0" + b"1" * 207) * rng.choice((9, 10, 11)) + b"\x01",
        (b"\xcf" + b"1" * 206) * 9 + bytes((rng.randint(0xB8, 0xC4),)) + b"2" * rng.randint(180, 200),
        b"\xe1\x31" * rng.randint(680, 690),
        b"\xd1" + b"\xdf" * rng.randint(100, 137),
        zero_free(rng, 4000).replace(FLAG, b"\x01"),
    ))
    return insert(rng, data, FLAG + frame + FLAG)


def insert_noise(rng, data):
    return insert(rng, data, rng.randbytes(rng.choice((10, 100, 2000))))


def swap_zero_flag(rng, data):
    data = bytearray(data)
    for _ in range(4):
        at = data.find(rng.choice((0x00, 0x7E)), place(rng, data))
        if at >= 0:
            data[at] ^= 0x7E
    return bytes(data)


DAMAGES = (flip_bits, flip_bits, drop_octets, insert_octets, insert_codes, lose_stretch, lose_flag, lose_flags,
           insert_flags, repeat_stretch, swap_frames, repeat_frame, lose_resumed, lose_resumed, restart_suspended,
           restart_suspended, insert_frame, insert_frame, insert_long, insert_noise, swap_zero_flag)

RESTART_FIRST = re.compile(rb"(?:\A|(?<=\x7e))\xff+")  # what a frame begins with that begins FF


def without_restarts(data):
    """No frame begins FF any more: a capture program reads all of it as COBS."""
    return RESTART_FIRST.sub(b"", data)


# ------------------------------------------------------------------------------------------------
# Plain PPP: maps, frames, damage
# ------------------------------------------------------------------------------------------------

CONTROLS = bytes(range(0x20))
FORBIDDEN = (*range(0x20, 0x40), 0x5E)  # what no sending map may mark
ALLOWED = bytes(octet for octet in range(256) if octet not in FORBIDDEN)
FULL_MAP = 0xFFFFFFFF
PLAIN_CODES = bytes.fromhex("00 01 03 11 13 1F 20 31 41 5D 5E 7D 7D 7D D1 DF FF")


def some_map(rng):
    """A receiving map."""
    return rng.choice((0, 0, FULL_MAP, 0x000A0000, 1 << rng.randrange(32), rng.getrandbits(32)))


def removed_by(control):
    """The octets that a receiving map marks."""
    return bytes(octet for octet in CONTROLS if control >> octet & 1)


def some_marks(rng, control):
    """Octets for a sending map that goes with this receiving one."""
    return removed_by(control) + rng.choice((
        b"", b"", CONTROLS, ALLOWED, b"\x7d\x7e", b"\xff", b"\x5d\x40", b"\x5f\x7f\x1f",
        from_set(rng, ALLOWED, rng.randint(1, 200))))


def worth(rng, agreed):
    """Whether a frame as long as the limit allows is worth its octets: seldom where these are many."""
    return agreed.limit <= 300 or rng.random() < 300 / agreed.limit


def octets_of(rng, length):
    """A packet, of one octet over and over where it is long."""
    if length < 300 or rng.random() < 0.1:
        return packet(rng, length)
    return bytes((rng.choice(b"\x00\x11\x41\x7d\x7e\xff"),)) * length


def plain_frame(rng, agreed, marked=b""):
    """A frame with its flag: mostly a good one, of any length up to the limit and about it."""
    longest = agreed.limit if worth(rng, agreed) else min(agreed.limit, rng.randint(2, 40))
    data = octets_of(rng, rng.choice((2, 2, 3, 4, longest - 1, longest, longest, longest + 1, 0, 1, rng.randint(2, longest))))
    check = fcs(data, agreed.width if rng.random() < 0.95 else 48 - agreed.width)
    return stuffed(data + check, marked) + FLAG


def plain_edge(rng, agreed):
    """A frame whose octets are as many as a frame has at most, or nearly, so that 10, 14 or 18 comes at the flag; or a short
    one where that is too long."""
    count = max(0, agreed.longest + rng.choice((-1, 0, 0, 0, 1, 1, 2))) if worth(rng, agreed) else rng.randint(1, 9)
    return b"A" * count + rng.choice((b"", b"", ESCAPE, ESCAPE + b"A", b"A" + ESCAPE, ESCAPE * 2)) + FLAG


def escape_the_flag(_rng, line, _removed):
    return line.replace(FLAG, ESCAPE + FLAG, 1)


def escape_escapes(rng, line, _removed):
    return insert(rng, line, ESCAPE * rng.choice((1, 2, 2, 3)))


def put_in_removed(rng, line, removed):
    """Octets that the map removes, or that are so where it has them, at some places."""
    for _ in range(rng.choice((1, 3, 9))):
        line = insert(rng, line, from_set(rng, removed or CONTROLS, rng.choice((1, 1, 2))))
    return line


PLAIN_DAMAGES = (escape_the_flag, escape_escapes, put_in_removed, put_in_removed, lambda rng, line, _: flip_bits(rng, line),
                 lambda rng, line, _: drop_octets(rng, line), lambda rng, line, _: insert_octets(rng, line),
                 lambda rng, line, _: lose_flag(rng, line), lambda rng, line, _: insert_flags(rng, line))


def plain_piece(rng, agreed, control=0, marked=b""):
    """A frame, good or damaged, an edge, or a few octets."""
    kind = rng.random()
    if kind < 0.4:
        return plain_frame(rng, agreed, marked)
    if kind < 0.65:
        return rng.choice(PLAIN_DAMAGES)(rng, plain_frame(rng, agreed, marked), removed_by(control))
    if kind < 0.72:
        return plain_edge(rng, agreed)
    if kind < 0.94:
        return from_set(rng, PLAIN_CODES + FLAG * 4, rng.choice((1, 1, 2, 3, 6, 12)))
    return rng.choice((FLAG, rng.randbytes(rng.choice((1, 9, 40)))))


def plain_stretch(rng, least, agreed=START, control=0, marked=b""):
    """Such pieces, at least so many octets."""
    pieces, have = [], 0
    while have < least:
        pieces.append(plain_piece(rng, agreed, control, marked))
        have += len(pieces[-1])
    return b"".join(pieces)


def restarted(rng, data, least):
    """A line, an FF frame (straight behind a fragment, or a whole packet, or anything), and plain PPP; seldom COBS behind it."""
    first = rng.choice((b"", b"\x05\x31" + FLAG, b"\x05" + FLAG, b"\xe0\x03\x47\x0f" + FLAG))
    lcp = rng.choice((b"\xff", b"\xff\x03", b"\xff\x7d\x23\xc0\x21", restart_frame(rng))) + FLAG
    marked = rng.choice((b"", CONTROLS, some_marks(rng, 0)))
    if rng.random() < 0.3:
        lcp = stuffed(b"\xff\x03\xc0\x21\x01\x01\0\x04\xd1\xb5", marked.replace(b"\xff", b"")) + FLAG
    behind = data[:600] if rng.random() < 0.3 else b""
    return without_restarts(data) + FLAG + first + lcp + plain_stretch(rng, least, marked=marked) + behind


def pieces_of(rng, data):
    at = 0
    while at < len(data):
        length = rng.choice((200, 1000, 4000, 12000))
        yield data[at:at + length]
        at += length


def damaged(rng, data, rate):
    """About `rate` damages a piece."""
    parts = []
    for piece in pieces_of(rng, data):
        while rng.random() < rate / (1 + rate):
            piece = rng.choice(DAMAGES)(rng, piece)
        parts.append(piece)
    return b"".join(parts)


def captures(programs, rng, total):
    """Named captures, about `total` octets in all. Behind a frame that begins FF all is read as plain PPP, so most have none, or
    one behind a long line of COBS."""
    yield "empty", b""
    yield "every octet", b"".join(bytes((o,)) + b"\x31\x32\x7e" for o in range(256))
    for first in range(256):
        yield f"octet {first}", bytes((first,))
    pool = sound_line(programs, rng, max(20_000, total // 3))
    for n in range(200):
        begin, end = stretch(rng, pool, rng.choice((8, 60, 600, 6000)))
        yield f"short cut {n}", pool[begin:end]
        yield f"short damaged {n}", damaged(rng, pool[begin:end], rng.choice((0.5, 2, 6)))
        yield f"short codes {n}", from_set(rng, CODES + FLAG * 3 + b"\x31\x05", rng.randint(0, 80))
        yield f"short restarted {n}", restarted(rng, pool[begin:end][:600], rng.choice((1, 40, 200, 4000)))
        codes = from_set(rng, PLAIN_CODES + FLAG * 4, rng.randint(0, 80))
        yield f"short plain codes {n}", b"\xff" + FLAG * rng.randrange(2) + codes
    yield "sound", pool
    yield "sound, cut in a frame", pool[:-rng.randint(2, 300)]
    yield "sound, but of 32 bits", sound_line(programs, rng, total // 40, width=32)
    urgent = sound_line(programs, rng, total // 20, 1)
    for n in range(100):
        begin, end = stretch(rng, urgent, 6000)
        yield f"restart {n}", restart_suspended(rng, urgent[begin:end])
    for n in range(10):
        begin, end = stretch(rng, urgent, 40_000)
        yield f"restarted {n}", restarted(rng, damaged(rng, urgent[begin:end], 0.5), total // 100)
    codes = from_set(rng, CODES + FLAG + b"\x31\x05\x06", total // 20)
    noise = rng.randbytes(total // 20)
    yield "codes", without_restarts(codes)
    yield "codes, read plain", b"\xff" + codes[:total // 60]
    yield "noise", without_restarts(noise)
    yield "noise, read plain", b"\xff" + noise
    yield "noise, few flags", rng.randbytes(total // 40).replace(FLAG, b"\x00")
    left = total
    while left > 0:
        urgent = rng.choice((0, 0.5, 1))
        line = sound_line(programs, rng, min(left, rng.choice((30_000, 300_000, 2_000_000))), urgent)
        line = damaged(rng, line, rng.choice((0.2, 0.7, 2)))
        if rng.random() < 0.9:
            line = without_restarts(line)
        line = line[:-rng.randint(1, 50)] if rng.random() < 0.3 else line
        left -= len(line)
        yield f"damaged, {left} to go", line


def note_restart(programs, data, lines, seen):
    """Where a frame begins FF: whether something was held then, as far as the lines before it tell, and what is reported from
    there on, in plain reading."""
    first = RESTART_FIRST.search(data)
    if first is None:
        seen.reports["no restart"] += 1
        return
    lines, before = lines.decode().splitlines(), programs.of_model("capture", data[:first.start()]).decode().splitlines()
    if before and before[-1][0] == "H":
        seen.reports["restart, something held"] += 1
    if not any(line[0] == "H" for line in before):
        seen.reports["restart, nothing held"] += 1
    for line in lines[len(before):]:
        seen.reports["plain " + (f"refused-{line[2:]}" if line[0] == "R" else "packets" if line[0] == "P" else "held")] += 1


class Seen:
    """What the compared runs showed."""

    def __init__(self):
        self.octets = self.captures = self.scripts = self.calls = 0
        self.reports = collections.Counter()
        self.answers = collections.Counter()


def compare_captures(programs, rng, total, seen):
    for name, data in captures(programs, rng, total):
        lines = programs.same("capture", data, name)
        counts = programs.same("count", data, name)
        reports = 0
        for line in counts.decode().splitlines():
            kind, count = line.split()
            seen.reports[kind] += int(count)
            reports += int(count)
        if reports != lines.count(b"\n"):
            sys.exit(f"capture and count of the model do not agree on {name}")
        note_restart(programs, data, lines, seen)
        seen.octets += len(data)
        seen.captures += 1


# ------------------------------------------------------------------------------------------------
# Exercise scripts
# ------------------------------------------------------------------------------------------------

EDGES = (0, 1, 2, 3, 4, 5, 6, 7, 8, 10, 11, 206, 207, 208, 255, 256, 257, 258, *range(2048, 2056),
         *range(16384, 16392), 65535)
WRONG_WIDTHS = (0, 1, 8, 15, 17, 24, 31, 33, 48, 64, 255)
LIMITS_BELOW, LIMITS_ABOVE = (0, 1), (16385, 16386, 16640, 18432, 32768, 32770, 65534, 65535)
SMALL = range(2, 21)  # limits whose edges cost few octets
WIDTH, LIMIT, REGISTER, MODE = 10, 11, 12, 14  # places among a state's numbers; of a receiver's the last two are its map
OFF, COBS, PLAIN, ESCAPED = range(4)  # modes
REMEMBERED_GOOD = (*range(5, 11), 21)  # refusals that may be remembered
PLACES = (0, 1, 2040, 2051, 4095, 4096, 16380, 16389, 20470, 20478, 20479, 20480, 20481, 40950, 40958, 40959, 40960, 40961,
          65534, 65535)


def within(least, value, most):
    return max(least, min(most, value))


def edge(rng, around):
    """A value near one that matters."""
    kind = rng.random()
    if kind < 0.55:
        return within(0, around + rng.choice((-2, -1, 1, 1, 2)), 65535)
    if kind < 0.9:
        return rng.choice(EDGES)
    return rng.randrange(65536)


def settings(rng):
    return rng.choice((0, 1, 2, 3, 3, 3, 3, 0xFC, 0xFD, 0xFE, 0xFF, rng.randrange(256)))


def wrong_width(rng):
    return rng.choice((*WRONG_WIDTHS, rng.choice([w for w in range(256) if w not in WIDTHS])))


def good_width(rng):
    return rng.choice((16, 32, 32))


def width_number(rng):
    """A number for the width of a state, taken by its remainder by 256."""
    return rng.choice((*WIDTHS, wrong_width(rng), wrong_width(rng))) + 256 * rng.choice((0, 0, 0, 1, 255))


def wrong_limit(rng):
    return rng.choice((*LIMITS_BELOW * 4, *LIMITS_ABOVE, rng.randint(16385, 65535)))


def good_limit(rng):
    """A small one most often; 16,384 seldom enough, since its octets are many."""
    kind = rng.random()
    if kind < 0.55:
        return rng.choice((2, 2, 3, rng.choice(SMALL), rng.choice(SMALL)))
    if kind < 0.8:
        return 2048
    if kind < 0.87:
        return rng.choice((rng.randint(21, 40), rng.randint(199, 212), rng.randint(254, 258), 2047, 2049, 16383,
                           rng.randint(21, 16383)))
    return 16384


def limit_number(rng, limit):
    """A number for the limit of a state that was in bounds with another: near that one, out of range, or any."""
    return rng.choice((within(0, limit + rng.choice((-3, -2, -1, 1, 2)), 65535), wrong_limit(rng), good_limit(rng),
                       rng.randrange(65536)))


def some_agreed(rng):
    return Agreed(good_width(rng), good_limit(rng))


def other_agreed(rng, agreed):
    """The same mostly; another width, or a limit near this one or any."""
    kind = rng.random()
    if kind < 0.8:
        return agreed
    if kind < 0.87:
        return agreed.with_other_width()
    if kind < 0.94:
        return agreed._replace(limit=within(2, agreed.limit + rng.choice((-2, -1, 1, 2)), 16384))
    return some_agreed(rng)


def opening_agreed(rng, agreed):
    """The same mostly; others, or wrong ones."""
    kind = rng.random()
    if kind < 0.8:
        return other_agreed(rng, agreed)
    if kind < 0.87:
        return agreed._replace(width=wrong_width(rng))
    return Agreed(agreed.width if kind < 0.95 else wrong_width(rng), wrong_limit(rng))


def lane_numbers(rng, agreed):
    least, most = agreed.shortest, agreed.longest
    length = min(most, rng.choice((0, 0, least, least + 1, 30, 33, 209, 210, most - 1, most, rng.randint(least, most))))
    if length == 0:
        return 0, rng.choice((0, 0, 0, 1))
    return length, rng.choice((0, 0, 1, length - 1, length, length + 1, rng.randint(0, length + 1)))


def sender_state(rng, agreed):
    """The twelve numbers of a sender state in bounds."""
    low, high = lane_numbers(rng, agreed), lane_numbers(rng, agreed)
    line = rng.choice([0] + [1] * 2 * (low[0] > 0) + [2] * 2 * (high[0] > 0))
    left = zeros = 0
    if line:
        length, position = low if line == 1 else high
        room = length + 1 - position
        left = min(room, rng.choice((0, 0, 1, 2, 30, 206, 207, rng.randint(0, 207))))
        zeros = min(room - left, rng.choice((0, 1, 2))) if left else 0
    suspended = int(low[0] > 0 and line != 1 and rng.random() < 0.5)
    cut_due = int(line == 1 and left == 0 and rng.random() < 0.3)
    return [settings(rng), *low, *high, left, zeros, line, suspended, cut_due, *agreed]


def some_register(rng, agreed, held):
    """A register in bounds: the start value with nothing held, else any of the width."""
    start = agreed.start
    some = rng.randint(0, start)
    return rng.choice((0, 1, start - 1, start, 0xFFFF, 0xFFFE, some, some)) if held else start


def held_number(rng, agreed):
    """What a receiver has held: 0 for nothing, else the count and one."""
    most = agreed.most
    return min(most + 1, rng.choice((0, 0, 1, 2, 6, most - 1, most, most + 1, rng.randint(0, most + 1))))


def ends_of(rng, agreed, held, mode):
    """The last seven numbers of a receiver state: width, limit, register, mode and map."""
    return *agreed, *halves(some_register(rng, agreed, held)), mode, *halves(some_map(rng))


def receiver_state(rng, agreed):
    """The seventeen numbers of a receiver state in bounds; of something held the register is seldom right."""
    mode = rng.choice((OFF, OFF, COBS, PLAIN, ESCAPED))
    return plain_state(rng, agreed, mode) if mode in (PLAIN, ESCAPED) else cobs_state(rng, agreed, mode)


def plain_state(rng, agreed, mode):
    """One that reads plain."""
    held, turn, longest = held_number(rng, agreed), rng.randrange(2), agreed.longest
    if mode == PLAIN and rng.random() < 0.2:
        return [settings(rng), turn, 0, held, 0, 0, 0, 0, 0, 0, *ends_of(rng, agreed, held, mode)]
    decoded = within(0, rng.choice((0, 0, 1, 2, 3, 4, 5, 6, 7, *range(longest - 2, longest + 2), rng.randint(0, longest))), longest
                     + 1)
    refusal = rng.choice((0, 0, 0, 0, 0, rng.choice([n for n in REMEMBERED_GOOD if n != 5])))
    return [settings(rng), turn, decoded, held, 0, 0, 0, 1, rng.choice((0, 0, 1)), refusal, *ends_of(rng, agreed, held, mode)]


def cobs_state(rng, agreed, mode):
    most, held, turn = agreed.most, held_number(rng, agreed), rng.randrange(2)
    if rng.random() < 0.25:
        return [settings(rng), turn, 0, held, 0, 0, 0, 0, 0, 0, *ends_of(rng, agreed, held, mode)]
    decoded = within(0, rng.choice((0, 0, 0, 1, 2, 4, 5, 6, 7, most - 8, *range(most - 3, most + 1), rng.randint(0, most))),
                     most)
    left = rng.choice((0, 0, 0, 0, 1, 1, 2, 206, 207, rng.randint(0, 207)))
    zeros, last, resumed = rng.randrange(3), rng.randrange(3), rng.randrange(2)
    refusal = rng.choice((0, 0, 0, 0, rng.choice([n for n in REMEMBERED_GOOD if n != 5 or mode == OFF])))
    if refusal == 5:
        held = 0
    if refusal == 0 and last == 0:
        resumed = 1
    if refusal == 0 and last == 2 and left == 0 and decoded == 0:
        decoded = 1
    return [settings(rng), turn, decoded, held, left, zeros, last, 1, resumed, refusal, *ends_of(rng, agreed, held, mode)]


def remembering_state(rng, agreed, refusal):
    """A receiver that has this refusal remembered, and something held or nothing: with 5 in bounds only if nothing is."""
    most = agreed.most
    held = rng.choice((0, 0, 1, 2, most + 1, rng.randint(1, most + 1)))
    return [settings(rng), rng.randrange(2), rng.choice((0, 0, most, rng.randint(0, most))), held, rng.choice((0, 0, 207)),
            rng.randrange(3), rng.randrange(3), 1, rng.randrange(2), refusal, *ends_of(rng, agreed, held, OFF)]


def wrong_register(rng, agreed, held):
    """A register out of bounds: beyond 16 bits with something held (at 32 there is none), not at its start with nothing."""
    if held:
        return rng.choice((0x10000, 0x1FFFF, 0x80000000, 0xFFFF0000, 0xFFFFFFFF, rng.randint(0x10000, 0xFFFFFFFF)))
    start = agreed.start
    registers = (0, start - 1, start >> 1, start ^ 0x100, 0xFFFF, 0x10000, 0x1FFFF, 0xFFFF0000, 0xFFFFFFFF,
                 rng.getrandbits(16), rng.getrandbits(32))
    return rng.choice([register for register in registers if register != start])


def just_beyond(rng, agreed):
    """A sender state beyond one bound alone, where a single number seldom comes to it by chance."""
    line, longest = rng.choice((1, 2)), agreed.longest
    lane, other = (longest, 0), (0, 0)
    left, zeros = rng.choice(((1, 3), (0, 1), (0, 2)))
    if longest >= 300 and rng.random() < 0.6:
        lane = rng.randint(300, longest), rng.randint(0, 90)
        left, zeros = rng.choice(((208, 0), (208, 2), (209, 1), (207, 3)))
    low, high = (lane, other) if line == 1 else (other, lane)
    return [settings(rng), *low, *high, left, zeros, line, 0, 0, *agreed]


def sender_at_edges(rng, agreed):
    """A sender whose lanes are in bounds at one width, at both or at none."""
    def lane():
        length = rng.choice((0, *range(3, 8), *range(agreed.limit + 1, agreed.limit + 6)))
        return length, rng.choice((0, length, length + 1, length + 2))

    return [settings(rng), *lane(), *rng.choice((lane(), (0, 0))), 0, 0, rng.randrange(3), 0, 0, *agreed]


def receiver_at_edges(rng, agreed):
    """A receiver whose counts are in bounds at one width, at both or at none; 10 and 13 are near."""
    decoded = rng.choice((*range(3, 8), *range(agreed.limit + 1, agreed.limit + 8)))
    held = rng.choice((0, 0, 0, *range(agreed.limit + 3, agreed.limit + 9)))
    left, zeros = rng.choice(((0, 0), (0, 0), (0, 0), (1, 0), (1, 1), (1, 2), (2, 1)))
    return [settings(rng), rng.randrange(2), decoded, held, left, zeros, rng.choice((1, 2, 2, 2)), 1, rng.randrange(2), 0,
            *ends_of(rng, agreed, held, rng.choice((OFF, COBS)))]


def disturbed(rng, state):
    """One number or a few put to an edge."""
    if rng.random() < 0.45:
        return state
    state = list(state)
    for _ in range(rng.choice((1, 1, 1, 2, 4))):
        at = rng.randrange(len(state))
        state[at] = (width_number(rng) if at == WIDTH else limit_number(rng, state[at]) if at == LIMIT else
                     rng.randrange(8) if at == MODE else edge(rng, state[at]))
    return state


def area_lengths(rng, agreed):
    """Lengths that are exactly enough, enough for the other width or a limit near this one, longer, or too short."""
    kind = rng.random()
    if kind < 0.45:
        return agreed.areas
    if kind < 0.6:
        return agreed.with_other_width().areas
    if kind < 0.7:
        return agreed._replace(limit=agreed.limit + rng.choice((-2, -1, 1, 2))).areas
    lengths = [rng.choice((least, least + 1, 20480, rng.randint(least, 20480))) for least in agreed.areas]
    for _ in range(rng.choice((0, 1, 1, 4))):
        n = rng.randrange(4)
        lengths[n] = rng.choice((*range(agreed.areas[n] - 3, agreed.areas[n] + 2), 0, 1, 2050, 2051, 16386, 20479, 20480,
                                 20481, 40960, 65535))
    return lengths


def out_length(rng):
    return rng.choice((0, 1, 2050, 2051, 20480, 40959, 40960, 40961, 65535, rng.randrange(65536)))


def area_number(rng):
    """One that is there most often; any octet."""
    kind = rng.random()
    if kind < 0.6:
        return rng.randrange(5)
    return rng.choice((5, 6, 7, 8, 127, 128, 252, 253, 254, 255)) if kind < 0.8 else rng.randrange(256)


def area_octets(rng, agreed):
    return packet(rng, rng.choice((4, 40, 300, agreed.most)))


def encoded(frame, runs=True):
    """A frame as code blocks, with 00 for 7E: with the codes of zeros alone if wanted, never one for two zeros after data."""
    d, at, out = frame + b"\0", 0, []
    while at < len(d):
        zeros = 0
        while runs and zeros < 15 and d[at + zeros:at + zeros + 1] == b"\0":
            zeros += 1
        end = d.find(0, at, at + 207)
        if zeros >= 3:
            out.append(bytes((0xD0 + zeros,)))
            at += zeros
        elif end < 0:
            out.append(b"\xd0" + d[at:at + 207])
            at += 207
        else:
            out.append(bytes((end - at + 1,)) + d[at:end])
            at = end + 1
    return b"".join(out).replace(FLAG, b"\0")


def fragment(data):
    """Octets without zeros as the beginning of a frame that ends inside a block, without its flag."""
    full = len(data) // 207 * 207
    blocks = [b"\xd0" + data[at:at + 207] for at in range(0, full, 207)]
    rest = data[full:]
    if len(rest) > 200:  # a code that has more data to come
        return b"".join((*blocks, b"\xd0", rest)).replace(FLAG, b"\0")
    return b"".join((*blocks, bytes((len(rest) + 2,)), rest)).replace(FLAG, b"\0")


def line_octets(rng, agreed, mode=OFF):
    """Octets for the receiver, meaningful ones most."""
    if mode in (PLAIN, ESCAPED) and rng.random() < 0.8:
        return plain_piece(rng, agreed, rng.choice((0, FULL_MAP)), rng.choice((b"", CONTROLS)))
    kind = rng.random()
    if kind < 0.5:
        return from_set(rng, CODES + FLAG * 3 + b"\x31\x05", rng.choice((1, 1, 1, 2, 3, 6, 20)))
    if kind < 0.56:
        return rng.randbytes(rng.choice((1, 2, 30, 300)))
    if kind < 0.68:
        return FLAG
    if kind < 0.76:
        code, data = bytes((rng.randint(1, 8),)), b"1" * rng.randint(4, 6)
        return b"\xd1" * rng.randrange(2) + code + data + FLAG * rng.randrange(2)
    if kind < 0.84:
        # As many zeros as are decoded at most, or nearly.
        return encoded(bytes(max(0, agreed.most - 1 + rng.choice((-2, -1, 0, 0, 1, 1, 2))))) + FLAG
    if kind < 0.88:
        # A block with about as many octets.
        data = b"1" * min(206, agreed.most + rng.choice((-3, -2, -1, 0, 1, 2)))
        return bytes((len(data) + rng.choice((1, 1, 2)),)).replace(FLAG, b"\0") + data + FLAG * rng.randrange(2)
    if kind < 0.92:
        return b"\xd0" + b"1" * rng.choice((205, 206, 207, 207, 207, 208)) + FLAG * rng.randrange(2)
    return zero_free(rng, rng.randint(1, 260)) + FLAG


def octets_shown(area, at, count):
    """How many octets a show writes."""
    whole = WHOLE_AREAS[area] if area < len(WHOLE_AREAS) else 0
    return max(0, min(count, whole - at))


def limit_words(limit):
    if limit not in LIMITS:
        return "limit below 2" if limit < 2 else "limit above 16,384"
    return "small limit" if limit in SMALL else f"limit {limit:,}" if limit in (2048, 16384) else "other limit"


def words(agreed):
    """What an answer is counted under."""
    if agreed.width in WIDTHS:
        return f"{agreed.width} bits, {limit_words(agreed.limit)}"
    return "wrong width" if agreed.limit in LIMITS else f"wrong width, {limit_words(agreed.limit)}"


# Why a sending map is refused 19, and a plain sender 3.
LACKS, HAS_5E, HAS_20 = "a mark of the receiving map lacks", "5E marked", "one of 20 to 3F marked"
NO_ESCAPE, NO_FLAG = "7D not marked", "7E not marked"

# Words for calls about a restart, and the answers: a state handed in, the flag of an FF frame, that of a D1 frame.
REMEMBERED, LET_GO, AFTER_THAT = "5 remembered with something held", "FF with something held", "D1 after that FF"
# The same about the register of what is held: states handed in; flags of D1 frames after a change, or with a wrong register.
NOT_START, BEYOND = "nothing held, register not at its start", "something held, register beyond 16 bits"
NONE_21, SOME_21 = "21 remembered with nothing held", "21 remembered with something held"
CHANGED, AFTER_CHANGE = "held octet changed, then D1", "D1 after that one"
BEHIND, WORK = "octets behind the held ones changed, then D1 alone", "work area changed, then D1 alone"
NOT_OF_HELD, OF_NO_OCTETS = "register not that of the held octets, D1", "no octets held, register not at its start, D1"
NO_PRE = "register not that of the held octets, no PRE, D1"
# The same about plain PPP: states handed in; flags of frames begun FF with plain reading on; flags of plain frames.
NOT_FRESH = {4: "data left in plain reading", 5: "zeros due in plain reading", 6: "a last block in plain reading"}
OUTSIDE, FIVE_ON = "an escape open out of a frame", "5 remembered, plain reading on"
ONE_MORE, STILL_10 = "one octet too many handed in", "one octet too many handed in, an escape open"
SWITCH_HELD, SWITCH = "FF with something held, plain reading on", "FF with nothing held, plain reading on"
PLAIN_0, PLAIN_1 = "plain packet, first area", "plain packet, second area"
PLAIN_10, PLAIN_13 = "plain frame too long", "plain frame too short"
PLAIN_14, PLAIN_18 = "plain frame damaged", "escape open at the flag"
LONGEST_18, REMOVED = "escape open behind the longest frame", "plain packet with removed octets put in"
STUFFED = {SWITCH_HELD: "R 13", SWITCH: "R 13", PLAIN_0: "P area 0", PLAIN_1: "P area 1", PLAIN_10: "R 10", PLAIN_13: "R 13",
           PLAIN_14: "R 14", PLAIN_18: "R 18", LONGEST_18: "R 18", REMOVED: "P area 0"}
TOLD = {**dict.fromkeys(NOT_FRESH.values(), "R 3"), OUTSIDE: "R 3", FIVE_ON: "R 3", ONE_MORE: "R 10", STILL_10: "R 10", **STUFFED,
        REMEMBERED: "R 3", LET_GO: "R 5", AFTER_THAT: "R 8", NOT_START: "R 3", BEYOND: "R 3", NONE_21: "R 21",
        SOME_21: "R 21", CHANGED: "R 21", AFTER_CHANGE: "R 8", BEHIND: "R 9", WORK: "R 9", NOT_OF_HELD: "R 21",
        OF_NO_OCTETS: "R 21", NO_PRE: "R 6"}


class Script:
    """A script and what each of its commands is, so that its output can be told apart. Of both ends it knows width and
    limit, and of the areas how much is lent, so that an answer can be counted by these."""

    def __init__(self):
        self.parts = []
        self.kinds = []
        self.ends = {"sender": START, "receiver": START, "plain sender": START}
        self.lengths, self.out = START.areas, 2051
        self.marked = b""  # by the plain sender, beside 7D and 7E; None where a state was handed in that is out of bounds

    def add(self, command, kind=None, calls=0, about=None):
        self.parts.append(command)
        self.kinds.append((kind, calls, about))

    def octets(self):
        return b"".join(self.parts)

    def at(self, end, places):
        """Under what an answer is counted: width and limit, and the areas of these places where they matter to it."""
        agreed, shortest = self.ends[end], min(self.lengths[n] for n in places)
        if agreed.good:
            for_16 = agreed.width == 32 and agreed.areas[places[0]] - 2 <= shortest < agreed.areas[places[0]]
            return "32 bits, areas for 16" if for_16 else words(agreed)
        least = lent(16, agreed.limit if agreed.limit in LIMITS else 2)[places[0]]
        return words(agreed) + ", short area" * (shortest < least)

    def refused(self, end, places):
        """Whether a call is refused by width, limit or areas; then a few calls will do."""
        agreed = self.ends[end]
        return not agreed.good or any(self.lengths[n] < agreed.areas[n] for n in places)

    def open(self, end, settings, agreed, *reading):
        """A refused opening leaves the end as it was. A receiver may be told to read plain, and its map."""
        if agreed.good:
            self.ends[end] = agreed
        command = open_sender if end == "sender" else open_receiver
        self.add(command(settings, *agreed, *reading), f"open {end}", 1, words(agreed))

    def pair(self, settings, agreed, control, marked, why=None):
        """`why` says why the sending map is refused."""
        if agreed.good and not why:
            self.ends["receiver"] = self.ends["plain sender"] = agreed
            self.marked = marked
        about = f"{words(agreed)}, {why}" if agreed.good and why else words(agreed)
        self.add(open_pair(settings, *agreed, control, marks(marked)), "open pair", 1, about)

    def hand_plain(self, agreed, marked, why=None):
        """`why` says why the marks, which are all of it here, are out of bounds."""
        self.ends["plain sender"], self.marked = agreed, None if why else marked
        self.all_marks, self.why = marked, why
        self.add(hand_plain_sender(*agreed, marks(marked)))

    def send_plain(self, data):
        """Under what the answer is counted: width and limit, and why the marks are out of bounds or whether out is too short
        for any packet."""
        agreed = self.ends["plain sender"]
        about = words(agreed)
        if not agreed.good:
            about += ", short area" * (self.out < 3)
        elif self.marked is None:
            about += f", {self.why}"
        self.add(send_plain(data), "plain send", 1, about)

    def lend_out(self, length):
        self.out = min(length, WHOLE_AREAS[4])
        self.add(lend_out(length))

    def hand(self, end, numbers):
        self.ends[end] = Agreed(numbers[WIDTH] % 256, numbers[LIMIT])
        self.add((hand_sender if end == "sender" else hand_receiver)(numbers))

    def lend(self, lengths):
        self.lengths = lengths
        self.add(lend(lengths))

    def load(self, lane, data):
        self.add(load_high(data) if lane else load_low(data), "load", 1, self.at("sender", (lane,)))

    def next(self, count):
        count = min(count, 9) if self.refused("sender", (0, 1)) else count
        self.add(next_octets(count), "next octet", count, self.at("sender", (0, 1)))

    def states(self):
        self.add(SHOW_STATES, "states")

    def show(self, area, at, count):
        self.add(show(area, at, count), "show", about=(area, at, count))

    def show_all(self):
        for area in range(len(WHOLE_AREAS)):
            self.show(area, 0, 65535)

    def receive(self, data, about=None):
        """Always followed by both states, so that its lines end at an `S`."""
        data = data[:20] if self.refused("receiver", (2, 3)) else data
        self.add(receive(data), "receiver", len(data), about or self.at("receiver", (2, 3)))
        self.states()


def show_some(rng, script, area, near):
    kind = rng.random()
    if kind < 0.6:
        script.show(area, max(0, min(65535, near - 4)), 14)
    elif kind < 0.8:
        script.show(area_number(rng), rng.choice(PLACES), rng.choice((0, 1, 6, 20)))
    elif kind < 0.84:
        script.show(area, 0, 2100)
    elif kind < 0.841:
        script.show(area, 0, 65535)


def add_load(rng, script, agreed):
    lane, longest = rng.randrange(2), agreed.limit
    length = rng.choice((0, 1, 2, 3, 4, 9, 40, 206, longest - 1, longest, longest, longest + 1, longest + 2,
                         rng.randint(0, 300)))
    if rng.random() < 0.01:
        length = rng.choice((20478, 20480, 20481, 65535))
    script.load(lane, packet(rng, length))
    if rng.random() < 0.6:
        script.states()
    show_some(rng, script, lane, length)


def add_sends(rng, script, agreed):
    """Next-octet calls, one by one or many."""
    for _ in range(rng.choice((1, 2, 4))):
        script.next(rng.choice((0, 1, 1, 1, 1, 1, 2, 3, 9, rng.randint(1, 220))))
        if rng.random() < 0.7:
            script.states()
        if rng.random() < 0.1:
            show_some(rng, script, rng.randrange(2), rng.choice((4, agreed.longest)))


def add_sender_state(rng, script, agreed):
    agreed, kind = other_agreed(rng, agreed), rng.random()
    state = (just_beyond(rng, agreed) if kind < 0.05 else sender_at_edges(rng, agreed) if kind < 0.15 else
             disturbed(rng, sender_state(rng, agreed)))
    script.hand("sender", state)
    if rng.random() < 0.3:
        script.add(fill(rng.randrange(2), rng.choice((0, 0, 0, 3, agreed.limit - 2)), area_octets(rng, agreed)))
    if rng.random() < 0.3:
        add_load(rng, script, agreed)
    add_sends(rng, script, agreed)


def with_held(rng, script, state):
    """Mostly puts octets where a state holds some, and gives it their register."""
    if state[3] == 0 or rng.random() < 0.3:
        return state
    held = packet(rng, state[3] - 1)
    script.add(fill(3 - state[1], 0, held))
    return [*state[:REGISTER], *halves(register_over(held, state[WIDTH])), *state[MODE:]]


def add_receiver_state(rng, script, agreed):
    agreed = other_agreed(rng, agreed)
    state = (receiver_at_edges(rng, agreed) if rng.random() < 0.2 else
             disturbed(rng, with_held(rng, script, receiver_state(rng, agreed))))
    script.hand("receiver", state)
    if rng.random() < 0.15:
        script.add(fill(2 + rng.randrange(2), rng.choice((0, 0, agreed.limit - 2)), area_octets(rng, agreed)))
    for _ in range(rng.choice((1, 1, 2, 4))):
        script.receive(line_octets(rng, agreed, state[MODE] % 4))
        show_some(rng, script, 2 + rng.randrange(2), state[2])


def add_restarted_state(rng, script, agreed):
    """5 remembered in a state handed in, with something held or nothing."""
    agreed = other_agreed(rng, agreed)
    state = remembering_state(rng, agreed, 5)
    script.hand("receiver", state)
    held = state[3] > 0 and not script.refused("receiver", (2, 3))
    script.receive(rng.choice((FLAG, b"\xff", b"\xd1", b"1")), f"{words(agreed)}, {REMEMBERED}" if held else None)
    script.receive(FLAG + line_octets(rng, agreed))


def add_register_state(rng, script, agreed):
    """A register out of bounds in a state that has all else in bounds; or 21 remembered."""
    agreed = other_agreed(rng, agreed)
    if rng.random() < 0.4:
        state, octet = remembering_state(rng, agreed, 21), FLAG
        about = SOME_21 if state[3] else NONE_21
    else:
        state, octet = receiver_state(rng, agreed), rng.choice((FLAG, FLAG, b"\xff", b"\xd1", b"1", ESCAPE))
        if agreed.width == 32 or rng.random() < 0.4:
            state[3] = 0
        about = BEYOND if state[3] else NOT_START
        state[REGISTER:MODE] = halves(wrong_register(rng, agreed, state[3]))
    script.hand("receiver", state)
    script.receive(octet, None if script.refused("receiver", (2, 3)) else f"{words(agreed)}, {about}")
    script.receive(FLAG + line_octets(rng, agreed))


def reads_cobs(rng):
    """Mode and map of a receiver that reads COBS: with plain reading on that makes no difference up to an FF frame."""
    return rng.choice((PLAIN_OFF, (OFF, 7, 0x8000), (COBS, *halves(some_map(rng)))))


def frames_between(rng, agreed):
    """Frames that leave what is held: delivered, refused, empty."""
    data = zero_free(rng, 2)
    return b"".join(rng.choice((encoded(data + fcs(data, agreed.width)), b"\xd2", b"\x01", b"", b"\x01\xff")) + FLAG
                    for _ in range(rng.randrange(3)))


def lend_for(script, agreed):
    """Lends other areas where the receiver's are too short."""
    if any(have < want for have, want in zip(script.lengths[2:], agreed.areas[2:])):
        script.lend(agreed.areas)


def add_changed_area(rng, script, agreed):
    """A fragment is held, and then an area changes before the D1: one octet that is held, which the register always shows,
    octets behind those, or the work area."""
    lend_for(script, agreed)
    most, turn = agreed.most, rng.randrange(2)
    held = zero_free(rng, min(most, rng.choice((1, 2, 9, 40, 206, 207, most - 1, most, rng.randint(1, most)))))
    script.hand("receiver", [rng.choice((2, 3, 3, 0xFE)), turn, *[0] * 8, *agreed, *halves(agreed.start), *reads_cobs(rng)])
    script.receive(fragment(held) + FLAG)
    script.receive(frames_between(rng, agreed))
    what, count = rng.choice((CHANGED, CHANGED, BEHIND, WORK)), len(held)
    if what == CHANGED:
        at = rng.choice((0, count - 1, rng.randrange(count)))
        script.add(fill(2 + turn, at, bytes((held[at] ^ rng.randint(1, 255),))))
    elif what == BEHIND:
        script.add(fill(2 + turn, count + rng.choice((0, 0, rng.randrange(40))), rng.randbytes(rng.choice((1, 4, 40)))))
    else:
        script.add(fill(3 - turn, 0, rng.randbytes(rng.choice((1, 4, count, most)))))
    script.receive(b"\xd1")
    if what == CHANGED:
        script.receive(rng.choice((b"", b"\x03\x37\x38", b"\xff", b"\xd1", zero_free(rng, 9).replace(FLAG, b"1"))))
    script.receive(FLAG, f"{words(agreed)}, {what}")
    if what == CHANGED and rng.random() < 0.5:
        script.receive(b"\xd1" + rng.randbytes(rng.randrange(4)).replace(FLAG, b"1"))
        script.receive(FLAG, f"{words(agreed)}, {AFTER_CHANGE}")
    show_some(rng, script, 2 + rng.randrange(2), count)


def add_wrong_register(rng, script, agreed):
    """Octets held in a state handed in, and a register in bounds that is not theirs; PRE or not."""
    lend_for(script, agreed)
    bits, turn, most = settings(rng), rng.randrange(2), agreed.most
    held = packet(rng, min(most, rng.choice((0, 0, 1, 2, 9, most, rng.randint(0, most)))))
    width, right = agreed.width, register_over(held, agreed.width)
    swapped = int.from_bytes(right.to_bytes(width // 8, "big"), "little")
    wrong = rng.choice((right ^ 1 << rng.randrange(width), right ^ agreed.start, swapped, register_over(held + b"\0", width),
                        agreed.start, some_register(rng, agreed, True)))
    wrong ^= wrong == right
    script.add(fill(3 - turn, 0, held))
    script.hand("receiver", [bits, turn, 0, len(held) + 1, *[0] * 6, *agreed, *halves(wrong), *reads_cobs(rng)])
    script.receive(frames_between(rng, agreed))
    script.receive(b"\xd1" + rng.choice((b"", b"\x03\x37\x38", b"\xff", b"\xd1", b"\x01")))
    script.receive(FLAG, f"{words(agreed)}, " + (NO_PRE if not bits & 2 else NOT_OF_HELD if held else OF_NO_OCTETS))
    script.receive(line_octets(rng, agreed))


def add_decoded_frame(rng, script, agreed):
    """A state handed in with a whole frame, good or nearly, decoded in one of the areas; seldom a frame of the other
    width, or one that is longer than the limit allows."""
    longest = agreed.limit
    frame = packet(rng, rng.choice((min(longest, rng.choice((0, 1, 2, 3, 4, 30))), longest - 1, longest, longest)))
    frame += fcs(frame, 48 - agreed.width if rng.random() < 0.15 else agreed.width) + b"\0"
    if rng.random() < 0.3:
        frame = flip_bits(rng, frame)
    turn = rng.randrange(2)
    script.add(fill(2 + turn, 0, frame))
    held = rng.choice((0, 0, 1, 6, longest + 4, longest + 6))
    state = [settings(rng), turn, len(frame), held, 0, 0, 2, 1, rng.randrange(2), 0, *agreed,
             *halves(some_register(rng, agreed, held)), *reads_cobs(rng)]
    if rng.random() < 0.3:  # the same in plain reading, with or without the octet that is COBS's zero
        state[2], state[6], state[MODE] = len(frame) - rng.choice((1, 1, 1, 0)), 0, rng.choice((PLAIN, PLAIN, PLAIN, ESCAPED))
    state = with_held(rng, script, state)
    if rng.random() < 0.3:
        state = disturbed(rng, state)
    script.hand("receiver", state)
    script.receive(FLAG)
    script.receive(rng.choice((FLAG, b"\xd1\x02\x31\x7e", b"\x05\x31\x7e")))
    show_some(rng, script, 2 + turn, len(frame))


def add_held_frame(rng, script, agreed):
    """A state handed in with the beginning of a good frame held; the rest arrives after D1. Half the time a restart comes
    before it, and then the beginning once more."""
    whole = zero_free(rng, min(agreed.limit, rng.choice((2, 9, 100))))
    whole += fcs(whole, agreed.width)
    if 0 in whole:
        return
    cut, turn = rng.randint(0, len(whole)), rng.randrange(2)
    script.add(fill(3 - turn, 0, whole[:cut]))
    bits = rng.choice((2, 3, 3, 1))
    register = register_over(whole[:cut], agreed.width)
    script.hand("receiver", [bits, turn, 0, cut + 1, 0, 0, 0, 0, 0, 0, *agreed, *halves(register)])
    rest = b"\xd1" + encoded(whole[cut:]) + FLAG
    if rng.random() < 0.5:
        if script.refused("receiver", (2, 3)):
            script.lend(agreed.areas)
        script.receive(restart_frame(rng))
        script.receive(FLAG, f"{words(agreed)}, {LET_GO}")
        script.receive(rest[:-1])
        script.receive(FLAG, f"{words(agreed)}, {AFTER_THAT}" if bits & 2 else None)
        script.receive(encoded(whole)[:1 + cut] + FLAG)
    script.receive(rest)
    show_some(rng, script, 2 + rng.randrange(2), cut)


def some_reading(rng):
    """Plain reading off or on, and a map: the last two operands of an opening."""
    return rng.choice((0, 0, 1, 1, 2, 255)), some_map(rng)


def add_whole_frame(rng, script, agreed):
    """A frame about as long as the limit allows, of few octets where it is long; and the receiver of another limit."""
    length = max(0, agreed.limit + rng.choice((-1, 0, 0, 0, 1, 2)))
    data = packet(rng, length) if length < 300 or rng.random() < 0.02 else bytes(length)
    line = encoded(data + fcs(data, agreed.width)) + FLAG
    script.open("receiver", rng.choice((3, 3, 3, 1, 2)), other_agreed(rng, agreed), *some_reading(rng))
    if rng.random() < 0.3:
        line = b"\x05\x31" + FLAG + line
    if rng.random() < 0.3:
        cut = rng.randrange(len(line))
        line = line[:cut] + FLAG + line[cut:]
    script.receive(line)
    show_some(rng, script, 2 + rng.randrange(2), length)


def add_line(rng, script, agreed, pools):
    """A stretch of a line, sound or damaged, received from fresh or going on."""
    if rng.random() < 0.6:
        script.open("receiver", settings(rng), opening_agreed(rng, agreed), *some_reading(rng))
    pool = pools[agreed.width, next((limit for limit in POOL_LIMITS if agreed.limit <= limit), POOL_LIMITS[-1])]
    begin, end = stretch(rng, pool, rng.choice((60, 60, 300, 300, 3000)))
    data = pool[begin:end]
    if rng.random() < 0.6:
        data = damaged(rng, data, 1)[:60000]
    if rng.random() < 0.5:
        data = without_restarts(data)
    script.receive(data)
    show_some(rng, script, 2 + rng.randrange(2), 5)


def add_plain_bounds(rng, script, agreed):
    """A receiver that is out of bounds by one thing alone that plain reading brings, or that is refused 10 for one octet."""
    agreed = other_agreed(rng, agreed)
    lend_for(script, agreed)
    kind, octet = rng.randrange(6), rng.choice((FLAG, FLAG, ESCAPE, b"\xff", b"\x11", b"1"))
    mode = rng.choice((PLAIN, ESCAPED))
    state = plain_state(rng, agreed, mode)
    if kind < 3:
        at = rng.choice((*NOT_FRESH,))
        state[7], state[at], what = 1, rng.choice((1, 2)), NOT_FRESH[at]
    elif kind == 3:
        held = state[3]
        state, what = [settings(rng), rng.randrange(2), 0, held, *[0] * 6, *ends_of(rng, agreed, held, ESCAPED)], OUTSIDE
    elif kind == 4:
        state, what = remembering_state(rng, agreed, 5), FIVE_ON
        state[MODE] = rng.choice((COBS, PLAIN, ESCAPED))
        state[3:7], state[REGISTER:MODE] = [0] * 4, halves(agreed.start)
    else:
        state[2], state[7], state[9], octet, what = agreed.most, 1, 0, FLAG, ONE_MORE if mode == PLAIN else STILL_10
    script.hand("receiver", state)
    script.receive(octet, f"{words(agreed)}, {what}")
    script.receive(FLAG + line_octets(rng, agreed, mode))


def add_switch(rng, script, agreed):
    """A frame that begins FF comes to a receiver with plain reading on that holds something, or nothing."""
    lend_for(script, agreed)
    held, turn = rng.choice((b"", b"1", b"12", zero_free(rng, min(agreed.most, 60)), None, None, None)), rng.randrange(2)
    register = agreed.start if held is None else register_over(held, agreed.width)
    if held:
        script.add(fill(3 - turn, 0, held))
    script.hand("receiver", [settings(rng), turn, 0, 0 if held is None else len(held) + 1, *[0] * 6, *agreed, *halves(register),
                             COBS,
                             *halves(some_map(rng))])
    script.receive(frames_between(rng, agreed))
    script.receive(b"\xff")
    script.receive(rng.choice((b"", b"", b"\x41", b"\x7d\x23")))
    script.receive(FLAG, f"{words(agreed)}, {SWITCH if held is None else SWITCH_HELD}")
    script.receive(rng.choice((b"\xd1\x01" + FLAG, plain_piece(rng, agreed), encoded(b"AB" + fcs(b"AB", agreed.width)) + FLAG)))
    show_some(rng, script, 2 + rng.randrange(2), 2)


def plain_case(rng, agreed, control, marked):
    """A frame without its flag, and what it is called: of a receiver that works in its first area."""
    longest, shortest = agreed.longest, agreed.shortest
    long = worth(rng, agreed)
    data = octets_of(rng, rng.choice((2, 2, min(agreed.limit, 9), agreed.limit if long else 3)) if agreed.limit > 2 else 2)
    whole = stuffed(data + fcs(data, agreed.width), marked)
    kind = rng.choice((0, 1, 2, 3, 4, 5, 6) if long else (1, 2, 3, 5, 6))
    if kind == 0:
        return b"A" * (longest + rng.choice((1, 1, 2, 9))) + rng.choice((b"", ESCAPE)), PLAIN_10
    if kind == 1:
        return rng.randbytes(rng.randint(1, shortest - 1)).translate(HARMLESS), PLAIN_13
    if kind == 2:
        frame = bytearray(data + fcs(data, agreed.width))
        frame[rng.randrange(len(frame))] ^= 1 << rng.randrange(8)
        return stuffed(frame, marked), PLAIN_14
    if kind == 3:
        return rng.choice((b"", b"A", whole)) + ESCAPE, PLAIN_18
    if kind == 4:
        return b"A" * longest + ESCAPE, LONGEST_18
    if kind == 5 and control:
        return put_in_removed(rng, whole, removed_by(control)), REMOVED
    return whole, PLAIN_0


HARMLESS = bytes(octet if octet >= 0x20 and octet not in (0x7D, 0x7E) else 0x41 for octet in range(256))


def add_stuffed(rng, script, agreed):
    """A pair, or a receiver opened by itself, an FF frame or a state that reads plain, noise and a flag; then plain frames
    of which it is known what they are answered."""
    lend_for(script, agreed)
    control, turn = some_map(rng), 0
    marked = some_marks(rng, control)
    if rng.random() < 0.4:
        turn = rng.randrange(2)
        script.hand("receiver", [settings(rng), turn, *[0] * 8, *agreed, *halves(agreed.start), PLAIN, *halves(control)])
    elif rng.random() < 0.5:
        script.pair(settings(rng), agreed, control, marked)
        script.receive(b"\xff" + FLAG)
    else:
        script.open("receiver", settings(rng), agreed, 1, control)
        script.receive(b"\xff" + FLAG)
    script.receive(plain_stretch(rng, rng.choice((0, 1, 40)), agreed, control, marked) + FLAG)
    for _ in range(rng.choice((1, 2, 4))):
        line, what = plain_case(rng, agreed, control, marked)
        if turn and what in (PLAIN_0, REMOVED):
            what = PLAIN_1
        script.receive(line)
        script.receive(FLAG, f"{words(agreed)}, {what}")
    show_some(rng, script, 2 + turn, rng.choice((3, agreed.longest)))


def add_nearly_full(rng, script, agreed):
    """A plain frame handed in that has as many octets as it may, or a few less; the next ones bring 10 or 18 at its flag."""
    lend_for(script, agreed)
    room, held = rng.randrange(min(4, agreed.longest)), held_number(rng, agreed)
    script.hand("receiver", [settings(rng), rng.randrange(2), agreed.longest - room, held, 0, 0, 0, 1, rng.randrange(2), 0,
                             *ends_of(rng, agreed, held, PLAIN)])
    octets, what = rng.choice(((b"A", PLAIN_10), (ESCAPE + b"A", PLAIN_10), (b"A" + ESCAPE, PLAIN_10), (ESCAPE, LONGEST_18)))
    script.receive(b"A" * room + octets)
    show_some(rng, script, 2 + rng.randrange(2), agreed.longest)
    script.receive(FLAG, f"{words(agreed)}, {what}")


def add_plain_line(rng, script, agreed):
    """A stretch of plain PPP, received from fresh, from a pair or going on."""
    control, kind = some_map(rng), rng.random()
    marked = some_marks(rng, control)
    if kind < 0.4:
        script.pair(settings(rng), other_agreed(rng, agreed), control, marked)
    elif kind < 0.7:
        script.open("receiver", settings(rng), other_agreed(rng, agreed), 1, control)
    data = plain_stretch(rng, rng.choice((1, 30, 300)), agreed, control, marked)
    script.receive(rng.choice((b"\xff", b"\xff" + FLAG, b"")) + data[:60000])
    show_some(rng, script, 2 + rng.randrange(2), 5)


def refused_marks(rng, control):
    """A sending map that is refused for this receiving one, for one reason alone; and why."""
    marked, removed = some_marks(rng, control), removed_by(control)
    kind = rng.randrange(3)
    if kind == 0 and removed:
        return marked.replace(bytes((rng.choice(removed),)), b""), LACKS
    if kind == 1:
        return marked + b"\x5e", HAS_5E
    return marked + bytes((rng.choice((0x20, 0x3F, rng.randint(0x20, 0x3F))),)), HAS_20


def add_pairs(rng, script, agreed):
    """Openings of pairs, good and refused; each followed by what plain sender and receiver are then."""
    for _ in range(rng.choice((1, 3))):
        control, kind = some_map(rng), rng.random()
        if kind < 0.4:
            script.pair(settings(rng), agreed, control, some_marks(rng, control))
        elif kind < 0.7:
            marked, why = refused_marks(rng, control)
            script.pair(settings(rng), agreed, control, marked, why)
        else:
            script.pair(settings(rng), wrong_agreed(rng, agreed), control, *rng.choice(
                ((some_marks(rng, control),), refused_marks(rng, control))))
        script.states()
        add_plain_sends(rng, script)


def out_of_bounds_marks(rng):
    """All marks of a plain sender's state that is out of bounds for one reason alone, and why."""
    some = some_marks(rng, 0).replace(ESCAPE, b"").replace(FLAG, b"")
    return rng.choice(((some + FLAG, NO_ESCAPE), (some + ESCAPE, NO_FLAG), (some + b"\x5e\x7d\x7e", HAS_5E),
                       (some + b"\x7d\x7e" + bytes((rng.randint(0x20, 0x3F),)), HAS_20)))


def line_length(data, agreed, marked):
    """Octets that a plain sender writes whose marks are all of these."""
    return sum(2 if octet in marked else 1 for octet in data + fcs(data, 32 if agreed.width == 32 else 16)) + 1


def add_plain_sends(rng, script):
    """Packets with exactly as much of out as they want, one octet less, or any length."""
    for _ in range(rng.choice((1, 2, 4))):
        agreed = script.ends["plain sender"]
        limit = agreed.limit if agreed.limit in LIMITS else 20
        length = rng.choice((0, 1, 2, 2, 3, limit - 1, limit, limit, limit + 1, min(300, rng.randint(2, limit))))
        data = octets_of(rng, length)
        marked = script.all_marks if script.marked is None else {*script.marked, *ESCAPE, *FLAG}
        script.lend_out(rng.choice((*[line_length(data, agreed, marked)] * 3, line_length(data, agreed, marked) - 1, 40960, 2051, 0,
                                    1)))
        script.send_plain(data)
        if rng.random() < 0.3:
            show_some(rng, script, 4, line_length(data, agreed, marked))


def add_plain_sender(rng, script, agreed):
    """Plain senders' states handed in: in bounds, with a wrong width or limit, or with marks out of bounds."""
    for _ in range(rng.choice((1, 2, 4))):
        agreed, kind = other_agreed(rng, agreed), rng.random()
        if kind < 0.3:
            script.hand_plain(agreed, some_marks(rng, 0) + b"\x7d\x7e")
        elif kind < 0.8:
            script.hand_plain(agreed, *out_of_bounds_marks(rng))
        else:
            script.hand_plain(wrong_agreed(rng, agreed), *rng.choice(((b"\x7d\x7e",), out_of_bounds_marks(rng))))
        add_plain_sends(rng, script)


def add_session(rng, script, agreed):
    """Loads and sends of an opened sender."""
    script.open("sender", settings(rng), opening_agreed(rng, agreed))
    for _ in range(rng.choice((1, 3, 6))):
        add_load(rng, script, agreed)
        add_sends(rng, script, agreed)


def add_fills(rng, script, _agreed):
    """Octets put into areas near their ends and beyond, then shown, with the edges of another area."""
    for _ in range(rng.choice((1, 2, 5))):
        area, at = area_number(rng), rng.choice((*PLACES, rng.randrange(65536)))
        length = rng.choice((0, 1, 2, 3, 20, 300, 2053))
        if rng.random() < 0.02:
            length = rng.choice((20480, 20481, 40960, 40961, 65535))
        script.add(fill(area, at, rng.randbytes(length)))
        script.show(area, max(0, at - 3), rng.choice((8, 40, 2100)))
        script.show(area, min(65535, max(0, at + length - 3)), 8)
        other = rng.randrange(len(WHOLE_AREAS))
        script.show(other, 0, 4)
        script.show(other, WHOLE_AREAS[other] - 4, 9)


def wrong_agreed(rng, agreed):
    """A wrong width, a limit out of range, or both."""
    return rng.choice((agreed._replace(width=wrong_width(rng)), agreed._replace(limit=wrong_limit(rng)),
                       Agreed(wrong_width(rng), wrong_limit(rng))))


def add_wrong(rng, script, agreed):
    """States with a wrong width or limit, the rest in bounds or not, mostly with areas too short; and openings."""
    before, short = script.lengths, (0, 1, 2, 3, 4, 5, agreed.limit - 1, agreed.limit, agreed.longest)
    script.lend([rng.choice(short) for _ in range(4)] if rng.random() < 0.7 else agreed.areas)
    for end, make in (("sender", sender_state), ("receiver", receiver_state)):
        if rng.random() < 0.6:
            script.open(end, settings(rng), wrong_agreed(rng, agreed))
        (width, limit), state = wrong_agreed(rng, agreed), list(disturbed(rng, make(rng, agreed)))
        state[WIDTH], state[LIMIT] = width + 256 * rng.choice((0, 0, 1, 255)), limit
        script.hand(end, state)
    for _ in range(2):
        script.load(rng.randrange(2), packet(rng, rng.choice((0, 1, 2, 20, 2048, 2049))))
    script.next(rng.randint(1, 3))
    script.receive(rng.choice((FLAG, b"\x05\x31\x7e", b"\xd1", b"1")))
    script.lend(before)


POOL_LIMITS = (4, 20, 2048)  # lines of packets up to these are sent, to take stretches from
# The kinds of steps, and how often each is taken.
STEPS = [*zip(*(
    (add_sender_state, 24), (add_receiver_state, 24), (add_restarted_state, 3), (add_register_state, 4), (add_changed_area, 3),
    (add_wrong_register, 3), (add_decoded_frame, 6), (add_held_frame, 6), (add_whole_frame, 4), (add_line, 3), (add_fills, 3),
    (add_wrong, 4), (add_session, 7), (add_plain_bounds, 8), (add_switch, 5), (add_stuffed, 8), (add_nearly_full, 4),
    (add_plain_line, 3), (add_pairs, 7), (add_plain_sender, 6)))]


def any_script(rng, pools):
    """At each step width and limit are those of the step before, or others; the areas lent are mostly those for them."""
    script, agreed = Script(), START
    for step in range(rng.choice((1, 5, 40, 120))):
        if rng.random() < (0.3 if step else 0.8):
            agreed = some_agreed(rng)
            script.lend(agreed.areas if rng.random() < 0.8 else area_lengths(rng, agreed))
        elif rng.random() < 0.15:
            script.lend(area_lengths(rng, agreed))
        if rng.random() < 0.05:
            script.lend_out(out_length(rng))
        add = rng.choices(*STEPS)[0]
        add(rng, script, agreed, **({"pools": pools} if add is add_line else {}))
    if rng.random() < 0.1:
        script.show_all()
    return script


def broken_script(rng, script):
    """Cut short, or with an octet that is no command between two commands."""
    if rng.random() < 0.5:
        whole = script.octets()
        return whole[:rng.randint(0, len(whole))]
    parts = list(script.parts)
    unknown = rng.choice([o for o in range(256) if o not in COMMANDS])
    parts.insert(rng.randint(0, len(parts)), bytes((unknown,)) + rng.randbytes(3))
    return b"".join(parts)


def every_area_number():
    """A fill of each of the 256, each with octets of its own, and what they left."""
    fills = [fill(area, 10 * (area % 9), bytes((area, 1, 255 - area))) for area in range(256)]
    return b"".join(fills) + b"".join(show(area, 0, 100) for area in range(256))


def longest_operands(rng):
    """Every count as large as it can be, with areas lent as largely."""
    return b"".join((
        lend((65535,) * 4), lend_out(65535), *(fill(area, 0, rng.randbytes(65535)) for area in range(6)),
        *(fill(area, 65535, rng.randbytes(65535)) for area in range(6)), load_low(rng.randbytes(65535)), SHOW_STATES,
        load_low(rng.randbytes(2048)), next_octets(65535), open_receiver(3), receive(rng.randbytes(65535)), SHOW_STATES,
        open_pair(3), receive(b"\xff" + rng.randbytes(65534)), SHOW_STATES, send_plain(rng.randbytes(65535)),
        send_plain(bytes(2048)),
        *(show(area, at, 65535) for area in range(6) for at in (0, 65535))))


def held_or_nothing():
    """Receivers with nothing held, no octet or some: each of the 256 refusals remembered, and each octet as the first of a
    frame, the register of what is held being right and wrong; states are shown after it, after FF and after the flag."""
    parts = []
    for octet in range(256):
        for held, register in ((None, 0xFFFF), (b"", 0xFFFF), (b"", 0x1234), (b"\x31\x32\x33", register_over(b"123")),
                               (b"\x31\x32\x33", 0xFFFF)):
            count, ends = 0 if held is None else len(held) + 1, (16, 2048, *halves(register))
            for mode in range(4):
                for mark in (0, 1):
                    parts += [hand_receiver((3, mark, 5, count, 0, 0, 0, 1, mark, octet, *ends, mode, 0, 2)), receive(b"\xff"),
                              SHOW_STATES, receive(FLAG), SHOW_STATES]
            for bits in range(4):
                reading = (bits % 2, 0, 2) if octet != 0xFF else (bits // 2, 0, 2)
                parts += [fill(3 - bits % 2, 0, held or b""), hand_receiver((bits, bits % 2, 0, count, *[0] * 6, *ends, *reading)),
                          receive(bytes((octet,))), SHOW_STATES, receive(b"\xff"), SHOW_STATES, receive(FLAG), SHOW_STATES,
                          receive(b"\xd1\x01" + FLAG), SHOW_STATES]
    return b"".join(parts)


def every_plain_octet(width):
    """Each octet as it comes in plain reading, with nothing before it, octets and an escape, and maps empty, full and of single
    marks; then another octet and the flag."""
    parts = [lend(lent(width))]
    for octet in range(256):
        own = 1 << octet if octet < 0x20 else 0x20000
        for control in (0, FULL_MAP, own, FULL_MAP ^ own):
            for decoded, frame, mode in ((0, 0, PLAIN), (5, 1, PLAIN), (5, 1, ESCAPED), (0, 1, ESCAPED)):
                ends = (width, 2048, *halves(2 ** width - 1), mode, *halves(control))
                parts += [fill(2, 0, b"\xee" * 8), hand_receiver((3, 0, decoded, 0, 0, 0, 0, frame, 0, 0, *ends)),
                          receive(bytes((octet,))),
                          SHOW_STATES, show(2, 0, 8), receive(b"\x11"), SHOW_STATES, receive(FLAG), SHOW_STATES]
    return b"".join(parts)


def every_mark():
    """Pairs and plain senders with each of the 256 marked alone, each not marked alone, and each bit of a receiving map."""
    parts = []
    for octet in range(256):
        data = bytes((octet, 0x41, 0x7D, octet))
        for marked in ((octet,), ALLOWED.replace(bytes((octet,)), b""), {octet, *ALLOWED}, (octet, 0x7D), (octet, 0x7D, 0x7E)):
            for control in (0, 1 << octet % 32, FULL_MAP):
                parts += [open_pair(octet, control=control, sending=marks(marked)), SHOW_STATES, send_plain(data)]
            parts += [hand_plain_sender(32, 4, marks(marked)), send_plain(data), send_plain(data[:1]), lend_out(9),
                      send_plain(data),
                      lend_out(2051), show(4, 0, 20)]
    return b"".join(parts)


def every_reading():
    """A receiver opened with each mode octet, and handed in with each number of a mode; FF and plain PPP behind it."""
    line = b"\xff\x03" + FLAG + stuffed(b"\x11\x7d" + fcs(b"\x11\x7d"), b"\x11") + b"\x11" + FLAG
    parts = []
    for octet in range(256):
        parts += [open_receiver(3, 16, 2048, octet, 0x20000), SHOW_STATES, receive(line), SHOW_STATES]
        for frame in (0, 1):
            parts += [hand_receiver((3, 0, 0, 0, 0, 0, 0, frame, frame, 0, 16, 2048, 0xFFFF, 0, octet, 0, 2)), SHOW_STATES,
                      receive(line),
                      SHOW_STATES]
    return b"".join(parts)


def every_plain_bound():
    """Each mode, in a frame and out of one, with data left, zeros due, last block, refusals, something held and resumed or not."""
    parts = []
    for mode, frame, refusal, block, held, resumed, decoded in itertools.product(
            range(4), (0, 1), (0, 5, 6, 10, 18, 21), ((0, 0, 0), (1, 0, 0), (0, 1, 0), (0, 0, 1), (0, 0, 2), (207, 2, 2)), (0, 1, 3),
            (0, 1), (0, 7, 2050, 2051, 2052)):
        parts += [hand_receiver((3, 0, decoded, held, *block, frame, resumed, refusal, 16, 2048, 0xFFFF, 0, mode, 0, 2)),
                  receive(b"A"), SHOW_STATES, receive(FLAG), SHOW_STATES]
    return b"".join(parts)


def every_bit_of_held():
    """Four octets held, by a report and in a state handed in: each of their bits changed, and each of the octet's behind
    them; then each bit of the register."""
    parts, held = [lend(lent(32))], b"1234"
    for width in WIDTHS:
        for bit in range(40):
            changed = bytearray(held + b"5")
            changed[bit // 8] ^= 1 << bit % 8
            parts += [open_receiver(3, width), receive(b"\x06" + held + FLAG), fill(2, 0, changed), SHOW_STATES,
                      receive(b"\xd1"), SHOW_STATES, receive(b"\x03\x37"), SHOW_STATES, receive(FLAG), SHOW_STATES,
                      receive(b"\xd1\x01" + FLAG), SHOW_STATES, show(2, 0, 8), show(3, 0, 8)]
        for bit in range(33):  # the last leaves the register as it is
            register = halves(register_over(held, width) ^ (1 << bit) % 2 ** 32)
            parts += [fill(2, 0, held), hand_receiver((3, 1, 0, 5, *[0] * 6, width, 2048, *register)), receive(b"\xd1"),
                      SHOW_STATES, receive(FLAG), SHOW_STATES]
    return b"".join(parts)


REGISTERS = (0, 1, 0x1234, 0x7FFF, 0xFFFE, 0xFFFF, 0x10000, 0x1FFFF, 0x1234FFFF, 0x80000000, 0xFFFF0000, 0xFFFFFFFE,
             0xFFFFFFFF)


def every_edge_of_register():
    """Registers at the edges of either width, with nothing held, no octet and some, out of a frame and in one, with each
    refusal that may be remembered or nearly; areas long enough and too short."""
    parts = []
    for lengths in (lent(32), (0, 0, 2053, 2050)):
        parts.append(lend(lengths))
        for width in (*WIDTHS, 24):
            for held in (0, 1, 4):
                for register in REGISTERS:
                    ends = (width, 2048, *halves(register))
                    for bits in (1, 3):
                        for octets in (FLAG, b"\xd1\x01" + FLAG, b"\xff" + FLAG, b"\x05\x31" + FLAG, b"\xd2" + FLAG):
                            parts += [hand_receiver((bits, 0, 0, held, *[0] * 6, *ends)), receive(octets[:1]), SHOW_STATES,
                                      receive(octets[1:]), SHOW_STATES]
                    for refusal in (0, 4, 5, 10, 11, 14, 20, 21, 22, 255):
                        for resumed in (0, 1):
                            parts += [hand_receiver((3, 1, 0, held, 0, 0, 0, 1, resumed, refusal, *ends)), receive(b"\x31"),
                                      SHOW_STATES, receive(FLAG), SHOW_STATES]
    return b"".join(parts)


def every_width():
    """Both ends opened with each of the 256, and states handed in with it; calls with nothing lent, with what 16 bits
    want, and with what 32 bits want."""
    parts = []
    for width in range(256):
        parts += [open_sender(width, width), open_receiver(width, width), SHOW_STATES]
        for lengths in ((0,) * 4, lent(16), lent(32)):
            agreed = Agreed(width, 2048)
            state = (3, *[0] * 9, *agreed)
            parts += [lend(lengths), hand_sender(state), load_low(b""), load_high(b"AB"), next_octets(2),
                      hand_receiver((*state, *halves(agreed.start))), receive(b"\x06" + b"11111" + FLAG), SHOW_STATES]
    return b"".join(parts)


def every_limit():
    """Both ends opened with each of the 65,536, and states handed in with it, as much as can be being lent."""
    parts = [lend((20480,) * 4)]
    for limit in range(65536):
        state = (3, *[0] * 9, 16, limit)
        parts += [open_sender(limit % 256, 16, limit), open_receiver(limit % 256, 32, limit), SHOW_STATES,
                  hand_sender(state), next_octets(1), hand_receiver((*state, *halves(START.start))), receive(FLAG)]
    return b"".join(parts)


def limit_and_width(limit, width):
    """Both ends opened so, and states handed in with it: nothing held, as much as can be, and one octet more. Calls with
    nothing lent, with one octet less than is wanted in each area, exactly that and more; packets and frames as long as
    can be, and one octet longer."""
    agreed = Agreed(width, limit)
    about = Agreed(width if width in WIDTHS else 16, limit if limit in LIMITS else 2)
    lengths = [(0,) * 4, about.areas, tuple(n + 1 for n in about.areas), (20480,) * 4]
    lengths += [tuple(n - (at == place) for place, n in enumerate(about.areas)) for at in range(4)]
    parts, fresh = [open_sender(3, *agreed), open_receiver(3, *agreed), SHOW_STATES], halves(agreed.start)
    for count in (0, 1, 2, about.limit, about.limit + 1):
        for sending in (b"\x7d\x7e", b"\x41\x7d\x7e", b"\x41\x5e"):
            written = line_length(b"A" * count, about, sending)
            parts += [hand_plain_sender(*agreed, marks(sending)),
                      *(lend_out(n) + send_plain(b"A" * count) for n in (written - 1, written))]
    for areas in lengths:
        parts += [lend(areas), hand_sender((3, *[0] * 9, *agreed)), load_low(bytes(about.limit + 1)), load_high(b"1"),
                  load_low(bytes(about.limit)), load_high(b"AB"), SHOW_STATES, next_octets(9)]
        for length in (about.longest, about.longest + 1):
            parts += [hand_sender((3, length, length + 1, *[0] * 5, 1, 0, *agreed)), next_octets(2), SHOW_STATES]
        data = bytes(about.limit)
        for line in (encoded(data + fcs(data, about.width)), encoded(bytes(about.longest)), encoded(bytes(about.most))):
            parts += [hand_receiver((3, *[0] * 9, *agreed, *fresh)), receive(line + FLAG), SHOW_STATES]
        for line in (data + fcs(data, about.width), b"A" * about.longest, b"A" * about.most):
            parts += [hand_receiver((3, *[0] * 9, *agreed, *fresh, PLAIN, 0, 0)), receive(line), SHOW_STATES, receive(FLAG),
                      SHOW_STATES]
        for count in (about.most, about.most + 1):
            register = halves(register_over(bytes(count), about.width))
            for mode in (PLAIN, ESCAPED):
                for octet in (b"A", ESCAPE, FLAG):
                    parts += [hand_receiver((3, 1, count - 1, 0, 0, 0, 0, 1, 0, 0, *agreed, *fresh, mode, 0, 0)), receive(octet),
                              SHOW_STATES,
                              receive(FLAG), SHOW_STATES]
            parts += [fill(3, 0, bytes(count)), hand_receiver((3, 0, 0, count + 1, *[0] * 6, *agreed, *register)),
                      receive(b"\xd1\x01" + FLAG), SHOW_STATES,
                      hand_receiver((3, 0, 0, count + 1, *[0] * 6, *agreed, register[0] ^ 1, register[1])),
                      receive(b"\xd1\x01" + FLAG), SHOW_STATES,
                      hand_receiver((3, 1, count, 0, 0, 0, 2, 1, 0, 0, *agreed, *fresh)), receive(FLAG), SHOW_STATES]
    return b"".join(parts)


def lent_at_start(width, limit):
    """Calls with what is lent at the start."""
    return b"".join((open_sender(3, width, limit), open_receiver(3, width, limit), load_low(b"AB"), load_high(b"AB"),
                     next_octets(1), receive(b"\x05\x31" + FLAG), SHOW_STATES))


def fixed_scripts(rng):
    """Named scripts that chance would seldom make."""
    yield "nothing", b""
    for width in WIDTHS:
        for limit in range(2045, 2051):
            yield f"what is lent at the start, {width} bits, limit {limit}", lent_at_start(width, limit)
    yield "the start", SHOW_STATES + b"".join(show(area, 0, 65535) for area in range(len(WHOLE_AREAS)))
    for octet in range(256):
        yield f"command {octet} alone", SHOW_STATES + bytes((octet,))
    for command in (open_sender(3, 32), open_receiver(3, 32), load_low(b"AB"), load_high(b"AB"), next_octets(3),
                    receive(b"\x01\x7e\x01\x7e"), lend((1, 2, 3, 4)), lend_out(5), fill(4, 1, b"AB"),
                    hand_sender(range(12)), hand_receiver(range(17)), show(0, 1, 2), open_receiver(3, 32, 2048, 1, 0x12345678),
                    open_pair(3, 32, 20, 0x20000, marks(b"\x11\x41")), hand_plain_sender(32, 20, marks(b"\x7d\x7e")),
                    send_plain(b"AB")):
        for cut in range(1, len(command) + 1):
            yield f"command {command[:1].decode()}, {cut} octets", SHOW_STATES + command[:cut]
    yield "every area number", every_area_number()
    yield "something held or nothing", held_or_nothing()
    yield "every bit of what is held", every_bit_of_held()
    yield "every edge of the register", every_edge_of_register()
    for width in WIDTHS:
        yield f"every plain octet, {width} bits", every_plain_octet(width)
    yield "every mark", every_mark()
    yield "every reading", every_reading()
    yield "every bound of plain reading", every_plain_bound()
    yield "every width", every_width()
    yield "every limit", every_limit()
    for limit in (0, 1, 2, 3, 2048, 16383, 16384, 16385, 65535):
        for width in (16, 32, 0, 24, 255):
            yield f"limit {limit}, width {width}", limit_and_width(limit, width)
    yield "longest operands", longest_operands(rng)


def answer_of(line):
    """An answer's kind and number, without its octets."""
    fields = line.split(None, 3)
    if fields[0] in ("R", "H"):
        return f"R {fields[1]}" if fields[0] == "R" else f"H replaced {fields[2]}"
    return f"P area {fields[1]}" if fields[0] == "P" else fields[0]


def note_show(line, shown, seen):
    """The count of octets is reckoned here too."""
    area, _, asked = shown
    count = octets_shown(*shown)
    if line[:1] != "X" or len(line) != 1 + 3 * count:
        sys.exit(f"the model shows {line[:60]!r} where {count} octets were to be shown")
    if area >= len(WHOLE_AREAS):
        seen.answers["show", "", "no such area"] += 1
    elif count < asked:
        seen.answers["show", "", f"area {area} to its end" if count else f"beyond area {area}"] += 1
    else:
        seen.answers["show", "", f"area {area}"] += 1


def note_answers(script, out, seen):
    """Tells the lines of a whole script's output apart, call by call."""
    lines = out.decode().split("\n")
    at = 0
    for kind, calls, about in script.kinds:
        seen.calls += calls
        if kind in ("load", "next octet", "plain send"):
            for line in lines[at:at + calls]:
                seen.answers[kind, about, answer_of(line)] += 1
            at += calls
        elif kind in ("open sender", "open receiver", "open pair"):
            opened = about in GOOD
            seen.answers[kind, about, "opened" if opened else answer_of(lines[at])] += 1
            at += not opened
        elif kind == "receiver":
            begin = at
            while lines[at][0] != "S":
                seen.answers[kind, about, answer_of(lines[at])] += 1
                at += 1
            if quiet := calls - (at - begin):
                seen.answers[kind, about, "Quiet"] += quiet
        elif kind == "states":
            at += 2
        elif kind == "show":
            note_show(lines[at], about, seen)
            at += 1
    if lines[at:] != [""]:
        sys.exit("the model wrote other lines than its script asks for")


def compare_scripts(programs, rng, total, seen):
    pools = {(width, limit): sound_line(programs, rng, 200_000 if limit == 2048 else 50_000, 0.8, width, limit)
             for width in WIDTHS for limit in POOL_LIMITS}
    for name, data in fixed_scripts(rng):
        programs.same("exercise", data, name)
        seen.scripts += 1
    while seen.calls < total:
        script = any_script(rng, pools)
        note_answers(script, programs.same("exercise", script.octets(), f"script {seen.scripts}"), seen)
        seen.scripts += 1
        if rng.random() < 0.2:
            programs.same("exercise", broken_script(rng, script), f"broken script {seen.scripts}")
            seen.scripts += 1


# ------------------------------------------------------------------------------------------------
# What must be seen
# ------------------------------------------------------------------------------------------------

REPORTS = ["packets", "held", "held-replaced", *(f"refused-{n}" for n in (7, 8, 9, 10, 12, 13, 14, 18)), "plain packets",
           *(f"plain refused-{n}" for n in (10, 13, 14, 18)), "restart, something held", "restart, nothing held", "no restart"]
# Counted, but never reported: 5, since plain reading is on; 6 and 11, since both settings are; 21, since nobody else writes to
# the areas.
UNSEEN = ("refused-5", "refused-6", "refused-11", "refused-21")
CALLS = {"load": ["D", "R 1", "R 2", "R 3", "R 4"],
         "next octet": ["O", "I", "R 2", "R 3"],
         "receiver": ["Quiet", "P area 0", "P area 1", "H replaced 0", "H replaced 1",
                      *(f"R {n}" for n in (2, 3, *range(5, 15), 18, 21))],
         "plain send": ["W", "R 1", "R 2"]}
WRONG_LIMITS = ("limit below 2", "limit above 16,384")
# Good widths and limits. Every answer must be seen at small limits and at 2,048, and these at 16,384.
GOOD = {f"{width} bits, {limit}": limit for width in WIDTHS for limit in (
    "small limit", "limit 2,048", "limit 16,384", "other limit")}
AT_16384 = ("D", "O", "I", "W", "Quiet", "P area 0", "P area 1", "H replaced 0", "H replaced 1",
            *(f"R {n}" for n in (1, 2, 3, 4, 10, 14, 18)))
KNOWN = {(call, about, a) for call, answers in CALLS.items() for about in GOOD for a in answers}
ANSWERS = [(call, about, a) for call, answers in CALLS.items() for about, limit in GOOD.items() for a in answers
           if limit != "other limit" and (limit != "limit 16,384" or a in AT_16384)]
# With areas for 16 bits alone a state of 32 is 2. A wrong width or limit is 3, whatever is lent; to open with, a wrong
# limit is 23, whatever the width.
ANSWERS += [(call, "32 bits, areas for 16", "R 2") for call in CALLS if call != "plain send"]
WRONG = ["wrong width", *(f"{width}, {limit}" for width in ("16 bits", "32 bits", "wrong width") for limit in WRONG_LIMITS)]
ANSWERS += [(call, about + short, "R 3") for call in CALLS for about in WRONG for short in ("", ", short area")]
ANSWERS += [(call, about, "opened" if about in GOOD else "R 23" if about.endswith(WRONG_LIMITS) else "R 3")
            for call in ("open sender", "open receiver", "open pair") for about in (*GOOD, *WRONG)]
# A pair's sending map may be refused for three reasons, and a plain sender's state for four, behind 2.
OF_MAPS = [(("open pair", f"{about}, {why}", "R 19"), limit) for about, limit in GOOD.items() for why in (LACKS, HAS_5E, HAS_20)]
OF_MAPS += [(("plain send", f"{about}, {why}", answer), limit) for about, limit in GOOD.items()
            for why in (NO_ESCAPE, NO_FLAG, HAS_5E, HAS_20) for answer in ("R 2", "R 3")]
ANSWERS += [answer for answer, limit in OF_MAPS if limit != "other limit"]
KNOWN |= {answer for answer, _ in OF_MAPS}
# Restarts and registers, at every width and limit of which answers must be seen; with 32 bits no register is too large.
ANSWERS += [("receiver", f"{about}, {what}", answer) for what, answer in TOLD.items() for about, limit in GOOD.items()
            if limit != "other limit" and not (what == BEYOND and about.startswith("32"))]
KNOWN |= {("receiver", f"{about}, {what}", answer) for what, answer in TOLD.items() for about in GOOD}
ANSWERS += [("show", "", what) for n in range(len(WHOLE_AREAS))
            for what in (f"area {n}", f"area {n} to its end", f"beyond area {n}")] + [("show", "", "no such area")]
KNOWN |= set(ANSWERS)


def print_seen(seen):
    print(f"captures: {seen.captures}, octets compared: {seen.octets}")
    print("reports seen: " + ", ".join(f"{kind} {count}" for kind, count in seen.reports.items()))
    print(f"scripts: {seen.scripts}, calls compared: {seen.calls}")
    several = collections.Counter(key[:2] for key in ANSWERS)
    lines = collections.defaultdict(list)
    for call, about, answer in ANSWERS:  # where only one answer can come, all that it comes for stands in its line
        head, item = (about, answer) if several[call, about] > 1 else (answer, about)
        lines[", ".join(filter(None, (call, head)))].append(f"{item} {seen.answers[call, about, answer]}")
    for head, items in lines.items():
        print(f"answers of {head}: " + "; ".join(items))
    missing = [kind for kind in REPORTS if not seen.reports[kind]]
    missing += [" ".join(filter(None, key)) for key in ANSWERS if not seen.answers[key]]
    strange = [" ".join(filter(None, key)) for key in seen.answers if key not in KNOWN]
    strange += [f"{kind} in captures {seen.reports[kind]} times" for kind in UNSEEN if seen.reports[kind] > 0]
    strange += ["plain held in captures"] * (seen.reports["plain held"] > 0)
    missing += [f"the line {kind}" for kind in UNSEEN if kind not in seen.reports]
    print("not seen: " + (", ".join(missing) or "none"))
    if strange:
        print("not known: " + ", ".join(strange))
    return missing + strange


def main():
    parser = argparse.ArgumentParser(description="holds DIR/capture, DIR/count, DIR/exercise against the model")
    parser.add_argument("--ours", required=True, metavar="DIR")
    parser.add_argument("--octets", type=int, default=DEFAULT_OCTETS)
    parser.add_argument("--calls", type=int, default=DEFAULT_CALLS)
    parser.add_argument("--seed", type=int, default=1)
    parser.add_argument("--save", default=".", metavar="DIR", help="where a difference is saved")
    asked = parser.parse_args()
    for mode in ("capture", "count", "exercise"):
        program = os.path.join(asked.ours, mode)
        if not (os.path.isfile(program) and os.access(program, os.X_OK)):
            print(f"missing program: {program}")
            sys.exit(2)
    seen = Seen()
    with tempfile.TemporaryDirectory() as folder:
        programs = Programs(build_model(folder), asked.ours, asked.save)
        compare_captures(programs, random.Random(asked.seed), asked.octets, seen)
        compare_scripts(programs, random.Random(asked.seed + 1_000_000), asked.calls, seen)
    missing = print_seen(seen)
    print("0 differ")
    if missing and asked.octets >= DEFAULT_OCTETS and asked.calls >= DEFAULT_CALLS:
        sys.exit(1)


if __name__ == "__main__":
    main()

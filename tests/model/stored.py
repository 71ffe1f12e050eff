#!/usr/bin/env python3
"""Writes the stored tests; all expected output is the model's (model.rs).

    python3 tests/model/stored.py [--explain]

    tests/captures/NAME.octets      a capture
    tests/captures/NAME.lines       what the capture program prints for it
    tests/captures/NAME.counts      what the count program prints for it
    tests/scripts/NAME.script       commands for the exercise driver; base, width, limit, restart, areas and plain have
                                    the tables below
    tests/scripts/NAME.answers      what the driver writes for them
    crates/count/stdin, stdout      the capture stale-fragment, and its counts

Every entry of a table has, beside its commands, the answers that the documents ask for, written
down by hand (a text: the answers of calls; a list: every line, with states and areas shown); the
small scripts and the capture plain likewise. They are held against the model's output before it is stored.
--explain prints each entry with its lines. Seeds are fixed: the same files come out each time.
"""
import os
import random
import sys
import tempfile

from compare import (FLAG, HERE, WHOLE_AREAS, WIDTHS, Programs, build_model, fcs, fill, halves, hand_plain_sender, hand_receiver,
                     hand_sender, lend, lend_out, lent, load_high, load_low, marks, next_octets, open_pair, open_receiver,
                     open_sender, packet, receive, register_over, send_plain, sent_octets, show, stuffed, zero_free)


def hx(text):
    return bytes.fromhex(text)


# ------------------------------------------------------------------------------------------------
# Captures
# ------------------------------------------------------------------------------------------------

def sent_by_model(programs, script):
    return sent_octets(programs.of_model("exercise", script))


def frames_of(line):
    """The frames of a line, each with its flag."""
    return [frame + FLAG for frame in line.split(FLAG)[:-1]]


def short_line(programs, rng, packets, settings=3):
    parts = [open_sender(settings)]
    for _ in range(packets):
        parts.append(load_low(packet(rng, rng.choice((2, 3, 4, 9, 30, 31, 60)))) + next_octets(80))
    return sent_by_model(programs, b"".join(parts))


def urgent_line(programs, rng, packets):
    """Low packets broken off by high ones: inside a block, between blocks, straight after D1."""
    parts = [open_sender(3)]
    for n in range(packets):
        low = packet(rng, rng.choice((8, 40, 210, 400)))
        parts.append(load_low(low))
        for _ in range(n % 4):
            parts.append(next_octets(rng.choice((1, 2, 3, 12))) + load_high(packet(rng, rng.choice((2, 4, 20)))))
        parts.append(next_octets(len(low) + 100))
    # D1, then at once another urgent packet.
    parts.append(load_low(b"straight after") + next_octets(4) + load_high(b"one") + next_octets(1 + 7 + 1)
                 + load_high(b"two") + next_octets(60))
    return sent_by_model(programs, b"".join(parts))


def quiet_link(programs):
    return short_line(programs, random.Random(1), 40)


def urgent_traffic(programs):
    return urgent_line(programs, random.Random(2), 40)


def noise_between_frames(programs):
    rng = random.Random(3)
    parts = []
    for frame in frames_of(short_line(programs, rng, 40)):
        parts.append(rng.randbytes(rng.choice((0, 1, 4, 30))) + FLAG * rng.choice((1, 1, 3)) + frame)
    return b"".join(parts)


def noise_in_frames(programs):
    rng = random.Random(4)
    line = bytearray(urgent_line(programs, rng, 30))
    for _ in range(len(line) // 60):
        line[rng.randrange(len(line))] ^= 1 << rng.randrange(8)
    return bytes(line)


def lost_flags(programs):
    rng = random.Random(5)
    return b"".join(frame[:-1] if rng.random() < 0.25 else frame for frame in frames_of(urgent_line(programs, rng, 40)))


def same_register(start, rng):
    """Other octets of the same length, without zeros and 7E, that bring the register to the same value."""
    want = fcs(start)
    usable = [octet for octet in range(1, 256) if octet != FLAG[0]]
    while True:
        other = bytes(rng.choices(usable, k=len(start) - 2))
        for a in usable:
            for b in usable:
                if fcs(other + bytes((a, b))) == want and other != start[:-2]:
                    return other + bytes((a, b))


def cut_frame(whole, cut):
    """A frame without zeros in two: broken off after `cut` octets, and the rest after D1."""
    rest = whole[cut:]
    assert 0 not in whole and FLAG[0] not in whole and len(whole) < 120
    return bytes((len(whole) + 1,)) + whole[:cut] + FLAG, b"\xd1" + bytes((len(rest) + 1,)) + rest + FLAG


def stale_fragment(programs):
    rng = random.Random(6)
    older, later = b"12345678older", b"ABCDEFGHlater"
    older_begun, _older_rest = cut_frame(older + fcs(older), 8)
    later_begun, later_rest = cut_frame(later + fcs(later), 8)
    like_begun, _ = cut_frame(b"ABCDEFGH" + b"another" + fcs(b"ABCDEFGHanother"), 8)
    chance = same_register(b"ABCDEFGH", rng)
    chance_begun, _ = cut_frame(chance + b"older" + fcs(chance + b"older"), 8)
    urgent = frames_of(short_line(programs, rng, 1))[0]
    return b"".join((
        older_begun, urgent, later_rest,                # older's rest and later's beginning lost: joined, 14
        later_rest,                                     # nothing held any more: 8
        older_begun, later_begun, urgent, later_rest,   # older's rest lost: replaced, then whole
        like_begun, urgent, later_rest,                 # the stale fragment has the same octets: whole
        chance_begun, urgent, later_rest,               # other octets, same register: passes by chance
        older_begun, urgent, urgent, b"\xd1\x03x" + FLAG,  # held again, longer
        later_rest,                                     # joined to that: 14
        older_begun, b"\xd1" + FLAG, later_rest,        # D1 alone loses what is held: 9, then 8
        older_begun, b"\xd2" + FLAG, b"\xd3" + FLAG, later_rest,  # refused, what is held stays: 14
        older_begun, b"\xd2" + FLAG, b"\xff" + FLAG, b"\xd3" + FLAG, later_rest,  # a restart: what follows is read plain, 13 and 14
    ))


def suspended_line(programs, rng):
    """The frames of a packet broken off once: its beginning, an urgent packet, the rest."""
    low, high = packet(rng, rng.choice((8, 40, 210, 400))), packet(rng, rng.choice((2, 4, 20)))
    frames = frames_of(sent_by_model(programs, open_sender(3) + load_low(low) + next_octets(rng.choice((1, 2, 3, 8)))
                                     + load_high(high) + next_octets(len(low + high) + 60)))
    assert len(frames) == 3 and frames[2][:1] == b"\xd1"
    return frames


def restart(programs):
    """A peer restarts in the middle of a suspended packet, and then again and again: from the first FF on all is read as plain
    PPP, what is COBS too."""
    rng = random.Random(11)
    parts = []
    for n in range(24):
        begun, urgent, rest = suspended_line(programs, rng)
        again, other, whole = suspended_line(programs, rng)
        some = rng.randbytes(rng.choice((1, 3, 9))).replace(FLAG, b"1")
        ff = rng.choice((b"\xff", b"\xff\x03\xc0\x21\x01\x01\x00\x04", b"\xff" + some)) + FLAG
        parts += (begun, b"\xd2" + FLAG, urgent, rest) if n < 8 else (  # none, but another refused frame: whole
            (begun, urgent, ff, rest),                      # straight before the rest
            (begun, ff, urgent, rest),                      # straight behind the beginning
            (begun, ff, again, other, whole),               # another packet is suspended after it
            (begun, ff[:-1], rest, rest),                   # its flag is lost
            (begun, ff, ff, urgent, ff, rest),              # several
        )[n % 5]
    return b"".join(parts)


def edges(programs):
    rng = random.Random(7)
    longest = sent_by_model(programs, open_sender(3) + load_low(zero_free(rng, 2048)) + next_octets(2100)
                            + load_low(bytes(2048)) + next_octets(2100))
    full = b"\xd0" + b"1" * 207
    return b"".join((
        longest,
        b"\xdf" * 136 + b"\xdb" + FLAG, b"\xdf" * 136 + b"\xdc" + FLAG, b"\xdf" * 137 + FLAG, b"\xdf" * 400 + FLAG,
        full * 9 + b"\xbc" + b"1" * 187 + FLAG,         # 9 * 207 + 187 is 2,050, and a zero: 14
        full * 9 + b"\xbd" + b"1" * 187 + FLAG,         # 2,050, inside a block: held
        full * 9 + b"\xbd" + b"1" * 188 + FLAG,         # 2,051, no room for the zero: 10
        full * 9 + b"\xbe" + b"1" * 188 + FLAG,         # 2,051, inside a block: held
        full * 9 + b"\xbf" + b"1" * 189 + FLAG,         # no room for the last: 10
        full * 9 + b"\xfe" + b"1" * 30 + FLAG,
        full * 10 + FLAG,
        full + FLAG, full + b"\x01" + FLAG, full[:-1] + FLAG, full * 2 + FLAG,
        b"\xd1" + full + FLAG,                          # onto the 206 held: 12
        b"\xd1" + FLAG, b"\xd1\x01" + FLAG,             # nothing held: 8 and 8
        b"\x05\x31" + FLAG + b"\xd1" + FLAG,            # 9
        b"\xd2" + FLAG, b"\x01\xd1" + FLAG, b"\x01\xd2" + FLAG, b"\x01\xff" + FLAG,
        b"\x05" + FLAG, b"\x05\x31" + FLAG, b"\xd1\x05" + FLAG, b"\xd1\xff" + FLAG,
        b"\x01" + FLAG, b"\xd3" + FLAG, b"\xd4" + FLAG, b"\xd5" + FLAG, b"\x04\x31\x31\x31" + FLAG,
        b"\x05\x31\x31\x31\x31" + FLAG, FLAG * 3, b"\x00" + b"1" * 125 + FLAG, b"\x00" + b"1" * 124 + FLAG,
        b"\xff" + FLAG, b"\xff\x03\xc0\x21" + FLAG,      # from here on plain PPP: 13 and 14
    ))


# Plain PPP after a restart: octets, and the lines that they are to give, by hand.
LONG_PLAIN = b"A" * 2050
PLAIN_CAPTURE = (
    ("E0 03 47 0F 7E", "P 2 00 00"),
    ("05 31 7E", "H 1 0"),
    ("FF 7D 23 C0 21 7D 21 7D 21 7D 20 7D 24 D1 B5 7E", "P 8 FF 03 C0 21 01 01 00 04"),  # Configure-Request
    ("D1 01 7E", "R 13"),                               # read plain; nothing is held in any case
    ("7E 7E 7E", ""),
    ("FF 03 C0 21 01 01 00 04 D1 B5 7E", "P 8 FF 03 C0 21 01 01 00 04"),
    ("FF 03 C0 21 01 01 00 05 D1 B5 7E", "R 14"),
    ("7D 7E", "R 18"), ("FF 03 7D 7E", "R 18"), ("7D 7D 7D 7E", "R 18"),
    ("FF 7E", "R 13"), ("FF 03 C0 7E", "R 13"), ("FF 03 C0 21 7E", "R 14"),
    ("41 42 EF 31 7E", "P 2 41 42"),
    ("41 42 EF 31 7D 7E", "R 18"),
    ("7E 41 42 EF 31", ""), ("7E", "P 2 41 42"),
    ("00 00 47 0F 7E", "P 2 00 00"),                    # 00 stays 00
    ("7D 20 7D 20 47 7D 2F 7E", "P 2 00 00"),           # the same, escaped
    ("7D 7D 7D 5D 7D 5E 5E CF 0C 7E", "P 4 5D 7D 7E 5E"),
    ("7D 5E 41 1E 36 7E", "P 2 7E 41"),
    ("7D 5E 11 41 1E 36 7E", "R 14"),                   # the map is empty: 11 is data
    ("11 7E", "R 13"),
    (LONG_PLAIN.hex() + "7E", "R 14"), (LONG_PLAIN.hex() + "41 7E", "R 10"), (LONG_PLAIN.hex() + "7D 7E", "R 18"),
    (LONG_PLAIN.hex() + "7D 41 7E", "R 10"), (LONG_PLAIN.hex() + "41 7D 7E", "R 10"),
    ((b"A" * 2048 + fcs(b"A" * 2048)).hex() + "7E", "P 2048" + " 41" * 2048),
    ((b"A" * 2049 + fcs(b"A" * 2049)).hex() + "7E", "R 10"),
    # COBS once more, read plain: the packets 41 42, 00 00 and 31 to 39, a fragment, refused frames.
    ("05 41 42 EF 31 7E", "R 14"), ("E0 03 47 0F 7E", "R 14"), ("0C 31 32 33 34 35 36 37 38 39 6E 90 7E", "R 14"),
    ("05 31 7E", "R 13"), ("D3 7E", "R 13"), ("D2 7E", "R 13"), ("D1 7E", "R 13"), ("FF 7E", "R 13"),
    ("FF 03 C0", ""),                                   # not closed
)


def plain(_programs):
    return b"".join(hx(octets) for octets, _ in PLAIN_CAPTURE)


def plain_noise(_programs):
    """Packets in plain PPP behind an FF frame, with noise: bits turned, octets lost and put in, flags lost."""
    rng = random.Random(12)
    line = []
    for _ in range(80):
        data = packet(rng, rng.choice((2, 3, 4, 9, 30, 60)))
        frame = bytearray(stuffed(data + fcs(data), rng.choice((b"", bytes(range(0x20)), b"\x11\x13"))) + FLAG)
        way = rng.randrange(9)
        if way == 0:
            frame[rng.randrange(len(frame))] ^= 1 << rng.randrange(8)
        elif way == 1:
            del frame[rng.randrange(len(frame))]
        elif way == 2:
            frame.insert(rng.randrange(len(frame)), rng.choice(b"\x7d\x7e\x00\x11\xff"))
        elif way == 3:
            frame[-1:] = b"\x7d\x7e"
        elif way == 4:
            del frame[-1]
        line.append(bytes(frame))
    return hx("05 31 7E FF 7E") + b"".join(line)


def with_check_of_zeros(body):
    """The octets and two more, so that their FCS is 00 00."""
    def fed(register, octets):
        for octet in octets:
            register ^= octet
            for _ in range(8):
                register = (register >> 1) ^ (0x8408 if register & 1 else 0)
        return register

    start = fed(0xFFFF, body)
    ends = (bytes((a, b)) for a in range(256) for b in range(256))
    whole = body + next(end for end in ends if fed(start, end) == 0xFFFF)
    assert fcs(whole) == bytes(2)
    return whole


def check_of_zeros(programs):
    """Packets whose FCS is 00 00: with the phantom three zeros stand at the end of D, and more where the packet ends in zeros."""
    rng = random.Random(9)
    bodies = [b"", b"\x31", bytes(1), b"\x31" + bytes(1), bytes(5)] + [zero_free(rng, n) for n in (27, 28, 29, 30, 203, 204, 205, 206, 300)]
    parts = [open_sender(3)]
    for body in bodies:
        whole = with_check_of_zeros(body)
        parts.append(load_low(whole) + next_octets(2 * len(whole) + 9))
    return sent_by_model(programs, b"".join(parts))


def every_length(programs):
    """Packets of 2 to 80 octets and of 2,048, in the first area and then, behind a fragment that stays held, in the second."""
    rng = random.Random(10)
    parts = [open_sender(3)]
    for whole in [packet(rng, n) for n in range(2, 81)] + [b"A" * 2048]:
        parts.append(load_low(whole) + next_octets(2 * len(whole) + 9))
    line = sent_by_model(programs, b"".join(parts))
    return line + hx("05 31 7E") + line


def unclosed(programs):
    return short_line(programs, random.Random(8), 4) + hx("0C 31 32 33 7E 0C 31 32 33 34 35 36")


def empty(_programs):
    return b""


def all_octets(_programs):
    return b"".join(bytes((octet,)) + hx("31 32 02 33 7E") for octet in range(256))


CAPTURE_LINES = {"plain": "".join(f"{lines}\n" for _, lines in PLAIN_CAPTURE if lines)}  # asked for by hand
CAPTURES = {
    "quiet-link": quiet_link,
    "urgent-traffic": urgent_traffic,
    "noise-between-frames": noise_between_frames,
    "noise-in-frames": noise_in_frames,
    "lost-flags": lost_flags,
    "stale-fragment": stale_fragment,
    "restart": restart,
    "edges": edges,
    "check-of-zeros": check_of_zeros,
    "every-length": every_length,
    "plain": plain,
    "plain-noise": plain_noise,
    "unclosed": unclosed,
    "empty": empty,
    "all-octets": all_octets,
}


# ------------------------------------------------------------------------------------------------
# The table of the script base: 16 bits, packets to 2,048
# ------------------------------------------------------------------------------------------------

D = b"d"
DEFAULT_LENGTHS = lend(lent(16))
LONG_LENGTHS = lend((20480, 20480, 20480, 20480))
OUT_AREA = 4


def sender(settings=3, low=(0, 0), high=(0, 0), left=0, zeros=0, line=0, suspended=0, cut=0, width=16, limit=2048):
    """A sender state; line 0 none, 1 low, 2 high."""
    return hand_sender((settings, *low, *high, left, zeros, line, suspended, cut, width, limit))


def ramp(count):
    """1, 2, 3, ... without zeros."""
    return bytes(1 + n % 250 for n in range(count))


def held_octets(held):
    """What is held: a count stands for the ramp's octets."""
    return ramp(held) if isinstance(held, int) else held


def held_register(held, width):
    """The register over what is held, its start value for None; a wrong width has that of 16 bits."""
    return register_over(held_octets(held) or b"", 32 if width % 256 == 32 else 16)


def receiver(settings=3, work=0, decoded=0, held=None, left=0, zeros=0, last=0, frame=0, resumed=0, refusal=0, width=16,
             limit=2048, register=None, mode=0, control=0):
    """A receiver state; held None, the octets, or a count of the ramp's; last 0 none, 1 D0, 2 other; mode 0 off, 1 COBS,
    2 plain, 3 plain behind an escape; `control` the receiving map. The register is that of what is held, unless another is
    given; the octets themselves are put nowhere."""
    count = 0 if held is None else len(held_octets(held)) + 1
    register = held_register(held, width) if register is None else register
    return hand_receiver((settings, work, decoded, count, left, zeros, last, frame, resumed, refusal, width, limit,
                          *halves(register), mode, *halves(control)))


def holding(held, work=0, **numbers):
    """The same, and the octets lie where they are held: what a D1 needs that is to be accepted."""
    return fill(3 - work, 0, held_octets(held)) + receiver(work=work, held=held, **numbers)


def told(numbers, width=16, limit=2048, held=None, mode=0, control=0):
    """The receiver's line of `d`, by the ten numbers before width and limit. Its register is that of the octets held, which
    are the ramp's unless others are given."""
    count = int(numbers.split()[3])
    held = None if count == 0 else ramp(count - 1) if held is None else held
    assert count == (0 if held is None else len(held) + 1)
    return " ".join(("T", numbers, *map(str, (width, limit, *halves(held_register(held, width)), mode, *halves(control)))))


def show_sender(at=0):
    return show(0, at, 8) + show(1, at, 8)


def show_receiver(at=0):
    return show(2, at, 6) + show(3, at, 6)


def fill_all():
    """Known octets in the ends' areas: 1, 2, 3, ... without zeros, so that what is written shows."""
    return b"".join(fill(area, 0, ramp(2100)) for area in range(4))


# --- What stands before the first command
FRESH = ["S 0 0 0 0 0 0 0 0 0 0 16 2048", "T 0 0 0 0 0 0 0 0 0 0 16 2048 65535 0 0 0 0"]


def start():
    yield "both ends open, settings 0, 16 bits, packets to 2,048", D, FRESH
    yield ("all areas zeros",
           b"".join(show(area, 0, 3) + show(area, whole - 3, 9) for area, whole in enumerate(WHOLE_AREAS)),
           ["X 00 00 00"] * 10)
    yield ("areas lent long enough", load_low(hx("41 42")) + load_high(hx("41 42")) + next_octets(1)
           + receive(hx("D2 7E")), "D, D, O 05, R 7")
    yield ("known octets in areas 0 to 3", fill_all() + b"".join(show(area, 2098, 4) for area in range(4)),
           ["X 63 64 00 00"] * 4)


# --- In bounds, the sender: clause, states at its edge, states just beyond it in that clause alone.
SENDER_CLAUSES = [
    ("low length 0 or 4 to 2,050",
     [sender(low=(0, 0)), sender(low=(4, 0)), sender(low=(2050, 0))],
     [sender(low=(1, 0)), sender(low=(3, 0)), sender(low=(2051, 0)), sender(low=(65535, 0))]),
    ("high length 0 or 4 to 2,050",
     [sender(high=(0, 0)), sender(high=(4, 0)), sender(high=(2050, 0))],
     [sender(high=(1, 0)), sender(high=(3, 0)), sender(high=(2051, 0)), sender(high=(65535, 0))]),
    ("low position at most length + 1",
     [sender(low=(0, 1)), sender(low=(4, 5)), sender(low=(2050, 2051))],
     [sender(low=(0, 2)), sender(low=(4, 6)), sender(low=(2050, 2052)), sender(low=(4, 65535))]),
    ("high position at most length + 1",
     [sender(high=(0, 1)), sender(high=(4, 5)), sender(high=(2050, 2051))],
     [sender(high=(0, 2)), sender(high=(4, 6)), sender(high=(2050, 2052)), sender(high=(4, 65535))]),
    ("data left at most 207",
     [sender(low=(300, 0), left=207, line=1), sender(high=(300, 0), left=207, line=2)],
     [sender(low=(300, 0), left=208, line=1), sender(high=(300, 0), left=208, line=2),
      sender(low=(300, 0), left=255, line=1)]),
    ("zeros due at most 2",
     [sender(low=(300, 0), left=1, zeros=2, line=1), sender(high=(300, 0), left=1, zeros=2, line=2)],
     [sender(low=(300, 0), left=1, zeros=3, line=1), sender(high=(300, 0), left=1, zeros=3, line=2)]),
    ("sum of position, left and zeros within D",
     [sender(low=(10, 3), left=6, zeros=2, line=1), sender(low=(10, 10), left=1, line=1),
      sender(high=(10, 3), left=6, zeros=2, line=2), sender(high=(10, 9), left=1, zeros=1, line=2),
      sender(low=(10, 11), high=(10, 0), left=5, line=2, suspended=1)],
     [sender(low=(10, 4), left=6, zeros=2, line=1), sender(low=(10, 3), left=7, zeros=2, line=1),
      sender(low=(10, 10), left=2, line=1), sender(low=(10, 11), left=1, line=1),
      sender(high=(10, 4), left=6, zeros=2, line=2), sender(high=(10, 9), left=1, zeros=2, line=2)]),
    ("nothing left or due without a lane on the line",
     [sender(low=(10, 0), high=(10, 0)), sender(low=(10, 0))],
     [sender(low=(10, 0), left=1), sender(high=(10, 0), left=1), sender(low=(10, 0), left=1, zeros=1),
      sender(low=(10, 0), zeros=1), sender(low=(10, 0), high=(10, 0), left=1)]),
    ("zeros 0 with none left",
     [sender(low=(10, 0), left=1, zeros=1, line=1), sender(high=(10, 0), left=1, zeros=1, line=2),
      sender(low=(10, 0), line=1), sender(high=(10, 0), line=2)],
     [sender(low=(10, 0), zeros=1, line=1), sender(high=(10, 0), zeros=2, line=2)]),
    ("a lane on the line not empty",
     [sender(low=(4, 0), line=1), sender(high=(4, 0), line=2)],
     [sender(line=1), sender(line=2), sender(high=(4, 0), line=1), sender(low=(4, 0), line=2)]),
    ("a lane suspended not empty",
     [sender(low=(4, 0), suspended=1), sender(low=(4, 5), suspended=1)],
     [sender(suspended=1), sender(high=(4, 0), suspended=1), sender(high=(4, 0), line=2, suspended=1)]),
    ("low not both on the line and suspended",
     [sender(low=(4, 0), high=(4, 0), line=2, suspended=1), sender(low=(4, 0), line=1)],
     [sender(low=(4, 0), line=1, suspended=1), sender(low=(9, 2), left=2, line=1, suspended=1),
      sender(low=(4, 0), line=1, suspended=1, cut=1)]),
    ("cut due: low on the line",
     [sender(low=(4, 0), high=(4, 0), line=1, cut=1), sender(low=(4, 0), line=1, cut=1),
      sender(settings=0, low=(4, 5), line=1, cut=1)],
     [sender(low=(4, 0), cut=1), sender(low=(4, 0), high=(4, 0), line=2, cut=1), sender(cut=1),
      sender(low=(4, 0), suspended=1, cut=1)]),
    ("cut due: none left",
     [sender(low=(9, 0), line=1, cut=1)],
     [sender(low=(9, 0), left=1, line=1, cut=1), sender(low=(9, 0), left=2, zeros=1, line=1, cut=1)]),
]

# --- In bounds, the receiver: the same.
IN_OTHER = dict(last=2, frame=1)
RECEIVER_CLAUSES = [
    ("decoded count at most 2,051",
     [receiver(decoded=2051, left=1, **IN_OTHER), receiver(decoded=2051, **IN_OTHER),
      receiver(decoded=2050, left=1, zeros=1, **IN_OTHER), receiver(decoded=2051, frame=1, refusal=10)],
     [receiver(decoded=2052, left=1, **IN_OTHER), receiver(decoded=2052, **IN_OTHER),
      receiver(decoded=65535, **IN_OTHER), receiver(decoded=2052, frame=1, refusal=10)]),
    ("held count at most 2,051",
     [holding(0), holding(2051), receiver(held=2051, decoded=1, left=1, **IN_OTHER)],
     [receiver(held=2052), receiver(held=65534), receiver(held=2052, decoded=1, left=1, **IN_OTHER)]),
    ("data left at most 207",
     [receiver(left=207, last=1, frame=1), receiver(left=207, **IN_OTHER),
      receiver(left=207, frame=1, refusal=7)],
     [receiver(left=208, last=1, frame=1), receiver(left=208, **IN_OTHER), receiver(left=255, **IN_OTHER),
      receiver(left=208, frame=1, refusal=7)]),
    ("zeros due at most 2",
     [receiver(left=1, zeros=2, **IN_OTHER), receiver(decoded=5, zeros=2, **IN_OTHER)],
     [receiver(left=1, zeros=3, **IN_OTHER), receiver(left=1, zeros=255, **IN_OTHER),
      receiver(decoded=5, zeros=3, **IN_OTHER)]),
    ("remembered refusal none, 5 to 10 or 21",
     [receiver(frame=1, refusal=5), receiver(frame=1, refusal=10),
      receiver(frame=1, resumed=1, refusal=8, held=4), receiver(frame=1, refusal=21)],
     [receiver(frame=1, refusal=4), receiver(frame=1, refusal=11), receiver(frame=1, refusal=1),
      receiver(frame=1, refusal=255), receiver(frame=1, resumed=1, refusal=14, held=4),
      receiver(frame=1, refusal=20), receiver(frame=1, refusal=22)]),
    ("register of what is held, at its start with nothing held",
     [receiver(register=0xFFFF), receiver(held=3, register=0), receiver(held=3, register=0xFFFF),
      receiver(held=0, register=0x1234, decoded=1, left=1, **IN_OTHER)],
     [receiver(register=0xFFFE), receiver(register=0), receiver(register=0x1FFFF), receiver(held=3, register=0x10000),
      receiver(held=0, register=0xFFFFFFFF), receiver(register=0x1234, decoded=1, left=1, **IN_OTHER)]),
    ("no frame begun: the rest fresh",
     [receiver(), receiver(work=1), holding(2051, work=1), holding(0, settings=255)],
     [receiver(decoded=1), receiver(left=1), receiver(zeros=1), receiver(last=1), receiver(last=2),
      receiver(last=2, decoded=1), receiver(resumed=1), receiver(refusal=5)]),
    ("in a frame, no refusal: last block none if resumed",
     [receiver(frame=1, resumed=1), receiver(frame=1, resumed=1, decoded=7), receiver(frame=1, refusal=5),
      receiver(settings=0, frame=1, resumed=1), receiver(frame=1, resumed=1, left=3, zeros=1)],
     [receiver(frame=1), receiver(frame=1, decoded=7), receiver(frame=1, left=3)]),
    ("in a frame, no refusal: last block other, none left, if something is decoded",
     [receiver(decoded=1, **IN_OTHER), receiver(left=1, **IN_OTHER), receiver(refusal=5, **IN_OTHER),
      receiver(last=1, frame=1), receiver(last=1, frame=1, resumed=1)],
     [receiver(**IN_OTHER), receiver(resumed=1, **IN_OTHER), receiver(zeros=1, **IN_OTHER)]),
]


def sender_bounds():
    """Each state through load of both lanes and next octet."""
    for clause, at, beyond in SENDER_CLAUSES:
        for states, refused in ((at, False), (beyond, True)):
            for n, state in enumerate(states, 1):
                commands = b"".join(state + call + D for call in
                                    (load_low(hx("41 42")), load_high(hx("41 42")), next_octets(1)))
                name = f"{'beyond' if refused else 'at'} {n}: {clause}"
                yield name, commands + show_sender(), "R 3, R 3, R 3" if refused else "no R 3"


def receiver_bounds():
    """Each state with a data or code octet and with a flag."""
    for clause, at, beyond in RECEIVER_CLAUSES:
        for states, refused in ((at, False), (beyond, True)):
            for n, state in enumerate(states, 1):
                commands = b"".join(state + receive(octet) + D for octet in (hx("31"), hx("D1"), FLAG))
                name = f"{'beyond' if refused else 'at'} {n}: {clause}"
                yield name, commands + show_receiver() + show_receiver(2047), "R 3, R 3, R 3" if refused else "no R 3"


# --- Load
HOLDS = sender(low=(4, 0), high=(4, 0))
OUT = sender(low=(3, 0))
TWO, ONE = hx("41 42"), hx("41")
SHORT_LOW, SHORT_HIGH = lend((2049, 2050, 2051, 2051)), lend((2050, 2049, 2051, 2051))
SHORT_FIRST, SHORT_SECOND = lend((2050, 2050, 2050, 2051)), lend((2050, 2050, 2051, 2050))


def loads():
    yield "low, 2 octets", open_sender(3) + load_low(TWO) + D + show_sender(), "D"
    yield "high, 2 octets", open_sender(3) + load_high(TWO) + D + show_sender(), "D"
    yield "position of an empty lane goes to 0", sender(low=(0, 1)) + load_low(TWO) + D, "D"
    yield ("F and nothing beyond", open_sender(3) + fill(0, 0, hx("EE") * 20) + load_low(hx("00 00")) + show(0, 0, 20),
           "D")
    yield ("2,048 octets, area exactly long enough", open_sender(3) + fill(1, 2040, hx("EE") * 20)
           + load_high(b"\x31" * 2048) + D + show(1, 2040, 20), "D")
    yield "1: no octet", open_sender(3) + load_low(b"") + D, "R 1"
    yield "1: 1 octet", open_sender(3) + load_low(ONE) + D, "R 1"
    yield "1: 2,049 octets", open_sender(3) + load_high(b"\x31" * 2049) + D + show_sender(), "R 1"
    yield ("4: two low loads running",
           open_sender(3) + load_low(TWO) + load_low(hx("43 44")) + D + show_sender(), "D, R 4")
    yield "4: two high loads running", open_sender(3) + load_high(TWO) + load_high(hx("43 44")) + D, "D, R 4"
    yield ("a lane on the line, suspended or cut due does not hinder the other",
           sender(low=(9, 2), left=3, line=1) + load_high(TWO) + D
           + sender(low=(9, 2), suspended=1) + load_high(TWO) + D
           + sender(low=(9, 2), line=1, cut=1) + load_high(TWO) + D + sender(high=(9, 2), left=3, line=2)
           + load_low(TWO) + D, "D, D, D, D")


def areas():
    yield ("low one short: its load and next octet 2, high load not", open_sender(3) + SHORT_LOW + load_low(TWO)
           + load_high(TWO) + next_octets(1) + D + show_sender(), "R 2, D, R 2")
    yield ("high one short: its load and next octet 2, low load not", open_sender(3) + SHORT_HIGH + load_high(TWO)
           + load_low(TWO) + next_octets(1) + D + show_sender(), "R 2, D, R 2")
    yield ("receiver areas are none of the sender's", open_sender(3) + lend((2050, 2050, 0, 0)) + load_low(TWO)
           + next_octets(1), "D, O 05")
    yield "idle sender, area short", open_sender(3) + lend((2050, 0, 2051, 2051)) + next_octets(1) + D, "R 2"
    yield ("first one short", open_receiver(3) + SHORT_FIRST + receive(hx("05 31 7E")) + D + show_receiver(),
           "R 2, R 2, R 2")
    yield ("second one short", open_receiver(3) + SHORT_SECOND + receive(hx("05 31 7E")) + D + show_receiver(),
           "R 2, R 2, R 2")
    yield ("sender areas are none of the receiver's", open_receiver(3) + lend((0, 0, 2051, 2051))
           + receive(hx("05 31 7E")) + D + show_receiver(), "H 1 0")
    for name, lengths in (("one more than needed", (2051, 2051, 2052, 2052)), ("20,480 of each", (20480,) * 4),
                          ("more counts as 20,480", (20481, 40960, 65535, 20481))):
        yield (f"longer areas, {name}", open_sender(3) + open_receiver(3) + lend(lengths) + load_low(TWO)
               + next_octets(2) + receive(hx("05 31 7E")) + D, "D, O 05, O 41, H 1 0")
    yield ("long areas: a packet has 2,048 octets all the same", LONG_LENGTHS + open_sender(3)
           + load_low(b"\x31" * 2049) + load_high(b"\x31" * 4000) + D, "R 1, R 1")
    yield ("long areas: F and nothing beyond", LONG_LENGTHS + open_sender(3) + fill(0, 2040, hx("EE") * 20)
           + load_low(b"\x31" * 2048) + show(0, 2046, 6), ["D", f"X 31 31 {fcs(b'1' * 2048).hex(' ').upper()} EE EE"])
    yield ("long areas: lengths to 2,050 and counts to 2,051 all the same", LONG_LENGTHS
           + sender(low=(2051, 0)) + next_octets(1) + receiver(held=2052) + receive(FLAG)
           + receiver(decoded=2052, left=1, **IN_OTHER) + receive(FLAG), "R 3, R 3, R 3")
    yield ("long areas: 10 all the same, nothing written", LONG_LENGTHS + fill(2, 2049, hx("EE") * 5)
           + receiver(decoded=2051, left=2, zeros=1, **IN_OTHER) + receive(hx("31")) + show(2, 2049, 5) + receive(FLAG)
           + open_receiver(3) + receive(hx("DF") * 137 + FLAG), ["X EE EE EE EE EE", "R 10", "R 10"])
    for short, answers in ((0, "R 2, D, R 2, H 1 0"), (1, "D, R 2, R 2, H 1 0"), (2, "D, D, O 05, R 2, R 2, R 2"),
                           (3, "D, D, O 05, R 2, R 2, R 2")):
        lengths = [20480] * 4
        lengths[short] = (2049, 2049, 2050, 2050)[short]
        yield (f"long areas, area {short} one short", open_sender(3) + open_receiver(3) + lend(lengths) + load_low(TWO)
               + load_high(TWO) + next_octets(1) + receive(hx("05 31 7E")) + D, answers)
    yield ("exactly long enough again", DEFAULT_LENGTHS + open_sender(3) + open_receiver(3) + load_low(TWO)
           + load_high(TWO) + next_octets(1) + receive(hx("02 31 7E")) + D, "D, D, O 05, R 13")


def orders():
    yield "2 before 3, 4 and 1: low", SHORT_LOW + sender(low=(3, 0)) + load_low(ONE) + D, "R 2"
    yield "2 before 3, 4 and 1: high", SHORT_HIGH + sender(high=(3, 0)) + load_high(b"") + D, "R 2"
    yield "2 before 3, next octet", SHORT_HIGH + OUT + next_octets(1) + D, "R 2"
    yield "2 before 3, receiver", SHORT_SECOND + receiver(decoded=1) + receive(FLAG) + D, "R 2"
    yield "2 before 4", SHORT_LOW + HOLDS + load_low(TWO) + D, "R 2"
    yield "2 before 1", SHORT_LOW + open_sender(3) + load_low(ONE) + D, "R 2"
    yield "3 before 4 and 1", DEFAULT_LENGTHS + OUT + load_low(ONE) + D, "R 3"
    yield "3 before 4", OUT + load_low(TWO) + D, "R 3"
    yield "3 before 1", OUT + load_high(ONE) + D, "R 3"
    yield "4 before 1", HOLDS + load_low(ONE) + load_high(b"\x31" * 2049) + D, "R 4, R 4"


# --- Next octet, step by step
def low_frame(octets):
    return fill(0, 0, octets)


def nexts():
    yield "Idle", open_sender(3) + next_octets(2) + D, "I, I"
    yield "step 1", sender(low=(9, 2), line=1, cut=1) + next_octets(1) + D, "O 7E"
    yield "step 1, whole D covered", sender(low=(9, 10), line=1, cut=1) + next_octets(3) + D, "O 7E, O D1, O 7E"
    yield "step 1, without PRE", sender(settings=0, low=(9, 2), line=1, cut=1) + next_octets(2) + D, "O 7E, O D1"
    yield ("step 2, high before low", open_sender(3) + load_low(TWO) + load_high(hx("43 44")) + next_octets(2) + D,
           "D, D, O 05, O 43")
    yield "step 2, low alone", open_sender(3) + load_low(TWO) + next_octets(2) + D, "D, O 05, O 41"
    yield "step 2, suspended low sends D1", sender(low=(9, 2), suspended=1) + next_octets(1) + D, "O D1"
    yield ("step 2, high before a suspended low",
           fill(1, 0, hx("41 42 43 44")) + sender(low=(9, 2), high=(4, 0), suspended=1)
           + next_octets(1) + D, "O 05")
    yield ("step 2, a lane begun without being on the line goes on", fill(1, 0, hx("41 42 43 44"))
           + sender(high=(4, 2)) + next_octets(4) + D, "O 03, O 43, O 44, O 7E")
    yield "step 3, low", sender(low=(9, 10), high=(4, 0), line=1) + next_octets(1) + D, "O 7E"
    yield "step 3, high", sender(low=(9, 3), high=(4, 5), line=2, suspended=1) + next_octets(2) + D, "O 7E, O D1"
    yield "step 3, put on the line by step 2", sender(low=(9, 10)) + next_octets(2) + D, "O 7E, I"
    yield ("step 4, data left", sender(low=(90, 2), high=(4, 0), left=30, zeros=2, line=1) + next_octets(1) + D,
           "O 7E")
    yield ("step 4, none left", sender(low=(90, 2), high=(4, 0), line=1) + next_octets(1) + D + next_octets(1) + D
           + next_octets(1) + D, "O 02, O 7E, O 05")
    yield "step 4, settings FE", sender(settings=0xFE, low=(90, 2), high=(4, 0), line=1) + next_octets(1) + D, "O 02"
    yield ("not step 4: no PRE",
           low_frame(hx("41") * 90) + sender(settings=1, low=(90, 2), high=(4, 0), left=30, line=1)
           + next_octets(1) + D + sender(settings=0xFD, low=(90, 2), high=(4, 0), line=1) + next_octets(1) + D,
           "O 41, O 59")
    yield ("not step 4: high on the line", fill(1, 0, hx("41") * 9) + sender(low=(90, 2), high=(9, 2), left=3, line=2)
           + next_octets(1) + D, "O 41")
    yield ("broken off straight after D1", low_frame(hx("41") * 90) + sender(low=(90, 2), suspended=1) + next_octets(1)
           + load_high(TWO) + next_octets(9) + D,
           "O D1, D, O 02, O 7E, O 05, O 41, O 42, O EF, O 31, O 7E, O D1")
    yield ("step 5, last data octet and the zeros due", low_frame(hx("41 42 00 00 43"))
           + sender(low=(9, 1), left=1, zeros=2, line=1) + next_octets(1) + D, "O 42")
    yield ("step 5, 7E goes as 00", low_frame(hx("7E 42 00 00 43")) + sender(low=(9, 0), left=2, zeros=2, line=1)
           + next_octets(1) + D, "O 00")
    yield ("step 5, a zero in the area, and the phantom",
           low_frame(hx("00 41 41 41 55")) + sender(low=(4, 0), left=1, line=1)
           + next_octets(1) + D + sender(low=(4, 4), left=1, line=1) + next_octets(1) + D, "O 00, O 00")
    for settings, code in ((0, "01"), (1, "D5"), (2, "01"), (3, "D5"), (0xFC, "01"), (0xFD, "D5")):
        yield (f"step 6, all zeros, settings {settings:02X}", low_frame(bytes(10))
               + sender(settings=settings, low=(4, 0), line=1) + next_octets(1) + D, f"O {code}")
    for k, after, zxe, code in (
            (0, 1, 1, "01"), (0, 2, 1, "E0"), (0, 2, 0, "01"), (0, 3, 1, "D3"), (0, 3, 0, "01"), (0, 15, 1, "DF"),
            (0, 16, 1, "DF"), (1, 1, 1, "02"), (1, 2, 1, "E1"), (1, 2, 0, "02"), (29, 2, 1, "FD"), (30, 2, 1, "FE"),
            (30, 9, 1, "FE"), (30, 1, 1, "1F"), (31, 2, 1, "20"), (30, 2, 0, "1F"), (125, 1, 1, "00"),
            (124, 2, 1, "7D"), (205, 1, 1, "CE"), (206, 1, 1, "CF"), (206, 2, 1, "CF"),
            (207, 1, 1, "D0"), (208, 2, 0, "D0")):
        yield (f"step 6, {k} before {after} zeros{', ZXE' if zxe else ''}",
               low_frame(hx("41") * k + bytes(after) + hx("41") * 4)
               + sender(settings=zxe, low=(k + after + 4, 0), line=1) + next_octets(1) + D, f"O {code}")
    yield ("step 6, the phantom is the second zero", low_frame(hx("41 41 41 00"))
           + sender(low=(4, 0), line=1) + next_octets(5) + D, "O E3, O 41, O 41, O 41, O 7E")
    yield ("step 6, the phantom is the third zero", low_frame(hx("41 41 00 00"))
           + sender(low=(4, 2), line=1) + next_octets(2) + D, "O D3, O 7E")
    yield "step 6, the phantom alone", sender(low=(4, 4), line=1) + next_octets(2) + D, "O 01, O 7E"


def marked():
    for name, settings, octets, sent in (
            ("a", 3, "00 00", "E0 03 47 0F 7E"), ("b", 0, "00 00", "01 01 03 47 0F 7E"),
            ("c", 3, "7E 7E", "05 00 00 6A FF 7E"),
            ("d", 3, "31 32 33 34 35 36 37 38 39", "0C 31 32 33 34 35 36 37 38 39 6E 90 7E")):
        line = hx(sent)
        yield (f"({name}) sent", open_sender(settings) + load_low(hx(octets)) + next_octets(len(line) + 1) + D,
               "D, " + ", ".join(f"O {o:02X}" for o in line) + ", I")
        yield (f"({name}) received", open_receiver(settings) + receive(line) + D,
               f"P 0 {len(hx(octets))} " + octets)
    capture = hx("0C 31 32 33 7E 0C 31 32 33 34 35 36 37 38 39 6E 90 7E D1 09 34 35 36 37 38 39 6E 90 7E D3 7E")
    nine = "31 32 33 34 35 36 37 38 39"
    yield "(e)", open_receiver(3) + receive(capture) + D, f"H 3 0, P 1 9 {nine}, P 0 9 {nine}, R 13"
    yield "(f)", open_receiver(3) + receive(hx("7E 7E")) + D, ""
    yield "(g)", open_receiver(3) + receive(hx("05 31 7E")) + D + receive(hx("05 32 7E")) + D, "H 1 0, H 1 1"
    yield ("(h) DB", open_receiver(3) + receive(hx("DF") * 136) + D + receive(hx("DB")) + D + receive(FLAG) + D, "R 14")
    yield ("(h) DC", open_receiver(3) + receive(hx("DF") * 136) + D + receive(hx("DC")) + D + receive(FLAG) + D, "R 10")
    for k, code in ((206, "CF"), (207, "D0")):
        yield (f"(i) {k}", open_sender(3) + load_low(b"\x31" * k + b"\0") + next_octets(1) + D, f"D, O {code}")


# --- Receiver
def receivers():
    for number, settings, octets in (
            (5, 3, "FF 03 C0 21 7E"), (6, 0, "E0 7E"), (6, 2, "D3 7E"), (6, 1, "D1 01 7E"), (7, 3, "D2 7E"),
            (7, 0, "D2 7E"), (7, 3, "01 FF 7E"), (7, 3, "01 D1 7E"), (8, 3, "D1 01 7E"), (8, 3, "D1 7E"),
            (11, 0, "05 31 7E"), (11, 1, "05 7E"), (11, 0xFC, "05 31 7E"), (12, 3, "D0" + "31" * 207 + "7E"),
            (12, 0, "D0" + "31" * 207 + "7E"), (13, 3, "D3 7E"), (13, 3, "01 7E"), (13, 3, "04 31 31 31 7E"),
            (14, 3, "05 31 31 31 31 7E"), (14, 3, "D5 7E")):
        yield f"{number}, settings {settings:02X}: {octets[:18]}", (
            open_receiver(settings) + receive(hx(octets)[:-1]) + D + receive(FLAG) + D), f"R {number}"
    yield "9", open_receiver(3) + receive(hx("05 31 7E D1")) + D + receive(FLAG) + D, "H 1 0, R 9"
    yield ("10, DF 137 times",
           open_receiver(3) + receive(hx("DF") * 136) + D + receive(hx("DF")) + D + receive(FLAG) + D, "R 10")
    yield ("10, data octet", receiver(decoded=2051, left=2, zeros=1, **IN_OTHER) + receive(hx("31")) + D
           + show_receiver(2047) + receive(hx("31 7E")) + D, "R 10")
    yield ("10, last data octet fits, its zero does not", receiver(decoded=2050, left=1, zeros=1, **IN_OTHER)
           + receive(hx("31")) + D + show_receiver(2047) + receive(FLAG), "R 10")
    yield ("10, two zeros together",
           fill(2, 2040, hx("EE") * 20) + receiver(decoded=2050, **IN_OTHER) + receive(hx("E0"))
           + D + show_receiver(2047) + receive(FLAG), "R 10")
    yield ("not 10, two zeros at 2,049", fill(2, 2040, hx("EE") * 20) + receiver(decoded=2049, **IN_OTHER)
           + receive(hx("E0")) + D + show_receiver(2047) + receive(FLAG), "R 14")
    yield ("Packet in the first area", open_receiver(3) + receive(hx("0C 31 32 33 34 35 36 37 38 39 6E 90")) + D
           + receive(FLAG) + D + show_receiver(8), "P 0 9 31 32 33 34 35 36 37 38 39")
    yield ("Packet in the second area",
           receiver(work=1, held=3) + receive(hx("0C 31 32 33 34 35 36 37 38 39 6E 90 7E")) + D
           + show_receiver(8), "P 1 9 31 32 33 34 35 36 37 38 39")
    yield "Packet, longest", (fill(2, 0, bytes(2048) + fcs(bytes(2048)) + b"\0") + receiver(decoded=2051, **IN_OTHER)
                              + receive(FLAG) + D), "P 0 2048" + " 00" * 2048
    yield "Held, no octet", open_receiver(3) + receive(hx("05 7E")) + D, "H 0 0"
    yield ("Held by a resumed frame is no replacement", open_receiver(3) + receive(hx("05 31 7E D1 04 32")) + D
           + receive(FLAG) + D + show_receiver(), "H 1 0, H 2 0")
    yield ("Held, replaced", receiver(held=0) + receive(hx("05 31 7E")) + D, "H 1 1")
    yield ("resumed and whole", open_receiver(3) + receive(hx("0C 31 32 33 7E D1 09 34 35 36 37 38 39 6E 90 7E")) + D
           + receive(hx("D1 01 7E")), "H 3 0, P 0 9 31 32 33 34 35 36 37 38 39, R 8")
    yield ("resumed, another frame between", open_receiver(3)
           + receive(hx("0C 31 32 33 7E 05 7E")) + D, "H 3 0, H 0 1")
    yield ("resumed and refused leaves nothing held", holding(5) + receive(hx("D1 D2")) + D + receive(FLAG) + D
           + receive(hx("D1 7E")), "R 7, R 8")
    yield ("resumed, FF after D1 is 7", holding(5) + receive(hx("D1 FF")) + D + receive(FLAG) + D, "R 7")
    yield ("resumed, D1 after D1 is 7", holding(5) + receive(hx("D1 D1 7E")) + D, "R 7")
    yield ("refused, not resumed, leaves what is held",
           holding(5) + receive(hx("D2 7E")) + D + receive(hx("01 7E")) + D + receive(hx("D1 7E")) + D,
           "R 7, R 13, R 9")
    yield ("begun FF, nothing held any more",
           receiver(held=5) + receive(hx("FF 7E")) + D + receive(hx("D1 7E")) + D, "R 5, R 8")
    yield ("delivered, not resumed, leaves what is held",
           receiver(held=5) + receive(hx("E0 03 47 0F 7E")) + D, "P 0 2 00 00")
    yield ("D1 without PRE, held: 6, and at its flag nothing held", receiver(settings=1, held=5) + receive(hx("D1")) + D
           + receive(hx("31")) + D + receive(FLAG) + D, "R 6")
    yield ("D1 accepted turns the areas, also the other way", holding(2, work=1) + receive(hx("D1")) + D
           + receive(hx("03 41 42")) + D + show_receiver() + receive(FLAG) + D, "R 14")
    yield ("D1 onto the longest fragment: a code fits, nothing more", holding(2051) + receive(hx("D1 02")) + D
           + receive(hx("31")) + D + receive(FLAG) + D, "R 10")
    yield "D1 onto 2,050: one zero more", holding(2050) + receive(hx("D1 01")) + D + receive(FLAG) + D, "R 14"
    yield ("00 is 7E as code and as data", open_receiver(3) + receive(hx("00")) + D + receive(hx("00 31")) + D
           + show_receiver() + receive(FLAG) + D, "H 2 0")
    yield ("a refused frame is skipped to its flag", open_receiver(3) + receive(hx("FF D1 01 D0 00 05 31")) + D
           + receive(FLAG) + D, "R 5")
    yield ("handed in: refusal with data left is skipped", receiver(decoded=3, left=5, zeros=1, frame=1, refusal=7)
           + receive(hx("31 D2")) + D + receive(FLAG) + D, "R 7")
    yield ("handed in: zeros due with none left are replaced", receiver(decoded=3, zeros=2, **IN_OTHER)
           + receive(hx("03")) + D + show_receiver() + receive(hx("41 42")) + D + show_receiver() + receive(FLAG),
           "R 14")
    yield ("handed in: zeros due with none left is not inside a block", receiver(decoded=3, zeros=2, **IN_OTHER)
           + receive(FLAG) + D, "R 13")
    yield ("handed in: resumed, last block none, data left: D1 alone", receiver(decoded=3, left=2, frame=1, resumed=1)
           + receive(FLAG) + D, "R 9")
    yield ("handed in: last block D0, none left, nothing decoded",
           receiver(last=1, frame=1) + receive(FLAG) + D, "R 12")
    yield ("handed in: resumed with something held", receiver(decoded=3, held=4, left=2, resumed=1, **IN_OTHER)
           + receive(FLAG) + D + receiver(decoded=3, held=4, resumed=1, **IN_OTHER) + receive(FLAG) + D, "H 3 0, R 13")
    yield ("handed in: resumed without PRE, inside a block",
           receiver(settings=0, decoded=3, held=4, left=2, resumed=1, **IN_OTHER)
           + receive(FLAG) + D, "R 11")
    yield ("21: the held octets are others", receiver(held=5, register=0x1234) + receive(hx("D1")) + D + receive(FLAG) + D, "R 21")
    whole = (b"\xd0" + b"A" * 207) * 9 + b"\xbc" + b"A" * 185 + fcs(b"A" * 2048) + FLAG
    yield ("Packet, longest, in either area", open_receiver(3) + receive(whole) + receive(hx("05 31 7E")) + receive(whole) + D,
           ", H 1 0, ".join(f"P {area} 2048" + " 41" * 2048 for area in (0, 1)))


def other_settings():
    """Settings with other bits set are as those without."""
    zeros = hx("00 00 00 41 00 00")
    for settings in (0x00, 0x01, 0x02, 0x03, 0xFC, 0xFD, 0xFE, 0xFF, 0x80):
        first, code, resumed, inside = (
            "O D3" if settings & 1 else "O 01", "R 14" if settings & 1 else "R 6",
            "R 8" if settings & 2 else "R 6", "H 1 0" if settings & 2 else "R 11")
        yield (f"settings {settings:02X}", open_sender(settings) + load_low(zeros) + next_octets(1) + D
               + open_receiver(settings) + receive(hx("D5 7E D1 01 7E 05 31 7E")) + D,
               f"D, {first}, {code}, {resumed}, {inside}")


def code_answer(code, settings, before):
    """What document 01 asks for a frame of `before` (nothing, 01 or D1) and this octet, then the flag."""
    code = code or 0x7E
    pre, zxe = settings & 2, settings & 1
    if before == b"" and code == 0xFF:
        return "R 5"
    if before == b"" and code == 0xD1:
        return "R 8" if pre else "R 6"
    if code in (0xD1, 0xD2, 0xFF):
        return "R 7"
    if code >= 0xD3 and not zxe:
        return "R 6"
    decoded = {b"": 0, b"\x01": 1, b"\xd1": 3}[before]
    if code in (0x01, 0xE0) or 0xD3 <= code <= 0xDF:
        decoded += 1 if code == 0x01 else 2 if code == 0xE0 else code - 0xD0
        return "R 13" if decoded - 1 < 4 else "R 14"
    return f"H {decoded} 0" if pre else "R 11"


def codes():
    for settings in (0, 3):
        for before, name in ((b"", "first octet"), (b"\x01", "later code")):
            commands, answers = b"", []
            for code in range(256):
                commands += open_receiver(settings) + receive(before + bytes((code,))) + D + receive(FLAG)
                if code == 0x7E:
                    answers += ["R 13"] * (before != b"")
                else:
                    answers.append(code_answer(code, settings, before))
            yield (f"every octet as {name}, settings {settings:02X}",
                   fill(2, 0, b"\x31" * 20) + commands, ", ".join(answers))
    commands, answers = b"", []
    for code in [*range(0, 8), 0x7D, 0x7E, 0x7F, *range(0xCD, 0x100)]:
        commands += receiver(held=b"111") + receive(b"\xd1" + bytes((code,))) + D + receive(FLAG)
        answers.append("R 9" if code == 0x7E else code_answer(code, 3, b"\xd1"))
    yield ("octets after D1 onto 3 held",
           fill(2, 0, b"\x31" * 20) + fill(3, 0, b"\x31" * 20) + commands, ", ".join(answers))


def mark_begins():
    """The areas 0 to 4 begin A0 B0, A1 B1, ..."""
    return b"".join(fill(area, 0, bytes((0xA0 + area, 0xB0 + area))) for area in range(5))


def script_format():
    for area in range(4):
        yield (f"the end of area {area}", fill(area, 20477, hx("99 AA BB CC DD")) + show(area, 20477, 9)
               + show(area, 20479, 1) + show(area, 20480, 1) + show(area, 65535, 1), ["X 99 AA BB", "X BB", "X", "X"])
    yield ("nothing goes over into another area", mark_begins()
           + b"".join(fill(area, whole - 1, bytes((0xC0 + area,)) + hx("DD") * 30) for area, whole in enumerate(WHOLE_AREAS))
           + b"".join(show(area, 0, 2) + show(area, whole - 1, 9) for area, whole in enumerate(WHOLE_AREAS)),
           ["X A0 B0", "X C0", "X A1 B1", "X C1", "X A2 B2", "X C2", "X A3 B3", "X C3", "X A4 B4", "X C4"])
    yield ("f from beyond the end on", fill(1, 20479, hx("55")) + fill(1, 20480, hx("DD"))
           + fill(1, 65535, hx("DD DD DD")) + show(1, 20479, 9) + show(1, 0, 2) + show(2, 0, 2),
           ["X 55", "X A1 B1", "X A2 B2"])
    yield ("the end is the whole area's, nothing lent", lend((0, 0, 0, 0))
           + b"".join(fill(area, 20479, bytes((0x70 + area,))) + show(area, 20479, 2) for area in range(4))
           + DEFAULT_LENGTHS, ["X 70", "X 71", "X 72", "X 73"])
    yield "x of nothing", show(0, 0, 0) + show(4, 40959, 0) + show(0, 65535, 65535), ["X", "X", "X"]
    yield "x, as many as there are", show(0, 20479, 65535) + show(4, 40959, 65535), ["X 70", "X C4"]
    yield ("f of nothing", fill(0, 0, b"") + fill(0, 20480, b"") + fill(9, 0, b"") + show(0, 0, 2), ["X A0 B0"])
    yield ("numbers too large count as remainders", hand_sender((259, 4, 0, 0, 0, 256, 258, 4, 2, 3, 272, 2048))
           + hand_receiver((515, 2, 5, 65535, 257, 256, 5, 3, 2, 261, 544, 2048, 4660, 43981, 5, 7, 65535)) + D,
           ["S 3 4 0 0 0 0 2 1 0 1 16 2048", "T 3 0 5 65535 1 0 2 1 0 5 32 2048 4660 43981 1 7 65535"])
    yield ("numbers as large as they can be", hand_sender((65535,) * 12) + hand_receiver((65535,) * 17) + D,
           ["S 255 65535 65535 65535 65535 255 255 0 1 1 255 65535",
            "T 255 1 65535 65535 255 255 0 1 1 255 255 65535 65535 65535 3 65535 65535"])
    yield ("one below", hand_sender((65534,) * 12) + hand_receiver((65534,) * 17) + D,
           ["S 254 65534 65534 65534 65534 254 254 2 0 0 254 65534",
            "T 254 0 65534 65534 254 254 2 0 0 254 254 65534 65534 65534 2 65534 65534"])
    yield ("work area 3 is the second",
           hand_receiver((3, 3, 0, 0, 0, 0, 0, 0, 0, 0, 16, 2048, 65535, 0)) + receive(hx("E0 03 47 0F 7E")), "P 1 2 00 00")
    yield ("held 1 is a fragment of no octets",
           hand_receiver((3, 0, 0, 1, 0, 0, 0, 0, 0, 0, 16, 2048, 65535, 0)) + receive(hx("05 31 7E")) + D, "H 1 1")
    yield "n of none, r of none", next_octets(0) + receive(b""), []


def no_area():
    begins = b"".join(show(area, 0, 2) for area in range(5))
    unchanged = ["X A0 B0", "X A1 B1", "X A2 B2", "X A3 B3", "X A4 B4"]
    above = (7, 8, 9, 10, 11, 12, 127, 128, 254, 255)
    yield ("area octet above 6", mark_begins() + b"".join(fill(area, 0, hx("DD DD")) for area in above) + begins
           + show(7, 0, 2) + show(8, 0, 0) + show(128, 0, 2) + show(255, 0, 65535) + show(255, 65535, 65535),
           unchanged + ["X"] * 5)
    yield ("areas 5 and 6 are not there yet", fill(5, 0, hx("DD DD")) + fill(6, 0, hx("DD DD")) + begins
           + show(5, 0, 2) + show(6, 0, 2), unchanged + ["X", "X"])
    yield "what f of no area brings is read, not carried out", fill(200, 0x6464, b"ddd") + show(0, 0, 2), ["X A0 B0"]


def out_area():
    yield ("filled and shown", fill(OUT_AREA, 0, hx("AA BB CC 00 00")) + show(OUT_AREA, 0, 5), ["X AA BB CC 00 00"])
    yield ("goes on where the other areas end", fill(OUT_AREA, 20478, hx("01 02 03 04")) + show(OUT_AREA, 20478, 4)
           + show(3, 20479, 4), ["X 01 02 03 04", "X 73"])
    yield ("its end", fill(OUT_AREA, 40957, hx("99 AA BB CC DD")) + show(OUT_AREA, 40957, 9) + show(OUT_AREA, 40959, 1)
           + show(OUT_AREA, 40960, 1) + show(OUT_AREA, 65535, 1), ["X 99 AA BB", "X BB", "X", "X"])
    yield ("f from beyond its end on", fill(OUT_AREA, 40960, hx("DD")) + fill(OUT_AREA, 65535, hx("DD DD DD"))
           + show(OUT_AREA, 40957, 9) + show(OUT_AREA, 0, 3) + show(0, 0, 2), ["X 99 AA BB", "X AA BB CC", "X A0 B0"])
    for length in (0, 1, 2051, 40959, 40960, 40961, 65535):
        yield (f"{length} lent, f and x on the whole", lend_out(length)
               + fill(OUT_AREA, 40956, bytes((length % 256, length // 256))) + show(OUT_AREA, 40956, 9),
               [f"X {length % 256:02X} {length // 256:02X} AA BB"])
    yield ("A leaves what is lent of the others", DEFAULT_LENGTHS + lend_out(0) + open_sender(3) + open_receiver(3)
           + load_low(TWO) + next_octets(1) + receive(hx("05 31 7E")) + SHORT_LOW + lend_out(40960) + next_octets(1)
           + DEFAULT_LENGTHS, "D, O 05, H 1 0, R 2")
    yield ("load, next octet and receiver leave it", fill(OUT_AREA, 0, hx("AA BB CC DD")) + lend_out(40960)
           + open_sender(3) + open_receiver(3) + load_low(TWO) + next_octets(6) + receive(hx("E0 03 47 0F 7E"))
           + show(OUT_AREA, 0, 6),
           ["D", "O 05", "O 41", "O 42", "O EF", "O 31", "O 7E", "P 0 2 00 00", "X AA BB CC DD 00 00"])


BASE = [
    ("the start", start),
    ("document 01's marked frames", marked),
    ("load", loads),
    ("lent areas", areas),
    ("order of the call refusals", orders),
    ("next octet", nexts),
    ("receiver", receivers),
    ("settings", other_settings),
    ("in bounds, sender", sender_bounds),
    ("in bounds, receiver", receiver_bounds),
    ("codes", codes),
    ("the script's own format", script_format),
    ("area numbers", no_area),
    ("out", out_area),
]


# ------------------------------------------------------------------------------------------------
# The table of the script width: document 02, slip 1
# ------------------------------------------------------------------------------------------------

WIDE_LENGTHS = lend(lent(32))
NINE = hx("31 32 33 34 35 36 37 38 39")
WRONG = (0, 1, 8, 15, 17, 24, 31, 33, 48, 64, 128, 144, 160, 254, 255)
IN_BLOCK = dict(decoded=1, left=2, zeros=1, **IN_OTHER)


def sent(octets):
    """The lines of octets that are sent."""
    return [f"O {octet:02X}" for octet in octets]


def packet_line(area, data):
    return f"P {area} {len(data)}" + "".join(f" {octet:02X}" for octet in data)


def slip_examples():
    """The table of examples that goes with the slip's readings, row by row; settings 03 and 32 bits unless said. Only
    the entries of the check's table are not here: no call gives them."""
    yield "areas for 32 bits", WIDE_LENGTHS + fill_all(), []
    for settings, data, line in (
            (3, NINE, hx("0E") + NINE + hx("26 39 F4 CB 7E")), (3, hx("00 00"), hx("E0 05 FF 12 D9 41 7E")),
            (0, hx("00 00"), hx("01 01 05 FF 12 D9 41 7E")), (3, hx("7E 7E"), hx("07 00 00 BC 1A D8 47 7E"))):
        yield (f"packet {data.hex(' ')} sent, settings {settings:02X}", open_sender(settings, 32) + load_low(data)
               + next_octets(len(line) + 1), ["D", *sent(line), "I"])
        yield (f"and received, settings {settings:02X}", open_receiver(settings, 32) + receive(line),
               packet_line(0, data))
    yield "05 and four 31", open_receiver(3, 32) + receive(hx("05 31 31 31 31 7E")), "R 13"
    yield "the same, 16 bits", open_receiver(3, 16) + receive(hx("05 31 31 31 31 7E")), "R 14"
    yield "06 and five 31", open_receiver(3, 32) + receive(hx("06 31 31 31 31 31 7E")), "R 13"
    yield "07 and six 31", open_receiver(3, 32) + receive(hx("07 31 31 31 31 31 31 7E")), "R 14"
    yield "DF 136 times, DD", open_receiver(3, 32) + receive(hx("DF") * 136 + hx("DD 7E")), "R 14"
    yield "DF 136 times, DE", open_receiver(3, 32) + receive(hx("DF") * 136 + hx("DE 7E")), "R 10"
    for end in (open_sender, open_receiver):
        yield f"{end.__name__}, 03 with 24 and with 0", end(3, 24) + end(3, 0), "R 3, R 3"
    yield ("a state with 24, a load of 1 octet, an area of 0",
           sender(width=24) + lend((0, 0, 0, 0)) + load_low(ONE) + WIDE_LENGTHS, "R 3")


def openings():
    yield ("16 and 32", open_sender(1, 16) + open_receiver(2, 32) + D + open_sender(255, 32) + open_receiver(0, 16) + D,
           ["S 1 0 0 0 0 0 0 0 0 0 16 2048", "T 2 0 0 0 0 0 0 0 0 0 32 2048 65535 65535 0 0 0",
            "S 255 0 0 0 0 0 0 0 0 0 32 2048", "T 0 0 0 0 0 0 0 0 0 0 16 2048 65535 0 0 0 0"])
    yield ("a refused opening leaves the end as it was", sender(low=(9, 2), high=(6, 0), left=3, zeros=1, line=1, width=32)
           + receiver(settings=2, work=1, held=7, width=32, **IN_BLOCK) + open_sender(0, 24) + open_receiver(1, 33) + D,
           ["R 3", "R 3", "S 3 9 2 6 0 3 1 1 0 0 32 2048", told("2 1 1 8 2 1 2 1 0 0", 32)])
    yield ("a refused opening leaves a state out of bounds too", sender(low=(3, 9), left=255, width=24)
           + receiver(decoded=9999, refusal=77, width=0) + open_sender(0, 0) + open_receiver(1, 255) + D,
           ["R 3", "R 3", "S 3 3 9 0 0 255 0 0 0 0 24 2048", "T 3 0 9999 0 0 0 0 0 0 77 0 2048 65535 0 0 0 0"])
    yield ("and goes on where it was", open_sender(3, 32) + load_low(hx("7E 7E")) + next_octets(3) + open_sender(0, 8)
           + next_octets(6) + open_receiver(3, 32) + receive(hx("07 00 00 BC")) + open_receiver(0, 64)
           + receive(hx("1A D8 47 7E")),
           ["D", *sent(hx("07 00 00")), "R 3", *sent(hx("BC 1A D8 47 7E")), "I", "R 3", "P 0 2 7E 7E"])
    yield ("the lengths lent play no part", lend((0, 0, 0, 0)) + open_sender(3, 32) + open_receiver(3, 16) + D
           + open_sender(3, 17) + open_receiver(3, 15) + WIDE_LENGTHS,
           ["S 3 0 0 0 0 0 0 0 0 0 32 2048", "T 3 0 0 0 0 0 0 0 0 0 16 2048 65535 0 0 0 0", "R 3", "R 3"])
    yield ("an opening ends what was there", sender(low=(9, 2), high=(6, 0), left=3, zeros=1, line=1, width=24)
           + receiver(work=1, held=7, width=24, **IN_BLOCK) + open_sender(3, 32) + open_receiver(3, 32) + D,
           ["S 3 0 0 0 0 0 0 0 0 0 32 2048", "T 3 0 0 0 0 0 0 0 0 0 32 2048 65535 65535 0 0 0"])
    for end in (open_sender, open_receiver):
        yield (f"every width, {end.__name__}", b"".join(end(0, width) for width in range(256)) + end(0, 16),
               ["R 3"] * 254)


def wrong_widths():
    """A state with a wrong width is refused 3, whatever else is wrong, and stays as it was."""
    for width in WRONG:
        state = f" {width} 2048"
        yield (f"{width}, fresh", sender(width=width) + load_low(TWO) + load_high(TWO) + next_octets(2)
               + receiver(width=width) + receive(hx("05 31 7E")) + D,
               ["R 3"] * 7 + ["S 3" + " 0" * 9 + state, "T 3" + " 0" * 9 + state + " 65535 0 0 0 0"])
    for lengths in (lent(32), lent(16), (2049, 2049, 2050, 2050), (0, 0, 0, 0), (20480,) * 4):
        yield (f"24, areas of {lengths[0]} and {lengths[2]}", lend(lengths) + sender(width=24) + load_low(TWO)
               + load_high(b"") + next_octets(1) + receiver(width=24) + receive(FLAG) + D + show_sender() + show_receiver(),
               "R 3, R 3, R 3, R 3")
        yield (f"24, areas of {lengths[0]} and {lengths[2]}, states out of bounds", sender(low=(3, 0), width=24)
               + load_low(ONE) + next_octets(1) + receiver(decoded=1, width=24) + receive(hx("31")) + D, "R 3, R 3, R 3")
    yield "areas for 32 bits again", WIDE_LENGTHS, []
    yield ("numbers of a width count as remainders", sender(low=(6, 0), width=288) + next_octets(1)
           + receiver(width=65296) + receive(hx("05 31 31 31 31 7E")) + D
           + sender(low=(5, 0), width=272) + next_octets(1) + receiver(width=65312) + receive(hx("05 31 31 31 31 7E")) + D
           + sender(width=280) + next_octets(1) + receiver(width=256) + receive(FLAG) + D,
           ["O 07", "R 14", "S 3 6 0 0 0 6 1 1 0 0 32 2048", "T 3 0 0 0 0 0 0 0 0 0 16 2048 65535 0 0 0 0",
            "O 06", "R 13", "S 3 5 0 0 0 5 1 1 0 0 16 2048", "T 3 0 0 0 0 0 0 0 0 0 32 2048 65535 65535 0 0 0",
            "R 3", "R 3", "S 3 0 0 0 0 0 0 0 0 0 24 2048", "T 3 0 0 0 0 0 0 0 0 0 0 2048 65535 0 0 0 0"])


def wide_areas():
    for lengths, low, high, after in (
            (lent(32), "D", "D", "O 07"), ((2051, 2052, 2053, 2053), "R 2", "D", "R 2"),
            ((2052, 2051, 2053, 2053), "D", "R 2", "R 2"), (lent(16), "R 2", "R 2", "R 2"),
            ((20480, 2051, 0, 0), "D", "R 2", "R 2"), ((2052, 20480, 0, 0), "D", "D", "O 07")):
        yield (f"32 bits, sender areas of {lengths[0]} and {lengths[1]}", open_sender(3, 32) + lend(lengths)
               + load_low(TWO) + load_high(TWO) + next_octets(1) + D + show_sender(), f"{low}, {high}, {after}")
    for lengths, answers in ((lent(32), "H 1 0"), ((0, 0, 2052, 2053), "R 2, R 2, R 2"),
                             ((0, 0, 2053, 2052), "R 2, R 2, R 2"), (lent(16), "R 2, R 2, R 2"),
                             ((0, 0, 2053, 20480), "H 1 0")):
        yield (f"32 bits, receiver areas of {lengths[2]} and {lengths[3]}", open_receiver(3, 32) + lend(lengths)
               + receive(hx("05 31 7E")) + D + show_receiver(), answers)
    yield ("areas for 16 bits are long enough for 16 bits", lend(lent(16)) + open_sender(3, 16) + open_receiver(3, 16)
           + load_low(TWO) + load_high(TWO) + next_octets(1) + receive(hx("05 31 7E")) + D + WIDE_LENGTHS,
           "D, D, O 05, H 1 0")


def wide_loads():
    longest = b"1" * 2048
    check = fcs(longest, 32).hex(" ").upper()
    yield ("F and nothing beyond", open_sender(3, 32) + fill(0, 0, hx("EE") * 12) + load_low(hx("00 00")) + show(0, 0, 8) + D,
           ["D", "X 00 00 FF 12 D9 41 EE EE", "S 3 6 0 0 0 0 0 0 0 0 32 2048", told("3 1 0 2 0 0 0 0 0 0", held=b"1")])
    yield ("2,048 octets, area exactly long enough", open_sender(3, 32) + fill(1, 2040, hx("EE") * 20) + load_high(longest)
           + show(1, 2046, 8) + D,
           ["D", f"X 31 31 {check} EE EE", "S 3 0 0 2052 0 0 0 0 0 0 32 2048", told("3 1 0 2 0 0 0 0 0 0", held=b"1")])
    yield ("1: 0, 1 and 2,049 octets", open_sender(3, 32) + load_low(b"") + load_high(ONE) + load_low(b"1" * 2049),
           "R 1, R 1, R 1")
    yield "4", open_sender(3, 32) + load_low(TWO) + load_low(TWO) + load_high(TWO) + load_high(TWO), "D, R 4, D, R 4"


def wide_orders():
    """3 by the width, 2, 3 by the rest, 4, 1."""
    short = lend((2051, 2051, 2052, 2052))
    holds = sender(low=(6, 0), high=(6, 0), width=32)
    yield "3 by the width before 2", short + sender(width=24) + load_low(TWO) + next_octets(1), "R 3, R 3"
    yield "3 by the width before 2, receiver", receiver(width=24) + receive(FLAG), "R 3"
    yield "2 before 3", sender(low=(5, 0), width=32) + load_low(TWO) + load_high(TWO) + next_octets(1), "R 2, R 2, R 2"
    yield "2 before 3, receiver", receiver(decoded=1, width=32) + receive(FLAG), "R 2"
    yield "2 before 4 and 1", holds + load_low(TWO) + load_high(ONE), "R 2, R 2"
    yield "3 before 4 and 1", WIDE_LENGTHS + sender(low=(5, 0), width=32) + load_low(ONE) + load_high(b""), "R 3, R 3"
    yield "4 before 1", holds + load_low(ONE) + load_high(b"1" * 2049), "R 4, R 4"


def by_width():
    """States that are in bounds at one width and not at the other: commands, and which widths take them."""
    for length in (3, 4, 5, 6, 7, 2049, 2050, 2051, 2052, 2053):
        takes = [width for width in WIDTHS if 2 + width // 8 <= length <= 2048 + width // 8]
        for name in ("low", "high"):
            yield f"{name} length {length}", "s", {name: (length, 0)}, takes
            yield f"{name} length {length}, position one more", "s", {name: (length, length + 1)}, takes
            yield f"{name} length {length}, position two more", "s", {name: (length, length + 2)}, []
    for count in (2050, 2051, 2052, 2053, 2054):
        takes = [width for width in WIDTHS if count <= 2049 + width // 8]
        yield f"decoded {count}", "t", dict(decoded=count, **IN_OTHER), takes
        yield f"decoded {count}, refused 10", "t", dict(decoded=count, frame=1, refusal=10), takes
        yield f"held {count}", "t", dict(held=count), takes
        yield f"held {count} in a frame", "t", dict(held=count, **IN_BLOCK), takes


def wide_bounds():
    for name, end, state, takes in by_width():
        for width in WIDTHS:
            hand = (sender if end == "s" else receiver)(width=width, **state)
            calls = [load_low(TWO), load_high(TWO), next_octets(1)] if end == "s" else [receive(hx("31")), receive(FLAG)]
            yield (f"{name}, {width} bits", b"".join(hand + call + D for call in calls),
                   "no R 3" if width in takes else ", ".join(["R 3"] * len(calls)))
    for state, words in ((dict(left=208), "208 left"), (dict(zeros=3), "3 zeros due"), (dict(line=2), "high on the line")):
        yield (f"{words}, 32 bits", sender(**{"low": (300, 0), "left": 1, "line": 1, "width": 32, **state}) + next_octets(1),
               "R 3")
    for state, words in ((dict(left=208), "208 left"), (dict(zeros=3), "3 zeros due"), (dict(refusal=11), "refusal 11"),
                         (dict(frame=0), "out of a frame"), (dict(left=0, decoded=0), "nothing decoded")):
        yield (f"{words}, 32 bits, receiver", receiver(**{**IN_BLOCK, "width": 32, **state}) + receive(FLAG), "R 3")


def wide_limits():
    """Refusals 10 and 13."""
    for width, most in ((16, 2051), (32, 2053)):
        before = lend(lent(width)) + fill(2, 2040, hx("EE") * 20)
        shown = show(2, most - 3, 6)
        yield (f"10, {width} bits: a data octet beyond {most}", before
               + receiver(decoded=most, left=2, zeros=1, width=width, **IN_OTHER) + receive(hx("31")) + shown + receive(FLAG),
               ["X EE EE EE EE EE EE", "R 10"])
        yield (f"10, {width} bits: the last data octet fits, its zero does not", before
               + receiver(decoded=most - 1, left=1, zeros=1, width=width, **IN_OTHER) + receive(hx("31")) + shown
               + receive(FLAG), ["X EE EE 31 EE EE EE", "R 10"])
        yield (f"10, {width} bits: two zeros together", before
               + receiver(decoded=most - 1, width=width, **IN_OTHER) + receive(hx("E0")) + shown + receive(FLAG),
               ["X EE EE EE EE EE EE", "R 10"])
        yield (f"not 10, {width} bits: two zeros up to {most}", before
               + receiver(decoded=most - 2, width=width, **IN_OTHER) + receive(hx("E0")) + shown + receive(FLAG),
               ["X EE 00 00 EE EE EE", "R 14"])
        yield (f"10, {width} bits: D1 onto {most}", holding(most, width=width) + receive(hx("D1 01 7E")), "R 10")
        yield (f"not 10, {width} bits: D1 onto {most - 1}", holding(most - 1, width=width) + receive(hx("D1 01 7E")),
               "R 14")
        for run in range(0xD9, 0xE0):
            yield (f"DF 136 times and {run:02X}, {width} bits", open_receiver(3, width)
                   + receive(hx("DF") * 136 + bytes((run,)) + FLAG), "R 10" if 2040 + run - 0xD0 > most else "R 14")
    yield "areas for 32 bits once more", WIDE_LENGTHS, []
    for width in WIDTHS:
        for count in range(9):
            yield (f"{count} octets, {width} bits", open_receiver(3, width) + receive(bytes((count + 1,)) + b"1" * count + FLAG),
                   "R 13" if count < 2 + width // 8 else "R 14")
            whole = b"A" * count + fcs(b"A" * count, width)
            yield (f"{count} octets and their FCS, {width} bits", fill(3, 0, whole + b"\0")
                   + receiver(work=1, decoded=len(whole) + 1, width=width, **IN_OTHER) + receive(FLAG),
                   packet_line(1, b"A" * count) if count >= 2 else "R 13")


def other_width():
    """Frames that were sent with the other width."""
    for data in (NINE, hx("00 00"), hx("41 42"), b"1" * 100):
        whole = {width: data.replace(b"\0", b"") + fcs(data, width) for width in WIDTHS}
        assert 0 not in whole[16] + whole[32] and FLAG[0] not in whole[16] + whole[32]
        for width, refused in ((16, "R 13" if len(data) == 2 else "R 14"), (32, "R 14")):
            zeros = b"\xe0" * (0 in data)
            line = zeros + bytes((len(whole[width]) + 1,)) + whole[width] + FLAG
            yield (f"{data[:9].hex(' ')}, {width} bits, to both", open_receiver(3, 16) + receive(line)
                   + open_receiver(3, 32) + receive(line),
                   ", ".join([packet_line(0, data), refused][::1 if width == 16 else -1]))


def with_check(data, width, check):
    """The octets and as many more as the FCS has, so that it is this one: the register is stepped back from there."""
    polynomial, register = {16: 0x8408, 32: 0xEDB88320}[width], int.from_bytes(check, "little") ^ 2 ** width - 1
    for _ in range(width):
        high = register >> width - 1
        register = ((register ^ polynomial * high) << 1 | high) % 2 ** width
    before = int.from_bytes(fcs(data, width), "little") ^ 2 ** width - 1
    data += (register ^ before).to_bytes(width // 8, "little")
    assert fcs(data, width) == check
    return data


def wide_checks():
    """FCSs with zeros and 7E in them."""
    zeros = with_check(b"1", 32, bytes(4))
    flags = with_check(b"12", 32, FLAG * 4)
    ends = with_check(b"123", 32, hx("41 00 00 42"))
    assert 0 not in zeros + flags + ends[:7] and FLAG[0] not in zeros + flags[:6] + ends
    for name, data, line in (
            ("four zeros and the phantom", zeros, hx("E5") + zeros + hx("D3 7E")),
            ("four 7E", flags, hx("0B") + flags + hx("00 00 00 00 7E")),
            ("two zeros inside", ends, hx("E8") + ends + hx("41 02 42 7E"))):
        yield (f"{name}: sent", open_sender(3, 32) + load_low(data) + next_octets(len(line) + 1), ["D", *sent(line), "I"])
        yield (f"{name}: received", open_receiver(3, 32) + receive(line), packet_line(0, data))
    whole = NINE + hx("26 39 F4 CB")
    damaged = [bytes(octet ^ (1 << bit % 8) * (at == bit // 8) for at, octet in enumerate(whole)) for bit in range(8 * len(whole))]
    damaged = [octets for octets in damaged if 0 not in octets and FLAG[0] not in octets]
    yield ("a bit is wrong, at each place", open_receiver(3, 32) + b"".join(receive(hx("0E") + octets + FLAG) for octets in damaged),
           ", ".join(["R 14"] * len(damaged)))
    yield "the FCS high octet first", open_receiver(3, 32) + receive(hx("0E") + NINE + hx("CB F4 39 26 7E")), "R 14"
    yield "the FCS not complemented", open_receiver(3, 32) + receive(hx("0E") + NINE + hx("D9 C6 0B 34 7E")), "R 14"


def wide_delivery():
    """Both ends, 32 bits. 41 42 43 is broken off after 41 by 44 45, and resumed."""
    low, high = hx("41 42 43") + fcs(hx("41 42 43"), 32), hx("44 45") + fcs(hx("44 45"), 32)
    assert 0 not in low + high and FLAG[0] not in low + high
    urgent, rest = hx("07") + high + FLAG, hx("D1 07") + low[1:] + FLAG
    idle, holds = "S 3 0 0 0 0 0 0 0 0 0 32 2048", told("3 1 0 2 0 0 0 0 0 0", 32, held=b"A")
    yield ("sent", open_sender(3, 32) + open_receiver(3, 32) + load_low(hx("41 42 43")) + next_octets(2) + D
           + load_high(hx("44 45")) + next_octets(1) + D + next_octets(len(urgent + rest) + 1),
           ["D", "O 08", "O 41", "S 3 7 1 0 0 6 1 1 0 0 32 2048", "T 3 0 0 0 0 0 0 0 0 0 32 2048 65535 65535 0 0 0",
            "D", "O 7E", "S 3 7 1 6 0 0 0 0 1 0 32 2048", "T 3 0 0 0 0 0 0 0 0 0 32 2048 65535 65535 0 0 0", *sent(urgent + rest), "I"])
    yield ("received", receive(hx("08 41 7E")) + D + receive(urgent) + D + receive(rest[:-1]) + D + receive(FLAG) + D,
           ["H 1 0", idle, holds, "P 1 2 44 45", idle, holds,
            idle, "T 3 0 8 0 0 0 2 1 1 0 32 2048 65535 65535 0 0 0", "P 0 3 41 42 43", idle,
            "T 3 0 0 0 0 0 0 0 0 0 32 2048 65535 65535 0 0 0"])
    between = hx("D3 02 7E") + urgent + hx("D1 02 7E") + urgent + hx("D1")
    tail = hx("31 32") + fcs(hx("00 00 00 31 32"), 32)
    assert 0 not in tail and FLAG[0] not in tail
    tail = hx("07") + tail + FLAG
    yield ("broken off between blocks, and straight after D1", open_sender(3, 32) + load_low(hx("00 00 00 31 32"))
           + next_octets(1) + load_high(hx("44 45")) + next_octets(2 + len(urgent) + 1) + load_high(hx("44 45"))
           + next_octets(2 + len(urgent) + 1 + len(tail) + 1),
           ["D", "O D3", "D", *sent(between[1:4 + len(urgent)]), "D", *sent(between[4 + len(urgent):] + tail), "I"])
    yield "and received", receive(between + tail), "H 3 0, P 1 2 44 45, H 3 0, P 1 2 44 45, P 0 5 00 00 00 31 32"
    yield ("a stale fragment: 14", open_receiver(3, 32) + receive(hx("08 42 7E") + urgent + rest), "H 1 0, P 1 2 44 45, R 14")
    yield ("without PRE nothing is broken off", open_sender(1, 32) + load_low(hx("41 42 43")) + next_octets(2)
           + load_high(hx("44 45")) + next_octets(len(low + urgent) + 1),
           ["D", "O 08", "O 41", "D", *sent(low[1:] + FLAG + urgent), "I"])
    longest = b"A" * 2048
    whole = (hx("D0") + b"A" * 207) * 9 + hx("BE") + b"A" * 185 + fcs(longest, 32) + FLAG
    assert 0 not in whole and whole.count(FLAG) == 1
    yield ("the longest packet sent", open_sender(3, 32) + load_low(longest) + next_octets(len(whole) + 1),
           ["D", *sent(whole), "I"])
    yield ("and received, in either area", open_receiver(3, 32) + receive(whole) + receive(hx("05 31 7E")) + receive(whole),
           f"{packet_line(0, longest)}, H 1 0, {packet_line(1, longest)}")
    last = hx("02") + whole[-2:]
    yield ("the longest packet, all but its last octet held", open_receiver(3, 32)
           + receive(whole[:-2] + FLAG + urgent + hx("D1") + last) + D,
           ["H 2051 0", "P 1 2 44 45", packet_line(0, longest), "S 3 0 0 0 0 0 0 0 0 0 32 2048",
            "T 3 0 0 0 0 0 0 0 0 0 32 2048 65535 65535 0 0 0"])


def wide_settings():
    """The settings are read at 32 bits as at 16; no report changes the width."""
    for settings in (0, 1, 2, 3, 0xFC, 0xFF):
        zxe, pre = settings & 1, settings & 2
        yield (f"settings {settings:02X}", open_receiver(settings, 32)
               + receive(hx("D7 7E D1 01 7E 05 31 7E D2 7E FF 7E 01 7E")) + D,
               [f"R {14 if zxe else 6}", f"R {8 if pre else 6}", "H 1 0" if pre else "R 11", "R 7", "R 5", "R 13",
                "S 3 0 0 0 0 0 0 0 0 0 32 2048", f"T {settings} {1 if pre else 0} 0 0 0 0 0 0 0 0 32 2048 65535 65535 0 0 0"])


WIDTH_TABLE = [
    ("slip 1's examples", slip_examples),
    ("opening", openings),
    ("wrong widths", wrong_widths),
    ("lent areas", wide_areas),
    ("load", wide_loads),
    ("order of the call refusals", wide_orders),
    ("in bounds", wide_bounds),
    ("10 and 13", wide_limits),
    ("the other width", other_width),
    ("check sequences", wide_checks),
    ("both ends", wide_delivery),
    ("settings", wide_settings),
]


# ------------------------------------------------------------------------------------------------
# The table of the script limit: document 02, slip 11
# ------------------------------------------------------------------------------------------------

# Limit and width; octets of the longest frame; octets decoded at most; a line of exactly so many zeros, as run codes: how
# often DF, and the code behind them.
BOUNDS = (
    (2, 16, 4, 5, 0, 0xD5), (2, 32, 6, 7, 0, 0xD7), (3, 16, 5, 6, 0, 0xD6), (3, 32, 7, 8, 0, 0xD8),
    (2048, 16, 2050, 2051, 136, 0xDB), (2048, 32, 2052, 2053, 136, 0xDD),
    (16384, 16, 16386, 16387, 1092, 0xD7), (16384, 32, 16388, 16389, 1092, 0xD9))
OUT_OF_RANGE = (0, 1, 16385, 16386, 18432, 32768, 32770, 65535)
LONGEST = 16384
THREE, FOUR = hx("41 42 43"), hx("41 42 43 44")
ENDS = (open_sender, open_receiver)


def opened(width, limit):
    """Both ends, and areas exactly long enough."""
    return open_sender(3, width, limit) + open_receiver(3, width, limit) + lend(lent(width, limit))


def block_line(data, width):
    """A packet without zeros and 7E that fits into one block, as a frame on the line."""
    whole = data + fcs(data, width)
    assert 0 not in whole and FLAG[0] not in whole and 0x7E != len(whole) + 1 <= 207
    return bytes((len(whole) + 1,)) + whole + FLAG


def spotted(area):
    """EE here and there in an area, so that zeros written there show."""
    return b"".join(fill(area, at, hx("EE EE")) for at in range(0, 16400, 800))


def limit_start():
    """What is lent at the start is what 2,048 and 16 bits want, and no more."""
    for width, limit, answers in ((16, 2048, "D, D, O 05, H 1 0"), (16, 2049, "R 2, R 2, R 2, R 2, R 2, R 2"),
                                  (32, 2046, "D, D, O 07, H 1 0"), (32, 2047, "R 2, R 2, R 2, R 2, R 2, R 2")):
        yield (f"limit {limit}, {width} bits", open_sender(3, width, limit) + open_receiver(3, width, limit) + load_low(TWO)
               + load_high(TWO) + next_octets(1) + receive(hx("05 31 7E")), answers)


def limit_examples():
    """The table of examples that goes with the slip's readings, row by row; settings 03 and 16 bits unless said."""
    for end in ENDS:
        yield f"{end.__name__}, 03, 24, limit 1 and limit 16,385", end(3, 24, 1) + end(3, 24, 16385), "R 23, R 23"
        yield f"{end.__name__}, 03, 24, limit 2", end(3, 24, 2), "R 3"
    yield ("limit 2: load of 2 with area 3, of 3 with area 4, of 2 with area 4", open_sender(3, 16, 2) + lend((3, 3, 0, 0))
           + load_low(TWO) + lend((4, 3, 0, 0)) + load_low(THREE) + load_low(TWO), "R 2, R 1, D")
    yield ("limit 16,384: load of 16,384 with area 16,385, of 16,385 with area 16,386, of 16,384 with area 16,386",
           open_sender(3, 16, LONGEST) + lend((16385, 0, 0, 0)) + load_low(b"A" * LONGEST) + lend((16386, 0, 0, 0))
           + fill(0, 16380, hx("EE") * 9) + load_low(b"A" * (LONGEST + 1)) + show(0, 16380, 9) + load_low(b"A" * LONGEST)
           + show(0, 16380, 9) + D,
           ["R 2", "R 1", "X EE EE EE EE EE EE EE EE EE", "D",
            f"X 41 41 41 41 {fcs(b'A' * LONGEST).hex(' ').upper()} EE EE EE",
            "S 3 16386 0 0 0 0 0 0 0 0 16 16384", "T 3 0 0 0 0 0 0 0 0 0 32 2047 65535 65535 0 0 0"])
    yield ("and its first octets and its last are sent", lend((16386, 16386, 0, 0)) + next_octets(3)
           + sender(low=(16386, 16353), line=1, limit=LONGEST) + next_octets(36),
           ["O D0", "O 41", "O 41", "O 22", *["O 41"] * 31, *sent(fcs(b"A" * LONGEST)), "O 7E", "I"])
    yield ("a state with limit 1, a load of 1 octet, an area of 0", sender(limit=1) + lend((0, 0, 0, 0)) + load_low(ONE),
           "R 3")
    yield ("limit 2: 41 42, three octets, D5, D6", lend((0, 0, 5, 5)) + open_receiver(3, 16, 2)
           + receive(hx("05 41 42 EF 31 7E") + hx("06 41 42 43 2F 9F 7E") + hx("D5 7E") + hx("D6 7E")),
           "P 0 2 41 42, R 10, R 14, R 10")
    yield "limit 2: a frame of 3 octets with its FCS", receive(hx("04 41 42 EF 7E")), "R 13"


def limit_openings():
    for limit in (2, 3, 4, 255, 256, 257, 2047, 2048, 2049, 16383, 16384):
        for width in WIDTHS:
            yield (f"limit {limit}, {width} bits", open_sender(1, width, limit) + open_receiver(2, width, limit) + D,
                   [f"S 1 0 0 0 0 0 0 0 0 0 {width} {limit}", told("2 0 0 0 0 0 0 0 0 0", width, limit)])
    for limit in OUT_OF_RANGE:
        for end in ENDS:
            yield (f"{end.__name__}, limit {limit}, with 16 bits, 32, and wrong widths", b"".join(
                end(0, width, limit) for width in (16, 32, 0, 17, 24, 255)), ", ".join(["R 23"] * 6))
    for end in ENDS:
        yield (f"{end.__name__}, wrong widths, good limits", b"".join(
            end(0, width, limit) for width in (0, 24, 255) for limit in (2, 3, 2048, 16384)), ", ".join(["R 3"] * 12))
    yield ("none of these has left its mark", D, ["S 1 0 0 0 0 0 0 0 0 0 32 16384", "T 2 0 0 0 0 0 0 0 0 0 32 16384 65535 65535 0 0 0"])
    yield ("the low octet stands first", b"o" + hx("03 10 02 00") + b"O" + hx("03 20 00 02 00 00 00 00 00") + D
           + b"o" + hx("03 10 01 40") + b"O" + hx("03 20 40 01 00 00 00 00 00") + b"o" + hx("03 18 02 01") + D,
           ["S 3 0 0 0 0 0 0 0 0 0 16 2", "T 3 0 0 0 0 0 0 0 0 0 32 512 65535 65535 0 0 0", "R 23", "R 3",
            "S 3 0 0 0 0 0 0 0 0 0 16 2", "T 3 0 0 0 0 0 0 0 0 0 32 320 65535 65535 0 0 0"])
    yield ("a refused opening leaves the end as it was", sender(low=(9, 2), high=(6, 0), left=3, zeros=1, line=1, width=32, limit=9)
           + receiver(settings=2, work=1, held=7, limit=20, **IN_BLOCK) + open_sender(0, 16, 1) + open_receiver(1, 32, 16385)
           + open_sender(0, 24, 5) + open_receiver(1, 0, 5) + D,
           ["R 23", "R 23", "R 3", "R 3", "S 3 9 2 6 0 3 1 1 0 0 32 9", told("2 1 1 8 2 1 2 1 0 0", 16, 20)])
    yield ("a refused opening leaves a state out of bounds too", sender(low=(3, 9), left=255, width=24, limit=65535)
           + receiver(decoded=9999, refusal=77, width=0, limit=1) + open_sender(0, 16, 0) + open_receiver(1, 16, 65535) + D,
           ["R 23", "R 23", "S 3 3 9 0 0 255 0 0 0 0 24 65535", "T 3 0 9999 0 0 0 0 0 0 77 0 1 65535 0 0 0 0"])
    yield ("and goes on where it was", opened(16, 2) + load_low(TWO) + next_octets(2) + open_sender(0, 16, 1) + next_octets(5)
           + receive(hx("05 41 42")) + open_receiver(0, 16, 16385) + receive(hx("EF 31 7E")),
           ["D", *sent(hx("05 41")), "R 23", *sent(hx("42 EF 31 7E")), "I", "R 23", "P 0 2 41 42"])
    yield ("the lengths lent play no part", lend((0, 0, 0, 0)) + open_sender(3, 32, 16384) + open_receiver(3, 16, 2) + D
           + open_sender(3, 32, 16385) + open_receiver(3, 15, 1),
           ["S 3 0 0 0 0 0 0 0 0 0 32 16384", "T 3 0 0 0 0 0 0 0 0 0 16 2 65535 0 0 0 0", "R 23", "R 23"])
    yield ("an opening ends what was there, and its limit", sender(low=(9, 2), high=(6, 0), left=3, zeros=1, line=1, limit=1)
           + receiver(work=1, held=7, limit=16385, **IN_BLOCK) + open_sender(3, 16, 7) + open_receiver(3, 32, 8) + D,
           ["S 3 0 0 0 0 0 0 0 0 0 16 7", "T 3 0 0 0 0 0 0 0 0 0 32 8 65535 65535 0 0 0"])


def out_of_range():
    """A state with a limit out of range is refused 3, whatever else is wrong, and stays as it was."""
    for limit in OUT_OF_RANGE:
        for width, lengths in ((16, (20480,) * 4), (32, (20480,) * 4), (16, (0,) * 4), (24, (0,) * 4)):
            numbers = "3 0 0 0 0 0 0 0 0 0"
            yield (f"limit {limit}, width {width}, areas of {lengths[0]}", lend(lengths) + sender(width=width, limit=limit)
                   + load_low(TWO) + load_high(TWO) + next_octets(2) + receiver(width=width, limit=limit)
                   + receive(hx("05 31 7E")) + D, ["R 3"] * 7 + [f"S {numbers} {width} {limit}", told(numbers, width, limit)])
        for lengths in ((20480,) * 4, (0,) * 4):
            yield (f"limit {limit}, areas of {lengths[0]}, states out of bounds, wrong packets", lend(lengths)
                   + sender(low=(3, 0), limit=limit) + load_low(ONE) + load_high(b"") + next_octets(1)
                   + receiver(decoded=1, limit=limit) + receive(hx("31")), "R 3, R 3, R 3, R 3")
        yield (f"limit {limit}, lanes loaded, something held", sender(low=(4, 0), high=(4, 0), limit=limit) + load_low(TWO)
               + load_high(ONE) + next_octets(1) + receiver(held=1, limit=limit) + receive(hx("D1")), "R 3, R 3, R 3, R 3")
    yield ("areas that would do for 2,048 play no part", lend(lent(16)) + sender(limit=1) + load_low(TWO) + next_octets(1)
           + receiver(limit=16385) + receive(FLAG), "R 3, R 3, R 3")


def limit_areas():
    for limit, width, frame, most, *_ in BOUNDS:
        begin, exact = ("O 05" if width == 16 else "O 07"), [frame, frame, most, most]
        calls = (open_sender(3, width, limit) + open_receiver(3, width, limit) + load_low(TWO) + load_high(TWO)
                 + next_octets(1) + receive(hx("05 31 7E")))
        yield f"limit {limit}, {width} bits, exactly long enough", lend(exact) + calls, f"D, D, {begin}, H 1 0"
        for area, answers in enumerate(("R 2, D, R 2, H 1 0", "D, R 2, R 2, H 1 0", f"D, D, {begin}, R 2, R 2, R 2",
                                        f"D, D, {begin}, R 2, R 2, R 2")):
            lengths = list(exact)
            lengths[area] -= 1
            yield f"limit {limit}, {width} bits, area {area} one short", lend(lengths) + calls, answers
        yield (f"limit {limit}, {width} bits, nothing lent", lend((0, 0, 0, 0)) + calls, "R 2, R 2, R 2, R 2, R 2, R 2")
        yield f"limit {limit}, {width} bits, longer", lend((frame + 1, 20480, most + 1, 65535)) + calls, f"D, D, {begin}, H 1 0"
    for width in WIDTHS:
        yield (f"limit 16,384, {width} bits, areas for 2,048", lend(lent(width)) + open_sender(3, width, 16384)
               + open_receiver(3, width, 16384) + load_low(TWO) + next_octets(1) + receive(FLAG), "R 2, R 2, R 2")
    yield ("areas for 16 bits, 32 bits", lend((5, 5, 6, 6)) + open_sender(3, 32, 3) + open_receiver(3, 32, 3) + load_low(TWO)
           + load_high(TWO) + next_octets(1) + receive(FLAG), "R 2, R 2, R 2, R 2")
    yield ("idle sender of 16,384, one area short", open_sender(3, 16, 16384) + lend((16386, 16385, 0, 0)) + next_octets(1), "R 2")


def limit_loads():
    """1, and what a load writes. Packets of 2,048 are loaded in the other tables; those of 16,384 with 16 bits by the
    examples, and with 32 where they are sent."""
    for limit, width, frame, *_ in BOUNDS[:4]:
        longest = b"A" * limit
        check = fcs(longest, width).hex(" ").upper()
        yield (f"limit {limit}, {width} bits", opened(width, limit) + fill(0, limit - 2, hx("EE") * 9) + load_low(b"")
               + load_low(ONE) + load_low(b"A" * (limit + 1)) + show(0, limit - 2, 9) + load_low(longest)
               + show(0, limit - 2, width // 8 + 4) + D + load_low(TWO),
               ["R 1", "R 1", "R 1", "X" + " EE" * 9, "D", f"X 41 41 {check} EE EE",
                f"S 3 {frame} 0 0 0 0 0 0 0 0 {width} {limit}", told("3 0 0 0 0 0 0 0 0 0", width, limit), "R 4"])
        yield f"limit {limit}, {width} bits, 2 octets, high", load_high(TWO) + load_high(TWO), "D, R 4"
    for limit in (4, 9, 255, 256, 257, 512):
        yield (f"limit {limit}, long areas: so many octets and one more", opened(16, limit) + lend((20480,) * 4)
               + load_low(b"A" * (limit + 1)) + load_low(b"A" * limit) + load_high(b"A" * (limit + 1)), "R 1, D, R 1")


def limit_orders():
    """3 by the limit, 2, 3 by the rest, 4, 1."""
    short, exact = lend((4, 4, 5, 5)), lend((5, 5, 6, 6))
    holds = sender(low=(5, 0), high=(5, 0), limit=3)
    yield "3 by the limit before 2", short + sender(limit=1) + load_low(TWO) + load_high(ONE) + next_octets(1), "R 3, R 3, R 3"
    yield "3 by the limit before 2, receiver", receiver(limit=1) + receive(FLAG), "R 3"
    yield "3 by the width before 2", sender(width=24, limit=3) + load_low(TWO) + receiver(width=24, limit=3) + receive(FLAG), "R 3, R 3"
    yield "2 before 3", sender(low=(6, 0), limit=3) + load_low(TWO) + load_high(TWO) + next_octets(1), "R 2, R 2, R 2"
    yield "2 before 3, receiver", receiver(held=7, limit=3) + receive(FLAG), "R 2"
    yield "2 before 4 and 1", holds + load_low(TWO) + load_high(ONE), "R 2, R 2"
    yield "2 before 1", sender(limit=3) + load_low(ONE) + load_high(FOUR), "R 2, R 2"
    yield "3 before 4 and 1", exact + sender(low=(6, 0), limit=3) + load_low(ONE) + load_high(FOUR), "R 3, R 3"
    yield "4 before 1", holds + load_low(ONE) + load_high(FOUR), "R 4, R 4"
    yield "1 last", sender(limit=3) + load_low(ONE) + load_high(FOUR), "R 1, R 1"
    # A limit below what the state holds: the areas are tested by that limit, then the state.
    for width, frame in ((16, 52), (32, 54)):
        for name, state in (("low", dict(low=(100, 0))), ("high", dict(high=(100, 0))),
                            ("on the line", dict(low=(100, 0), left=60, line=1))):
            yield (f"limit 50, {width} bits, a frame of 100, {name}", b"".join(
                lend((length, length, 0, 0)) + sender(width=width, limit=limit, **state) + next_octets(1)
                for length, limit in ((frame - 1, 50), (frame, 50), (20480, 50), (20480, 99 - width // 8))), "R 2, R 3, R 3, R 3")
        for name, state in (("held", dict(held=100)), ("decoded", dict(decoded=100, left=1, **IN_OTHER)),
                            ("decoded, refused", dict(decoded=100, frame=1, refusal=7))):
            yield (f"limit 50, {width} bits, 100 octets {name}", b"".join(
                lend((0, 0, length, length)) + receiver(width=width, limit=limit, **state) + receive(hx("31"))
                for length, limit in ((frame, 50), (frame + 1, 50), (20480, 50), (20480, 98 - width // 8))), "R 2, R 3, R 3, R 3")


def limit_bounds():
    for limit, width, frame, most, *_ in BOUNDS:
        agreed, least = dict(width=width, limit=limit), 4 if width == 16 else 6
        yield f"limit {limit}, {width} bits, areas", lend((20480,) * 4), []
        for lane, other in (("low", load_high), ("high", load_low)):
            def state(length, position, lane=lane, agreed=agreed):
                return sender(**{lane: (length, position)}, **agreed)

            yield (f"limit {limit}, {width} bits, {lane} length, other lane's load", b"".join(
                state(length, 0) + other(TWO) for length in (least - 1, least, frame, frame + 1, 65535)), "R 3, D, D, R 3, R 3")
            yield (f"limit {limit}, {width} bits, {lane} length, next octet", b"".join(
                state(length, length + 1) + next_octets(1) for length in (least - 1, least, frame, frame + 1)),
                "R 3, O 7E, O 7E, R 3")
            yield (f"limit {limit}, {width} bits, {lane} position", state(0, 1) + next_octets(1) + state(0, 2) + next_octets(1)
                   + state(frame, frame + 1) + other(TWO) + state(frame, frame + 2) + other(TWO) + next_octets(1),
                   "I, R 3, D, R 3, R 3")
        left = min(207, frame + 1)
        yield (f"limit {limit}, {width} bits, data left and zeros within D", b"".join(
            sender(low=(frame, position), left=count, zeros=zeros, line=1, **agreed) + load_high(TWO) for position, count, zeros in (
                (frame + 1 - left, left, 0), (frame + 2 - left, left, 0), (frame - 1, 1, 1), (frame - 1, 1, 2), (0, 208, 0))),
            "D, R 3, D, R 3, R 3")
        yield (f"limit {limit}, {width} bits, decoded", b"".join(
            receiver(decoded=count, left=1, **IN_OTHER, **agreed) + receive(FLAG) for count in (most, most + 1, 65535)),
            f"H {most} 0, R 3, R 3")
        yield (f"limit {limit}, {width} bits, decoded, refused", b"".join(
            receiver(decoded=count, frame=1, refusal=10, **agreed) + receive(FLAG) for count in (most, most + 1)), "R 10, R 3")
        yield (f"limit {limit}, {width} bits, held", b"".join(
            receiver(held=count, **agreed) + receive(hx("05 31 7E")) for count in (0, most, most + 1, 65534)),
            "H 1 1, H 1 1" + ", R 3" * 6)
        yield (f"limit {limit}, {width} bits, data left, whatever the limit", b"".join(
            receiver(left=count, **IN_OTHER, **agreed) + receive(FLAG) for count in (207, 208)), "H 0 0, R 3")
        yield (f"limit {limit}, {width} bits, out of a frame", receiver(decoded=1, **agreed) + receive(FLAG), "R 3")


def too_much():
    """10, and what is written before it."""
    for limit, width, frame, most, runs, last in BOUNDS:
        agreed = dict(width=width, limit=limit)
        before = fill(2, max(0, most - 7), hx("EE") * 12)
        shown = show(2, most - 3, 6)
        yield (f"limit {limit}, {width} bits: a data octet beyond {most}", opened(width, limit) + before
               + receiver(decoded=most, left=2, zeros=1, **IN_OTHER, **agreed) + receive(hx("31")) + shown + receive(FLAG),
               ["X EE EE EE EE EE EE", "R 10"])
        yield (f"limit {limit}, {width} bits: the last data octet fits, its zero does not", before
               + receiver(decoded=most - 1, left=1, zeros=1, **IN_OTHER, **agreed) + receive(hx("31")) + shown + receive(FLAG),
               ["X EE EE 31 EE EE EE", "R 10"])
        yield (f"limit {limit}, {width} bits: two zeros together", before
               + receiver(decoded=most - 1, **IN_OTHER, **agreed) + receive(hx("E0")) + shown + receive(FLAG),
               ["X EE EE EE EE EE EE", "R 10"])
        yield (f"limit {limit}, {width} bits: two zeros up to {most}", before
               + receiver(decoded=most - 2, **IN_OTHER, **agreed) + receive(hx("E0")) + shown + receive(FLAG),
               ["X EE 00 00 EE EE EE", "R 14"])
        yield (f"limit {limit}, {width} bits: D1 onto {most} and onto {most - 1}", holding(most, **agreed)
               + receive(hx("D1 01 7E")) + holding(most - 1, **agreed) + receive(hx("D1 01 7E")), "R 10, R 14")
        yield (f"limit {limit}, {width} bits: {most} zeros, and one more", open_receiver(3, width, limit)
               + receive(hx("DF") * runs + bytes((last,)) + FLAG) + receive(hx("DF") * runs + bytes((last + 1,)) + FLAG),
               "R 14, R 10")
    yield ("limit 2: no more than its octets are written", opened(16, 2) + fill(2, 0, hx("EE") * 9)
           + receive(hx("D0 31 32 33 34 35 36 37 38")) + show(2, 0, 8) + D + receive(FLAG),
           ["X 31 32 33 34 35 EE EE EE", "S 3 0 0 0 0 0 0 0 0 0 16 2", "T 3 0 5 0 0 0 0 1 0 10 16 2 65535 0 0 0 0", "R 10"])
    for width, limit in ((16, 204), (32, 202)):
        full = hx("D0") + b"1" * 207 + FLAG
        yield (f"12 from limit {limit} on, {width} bits; below it 10", opened(width, limit) + receive(full)
               + opened(width, limit - 1) + receive(full), "R 12, R 10")
        data = b"A" * (limit + 1)
        whole = data + fcs(data, width)
        assert 0 not in whole and FLAG[0] not in whole and len(whole) == 207
        line = hx("D0") + whole + hx("01") + FLAG
        yield (f"a frame of one full block, {width} bits: limit {limit + 1}, and {limit}", opened(width, limit + 1) + load_low(data)
               + next_octets(len(line) + 1) + receive(line) + opened(width, limit) + load_low(data) + receive(line),
               ["D", *sent(line), "I", packet_line(0, data), "R 1", "R 10"])
    for width in WIDTHS:
        for count in range(8):
            yield (f"limit 2, {width} bits, {count} octets", opened(width, 2) + receive(bytes((count + 1,)) + b"1" * count + FLAG),
                   "R 13" if count < 2 + width // 8 else "R 14" if count == 2 + width // 8 else "R 10")


def longest_frames():
    """A packet as long as the limit allows is delivered; one octet more is refused 10. For packets of 2,048 see the other
    tables, too."""
    for limit, data, more in ((2, TWO, THREE), (3, THREE, FOUR)):
        for width in WIDTHS:
            line = block_line(data, width)
            yield (f"limit {limit}, {width} bits: sent, and received in either area", opened(width, limit) + load_low(data)
                   + next_octets(len(line) + 1) + receive(line) + receive(hx("05 31 7E")) + receive(line),
                   ["D", *sent(line), "I", packet_line(0, data), "H 1 0", packet_line(1, data)])
            yield (f"limit {limit}, {width} bits: one octet more", receive(block_line(more, width)) + receive(line),
                   f"R 10, {packet_line(1, data)}")
            yield (f"limit {limit}, {width} bits: a packet of 2", receive(block_line(TWO, width)), packet_line(1, TWO))
    # 1,092 runs have 16,380 zeros, 136 have 2,040.
    zeros = {n: hx("DF") * (n // 15) + bytes((0xD0 + n % 15,)) for n in (2048, 2049, LONGEST, LONGEST + 1)}
    check = {(n, width): fcs(bytes(n), width) for n in zeros for width in WIDTHS}
    assert not any(0 in octets or FLAG[0] in octets for octets in check.values())
    line = {(n, width): zeros[n] + bytes((width // 8 + 1,)) + check[n, width] + FLAG for n, width in check}
    for width in WIDTHS:
        yield (f"limit 2,048, {width} bits: one octet more", opened(width, 2048) + receive(line[2049, width]), "R 10")
        yield (f"limit 2,049, {width} bits: no octet too many", opened(width, 2049) + receive(line[2049, width][:-1]) + D,
               [f"S 3 0 0 0 0 0 0 0 0 0 {width} 2049", told(f"3 0 {2050 + width // 8} 0 0 0 2 1 0 0", width, 2049)])
        yield (f"limit 16,384, {width} bits: one octet more", opened(width, LONGEST) + receive(line[LONGEST + 1, width]) + D,
               ["R 10", f"S 3 0 0 0 0 0 0 0 0 0 {width} 16384", told("3 0 0 0 0 0 0 0 0 0", width, 16384)])
    yield ("limit 16,384, 16 bits: zeros received", opened(16, LONGEST) + spotted(2) + receive(line[LONGEST, 16]),
           packet_line(0, bytes(LONGEST)))
    yield ("limit 16,384, 32 bits: zeros, one octet more than can be loaded", opened(32, LONGEST)
           + spotted(1) + fill(1, LONGEST - 2, hx("EE") * 9) + load_high(bytes(LONGEST + 1)) + show(1, LONGEST - 2, 9) + D,
           ["R 1", "X" + " EE" * 9, "S 3 0 0 0 0 0 0 0 0 0 32 16384", "T 3 0 0 0 0 0 0 0 0 0 32 16384 65535 65535 0 0 0"])
    yield ("limit 16,384, 32 bits: zeros, sent", load_high(bytes(LONGEST)) + show(1, LONGEST - 2, 9) + D
           + next_octets(len(line[LONGEST, 32]) + 1),
           ["D", f"X 00 00 {check[LONGEST, 32].hex(' ').upper()} EE EE EE", "S 3 0 0 16388 0 0 0 0 0 0 32 16384",
            "T 3 0 0 0 0 0 0 0 0 0 32 16384 65535 65535 0 0 0", *sent(line[LONGEST, 32]), "I"])
    yield ("limit 16,384, 32 bits: zeros received, in the second area", spotted(3) + receive(hx("05 31 7E"))
           + receive(line[LONGEST, 32]) + D,
           ["H 1 0", packet_line(1, bytes(LONGEST)),
            "S 3 0 0 0 0 0 0 0 0 0 32 16384", told("3 1 0 2 0 0 0 0 0 0", 32, 16384, b"1")])
    yield "limit 16,383: the packet of 16,384", opened(32, 16383) + receive(line[LONGEST, 32]), "R 10"


def limit_stays():
    """Both ends, limit 3. 41 42 43 (FCS 2F 9F) is broken off after 41 by 44 45 (FCS E8 3B), and resumed; then refusals."""
    idle, fresh = "S 3 0 0 0 0 0 0 0 0 0 16 3", "T 3 0 0 0 0 0 0 0 0 0 16 3 65535 0 0 0 0"
    holds = told("3 1 0 2 0 0 0 0 0 0", 16, 3, b"A")
    yield ("sent", opened(16, 3) + load_low(THREE) + D + next_octets(2) + D + load_high(hx("44 45")) + next_octets(1) + D
           + next_octets(6) + D + next_octets(8) + D,
           ["D", "S 3 5 0 0 0 0 0 0 0 0 16 3", fresh, "O 06", "O 41", "S 3 5 1 0 0 4 1 1 0 0 16 3", fresh,
            "D", "O 7E", "S 3 5 1 4 0 0 0 0 1 0 16 3", fresh, *sent(hx("05 44 45 E8 3B 7E")), "S 3 5 1 0 0 0 0 0 1 0 16 3", fresh,
            *sent(hx("D1 05 42 43 2F 9F 7E")), "I", idle, fresh])
    yield ("received", receive(hx("06 41")) + D + receive(FLAG) + D + receive(hx("05 44 45 E8 3B 7E")) + D
           + receive(hx("D1 05 42 43 2F 9F")) + D + receive(FLAG) + D,
           [idle, "T 3 0 1 0 4 1 2 1 0 0 16 3 65535 0 0 0 0", "H 1 0", idle, holds,
            "P 1 2 44 45", idle, holds, idle, "T 3 0 6 0 0 0 2 1 1 0 16 3 65535 0 0 0 0",
            "P 0 3 41 42 43", idle, fresh])
    for line, answer in (("FF", "R 5"), ("D1 01", "R 8"), ("D2", "R 7"), ("D7", "R 10"), ("D3", "R 13"), ("D6", "R 14")):
        yield f"{line} refused", receive(hx(line) + FLAG) + D, [answer, idle, fresh]
    yield "a call refused 1, one refused 4", load_low(FOUR) + load_low(TWO) + load_low(TWO) + D, [
        "R 1", "D", "R 4", "S 3 4 0 0 0 0 0 0 0 0 16 3", fresh]
    yield ("held as much as can be, and resumed", opened(16, 2) + receive(hx("07 41 42 EF 31 55 7E")) + D
           + receive(hx("D1 01 7E")) + D + receive(hx("05 41 42 EF 7E") + hx("05 44 45 E8 3B 7E") + hx("D1 02 31 7E")) + D,
           ["H 5 0", "S 3 0 0 0 0 0 0 0 0 0 16 2", told("3 1 0 6 0 0 0 0 0 0", 16, 2, hx("41 42 EF 31 55")),
            "R 10", "S 3 0 0 0 0 0 0 0 0 0 16 2",
            "T 3 0 0 0 0 0 0 0 0 0 16 2 65535 0 0 0 0", "H 3 0", "P 1 2 44 45", "P 0 2 41 42", "S 3 0 0 0 0 0 0 0 0 0 16 2",
            "T 3 0 0 0 0 0 0 0 0 0 16 2 65535 0 0 0 0"])


def different_limits():
    """A sender of one limit, a receiver of another; what is sent is the same whatever the limit."""
    for width in WIDTHS:
        ten, eleven = block_line(b"A" * 10, width), block_line(b"A" * 11, width)
        for sends, takes in ((20, 10), (11, 10), (11, 11), (10, 20), (11, 16384)):
            lengths = (*lent(width, sends)[:2], *lent(width, takes)[2:])
            last = (["R 1"], "") if sends < 11 else (["D", *sent(eleven)], eleven)
            yield (f"sender's limit {sends}, receiver's {takes}, {width} bits", open_sender(3, width, sends)
                   + open_receiver(3, width, takes) + lend(lengths) + load_low(b"A" * 10) + next_octets(len(ten))
                   + load_low(b"A" * 11) + next_octets(len(last[1])) + receive(ten) + receive(eleven),
                   ["D", *sent(ten), *last[0], packet_line(0, b"A" * 10),
                    "R 10" if takes < 11 else packet_line(0, b"A" * 11)])
    yield ("areas for the lower limit", open_sender(3, 16, 10) + open_receiver(3, 16, 11) + lend((12, 12, 13, 13))
           + load_low(TWO) + next_octets(1) + receive(FLAG), "D, O 05, R 2")
    yield ("a fragment of a longer packet", open_receiver(3, 16, 10) + lend((0, 0, 13, 13)) + receive(
        hx("0F") + b"A" * 12 + FLAG) + receive(hx("D1 01 7E")) + receive(hx("0F") + b"A" * 12 + FLAG) + receive(hx("D1 02 41 7E")),
        "H 12 0, R 14, H 12 0, R 10")


LIMIT_TABLE = [
    ("the start", limit_start),
    ("slip 11's examples", limit_examples),
    ("opening", limit_openings),
    ("limits out of range", out_of_range),
    ("lent areas", limit_areas),
    ("load", limit_loads),
    ("order of the call refusals", limit_orders),
    ("in bounds", limit_bounds),
    ("10, 12 and 13", too_much),
    ("longest frames", longest_frames),
    ("the limit stays", limit_stays),
    ("ends of different limits", different_limits),
]


# ------------------------------------------------------------------------------------------------
# The table of the script restart: document 02, slip 4
# ------------------------------------------------------------------------------------------------

# 41 42 43 (FCS 2F 9F) is broken off after 41; 44 45 (FCS E8 3B) is urgent.
BEGUN, REST, URGENT = hx("06 41 7E"), hx("D1 05 42 43 2F 9F 7E"), hx("05 44 45 E8 3B 7E")
OTHER_BEGUN = hx("06 58 7E")
RESTART = hx("FF 03 C0 21 7E")


def state(numbers, width=16, limit=2048, held=None, mode=0, control=0):
    """The lines of `d`: an untouched sender, and the receiver as told."""
    return [FRESH[0], told(numbers, width, limit, held, mode, control)]


def restart_examples():
    """The table of examples that goes with the slip's readings, row by row; settings 03."""
    yield "05 31, FF 03, D1 01", open_receiver(3) + receive(hx("05 31 7E FF 03 7E D1 01 7E")), "H 1 0, R 5, R 8"
    yield "05 31, D2, D1 01", open_receiver(3) + receive(hx("05 31 7E D2 7E D1 01 7E")), "H 1 0, R 7, R 13"
    yield "05 31, FF", open_receiver(3) + receive(hx("05 31 7E FF")) + D, ["H 1 0", *state("3 1 0 0 0 0 0 1 0 5")]
    for octet in ("31", "7E"):
        yield (f"in a frame, refusal 5, 1 octet held: {octet}", receiver(held=1, frame=1, refusal=5) + receive(hx(octet)) + D,
               ["R 3", *state("3 0 0 2 0 0 0 1 0 5")])


def from_its_ff_on():
    """States straight after the FF, after more of its frame, and after its flag; the areas do not turn."""
    yield ("a fragment received, in the first area", open_receiver(3) + receive(hx("05 31 7E")) + D + receive(hx("FF")) + D
           + receive(hx("03")) + D + receive(FLAG) + D + receive(hx("D1")) + D + receive(FLAG) + D,
           ["H 1 0", *state("3 1 0 2 0 0 0 0 0 0", held=b"1"), *state("3 1 0 0 0 0 0 1 0 5") * 2, "R 5", *state("3 1 0 0 0 0 0 0 0 0"),
            *state("3 1 0 0 0 0 0 1 1 8"), "R 8", *state("3 1 0 0 0 0 0 0 0 0")])
    yield ("a fragment received, in the second area", open_receiver(3) + receive(hx("05 31 7E 05 32 33 7E")) + D
           + receive(hx("FF")) + D + receive(hx("03")) + D + receive(FLAG) + D + receive(hx("D1")) + D + receive(FLAG) + D,
           ["H 1 0", "H 2 1", *state("3 0 0 3 0 0 0 0 0 0", held=b"23"), *state("3 0 0 0 0 0 0 1 0 5") * 2, "R 5",
            *state("3 0 0 0 0 0 0 0 0 0"), *state("3 0 0 0 0 0 0 1 1 8"), "R 8", *state("3 0 0 0 0 0 0 0 0 0")])
    for limit, width, _, most, *_ in BOUNDS:
        agreed = dict(width=width, limit=limit)
        for work in (0, 1):
            for held in (None, 0, 1, most):
                yield (f"limit {limit}, {width} bits, area {work} works, {held} held", lend(lent(width, limit))
                       + receiver(work=work, held=held, **agreed) + receive(hx("FF")) + D + receive(hx("03 C0 21")) + D
                       + receive(hx("00 D1 05 31 FF")) + D + receive(FLAG) + D,
                       [*state(f"3 {work} 0 0 0 0 0 1 0 5", **agreed) * 3, "R 5", *state(f"3 {work} 0 0 0 0 0 0 0 0", **agreed)])


def restart_settings():
    """The settings play no part, PRE neither: what a state handed in holds without it goes too."""
    yield "areas for 16 bits and 2,048", DEFAULT_LENGTHS, []
    for settings in (0, 1, 2, 3, 0xFC, 0xFD, 0xFE, 0xFF):
        for work, held in ((0, None), (0, 0), (0, 5), (1, 2051)):
            fresh = f"{settings} {work} 0 0 0 0 0 0 0 0"
            yield (f"settings {settings:02X}, area {work} works, {held} held", receiver(settings=settings, work=work, held=held)
                   + receive(hx("FF")) + D + receive(hx("03 7E")) + D + receive(hx("D1 01 7E")) + D,
                   [*state(f"{settings} {work} 0 0 0 0 0 1 0 5"), "R 5", *state(fresh), "R 8" if settings & 2 else "R 6",
                    *state(fresh)])


def ff_elsewhere():
    """Where FF does not begin the frame it lets nothing go."""
    stays, gone = state("3 0 0 6 0 0 0 0 0 0"), state("3 1 0 0 0 0 0 0 0 0")
    yield ("a later code", holding(5) + receive(hx("01 FF")) + D + receive(FLAG) + D + receive(hx("D1 7E")) + D,
           [*state("3 0 1 6 0 0 0 1 0 7"), "R 7", *stays, "R 9", *gone])
    yield ("a code behind data", receiver(held=5) + receive(hx("03 41 42 FF")) + D + receive(FLAG) + D,
           [*state("3 0 3 6 0 0 0 1 0 7"), "R 7", *stays])
    yield ("data, in a fragment", receiver(held=5) + receive(hx("05 FF FF")) + D + show(2, 0, 2) + receive(FLAG) + D,
           [*state("3 0 2 6 2 1 2 1 0 0"), "X FF FF", "H 2 1", *state("3 1 0 3 0 0 0 0 0 0", held=hx("FF FF"))])
    yield ("the last data octet", receiver(held=5) + receive(hx("02 FF")) + D + receive(FLAG) + D,
           [*state("3 0 2 6 0 0 2 1 0 0"), "R 13", *stays])
    yield ("in the FCS", receiver(held=5) + receive(hx("05 00 00 6A FF 7E")) + D, ["P 0 2 7E 7E", *stays])
    for data in (hx("FF FF"), hx("FF 03 C0 21")):
        yield (f"in a packet, {data.hex(' ')}", receiver(held=5) + receive(block_line(data, 16)) + D, [packet_line(0, data), *stays])
    yield ("behind D1", holding(5) + receive(hx("D1")) + D + receive(hx("FF")) + D + receive(FLAG) + D,
           [*state("3 1 5 0 0 0 0 1 1 0"), *state("3 1 5 0 0 0 0 1 1 7"), "R 7", *gone])
    yield ("behind D1 and a block", holding(5) + receive(hx("D1 01 FF")) + D + receive(FLAG) + D,
           [*state("3 1 6 0 0 0 0 1 1 7"), "R 7", *gone])
    yield ("behind D1, as data", holding(5) + receive(hx("D1 03 FF")) + D + show(3, 5, 1) + receive(FLAG) + D,
           [*state("3 1 6 0 1 1 2 1 1 0"), "X FF", "H 6 0", *state("3 0 0 7 0 0 0 0 0 0", held=ramp(5) + hx("FF"))])
    yield ("behind D1 that is refused 8", open_receiver(3) + receive(hx("D1 FF")) + D + receive(FLAG) + D,
           [*state("3 0 0 0 0 0 0 1 1 8"), "R 8", *state("3 0 0 0 0 0 0 0 0 0")])
    yield ("behind D1 that is refused 6", receiver(settings=1, held=5) + receive(hx("D1 FF")) + D + receive(FLAG) + D,
           [*state("1 0 0 6 0 0 0 1 1 6"), "R 6", *state("1 0 0 0 0 0 0 0 0 0")])
    yield ("behind a code refused 7", receiver(held=5) + receive(hx("D2 FF")) + D + receive(FLAG) + D,
           [*state("3 0 0 6 0 0 0 1 0 7"), "R 7", *stays])
    yield ("handed in: behind D1, with something held", receiver(decoded=3, held=5, frame=1, resumed=1) + receive(hx("FF")) + D
           + receive(FLAG) + D, [*state("3 0 3 6 0 0 0 1 1 7"), "R 7", *state("3 0 0 0 0 0 0 0 0 0")])
    yield ("handed in: between blocks", receiver(decoded=3, held=5, **IN_OTHER) + receive(hx("FF")) + D + receive(FLAG) + D,
           [*state("3 0 3 6 0 0 0 1 0 7"), "R 7", *stays])
    yield ("handed in: in a block", fill(2, 0, THREE) + receiver(decoded=3, held=5, left=2, zeros=1, **IN_OTHER)
           + receive(hx("FF")) + D + receive(FLAG) + D,
           [*state("3 0 4 6 1 1 2 1 0 0"), "H 4 1", *state("3 1 0 5 0 0 0 0 0 0", held=THREE + hx("FF"))])
    yield ("behind flags alone it begins a frame", receiver(held=5) + receive(hx("7E 7E")) + D + receive(hx("FF")) + D
           + receive(hx("7E 7E FF 7E")) + D,
           [*stays, *state("3 0 0 0 0 0 0 1 0 5"), "R 5", "R 5", *state("3 0 0 0 0 0 0 0 0 0")])


def after_first(octet, settings):
    """The ten numbers after a frame's first octet, where 3 octets were held and the first area worked."""
    code, zxe, pre = octet or 0x7E, settings & 1, settings & 2
    if octet == 0x7E:
        return f"{settings} 0 0 4 0 0 0 0 0 0"
    if code == 0xFF:
        return f"{settings} 0 0 0 0 0 0 1 0 5"
    if code == 0xD1:
        return f"{settings} 1 3 0 0 0 0 1 1 0" if pre else f"{settings} 0 0 4 0 0 0 1 1 6"
    if code == 0xD2 or code > 0xD2 and not zxe:
        return f"{settings} 0 0 4 0 0 0 1 0 {7 if code == 0xD2 else 6}"
    if code in (0x01, 0xE0) or 0xD3 <= code <= 0xDF:
        return f"{settings} 0 {1 if code == 0x01 else 2 if code == 0xE0 else code - 0xD0} 4 0 0 2 1 0 0"
    if code == 0xD0:
        return f"{settings} 0 0 4 207 0 1 1 0 0"
    return f"{settings} 0 0 4 " + (f"{code - 1} 1" if code < 0xD0 else f"{code - 0xE0} 2") + " 2 1 0 0"


def every_first_octet():
    for settings in (0, 3):
        yield (f"settings {settings:02X}", b"".join(
            holding(3, settings=settings) + receive(bytes((octet,))) + D for octet in range(256)),
            [line for octet in range(256) for line in state(after_first(octet, settings))])


def remembered():
    """5 remembered with something held is out of bounds; 6 to 10 are not."""
    for refusal in range(5, 11):
        for held in (None, 0, 3, 2051):
            for resumed in (0, 1):
                count = 0 if held is None else held + 1
                handed = state(f"3 1 7 {count} 0 0 0 1 {resumed} {refusal}")
                yield (f"{refusal}, {held} held{', resumed' * resumed}", receiver(
                    work=1, decoded=7, held=held, frame=1, resumed=resumed, refusal=refusal)
                    + receive(hx("31 00 D1 FF")) + D + receive(FLAG) + D,
                    ["R 3", "R 3", "R 3", "R 3", *handed, "R 3", *handed] if refusal == 5 and held is not None else
                    [*handed, f"R {refusal}", *state(f"3 1 0 {0 if resumed else count} 0 0 0 0 0 0")])
    for limit, width, _, most, *_ in BOUNDS:
        for refusal in range(5, 11):
            yield (f"{refusal}, limit {limit}, {width} bits: nothing held, 0 octets, {most}, {most + 1}", lend(lent(width, limit))
                   + b"".join(receiver(held=held, frame=1, refusal=refusal, width=width, limit=limit) + receive(FLAG)
                              for held in (None, 0, most, most + 1)),
                   "R 5, R 3, R 3, R 3" if refusal == 5 else f"R {refusal}, R {refusal}, R {refusal}, R 3")
    yield "areas for 16 bits and 2,048", DEFAULT_LENGTHS, []
    full = dict(work=1, decoded=2051, left=207, zeros=2, last=2, frame=1, resumed=1, refusal=5)
    yield ("5, nothing held, all else as large as can be", receiver(**full) + receive(hx("31")) + D + receive(FLAG) + D,
           [*state("3 1 2051 0 207 2 2 1 1 5"), "R 5", *state("3 1 0 0 0 0 0 0 0 0")])
    yield ("5, something held, all else as large as can be", receiver(held=0, **full) + receive(hx("31")) + D + receive(FLAG) + D,
           ["R 3", *state("3 1 2051 1 207 2 2 1 1 5"), "R 3", *state("3 1 2051 1 207 2 2 1 1 5")])
    for settings in (0, 1, 2, 0xFC, 0xFF):
        yield (f"5, settings {settings:02X}: something held, and nothing", receiver(settings=settings, held=3, frame=1, refusal=5)
               + receive(FLAG) + D + receiver(settings=settings, frame=1, refusal=5) + receive(FLAG) + D,
               ["R 3", *state(f"{settings} 0 0 4 0 0 0 1 0 5"), "R 5", *state(f"{settings} 0 0 0 0 0 0 0 0 0")])
    yield ("5, something held, whatever the octet", b"".join(
        receiver(held=3, frame=1, refusal=5) + receive(bytes((octet,))) for octet in range(256)), ", ".join(["R 3"] * 256))
    yield ("261 counts as 5", hand_receiver((3, 0, 0, 1, 0, 0, 0, 1, 0, 261, 16, 2048, 65535, 0)) + receive(FLAG)
           + hand_receiver((3, 0, 0, 0, 0, 0, 0, 1, 0, 261, 16, 2048, 65535, 0)) + receive(FLAG), "R 3, R 5")
    yield ("4 and 11 stay out of bounds, nothing held too", b"".join(
        receiver(held=held, frame=1, refusal=refusal) + receive(FLAG) for refusal in (4, 11) for held in (None, 3)),
        "R 3, R 3, R 3, R 3")


def restart_orders():
    """3 by width or limit, 2, 3 by the rest; a refused call lets nothing go."""
    wrong = dict(held=3, frame=1, refusal=5)
    handed = state("3 0 0 4 0 0 0 1 0 5")
    for name, lengths in (("first one short", SHORT_FIRST), ("second one short", SHORT_SECOND), ("nothing lent", lend((0,) * 4))):
        yield (f"{name}: 2 before 3", lengths + receiver(**wrong) + receive(hx("31 FF")) + receive(FLAG) + D,
               ["R 2", "R 2", "R 2", *handed])
        yield (f"{name}: 2 where nothing is wrong", receiver(frame=1, refusal=5) + receive(FLAG)
               + receiver(held=3, frame=1, refusal=7) + receive(FLAG), "R 2, R 2")
        yield (f"{name}: 3 by width or limit before 2", receiver(width=24, **wrong) + receive(FLAG)
               + receiver(limit=1, **wrong) + receive(FLAG) + receiver(limit=16385, **wrong) + receive(FLAG), "R 3, R 3, R 3")
        yield (f"{name}: FF", receiver(held=5) + receive(hx("FF")) + D, ["R 2", *state("3 0 0 6 0 0 0 0 0 0")])
    yield ("long enough again: FF", DEFAULT_LENGTHS + receive(hx("FF")) + D, state("3 0 0 0 0 0 0 1 0 5"))
    for words, more in (("208 left", dict(left=208)), ("3 zeros due", dict(zeros=3)), ("2,052 decoded", dict(decoded=2052)),
                        ("2,052 held", dict(held=2052)), ("out of a frame", dict(frame=0))):
        yield (f"{words} too: 3, and 2 with an area too short", receiver(**{**wrong, **more}) + receive(FLAG) + SHORT_SECOND
               + receive(FLAG) + DEFAULT_LENGTHS + receive(FLAG), "R 3, R 2, R 3")
    yield ("FF, state out of bounds", receiver(decoded=1, held=5) + receive(hx("FF")) + D, ["R 3", *state("3 0 1 6 0 0 0 0 0 0")])
    yield ("FF, wrong width, limit out of range", receiver(held=5, width=24) + receive(hx("FF")) + D
           + receiver(held=5, limit=1) + receive(hx("FF")) + D,
           ["R 3", *state("3 0 0 6 0 0 0 0 0 0", 24), "R 3", *state("3 0 0 6 0 0 0 0 0 0", 16, 1)])
    for width, frame in ((16, 52), (32, 54)):
        yield (f"limit 50, {width} bits, 100 held: FF", b"".join(
            lend((0, 0, length, length)) + receiver(held=100, width=width, limit=50) + receive(hx("FF"))
            for length in (frame, frame + 1)) + DEFAULT_LENGTHS, "R 2, R 3")


def after_a_restart():
    """From either area: what is held before the restart is forgotten, what is held after it counts."""
    three = "3 41 42 43"
    for a, b in ((0, 1), (1, 0)):
        def line(name, frames, answers, a=a):
            return f"area {a} works, {name}", receiver(work=a) + receive(frames) + D, answers

        yield line("the rest of the packet comes", BEGUN + RESTART + REST, "H 1 0, R 5, R 8")
        yield line("D2 in its place", BEGUN + hx("D2 7E") + REST, f"H 1 0, R 7, P {a} {three}")
        yield line("nothing in its place", BEGUN + REST, f"H 1 0, P {a} {three}")
        yield line("a new fragment", BEGUN + RESTART + BEGUN, ["H 1 0", "R 5", "H 1 0", *state(f"3 {a} 0 2 0 0 0 0 0 0", held=b"A")])
        yield line("a new fragment, D2 in its place", BEGUN + hx("D2 7E") + BEGUN,
                   ["H 1 0", "R 7", "H 1 1", *state(f"3 {a} 0 2 0 0 0 0 0 0", held=b"A")])
        yield line("a new fragment and its rest", BEGUN + RESTART + BEGUN + REST, f"H 1 0, R 5, H 1 0, P {b} {three}")
        yield line("8, a new fragment and its rest", BEGUN + RESTART + REST + BEGUN + REST,
                   f"H 1 0, R 5, R 8, H 1 0, P {b} {three}")
        yield line("8 three times, a new fragment and its rest", BEGUN + RESTART + REST * 3 + BEGUN + REST,
                   f"H 1 0, R 5, R 8, R 8, R 8, H 1 0, P {b} {three}")
        yield line("joined to the new fragment", OTHER_BEGUN + RESTART + BEGUN + REST, f"H 1 0, R 5, H 1 0, P {b} {three}")
        yield (f"area {a} works, its octets", show(2 + a, 0, 1) + show(2 + b, 0, 6), ["X 58", "X 41 42 43 2F 9F 00"])
        yield line("not to the old one", BEGUN + RESTART + OTHER_BEGUN + REST, "H 1 0, R 5, H 1 0, R 14")
        yield line("urgent packets around", BEGUN + URGENT + RESTART + URGENT + REST,
                   f"H 1 0, P {b} 2 44 45, R 5, P {b} 2 44 45, R 8")
        yield line("urgent packets around, then a new fragment and its rest",
                   BEGUN + URGENT + RESTART + URGENT + BEGUN + URGENT + REST,
                   f"H 1 0, P {b} 2 44 45, R 5, P {b} 2 44 45, H 1 0, P {a} 2 44 45, P {b} {three}")
        yield line("other refused frames around", BEGUN + hx("D2 7E") + RESTART + hx("D3 7E") + REST, "H 1 0, R 7, R 5, R 13, R 8")
        yield line("three restarts", BEGUN + RESTART + hx("FF 7E") + hx("FF FF 7E") + REST, "H 1 0, R 5, R 5, R 5, R 8")
        yield line("a fragment between restarts", BEGUN + RESTART + BEGUN + RESTART + REST, "H 1 0, R 5, H 1 0, R 5, R 8")
        yield line("two restarts, then a fragment and its rest", BEGUN + RESTART + BEGUN + RESTART + BEGUN + REST,
                   f"H 1 0, R 5, H 1 0, R 5, H 1 0, P {a} {three}")
        yield line("its flag lost: the rest of the packet is skipped", BEGUN + RESTART[:-1] + REST + REST, "H 1 0, R 5, R 8")
        yield line("its flag lost: a new fragment is skipped", BEGUN + RESTART[:-1] + BEGUN + REST, "H 1 0, R 5, R 8")
        yield line("the flag before it lost: it begins nothing", BEGUN[:-1] + hx("FF 7E") + REST, "H 2 0, R 14")
        yield line("its FF lost", BEGUN + hx("03 C0 21 7E") + REST, f"H 1 0, R 13, P {a} {three}")
        yield line("fragments of no octets", hx("05 7E") + RESTART + hx("05 7E") + hx("D1 05 41 42 EF 31 7E"),
                   f"H 0 0, R 5, H 0 0, P {b} 2 41 42")
        yield line("a fragment of no octets, its rest alone", hx("05 7E") + RESTART + hx("D1 05 41 42 EF 31 7E"), "H 0 0, R 5, R 8")
        yield line("held twice", BEGUN + hx("D1 05 42 7E") + RESTART + hx("D1 04 43 2F 9F 7E"), "H 1 0, H 2 0, R 5, R 8")
        yield line("nothing was held any more", BEGUN + REST + RESTART + REST, f"H 1 0, P {a} {three}, R 5, R 8")
        yield line("nothing was held yet", RESTART + REST + RESTART + BEGUN + REST, f"R 5, R 8, R 5, H 1 0, P {a} {three}")


def restart_agreed():
    """A packet of 2, broken off and resumed, at both widths and several limits; and long fragments."""
    for limit, width, *_ in BOUNDS:
        begun, rest = cut_frame(TWO + fcs(TWO, width), 1)
        fresh = open_receiver(3, width, limit) + lend(lent(width, limit))
        yield (f"limit {limit}, {width} bits: whole", fresh + receive(begun + rest), "H 1 0, P 0 2 41 42")
        yield (f"limit {limit}, {width} bits: a restart between", fresh + receive(begun + hx("FF 7E") + rest) + D,
               ["H 1 0", "R 5", "R 8", *state("3 1 0 0 0 0 0 0 0 0", width, limit)])
        yield (f"limit {limit}, {width} bits: then whole", receive(begun + rest + begun + hx("FF 7E") + begun + rest),
               "H 1 0, P 1 2 41 42, H 1 0, R 5, H 1 0, P 0 2 41 42")
        if limit >= 2048:
            runs = 136 if limit == 2048 else 1092
            yield (f"limit {limit}, {width} bits: a long fragment", fresh + receive(hx("DF") * runs + hx("05 31 7E")) + D
                   + receive(hx("FF")) + D + receive(FLAG) + receive(hx("D1 01 7E")),
                   [f"H {15 * runs + 1} 0", *state(f"3 1 0 {15 * runs + 2} 0 0 0 0 0 0", width, limit, bytes(15 * runs) + b"1"),
                    *state("3 1 0 0 0 0 0 1 0 5", width, limit), "R 5", "R 8"])


def others_stay():
    """Every other frame that is refused or delivered, and not resumed, leaves what is held; what D1 took was taken before."""
    yield "areas for 16 bits and 2,048", DEFAULT_LENGTHS, []
    for number, settings, line in (
            (6, 2, "D3"), (6, 0, "E0"), (7, 3, "D2"), (7, 3, "01 FF"), (7, 0, "01 D1"), (10, 3, "DF" * 137), (11, 1, "05 31"),
            (12, 3, "D0" + "31" * 207), (12, 0, "D0" + "31" * 207), (13, 3, "D3"), (13, 0, "01"), (14, 3, "D5")):
        for work in (0, 1):
            yield (f"{number}, settings {settings:02X}, {line[:18]}, area {work} works",
                   holding(5, work, settings=settings) + receive(hx(line) + FLAG) + D + receive(hx("D1 7E")) + D,
                   [f"R {number}", *state(f"{settings} {work} 0 6 0 0 0 0 0 0"),
                    *(["R 9", *state(f"{settings} {1 - work} 0 0 0 0 0 0 0 0")] if settings & 2 else
                      ["R 6", *state(f"{settings} {work} 0 0 0 0 0 0 0 0")])])
    for number, line in ((6, "D3"), (7, "D2"), (7, "01 FF")):
        decoded = 1 if line == "01 FF" else 0
        yield (f"{number}, before the flag, {line}", receiver(settings=2, held=5) + receive(hx(line)) + D,
               state(f"2 0 {decoded} 6 0 0 0 1 0 {number}"))
    yield ("10, before the flag", receiver(held=5) + receive(hx("DF") * 137) + D, state("3 0 2040 6 0 0 0 1 0 10"))
    yield "delivered", receiver(held=5) + receive(URGENT) + D, ["P 0 2 44 45", *state("3 0 0 6 0 0 0 0 0 0")]
    yield "8", open_receiver(3) + receive(hx("D1 01 7E")) + D, ["R 8", *state("3 0 0 0 0 0 0 0 0 0")]
    yield ("9", holding(5) + receive(hx("D1")) + D + receive(FLAG) + D,
           [*state("3 1 5 0 0 0 0 1 1 0"), "R 9", *state("3 1 0 0 0 0 0 0 0 0")])
    for limit, width, _, most, runs, last in BOUNDS:
        zeros = hx("DF") * runs
        yield (f"limit {limit}, {width} bits, {most} held", lend(lent(width, limit)) + holding(most, width=width, limit=limit)
               + receive(hx("D2 7E") + hx("01 7E") + zeros + bytes((last, 0x7E)) + zeros + bytes((last + 1, 0x7E))) + D
               + receive(hx("D1 7E")), ["R 7", "R 13", "R 14", "R 10", *state(f"3 0 0 {most + 1} 0 0 0 0 0 0", width, limit), "R 9"])


def areas_stay():
    """No octet of an FF frame is written, nor of a resumed frame that then has nothing to go on from."""
    for limit, width, _, most, *_ in BOUNDS:
        for work in (0, 1):
            shown = show(2, 0, 3) + show(2, most - 1, 2) + show(3, 0, 3) + show(3, most - 1, 2)
            yield (f"limit {limit}, {width} bits, area {work} works", lend(lent(width, limit)) + fill(2, 0, hx("A1 A2 A3"))
                   + fill(2, most - 1, hx("A8 A9")) + fill(3, 0, hx("B1 B2 B3")) + fill(3, most - 1, hx("B8 B9"))
                   + receiver(work=work, held=most, width=width, limit=limit) + receive(hx("FF")) + shown
                   + receive(hx("03 C0 21 02 31 D5 01")) + shown + receive(FLAG) + shown + receive(hx("D1 03 31 32 7E")) + shown,
                   [line for answer in ([], [], ["R 5"], ["R 8"])
                    for line in (*answer, "X A1 A2 A3", "X A8 A9", "X B1 B2 B3", "X B8 B9")])


def restarted_peer():
    """Both ends. The sender is opened anew while its low packet is suspended; what it sends after that is whole, or its
    first fragment is lost."""
    for width, limit in ((16, 2048), (32, 3), (32, 16384)):
        (begun, rest), urgent = cut_frame(THREE + fcs(THREE, width), 1), block_line(hx("44 45"), width)
        load_both = load_low(THREE) + next_octets(2) + load_high(hx("44 45"))
        yield (f"sent, limit {limit}, {width} bits", opened(width, limit) + load_both + next_octets(1) + open_sender(3, width, limit)
               + load_both + next_octets(1 + len(urgent + rest) + 1),
               ["D", *sent(begun[:2]), "D", "O 7E", "D", *sent(begun[:2]), "D", *sent(FLAG + urgent + rest), "I"])
        yield (f"received, limit {limit}, {width} bits", receive(begun + RESTART + begun + urgent + rest),
               "H 1 0, R 5, H 1 0, P 0 2 44 45, P 1 3 41 42 43")
        yield (f"a fragment lost, limit {limit}, {width} bits", receive(begun + RESTART + urgent + rest),
               "H 1 0, R 5, P 0 2 44 45, R 8")
        yield f"a packet whole, limit {limit}, {width} bits", receive(block_line(THREE, width)), "P 0 3 41 42 43"


RESTART_TABLE = [
    ("slip 4's examples", restart_examples),
    ("from its FF on", from_its_ff_on),
    ("settings", restart_settings),
    ("FF elsewhere", ff_elsewhere),
    ("every first octet, 3 held", every_first_octet),
    ("in bounds", remembered),
    ("order of the call refusals", restart_orders),
    ("after a restart", after_a_restart),
    ("widths and limits", restart_agreed),
    ("what else leaves what is held", others_stay),
    ("the areas' octets", areas_stay),
    ("both ends", restarted_peer),
]


# ------------------------------------------------------------------------------------------------
# The table of the script areas: document 02, slip 8
# ------------------------------------------------------------------------------------------------

# 31 32 is held by BROKEN; its register at either width, and the rest of the packet 31 32, by its FCS.
HELD, BROKEN = hx("31 32"), hx("05 31 32 7E")
REGISTER = {16: 0x4D53, 32: 0xB0ACBB32}
REST_OF_HELD = {16: hx("D1 03 AC B2 7E"), 32: hx("D1 05 CD 44 53 4F 7E")}
ZEROS = {16: hx("E0 03 47 0F 7E"), 32: hx("E0 05 FF 12 D9 41 7E")}  # packet 00 00


def area_opened(width, limit=2048):
    return open_receiver(3, width, limit) + lend(lent(width, limit))


def gone(work, width=16, limit=2048, settings=3):
    """The lines of `d` out of a frame with nothing held."""
    return state(f"{settings} {work} 0 0 0 0 0 0 0 0", width, limit)


def kept(work, held, width=16, limit=2048, settings=3):
    """The same with these octets held."""
    return state(f"{settings} {work} 0 {len(held) + 1} 0 0 0 0 0 0", width, limit, held)


def changed(work, width=16, limit=2048, settings=3):
    """The lines of `d` from a D1 refused 21 to its flag."""
    return state(f"{settings} {work} 0 0 0 0 0 1 1 21", width, limit)


def area_examples():
    """The table of examples that goes with the slip's readings, row by row; settings 03, 16 bits and, where it makes sense,
    32."""
    for width, holds, fresh in ((16, "16 2048 19795 0", "16 2048 65535 0"), (32, "32 2048 47922 45228", "32 2048 65535 65535")):
        assert halves(REGISTER[width]) == tuple(map(int, holds.split()[2:])) and register_over(HELD, width) == REGISTER[width]
        yield (f"{width} bits: 05 31 32", area_opened(width) + receive(BROKEN) + D,
               ["H 2 0", FRESH[0], f"T 3 1 0 3 0 0 0 0 0 0 {holds} 0 0 0"])
        yield (f"{width} bits: octet 1 changed to 33, then D1", fill(2, 1, hx("33")) + receive(hx("D1")) + D,
               [FRESH[0], f"T 3 1 0 0 0 0 0 1 1 21 {fresh} 0 0 0"])
        yield f"{width} bits: then 03 37 38", receive(hx("03 37 38 7E")), "R 21"
        yield (f"{width} bits: octet 2 changed, then D1 01", area_opened(width) + receive(BROKEN) + fill(2, 2, hx("33"))
               + receive(hx("D1 01 7E")), "H 2 0, R 13")
        yield (f"{width} bits: a packet delivered in between", area_opened(width) + receive(BROKEN + ZEROS[width]) + D,
               ["H 2 0", "P 1 2 00 00", FRESH[0], f"T 3 1 0 3 0 0 0 0 0 0 {holds} 0 0 0"])
    yield "areas for 16 bits and 2,048", DEFAULT_LENGTHS, []
    yield "no octets held, register 1234: D1", receiver(held=0, register=0x1234) + receive(hx("D1 7E")), "R 21"
    yield ("nothing held, register 1234: any call", receiver(register=0x1234) + receive(hx("7E 31 D1 FF 05")),
           "R 3, R 3, R 3, R 3, R 3")
    yield "1 held, register 10000", receiver(held=1, register=0x10000) + receive(FLAG), "R 3"
    yield ("settings 01, 1 held: D1", receiver(settings=1, held=1) + receive(hx("D1 7E")) + D,
           ["R 6", FRESH[0], "T 1 0 0 0 0 0 0 0 0 0 16 2048 65535 0 0 0 0"])


def registers_held():
    """What register a Held report leaves: that of all octets decoded, in either area, also of zeros and of a resumed frame."""
    full = b"1" * 207
    for width in WIDTHS:
        for work in (0, 1):
            def line(name, octets, answers, held, turns=1, width=width, work=work):
                return (f"{width} bits, area {work} works: {name}", receiver(work=work, width=width) + receive(octets) + D,
                        [*answers, *kept((work + turns) % 2, held, width)])

            yield f"areas for {width} bits, area {work}", lend(lent(width)), []
            yield line("no octets", hx("05 7E"), ["H 0 0"], b"")
            yield line("one", hx("05 31 7E"), ["H 1 0"], b"1")
            yield line("two", BROKEN, ["H 2 0"], HELD)
            yield line("zeros before a block", hx("D3 03 41 7E"), ["H 4 0"], hx("00 00 00 41"))
            yield line("zeros alone, cut by 02", hx("DF 02 7E"), ["H 15 0"], bytes(15))
            yield line("the zeros of a block before", hx("02 41 E1 42 05 43 7E"), ["H 6 0"], hx("41 00 42 00 00 43"))
            yield line("00 for 7E", hx("05 00 31 7E"), ["H 2 0"], hx("7E 31"))
            yield line("a full block before", hx("D0") + full + hx("05 32 7E"), ["H 208 0"], full + b"2")
            yield line("a full block but for one octet", hx("D0") + full[1:] + FLAG, ["H 206 0"], full[1:])
            yield line("replaced", BROKEN + hx("05 33 7E"), ["H 2 0", "H 1 1"], b"3", 2)
            yield line("replaced by no octets", BROKEN + hx("05 7E"), ["H 2 0", "H 0 1"], b"", 2)
            yield line("replaced by the same", BROKEN * 2, ["H 2 0", "H 2 1"], HELD, 2)
            yield line("replaced twice", BROKEN + hx("05 33 7E 05 34 35 36 7E"), ["H 2 0", "H 1 1", "H 3 1"], b"456", 3)
            yield line("held again by a resumed frame", BROKEN + hx("D1 05 33 7E"), ["H 2 0", "H 3 0"], b"123")
            yield line("held again, nothing more", BROKEN + hx("D1 02 7E"), ["H 2 0", "H 2 0"], HELD)
            yield line("held three times", BROKEN + hx("D1 05 33 7E D1 E0 04 34 7E"), ["H 2 0", "H 3 0", "H 6 0"], b"123\0\0004")
            yield line("held again, no octets before", hx("05 7E D1 05 33 7E"), ["H 0 0", "H 1 0"], b"3")
            yield line("held, taken up and gone, held", BROKEN + REST_OF_HELD[width] + hx("05 34 7E"),
                       ["H 2 0", f"P {work} 2 31 32", "H 1 0"], b"4")
    yield "areas for 16 bits and 2,048", DEFAULT_LENGTHS, []
    yield ("handed in: of what lies in the work area", fill(2, 0, THREE) + receiver(decoded=3, left=2, zeros=1, **IN_OTHER)
           + receive(FLAG) + D, ["H 3 0", *kept(1, THREE)])
    yield ("handed in: replaces what is held", receiver(decoded=2, held=9, left=2, **IN_OTHER) + receive(FLAG) + D,
           ["H 2 1", *kept(1, TWO)])
    yield ("handed in: resumed, with something held", receiver(decoded=1, held=9, left=2, resumed=1, **IN_OTHER) + receive(FLAG)
           + D, ["H 1 0", *kept(1, ONE)])
    yield ("handed in: zeros due are not decoded", receiver(decoded=3, left=1, zeros=2, **IN_OTHER) + receive(FLAG) + D,
           ["H 3 0", *kept(1, THREE)])


def lets_go():
    """Each way to let go what is held, from the octet on that does; the register goes to its start with it."""
    full, longest = "D0" + "31" * 207, "DF" * 137
    for width in WIDTHS:
        for work in (0, 1):
            holds, name, other = holding(HELD, work, width=width), f"{width} bits, area {work} works", 1 - work

            def taken(more, decoded, last=0, refusal=0, width=width, other=other):
                return state(f"3 {other} {decoded} 0 {more} {last} 1 1 {refusal}", width)

            yield f"{name}: areas", lend(lent(width)), []
            yield (f"{name}: FF", holds + D + receive(hx("FF")) + D + receive(FLAG) + D,
                   [*kept(work, HELD, width), *state(f"3 {work} 0 0 0 0 0 1 0 5", width), "R 5", *gone(work, width)])
            yield (f"{name}: D1 alone, 9", holds + receive(hx("D1")) + D + receive(FLAG) + D,
                   [*taken("0 0", 2), "R 9", *gone(other, width)])
            yield (f"{name}: D1, delivered", holds + receive(REST_OF_HELD[width][:-1]) + D + receive(FLAG) + D,
                   [*taken("0 0", 3 + width // 8, 2), f"P {other} 2 31 32", *gone(other, width)])
            for number, line, decoded, last in ((7, "D2", 2, 0), (10, longest, 2042, 0), (12, full, 209, 1), (13, "01", 3, 2),
                                                (14, "D5", 7, 2)):
                yield (f"{name}: D1, refused {number}", holds + receive(hx("D1" + line)) + D + receive(FLAG) + D,
                       [*taken("0 0", decoded, last, number if number in (7, 10) else 0), f"R {number}", *gone(other, width)])
            yield (f"{name}: D1, then a code that is not agreed", holding(HELD, work, width=width, settings=2)
                   + receive(hx("D1 E0")) + D + receive(FLAG) + D,
                   [*state(f"2 {other} 2 0 0 0 0 1 1 6", width), "R 6", *gone(other, width, settings=2)])
            yield (f"{name}: D1, inside a block", holds + receive(hx("D1 05 33")) + D + receive(FLAG) + D,
                   [*taken("3 1", 3, 2), "H 3 0", *kept(work, b"123", width)])
            yield (f"{name}: D1 without PRE, at its flag", holding(HELD, work, width=width, settings=1) + receive(hx("D1")) + D
                   + receive(hx("03 31")) + D + receive(FLAG) + D,
                   [*state(f"1 {work} 0 3 0 0 0 1 1 6", width, held=HELD) * 2, "R 6", *gone(work, width, settings=1)])
            yield (f"{name}: D1, an octet changed", holds + fill(3 - work, 0, b"0") + receive(hx("D1")) + D + receive(FLAG) + D,
                   [*changed(work, width), "R 21", *gone(work, width)])
            yield (f"{name}: opened anew", holds + open_receiver(3, width) + D, gone(0, width))
            yield (f"{name}: opened anew with the other width", holds + open_receiver(3, 48 - width) + D, gone(0, 48 - width))
            inside = dict(work=work, held=HELD, width=width, resumed=1)
            yield (f"{name}: handed in, a resumed frame that holds something, at its flag", b"".join(
                receiver(**inside, **more) + receive(FLAG) + D for more in (
                    dict(decoded=1, **IN_OTHER), dict(frame=1), dict(frame=1, last=1), dict(frame=1, refusal=7),
                    dict(frame=1, refusal=21))),
                [line for number in (13, 9, 12, 7, 21) for line in (f"R {number}", *gone(work, width))])
            yield (f"{name}: handed in, the same without PRE, inside a block", receiver(
                settings=0, decoded=1, left=2, **IN_OTHER, **inside) + receive(FLAG) + D, ["R 11", *gone(work, width, settings=0)])
            whole = HELD + fcs(HELD, width)
            yield (f"{name}: handed in, the same, delivered", fill(2 + work, 0, whole + b"\0")
                   + receiver(decoded=len(whole) + 1, **IN_OTHER, **inside) + receive(FLAG) + D,
                   [packet_line(work, HELD), *gone(work, width)])


def leaves_it():
    """What is not resumed, and every flag of it, leaves held count and register; a D1 is accepted after it."""
    for width in WIDTHS:
        yield f"{width} bits: areas", lend(lent(width)), []
        for name, settings, line, answer in (
                ("delivered", 3, ZEROS[width][:-1], "P"), ("6, no ZXE", 2, hx("E0"), "R 6"), ("7", 3, hx("D2"), "R 7"),
                ("10", 3, hx("DF") * 137, "R 10"), ("12", 3, hx("D0") + b"1" * 207, "R 12"), ("13", 3, hx("01"), "R 13"),
                ("14", 3, hx("D7"), "R 14"), ("empty", 3, b"", None), ("empty, three times", 3, hx("7E 7E"), None),
                ("11, no PRE", 1, hx("05 31"), "R 11"), ("7, no PRE", 0, hx("D2"), "R 7")):
            for work in (0, 1):
                answers = [f"P {work} 2 00 00"] if answer == "P" else [answer] if answer else []
                after = ["R 9", *gone(1 - work, width, settings=settings)] if settings & 2 else [
                    "R 6", *gone(work, width, settings=settings)]
                yield (f"{width} bits, area {work} works: {name}", holding(HELD, work, width=width, settings=settings)
                       + receive(line + FLAG) + D + receive(hx("D1 7E")) + D,
                       [*answers, *kept(work, HELD, width, settings=settings), *after])
        yield (f"{width} bits: several frames, and the rest", area_opened(width) + receive(
            BROKEN + ZEROS[width] + hx("D2 7E 7E 7E 01 7E") + ZEROS[width]) + D + receive(REST_OF_HELD[width]) + D,
            ["H 2 0", "P 1 2 00 00", "R 7", "R 13", "P 1 2 00 00", *kept(1, HELD, width), "P 0 2 31 32", *gone(0, width)])
        inside = (("03", "3 0 0 3 2 1 2 1 0 0"), ("41", "3 0 1 3 1 1 2 1 0 0"), ("42", "3 0 3 3 0 0 2 1 0 0"),
                  ("E0", "3 0 5 3 0 0 2 1 0 0"), ("FF", "3 0 5 3 0 0 0 1 0 7"), ("31", "3 0 5 3 0 0 0 1 0 7"))
        yield (f"{width} bits: octet by octet inside a frame", holding(HELD, width=width)
               + b"".join(receive(hx(octet)) + D for octet, _ in inside) + receive(FLAG) + D,
               [*(line for _, numbers in inside for line in state(numbers, width, held=HELD)), "R 7", *kept(0, HELD, width)])
        yield (f"{width} bits: a register that is not of what is held stays too", receiver(held=HELD, width=width, register=0x1234)
               + receive(hx("D2 7E")) + receive(ZEROS[width]) + D + receive(hx("D1 7E")),
               ["R 7", "P 0 2 00 00", FRESH[0], f"T 3 0 0 3 0 0 0 0 0 0 {width} 2048 4660 0 0 0 0", "R 21"])


def changes():
    """An area is changed between a Held report and the D1. 31 32 33 34 are held."""
    held = b"1234"
    for width in WIDTHS:
        yield f"{width} bits: areas", lend(lent(width)), []
        for work in (0, 1):
            area, other = 2 + work, 3 - work

            def line(name, change, taken, width=width, work=work):
                """After the D1 and its flag: accepted, or 21."""
                answers = ([*state(f"3 {work} 4 0 0 0 0 1 1 0", width), "R 9", *gone(work, width)] if taken else
                           [*changed(1 - work, width), "R 21", *gone(1 - work, width)])
                return (f"{width} bits, held in area {work}: {name}", receiver(work=work, width=width)
                        + receive(hx("06") + held + FLAG) + change + receive(hx("D1")) + D + receive(FLAG) + D, ["H 4 0", *answers])

            yield line("nothing", b"", True)
            for at in range(4):
                yield line(f"octet {at}", fill(area, at, hx("00")), False)
            yield line("one bit of the first", fill(area, 0, hx("30")), False)
            yield line("one bit of the last", fill(area, 3, hx("B4")), False)
            yield line("two octets swapped", fill(area, 1, b"32"), False)
            yield line("all", fill(area, 0, b"abcd"), False)
            yield line("all zeros", fill(area, 0, bytes(4)), False)
            yield line("one later", fill(area, 0, b"\x311234"), False)
            yield line("the octet behind", fill(area, 4, hx("FF")), True)
            yield line("all behind", fill(area, 4, hx("EE") * 2060), True)
            yield line("to the same octets", fill(area, 0, held), True)
            yield line("and changed back", fill(area, 2, hx("00")) + fill(area, 2, held[2:3]), True)
            yield line("the other area's first octets", fill(other, 0, b"abcd"), True)
            yield line("the other area, all of it", fill(other, 0, hx("EE") * 2060), True)
            yield line("the last held octet and the one behind", fill(area, 3, hx("00 00")), False)
            yield line("the sender's areas", fill(0, 0, hx("EE") * 8) + fill(1, 0, hx("EE") * 8), True)
            yield line("a call in between", fill(area, 0, hx("30")) + receive(FLAG), False)
            yield line("the first octet, and the work area has what was held", fill(area, 0, hx("30")) + fill(other, 0, held), False)
        # Other octets that give the same register are taken: what lies there is what is resumed.
        before, after = (with_check(data, width, fcs(HELD, width)) for data in (b"AA", b"BB"))
        assert before != after and register_over(before, width) == register_over(after, width) == REGISTER[width]
        yield (f"{width} bits: other octets of the same register", holding(before, width=width) + fill(3, 0, after)
               + receive(REST_OF_HELD[width]) + D, [packet_line(1, after), *gone(1, width)])
        bits = [(at, bit) for at in range(2) for bit in range(8)]
        yield (f"{width} bits: each bit", b"".join(holding(HELD, width=width) + fill(3, at, bytes((HELD[at] ^ 1 << bit,)))
                                                  + receive(hx("D1 7E")) for at, bit in bits), ", ".join(["R 21"] * 16))
        yield (f"{width} bits: each bit of the octet behind", b"".join(
            holding(HELD, width=width) + fill(3, 2, bytes((1 << bit,))) + receive(hx("D1 7E")) for bit in range(8)),
            ", ".join(["R 9"] * 8))
        yield (f"{width} bits: each bit of the register", b"".join(
            holding(HELD, width=width, register=REGISTER[width] ^ 1 << bit) + receive(hx("D1 7E")) for bit in range(width)),
            ", ".join(["R 21"] * width))
        for name, register in (("complemented", REGISTER[width] ^ 2 ** width - 1), ("at its start", 2 ** width - 1), ("0", 0),
                               ("of one octet less", register_over(HELD[:1], width)),
                               ("of one octet more", register_over(HELD + b"\0", width)),
                               ("of the other width", REGISTER[48 - width] % 2 ** width),
                               ("with its octets turned", int.from_bytes(REGISTER[width].to_bytes(width // 8, "big"), "little"))):
            yield (f"{width} bits: register {name}", fill(3, 2, b"\0") + holding(HELD, width=width, register=register)
                   + receive(hx("D1 7E")) + D, ["R 21", *gone(0, width)])


def no_octets_held():
    """A fragment of no octets has the start value; with any other the D1 is refused 21."""
    for width in WIDTHS:
        start = 2 ** width - 1
        yield f"{width} bits: areas", lend(lent(width)) + fill(2, 0, b"abc") + fill(3, 0, b"abc"), []
        for work in (0, 1):
            yield (f"{width} bits, area {work} works: accepted", receiver(work=work, held=0, width=width) + receive(hx("D1")) + D
                   + receive(FLAG) + D, [*state(f"3 {1 - work} 0 0 0 0 0 1 1 0", width), "R 9", *gone(1 - work, width)])
            for register in (0, 1, 0x1234, start - 1, start >> 1, start ^ 0x8000):
                yield (f"{width} bits, area {work} works, register {register:X}", receiver(
                    work=work, held=0, width=width, register=register) + receive(hx("D1")) + D + receive(FLAG) + D,
                    [*changed(work, width), "R 21", *gone(work, width)])
        yield (f"{width} bits: held, the areas changed, accepted", area_opened(width) + receive(hx("05 7E")) + fill(2, 0, b"xyz")
               + fill(3, 0, b"xyz") + receive(hx("D1 01 7E")), "H 0 0, R 13")


def after_21():
    """21 and what follows: in its frame all octets are skipped, nothing is written, the areas do not turn."""
    for width in WIDTHS:
        yield f"{width} bits: areas", lend(lent(width)), []
        for work in (0, 1):
            name, wrong = f"{width} bits, area {work} works", holding(HELD, work, width=width) + fill(3 - work, 0, b"0")
            here = changed(work, width)
            for line in ("03 37 38", "FF", "D1", "D2", "D1 D1", "00", "05 31", "DF" * 140, "D0" + "31" * 207):
                yield (f"{name}: {line[:18]}", wrong + receive(hx("D1")) + D + receive(hx(line)) + D + receive(FLAG) + D,
                       [*here, *here, "R 21", *gone(work, width)])
            yield (f"{name}: 21 once, then 8", wrong + receive(hx("D1 7E D1 7E D1 01 7E 7E D1 FF 7E")) + D,
                   ["R 21", "R 8", "R 8", "R 8", *gone(work, width)])
            yield (f"{name}: the octets put back too late", wrong + receive(hx("D1")) + fill(3 - work, 0, HELD) + receive(FLAG)
                   + receive(REST_OF_HELD[width]), "R 21, R 8")
            yield (f"{name}: then a packet", wrong + receive(hx("D1 7E") + ZEROS[width]), f"R 21, P {work} 2 00 00")
            yield (f"{name}: then a fragment and its rest", wrong + receive(hx("D1 7E") + BROKEN) + D
                   + receive(REST_OF_HELD[width]) + D,
                   ["R 21", "H 2 0", *kept(1 - work, HELD, width), f"P {work} 2 31 32", *gone(work, width)])
            yield (f"{name}: then FF", wrong + receive(hx("D1 7E FF 7E")) + D, ["R 21", "R 5", *gone(work, width)])
            yield (f"{name}: nothing is written", wrong + fill(2 + work, 0, b"abc") + receive(hx("D1 03 37 38 01 D3 7E"))
                   + show(2 + work, 0, 3) + show(3 - work, 0, 2), ["R 21", "X 61 62 63", "X 30 32"])
            yield (f"{name}: its flag lost", wrong + receive(hx("D1 05 31") + ZEROS[width] + hx("D1 7E")), "R 21, R 8")


def before_21():
    """6 and 8 come before it: without PRE the register is not looked at, with nothing held there is none to look at."""
    yield "areas for 16 bits and 2,048", DEFAULT_LENGTHS, []
    for settings in (0, 1, 0xFC, 0xFD):
        for held, register in ((0, 0xFFFF), (0, 0x1234), (2, None), (2, 0x1234), (2051, 0)):
            octets, wrong = held_octets(held), held_register(held, 16) if register is None else register
            line = f"{len(octets) + 1} 0 0 0 1 1 6 16 2048 {wrong} 0"
            yield (f"6, settings {settings:02X}, {held} held, register {wrong:04X}", receiver(
                settings=settings, held=held, register=register) + receive(hx("D1")) + D + receive(hx("31 FF")) + D + receive(FLAG)
                + D, [*[FRESH[0], f"T {settings} 0 0 {line} 0 0 0"] * 2, "R 6", *gone(0, settings=settings)])
    for settings in (2, 3, 0xFE, 0xFF):
        yield (f"8, settings {settings:02X}", open_receiver(settings) + receive(hx("D1")) + D + receive(FLAG) + D,
               [*state(f"{settings} 0 0 0 0 0 0 1 1 8"), "R 8", *gone(0, settings=settings)])
        yield (f"21, settings {settings:02X}", receiver(settings=settings, held=2, register=0x1234) + receive(hx("D1")) + D
               + receive(FLAG) + D, [*changed(0, settings=settings), "R 21", *gone(0, settings=settings)])
    yield ("8 after FF, whatever was there", receiver(held=2, register=0x1234) + receive(hx("FF 7E D1 7E")), "R 5, R 8")
    yield ("not a first octet: 7", receiver(held=2, register=0x1234) + receive(hx("01 D1 7E")) + D,
           ["R 7", FRESH[0], "T 3 0 0 3 0 0 0 0 0 0 16 2048 4660 0 0 0 0"])
    yield ("not a first octet: data", receiver(held=2, register=0x1234) + receive(hx("05 D1 7E")) + D, ["H 1 1", *kept(1, hx("D1"))])


# Register and width, with nothing held or something: in bounds, and out of bounds.
NOTHING_IN, NOTHING_OUT = {16: (0xFFFF,), 32: (0xFFFFFFFF,)}, {
    16: (0, 1, 0x1234, 0xFFFE, 0x10000, 0x1FFFF, 0xFFFF0000, 0xFFFFFFFF), 32: (0, 0xFFFF, 0x7FFFFFFF, 0xFFFF0000, 0xFFFFFFFE)}
SOMETHING_IN, SOMETHING_OUT = {16: (0, 1, 0x7FFF, 0xFFFE, 0xFFFF), 32: (0, 0xFFFF, 0x10000, 0x80000000, 0xFFFFFFFE, 0xFFFFFFFF)}, {
    16: (0x10000, 0x1FFFF, 0x80000000, 0xFFFF0000, 0xFFFFFFFF), 32: ()}


def register_bounds():
    frames = (("out of a frame", {}), ("in a block", IN_BLOCK), ("7 remembered", dict(frame=1, refusal=7)),
              ("21 remembered", dict(frame=1, refusal=21)), ("21 remembered, resumed", dict(frame=1, resumed=1, refusal=21)),
              ("resumed", dict(frame=1, resumed=1)))
    for width in WIDTHS:
        yield f"{width} bits: areas", lend(lent(width)), []
        for name, frame in frames:
            for held in (None, 0, 3, 2049 + width // 8):
                for registers, refused in (((NOTHING_IN if held is None else SOMETHING_IN)[width], False),
                                           ((NOTHING_OUT if held is None else SOMETHING_OUT)[width], True)):
                    if registers:
                        calls = [receiver(held=held, width=width, register=register, **frame) + receive(octet)
                                 for register in registers for octet in (hx("31"), hx("D1"), hx("FF"), FLAG)]
                        yield (f"{width} bits, {name}, {held} held, register {'out of' if refused else 'in'} bounds", b"".join(calls),
                               ", ".join(["R 3"] * len(calls)) if refused else "no R 3")
        for held in (None, 0, 3):
            start = 2 ** width - 1
            yield (f"{width} bits, {held} held, 5 remembered: register at its start", receiver(
                held=held, width=width, register=start, frame=1, refusal=5) + receive(FLAG), "R 5" if held is None else "R 3")
    yield ("16 bits, the low half right, the high half not", holding(HELD, register=0x14D53) + receive(FLAG), "R 3")
    yield ("16 bits, the high half alone", receiver(register=0xFFFF0000) + receive(FLAG), "R 3")
    yield ("32 bits, what 16 have at the start", receiver(width=32, register=0xFFFF) + receive(FLAG)
           + receiver(width=32, held=0, register=0xFFFF) + receive(hx("D1 7E")), "R 3, R 21")
    yield ("the halves stand low half first", hand_receiver((3, 0, 0, 2, *[0] * 6, 32, 2048, 0x1234, 0x5678)) + D
           + receive(hx("7E D2 7E")) + D,
           [FRESH[0], "T 3 0 0 2 0 0 0 0 0 0 32 2048 4660 22136 0 0 0", "R 7", FRESH[0],
            "T 3 0 0 2 0 0 0 0 0 0 32 2048 4660 22136 0 0 0"])


def remembered_21():
    """21 is in bounds as 6 to 10 are: in a frame, with anything held or nothing; its neighbours are not."""
    for width in WIDTHS:
        yield f"{width} bits: areas", lend(lent(width)), []
        for held in (None, 0, 3, 2049 + width // 8):
            octets = None if held is None else held_octets(held)
            count = 0 if held is None else held + 1
            for resumed in (0, 1):
                yield (f"{width} bits, {held} held{', resumed' * resumed}", receiver(
                    work=1, decoded=7, held=held, frame=1, resumed=resumed, refusal=21, width=width)
                    + receive(hx("31 00 D1 FF")) + D + receive(FLAG) + D,
                    [*state(f"3 1 7 {count} 0 0 0 1 {resumed} 21", width, held=octets), "R 21",
                     *(gone(1, width) if resumed or held is None else kept(1, octets, width))])
            yield (f"{width} bits, {held} held: out of a frame", receiver(held=held, refusal=21, width=width)
                   + receive(hx("31 D1 FF 7E")), "R 3, R 3, R 3, R 3")
            yield (f"{width} bits, {held} held: 11 to 20, and 22", b"".join(
                receiver(held=held, frame=1, resumed=1, refusal=refusal, width=width) + receive(FLAG)
                for refusal in (*range(11, 21), 22, 23, 255)), ", ".join(["R 3"] * 13))
        yield (f"{width} bits: all else as large as can be", receiver(
            work=1, decoded=2049 + width // 8, held=2049 + width // 8, left=207, zeros=2, last=2, frame=1, resumed=1, refusal=21,
            width=width, register=2 ** width - 1) + receive(hx("31 7E")) + D, ["R 21", *gone(1, width)])
        yield (f"{width} bits: one more decoded, held or left", b"".join(
            receiver(frame=1, refusal=21, width=width, **more) + receive(FLAG)
            for more in (dict(decoded=2050 + width // 8), dict(held=2050 + width // 8), dict(left=208), dict(zeros=3))),
            "R 3, R 3, R 3, R 3")
    for settings in (0, 1, 2, 0xFC):
        yield (f"settings {settings:02X}", receiver(settings=settings, held=3, frame=1, refusal=21) + receive(FLAG) + D,
               ["R 21", *kept(0, ramp(3), settings=settings)])
    yield ("277 counts as 21", hand_receiver((3, 0, 0, 0, 0, 0, 0, 1, 0, 277, 16, 2048, 65535, 0)) + receive(FLAG), "R 21")


def area_orders():
    """3 by width or limit, 2, 3 by the rest; a refused call leaves what is held and its register, and looks at no octet."""
    stays = kept(0, HELD)
    wrong = [FRESH[0], "T 3 0 0 0 0 0 0 0 0 0 16 2048 4660 0 0 0 0"]
    yield "areas for 16 bits and 2,048", DEFAULT_LENGTHS, []
    for name, lengths in (("first one short", SHORT_FIRST), ("second one short", SHORT_SECOND), ("nothing lent", lend((0,) * 4))):
        yield (f"{name}: D1, held octets unchanged and changed", lengths + holding(HELD) + receive(hx("D1")) + D + fill(3, 0, b"0")
               + receive(hx("D1")) + D, ["R 2", *stays, "R 2", *stays])
        yield (f"{name}: 2 before 3 by the register", receiver(register=0x1234) + receive(hx("D1 7E")) + D
               + receiver(held=HELD, register=0x10000) + receive(FLAG), ["R 2", "R 2", *wrong, "R 2"])
        yield (f"{name}: 3 by width or limit before 2", receiver(register=0x1234, width=24) + receive(FLAG)
               + receiver(held=HELD, register=0x10000, limit=1) + receive(FLAG), "R 3, R 3")
        yield (f"{name}: then long enough, 21", holding(HELD) + receive(hx("FF")) + fill(3, 1, b"0") + receive(hx("D1"))
               + DEFAULT_LENGTHS + receive(hx("D1 7E")), "R 2, R 2, R 21")
    yield ("3 by the rest leaves it", receiver(held=HELD, left=208, **IN_OTHER) + receive(hx("D1 FF 7E")) + D,
           ["R 3", "R 3", "R 3", *state("3 0 0 3 208 0 2 1 0 0", held=HELD)])
    yield ("3 by the register leaves it", receiver(register=0x1234) + receive(hx("D1 FF 05 7E")) + D, ["R 3"] * 4 + wrong)
    yield ("3 by the register with something held leaves both", receiver(held=HELD, register=0x10000) + receive(hx("D1 FF 7E")) + D,
           ["R 3", "R 3", "R 3", FRESH[0], "T 3 0 0 3 0 0 0 0 0 0 16 2048 0 1 0 0 0"])
    yield ("3 by width or limit leaves it, whatever it is", receiver(held=HELD, register=0x12345678, width=24) + receive(hx("D1"))
           + D + receiver(register=0x12345678, limit=16385) + receive(hx("D1")) + D,
           ["R 3", FRESH[0], "T 3 0 0 3 0 0 0 0 0 0 24 2048 22136 4660 0 0 0", "R 3", FRESH[0],
            "T 3 0 0 0 0 0 0 0 0 0 16 16385 22136 4660 0 0 0"])
    yield ("a refused opening leaves it", holding(HELD) + open_receiver(3, 24) + open_receiver(3, 16, 1) + D + receive(hx("D1 7E")),
           ["R 3", "R 23", *stays, "R 9"])
    yield ("no calls leave it", receiver(register=0x1234) + receive(b"") + D, wrong)


def area_limits():
    """Limits of 2, 3, 2,048 and 16,384 at both widths: as many octets held as can be, and one less."""
    for limit, width, _, most, runs, last in BOUNDS:
        agreed, name = dict(width=width, limit=limit), f"limit {limit}, {width} bits"
        yield f"{name}: areas", lend(lent(width, limit)), []
        # `most` zeros, the last of them as the data octet 31 of a block that has another to come.
        line = hx("DF") * runs + bytes((last - 1,)) + hx("03 31 7E")
        held = bytes(most - 1) + b"1"
        yield f"{name}: held", open_receiver(3, **agreed) + receive(line) + D, [f"H {most} 0", *kept(1, held, width, limit)]
        yield (f"{name}: accepted", receive(hx("D1")) + D + receive(FLAG) + D,
               [*state(f"3 0 {most} 0 0 0 0 1 1 0", width, limit), "R 9", *gone(0, width, limit)])
        for at, taken in ((0, False), (most // 2, False), (most - 1, False), (most, True)):
            yield (f"{name}: octet {at} changed", open_receiver(3, **agreed) + receive(line) + fill(2, at, hx("EE"))
                   + receive(hx("D1 7E")) + D,
                   [f"H {most} 0", "R 9", *gone(0, width, limit)] if taken else [f"H {most} 0", "R 21", *gone(1, width, limit)])
        yield (f"{name}: one octet changed in the work area", open_receiver(3, **agreed) + receive(line) + fill(3, 0, hx("EE"))
               + receive(hx("D1 02 31 7E")), f"H {most} 0, R 10")
        small = holding(HELD, **agreed)
        yield (f"{name}: 31 32 held, delivered", small + receive(REST_OF_HELD[width]) + D,
               ["P 1 2 31 32", *gone(1, width, limit)])
        yield (f"{name}: 31 32 held, changed", small + fill(3, 1, b"3") + receive(REST_OF_HELD[width]) + D,
               ["R 21", *gone(0, width, limit)])
        yield (f"{name}: bounds", b"".join(receiver(register=register, held=held, **agreed) + receive(FLAG) for register, held in (
            (2 ** width - 1, None), (2 ** width - 2, None), (0, most), (2 ** width % 2 ** 32 or 1, most))),
            "R 3" if width == 32 else "R 3, R 3")
    yield "areas for 16 bits and 2,048", DEFAULT_LENGTHS, []
    zeros = bytes(2051)
    yield ("as many zeros, one of them gone", holding(zeros) + receiver(held=zeros[1:], register=register_over(zeros))
           + receive(hx("D1 7E")), "R 21")


def changed_behind_back():
    """Both ends. A host writes to an area while a packet is suspended."""
    for width, limit in ((16, 2048), (32, 3), (32, 16384)):
        (begun, rest), urgent = cut_frame(THREE + fcs(THREE, width), 1), block_line(hx("44 45"), width)
        name = f"limit {limit}, {width} bits"
        yield (f"{name}: sent", opened(width, limit) + load_low(THREE) + next_octets(2) + load_high(hx("44 45"))
               + next_octets(1 + len(urgent + rest) + 1), ["D", *sent(begun[:2]), "D", *sent(FLAG + urgent + rest), "I"])
        yield (f"{name}: the held octet is written over", receive(begun) + fill(2, 0, b"X") + receive(urgent + rest),
               "H 1 0, P 1 2 44 45, R 21")
        yield f"{name}: what is sent next comes whole", receive(urgent + begun + urgent + rest), (
            "P 1 2 44 45, H 1 0, P 0 2 44 45, P 1 3 41 42 43")
        yield (f"{name}: what lies behind is written over", opened(width, limit) + receive(begun) + fill(2, 1, b"XYZ")
               + receive(urgent + rest), "H 1 0, P 1 2 44 45, P 0 3 41 42 43")
        yield (f"{name}: the work area is written over", receive(begun) + fill(3, 0, b"XYZ") + receive(urgent) + fill(3, 0, b"XYZ")
               + receive(rest), "H 1 0, P 1 2 44 45, P 0 3 41 42 43")
        yield (f"{name}: 21, its rest twice, a restart, all anew", receive(begun) + fill(2, 0, b"X") + receive(
            rest + rest + hx("FF 7E") + begun + rest), "H 1 0, R 21, R 8, R 5, H 1 0, P 1 3 41 42 43")


AREAS_TABLE = [
    ("slip 8's examples", area_examples),
    ("the register that is held", registers_held),
    ("what lets go", lets_go),
    ("what leaves it", leaves_it),
    ("changes", changes),
    ("no octets held", no_octets_held),
    ("after 21", after_21),
    ("6 and 8 before 21", before_21),
    ("in bounds, the register", register_bounds),
    ("in bounds, 21", remembered_21),
    ("order of the call refusals", area_orders),
    ("limits", area_limits),
    ("both ends", changed_behind_back),
]


# ------------------------------------------------------------------------------------------------
# The table of the script plain: document 02, slip 5
# ------------------------------------------------------------------------------------------------

OFF, COBS, PLAIN, ESCAPED = range(4)
CONTROLS, ALL, XON = bytes(range(0x20)), 0xFFFFFFFF, 1 << 0x11
FORBIDDEN = (*range(0x20, 0x40), 0x5E)  # what no sending map may mark
ALLOWED = bytes(octet for octet in range(256) if octet not in FORBIDDEN)
LCP, LCP_LINE = hx("FF 03 C0 21 01 01 00 04"), hx("FF 03 C0 21 01 01 00 04 D1 B5 7E")
FRESH_NUMBERS = "3 0 0 0 0 0 0 0 0 0"


def ppp_line(data, width=16, marked=b""):
    """A packet as a frame of plain PPP, with its flag."""
    return stuffed(data + fcs(data, width), marked) + FLAG


def reads_plain(width=16, limit=2048, control=0, **numbers):
    """A receiver that reads plain, handed in, with areas exactly long enough."""
    return lend(lent(width, limit)) + receiver(width=width, limit=limit, control=control, **{"mode": PLAIN, **numbers})


def plain_opened(width=16, limit=2048, control=0):
    """A receiver opened with plain reading on, and areas exactly long enough."""
    return lend(lent(width, limit)) + open_receiver(3, width, limit, 1, control)


def written(data, width=16, marked=b""):
    """The line of a packet that the plain sender writes."""
    line = ppp_line(data, width, marked)
    return f"W {len(line)} {line.hex(' ').upper()}"


def plain_examples():
    """The table of examples that goes with the slip's readings, row by row; settings 03, 16 bits, packets to 2,048."""
    lcp = "8 FF 03 C0 21 01 01 00 04"
    yield "an LCP packet sent, empty maps", open_pair(3) + send_plain(LCP), ["W 11 FF 03 C0 21 01 01 00 04 D1 B5 7E"]
    yield ("the same, marks 00 to 1F", open_pair(3, sending=marks(CONTROLS)) + send_plain(LCP),
           ["W 16 FF 7D 23 C0 21 7D 21 7D 21 7D 20 7D 24 D1 B5 7E"])
    yield "the first line, reading off", open_receiver(3) + receive(LCP_LINE), "R 5"
    yield "the first line, reading on", open_receiver(3, plain=1) + receive(LCP_LINE), f"P 0 {lcp}"
    yield "the first line, map FFFFFFFF", open_receiver(3, plain=1, control=ALL) + receive(LCP_LINE), "R 14"
    for octets, control, answers in (
            ("FF 7E 7D 7E", 0, "R 13, R 18"), ("FF 7D 7E", 0, "R 18"), ("FF 7E 11 11 7E", XON, "R 13"),
            ("FF 7E 11 11 7E", 0, "R 13, R 13"), ("FF 7E 7D 11 7E", XON, "R 13, R 18"),
            ("FF 7E 7D 11 5E 41 1E 36 7E", XON, "R 13, P 0 2 7E 41")):
        yield (f"{octets}, map {control:08X}", open_receiver(3, plain=1, control=control) + receive(hx(octets)), answers)
    yield ("5D marked: 5D 7D 7E 5E sent", open_pair(3, sending=marks(hx("5D"))) + send_plain(hx("5D 7D 7E 5E")),
           ["W 10 7D 7D 7D 5D 7D 5E 5E CF 0C 7E"])
    yield ("and received", receiver(mode=PLAIN) + receive(hx("7D 7D 7D 5D 7D 5E 5E CF 0C 7E")), "P 0 4 5D 7D 7E 5E")
    for length, answer in ((2048, "P 0 2048" + " 41" * 2048), (2049, "R 10")):
        yield f"{length} octets of 41", receiver(mode=PLAIN) + receive(ppp_line(b"A" * length)), answer
    for more, answer in (("7D 7E", "R 18"), ("7D 41 7E", "R 10"), ("41 7D 7E", "R 10")):
        yield f"2,050 octets, then {more}", receiver(mode=PLAIN) + receive(b"A" * 2050 + hx(more)), answer
    yield ("05 31, FF 03", open_receiver(3, plain=1) + receive(hx("05 31 7E FF 03 7E")) + D,
           ["H 1 0", "R 13", *state("3 1 0 0 0 0 0 0 0 0", mode=PLAIN)])
    yield ("an FF frame, then a COBS frame of 31 to 39", open_receiver(3, plain=1)
           + receive(LCP_LINE + hx("0C") + NINE + hx("6E 90 7E")),
           f"P 0 {lcp}, R 14")
    for name, given, answers in (
            ("24, 1", dict(width=24, limit=1), "R 23"), ("24", dict(width=24), "R 3"), ("a mark lacks", dict(control=1), "R 19"),
            ("5E", dict(sending=marks(hx("5E"))), "R 19"), ("20", dict(sending=marks(hx("20"))), "R 19"),
            ("3F", dict(sending=marks(hx("3F"))), "R 19"), ("40, 5D, FF", dict(sending=marks(hx("40 5D FF"))), "")):
        yield f"a pair: {name}", open_pair(3, **given), answers
    yield ("41 with an area of 3 and of 4, 41 42 with one of 4 and of 5", b"".join(
        lend_out(area) + send_plain(data) for data, area in ((ONE, 3), (ONE, 4), (TWO, 4), (TWO, 5))) + lend_out(2051),
        "R 2, R 1, R 2, W 5 41 42 EF 31 7E")


def plain_start():
    """Before any opening: plain reading off, no map; the plain sender has 16 bits, 2,048 and the marks 7D and 7E."""
    yield "the receiver", D, FRESH
    yield "the plain sender", send_plain(hx("7D 7E")) + send_plain(hx("00 1F")), [written(hx("7D 7E")), written(hx("00 1F"))]
    yield ("2,051 octets of out are lent", send_plain(b"A" * 2048) + send_plain(b"A" * 2047 + FLAG),
           [written(b"A" * 2048), "R 2"])
    yield "and 2,048 is its limit", lend_out(40960) + send_plain(b"A" * 2049) + lend_out(2051), "R 1"


def plain_openings():
    """The receiver, opened by itself: on or off, and the map; no 19, since there is no sending map."""
    yield "areas for 16 bits and 2,048", DEFAULT_LENGTHS, []
    for octet, control in ((0, 0), (0, 1), (0, ALL), (1, 0), (1, 1), (1, ALL), (2, 0x80000000), (3, 0x12345678), (128, XON),
                           (255, 0xFFFE)):
        yield (f"octet {octet}, map {control:08X}", open_receiver(3, 16, 2048, octet, control) + D,
               state(FRESH_NUMBERS, mode=COBS if octet else OFF, control=control if octet else 0))
    yield ("each bit of the map", b"".join(open_receiver(3, plain=1, control=1 << bit) + D for bit in range(32)),
           [line for bit in range(32) for line in state(FRESH_NUMBERS, mode=COBS, control=1 << bit)])
    for name, before, numbers, mode in (
            ("in a frame", dict(decoded=5, frame=1), "3 0 5 0 0 0 0 1 0 0", PLAIN),
            ("behind an escape", dict(decoded=5, frame=1, mode=ESCAPED), "3 0 5 0 0 0 0 1 0 0", ESCAPED),
            ("out of a frame, with something held", dict(held=2, work=1), "3 1 0 3 0 0 0 0 0 0", PLAIN)):
        for answer, given in (("R 23", (24, 1)), ("R 23", (16, 16385)), ("R 3", (24, 2))):
            yield (f"{name}: {answer} leaves it, {given[0]}, {given[1]}", reads_plain(control=XON, **before)
                   + open_receiver(0, *given, 1, ALL)
                   + open_receiver(0, *given) + D, [answer, answer, *state(numbers, mode=mode, control=XON)])
        for octet in (0, 1):
            yield (f"{name}: opened anew, octet {octet}", reads_plain(control=XON, **before)
                   + open_receiver(3, plain=octet, control=ALL)
                   + D + receive(hx("E0 03 47 0F 7E")),
                   [*state(FRESH_NUMBERS, mode=octet, control=ALL * octet), "P 0 2 00 00"])
    yield ("the opening looks at width and limit alone", open_receiver(3, 32, 16384, 1, ALL) + D,
           state(FRESH_NUMBERS, 32, 16384, mode=COBS, control=ALL))


def pair_openings():
    """19: a map for sending that marks what it must not, or lacks a mark of the receiving one. Each octet and each bit."""
    yield "areas for 16 bits and 2,048", DEFAULT_LENGTHS + open_pair(3), []
    commands, answers, last = b"", [], b""
    for octet in range(256):
        commands += open_pair(3, sending=marks((octet,))) + send_plain(bytes((octet, 0x41)))
        refused = octet in FORBIDDEN
        last = last if refused else bytes((octet,))
        answers += ["R 19"] * refused + [written(bytes((octet, 0x41)), marked=last)]
    yield "each octet marked alone", commands, ", ".join(answers)
    for control, name in ((0, "empty"), (ALL, "full"), (XON, "11")):
        commands, answers = b"", []
        for bit in range(32):
            lacks, alone = CONTROLS[:bit] + CONTROLS[bit + 1:], bytes((bit,))
            commands += open_pair(3, control=control, sending=marks(lacks)) + open_pair(3, control=control, sending=marks(alone))
            wanted = [octet for octet in CONTROLS if control >> octet & 1]
            answers += ["R 19"] * (bit in wanted) + ["R 19"] * (not set(wanted) <= {bit})
        yield f"receiving map {name}: all marked but one, and one alone", commands, ", ".join(answers)
    yield ("receiving map of one bit: its mark, and each of four others", b"".join(
        open_pair(3, control=1 << bit, sending=marks((bit ^ other,))) for bit in range(32) for other in (0, 1, 4, 8, 16)),
        ", ".join(["R 19"] * 128))
    yield ("7D and 7E need not be marked, and may be", b"".join(
        open_pair(3, sending=marks(marked)) + send_plain(hx("7D 7E")) for marked in (b"", hx("7D"), hx("7E"), hx("7D 7E"))),
        ", ".join([written(hx("7D 7E"))] * 4))
    yield ("all that may be marked, and one mark more", open_pair(3, control=ALL, sending=marks(ALLOWED)) + b"".join(
        open_pair(3, control=ALL, sending=marks(ALLOWED + bytes((octet,)))) for octet in FORBIDDEN)
        + open_pair(3, sending=marks(range(256))), ", ".join(["R 19"] * 34))
    yield ("the map's octets: bit 0 of the first is 00, bit 7 of the last FF", open_pair(3, sending=hx("01" + "00" * 30 + "80"))
           + send_plain(hx("00 01 FE FF 07 80")), [written(hx("00 01 FE FF 07 80"), marked=hx("00 FF"))])
    yield ("what is opened", b"".join(open_pair(settings, width, limit, control, marks(CONTROLS)) + D
                                      for settings, width, limit, control in (
        (3, 16, 2048, 0), (0, 32, 2, ALL), (255, 32, 16384, 0x12345678))),
        [*state(FRESH_NUMBERS, mode=COBS), *state("0 0 0 0 0 0 0 0 0 0", 32, 2, mode=COBS, control=ALL),
         *state("255 0 0 0 0 0 0 0 0 0", 32, 16384, mode=COBS, control=0x12345678)])
    yield ("the lengths lent play no part", lend((0,) * 4) + lend_out(0) + open_pair(3, 32, 16384) + D + lend_out(2051)
           + DEFAULT_LENGTHS,
           state(FRESH_NUMBERS, 32, 16384, mode=COBS))


def pair_orders():
    """23, 3, 19; a refused opening leaves plain sender and receiver as they were."""
    bad = marks(hx("5E"))
    yield "areas for 32 bits and 20", lend(lent(32, 20)), []
    before = open_pair(2, 32, 20, XON, marks(hx("11 41"))) + receiver(
        settings=2, work=1, decoded=3, held=2, frame=1, width=32, limit=20, mode=ESCAPED, control=XON)
    stays = state("2 1 3 3 0 0 0 1 0 0", 32, 20, mode=ESCAPED, control=XON)
    for answer, width, limits in (("R 23", 16, (0, 1, 16385, 65535)), ("R 23", 24, (0, 1, 16385, 65535)), ("R 3", 24, (2, 2048, 16384)),
                                  ("R 3", 0, (2,)), ("R 3", 255, (2,))):
        for name, given in (("good maps", {}), ("a bad sending map", dict(sending=bad)), ("a mark lacks", dict(control=1))):
            yield (f"{answer}, width {width}, {name}", before + b"".join(open_pair(3, width, limit, **given) for limit in limits) + D
                   + send_plain(hx("41 11")), [*[answer] * len(limits), *stays, written(hx("41 11"), 32, hx("11 41"))])
    for limit, width, *_ in BOUNDS:
        yield (f"R 19, limit {limit}, {width} bits", before + open_pair(3, width, limit, 0, bad) + open_pair(3, width, limit, 1) + D
               + send_plain(hx("41 11")), ["R 19", "R 19", *stays, written(hx("41 11"), 32, hx("11 41"))])
    yield ("a refused opening leaves states out of bounds too", DEFAULT_LENGTHS + receiver(left=208, mode=PLAIN)
           + hand_plain_sender(24, 1, bad) + open_pair(3, 16, 2048, 1) + D + send_plain(TWO) + receive(FLAG),
           ["R 19", *state("3 0 0 0 208 0 0 0 0 0", mode=PLAIN), "R 3", "R 3"])
    yield ("an opening ends what was there", before + open_pair(3, 16, 2048) + D + send_plain(hx("41 11")) + DEFAULT_LENGTHS,
           [*state(FRESH_NUMBERS, mode=COBS), written(hx("41 11"))])


def plain_sends():
    """What is written: each marked octet of packet and FCS as two, the flag at the end, none before; the rest of out stays."""
    every = bytes(range(256))
    for width in WIDTHS:
        for name, marked in (("none", b""), ("controls", CONTROLS), ("11 13", hx("11 13")), ("FF", hx("FF")), ("5D", hx("5D")),
                             ("all that may be", ALLOWED), ("all above 7F", range(0x80, 0x100))):
            marked = bytes(marked)
            yield (f"{width} bits, marks {name}: every octet", open_pair(3, width, sending=marks(marked)) + send_plain(every),
                   [written(every, width, marked)])
        for name, check in (("7E", FLAG), ("7D", hx("7D")), ("00", b"\0"), ("5E", hx("5E")), ("11", hx("11"))):
            data = with_check(b"12", width, check * (width // 8))
            tail = {"7E": "7D 5E", "7D": "7D 5D", "11": "7D 31"}.get(name, name)
            line = stuffed(data, hx("11")) + hx(tail) * (width // 8) + FLAG
            yield (f"{width} bits, FCS {name}", open_pair(3, width, sending=marks(hx("11"))) + send_plain(data),
                   [f"W {len(line)} {line.hex(' ').upper()}"])
    yield ("out is written from its start, the rest stays", open_pair(3) + lend_out(40960) + fill(OUT_AREA, 0, hx("EE") * 9)
           + send_plain(TWO)
           + show(OUT_AREA, 0, 9), ["W 5 41 42 EF 31 7E", "X 41 42 EF 31 7E EE EE EE EE"])
    yield ("the same packet again, then a shorter line", send_plain(hx("7E 7E")) + send_plain(TWO) + show(OUT_AREA, 0, 9),
           ["W 7 7D 5E 7D 5E 6A FF 7E", "W 5 41 42 EF 31 7E", "X 41 42 EF 31 7E FF 7E EE EE"])
    yield ("the ends and their areas stay", fill_all() + receiver(decoded=3, frame=1, mode=ESCAPED, control=5, held=2) + send_plain(TWO)
           + D
           + show_sender() + show_receiver() + lend_out(2051),
           ["W 5 41 42 EF 31 7E", *state("3 0 3 3 0 0 0 1 0 0", mode=ESCAPED, control=5), *["X 01 02 03 04 05 06 07 08"] * 2,
            *["X 01 02 03 04 05 06"] * 2])


def exactly_long_enough():
    """2 exactly where the octets do not fit, for the packet as it is, with the map as it is."""
    marked = hx("00 11")

    def packets(length, width, octet):
        """So many octets of 41 and of another; of a long one, one of the two."""
        kinds = {"41": b"A" * length, octet: hx(octet) * length}
        return ((name, data, len(ppp_line(data, width, marked))) for name, data in kinds.items()
                if length < LONGEST or (width, length, name) in ((16, LONGEST + 1, "41"), (32, LONGEST, "7E")))

    for limit, width, *_ in BOUNDS:
        yield (f"limit {limit}, {width} bits: a pair", open_pair(3, width, limit, sending=marks(marked))
               + fill(OUT_AREA, 0, hx("EE EE")), [])
        for length in (1, limit + 1):
            for name, data, count in packets(length, width, "11"):
                areas, answers = (count - 1, count), "R 2, R 1"
                if length < 300:
                    areas, answers = (0, *areas, 40960), f"R 2, {answers}, R 1"
                yield (f"limit {limit}, {width} bits, {length} of {name}: 2, then 1", b"".join(
                    lend_out(area) + send_plain(data) for area in areas) + show(OUT_AREA, 0, 2), [*answers.split(", "), "X EE EE"])
        for length in sorted({2, min(limit, 300), limit}):
            for name, data, count in packets(length, width, "7E"):
                shown, end = show(OUT_AREA, count - 2, 4), ppp_line(data, width, marked)[-2:].hex(" ").upper()
                yield (f"limit {limit}, {width} bits, {length} of {name}: {count} octets", fill(OUT_AREA, 0, hx("EE EE"))
                       + fill(OUT_AREA, count - 2, hx("EE EE EE EE")) + lend_out(count - 1) + send_plain(data) + shown
                       + show(OUT_AREA, 0, 2)
                       + lend_out(count) + send_plain(data) + shown,
                       ["R 2", "X EE EE EE EE", "X EE EE", written(data, width, marked), f"X {end} EE EE"])
    # No octet at all: its FCS is 00 00, or 00 00 00 00.
    for width, marked, count in ((16, b"", 3), (16, b"\0", 5), (32, b"", 5), (32, b"\0", 9)):
        yield (f"no octet, {width} bits, {'00 marked' if marked else 'nothing marked'}: {count}",
               open_pair(3, width, sending=marks(marked))
               + lend_out(count - 1) + send_plain(b"") + lend_out(count) + send_plain(b""), "R 2, R 1")
    most, more = (FLAG * count for count in (20478, 20479))
    assert [len(ppp_line(data)) for data in (most, more)] == [40959, 40961]
    yield ("as much as can be lent, and more", open_pair(3) + lend_out(65535) + send_plain(most) + send_plain(more) + lend_out(2051),
           "R 1, R 2")


def plain_sender_states():
    """3 by width or limit, 2, 3 by the marks, 1."""
    good = hx("7D 7E")
    for width in (0, 8, 15, 17, 24, 31, 33, 48, 255):
        yield (f"width {width}", b"".join(lend_out(area) + hand_plain_sender(width, 2048, sending) + send_plain(data)
                                          for area in (0, 5, 2051)
                                          for sending in (marks(good), marks(b"")) for data in (TWO, ONE)), ", ".join(["R 3"] * 12))
    for limit in OUT_OF_RANGE:
        yield (f"limit {limit}", b"".join(lend_out(area) + hand_plain_sender(width, limit, marks(good)) + send_plain(data)
                                          for area in (0, 2051) for width in (16, 32, 24) for data in (TWO, b"")),
               ", ".join(["R 3"] * 12))
    for name, marked in (("nothing", b""), ("7D", hx("7D")), ("7E", hx("7E")), ("7D 7E 5E", hx("5E 7D 7E")),
                         ("7D 7E 20", hx("20 7D 7E")),
                         ("7D 7E 3F", hx("3F 7D 7E")), ("all", bytes(range(256))), ("all but 7D", ALLOWED.replace(hx("7D"), b""))):
        for limit, width, *_ in BOUNDS:
            def count(data, width=width, marked=marked):
                """Octets of a line that escapes what is marked, and nothing else."""
                return sum(2 if octet in marked else 1 for octet in data + fcs(data, width)) + 1

            packets = [hx("7D 7E"), hx("5E 3F"), ONE, b"", *[b"A" * (limit + 1)] * (limit < 2048 or limit == 2048 and not marked)]
            yield (f"marks {name}, limit {limit}, {width} bits", hand_plain_sender(width, limit, marks(marked))
                   + fill(OUT_AREA, 0, hx("EE EE"))
                   + b"".join(lend_out(area) + send_plain(data) for data in packets for area in (count(data) - 1, count(data)))
                   + show(OUT_AREA, 0, 2), ["R 2", "R 3"] * len(packets) + ["X EE EE"])
    yield ("each octet marked beside 7D and 7E", lend_out(2051) + b"".join(
        hand_plain_sender(16, 2048, marks((octet, 0x7D, 0x7E))) + send_plain(bytes((octet, 0x41))) for octet in range(256)),
        ", ".join("R 3" if octet in FORBIDDEN else written(bytes((octet, 0x41)), marked=bytes((octet,))) for octet in range(256)))
    yield ("in bounds: all that may be marked, 1 comes last", hand_plain_sender(16, 3, marks(ALLOWED)) + send_plain(ONE)
           + send_plain(FOUR)
           + send_plain(THREE), f"R 1, R 1, {written(THREE, marked=ALLOWED)}")
    yield ("no receiving map is looked at", open_receiver(3, plain=1, control=ALL) + hand_plain_sender(16, 2048, marks(good))
           + send_plain(CONTROLS), [written(CONTROLS)])
    for width, limit, longest in ((32, 2, TWO), (16, 3, THREE), (32, 2048, b"A" * 2048)):
        yield (f"handed in: {width} bits, limit {limit}", lend_out(40960) + hand_plain_sender(width, limit, marks(good))
               + send_plain(longest)
               + send_plain(longest + b"A") + lend_out(2051), [written(longest, width), "R 1"])


def plain_first_octet():
    """With plain reading on each octet but FF is as it was; what was held goes with the FF alone. FF is written and counted."""
    def after(octet, settings):
        if octet != 0xFF:
            return state(after_first(octet, settings), mode=COBS, control=XON)
        return state(f"{settings} 0 1 0 0 0 0 1 0 0", mode=PLAIN, control=XON)

    for settings in (0, 3):
        yield (f"settings {settings:02X}, 3 held", DEFAULT_LENGTHS + b"".join(
            holding(3, settings=settings, mode=COBS, control=XON) + receive(bytes((octet,))) + D for octet in range(256)),
            [line for octet in range(256) for line in after(octet, settings)])


def begins_plain():
    """A frame that begins FF in COBS reading; what is held is let go at once, the areas do not turn."""
    for limit, width, _, most, *_ in BOUNDS:
        agreed = dict(width=width, limit=limit)
        on = dict(mode=PLAIN, control=ALL, **agreed)
        for work in (0, 1):
            for held in (None, 0, 1, most):
                yield (f"limit {limit}, {width} bits, area {work} works, {held} held", lend(lent(width, limit))
                       + fill(2 + work, 0, hx("EE EE EE"))
                       + fill(3 - work, 0, hx("DD DD DD")) + receiver(work=work, held=held, mode=COBS, control=ALL, **agreed)
                       + receive(hx("FF"))
                       + D + show(2 + work, 0, 3) + show(3 - work, 0, 3) + receive(hx("03")) + D + receive(hx("C0")) + D
                       + show(2 + work, 0, 3) + receive(FLAG) + D,
                       [*state(f"3 {work} 1 0 0 0 0 1 0 0", **on), "X FF EE EE", "X DD DD DD",
                        *state(f"3 {work} 1 0 0 0 0 1 0 0", **on),
                        *state(f"3 {work} 2 0 0 0 0 1 0 0", **on), "X FF C0 EE", "R 13", *state(f"3 {work} 0 0 0 0 0 0 0 0", **on)])
    yield "areas for 16 bits and 2,048", DEFAULT_LENGTHS, []
    for settings in (0, 1, 2, 3, 0xFC, 0xFF):
        for held in (None, 3):
            yield (f"settings {settings:02X}, {held} held: on, and off", receiver(settings=settings, held=held, mode=COBS)
                   + receive(hx("FF")) + D
                   + receive(LCP_LINE[1:]) + receiver(settings=settings, held=held) + receive(hx("FF")) + D + receive(LCP_LINE[1:]),
                   [*state(f"{settings} 0 1 0 0 0 0 1 0 0", mode=PLAIN), "P 0 8 FF 03 C0 21 01 01 00 04",
                    *state(f"{settings} 0 0 0 0 0 0 1 0 5"), "R 5"])
    yield ("reading off outlasts FF frames", open_receiver(3) + receive(hx("FF 7E FF 03 7E") + LCP_LINE + hx("E0 03 47 0F 7E")) + D,
           ["R 5", "R 5", "R 5", "P 0 2 00 00", *state(FRESH_NUMBERS)])
    yield ("off, a map handed in: never plain", receiver(control=ALL) + receive(hx("FF 7E 7D 7E 11 7E")) + D,
           ["R 5", "H 0 0", "H 0 1", *state("3 0 0 1 0 0 0 0 0 0", control=ALL, held=b"")])
    yield ("D1 after the FF frame is data", open_receiver(3, plain=1) + receive(hx("05 31 7E FF 7E D1 01 7E")) + D,
           ["H 1 0", "R 13", "R 13", *state("3 1 0 0 0 0 0 0 0 0", mode=PLAIN)])


def ff_not_first():
    """In COBS reading FF that does not begin a frame, and a frame that does not begin FF, switch nothing."""
    on = dict(mode=COBS, control=XON)
    yield "areas for 16 bits and 2,048", DEFAULT_LENGTHS, []
    for name, octets, answers in (
            ("a later code", "01 FF 7E", "R 7"), ("data", "05 FF 7E", "H 1 1"), ("behind D1", "D1 FF 7E", "R 7"),
            ("behind D2", "D2 FF 7E", "R 7"),
            ("in the FCS", "05 00 00 6A FF 7E", "P 0 2 7E 7E"), ("escaped as plain PPP would", "7D DF 7D 23 7E", "H 3 1"),
            ("behind an octet of the map", "11 FF 03 7E", "H 2 1"), ("behind 00", "00 FF 7E", "H 1 1"),
            ("behind 7D", "7D FF 7E", "H 1 1")):
        yield (name, holding(5, **on) + receive(hx(octets)) + receive(hx("E0 03 47 0F 7E")) + D, f"{answers}, P "
               + ("1" if answers[0] == "H" or name == "behind D1" else "0") + " 2 00 00")
    yield ("the map is not looked at in COBS: 11 is a code and data", open_receiver(3, plain=1, control=ALL) + receive(
        hx("02 11 E0 03 47 0F 7E") + block_line(hx("11 13"), 16)) + D,
           ["R 14", "P 0 2 11 13", *state(FRESH_NUMBERS, mode=COBS, control=ALL)])
    yield ("7D is no escape in COBS", open_receiver(3, plain=1) + receive(block_line(hx("7D 31"), 16)), "P 0 2 7D 31")
    yield ("behind flags alone it begins a frame", receiver(held=5, **on) + receive(hx("7E 7E FF")) + D,
           state("3 0 1 0 0 0 0 1 0 0", mode=PLAIN, control=XON))
    yield ("a sender that marks FF switches no receiver", open_pair(3, sending=marks(hx("FF"))) + send_plain(hx("FF 03 C0 21"))
           + receive(hx("7D DF 03 C0 21")) + D,
           [written(hx("FF 03 C0 21"), marked=hx("FF")), *state("3 0 4 0 120 1 2 1 0 0", mode=COBS)])


def after_octet(octet, decoded, mode, control):
    """Octets decoded, mode and the octet written (none: EE lies there) after an octet other than the flag in plain reading."""
    if octet < 0x20 and control >> octet & 1:
        return decoded, mode, "EE"
    if mode == ESCAPED:
        return decoded + 1, PLAIN, f"{octet ^ 0x20:02X}"
    return (decoded, ESCAPED, "EE") if octet == 0x7D else (decoded + 1, PLAIN, f"{octet:02X}")


def every_plain_octet():
    """Each octet but the flag: out of a frame, in one, and behind an escape; with an empty map, and one of each second octet."""
    yield "areas for 16 bits and 2,048", DEFAULT_LENGTHS, []
    places = (("in a frame", 3, PLAIN), ("behind an escape", 3, ESCAPED), ("out of a frame", 0, PLAIN),
              ("behind an escape that begins the frame", 0, ESCAPED))
    for control, some in ((0, places[:2]), (0x5555AAAA, places)):
        for name, decoded, mode in some:
            frame, commands, lines = int(decoded > 0 or mode == ESCAPED), b"", []
            for octet in range(256):
                if octet != 0x7E:
                    commands += (fill(2, decoded, hx("EE")) + receiver(decoded=decoded, frame=frame, mode=mode, control=control)
                                 + receive(bytes((octet,))) + D + show(2, decoded, 1))
                    count, then, put = after_octet(octet, decoded, mode, control)
                    begun = int(frame or (count, then) != (decoded, mode))
                    lines += [*state(f"3 0 {count} 0 0 0 0 {begun} 0 0", mode=then, control=control), f"X {put}"]
            yield f"map {control:08X}, {name}", commands, lines


def removed_octets():
    """What is removed changes no report: it begins no frame, ends no escape and is not counted. What an escape gives stays."""
    frame = ppp_line(hx("7E 41"))  # 7D 5E 41 1E 36 7E: FCS 1E 36
    assert frame == hx("7D 5E 41 1E 36 7E")
    on = dict(mode=PLAIN, control=XON)
    yield "areas for 16 bits and 2,048", DEFAULT_LENGTHS, []
    for at in range(len(frame) + 1):
        for some in (hx("11"), hx("11 11 11")):
            yield (f"{len(some)} at {at}", receiver(**on) + receive(frame[:at] + some + frame[at:]), "P 0 2 7E 41")
    yield ("everywhere", receiver(**on) + receive(b"".join(hx("11 11") + bytes((octet,)) for octet in frame) + hx("11")), "P 0 2 7E 41")
    yield ("without the map", receiver(mode=PLAIN) + receive(frame[:3] + hx("11") + frame[3:]), "R 14")
    yield ("they begin no frame", receiver(**on) + receive(hx("11")) + D + receive(hx("11 11")) + D + receive(hx("7E 11 7E")) + D,
           state(FRESH_NUMBERS, **on) * 3)
    yield ("others do", receiver(**on) + receive(hx("10")) + D + receive(FLAG), [*state("3 0 1 0 0 0 0 1 0 0", **on), "R 13"])
    yield ("they end no escape", receiver(**on) + receive(hx("7D")) + D + receive(hx("11 11")) + D + receive(hx("31")) + D
           + show(2, 0, 1),
           [*state("3 0 0 0 0 0 0 1 0 0", mode=ESCAPED, control=XON) * 2, *state("3 0 1 0 0 0 0 1 0 0", **on), "X 11"])
    yield ("7D alone, and 7D 11: 18", receiver(**on) + receive(hx("7D 7E 7D 11 7E 11 7D 7E 7D 11 11 7E")), "R 18, R 18, R 18, R 18")
    yield ("7D 31 is 11, not removed; 7D 33 is 13", receiver(**on) + receive(ppp_line(hx("11 13"), marked=CONTROLS)), "P 0 2 11 13")
    yield ("7D 11 31 is 11 too", receiver(**on) + receive(ppp_line(hx("11 13"), marked=CONTROLS).replace(hx("7D"), hx("7D 11"))),
           "P 0 2 11 13")
    yield ("each control octet, escaped, through a full map", b"".join(
        receiver(mode=PLAIN, control=ALL) + receive(ppp_line(bytes((octet, 0x41)), marked=CONTROLS)) for octet in range(32)),
        ", ".join(f"P 0 2 {octet:02X} 41" for octet in range(32)))
    yield ("each control octet, put in everywhere, full map", b"".join(
        receiver(mode=PLAIN, control=ALL) + receive(ppp_line(TWO).replace(b"", bytes((octet,)))) for octet in range(32)),
        ", ".join(["P 0 2 41 42"] * 32))
    yield ("each control octet, put in, map of another", b"".join(
        receiver(mode=PLAIN, control=ALL ^ 1 << octet) + receive(hx("41 42") + bytes((octet,)) + hx("EF 31 7E"))
        for octet in range(32)),
        ", ".join(["R 14"] * 32))
    yield ("20 and above are never removed", b"".join(
        receiver(mode=PLAIN, control=ALL) + receive(bytes((octet,)) + FLAG) for octet in range(32, 256) if octet not in (0x7D, 0x7E)),
        ", ".join(["R 13"] * 222))
    yield ("handed in: in a frame, nothing decoded, no escape: 13", b"".join(
        receiver(frame=1, **on) + receive(octets) for octets in (FLAG, hx("11 7E"))), "R 13, R 13")
    for limit, width, longest, *_ in BOUNDS:
        if limit < LONGEST:
            line = ppp_line(b"A" * limit, width, hx("11"))
            yield (f"limit {limit}, {width} bits: they are not counted", reads_plain(width, limit, XON) + receive(
                line[:-2] + hx("11") * 9 + line[-2:-1] + hx("11 11")) + D + receive(FLAG),
                [*state(f"3 0 {longest} 0 0 0 0 1 0 0", width, limit, **on), packet_line(0, b"A" * limit)])
    yield "areas for 16 bits and 2,048 once more", DEFAULT_LENGTHS, []


def escapes():
    """7D and the octet behind it, whatever that is, but for the flag and what is removed."""
    yield "areas for 16 bits and 2,048", DEFAULT_LENGTHS, []
    for octets, put in (("7D 7D", "5D"), ("7D 5D", "7D"), ("7D 5E", "7E"), ("7D 20", "00"), ("7D 00", "20"), ("7D FF", "DF"),
                        ("7D DF", "FF"),
                        ("7D 31", "11"), ("7D 11", "31"), ("7D 41", "61")):
        yield (octets, reads_plain() + fill(2, 0, hx("EE EE")) + receive(hx(octets)) + D + show(2, 0, 2) + receive(FLAG),
               [*state("3 0 1 0 0 0 0 1 0 0", mode=PLAIN), f"X {put} EE", "R 13"])
    yield ("7D 7D is 5D, not an escape still open", reads_plain() + receive(hx("7D 7D 7D 7D 7D")) + D + receive(FLAG) + D,
           [*state("3 0 2 0 0 0 0 1 0 0", mode=ESCAPED), "R 18", *state(FRESH_NUMBERS, mode=PLAIN)])
    yield ("an escape does not outlast its flag", reads_plain() + receive(hx("7D 7E 41 42 EF 31 7E")), "R 18, P 0 2 41 42")
    yield ("octets escaped without need", reads_plain() + receive(ppp_line(TWO, marked=bytes(range(0x40, 0x100)))), "P 0 2 41 42")
    for width in WIDTHS:
        every = bytes(range(256))
        for name, marked in (("7D and 7E", b""), ("controls", CONTROLS), ("all that may be", ALLOWED)):
            yield (f"{width} bits: every octet, marks {name}", reads_plain(width) + receive(ppp_line(every, width, marked)),
                   packet_line(0, every))
        yield (f"{width} bits: 00 is 00, not 7E", reads_plain(width) + receive(ppp_line(bytes(3), width)), "P 0 3 00 00 00")
        yield (f"{width} bits: FF and D1 begin frames like any", reads_plain(width) + receive(
            ppp_line(hx("FF FF"), width) + ppp_line(hx("D1 D1"), width)), "P 0 2 FF FF, P 0 2 D1 D1")


def plain_reports():
    """At the flag: 10, 18, 13, 14, Packet; by states handed in, whose octets are all 31 or a packet."""
    fates = ((None, 0, 0), (2, 0, 3), (2, 1, 0))  # what is held, whether resumed, and the number of what is held after the flag
    for limit, width, longest, most, *_ in BOUNDS:
        least = 2 + width // 8
        for work in (0, 1) if limit == 3 else ({16: 0, 32: 1}[width],):
            name = f"limit {limit}, {width} bits, area {work}"

            def told_at_flag(decoded, mode, answer, work=work, width=width, limit=limit):
                """Commands and lines for each of the three fates of what is held."""
                commands = b"".join(receiver(work=work, decoded=decoded, frame=1, held=held, resumed=resumed, mode=mode, width=width,
                                             limit=limit) + receive(FLAG) + D for held, resumed, _ in fates)
                return commands, [line for _, _, after in fates for line in (
                    answer, *state(f"3 {work} 0 {after} 0 0 0 0 0 0", width, limit, mode=PLAIN))]

            yield f"{name}: areas", lend(lent(width, limit)) + fill(2 + work, 0, b"1" * most), []
            for decoded in sorted({0, 1, least - 1, least, longest - 1, longest, most}):
                assert register_over(b"1" * decoded, width) not in (0xF0B8, 0xDEBB20E3)
                for mode in (PLAIN, ESCAPED):
                    answer = 10 if decoded > longest else 18 if mode == ESCAPED else 13 if decoded < least else 14
                    yield f"{name}: {decoded} decoded, mode {mode}", *told_at_flag(decoded, mode, f"R {answer}")
            for length in sorted({2, limit}):
                data = b"A" * length
                commands, lines = told_at_flag(length + width // 8, PLAIN, packet_line(work, data))
                if length == LONGEST:  # once is enough
                    commands, lines = commands[:len(commands) // 3], lines[:len(lines) // 3]
                yield f"{name}: a packet of {length}", fill(2 + work, 0, data + fcs(data, width)) + commands, lines
                yield f"{name}: a packet of {length} and an escape open", *told_at_flag(length + width // 8, ESCAPED, "R 18")
            data = b"A" * (limit + 1)
            yield (f"{name}: a packet of one octet too many", fill(2 + work, limit - 1, (data + fcs(data, width))[limit - 1:])
                   + told_at_flag(most, PLAIN, "R 10")[0], told_at_flag(most, PLAIN, "R 10")[1])
    yield "areas for 16 bits and 2,048", DEFAULT_LENGTHS, []


def short_and_damaged():
    """13 and 14 by octets that arrive: lengths on both sides of the least frame; every bit of a frame turned."""
    for width in WIDTHS:
        for count in range(9):
            yield (f"{count} octets, {width} bits", plain_opened(width) + receive(hx("FF 7E") + b"1" * count + FLAG),
                   ", ".join(["R 13"] + ["R 13" if count < 2 + width // 8 else "R 14"] * (count > 0)))
            whole = b"A" * count + fcs(b"A" * count, width)
            yield (f"{count} octets and their FCS, {width} bits", receive(stuffed(whole) + FLAG),
                   packet_line(0, b"A" * count) if count >= 2 else "R 13")
        for name, line in (("FF", hx("FF")), ("FF 03", hx("FF 03")), ("FF and less than a frame", hx("FF") + b"1" * (width // 8))):
            yield f"{name}, {width} bits", plain_opened(width) + receive(line + FLAG), "R 13"
        yield (f"FF and as much as a frame, {width} bits", plain_opened(width) + receive(hx("FF") + b"1" * (1 + width // 8) + FLAG),
               "R 14")
        whole = NINE + fcs(NINE, width)
        damaged = [bytes(octet ^ (1 << bit % 8) * (at == bit // 8) for at, octet in enumerate(whole)) for bit in range(8 * len(whole))]
        yield (f"a bit is wrong, at each place, {width} bits", reads_plain(width)
               + b"".join(receive(stuffed(octets) + FLAG) for octets in damaged),
               ", ".join(["R 14"] * len(damaged)))
        yield (f"an octet is lost, at each place, {width} bits",
               b"".join(receive(whole[:at] + whole[at + 1:] + FLAG) for at in range(len(whole))),
               ", ".join(["R 14"] * len(whole)))
        yield (f"the other width's FCS, {width} bits", receive(ppp_line(NINE, 48 - width)) + receive(ppp_line(TWO, 48 - width)),
               "R 14, " + ("R 14" if width == 16 else "R 13"))
        yield f"FCS high octet first, {width} bits", receive(stuffed(NINE + fcs(NINE, width)[::-1]) + FLAG), "R 14"
        yield f"flags alone, {width} bits", receive(FLAG * 5) + D, state(FRESH_NUMBERS, width, mode=PLAIN)
    yield "areas for 16 bits and 2,048", DEFAULT_LENGTHS, []


def plain_too_much():
    """10: the octet that is one too many is not written; 7D is none; 18 only without it."""
    for limit, width, longest, most, *_ in BOUNDS:
        agreed = dict(width=width, limit=limit)
        name = f"limit {limit}, {width} bits"
        on = dict(mode=PLAIN, **agreed)
        shown = show(2, longest - 2, 4)
        before = lend(lent(width, limit)) + fill(2, longest - 2, hx("31 31 EE EE EE"))

        def refused(mode=PLAIN, decoded=longest, agreed=agreed):
            return state(f"3 0 {decoded} 0 0 0 0 1 0 10", mode=mode, **agreed)

        yield (f"{name}: one less, then two octets", before + receiver(decoded=longest - 1, frame=1, **on) + receive(hx("41")) + D
               + shown
               + receive(hx("42")) + D + shown + receive(FLAG) + D,
               [*state(f"3 0 {longest} 0 0 0 0 1 0 0", **on), "X 31 41 EE EE", *refused(), "X 31 41 EE EE", "R 10",
                *state(FRESH_NUMBERS, **on)])
        yield (f"{name}: then an escape", before + receiver(decoded=longest, frame=1, **on) + receive(hx("7D")) + D + shown
               + receive(FLAG) + D,
               [*state(f"3 0 {longest} 0 0 0 0 1 0 0", mode=ESCAPED, **agreed), "X 31 31 EE EE", "R 18", *state(FRESH_NUMBERS, **on)])
        yield (f"{name}: then an escaped octet", before + receiver(decoded=longest, frame=1, **on) + receive(hx("7D 41")) + D + shown
               + receive(FLAG) + D, [*refused(), "X 31 31 EE EE", "R 10", *state(FRESH_NUMBERS, **on)])
        yield (f"{name}: behind 10 all is skipped", before + receiver(decoded=longest, frame=1, **on) + receive(hx("41 7D")) + D
               + receive(hx("7D 41 FF 00 D1")) + D + shown + receive(FLAG) + receive(ppp_line(TWO, width)),
               [*refused() * 2, "X 31 31 EE EE", "R 10", "P 0 2 41 42"])
        yield (f"{name}: one octet more handed in", before + b"".join(
            receiver(decoded=most, frame=1, mode=mode, **agreed) + receive(octets) + D + shown for mode in (PLAIN, ESCAPED)
            for octets in (hx("41"), hx("7D"), FLAG)),
            [*refused(decoded=most), "X 31 31 EE EE", *state(f"3 0 {most} 0 0 0 0 1 0 0", mode=ESCAPED, **agreed), "X 31 31 EE EE",
             "R 10", *state(FRESH_NUMBERS, **on), "X 31 31 EE EE",
             *refused(decoded=most), "X 31 31 EE EE", *refused(decoded=most), "X 31 31 EE EE", "R 10", *state(FRESH_NUMBERS, **on),
             "X 31 31 EE EE"])
        for octet, opens, way in ((b"A", receiver(**on), "plain"), (hx("FF"), plain_opened(width, limit), "COBS up to its FF")):
            if limit < LONGEST or way == {16: "plain", 32: "COBS up to its FF"}[width]:
                yield (f"{name}, {way}: the longest packet", opens + receive(ppp_line(octet * limit, width)),
                       packet_line(0, octet * limit))
                yield (f"{name}, {way}: one octet longer", opens + receive(ppp_line(octet * (limit + 1), width)) + D,
                       ["R 10", *state(FRESH_NUMBERS, **on)])
    yield "areas for 16 bits and 2,048", DEFAULT_LENGTHS, []


def plain_bounds():
    """Every mode, in a frame and out of one, a refusal remembered or none, held and resumed or not: in bounds or 3."""
    def in_bounds(mode, frame, refusal, left, zeros, last, held, resumed, decoded):
        block = left or zeros or last
        if refusal == 5 and (mode != OFF or held is not None):
            return False
        if not frame:
            return not (decoded or block or resumed or refusal or mode == ESCAPED)
        if mode in (PLAIN, ESCAPED):
            return not block
        return bool(refusal or (resumed if last == 0 else last == 1 or left or decoded))

    for mode in range(4):
        for frame in (0, 1):
            for refusal in (0, 5, 6, 10, 21):
                commands, answers = b"", []
                for left, zeros, last in ((0, 0, 0), (1, 0, 0), (0, 1, 0), (0, 0, 1), (0, 0, 2), (207, 2, 2)):
                    for held in (None, 2):
                        for resumed in (0, 1):
                            for decoded in (0, 7) if frame or not left else (0,):
                                given = dict(left=left, zeros=zeros, last=last, held=held, resumed=resumed, decoded=decoded)
                                commands += receiver(mode=mode, frame=frame, refusal=refusal, **given) + receive(hx("00"))
                                answers += ["R 3"] * (not in_bounds(mode, frame, refusal, **given))
                yield f"mode {mode}, in a frame {frame}, refusal {refusal}", commands, ", ".join(answers)
    for mode in range(4):
        for refusal in (*range(12), 13, 14, 17, 18, 19, 20, 21, 22, 255):
            good = refusal in (0, *range(6, 11), 21) or refusal == 5 and mode == OFF
            yield (f"mode {mode}, {refusal} remembered", receiver(mode=mode, frame=1, resumed=1, refusal=refusal)
                   + receive(hx("00 7E")),
                   "R 3, R 3" if not good else f"R {refusal}" if refusal else "H 0 0" if mode < PLAIN else "R 13")
    for limit, width, longest, most, *_ in BOUNDS:
        for mode in (PLAIN, ESCAPED):
            agreed = dict(width=width, limit=limit, mode=mode)
            yield (f"limit {limit}, {width} bits, mode {mode}: decoded", lend(lent(width, limit)) + b"".join(
                receiver(decoded=count, frame=1, refusal=refusal, **agreed) + receive(FLAG)
                for refusal in (0, 9) for count in (most, most + 1, 65535)), "R 10, R 3, R 3, R 9, R 3, R 3")
            yield (f"limit {limit}, {width} bits, mode {mode}: held", b"".join(
                receiver(held=held, frame=1, **agreed) + receive(FLAG) for held in (0, most, most + 1, 65534)),
                "R 18, R 18, R 3, R 3" if mode == ESCAPED else "R 13, R 13, R 3, R 3")
            yield (f"limit {limit}, {width} bits, mode {mode}: register", b"".join(
                receiver(held=held, frame=1, register=register, **agreed) + receive(FLAG) for held, register in (
                    (None, 2 ** width - 1), (None, 2 ** width - 2), (None, 0), (2, 0), (2, 2 ** width - 1))),
                ", ".join(["R 18" if mode == ESCAPED else "R 13", "R 3", "R 3", *["R 18" if mode == ESCAPED else "R 13"] * 2]))
        yield (f"limit {limit}, {width} bits: register beyond 16 bits", receiver(
            held=2, frame=1, register=0x10000, width=width, limit=limit, mode=PLAIN) + receive(FLAG), "R 3" if width == 16 else "R 13")
        yield (f"limit {limit}, {width} bits: out of a frame", b"".join(
            receiver(mode=mode, held=held, work=1, control=control, width=width, limit=limit) + receive(FLAG)
            for mode in range(4) for held in (None, most) for control in (0, XON, ALL)), ", ".join(["R 3"] * 6))
    yield "areas for 16 bits and 2,048", DEFAULT_LENGTHS, []
    yield ("5 in a mode other than off, whatever the octet", b"".join(
        receiver(mode=mode, frame=1, refusal=5) + receive(bytes((octet,))) for mode in (COBS, PLAIN, ESCAPED)
        for octet in range(0, 256, 14)),
        ", ".join(["R 3"] * 57))
    yield ("an escape out of a frame, whatever the octet", b"".join(
        receiver(mode=ESCAPED) + receive(bytes((octet,))) for octet in range(256)), ", ".join(["R 3"] * 256))
    yield ("data left, zeros due or a last block in plain reading, whatever the octet", b"".join(
        receiver(mode=mode, frame=1, decoded=5, **more) + receive(bytes((octet,))) for mode in (PLAIN, ESCAPED)
        for more in (dict(left=1), dict(zeros=1), dict(last=1), dict(last=2)) for octet in range(0, 256, 14)), ", ".join(["R 3"] * 152))
    yield ("with 208 left or 3 zeros in COBS as before", b"".join(
        receiver(mode=COBS, **IN_OTHER, **more) + receive(FLAG)
        for more in (dict(left=207), dict(left=208), dict(left=1, zeros=2), dict(left=1, zeros=3))),
        "H 0 0, R 3, H 0 0, R 3")
    yield ("modes count by their remainder by 4", b"".join(
        hand_receiver((3, *[0] * 9, 16, 2048, 65535, 0, mode, 1, 2)) + D for mode in (4, 5, 6, 7, 258, 65535)),
        [line for mode in (0, 1, 2, 3, 2, 3) for line in state(FRESH_NUMBERS, mode=mode, control=0x20001)])
    yield ("the halves of the map stand low half first", hand_receiver((3, *[0] * 9, 16, 2048, 65535, 0, 2, 0x0002, 0x8000))
           + receive(hx("01 1F")) + D
           + receive(hx("00 1E 10")) + D,
           [*state(FRESH_NUMBERS, mode=PLAIN, control=0x80000002), *state("3 0 3 0 0 0 0 1 0 0", mode=PLAIN, control=0x80000002)])


def plain_held():
    """What is held in plain reading, only in a state handed in: it stays until the flag of a frame marked resumed."""
    yield "areas for 16 bits and 2,048", DEFAULT_LENGTHS, []
    for work in (0, 1):
        for name, octets, mode, decoded in (("FF", "FF", PLAIN, 1), ("D1", "D1", PLAIN, 1), ("7D", "7D", ESCAPED, 0),
                                            ("31", "31", PLAIN, 1),
                                            ("05 31", "05 31", PLAIN, 2), ("removed", "11", PLAIN, 0)):
            begun = int(octets != "11")
            yield (f"area {work}: {name} lets nothing go", fill(3 - work, 0, ramp(5))
                   + receiver(work=work, held=5, mode=PLAIN, control=XON)
                   + receive(hx(octets)) + D + receive(FLAG) + D,
                   [*state(f"3 {work} {decoded} 6 0 0 0 {begun} 0 0", mode=mode, control=XON),
                    *(["R 18" if mode == ESCAPED else "R 13"] * begun), *state(f"3 {work} 0 6 0 0 0 0 0 0", mode=PLAIN, control=XON)])
        yield (f"area {work}: frames leave it", receiver(work=work, held=5, mode=PLAIN) + receive(
            ppp_line(TWO) + hx("7D 7E 41 7E 41 42 43 44 45 7E") + b"A" * 2051 + FLAG) + D,
            [f"P {work} 2 41 42", "R 18", "R 13", "R 14", "R 10", *state(f"3 {work} 0 6 0 0 0 0 0 0", mode=PLAIN)])
        yield (f"area {work}: the held octets are not written", fill(3 - work, 0, ramp(6)) + receiver(work=work, held=5, mode=PLAIN)
               + receive(ppp_line(b"A" * 300)) + show(3 - work, 0, 6), [packet_line(work, b"A" * 300), "X 01 02 03 04 05 06"])
        for resumed in (0, 1):
            for refusal in (0, 6, 7, 8, 9, 10, 21):
                for mode in (PLAIN, ESCAPED):
                    answer = f"R {refusal}" if refusal else "R 18" if mode == ESCAPED else "R 13"
                    yield (f"area {work}: refusal {refusal}, mode {mode}, resumed {resumed}", receiver(
                        work=work, decoded=2, held=5, frame=1, resumed=resumed, refusal=refusal, mode=mode, control=XON)
                        + receive(hx("11")) + D + receive(FLAG) + D,
                        [*state(f"3 {work} 2 6 0 0 0 1 {resumed} {refusal}", mode=mode, control=XON), answer,
                         *state(f"3 {work} 0 {0 if resumed else 6} 0 0 0 0 0 0", mode=PLAIN, control=XON)])
        yield (f"area {work}: a remembered refusal skips all octets", b"".join(
            receiver(work=work, decoded=2, frame=1, refusal=7, mode=mode) + receive(hx("7D 41 FF D1 00 7D")) + D
            for mode in (PLAIN, ESCAPED)),
            [line for mode in (PLAIN, ESCAPED) for line in state(f"3 {work} 2 0 0 0 0 1 0 7", mode=mode)])
        yield (f"area {work}: opened anew, nothing is held", receiver(work=work, held=5, mode=PLAIN) + open_receiver(3, plain=1) + D,
               state(FRESH_NUMBERS, mode=COBS))


def outlasts():
    """Settings, width, limit, map and plain reading outlast every flag; nothing but an opening goes back to COBS."""
    for limit, width, longest, *_ in BOUNDS:
        for settings, control in ((3, 0), (0, ALL), (0xFE, 0x80000002)):
            on = dict(width=width, limit=limit, mode=PLAIN, control=control)
            fresh = state(f"{settings} 0 0 0 0 0 0 0 0 0", **on)
            frames = ((FLAG, []), (ppp_line(TWO, width, CONTROLS), ["P 0 2 41 42"]), (hx("FF 7E"), ["R 13"]),
                      (hx("41 7D 7E"), ["R 18"]),
                      (b"A" * (2 + width // 8) + FLAG, ["R 14"]), (hx("D1 7E"), ["R 13"]), (hx("E0 7E"), ["R 13"]),
                      (hx("FF 7D 7E"), ["R 18"]),
                      *[(b"A" * (longest + 1) + FLAG, ["R 10"])] * (limit < LONGEST))
            assert register_over(b"A" * (2 + width // 8), width) not in (0xF0B8, 0xDEBB20E3)
            yield (f"limit {limit}, {width} bits, settings {settings:02X}, map {control:08X}", lend(lent(width, limit))
                   + open_receiver(settings, width, limit, 1, control) + receive(hx("FF 7E")) + D
                   + b"".join(receive(octets) + D for octets, _ in frames),
                   ["R 13", *fresh, *(line for _, answers in frames for line in (*answers, *fresh))])
    yield "areas for 16 bits and 2,048", DEFAULT_LENGTHS, []
    cobs = block_line(TWO, 16)
    yield ("COBS frames are read plain until COBS is opened anew", plain_opened() + receive(cobs + hx("FF 7E") + cobs * 3)
           + open_receiver(3, plain=1)
           + receive(cobs) + D, ["P 0 2 41 42", "R 13", *["R 14"] * 3, "P 0 2 41 42", *state(FRESH_NUMBERS, mode=COBS)])
    yield ("a pair opened anew reads COBS too", plain_opened() + receive(hx("FF 7E")) + open_pair(3) + receive(cobs) + D,
           ["R 13", "P 0 2 41 42", *state(FRESH_NUMBERS, mode=COBS)])
    yield ("off again", plain_opened() + receive(hx("FF 7E")) + open_receiver(3) + receive(cobs + hx("FF 7E") + cobs) + D,
           ["R 13", "P 0 2 41 42", "R 5", "P 0 2 41 42", *state(FRESH_NUMBERS)])


def plain_orders():
    """3 by width or limit, 2, 3 by the rest, as for COBS; areas of L + w + 1 though a plain frame has one octet less. A
    refused call changes nothing, not the mode either."""
    for name, lengths in (("first one short", SHORT_FIRST), ("second one short", SHORT_SECOND), ("nothing lent", lend((0,) * 4))):
        for mode, frame in ((COBS, 0), (PLAIN, 0), (PLAIN, 1), (ESCAPED, 1)):
            given = dict(mode=mode, frame=frame, control=XON, held=2)
            stays = state(f"3 0 0 3 0 0 0 {frame} 0 0", mode=mode, control=XON)
            yield (f"{name}, mode {mode}, in a frame {frame}: 2", lengths + receiver(**given) + receive(hx("FF 7D 41 11 7E")) + D,
                   ["R 2"] * 5 + stays)
            yield (f"{name}, mode {mode}, in a frame {frame}: 2 before 3", receiver(**{**given, "left": 208}) + receive(hx("FF 7E")),
                   "R 2, R 2")
            yield (f"{name}, mode {mode}, in a frame {frame}: 3 by width or limit before 2", b"".join(
                receiver(**given, **wrong) + receive(hx("FF 7E")) for wrong in (dict(width=24), dict(limit=1), dict(limit=16385))),
                ", ".join(["R 3"] * 6))
    yield ("long enough again: FF", DEFAULT_LENGTHS + receiver(mode=COBS, held=2) + receive(hx("FF")) + D,
           state("3 0 1 0 0 0 0 1 0 0", mode=PLAIN))
    for limit, width, _, most, *_ in BOUNDS:
        yield (f"limit {limit}, {width} bits: areas", b"".join(
            lend((0, 0, first, second)) + receiver(width=width, limit=limit, mode=mode, frame=1) + receive(FLAG)
            for mode in (PLAIN, ESCAPED) for first, second in ((most, most), (most - 1, most), (most, most - 1), (20480, 20480))),
            "R 13, R 2, R 2, R 13, R 18, R 2, R 2, R 18")
    yield ("3 by the rest changes nothing", DEFAULT_LENGTHS + receiver(mode=ESCAPED, frame=1, decoded=3, zeros=1, held=2, control=XON)
           + receive(hx("41 7D 11 7E FF")) + D, ["R 3"] * 5 + state("3 0 3 3 0 1 0 1 0 0", mode=ESCAPED, control=XON))
    yield ("3, 5 in COBS reading with nothing held", receiver(mode=COBS, frame=1, refusal=5) + receive(hx("41 7E")) + D,
           ["R 3", "R 3", *state("3 0 0 0 0 0 0 1 0 5", mode=COBS)])


def noises(width, limit, control):
    """Octets that come before a flag, and what they and the flag are told by a receiver that reads plain."""
    yield b"", []
    yield hx("FF"), ["R 13"]
    yield hx("7D"), ["R 18"]
    yield hx("7D 7D 7D"), ["R 18"]
    yield hx("D1 05 31 7E 7D"), ["R 13", "R 18"]
    yield hx("11"), [] if control >> 0x11 & 1 else ["R 13"]
    yield hx("00 11 FF 03"), ["R 13" if width == 32 or control else "R 14"]  # four octets without a map
    if limit < LONGEST:
        yield b"A" * (limit + width // 8 + 1), ["R 10"]


def plain_delivery():
    """A pair: what the plain sender writes comes through after a flag, whatever came before; also with removed octets put in."""
    for limit, width, *_ in BOUNDS:
        for control, marked in ((0, b""), (XON, hx("11")), (ALL, CONTROLS), (ALL, ALLOWED), (0, hx("5D FF 41"))):
            name = f"limit {limit}, {width} bits, map {control:08X}, {len(marked)} marks"
            packets = [hx("FF 03"), hx("7D 7E"), hx("11 00"), hx("5D 5D")] + [FLAG * limit] * (limit < 2048)
            line = b"".join(ppp_line(data, width, marked) for data in packets)
            reports = [packet_line(0, data) for data in packets]
            yield (f"{name}: sent", lend(lent(width, limit)) + open_pair(3, width, limit, control, marks(marked))
                   + b"".join(send_plain(data) for data in packets), [written(data, width, marked) for data in packets])
            if 0xFF not in marked:
                yield f"{name}: the first begins FF, to a receiver of COBS", receive(FLAG + line), reports
            with_removed = b"".join(hx("11") + bytes((octet,)) for octet in line) if control else line
            yield (f"{name}: after noise", b"".join(
                receiver(width=width, limit=limit, mode=PLAIN, control=control) + receive(noise + FLAG) + receive(with_removed)
                for noise, _ in noises(width, limit, control)),
                [line for _, answers in noises(width, limit, control) for line in (*answers, *reports)])
    yield "areas for 16 bits and 2,048", DEFAULT_LENGTHS, []


PLAIN_TABLE = [
    ("the start", plain_start),
    ("slip 5's examples", plain_examples),
    ("opening the receiver", plain_openings),
    ("opening the pair, 19", pair_openings),
    ("opening the pair, order", pair_orders),
    ("plain sender", plain_sends),
    ("plain sender, 2 and 1", exactly_long_enough),
    ("plain sender, 3", plain_sender_states),
    ("every first octet, reading on", plain_first_octet),
    ("begun FF", begins_plain),
    ("FF elsewhere", ff_not_first),
    ("every octet in plain reading", every_plain_octet),
    ("removed octets", removed_octets),
    ("escapes", escapes),
    ("at the flag", plain_reports),
    ("13 and 14", short_and_damaged),
    ("10 and 18", plain_too_much),
    ("in bounds", plain_bounds),
    ("held and resumed", plain_held),
    ("what outlasts a flag", outlasts),
    ("order of the call refusals", plain_orders),
    ("a pair", plain_delivery),
]


# --- Small scripts: commands, and every line that they give. A script ends at `E`, so each such case has its own.
LONG = 65535
EXAMPLE = open_sender(3) + load_low(hx("00 00")) + next_octets(6)
SCRIPTS = {
    "nothing": (b"", []),
    # The example of docs/EXERCISE.md.
    "example": (EXAMPLE, ["D", "O E0", "O 03", "O 47", "O 0F", "O 7E", "I"]),
    # 41 42 43 (FCS 2F 9F) is broken off after 41 by 44 45 (FCS E8 3B), and resumed.
    "preempted": (
        open_sender(3) + load_low(hx("41 42 43")) + next_octets(2) + D + load_high(hx("44 45")) + next_octets(1) + D
        + next_octets(14) + open_receiver(3) + receive(hx("06 41 7E")) + D + receive(hx("05 44 45 E8 3B 7E")) + D
        + receive(hx("D1 05 42 43 2F 9F")) + D + receive(FLAG) + D,
        ["D", "O 06", "O 41", "S 3 5 1 0 0 4 1 1 0 0 16 2048", "T 0 0 0 0 0 0 0 0 0 0 16 2048 65535 0 0 0 0",
         "D", "O 7E", "S 3 5 1 4 0 0 0 0 1 0 16 2048", "T 0 0 0 0 0 0 0 0 0 0 16 2048 65535 0 0 0 0",
         "O 05", "O 44", "O 45", "O E8", "O 3B", "O 7E", "O D1", "O 05", "O 42", "O 43", "O 2F", "O 9F", "O 7E", "I",
         "H 1 0", "S 3 0 0 0 0 0 0 0 0 0 16 2048", told("3 1 0 2 0 0 0 0 0 0", held=b"A"),
         "P 1 2 44 45", "S 3 0 0 0 0 0 0 0 0 0 16 2048", told("3 1 0 2 0 0 0 0 0 0", held=b"A"),
         "S 3 0 0 0 0 0 0 0 0 0 16 2048", "T 3 0 6 0 0 0 2 1 1 0 16 2048 65535 0 0 0 0",
         "P 0 3 41 42 43", "S 3 0 0 0 0 0 0 0 0 0 16 2048", "T 3 0 0 0 0 0 0 0 0 0 16 2048 65535 0 0 0 0"]),
    # The operands of an unknown command are not known either: nothing behind it is carried out.
    "unknown": (EXAMPLE + b"?" + D, ["D", "O E0", "O 03", "O 47", "O 0F", "O 7E", "I", "E"]),
    "unknown-octet": (b"\x80", ["E"]),
    # Cut short, a command is not carried out: no line of its own before the `E`.
    "cut-number": (open_sender(3) + load_low(TWO) + next_octets(1) + b"n\x05", ["D", "O 05", "E"]),
    "cut-packet": (open_sender(3) + load_low(hx("41 42 43"))[:-1], ["E"]),
    "cut-line": (open_receiver(3) + receive(hx("05 31 7E 7E"))[:-1], ["E"]),
    "cut-opening": (open_sender(3, 32) + D + open_sender(3, 32)[:-1],
                    ["S 3 0 0 0 0 0 0 0 0 0 32 2048", "T 0 0 0 0 0 0 0 0 0 0 16 2048 65535 0 0 0 0", "E"]),
    "cut-state": (hand_sender((3,) * 12)[:-1], ["E"]),
    "cut-register": (hand_receiver((3,) * 14)[:-8], ["E"]),
    "cut-map": (hand_receiver((3,) * 17)[:-1], ["E"]),
    "cut-reading": (open_receiver(3)[:-1], ["E"]),
    "cut-pair": (open_pair(3)[:-1], ["E"]),
    "cut-marks": (hand_plain_sender(16, 2048, marks(b""))[:-1], ["E"]),
    "cut-plain": (send_plain(hx("41 42")) + send_plain(hx("41 42"))[:-1], ["W 5 41 42 EF 31 7E", "E"]),
    "cut-show": (show(0, 0, 1)[:-1], ["E"]),
    "cut-letter": (D + b"A", [*FRESH, "E"]),
    # Counts as large as they can be.
    "long-operands": (
        lend((LONG,) * 4) + lend_out(LONG) + fill(0, 0, hx("A5") * LONG) + show(0, 20478, LONG) + show(1, 0, 2)
        + load_low(hx("31") * LONG) + D + open_receiver(3) + receive(hx("D3 7E") + FLAG * (LONG - 4) + hx("D2 7E")) + D
        + next_octets(LONG) + send_plain(hx("41") * LONG) + show(OUT_AREA, 0, 3) + show(OUT_AREA, 40958, LONG),
        ["X A5 A5", "X 00 00", "R 1", *FRESH, "R 13", "R 7", FRESH[0], "T 3 0 0 0 0 0 0 0 0 0 16 2048 65535 0 0 0 0", *["I"] * LONG,
         "R 2", "X 00 00 00", "X 00 00"]),
}


# ------------------------------------------------------------------------------------------------
# Writing
# ------------------------------------------------------------------------------------------------

def answers_of(lines):
    return [line for line in lines if line[0] not in "STX"]


def as_asked(asked, lines):
    """A list asks for every line; a text for the answers of calls."""
    if isinstance(asked, list):
        return lines == asked
    if asked == "no R 3":
        return "R 3" not in answers_of(lines)
    return ", ".join(answers_of(lines)) == asked


def write(path, data):
    with open(path, "wb") as file:
        file.write(data)


def write_captures(programs, folder):
    os.makedirs(folder, exist_ok=True)
    for name, make in CAPTURES.items():
        data = make(programs)
        lines, counts = programs.of_model("capture", data), programs.of_model("count", data)
        if CAPTURE_LINES.get(name, lines.decode()) != lines.decode():
            sys.exit(f"the capture {name} is not read as asked")
        for ending, octets in ((".octets", data), (".lines", lines), (".counts", counts)):
            write(os.path.join(folder, name + ending), octets)
        seen = ", ".join(line for line in counts.decode().splitlines() if not line.endswith(" 0"))
        print(f"capture {name}: {len(data)} octets; {seen or 'no report'}")


def table_script(programs, label, groups, explain):
    """All of a table in one script; and how many of its entries are answered otherwise than asked."""
    entries = [(f"{group}: {name}", commands, asked) for group, table in groups for name, commands, asked in table()]
    script, before, wrong = b"", 0, 0
    for name, commands, asked in entries:
        script += commands
        lines = programs.of_model("exercise", script).decode().splitlines()
        own = lines[before:]
        good = as_asked(asked, own)
        wrong += not good
        print(f"script {label}: {name}" + ("" if good else f"\n  ASKED {asked}\n  MODEL {own}"))
        if explain:
            for number, line in enumerate(own, before + 1):
                print(f"    {number}: {line[:120]}")
        before = len(lines)
    print(f"{label}: {len(entries)} entries")
    return script, wrong


def write_scripts(programs, folder, explain):
    scripts, wrong = {}, 0
    for name, groups in (("base", BASE), ("width", WIDTH_TABLE), ("limit", LIMIT_TABLE), ("restart", RESTART_TABLE),
                         ("areas", AREAS_TABLE), ("plain", PLAIN_TABLE)):
        scripts[name], faults = table_script(programs, name, groups, explain)
        wrong += faults
    for name, (commands, asked) in SCRIPTS.items():
        scripts[name] = commands
        lines = programs.of_model("exercise", commands).decode().splitlines()
        if lines != asked:
            print(f"script {name}\n  ASKED {asked[:40]}\n  MODEL {lines[:40]}")
            wrong += 1
    if wrong:
        sys.exit(f"{wrong} entries are not answered as asked; no script stored")
    os.makedirs(folder, exist_ok=True)
    for name, script in scripts.items():
        answers = programs.of_model("exercise", script)
        write(os.path.join(folder, name + ".script"), script)
        write(os.path.join(folder, name + ".answers"), answers)
        print(f"script {name}: {len(script)} octets, answers {len(answers)} octets")


def main():
    if [word for word in sys.argv[1:] if word != "--explain"]:
        sys.exit(__doc__)
    root = os.path.dirname(os.path.dirname(HERE))
    captures = os.path.join(root, "tests", "captures")
    with tempfile.TemporaryDirectory() as temporary:
        programs = Programs(build_model(temporary), "", "")
        write_captures(programs, captures)
        write_scripts(programs, os.path.join(root, "tests", "scripts"), "--explain" in sys.argv)
        for ending, name in ((".octets", "stdin"), (".counts", "stdout")):
            with open(os.path.join(captures, "stale-fragment" + ending), "rb") as file:
                write(os.path.join(root, "crates", "count", name), file.read())


if __name__ == "__main__":
    main()

#!/usr/bin/env python3
"""Holds the C library's calls, and the octets of its states, against the model (model.rs).

    python3 octets.py --library PATH [--cases N] [--seed S]

A case is 64 octets, two areas, and some calls on them; or the 64 octets of a plain sender, one area and a packet; or both
states of a pair to be opened. The octets spell a state, in bounds or not, or none, with a width of 16 bits, of 32 or a wrong
one, and any limit. Of each call the answer, all 64 octets, the areas and what lies around them must be what the model answers
and leaves, whose numbers are packed and unpacked here. Prints one line, and exits 1 at the first difference, or if a run of
full size did not see every answer of every call, restarts with something held, registers of what is held that are wrong or
out of bounds, and plain PPP read, sent and out of bounds among them, at either width, and most of them with a limit of
16,384.
"""
import argparse
import collections
import ctypes
import random
import struct
import subprocess
import sys
import tempfile

from compare import (COBS, ESCAPE, ESCAPED, FLAG, LIMIT, LIMITS, MODE, OFF, PLAIN, REGISTER, REMEMBERED_GOOD, SHOW_STATES,
                     START, WIDTH, WIDTHS, Agreed, build_model, encoded, fcs, fill, halves, hand_plain_sender,
                     hand_receiver, hand_sender, lend, lend_out, line_length, load_high, load_low, marks, next_octets,
                     open_pair, open_receiver, open_sender, out_of_bounds_marks, plain_piece, receive, refused_marks,
                     register_over, send_plain, show, some_map, some_marks, some_register, within, wrong_limit,
                     wrong_register, wrong_width)

FULL = 25_000       # cases of a run of full size
BATCH = 500         # cases that the model is asked in one run
STATE = 64
LONGEST_AREA, LONGEST_LINE, LONGEST_OUT = 18500, 16500, 40960
OUT = 4             # the driver's area that a plain sender writes to
GUARD = 32          # octets behind each area, and on both sides of the state, that nobody may write
QUIET, PACKET, HELD, REFUSED, DONE, OCTET, IDLE, WRITTEN = range(8)
OF_FRAMES = (*range(5, 15), 18, 21)  # refusals that report a frame


# ------------------------------------------------------------------------------------------------
# The layout: numbers as the commands s and t have them, and octets
# ------------------------------------------------------------------------------------------------

class ReceiverOctets:
    """0 one, 1 width, 2-3 limit, 4 settings, 5 mode, 6-9 map, 10 work area, 11-12 decoded, 13-15 held, 16-19 register,
    20 data left, 21 zeros due, 22 last block, 23 in a frame, 24 resumed, 25 remembered refusal."""
    layout = struct.Struct("<BBHBBIBHBHIBBBBBB")
    bounded = {5: 3, 10: 1, 13: 1, 22: 2, 23: 1, 24: 1}  # places, and the largest value there that spells something
    largest = (255, 1, 65535, 65536, 255, 255, 2, 1, 1, 255, 255, *[65535] * 3, 3, 65535,
               65535)  # of each number, as far as its field goes

    @classmethod
    def pack(cls, numbers, rng=None):
        """The octets of a state; with rng, any held count where nothing is held, which is not looked at."""
        settings, work, decoded, held, left, zeros, last, in_frame, resumed, refusal, width, limit, *ends = numbers
        low, high, mode, map_low, map_high = ends
        count = 0 if rng is None else rng.choice((1, 2051, 2052, 2053, 2054, 65535))
        return cls.layout.pack(1, width, limit, settings, mode, map_low | map_high << 16, work, decoded, held > 0,
                               held - 1 if held else count, low | high << 16, left, zeros, last, in_frame, resumed, refusal)

    @classmethod
    def unpack(cls, octets):
        (_, width, limit, settings, mode, control, work, decoded, something, count, register, left, zeros, last, in_frame, resumed,
         refusal) = cls.layout.unpack(octets[:cls.layout.size])
        return [settings, work, decoded, count + 1 if something else 0, left, zeros, last, in_frame, resumed, refusal,
                width, limit, *halves(register), mode, *halves(control)]


class SenderOctets:
    """0 one, 1 width, 2-3 limit, 4 settings, 5 lane on the line, 6 suspended, 7 cut due, 8-9 low length, 10-11 low
    position, 12-13 high length, 14-15 high position, 16 data left, 17 zeros due, 18-37 the dispatcher's."""
    layout = struct.Struct("<BBHBBBBHHHHBB20s")
    bounded = {5: 2, 6: 1, 7: 1}
    largest = (255, 65535, 65535, 65535, 65535, 255, 255, 2, 1, 1, 255, 65535)

    @classmethod
    def pack(cls, numbers, rng=None):
        settings, low, low_at, high, high_at, left, zeros, lane, suspended, cut_due, width, limit = numbers
        dispatcher = bytes(20) if rng is None else rng.randbytes(20)
        return cls.layout.pack(1, width, limit, settings, lane, suspended, cut_due, low, low_at, high, high_at, left,
                               zeros, dispatcher)

    @classmethod
    def unpack(cls, octets):
        (_, width, limit, settings, lane, suspended, cut_due, low, low_at, high, high_at, left, zeros,
         _) = cls.layout.unpack(octets[:cls.layout.size])
        return [settings, low, low_at, high, high_at, left, zeros, lane, suspended, cut_due, width, limit]


class PlainOctets:
    """A plain sender: 0 one, 1 width, 2-3 limit, 4-35 the sending map, octet i / 8 of it with mark i at its bit i mod 8."""
    layout = struct.Struct("<BBH32s")
    bounded = {}

    @classmethod
    def pack(cls, agreed, sending):
        return cls.layout.pack(1, *agreed, sending)

    @classmethod
    def unpack(cls, octets):
        """Width and limit, and the octets that are marked."""
        _, width, limit, sending = cls.layout.unpack(octets[:cls.layout.size])
        return Agreed(width, limit), bytes(octet for octet in range(256) if sending[octet // 8] >> octet % 8 & 1)


def spells(kind, octets):
    """Whether octets spell a state, with any width and limit."""
    return octets[0] == 1 and all(octets[at] <= most for at, most in kind.bounded.items())


def agreed_in(octets):
    """The width and the limit of octets, also of such that spell no state."""
    return Agreed(*struct.unpack("<BH", octets[1:4]))


# ------------------------------------------------------------------------------------------------
# Random states, areas and lines
# ------------------------------------------------------------------------------------------------

CODES = bytes.fromhex("00 01 02 31 7E CF D0 D1 D2 D3 DF E0 FE FF")
FEW = bytes(b"\0\0\0\1\x7e\xff"[octet % 6] for octet in range(256))
EDGES = (0, 1, 2, 3, 4, 5, 6, 7, 10, 11, 206, 207, 208, 255, 256, 2048, 2050, 2051, 16384, 16385, 65535, 65536)


def some_agreed(rng):
    """A small limit most often; seldom 16,384, since its octets are many."""
    return Agreed(rng.choice(WIDTHS), rng.choice((2, 2, 3, 3, *[rng.randint(2, 20)] * 9, rng.randint(21, 300),
                                                  rng.randint(200, 210), *[2048] * 7, rng.randint(21, 16384), 16384, 16384)))


def made_good(rng, agreed):
    """A wrong width or limit replaced, to choose octets by."""
    return Agreed(agreed.width if agreed.width in WIDTHS else rng.choice(WIDTHS),
                  agreed.limit if agreed.limit in LIMITS else 20)


def sender_numbers(rng, agreed):
    """A sender in bounds."""
    lanes = []
    least, most = agreed.shortest, agreed.longest
    for _ in range(2):
        length = min(most, rng.choice((0, 0, least, least + 1, 33, 210, most, rng.randint(least, most))))
        lanes += length, rng.choice((0, 0, length, length + 1, rng.randint(0, length + 1)))
    lane = rng.choice([0] + [1] * 3 * (lanes[0] > 0) + [2] * 2 * (lanes[2] > 0))
    left = zeros = 0
    if lane:
        room = lanes[2 * lane - 2] + 1 - lanes[2 * lane - 1]
        left = min(room, rng.choice((0, 0, 1, 2, 206, 207, rng.randint(0, 207))))
        zeros = min(room - left, rng.randrange(3)) if left else 0
    suspended = int(lanes[0] > 0 and lane != 1 and rng.random() < 0.5)
    cut_due = int(lane == 1 and left == 0 and rng.random() < 0.3)
    return [rng.choice((3, 3, 3, 2, 1, 0, rng.randrange(256))), *lanes, left, zeros, lane, suspended, cut_due, *agreed]


def receiver_numbers(rng, agreed, mode):
    """A receiver in bounds, but for its register, mode and map."""
    settings, most = rng.choice((3, 3, 3, 3, 2, 1, 0, rng.randrange(256))), agreed.most
    work, held = rng.randrange(2), min(most + 1, rng.choice((0, 0, 1, 2, 9, most, most + 1, rng.randint(0, most + 1))))
    if rng.random() < 0.3 and mode != ESCAPED:
        return [settings, work, 0, held, 0, 0, 0, 0, 0, 0, *agreed]
    decoded = within(0, rng.choice((0, 0, 1, 4, 5, 6, 7, most - 11, *range(most - 3, most + 1), rng.randint(0, most))), most)
    left, zeros, last = rng.choice((0, 0, 0, 1, 2, 207, rng.randint(0, 207))), rng.randrange(3), rng.randrange(3)
    refusal = rng.choice((0, 0, 0, rng.choice([number for number in REMEMBERED_GOOD if number != 5 or mode == OFF])))
    held = 0 if refusal == 5 else held
    if mode in (PLAIN, ESCAPED):
        return [settings, work, decoded, held, 0, 0, 0, 1, rng.randrange(2), refusal, *agreed]
    resumed = 1 if refusal == 0 and last == 0 else rng.randrange(2)
    if refusal == 0 and last == 2 and left == 0:
        decoded = max(decoded, 1)
    return [settings, work, decoded, held, left, zeros, last, 1, resumed, refusal, *agreed]


def with_register(rng, numbers, areas, agreed):
    """A receiver with its register: mostly that of what it holds, as far as there is an area; seldom one out of bounds."""
    work, held = numbers[1], numbers[3]
    octets = areas[1 - work][:held - 1] if held else b""
    register, way = register_over(octets, agreed.width), rng.random()
    if way < 0.15:
        register = some_register(rng, agreed, held)
    elif way < 0.2 and not (held and agreed.width == 32):
        register = wrong_register(rng, agreed, held)
    return [*numbers, *halves(register)]


def with_reading(rng, numbers, mode):
    return [*numbers, mode, *halves(some_map(rng))]


def disturbed(rng, kind, numbers):
    """One number or two moved by one or put to an edge."""
    numbers, limit = list(numbers), numbers[LIMIT]
    for _ in range(rng.choice((1, 1, 2))):
        at = rng.randrange(1, len(numbers))
        edges = (*EDGES, *range(limit, limit + 8))
        numbers[at] = rng.choice((numbers[at] - 1, numbers[at] + 1, rng.choice(edges), rng.choice(edges)))
        numbers[at] = within(0, numbers[at], kind.largest[at])
    return numbers


def wrong_agreed(rng, agreed):
    """A wrong width, a limit out of range, or both; seldom the other width, or another limit."""
    width, limit = wrong_width(rng), wrong_limit(rng)
    return rng.choice(((width, agreed.limit), (width, agreed.limit), (agreed.width, limit), (agreed.width, limit),
                       (width, limit), (width, limit), (48 - agreed.width, agreed.limit), some_agreed(rng)))


def spoiled(rng, kind, octets):
    """Octets that spell no state."""
    way = rng.random()
    if way < 0.05:
        return bytes(STATE)
    if way < 0.1:
        return bytes((rng.choice((0, 2, 255)),)) + rng.randbytes(STATE - 1)
    octets = bytearray(octets)
    at = rng.choice((0, *kind.bounded))
    least = kind.bounded.get(at, 1) + 1
    octets[at] = rng.choice((least, 255, rng.randint(least, 255)))
    if at == 0 and rng.random() < 0.3:
        octets[0] = 0
    return bytes(octets)


def area_length(rng, least):
    return rng.choice((least,) * 12 + (least + 1, least + rng.randrange(40), least + rng.randrange(2000), least - 1,
                                       rng.choice((0, 1, least - 2, rng.randrange(least)))))


def content(rng, length):
    """Octets with more zeros, flags and runs than chance has."""
    way = rng.randrange(5)
    if way == 0:
        return rng.randbytes(length)
    if way == 1:
        return rng.randbytes(length).translate(FEW)
    if way == 2:
        return rng.randbytes(length).replace(b"\0", b"\x7e")
    if way == 3:
        return bytes(length)
    parts, have = [], 0
    while have < length:
        part = rng.randbytes(rng.choice((0, 1, 2, 29, 30, 31, 206, 207, 208))).replace(b"\0", b"\1")
        part += bytes(rng.choice((1, 2, 3, 15, 16)))
        parts.append(part)
        have += len(part)
    return b"".join(parts)[:length]


def frame(rng, agreed, lengths=None):
    """A packet with its FCS, seldom a packet of a wrong length, a wrong FCS or one of another width."""
    limit = agreed.limit
    lengths = [min(limit, length) for length in lengths or (2, 3, 9, 40, 300, limit - 1, limit)]
    packet = content(rng, rng.choice((*lengths, *lengths, 0, 1, limit + 1)))
    check = fcs(packet, agreed.width if rng.random() < 0.95 else rng.choice(WIDTHS))
    return packet + (check if rng.random() < 0.8 else check[::-1])


def line_piece(rng, agreed):
    way = rng.randrange(16)
    if way >= 12:
        return plain_piece(rng, agreed)
    if way < 3:
        return FLAG
    if way < 5:
        return encoded(frame(rng, agreed), runs=False) + FLAG
    if way == 5:
        rest = encoded(frame(rng, agreed, (2, 9)), runs=False)[rng.randrange(3):]
        return b"\xd1" + rng.choice((b"", rest, rng.randbytes(3))) + FLAG
    if way == 6:
        return bytes(rng.choices(CODES, k=rng.randint(1, 12)))
    if way == 7:
        return b"\xd0" + b"1" * rng.randint(205, 208) + rng.choice((b"", b"\1", FLAG))
    if way == 8:
        return encoded(bytes(max(0, agreed.most + rng.choice((-4, -3, -2, -1, 0, 1))))) + rng.choice(
            (b"", b"", b"\xe0", b"\2\x31", FLAG, FLAG))
    if way == 9:
        return b"\xff" + rng.randbytes(rng.randrange(4)) + FLAG
    return rng.randbytes(rng.choice((1, 2, 30, 300)))


# ------------------------------------------------------------------------------------------------
# The library
# ------------------------------------------------------------------------------------------------

class Stretch(ctypes.Structure):
    _fields_ = [("answer", ctypes.c_uint32), ("octets", ctypes.c_size_t)]


def load_library(path):
    library = ctypes.CDLL(path)
    octets, length, octet, number = ctypes.c_void_p, ctypes.c_size_t, ctypes.c_uint8, ctypes.c_uint32
    limit = ctypes.c_uint16
    for name, result, *arguments in (
            ("receiver_open", number, octets, octet, octet, limit, octet, number),
            ("sender_open", number, octets, octet, octet, limit),
            ("pair_open", number, octets, octets, octet, octet, limit, number, octets),
            ("plain_send", number, octets, octets, length, octets, length),
            ("receive", number, octets, octet, octets, length, octets, length),
            ("read_on", Stretch, octets, octets, length, octets, length, octets, length),
            ("load_low", number, octets, octets, length, octets, length),
            ("load_high", number, octets, octets, length, octets, length),
            ("next", number, octets, octets, length, octets, length),
            ("write_on", Stretch, octets, octets, length, octets, length, octets, length)):
        call = getattr(library, "kuta_" + name)
        call.restype, call.argtypes = result, arguments
    return library


class Memory:
    """Octets that the library is lent, with others behind them (and before them, for a state)."""

    def __init__(self, longest):
        self.buffer = (ctypes.c_uint8 * (longest + 2 * GUARD))()

    def put(self, rng, octets, before=0):
        """Puts octets here, `before` of them being not lent but in front of what is, and a guard behind."""
        self.whole = octets + rng.randbytes(GUARD)
        ctypes.memmove(self.buffer, self.whole, len(self.whole))
        self.before, self.length = before, len(octets) - before
        self.lent = ctypes.addressof(self.buffer) + before if self.length or rng.random() < 0.5 else None

    def octets(self):
        return ctypes.string_at(self.buffer, len(self.whole))


# name and operand; answer, and octets used; the 64 octets handed in, and how many of the guard are before them; then
# memory before and after: the state's, the areas', the line's; the lengths of the areas
Call = collections.namedtuple("Call", "name operand answer count spelt at state areas line lengths")


# A call on a plain sender, or on a pair: name and operand, answer; of each state its memory before and after, and how many of
# the guard are before it; the area's memory before and after
PlainCall = collections.namedtuple("PlainCall", "name operand answer states area")


class Bench:
    """A case's memory, the library's calls on it, and the script and expectations that come of them."""

    def __init__(self, library, rng):
        self.library, self.rng = library, rng
        self.state, self.line = Memory(STATE + 8), Memory(LONGEST_LINE)
        self.areas = Memory(LONGEST_AREA), Memory(LONGEST_AREA)
        self.plain, self.out = Memory(STATE + 8), Memory(LONGEST_OUT)

    def case(self):
        """Makes a case: yields its calls, each with the commands for the model (none where it is not asked)."""
        way = self.rng.random()
        if way < 0.06:
            yield self.pair_open()
        elif way < 0.2:
            yield self.plain_send()
        else:
            yield from self.end_case()

    def end_case(self):
        """A case of a receiver, or of a sender."""
        rng = self.rng
        self.receiving = rng.random() < 0.55
        self.kind = ReceiverOctets if self.receiving else SenderOctets
        agreed, wrong = some_agreed(rng), rng.random() < 0.2
        base = 2 if self.receiving else 0
        least = agreed.areas[base]
        lengths = [rng.choice((0, 1, least - 1, least, least)) if wrong else area_length(rng, least) for _ in range(2)]
        areas = [content(rng, length) for length in lengths]
        numbers, first = self.receiver(areas, agreed) if self.receiving else (sender_numbers(rng, agreed), None)
        if rng.random() < 0.25:
            numbers = disturbed(rng, self.kind, numbers)
        if wrong:
            numbers[WIDTH:LIMIT + 1] = wrong_agreed(rng, agreed)
        octets = self.kind.pack(numbers, rng if rng.random() < 0.6 else None)
        octets += rng.randbytes(STATE - len(octets))
        if rng.random() < (0.3 if wrong else 0.13):
            octets = spoiled(rng, self.kind, octets)
        shift = GUARD + rng.randrange(8)
        self.state.put(rng, rng.randbytes(shift) + octets, shift)
        for memory, area in zip(self.areas, areas):
            memory.put(rng, area)
        lengths = [*START.areas]
        lengths[base:base + 2] = map(len, areas)
        commands = lend(lengths) + fill(base, 0, areas[0]) + fill(base + 1, 0, areas[1])
        for _ in range(rng.choice((1, 1, 1, 2, 4))):
            made, asked = self.call(first)
            yield made, commands + asked if asked else b""
            if asked:
                commands = b""
            first = None

    def receiver(self, areas, agreed):
        """A receiver's numbers, and octets that are to come first, or None."""
        rng, first = self.rng, None
        mode = rng.choice((OFF, OFF, COBS, COBS, PLAIN, PLAIN, ESCAPED))
        if rng.random() < 0.4:
            numbers = receiver_numbers(rng, agreed, mode)
        elif mode in (OFF, COBS):
            make = rng.choice((*[self.frame_decoded] * 5, *[self.frame_held] * 3, *[self.remembering] * 2,
                               *[self.restarting] * 4, *[self.changing] * 3))
            numbers, first = make(areas, agreed)
        else:
            make = rng.choice((*[self.plain_decoded] * 4, *[self.plain_full] * 2, self.plain_wrong, self.plain_going_on))
            numbers, first = make(areas, agreed, mode)
        if len(numbers) == REGISTER:
            numbers = with_register(rng, numbers, areas, agreed)
        return with_reading(rng, numbers, mode), first

    def frame_decoded(self, areas, agreed):
        """A whole frame in the work area, its flag to come."""
        rng, work = self.rng, self.rng.randrange(2)
        octets = frame(rng, agreed) + b"\0"
        areas[work] = octets + areas[work][len(octets):] if len(areas[work]) >= len(octets) else areas[work]
        numbers = [rng.choice((3, 2, 1, 0)), work, len(octets), rng.choice((0, 1, 5, agreed.most + 1)), 0, 0, 2, 1,
                   rng.randrange(2), 0, *agreed]
        return numbers, FLAG

    def plain_decoded(self, areas, agreed, _mode):
        """The same in plain reading, without the zero at its end."""
        numbers, first = self.frame_decoded(areas, agreed)
        numbers[2], numbers[6] = numbers[2] - self.rng.choice((1, 1, 1, 0)), 0
        return numbers, first

    def plain_full(self, _areas, agreed, _mode):
        """As many octets of a plain frame as there may be, or one more or less; another, an escape or the flag to come."""
        rng = self.rng
        numbers = [rng.choice((3, 2, 1, 0)), rng.randrange(2), agreed.longest + rng.choice((-1, 0, 0, 1)), rng.choice((0, 0, 1, 3)),
                   0, 0, 0,
                   1, rng.randrange(2), 0, *agreed]
        return numbers, rng.choice((FLAG, b"A", ESCAPE, b"AA" + FLAG, ESCAPE + b"A" + FLAG, ESCAPE + FLAG))

    def plain_wrong(self, _areas, agreed, mode):
        """Plain reading out of bounds by one thing: data left, zeros due, a last block; 5 remembered; an escape out of a frame."""
        rng = self.rng
        numbers = receiver_numbers(rng, agreed, mode)
        kind = rng.randrange(5)
        if kind < 3:
            numbers[7], numbers[4 + kind] = 1, rng.choice((1, 2))
        elif kind == 3:
            numbers[3], numbers[7], numbers[9] = 0, 1, 5
        else:
            numbers[2], numbers[7:10] = 0, (0, 0, 0)
        return numbers, rng.choice((FLAG, b"\xff", ESCAPE, b"A"))

    def plain_going_on(self, _areas, agreed, mode):
        """Octets of plain PPP to come."""
        return receiver_numbers(self.rng, agreed, mode), plain_piece(self.rng, agreed) or FLAG

    def frame_held(self, areas, agreed):
        """The beginning of a frame in the area that holds, its rest to come."""
        rng, work = self.rng, self.rng.randrange(2)
        octets = frame(rng, agreed, (2, 9, 100))
        cut = rng.randint(0, len(octets))
        areas[1 - work] = octets[:cut] + areas[1 - work][cut:] if len(areas[1 - work]) >= cut else areas[1 - work]
        numbers = [rng.choice((3, 2, 3, 2, 1)), work, 0, cut + 1, 0, 0, 0, 0, 0, 0, *agreed]
        return numbers, b"\xd1" + encoded(octets[cut:], runs=False) + FLAG

    def remembering(self, _areas, agreed):
        """5 or 21 remembered, something held or nothing."""
        rng, most = self.rng, agreed.most
        numbers = [rng.choice((3, 2, 1, 0)), rng.randrange(2), rng.choice((0, 0, most, rng.randint(0, most))),
                   rng.choice((0, 1, 2, most + 1)), rng.choice((0, 0, 207)), rng.randrange(3), rng.randrange(3), 1,
                   rng.randrange(2), rng.choice((5, 21)), *agreed]
        return numbers, rng.choice((FLAG, FLAG, b"\xff", b"\xd1", b"1"))

    def restarting(self, _areas, agreed):
        """Something held, seldom nothing, and FF to come."""
        rng = self.rng
        numbers = [rng.choice((3, 3, 2, 1, 0)), rng.randrange(2), 0, rng.choice((0, 1, 2, agreed.most + 1)), *[0] * 6, *agreed]
        return numbers, b"\xff" + rng.choice((*[b""] * 4, FLAG, b"\x03\xc0\x21" + FLAG, rng.randbytes(3)))

    def changing(self, areas, agreed):
        """Something held, and an octet of it changed, or the one behind it; D1 to come."""
        rng, work, most = self.rng, self.rng.randrange(2), agreed.most
        count = min(most, rng.choice((1, 2, 9, most, rng.randint(1, most))))
        octets = bytearray(areas[1 - work])
        register = register_over(octets[:count], agreed.width)
        at = rng.choice((0, count - 1, rng.randrange(count), count))
        if at < len(octets):
            octets[at] ^= rng.randint(1, 255)
            areas[1 - work] = bytes(octets)
        numbers = [rng.choice((3, 3, 2, 2, 1)), work, 0, count + 1, *[0] * 6, *agreed, *halves(register)]
        return numbers, b"\xd1" + rng.choice((*[b""] * 4, FLAG, b"\x03\x37\x38" + FLAG, b"\xff\xd1" + FLAG, rng.randbytes(3)))

    def call(self, octets):
        """Makes a call, with these octets if there are any."""
        rng = self.rng
        if octets is None and rng.random() < 0.02:
            return self.open()
        if self.receiving:
            if octets is None or len(octets) > 1 and rng.random() < 0.2:
                if rng.random() < 0.5:
                    return self.receive()
                agreed = made_good(rng, agreed_in(self.spelt()))
                return self.read_on(b"".join(line_piece(rng, agreed) for _ in range(rng.choice((0, 1, 1, 2, 4))))[:60000])
            return self.receive(octets) if len(octets) == 1 and rng.random() < 0.7 else self.read_on(octets)
        return rng.choice((self.load, self.next, self.write_on))()

    def lent(self):
        return [lent for area in self.areas for lent in (area.lent, area.length)]

    def spelt(self):
        """The 64 octets, as they are handed in."""
        return self.state.whole[self.state.before:self.state.before + STATE]

    def made(self, name, operand, answer, count, line=b""):
        """The call as it was made; then memory is taken as it is now."""
        done = Call(name, operand, answer, count, self.spelt(), self.state.before,
                    (self.state.whole, self.state.octets()), [(area.whole, area.octets()) for area in self.areas], line,
                    [area.length for area in self.areas])
        for memory in (self.state, *self.areas):
            memory.whole = memory.octets()
        return done

    def handed(self, spelt):
        """The command that hands this state to the model; nothing where there is no state."""
        if not spells(self.kind, spelt):
            return b""
        numbers = self.kind.unpack(spelt)
        if self.receiving:
            numbers[3] = min(numbers[3], 65535)  # a held count of 65,535 cannot be handed in: 65,534 is as wrong
        return (hand_receiver if self.receiving else hand_sender)(numbers)

    def asked(self, made, commands, areas=()):
        handed = self.handed(made.spelt)
        return handed and handed + commands + SHOW_STATES + b"".join(
            show(2 * self.receiving + area, 0, self.areas[area].length) for area in areas)

    def open(self):
        rng, agreed = self.rng, some_agreed(self.rng)
        settings, agreed = rng.randrange(256), rng.choice((agreed, wrong_agreed(rng, agreed)))
        name, command = ("receiver_open", open_receiver) if self.receiving else ("sender_open", open_sender)
        given = settings, *agreed, *((rng.choice((0, 0, 1, 1, 2, 255)), some_map(rng)) if self.receiving else ())
        answer = getattr(self.library, "kuta_" + name)(self.state.lent, *given)
        made = self.made(name, given, answer, 0)
        return made, command(*given) + SHOW_STATES

    def put_state(self, memory, octets):
        """Puts a state's octets into memory, others behind them up to 64, and others around."""
        shift = GUARD + self.rng.randrange(8)
        memory.put(self.rng, self.rng.randbytes(shift) + octets + self.rng.randbytes(STATE - len(octets)), shift)

    def pair_open(self):
        """Both states' octets are whatever they are."""
        rng, agreed, control = self.rng, some_agreed(self.rng), some_map(self.rng)
        agreed = Agreed(*rng.choice((agreed, agreed, wrong_agreed(rng, agreed))))
        sending = marks(rng.choice((some_marks(rng, control), refused_marks(rng, control)[0])))
        self.put_state(self.plain, rng.randbytes(STATE))
        self.put_state(self.state, rng.randbytes(STATE))
        settings = rng.randrange(256)
        answer = self.library.kuta_pair_open(self.plain.lent, self.state.lent, settings, *agreed, control, sending)
        states = [(memory.whole, memory.octets(), memory.before) for memory in (self.plain, self.state)]
        made = PlainCall("pair_open", (settings, *agreed, control, sending), answer, states, (b"", b""))
        return made, open_pair(settings, *agreed, control, sending) + SHOW_STATES

    def plain_send(self):
        """A plain sender in bounds, with marks out of bounds, a wrong width or limit, or no state; and an area that is exactly long
        enough, one octet too short, or any."""
        rng, agreed = self.rng, some_agreed(self.rng)
        marked = rng.choice((some_marks(rng, 0) + b"\x7d\x7e", some_marks(rng, 0) + b"\x7d\x7e", out_of_bounds_marks(rng)[0]))
        octets = PlainOctets.pack(rng.choice((agreed, agreed, agreed, wrong_agreed(rng, agreed))), marks(marked))
        if rng.random() < 0.2:
            octets = bytes((rng.choice((0, 2, 255, rng.randrange(2, 256))),)) + octets[1:]
        self.put_state(self.plain, octets)
        limit = agreed.limit
        packet = content(rng, rng.choice((0, 1, 2, 2, 3, min(limit, 40), limit - 1, limit, limit, limit + 1)))
        count = line_length(packet, agreed, {*marked})
        length = min(LONGEST_OUT, rng.choice((count, count, count, count - 1, count + rng.randrange(40), 0, 1, 2,
                                              rng.randrange(count + 1))))
        self.out.put(rng, rng.randbytes(length))
        answer = self.library.kuta_plain_send(self.plain.lent, packet or rng.choice((None, packet)), len(packet), self.out.lent,
                                              length)
        made = PlainCall("plain_send", packet, answer, [(self.plain.whole, self.plain.octets(), self.plain.before)],
                         (self.out.whole, self.out.octets()))
        agreed, marked = PlainOctets.unpack(octets)
        return made, (lend_out(length) + fill(OUT, 0, self.out.whole[:length]) + hand_plain_sender(*agreed, marks(marked))
                      + send_plain(packet) + show(OUT, 0, length))

    def receive(self, octets=None):
        rng = self.rng
        octets = octets or rng.choice((FLAG, FLAG, rng.randbytes(1), bytes(rng.choices(CODES))))
        made = self.made("receive", octets, self.library.kuta_receive(self.state.lent, octets[0], *self.lent()), 1)
        return made, self.asked(made, SHOW_STATES + receive(octets), (0, 1))

    def read_on(self, octets):
        given = octets or self.rng.choice((None, octets))
        got = self.library.kuta_read_on(self.state.lent, given, len(octets), *self.lent())
        made = self.made("read_on", octets, got.answer, got.octets)
        used = octets[:got.octets]
        return made, self.asked(made, receive(used[:-1]) + SHOW_STATES + receive(used[-1:]), (0, 1)) if used else b""

    def load(self):
        rng, lane = self.rng, self.rng.randrange(2)
        limit = made_good(rng, agreed_in(self.spelt())).limit
        packet = content(rng, rng.choice((0, 1, 2, 3, 30, 207, limit - 1, limit, limit, limit + 1, rng.randint(2, limit))))
        area, name = self.areas[lane], ("load_low", "load_high")[lane]
        load, given = getattr(self.library, "kuta_" + name), packet or rng.choice((None, packet))
        answer = load(self.state.lent, given, len(packet), area.lent, area.length)
        made = self.made(name, packet, answer, 0)
        return made, self.asked(made, (load_low, load_high)[lane](packet), (0, 1))

    def next(self):
        made = self.made("next", None, self.library.kuta_next(self.state.lent, *self.lent()), 1)
        return made, self.asked(made, next_octets(1))

    def write_on(self):
        rng = self.rng
        longest = made_good(rng, agreed_in(self.spelt())).longest
        room = rng.choice((0, 1, 2, 3, 40, 300, longest + 2, longest + longest // 207 + 9, longest + longest // 207 + 9))
        self.line.put(rng, rng.randbytes(room))
        got = self.library.kuta_write_on(self.state.lent, *self.lent(), self.line.lent, room)
        made = self.made("write_on", room, got.answer, got.octets, (self.line.whole, self.line.octets()))
        return made, self.asked(made, next_octets(max(1, min(got.octets, room)))) if room else b""


# ------------------------------------------------------------------------------------------------
# Comparing
# ------------------------------------------------------------------------------------------------

class Different(Exception):
    pass


def must(holds, what, got, want):
    if not holds:
        raise Different(f"{what}: library {got}, wanted {want}")


def same(what, got, want):
    """For octets: tells where they differ first."""
    if got != want:
        at = next((at for at, pair in enumerate(zip(got, want)) if pair[0] != pair[1]), min(len(got), len(want)))
        raise Different(f"{what}, at {at}: library {got[at:at + 64].hex(' ')}, wanted {want[at:at + 64].hex(' ')}")


def answer_of(said):
    """The number that the library answers for a line of the model; 0 for no line."""
    if not said:
        return QUIET
    letter, *rest = said.split(None, 3)
    if letter == "O":
        return OCTET << 24 | int(rest[0], 16)
    numbers = [int(number) for number in rest[:2]]
    return {"D": lambda: DONE << 24, "I": lambda: IDLE << 24, "R": lambda: REFUSED << 24 | numbers[0],
            "P": lambda: PACKET << 24 | numbers[0] << 16 | numbers[1],
            "H": lambda: HELD << 24 | numbers[1] << 16 | numbers[0]}[letter]()


def rest_in_bounds(numbers, most):
    """Whether a receiver is in bounds, left aside its register, that 5 is remembered with nothing held and plain reading off
    alone, that there is no block in plain reading, and no escape open out of a frame."""
    _, _, decoded, held, left, zeros, last, in_frame, resumed, refusal, *_ = numbers
    if max(decoded, held - 1) > most or left > 207 or zeros > 2:
        return False
    if not in_frame:
        return not (decoded or left or zeros or last or resumed or refusal)
    if refusal:
        return refusal in REMEMBERED_GOOD
    return numbers[MODE] in (PLAIN, ESCAPED) or bool(resumed if last == 0 else last == 1 or left or decoded)


def why_out_of_bounds(numbers, agreed):
    """What alone makes a receiver be out of bounds; nothing where it is more than one thing, or another one."""
    held, mode, refusal = numbers[3], numbers[MODE], numbers[9]
    register, plain = numbers[REGISTER] | numbers[REGISTER + 1] << 16, mode in (PLAIN, ESCAPED)
    reasons = ["-5-held"] * (refusal == 5 and held > 0) + ["-5-on"] * (refusal == 5 and mode != OFF)
    reasons += ["-register"] * (register > agreed.start if held else register != agreed.start)
    reasons += ["-block"] * (plain and any(numbers[4:7])) + ["-escape"] * (mode == ESCAPED and not numbers[7])
    return reasons[0] if len(reasons) == 1 and rest_in_bounds(numbers, agreed.most) else ""


def of_held(call):
    """How an answer is called beside its usual name: where a receiver is out of bounds by one thing alone; where it lets go what
    it holds, by FF or by a D1 that is refused 21; where an FF makes it read plain; and where it reads plain."""
    agreed = agreed_of(call)
    if place_of(call) == 0 or not agreed.good or not spells(ReceiverOctets, call.spelt):
        return ""
    numbers = ReceiverOctets.unpack(call.spelt)
    (bits, work, _, held, *_), in_frame, mode = numbers, numbers[7], numbers[MODE]
    if call.answer == REFUSED << 24 | 3:
        return why_out_of_bounds(numbers, agreed)
    if mode in (PLAIN, ESCAPED):
        return "-plain" * (call.answer >> 24 == PACKET or call.answer in [REFUSED << 24 | number for number in (10, 13, 14)])
    if in_frame or call.answer == REFUSED << 24 | 2:
        return ""
    if call.operand[:1] == b"\xff" and mode == COBS:
        return ("-restart-held" if held else "-restart") * (call.answer == QUIET)
    if not held:
        return ""
    if call.operand[:1] == b"\xff":
        return "-let-go" * (call.answer in (QUIET, REFUSED << 24 | 5))
    if call.operand[:1] == b"\xd1" and bits & 2 and call.answer in (QUIET, REFUSED << 24 | 21):
        register = numbers[REGISTER] | numbers[REGISTER + 1] << 16
        return "-changed" * (register_over(call.areas[1 - work][0][:held - 1], agreed.width) != register)
    return ""


def label(call, no_state):
    """What an answer is called in the line that is printed."""
    kind, mark, value = call.answer >> 24, call.answer >> 16 & 1, call.answer & 0xFFFF
    if held := of_held(call):
        return (f"R{value}" if kind == REFUSED else f"P{mark}" if kind == PACKET else "quiet") + held
    if kind == REFUSED:
        return f"R{value}" + "-short" * too_short(call) + "-no-state" * no_state
    if call.name == "write_on" and kind == OCTET:
        return "flag" if value == FLAG[0] else "room"
    if call.name in ("read_on", "write_on") and kind == QUIET and call.count == 0:
        return "nothing"
    return ("quiet", "P", "H", "", "done", "octet", "idle")[kind] + (str(mark) if kind in (PACKET, HELD) else "")


def agreed_of(call):
    """The width and the limit that a call is handed, by the 64 octets or to open with."""
    return Agreed(*call.operand[1:3]) if call.name.endswith("open") else agreed_in(call.spelt)


def words(agreed):
    if agreed.good:
        return f"{agreed.width} bits"
    wrong = [what for what, good in (("width", agreed.width in WIDTHS), ("limit", agreed.limit in LIMITS)) if not good]
    return f"wrong {' and '.join(wrong)}"


def too_short(call):
    """Whether a wrong width or limit comes with an area that is too short for whatever good one stood in its place."""
    agreed = agreed_of(call)
    if agreed.good or call.name.endswith("open"):
        return False
    return shortest(call) < Agreed(16, agreed.limit if agreed.limit in LIMITS else 2).areas[place_of(call)]


def place_of(call):
    """The place of a call's areas among the four of the driver."""
    return 2 if call.name in ("receive", "read_on") else 0


def shortest(call):
    """The shortest of the areas that a call is lent."""
    return min({"load_low": call.lengths[:1], "load_high": call.lengths[1:]}.get(call.name, call.lengths))


REPORTS = ["quiet", "quiet-let-go", "quiet-changed", "quiet-restart", "quiet-restart-held", "P0", "P1", "P0-plain", "P1-plain",
           "H0",
           "H1", "R2", "R2-no-state", "R3", "R3-no-state", "R3-5-held", "R3-5-on", "R3-register", "R3-block", "R3-escape",
           *(f"R{n}" for n in OF_FRAMES), "R10-plain", "R13-plain", "R14-plain"]
LOADS = ["done", "R1", "R2", "R2-no-state", "R3", "R3-no-state", "R4"]
ENDS = ["idle", "R2", "R2-no-state", "R3", "R3-no-state"]
ANSWERS = {"receive": REPORTS, "read_on": ["nothing", *REPORTS, "R5-let-go", "R21-changed"], "load_low": LOADS,
           "load_high": LOADS, "next": ["octet", *ENDS], "write_on": ["nothing", "flag", "room", *ENDS]}
# At each width; any other width, and a limit out of range, is refused 3, also where an area is too short for any.
WANTED = {(name, f"{width} bits"): answers for name, answers in ANSWERS.items() for width in WIDTHS}
WANTED |= {(name, wrong): ["R3", "R3-no-state", "R3-short", "R3-short-no-state"] + ["nothing"] * ("nothing" in answers)
           for name, answers in ANSWERS.items() for wrong in ("wrong width", "wrong limit", "wrong width and limit")}
OPENED = (("16 bits", "done"), ("32 bits", "done"), ("wrong width", "R3"), ("wrong limit", "R23"), ("wrong width and limit", "R23"))
WANTED |= {(f"{end}_open", about): [answer] for end in ("receiver", "sender") for about, answer in OPENED}
WANTED |= {("pair_open", about): ["done", "R19"] if answer == "done" else [answer] for about, answer in OPENED}
# A plain sender that is no state, and one with marks out of bounds: 3, behind 2.
WANTED |= {("plain_send", about): ["written", "R1", "R2", "R2-no-state", "R3", "R3-no-state"] if answer == "done" else
           ["R3", "R3-no-state", "R3-short"] for about, answer in OPENED}
# Of these at least some must be with a limit of 16,384.
LONGEST = {"receive": ["quiet", "quiet-let-go", "quiet-changed", "quiet-restart-held", "P0", "P1", "P0-plain", "H0", "R2", "R3",
                       "R3-5-held", "R3-register", "R3-block", "R14", "R18"],
           "read_on": ["quiet", "P0", "P1", "R2", "R3", "R3-register", "R5-let-go", "R10", "R10-plain", "R21-changed"],
           "pair_open": ["done", "R19"], "plain_send": ["written", "R1", "R2", "R3"],
           "load_low": ["done", "R1", "R2", "R3", "R4"], "load_high": ["done", "R1", "R2", "R3", "R4"],
           "next": ["octet", "idle", "R2", "R3"], "write_on": ["flag", "room", "idle", "R2", "R3"]}


def unasked(call):
    """The answer where the model is not asked: there is no state, or nothing to do."""
    if call.name == "read_on" and not call.operand or call.name == "write_on" and not call.operand:
        return QUIET, 0
    agreed = agreed_of(call)
    least = agreed.areas[place_of(call)] if agreed.good else 0
    return REFUSED << 24 | (2 if shortest(call) < least else 3), int(call.name in ("receive", "read_on", "next"))


def told(call, lines):
    """What the model told of a call: its last line, and the state's numbers."""
    said = []

    def until_states():
        for line in lines:
            if line[0] == "S":
                return line.split()[1:], next(lines).split()[1:]
            said.append(line)
        raise Different("the model said no more")

    states = until_states()
    if call.name in ("receive", "read_on"):
        must(not said, "reported sooner", call.count, said)
        states = until_states()
    if call.name == "write_on":
        must(call.count <= call.operand, "octets written", call.count, call.operand)
        must(len(said) == max(1, call.count), "lines of the model", call.count, len(said))
        sent = bytes(int(line[2:], 16) for line in said if line[0] == "O")
        same("line", call.line[1][:call.count], sent)
        must(FLAG not in sent[:-1], "octets written", call.count, "no further than a flag")
        must(call.count in (0, call.operand) or sent[-1:] == FLAG, "octets written", call.count, "up to a flag")
    else:
        must(len(said) <= 1, "reports", 1, len(said))
    return (said or [""])[-1], [int(number) for number in states[call.name in ("receive", "read_on", "receiver_open")]]


def refusal_in(answer):
    return answer & 0xFFFF if answer >> 24 == REFUSED else None


def pair_opened(call, lines):
    """The answer that a pair's opening is to have, both states' octets behind it, and what it is called."""
    _, width, limit, _, sending = call.operand
    said = []
    for line in lines:
        if line[0] == "S":
            break
        said.append(line)
    numbers = [int(number) for number in next(lines).split()[1:]]
    answer = answer_of(said[0] if said else "D")
    octets = [b"", b""]
    if answer == DONE << 24:
        marked = int.from_bytes(sending, "little") | 1 << 0x7D | 1 << 0x7E
        octets = [PlainOctets.pack((width, limit), marked.to_bytes(32, "little")), ReceiverOctets.pack(numbers)]
    number = refusal_in(answer)
    return answer, octets, b"", Agreed(width, limit), f"R{number}" if number else "done"


def plain_sent(call, lines):
    """The same of a plain sender's call, and the area: where the octets are no state, it is 3 behind 2."""
    (before, _, at), = call.states
    agreed, no_state = agreed_in(before[at:at + STATE]), before[at] != 1
    said, area = next(lines), bytes.fromhex(next(lines)[1:])
    answer = WRITTEN << 24 | int(said.split()[1]) if said[0] == "W" else answer_of(said)
    if no_state and refusal_in(answer) != 2:
        answer, area = REFUSED << 24 | 3, call.area[0][:len(area)]
    number = refusal_in(answer)
    name = f"R{number}" + "-no-state" * no_state if number else "written"
    return answer, [b""], area, agreed, "R3-short" if not agreed.good and len(area) < 3 else name


def check_plain(call, lines, seen, longest):
    """Holds a call on a plain sender or a pair against the model."""
    answer, octets, area, agreed, name = (pair_opened if call.name == "pair_open" else plain_sent)(call, lines)
    must(call.answer == answer, "answer", f"{call.answer:08X}", f"{answer:08X}")
    for (before, after, at), new in zip(call.states, octets):
        same("state and the octets around it", after, before[:at] + new + before[at + len(new):])
    same("area", call.area[1], area + call.area[0][len(area):])
    seen[call.name, words(agreed), name] += 1
    if agreed.good and agreed.limit == 16384:
        longest[call.name, name] += 1


def check(call, asked, lines, seen, longest):
    """Holds one call against the model, or against the rule where the model is not asked."""
    if isinstance(call, PlainCall):
        return check_plain(call, lines, seen, longest)
    kind = ReceiverOctets if call.name in ("receive", "read_on", "receiver_open") else SenderOctets
    (before, after), areas = call.state, [area for area, _ in call.areas]
    wanted = before
    if asked:
        said, numbers = told(call, lines)
        answer, count = answer_of("D" if call.name.endswith("open") and not said else said), call.count
        if call.name == "read_on":
            must(count <= len(call.operand), "octets read", count, len(call.operand))
            must(answer != QUIET or count == len(call.operand), "octets read", count, len(call.operand))
        changed = answer != IDLE << 24 and (answer >> 24 != REFUSED or answer & 0xFFFF in OF_FRAMES)
        if changed:
            octets = kind.pack(numbers)
            wanted = before[:call.at] + octets + before[call.at + len(octets):]
        if call.name in ("receive", "read_on", "load_low", "load_high"):
            areas = [bytes.fromhex(next(lines)[1:]) + whole[length:] for whole, length in zip(areas, call.lengths)]
        if said[:1] == "P":
            _, area, length, octets = said.split(None, 3)
            same("packet", areas[int(area)][:int(length)], bytes.fromhex(octets))
    else:
        answer, count = unasked(call)
    must(call.answer == answer, "answer", f"{call.answer:08X}", f"{answer:08X}")
    must(call.count == count, "octets used", call.count, count)
    same("state", after[call.at:call.at + STATE], wanted[call.at:call.at + STATE])
    same("octets around the state", after, wanted)
    for name, (_, got), want in zip(("first or low", "second or high"), call.areas, areas):
        same(f"area {name}", got, want)
    if call.line:
        whole, got = call.line
        same("line behind what was written", got[count:], whole[count:])
    agreed, answered = agreed_of(call), label(call, not asked)
    seen[call.name, words(agreed), answered] += 1
    if agreed.good and agreed.limit == 16384:
        longest[call.name, answered] += 1


def described(call):
    """A call for somebody who looks for a difference."""
    operand = call.operand.hex(" ") if isinstance(call.operand, bytes) else call.operand
    if isinstance(call, PlainCall):
        states = "".join(f"\n  state handed in: {before[at:at + STATE].hex(' ')}" for before, _, at in call.states)
        length = max(0, len(call.area[0]) - GUARD)
        return f"kuta_{call.name}, operand {operand}, area of {length} octets{states}\n  answer {call.answer:08X}"
    areas = "\n         ".join(f"{whole[:min(length, 64)].hex(' ')}{' ..' * (length > 64)}"
                               for (whole, _), length in zip(call.areas, call.lengths))
    return (f"kuta_{call.name}, operand {operand}, areas of {call.lengths} octets\n  state handed in: {call.spelt.hex(' ')}\n"
            f"  areas: {areas}\n  answer {call.answer:08X}, octets {call.count}")


def compare(model, bench, cases, seen, longest):
    """A batch of cases; the library's calls first, then the model's."""
    calls = [(number, *call) for number in cases for call in bench.case()]
    out = subprocess.run([model, "exercise"], input=b"".join(asked for _, _, asked in calls), stdout=subprocess.PIPE,
                         check=True).stdout
    lines = iter(out.decode().splitlines())
    for number, call, asked in calls:
        try:
            check(call, asked, lines, seen, longest)
        except Different as why:
            print(f"DIFFERENT: case {number}, {described(call)}\n  {why}")
            sys.exit(1)
    if next(lines, None) is not None:
        sys.exit("the model said more than was asked")


def main():
    parser = argparse.ArgumentParser(description="holds the calls and states of libkutarehopa against the model")
    parser.add_argument("--library", required=True, metavar="PATH")
    parser.add_argument("--cases", type=int, default=FULL)
    parser.add_argument("--seed", type=int, default=1)
    asked = parser.parse_args()
    bench = Bench(load_library(asked.library), random.Random(asked.seed))
    seen, longest = collections.Counter(), collections.Counter()
    with tempfile.TemporaryDirectory() as folder:
        model = build_model(folder)
        for begin in range(0, asked.cases, BATCH):
            compare(model, bench, range(begin, min(begin + BATCH, asked.cases)), seen, longest)
    wanted = [(*about, answer) for about, answers in WANTED.items() for answer in answers]
    missing = [" ".join(key) for key in wanted if not seen[key]]
    missing += [f"{name} with 16,384 {answer}" for name, answers in LONGEST.items() for answer in answers
                if not longest[name, answer]]
    print(f"cases {asked.cases}, calls {sum(seen.values())}, 0 differ; " + "; ".join(
        f"{', '.join(about)}: " + ", ".join(f"{answer} {seen[(*about, answer)]}" for answer in answers)
        for about, answers in WANTED.items()) + "; with 16,384: " + "; ".join(
        f"{name}: " + ", ".join(f"{answer} {longest[name, answer]}" for answer in answers) for name, answers in LONGEST.items()))
    strange = sorted(set(seen) - set(wanted))
    if strange or missing and asked.cases >= FULL:
        sys.exit(f"not seen: {', '.join(missing) or 'none'}; not known: {strange or 'none'}")


if __name__ == "__main__":
    main()

#!/usr/bin/env python3
r"""Captures of PPP over COBS with preemption, and of plain PPP, read and written by Kutarehopa's proved C library.

A capture is any octets: bytes, a path, or a file. Each frame that a flag closes gives one report.

    >>> import kutarehopa as kuta
    >>> capture = kuta.line([b"123456789", b"\0\0"]) + b"\x05\x31\x7e"
    >>> for report in kuta.reports(capture):
    ...     print(report.place, report)
    12 P 9 31 32 33 34 35 36 37 38 39
    17 P 2 00 00
    20 H 1 0
    >>> [report.octets for report in kuta.reports(capture) if isinstance(report, kuta.Packet)]
    [b'123456789', b'\x00\x00']
    >>> counts = kuta.tally(kuta.reports(capture))
    >>> counts["packets"], counts["held"], sum(counts.values())
    (2, 1, 3)

A Receiver is fed a line as it comes, a Sender makes one. Here an urgent packet breaks off another one:

    >>> sender, receiver = kuta.Sender(), kuta.Receiver()
    >>> sender.load(b"123456789")
    >>> receiver.feed(sender.write(4))
    []
    >>> sender.load(b"urgent", urgent=True)
    >>> for report in receiver.feed(sender.rest()):
    ...     report
    Held(count=3, replaced=False, place=4)
    Packet(octets=b'urgent', place=14)
    Packet(octets=b'123456789', place=25)

Both ends are opened with what the link agreed on: the settings; the width of the check sequence, 16 bits or 32; and
the limit, the most octets of a packet, 2 to 16,384:

    >>> print(kuta.line([b"123456789"], width=32).hex(" ").upper())
    0E 31 32 33 34 35 36 37 38 39 26 39 F4 CB 7E
    >>> list(kuta.reports(kuta.line([b"123456789"]), limit=8))
    [Refused(number=10, place=12)]

From a frame on that begins FF, as after a restart, a line is read as plain PPP (RFC 1662, section 4), which a
PlainSender makes; with plain=None such a frame is refused 5, and COBS read on:

    >>> capture = kuta.PlainSender(escaped=bytes(range(32))).send(b"\xff\x03\xc0\x21\x01\x01\x00\x04")
    >>> print(capture.hex(" ").upper())
    FF 7D 23 C0 21 7D 21 7D 21 7D 20 7D 24 D1 B5 7E
    >>> list(kuta.reports(capture))
    [Packet(octets=b'\xff\x03\xc0!\x01\x01\x00\x04', place=15)]
    >>> list(kuta.reports(capture, plain=None))
    [Refused(number=5, place=15)]

`python3 -m kutarehopa FILE..` prints what the program capture prints. docs/READING.md has the protocol, and says what
a loss rate may count.
"""
import argparse
import ctypes
import errno
import operator
import os
import sys
import threading
from dataclasses import dataclass
from typing import BinaryIO, Dict, Iterable, Iterator, List, NamedTuple, Optional, Union

__all__ = ["ZXE", "PRE", "Report", "Packet", "Held", "Refused", "RefusedCall", "LaneBusy", "Receiver", "Sender",
           "PlainSender", "Pair", "reports", "tally", "line", "pppfcs16", "pppfcs32"]

ZXE = 1  # settings: zero runs and pairs, the codes D3 to FE
PRE = 2  # settings: a packet may be broken off for an urgent one, and resumed


# ---- The library

class _Stretch(ctypes.Structure):
    _fields_ = [("answer", ctypes.c_uint32), ("octets", ctypes.c_size_t)]


def _declared(library):
    """The library, its calls with the types of kutarehopa.h."""
    answer, octets, length, octet = ctypes.c_uint32, ctypes.c_void_p, ctypes.c_size_t, ctypes.c_uint8
    limit, control = ctypes.c_uint16, ctypes.c_uint32
    for name, result, *arguments in (
            ("kuta_receiver_open", answer, octets, octet, octet, limit, octet, control),
            ("kuta_receive", answer, octets, octet, octets, length, octets, length),
            ("kuta_read_on", _Stretch, octets, octets, length, octets, length, octets, length),
            ("kuta_sender_open", answer, octets, octet, octet, limit),
            ("kuta_load_low", answer, octets, octets, length, octets, length),
            ("kuta_load_high", answer, octets, octets, length, octets, length),
            ("kuta_write_on", _Stretch, octets, octets, length, octets, length, octets, length),
            ("kuta_pair_open", answer, octets, octets, octet, octet, limit, control, octets),
            ("kuta_plain_send", answer, octets, octets, length, octets, length),
            ("pppfcs16", ctypes.c_uint16, ctypes.c_uint16, octets, length),
            ("pppfcs32", ctypes.c_uint32, ctypes.c_uint32, octets, length)):
        call = getattr(library, name)
        call.restype, call.argtypes = result, arguments
    return library


def _load():
    """The library that the environment names; else the checkout's, where there is one; else the system's."""
    named = os.environ.get("KUTAREHOPA_LIBRARY")
    checkout = os.path.dirname(os.path.dirname(os.path.realpath(__file__)))
    built = os.path.join(checkout, "target", "lib", "libkutarehopa.so")
    # The system's by its soname, which another version would not have.
    tried = []
    in_checkout = os.path.exists(os.path.join(checkout, "crates.txt"))
    for path in [named] if named else [built, "libkutarehopa.so.0"] if in_checkout else ["libkutarehopa.so.0"]:
        try:
            return _declared(ctypes.CDLL(path))
        except (OSError, AttributeError) as why:
            tried.append(f"  {why}")
            if path == built and os.path.exists(built):
                break  # a broken build is a fault, not a reason to take another library
    advice = "Let KUTAREHOPA_LIBRARY name a libkutarehopa.so for this machine, or unset it." if named else \
        "Run `make` in the checkout of Kutarehopa. Where the library is installed, the system's linker may not know " \
        "its folder: let the environment variable KUTAREHOPA_LIBRARY name the libkutarehopa.so. It is for x86-64 Linux."
    raise ImportError("\n".join(["the C library libkutarehopa cannot be loaded. Tried:", *tried, advice]))


_library = _load()

_STATE = 64
_PACKET, _HELD, _REFUSED = 1, 2, 3  # kinds of answers
_OFF, _COBS, _PLAIN, _ESCAPED = range(4)  # a receiver's modes
_PIECE = 65536  # how many octets of a capture are read at a time
_LIMIT = 2048   # the most octets of a packet, where nothing else is told


def _octets(given, what="octets"):
    """What was given, as bytes. Only buffers of single octets are taken."""
    if isinstance(given, bytes):
        return given
    try:
        view = memoryview(given)
    except TypeError:
        hint = {str: ": open a capture with 'rb', and text.encode() makes octets of a text",
                int: ": bytes((n,)) is the octet n"}.get(type(given), "")
        raise TypeError(f"{what} must be bytes or a buffer of octets, not {type(given).__name__}{hint}") from None
    if view.ndim != 1 or view.format.lstrip("@=<>!") not in ("B", "b", "c"):
        raise TypeError(f"{what} must be one row of single octets, not a buffer of {view.ndim} dimension(s) and "
                        f"format {view.format!r}")
    return view.tobytes()


def _number(given, least, most, what):
    number = operator.index(given)
    if not least <= number <= most:
        raise ValueError(f"{what} must be from {least} to {most}, not {number}")
    return number


def _width(given):
    width = operator.index(given)
    if width not in (16, 32):
        raise ValueError(f"width must be 16 or 32, not {width}")
    return width


def _limit(given):
    return _number(given, 2, 16384, "limit")


def _map(given):
    return _number(given, 0, 0xFFFFFFFF, "plain")


# ---- Reports and refusals

_REASONS = {
    1: "a packet must have 2 to {limit:,} octets",
    2: "an area is too short",
    3: "this is no state that the calls make",
    4: "the lane still has a packet to send",
    5: "the first octet is FF, as in plain PPP; nothing is held after it",
    6: "there is a code that the settings do not allow",
    7: "there is no code where one must stand",
    8: "the rest of a packet came, and no beginning is held",
    9: "the rest of a packet came, and was empty",
    10: "the frame is longer than the longest packet makes it",
    11: "the frame ends inside a block, and packets are not broken off here",
    12: "the frame ends with D0, a block that is never the last",
    13: "the frame is shorter than the shortest packet makes it",
    14: "the check sequence is wrong",
    18: "the frame ends with an escape, which an octet must follow",
    19: "what is escaped must have all that is removed, and neither 5E nor any of 20 to 3F",
    21: "the rest of a packet came, and what was held of it has been changed meanwhile",
}


class Report:
    """What a receiver says of a frame: a Packet, Held or Refused. str() of it is the line that capture prints.

    place: at which octet of the line it was reported, the first being 0. This is the flag that closed the frame.
    counted_as: the name of the count that it raises, see tally.
    """
    place: int
    counted_as: str


@dataclass(frozen=True)
class Packet(Report):
    """A packet arrived whole: its octets, without the check sequence."""
    octets: bytes
    place: int

    counted_as = "packets"

    def __str__(self):
        return f"P {len(self.octets)} {self.octets.hex(' ').upper()}"


@dataclass(frozen=True)
class Held(Report):
    """A frame ended inside a block, as a packet does that is broken off: how many octets are held of it, and whether
    an older fragment was given up for them."""
    count: int
    replaced: bool
    place: int

    @property
    def counted_as(self):
        return "held-replaced" if self.replaced else "held"

    def __str__(self):
        return f"H {self.count} {int(self.replaced)}"


@dataclass(frozen=True)
class Refused(Report):
    """A frame was refused: by which number, 5 to 14, 18 or 21, and for what reason."""
    number: int
    place: int

    @property
    def reason(self):
        return _REASONS[self.number]

    @property
    def counted_as(self):
        return f"refused-{self.number}"

    def __str__(self):
        return f"R {self.number}"


class RefusedCall(Exception):
    """A call was refused, and changed nothing: number, 1 to 4, and reason."""

    def __init__(self, number, limit=_LIMIT):
        super().__init__(number)
        self.number, self.reason = number, _REASONS[number].format(limit=limit)

    def __str__(self):
        return f"{self.reason} (refusal {self.number})"


class LaneBusy(RefusedCall):
    """A packet was to be loaded, and the lane's last one is not sent yet."""


def _refused(number, limit):
    return LaneBusy(number, limit) if number == 4 else RefusedCall(number, limit)


# ---- The two ends

class _End:
    """What both ends are: a state and two areas in memory of their own. Copies, and ends pickled, go their own way."""
    _beyond: int  # how many octets an area has beyond those of the longest packet and its check sequence

    def _own(self, opening, settings, width, limit, *reading):
        settings, limit, width = _number(settings, 0, 255, "settings"), _limit(limit), _width(width)
        area = limit + width // 8 + self._beyond
        self._state = (ctypes.c_uint8 * _STATE)()
        self._areas = (ctypes.c_uint8 * area)(), (ctypes.c_uint8 * area)()
        self._lent = self._areas[0], area, self._areas[1], area
        self._place = 0
        self._lock = threading.Lock()  # a call of the library lets other threads run
        opening(self._state, settings, width, limit, *reading)

    @property
    def state(self) -> bytes:
        """The 64 octets of the state. save() has the areas too."""
        return bytes(self._state)

    @property
    def settings(self) -> int:
        return self._state[4]

    @property
    def width(self) -> int:
        """Of the check sequence, in bits: 16 or 32."""
        return self._state[1]

    @property
    def limit(self) -> int:
        """The most octets of a packet."""
        return int.from_bytes(self._state[2:4], "little")

    def save(self) -> bytes:
        """All that the end is, for restore: its state, how many octets of the line it has seen, its areas."""
        with self._lock:
            return b"".join((self._state, self._place.to_bytes(8, "little"), *self._areas))

    @classmethod
    def restore(cls, saved: bytes):
        """An end as it was when it was saved."""
        saved = _octets(saved, "what was saved")
        if len(saved) < _STATE + 8:
            raise ValueError(f"no {cls.__name__} was saved as {len(saved)} octets")
        width, limit = saved[1], int.from_bytes(saved[2:4], "little")
        try:
            end = cls(width=width, limit=limit)
        except ValueError:
            raise RefusedCall(3, limit) from None
        area = len(end._areas[0])
        if len(saved) != _STATE + 8 + 2 * area:
            raise ValueError(f"no {cls.__name__} of width {width} and limit {limit} was saved as {len(saved)} octets")
        end._state[:] = saved[:_STATE]
        end._place = int.from_bytes(saved[_STATE:_STATE + 8], "little")
        end._areas[0][:], end._areas[1][:] = saved[-2 * area:-area], saved[-area:]
        if end._probe() == _REFUSED << 24 | 3:
            raise RefusedCall(3, limit)
        return end

    def __reduce__(self):
        return self.restore, (self.save(),)


class Receiver(_End):
    """The receiving end of a line, opened with its settings, the width of its check sequence, 16 or 32, and its limit,
    the most octets of a packet, 2 to 16,384.

    plain: a frame that begins FF, and all that follow it, are read as plain PPP, and the octets below 20 (hexadecimal)
    that this map has are removed there, octet n by its bit 1 << n. None: such a frame is refused 5, and COBS read on.
    """

    _beyond = 1

    def __init__(self, settings: int = ZXE | PRE, width: int = 16, limit: int = _LIMIT, plain: Optional[int] = 0):
        reading = (0, 0) if plain is None else (1, _map(plain))
        self._own(_library.kuta_receiver_open, settings, width, limit, *reading)

    def __repr__(self):
        plain = "off" if self.plain is None else f"{self.plain:08X}"
        return f"<Receiver, settings {self.settings}, width {self.width}, limit {self.limit}, plain {plain}, " \
               f"{self._place} octets read>"

    @property
    def plain(self) -> Optional[int]:
        """The map of what is removed in plain PPP; None where plain reading is off."""
        return None if self._state[5] == _OFF else int.from_bytes(self._state[6:10], "little")

    @property
    def reads_plain(self) -> bool:
        """Whether a frame has begun FF, so that the line is read as plain PPP by now."""
        return self._state[5] in (_PLAIN, _ESCAPED)

    @property
    def place(self) -> int:
        """How many octets of the line were fed."""
        return self._place

    def feed(self, octets) -> List[Report]:
        """Takes the next octets of the line, any number of them, and gives the reports they bring."""
        octets, found = _octets(octets), []
        at, left = ctypes.cast(octets, ctypes.c_void_p).value, len(octets)
        with self._lock:
            while left > 0:
                stretch = _library.kuta_read_on(self._state, at, left, *self._lent)
                at, left, self._place = at + stretch.octets, left - stretch.octets, self._place + stretch.octets
                if stretch.answer:
                    found.append(self._report(stretch.answer, self._place - 1))
        return found

    def _report(self, answer, place):
        kind, mark, value = answer >> 24, answer >> 16 & 1, answer & 0xFFFF
        if kind == _PACKET:
            return Packet(ctypes.string_at(self._areas[mark], value), place)
        if kind == _HELD:
            return Held(value, bool(mark), place)
        if value < 5:
            raise _refused(value, self.limit)
        return Refused(value, place)

    def _probe(self):
        """How the state answers a flag, tried on a copy. A flag writes to no area."""
        return _library.kuta_receive((ctypes.c_uint8 * _STATE)(*self._state), 0x7E, *self._lent)


class Sender(_End):
    """The sending end of a line, opened with its settings, the width of its check sequence, 16 or 32, and its limit,
    the most octets of a packet, 2 to 16,384. It has two lanes, with room for one packet each; an urgent packet goes
    first, and with PRE breaks off the other."""

    _beyond = 0

    def __init__(self, settings: int = ZXE | PRE, width: int = 16, limit: int = _LIMIT):
        self._own(_library.kuta_sender_open, settings, width, limit)

    def __repr__(self):
        return f"<Sender, settings {self.settings}, width {self.width}, limit {self.limit}, " \
               f"{self._place} octets written>"

    @property
    def place(self) -> int:
        """How many octets of the line were written."""
        return self._place

    def load(self, packet, urgent: bool = False) -> None:
        """Loads a packet. LaneBusy: the lane's last one must be written first. RefusedCall 1: its length."""
        packet = _octets(packet, "a packet")
        load = _library.kuta_load_high if urgent else _library.kuta_load_low
        with self._lock:
            answer = load(self._state, packet, len(packet), self._areas[bool(urgent)], len(self._areas[0]))
        if answer >> 24 == _REFUSED:
            raise _refused(answer & 0xFFFF, self.limit)

    def write(self, most: Optional[int] = None) -> bytes:
        """The next octets of the line: up to and with the next flag, and no more than `most`. b"" if all is sent."""
        room = 2 * len(self._areas[0])  # more than any frame takes on the line, with its flag
        if most is not None:
            room = min(room, _number(most, 1, sys.maxsize, "most"))
        octets = (ctypes.c_uint8 * room)()
        with self._lock:
            stretch = _library.kuta_write_on(self._state, *self._lent, octets, room)
            self._place += stretch.octets
        if stretch.answer >> 24 == _REFUSED:
            raise _refused(stretch.answer & 0xFFFF, self.limit)
        return ctypes.string_at(octets, stretch.octets)

    def rest(self) -> bytes:
        """All octets that the loaded packets still take."""
        return b"".join(iter(self.write, b""))

    def _probe(self):
        """How the state answers a packet too short to be loaded."""
        return _library.kuta_load_low(self._state, None, 0, self._areas[0], len(self._areas[0]))


# ---- Plain PPP

class PlainSender:
    """The sending end of a line in plain PPP, opened with the width of its check sequence, 16 or 32, its limit, the
    most octets of a packet, and the octets that it sends escaped beside 7D and 7E, for which 5E and 20 to 3F will not
    do. It keeps nothing from one packet to the next."""

    def __init__(self, width: int = 16, limit: int = _LIMIT, escaped: bytes = b""):
        limit, width = _limit(limit), _width(width)
        self._state = (ctypes.c_uint8 * _STATE)()
        self._open((ctypes.c_uint8 * _STATE)(), 0, width, limit, 0, escaped)

    def _open(self, receiver, settings, width, limit, plain, escaped):
        """Opens this sender and the receiver of a pair."""
        marks = bytearray(32)
        for octet in _octets(escaped, "escaped"):
            marks[octet // 8] |= 1 << octet % 8
        answer = _library.kuta_pair_open(self._state, receiver, settings, width, limit, plain, bytes(marks))
        if answer >> 24 == _REFUSED:
            raise ValueError(_REASONS[19])

    def __repr__(self):
        return f"<PlainSender, width {self.width}, limit {self.limit}, {len(self.escaped)} octets escaped>"

    @property
    def state(self) -> bytes:
        """The 64 octets of the state."""
        return bytes(self._state)

    @property
    def width(self) -> int:
        """Of the check sequence, in bits: 16 or 32."""
        return self._state[1]

    @property
    def limit(self) -> int:
        """The most octets of a packet."""
        return int.from_bytes(self._state[2:4], "little")

    @property
    def escaped(self) -> bytes:
        """All octets that are sent escaped, 7D and 7E among them."""
        return bytes(octet for octet in range(256) if self._state[4 + octet // 8] >> octet % 8 & 1)

    def send(self, packet) -> bytes:
        """The octets of the line that carry a packet: its frame, and the flag behind it. RefusedCall 1: its length."""
        packet = _octets(packet, "a packet")
        room = 2 * (len(packet) + self.width // 8) + 1
        area = (ctypes.c_uint8 * room)()
        answer = _library.kuta_plain_send(self._state, packet, len(packet), area, room)
        if answer >> 24 == _REFUSED:
            raise _refused(answer & 0xFFFF, self.limit)
        return ctypes.string_at(area, answer & 0xFFFF)

    def save(self) -> bytes:
        """All that the sender is, for restore: its state."""
        return self.state

    @classmethod
    def restore(cls, saved: bytes):
        """A sender as it was when it was saved."""
        saved = _octets(saved, "what was saved")
        if len(saved) != _STATE:
            raise ValueError(f"no {cls.__name__} was saved as {len(saved)} octets")
        sender = cls()
        sender._state[:] = saved
        try:
            sender.send(b"")
        except RefusedCall as why:
            if why.number != 1:
                raise
        return sender

    def __reduce__(self):
        return self.restore, (self.save(),)


class Pair(NamedTuple):
    """The two ends of a line in plain PPP, opened together, so that all that the sender sends comes through at the
    receiver, once that reads plain PPP."""
    sender: PlainSender
    receiver: Receiver

    @classmethod
    def open(cls, settings: int = ZXE | PRE, width: int = 16, limit: int = _LIMIT, plain: int = 0,
             escaped: bytes = b""):
        """plain: the map of the octets that the receiver removes. escaped: what the sender escapes, these among it."""
        pair = cls(PlainSender(width, limit), Receiver(settings, width, limit, _map(plain)))
        pair.sender._open(pair.receiver._state, pair.receiver.settings, width, limit, pair.receiver.plain, escaped)
        return pair


# ---- Whole lines

def line(packets: Iterable[bytes], settings: int = ZXE | PRE, width: int = 16, limit: int = _LIMIT) -> bytes:
    """The octets of a line that carries these packets one after the other."""
    if isinstance(packets, (str, bytes, bytearray, memoryview)):
        raise TypeError("line wants packets, not one packet: line([packet])")
    sender, parts = Sender(settings, width, limit), []
    for packet in packets:
        sender.load(packet)
        parts.append(sender.rest())
    return b"".join(parts)


def reports(capture: Union[str, os.PathLike, BinaryIO, bytes], settings: int = ZXE | PRE,
            width: int = 16, limit: int = _LIMIT, plain: Optional[int] = 0) -> Iterator[Report]:
    """The reports of a whole capture: of a path (str or Path), a file open for reading octets, or octets.

    Files are read in pieces, and reports come as soon as their octets are there. What follows the last flag gives none.
    """
    receiver = Receiver(settings, width, limit, plain)
    if isinstance(capture, (str, os.PathLike)):
        return _of_path(receiver, capture)
    if hasattr(capture, "read"):
        return _of_file(receiver, capture)
    octets = memoryview(_octets(capture, "a capture"))
    return (report for at in range(0, len(octets), _PIECE) for report in receiver.feed(octets[at:at + _PIECE]))


def _of_path(receiver, path):
    with open(path, "rb") as file:
        yield from _of_file(receiver, file)


def _of_file(receiver, file):
    read = getattr(file, "read1", file.read)  # read1 does not wait for a whole piece
    while True:
        piece = _octets(read(_PIECE), "what a file reads")
        if not piece:
            return
        yield from receiver.feed(piece)


def tally(of: Iterable[Report]) -> Dict[str, int]:
    """The fifteen counts that the program count prints, by their names and in its order.

    Each report raises one of them, so their sum is the number of frames. To count several captures together, chain
    their reports.
    """
    of_frames = (*range(5, 15), 18, 21)
    counts = dict.fromkeys(["packets", "held", "held-replaced", *(f"refused-{number}" for number in of_frames)], 0)
    for report in of:
        if not isinstance(report, Report):
            raise TypeError(f"tally counts reports, not {type(report).__name__}: tally(reports(capture))")
        counts[report.counted_as] += 1
    return counts


def pppfcs16(octets, start: int = 0xFFFF) -> int:
    """RFC 1662's register of 16 bits over octets. Behind a packet goes its complement, low octet first."""
    octets = _octets(octets)
    return _library.pppfcs16(_number(start, 0, 0xFFFF, "start"), octets, len(octets))


def pppfcs32(octets, start: int = 0xFFFFFFFF) -> int:
    """RFC 1662's register of 32 bits, likewise. Its complement is what zlib.crc32 gives."""
    octets = _octets(octets)
    return _library.pppfcs32(_number(start, 0, 0xFFFFFFFF, "start"), octets, len(octets))


# ---- As a program

def _print_all(names, width, limit, plain):
    """The lines of each file, under its name where there are several; whether all could be read."""
    gap, good = "", True
    for name in names:
        shown = "standard input" if name == "-" else name or "''"
        try:
            with open(0 if name == "-" else name, "rb", closefd=name != "-") as file:
                first = file.read1(1)  # nothing is printed of a file that cannot be read
                if len(names) > 1:
                    print(f"{gap}==> {shown} <==")
                    gap = "\n"
                receiver = Receiver(width=width, limit=limit, plain=plain)
                piece = first
                while piece:
                    for report in receiver.feed(piece):
                        print(report)
                    sys.stdout.flush()  # a live line is shown as it comes
                    piece = file.read1(_PIECE)
        except OSError as why:
            if isinstance(why, BrokenPipeError) or why.errno == errno.ENOSPC:
                raise
            print(f"kutarehopa: {shown}: cannot be read: {why.strerror}", file=sys.stderr)
            good = False
    return good


def _map_told(text):
    """Of --plain: a map, or None for off."""
    if text == "off":
        return None
    try:
        return _map(int(text, 16))
    except ValueError:
        raise argparse.ArgumentTypeError(f"must be off, or a map of 1 to 8 hexadecimal digits, not {text!r}") from None


def _main():
    parser = argparse.ArgumentParser(prog="kutarehopa", description="Reads captures (settings 3) and prints a line for "
                                     "each report: P, a packet; H, a fragment held; R, a refused frame.")
    parser.add_argument("--width", type=int, metavar="{16,32}", default=16,
                        help="bits of the check sequence; 16 if not told")
    parser.add_argument("--limit", type=int, metavar="N", default=_LIMIT,
                        help="the most octets of a packet, 2 to 16384; %(default)s if not told")
    parser.add_argument("--plain", type=_map_told, metavar="{off,MAP}", default=0,
                        help="from a frame on that begins FF read plain PPP, and remove octet n if the map, a "
                        "hexadecimal number, has the bit 1 << n; 0 if not told. off: refuse such a frame (5), and read "
                        "COBS on")
    parser.add_argument("files", nargs="*", metavar="FILE", default=["-"], help="- or none is standard input")
    given = parser.parse_args()
    try:
        Receiver(width=given.width, limit=given.limit, plain=given.plain)
    except ValueError as why:
        parser.error(str(why))
    if sys.stdout is None:
        sys.exit("kutarehopa: standard output: cannot be written: Bad file descriptor")
    try:
        good = _print_all(given.files, given.width, given.limit, given.plain)
        sys.stdout.flush()
        return 0 if good else 1
    except BrokenPipeError:
        status = 141  # nobody reads on
    except OSError as why:
        print(f"kutarehopa: standard output: cannot be written: {why.strerror}", file=sys.stderr)
        status = 1
    os.dup2(os.open(os.devnull, os.O_WRONLY), sys.stdout.fileno())
    return status


if __name__ == "__main__":
    sys.exit(_main())

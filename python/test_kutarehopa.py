#!/usr/bin/env python3
"""Tests of kutarehopa.py: python3 python/test_kutarehopa.py, with the library built or named by KUTAREHOPA_LIBRARY."""
import array
import copy
import ctypes
import doctest
import glob
import gzip
import io
import itertools
import os
import pathlib
import pickle
import random
import shutil
import subprocess
import sys
import tempfile
import threading
import unittest
import zlib

import kutarehopa as kuta
from kutarehopa import Held, LaneBusy, Packet, Pair, PlainSender, Receiver, Refused, RefusedCall, Sender

HERE = os.path.dirname(os.path.abspath(__file__))
ROOT = os.path.dirname(HERE)
CAPTURES = sorted(glob.glob(os.path.join(ROOT, "tests", "captures", "*.octets"))
                  + glob.glob(os.path.join(ROOT, "examples", "*.octets")))
NINE = b"123456789"
NINE_SENT = b"\x0c123456789\x6e\x90\x7e"
NINE_SENT_32 = b"\x0e123456789\x26\x39\xf4\xcb\x7e"
WIDTHS = 16, 32
LIMITS = 2, 3, 2048, 16384
WRONG_LIMITS = 0, 1, 16385, 65536, -1, 65536 + 2048, -65536 + 2048
# A packet broken off behind three octets, an urgent one, the rest of the first, and a frame that is too short.
MARKED = b"\x0c123\x7e" + NINE_SENT + b"\xd1\x09456789\x6e\x90\x7e" + b"\xd3\x7e"
MARKED_REPORTS = [Held(3, False, 4), Packet(NINE, 17), Packet(NINE, 28), Refused(13, 30)]
# A Configure-Request in plain PPP, no control octet escaped and all.
REQUEST = bytes.fromhex("FF 03 C0 21 01 01 00 04")
REQUEST_SENT = bytes.fromhex("FF 03 C0 21 01 01 00 04 D1 B5 7E")
REQUEST_ESCAPED = bytes.fromhex("FF 7D 23 C0 21 7D 21 7D 21 7D 20 7D 24 D1 B5 7E")
CONTROLS = bytes(range(32))


def octets_of(path):
    with open(path, "rb") as file:
        return file.read()


def stored(path, ending):
    with open(path[:-len("octets")] + ending) as file:
        return file.read()


def lines(found):
    return "".join(f"{report}\n" for report in found)


def pieces(octets, rng, longest):
    at = 0
    while at < len(octets):
        length = rng.randint(0, longest)
        yield octets[at:at + length]
        at += length


def random_packet(rng):
    length = rng.choice((2, 3, 30, 31, 207, 208, 2047, 2048, rng.randint(2, 2048)))
    return bytes(rng.choice((0, 0, 0x7E, rng.randrange(256))) for _ in range(length))


def longest(limit, octet=b"\x7e"):
    """A packet as long as the limit."""
    return octet * limit


def as_blocks(packet, width):
    """The octets of the line for a packet, made here; its frame must have no zero."""
    check = kuta.pppfcs16(packet) ^ 0xFFFF if width == 16 else kuta.pppfcs32(packet) ^ 0xFFFFFFFF
    frame = packet + check.to_bytes(width // 8, "little")
    assert 0 not in frame
    parts = [frame[at:at + 207] for at in range(0, len(frame) + 1, 207)]
    return b"".join(bytes((len(part) + 1,)) + part for part in parts).replace(b"\x7e", b"\0") + b"\x7e"


def as_zeros(count):
    """A frame that decodes to so many zeros, the phantom among them."""
    rest = (b"", b"\x01", b"\xe0", *(bytes((0xD0 + zeros,)) for zeros in range(3, 15)))[count % 15]
    return b"\xdf" * (count // 15) + rest + b"\x7e"


class StoredCaptures(unittest.TestCase):
    def each(self, read):
        """Reads every stored capture so, and holds its lines and counts against what is stored."""
        self.assertGreater(len(CAPTURES), 12)
        for path in CAPTURES:
            with self.subTest(capture=os.path.basename(path)):
                found = list(read(path))
                self.assertEqual(lines(found), stored(path, "lines"))
                counts = kuta.tally(found)
                self.assertEqual("".join(f"{name} {count}\n" for name, count in counts.items()), stored(path, "counts"))
                octets = octets_of(path)
                self.assertTrue(all(octets[report.place] == 0x7E for report in found))
                self.assertEqual(sorted({report.place for report in found}), [report.place for report in found])

    def test_whole(self):
        self.each(lambda path: Receiver().feed(octets_of(path)))

    def test_octet_by_octet(self):
        def read(path):
            receiver = Receiver()
            for place, octet in enumerate(octets_of(path)):
                found = receiver.feed(bytes((octet,)))
                self.assertTrue(len(found) <= 1 and all(report.place == place for report in found))
                self.assertEqual(receiver.place, place + 1)
                yield from found
        self.each(read)

    def test_random_pieces(self):
        rng = random.Random(1)

        def read(path):
            receiver = Receiver()
            for piece in pieces(octets_of(path), rng, rng.choice((3, 50, 1000))):
                yield from receiver.feed(piece)
        for _ in range(3):
            self.each(read)

    def test_pieces_give_the_same_reports(self):
        rng = random.Random(2)
        for path in CAPTURES:
            octets, receiver = octets_of(path), Receiver()
            found = [report for piece in pieces(octets, rng, 200) for report in receiver.feed(piece)]
            self.assertEqual(found, Receiver().feed(octets))

    def test_path(self):
        self.each(kuta.reports)
        self.each(lambda path: kuta.reports(pathlib.Path(path)))

    def test_file(self):
        def read(path):
            with open(path, "rb", buffering=0) as file:
                yield from kuta.reports(file)
        self.each(read)
        self.each(lambda path: kuta.reports(io.BytesIO(octets_of(path))))
        self.each(lambda path: kuta.reports(gzip.GzipFile(fileobj=io.BytesIO(gzip.compress(octets_of(path))))))

    def test_octets(self):
        self.each(lambda path: kuta.reports(octets_of(path)))

    def test_more_than_a_piece(self):
        octets = NINE_SENT * 20000
        for capture in (octets, io.BytesIO(octets)):
            for number, report in enumerate(kuta.reports(capture)):
                self.assertEqual(report, Packet(NINE, 13 * number + 12))
            self.assertEqual(number, 19999)


class Receiving(unittest.TestCase):
    def test_reports(self):
        self.assertEqual(Receiver().feed(MARKED), MARKED_REPORTS)
        self.assertEqual(lines(MARKED_REPORTS), "H 3 0\nP 9 31 32 33 34 35 36 37 38 39\n"
                         "P 9 31 32 33 34 35 36 37 38 39\nR 13\n")

    def test_reports_come_as_soon_as_they_can(self):
        reading, writing = os.pipe()
        with open(reading, "rb") as file:
            found = kuta.reports(file)
            os.write(writing, NINE_SENT)
            self.assertEqual(next(found), Packet(NINE, 12))
            os.write(writing, NINE_SENT)
            self.assertEqual(next(found), Packet(NINE, 25))
            os.close(writing)
            self.assertEqual(list(found), [])

    def test_settings(self):
        self.assertEqual(kuta.ZXE | kuta.PRE, 3)
        self.assertEqual(Receiver(0).feed(b"\xd3\x7e\x05\x31\x7e"), [Refused(6, 1), Refused(11, 4)])
        self.assertEqual(Receiver(kuta.PRE).feed(b"\xd3\x7e\x05\x31\x7e"), [Refused(6, 1), Held(1, False, 4)])
        self.assertEqual([type(report) for report in kuta.reports(MARKED, 0)], [Refused, Packet, Refused, Refused])
        self.assertEqual(Receiver(0xFF).settings, 0xFF)
        for wrong, error in ((-1, ValueError), (256, ValueError), ("3", TypeError), (None, TypeError)):
            for take in (Receiver, Sender, lambda settings: kuta.reports(b"", settings)):
                with self.assertRaises(error):
                    take(wrong)

    def test_restart(self):
        octets = b"\x05\x31\x7e\xff\x03\x7e\xd1\x01\x7e"
        self.assertEqual(Receiver(plain=None).feed(octets), [Held(1, False, 2), Refused(5, 5), Refused(8, 8)])
        self.assertEqual(Receiver().feed(octets), [Held(1, False, 2), Refused(13, 5), Refused(13, 8)])
        other = octets.replace(b"\xff\x03", b"\xd2")
        for plain in (None, 0):
            self.assertEqual(Receiver(plain=plain).feed(other), [Held(1, False, 2), Refused(7, 4), Refused(13, 7)])

    def test_changed_area(self):
        """What was saved and is changed before it is restored: a held octet is found out, one behind them does not matter."""
        for width, register in ((16, 0x4D53), (32, 0xB0ACBB32)):
            receiver = Receiver(width=width)
            self.assertEqual(receiver.feed(b"\x05\x31\x32\x7e"), [Held(2, False, 3)])
            self.assertEqual(int.from_bytes(receiver.state[16:20], "little"), register)
            saved, first = receiver.save(), 64 + 8
            self.assertEqual(saved[first:first + 3], b"\x31\x32\x00")
            for at, changed, report in ((0, False, 13), (0, True, 21), (1, True, 21), (2, True, 13)):
                octets = bytearray(saved)
                octets[first + at] ^= changed
                restored = Receiver.restore(bytes(octets))
                self.assertEqual(restored.feed(b"\xd1\x01\x7e\xd1\x7e"), [Refused(report, 6), Refused(8, 8)])
                self.assertEqual(restored.state[16:20], Receiver(width=width).state[16:20])
            octets = bytearray(saved)
            octets[13:16] = 0, 0, 0  # nothing held, and its register not at the start
            with self.assertRaises(RefusedCall):
                Receiver.restore(bytes(octets))

    def test_reasons(self):
        for number in (*range(5, 15), 18, 21):
            self.assertGreater(len(Refused(number, 0).reason), 10)

    def test_reports_do_not_change(self):
        for report in MARKED_REPORTS:
            with self.assertRaises(AttributeError):
                report.place = 0
            self.assertEqual(hash(report), hash(copy.copy(report)))
            self.assertEqual(pickle.loads(pickle.dumps(report)), report)
        self.assertNotEqual(Held(13, False, 30), Refused(13, 30))
        receiver = Receiver()
        first = receiver.feed(NINE_SENT)
        receiver.feed(kuta.line([b"another packet"]) * 3)
        self.assertEqual(first, [Packet(NINE, 12)])

    def test_buffers(self):
        backwards = memoryview(MARKED[::-1])[::-1]
        for octets in (MARKED, bytearray(MARKED), memoryview(MARKED), array.array("B", MARKED), backwards,
                       (ctypes.c_uint8 * len(MARKED))(*MARKED), memoryview(MARKED).cast("c")):
            self.assertEqual(Receiver().feed(octets), MARKED_REPORTS)
            self.assertEqual(list(kuta.reports(octets)), MARKED_REPORTS)
        self.assertEqual(Receiver().feed(b""), [])

    def test_wrong_types(self):
        receiver = Receiver()
        for wrong in ("123", 126, None, [0x7E], 1.5, array.array("H", [0x7E]), array.array("d", [1]),
                      memoryview(bytes(4)).cast("B", (2, 2)), memoryview(bytes(4)).cast("?")):
            with self.assertRaises(TypeError):
                receiver.feed(wrong)
            with self.assertRaises(TypeError):
                Sender().load(wrong)
            for register in (kuta.pppfcs16, kuta.pppfcs32):
                with self.assertRaises(TypeError):
                    register(wrong)
            if not isinstance(wrong, str):
                with self.assertRaises(TypeError):
                    kuta.reports(wrong)
        self.assertEqual(receiver.place, 0)
        with self.assertRaisesRegex(TypeError, "'rb'"):
            receiver.feed("123")
        for text in (io.StringIO("123"), io.StringIO()):
            with self.assertRaisesRegex(TypeError, "'rb'"):
                list(kuta.reports(text))
        with self.assertRaises(FileNotFoundError):
            list(kuta.reports("no such capture"))

    def test_threads(self):
        """Several feeds at once: one comes after the other, in whatever order."""
        receiver, found = Receiver(), []
        threads = [threading.Thread(target=lambda: found.append(receiver.feed(NINE_SENT * 3000))) for _ in range(4)]
        interval = sys.getswitchinterval()
        sys.setswitchinterval(1e-6)
        for thread in threads:
            thread.start()
        for thread in threads:
            thread.join()
        sys.setswitchinterval(interval)
        self.assertEqual([report.place for feed in sorted(found, key=lambda feed: feed[0].place) for report in feed],
                         list(range(12, 13 * 12000, 13)))


class Tallying(unittest.TestCase):
    def test_names(self):
        names = ["packets", "held", "held-replaced"] + [f"refused-{number}" for number in (*range(5, 15), 18, 21)]
        self.assertEqual(list(kuta.tally([])), names)

    def test_counts(self):
        counts = kuta.tally(MARKED_REPORTS + [Held(1, True, 40)])
        self.assertEqual({name: count for name, count in counts.items() if count},
                         {"packets": 2, "held": 1, "held-replaced": 1, "refused-13": 1})
        self.assertEqual(sum(counts.values()), 5)

    def test_wrong_types(self):
        for wrong in (MARKED, "path", [1]):
            with self.assertRaises(TypeError):
                kuta.tally(wrong)


class Sending(unittest.TestCase):
    def test_whole(self):
        sender = Sender()
        self.assertEqual(sender.write(), b"")
        sender.load(NINE)
        self.assertEqual([sender.write(5), sender.write(1), sender.write()],
                         [NINE_SENT[:5], NINE_SENT[5:6], NINE_SENT[6:]])
        self.assertEqual((sender.write(), sender.write(1), sender.rest(), sender.place), (b"", b"", b"", 13))
        self.assertEqual(kuta.line([NINE, bytearray(NINE)]), NINE_SENT * 2)
        self.assertEqual(kuta.line([]), b"")
        self.assertEqual(kuta.line([b"\0\0"]), b"\xe0\x03\x47\x0f\x7e")
        self.assertEqual(kuta.line([b"\0\0"], 0), b"\x01\x01\x03\x47\x0f\x7e")

    def test_up_to_a_flag(self):
        """An urgent packet breaks off the other at once: three stretches, each up to its flag."""
        sender = Sender()
        sender.load(NINE)
        start = sender.write(4)
        sender.load(b"urgent", urgent=True)
        written = [start + sender.write(), sender.write(sys.maxsize), sender.write(), sender.write()]
        self.assertEqual([octets[-1:] for octets in written], [b"\x7e"] * 3 + [b""])
        self.assertEqual(list(kuta.reports(b"".join(written))),
                         [Held(3, False, 4), Packet(b"urgent", 14), Packet(NINE, 25)])

    def test_round_trip(self):
        """Packets of both lanes, loaded whenever there is room, at random places of the line."""
        rng = random.Random(3)
        for settings, width in itertools.product((3, 2, 1, 0), WIDTHS):
            sender, receiver, sent, received = Sender(settings, width), Receiver(settings, width), ([], []), []
            for _ in range(600):
                urgent = rng.random() < 0.5
                packet = (b"U" if urgent else b"L") + random_packet(rng)[:2047]
                try:
                    sender.load(packet, urgent)
                    sent[urgent].append(packet)
                except LaneBusy:
                    pass
                received += receiver.feed(sender.write(rng.choice((None, 1, 7, 300))))
            received += receiver.feed(sender.rest())
            self.assertEqual(sender.write(), b"")
            self.assertEqual({type(report) for report in received}, {Packet, Held} if settings & kuta.PRE else {Packet})
            for urgent, first in ((0, b"L"), (1, b"U")):
                self.assertGreater(len(sent[urgent]), 15)
                self.assertEqual([report.octets for report in received
                                  if isinstance(report, Packet) and report.octets[:1] == first], sent[urgent])
            self.assertFalse(any(isinstance(report, Held) and report.replaced for report in received))

    def test_longest(self):
        for packet in (bytes(2048), b"\x7e" * 2048, b"\xff" * 2048):
            for settings, width in itertools.product(range(4), WIDTHS):
                octets = kuta.line([packet], settings, width)
                self.assertLessEqual(len(octets), 2059 + width // 8)
                self.assertEqual(list(kuta.reports(octets, settings, width)), [Packet(packet, len(octets) - 1)])

    def test_refusals(self):
        sender = Sender()
        for length in (0, 1, 2049, 70000):
            with self.assertRaises(RefusedCall) as caught:
                sender.load(bytes(length))
            self.assertEqual(caught.exception.number, 1)
            self.assertNotIsInstance(caught.exception, LaneBusy)
            self.assertIn("2,048", str(caught.exception))
        self.assertEqual(sender.write(), b"")
        for urgent in (False, True):
            sender.load(NINE, urgent)
            with self.assertRaises(LaneBusy) as caught:
                sender.load(b"another", urgent)
            self.assertEqual(caught.exception.number, 4)
            again = pickle.loads(pickle.dumps(caught.exception))
            self.assertEqual((type(again), again.number, str(again)), (LaneBusy, 4, str(caught.exception)))
        self.assertEqual(sender.rest(), NINE_SENT * 2)
        for wrong, error in ((0, ValueError), (-1, ValueError), (1.5, TypeError), ("1", TypeError)):
            with self.assertRaises(error):
                sender.write(wrong)
        for wrong in (NINE, bytearray(NINE), "123"):
            with self.assertRaisesRegex(TypeError, r"line\(\[packet\]\)"):
                kuta.line(wrong)


class Widths(unittest.TestCase):
    """A check sequence of 16 bits, and one of 32."""

    def test_sent_and_received(self):
        for packet, settings, octets in (
                (NINE, 3, NINE_SENT_32),
                (b"\0\0", 3, b"\xe0\x05\xff\x12\xd9\x41\x7e"),
                (b"\0\0", 0, b"\x01\x01\x05\xff\x12\xd9\x41\x7e"),
                (b"\x7e\x7e", 3, b"\x07\0\0\xbc\x1a\xd8\x47\x7e")):
            found = [Packet(packet, len(octets) - 1)]
            self.assertEqual(kuta.line([packet], settings, 32), octets)
            self.assertEqual(Receiver(settings, 32).feed(octets), found)
            self.assertEqual(list(kuta.reports(io.BytesIO(octets), settings, width=32)), found)

    def test_broken_off(self):
        sender, receiver = Sender(width=32), Receiver(width=32)
        sender.load(NINE)
        octets = sender.write(4)
        sender.load(b"urgent", urgent=True)
        self.assertEqual(receiver.feed(octets + sender.rest()),
                         [Held(3, False, 4), Packet(b"urgent", 16), Packet(NINE, 29)])

    def test_lengths(self):
        """Refusal 13 below 4 octets, or 6; 10 above 2,051, or 2,053; else the check sequence decides."""
        for octets, at_16, at_32 in (
                (b"\x04111\x7e", 13, 13), (b"\x051111\x7e", 14, 13), (b"\x0611111\x7e", 14, 13),
                (b"\x07111111\x7e", 14, 14),
                (b"\xdf" * 136 + b"\xdb\x7e", 14, 14), (b"\xdf" * 136 + b"\xdc\x7e", 10, 14),
                (b"\xdf" * 136 + b"\xdd\x7e", 10, 14), (b"\xdf" * 136 + b"\xde\x7e", 10, 10)):
            self.assertEqual(Receiver(width=16).feed(octets), [Refused(at_16, len(octets) - 1)])
            self.assertEqual(Receiver(width=32).feed(octets), [Refused(at_32, len(octets) - 1)])

    def test_damaged(self):
        for width, octets in zip(WIDTHS, (NINE_SENT, NINE_SENT_32)):
            for at, bit in itertools.product(range(len(octets) - 1), range(8)):
                damaged = bytearray(octets)
                damaged[at] ^= 1 << bit
                found = Receiver(width=width).feed(damaged)
                self.assertTrue(found and not any(isinstance(report, Packet) for report in found))

    def test_ends_that_do_not_agree(self):
        self.assertEqual(Receiver(width=32).feed(NINE_SENT), [Refused(14, 12)])
        self.assertEqual(Receiver(width=16).feed(NINE_SENT_32), [Refused(14, 14)])

    def test_stored_line(self):
        """The sample line of 32 bits has the packets of the one of 16."""
        found = kuta.reports(os.path.join(ROOT, "examples", "alarm-32.line"), width=32)
        self.assertEqual(lines(found), stored(os.path.join(ROOT, "examples", "alarm.octets"), "lines"))

    def test_as_zlib(self):
        """Frames with the check sequence of zlib: a sender loads them so, and a receiver takes them."""
        rng = random.Random(4)
        for _ in range(300):
            packet = bytes(rng.randrange(1, 256) for _ in range(rng.randint(2, 200)))
            frame = packet + zlib.crc32(packet).to_bytes(4, "little")
            sender = Sender(width=32)
            sender.load(packet)
            self.assertEqual(sender.save()[72:72 + len(frame)], frame)
            if 0 not in frame:
                octets = (bytes((len(frame) + 1,)) + frame).replace(b"\x7e", b"\0") + b"\x7e"
                self.assertEqual(sender.rest(), octets)
                self.assertEqual(Receiver(width=32).feed(octets), [Packet(packet, len(octets) - 1)])

    def test_the_end_tells_its_width(self):
        for end in (Receiver, Sender):
            self.assertEqual((end().width, end(0).width, end(width=16).width, end(0, 32).width), (16, 16, 16, 32))
            self.assertEqual((end(7, 32).settings, end(7, 32).state[1], len(end(width=32).state)), (7, 32, 64))
            self.assertIn("width 32", repr(end(width=32)))

    def test_no_other(self):
        for take in (lambda width: Receiver(3, width), lambda width: Sender(width=width),
                     lambda width: kuta.reports(b"", width=width), lambda width: kuta.line([], 3, width)):
            for wrong in (0, 1, 8, 15, 17, 24, 31, 33, 64, 255, 256 + 16, -16):
                with self.assertRaisesRegex(ValueError, f"width must be 16 or 32, not {wrong}$"):
                    take(wrong)
            for wrong in ("16", None, 16.0, b"\x10"):
                with self.assertRaises(TypeError):
                    take(wrong)


class Limits(unittest.TestCase):
    """The most octets of a packet: the least limit and the next, the one that is not told, and the largest."""

    def test_longest(self):
        """A round trip of the longest packet in one stretch. Without a zero in its frame of n octets it takes n + 1 +
        n // 207 octets and a flag, and no frame takes more."""
        for limit, width in itertools.product(LIMITS, WIDTHS):
            frame = limit + width // 8
            for packet, settings in itertools.product((longest(limit), bytes(limit), longest(limit, b"\xff")), (0, 3)):
                sender = Sender(settings, width, limit)
                sender.load(packet)
                octets = sender.write()
                self.assertEqual((octets[-1:], sender.write()), (b"\x7e", b""))
                self.assertEqual(octets, kuta.line([packet], settings, width, limit))
                self.assertLessEqual(len(octets), frame + 2 + frame // 207)
                self.assertEqual(list(kuta.reports(octets, settings, width, limit)), [Packet(packet, len(octets) - 1)])
            octets = kuta.line([longest(limit)], width=width, limit=limit)
            self.assertEqual(octets, as_blocks(longest(limit), width))
            self.assertEqual(len(octets), frame + 2 + frame // 207)

    def test_line_lengths(self):
        self.assertEqual([len(kuta.line([longest(limit)], 3, width, limit)) for limit in LIMITS for width in WIDTHS],
                         [6, 8, 7, 9, 2061, 2063, 16467, 16469])
        self.assertEqual([len(kuta.line([bytes(limit)], 3, 16, limit)) for limit in LIMITS], [5, 5, 141, 1097])

    def test_one_more_octet(self):
        for limit, width, urgent in itertools.product(LIMITS, WIDTHS, (False, True)):
            sender = Sender(3, width, limit)
            for length in (limit + 1, 0, 1, 70000):
                with self.assertRaises(RefusedCall) as caught:
                    sender.load(bytes(length), urgent)
                again = pickle.loads(pickle.dumps(caught.exception))
                for error in (caught.exception, again, copy.copy(caught.exception)):
                    self.assertEqual((type(error), error.number), (RefusedCall, 1))
                    self.assertEqual(error.reason, f"a packet must have 2 to {limit:,} octets")
                    self.assertEqual(str(error), f"{error.reason} (refusal 1)")
            self.assertEqual((sender.write(), sender.state), (b"", Sender(3, width, limit).state))
            with self.assertRaisesRegex(RefusedCall, f" {limit:,} octets"):
                kuta.line([bytes(2), bytes(limit + 1)], width=width, limit=limit)

    def test_frame_above_the_limit(self):
        """10, also for a packet of one octet more with a good check sequence. At the limit the check decides."""
        for limit, width in itertools.product(LIMITS, WIDTHS):
            above = as_blocks(longest(limit + 1), width)
            if limit < 16384:
                self.assertEqual(kuta.line([longest(limit + 1)], width=width, limit=limit + 1), above)
            most = limit + width // 8 + 1
            for octets, number in ((above, 10), (as_zeros(most), 14), (as_zeros(most + 1), 10)):
                found = [Refused(number, len(octets) - 1)]
                self.assertEqual(Receiver(width=width, limit=limit).feed(octets), found)
                self.assertEqual(list(kuta.reports(octets, 3, width, limit)), found)

    def test_too_short(self):
        """13 below 4 octets, or 6, with any limit."""
        for limit in LIMITS:
            for width, octets, number in ((16, b"\x04111\x7e", 13), (16, b"\x051111\x7e", 14),
                                          (32, b"\x0611111\x7e", 13), (32, b"\x07111111\x7e", 14)):
                self.assertEqual(Receiver(3, width, limit).feed(octets), [Refused(number, len(octets) - 1)])

    def test_broken_off(self):
        """The longest packet, broken off by another one at its first octets and at its last."""
        for limit, width in itertools.product(LIMITS, WIDTHS):
            low, high = longest(limit), longest(limit, b"\x41")
            whole = len(kuta.line([low], 3, width, limit))
            for cut in {1, 2, whole - 2}:
                sender, receiver = Sender(3, width, limit), Receiver(3, width, limit)
                sender.load(low)
                octets = sender.write(cut)
                sender.load(high, urgent=True)
                written = [octets + sender.write(), sender.write(), sender.write(), sender.write()]
                self.assertEqual([octets[-1:] for octets in written], [b"\x7e"] * 3 + [b""])
                first, *others = receiver.feed(b"".join(written))
                self.assertEqual((type(first), first.replaced), (Held, False))
                self.assertEqual([report.octets for report in others], [high, low])

    def test_round_trip(self):
        """Packets of both lanes and of any length up to the limit, at random places of the line."""
        rng = random.Random(6)
        for limit, width in itertools.product((2, 3, 9, 300), WIDTHS):
            sender, receiver, sent, received = Sender(3, width, limit), Receiver(3, width, limit), ([], []), []
            for _ in range(400):
                urgent = rng.random() < 0.5
                length = rng.randint(1, limit - 1)
                packet = (b"U" if urgent else b"L") + bytes(rng.randrange(256) for _ in range(length))
                try:
                    sender.load(packet, urgent)
                    sent[urgent].append(packet)
                except LaneBusy:
                    pass
                received += receiver.feed(sender.write(rng.choice((None, 1, 2, 60))))
            received += receiver.feed(sender.rest())
            self.assertEqual({type(report) for report in received}, {Packet, Held})
            for urgent, first in ((0, b"L"), (1, b"U")):
                self.assertGreater(len(sent[urgent]), 15)
                self.assertEqual([report.octets for report in received
                                  if isinstance(report, Packet) and report.octets[:1] == first], sent[urgent])

    def test_ends_of_different_limits(self):
        """A receiver refuses what is longer than its own limit, and takes all else, whatever the sender's is."""
        packets = [longest(length) for length in (2, 9, 3, 8, 4, 10, 2)]
        for width, ours in itertools.product(WIDTHS, (10, 2048, 16384)):
            octets = kuta.line(packets, width=width, limit=ours)
            self.assertEqual(octets, b"".join(as_blocks(packet, width) for packet in packets))
            for theirs in (2, 3, 8, 9, 10, 2048, 16384):
                found = kuta.reports(octets, width=width, limit=theirs)
                self.assertEqual([report.octets if isinstance(report, Packet) else report.number for report in found],
                                 [packet if len(packet) <= theirs else 10 for packet in packets])

    def test_fragment_above_the_limit(self):
        """Broken off before it is too long, a packet is held; its rest is refused, and nothing is held any more."""
        sender, receiver = Sender(limit=9), Receiver(limit=8)
        sender.load(NINE)
        octets = sender.write(4)
        sender.load(b"urgent", urgent=True)
        octets += sender.rest()
        self.assertEqual(receiver.feed(octets), [Held(3, False, 4), Packet(b"urgent", 14), Refused(10, 25)])
        self.assertEqual(receiver.feed(b"\xd1\x7e"), [Refused(8, 27)])

    def test_the_end_tells_its_limit(self):
        for end in (Receiver, Sender):
            self.assertEqual((end().limit, end(0, 32).limit, end(limit=2).limit, end(0, 32, 16384).limit),
                             (2048, 2048, 2, 16384))
            for limit, width in itertools.product(LIMITS, WIDTHS):
                made = end(7, width, limit)
                self.assertEqual((made.settings, made.width, made.limit, len(made.state)), (7, width, limit, 64))
                self.assertEqual(made.state[:5], bytes((1, width, limit & 255, limit >> 8, 7)))
                self.assertIn(f"settings 7, width {width}, limit {limit}, ", repr(made))
                self.assertIn(", 0 octets ", repr(made))

    def test_no_other(self):
        for take in (lambda limit: Receiver(3, 16, limit), lambda limit: Sender(limit=limit),
                     lambda limit: kuta.reports(b"", limit=limit), lambda limit: kuta.line([], 3, 32, limit),
                     lambda limit: Receiver(3, 24, limit), lambda limit: Sender(width=0, limit=limit)):
            for wrong in WRONG_LIMITS:
                with self.assertRaisesRegex(ValueError, f"^limit must be from 2 to 16384, not {wrong}$"):
                    take(wrong)
            for wrong in ("2048", None, 2048.0, b"\x02"):
                with self.assertRaises(TypeError):
                    take(wrong)
        with self.assertRaisesRegex(ValueError, "^width must be 16 or 32, not 24$"):
            Receiver(3, 24, 16384)


def in_plain(plain=0, width=16, limit=2048):
    """A receiver that reads plain PPP, and counts places from here."""
    receiver = Receiver(3, width, limit, plain)
    receiver.feed(b"\xff\x7e")
    receiver._place = 0
    return receiver


class PlainPPP(unittest.TestCase):
    """Plain PPP, read behind an FF and sent."""

    def test_request(self):
        self.assertEqual(PlainSender().send(REQUEST), REQUEST_SENT)
        self.assertEqual(PlainSender(escaped=CONTROLS).send(REQUEST), REQUEST_ESCAPED)
        self.assertEqual(PlainSender(escaped=bytearray(b"\x5d")).send(b"\x5d\x7d\x7e\x5e"),
                         bytes.fromhex("7D 7D 7D 5D 7D 5E 5E CF 0C 7E"))
        self.assertEqual(PlainSender(32).send(NINE), NINE_SENT_32[1:])
        for octets in (REQUEST_SENT, REQUEST_ESCAPED):
            self.assertEqual(Receiver().feed(octets), [Packet(REQUEST, len(octets) - 1)])
            self.assertEqual(Receiver(plain=None).feed(octets), [Refused(5, len(octets) - 1)])
        self.assertEqual(Receiver(plain=0xFFFFFFFF).feed(REQUEST_ESCAPED), [Packet(REQUEST, 15)])
        self.assertEqual(Receiver(plain=0xFFFFFFFF).feed(REQUEST_SENT), [Refused(14, 10)])

    def test_reports(self):
        for octets, plain, numbers in (
                (b"\xff\x7e\x7d\x7e", 0, [13, 18]), (b"\xff\x7d\x7e", 0, [18]),
                (b"\xff\x7e\x11\x11\x7e", 1 << 0x11, [13]), (b"\xff\x7e\x11\x11\x7e", 0, [13, 13]),
                (b"\xff\x7e\x7d\x11\x7e", 1 << 0x11, [13, 18]), (b"\xff\x7e" + NINE_SENT, 0, [13, 14])):
            self.assertEqual([report.number for report in Receiver(plain=plain).feed(octets)], numbers)
        self.assertEqual(Receiver(plain=1 << 0x11).feed(bytes.fromhex("FF 7E 7D 11 5E 41 1E 36 7E"))[1:],
                         [Packet(b"\x7e\x41", 8)])
        self.assertEqual(kuta.tally(Receiver().feed(b"\xff\x7d\x7e"))["refused-18"], 1)

    def test_lengths(self):
        """13 below 4 octets, or 6; 10 above the limit and the check sequence; an escape at the end before 13, behind 10."""
        for limit, width in itertools.product(LIMITS, WIDTHS):
            longest_frame = limit + width // 8
            for octets, number in ((b"1" * (1 + width // 8), 13), (b"1" * (2 + width // 8), 14), (b"1" * longest_frame, 14),
                                   (b"1" * (longest_frame + 1), 10), (b"1" * longest_frame + b"\x7d", 18),
                                   (b"1" * longest_frame + b"\x7d1", 10), (b"1" * longest_frame + b"1\x7d", 10),
                                   (b"1\x7d", 18)):
                self.assertEqual(in_plain(0, width, limit).feed(octets + b"\x7e"), [Refused(number, len(octets))])

    def test_change(self):
        """The FF, wherever it stands; and what the receiver says of itself."""
        for before, reads in ((b"", True), (b"\x7e", True), (NINE_SENT, True), (b"\x02", False), (b"\x7d\xdf", False)):
            receiver = Receiver()
            receiver.feed(before)
            self.assertEqual((receiver.plain, receiver.reads_plain), (0, False))
            receiver.feed(b"\xff")
            self.assertEqual((receiver.plain, receiver.reads_plain), (0, reads))
        receiver = Receiver(plain=None)
        receiver.feed(b"\xff\x7e\xff")
        self.assertEqual((receiver.plain, receiver.reads_plain), (None, False))
        self.assertIn("plain off", repr(receiver))
        self.assertIn("plain 000A0000", repr(Receiver(plain=0x000A0000)))
        self.assertEqual(Receiver(plain=0xFFFFFFFF).plain, 0xFFFFFFFF)

    def test_pair(self):
        """Packets of any octets, with removed ones put in between, fed in pieces."""
        rng = random.Random(6)
        for width, limit in itertools.product(WIDTHS, LIMITS):
            for plain, escaped in ((0, b""), (0x000A0000, b"\x11\x13"), (0xFFFFFFFF, CONTROLS + b"\x5d\xff"),
                                   (1, bytes(octet for octet in range(256) if not 0x20 <= octet < 0x40 and octet != 0x5E))):
                sender, receiver = Pair.open(3, width, limit, plain, escaped)
                self.assertEqual((receiver.settings, receiver.width, receiver.limit), (3, width, limit))
                self.assertEqual((receiver.plain, sender.width, sender.limit), (plain, width, limit))
                self.assertEqual(set(sender.escaped), {*escaped, 0x7D, 0x7E})
                receiver.feed(b"\xff\x7e")
                removed = [octet for octet in range(32) if plain >> octet & 1]
                packets = [random_packet(rng)[:limit] for _ in range(6)] + [longest(limit), longest(limit, b"\x11")]
                octets = bytearray()
                for octet in b"".join(map(sender.send, packets)):
                    if removed and rng.random() < 0.2:
                        octets.append(rng.choice(removed))
                    octets.append(octet)
                found = [report for piece in pieces(octets, rng, 50) for report in receiver.feed(piece)]
                self.assertEqual([report.octets for report in found], packets)

    def test_damaged(self):
        for width, escaped in itertools.product(WIDTHS, (b"", CONTROLS, b"\x41\xff")):
            octets = PlainSender(width, escaped=escaped).send(NINE + b"\x11\x7e\x7d")
            for at, bit in itertools.product(range(len(octets) - 1), range(8)):
                damaged = bytearray(octets)
                damaged[at] ^= 1 << bit
                found = in_plain(width=width).feed(damaged)
                self.assertTrue(found and not any(isinstance(report, Packet) for report in found))

    def test_longest(self):
        """The longest packet, every octet of it escaped, takes no more than the C library's KUTA_PLAIN_AREA."""
        for limit, width in itertools.product(LIMITS, WIDTHS):
            octets = PlainSender(width, limit, b"\x7d").send(longest(limit))
            self.assertLessEqual(len(octets), 2 * (limit + width // 8) + 1)
            self.assertEqual(octets[:2 * limit], b"\x7d\x5e" * limit)
            self.assertEqual(in_plain(0, width, limit).feed(octets), [Packet(longest(limit), len(octets) - 1)])

    def test_refusals(self):
        for limit, width in itertools.product(LIMITS, WIDTHS):
            sender = PlainSender(width, limit)
            for length in (0, 1, limit + 1, 70000):
                with self.assertRaises(RefusedCall) as caught:
                    sender.send(bytes(length))
                self.assertEqual((caught.exception.number, caught.exception.reason),
                                 (1, f"a packet must have 2 to {limit:,} octets"))
        for plain, escaped in ((1, b""), (1 << 31, bytes(range(31))), (0, b"\x5e"), (0, b"\x20"), (0, b"\x3f")):
            with self.assertRaisesRegex(ValueError, "5E nor any of 20 to 3F"):
                Pair.open(plain=plain, escaped=escaped)
            if plain == 0:
                with self.assertRaisesRegex(ValueError, "5E nor any of 20 to 3F"):
                    PlainSender(escaped=escaped)
        for take in (lambda plain: Receiver(plain=plain), lambda plain: Pair.open(plain=plain, escaped=CONTROLS),
                     lambda plain: kuta.reports(b"", plain=plain)):
            for wrong in (-1, 1 << 32):
                with self.assertRaisesRegex(ValueError, f"plain must be from 0 to 4294967295, not {wrong}"):
                    take(wrong)
            for wrong in ("0", b"\x11", 1.0):
                with self.assertRaises(TypeError):
                    take(wrong)
        with self.assertRaises(TypeError):
            Pair.open(plain=None)
        for take in (PlainSender, lambda width: Pair.open(width=width)):
            with self.assertRaisesRegex(ValueError, "width must be 16 or 32, not 24"):
                take(24)
        for take in (lambda limit: PlainSender(limit=limit), lambda limit: Pair.open(limit=limit)):
            for wrong in WRONG_LIMITS:
                with self.assertRaisesRegex(ValueError, f"^limit must be from 2 to 16384, not {wrong}$"):
                    take(wrong)
        for wrong in ("\x11", 17, [17], None):
            with self.assertRaises(TypeError):
                PlainSender(escaped=wrong)
            with self.assertRaises(TypeError):
                PlainSender().send(wrong)

    def test_saved_receiver(self):
        """At each octet of a line that changes over: what is read, and its map, come back."""
        line = NINE_SENT + b"\x05\x31\x7e" + REQUEST_ESCAPED + b"\x7d\x7e" + REQUEST_ESCAPED
        for plain in (None, 0, 0xFFFFFFFF):
            whole = Receiver(plain=plain).feed(line)
            for cut in range(len(line)):
                receiver = Receiver(plain=plain)
                found = receiver.feed(line[:cut])
                for other in (Receiver.restore(receiver.save()), pickle.loads(pickle.dumps(receiver))):
                    self.assertEqual((other.plain, other.reads_plain, other.state, repr(other)),
                                     (plain, receiver.reads_plain, receiver.state, repr(receiver)))
                    self.assertEqual(found + other.feed(line[cut:]), whole)
        saved = Receiver().save()
        for at, octet in ((5, 4), (5, 3), (25, 5)):  # no mode; an escape open, or 5 remembered, out of a frame
            with self.assertRaises(RefusedCall):
                Receiver.restore(saved[:at] + bytes((octet,)) + saved[at + 1:])

    def test_saved_sender(self):
        for width, limit in itertools.product(WIDTHS, LIMITS):
            sender = PlainSender(width, limit, CONTROLS)
            saved = sender.save()
            self.assertEqual((saved, len(saved)), (sender.state, 64))
            self.assertEqual(repr(sender), f"<PlainSender, width {width}, limit {limit}, 34 octets escaped>")
            for other in (PlainSender.restore(bytearray(saved)), copy.copy(sender), pickle.loads(pickle.dumps(sender))):
                self.assertEqual((other.state, other.escaped, repr(other)), (saved, sender.escaped, repr(sender)))
                self.assertEqual(other.send(b"\x11\x13"[:limit]), sender.send(b"\x11\x13"[:limit]))
            for wrong in (b"", saved[:-1], saved + b"\0"):
                with self.assertRaisesRegex(ValueError, f"no PlainSender was saved as {len(wrong)} octets"):
                    PlainSender.restore(wrong)
            # octet 0, the width, the limit, 7D and 7E not marked, 5E marked, 20 marked
            for at, octet in ((0, 0), (0, 2), (1, 24), (3, 255), (4 + 15, 0x20), (4 + 15, 0x40), (4 + 11, 0x40), (4 + 4, 1)):
                with self.assertRaises(RefusedCall) as caught:
                    PlainSender.restore(saved[:at] + bytes((octet,)) + saved[at + 1:])
                self.assertEqual(caught.exception.number, 3)
        pair = pickle.loads(pickle.dumps(Pair.open(plain=1, escaped=b"\0")))
        self.assertEqual((type(pair), pair.sender.escaped, pair.receiver.plain), (Pair, b"\0\x7d\x7e", 1))


class Saving(unittest.TestCase):
    def test_receiver(self):
        for cut in range(len(MARKED)):
            receiver = Receiver()
            found = receiver.feed(MARKED[:cut])
            for other in (Receiver.restore(receiver.save()), copy.copy(receiver), copy.deepcopy(receiver),
                          pickle.loads(pickle.dumps(receiver))):
                self.assertEqual((other.state, other.place, other.settings), (receiver.state, cut, 3))
                self.assertEqual(found + other.feed(MARKED[cut:]), MARKED_REPORTS)
            self.assertEqual(found + receiver.feed(MARKED[cut:]), MARKED_REPORTS)

    def test_sender(self):
        for width in WIDTHS:
            sender = Sender(width=width)
            sender.load(NINE)
            sender.write(4)
            sender.load(b"urgent", urgent=True)
            others = [Sender.restore(bytearray(sender.save())), copy.copy(sender), pickle.loads(pickle.dumps(sender))]
            rest = sender.rest()
            for other in others:
                self.assertEqual((other.place, other.width), (4, width))
                self.assertEqual(other.rest(), rest)
                self.assertEqual(other.save(), sender.save())

    def test_receiver_at_32_bits(self):
        line, found = b"\x0e123\x7e" + NINE_SENT_32, [Held(3, False, 4), Packet(NINE, 19)]
        for cut in range(len(line)):
            receiver = Receiver(width=32)
            before = receiver.feed(line[:cut])
            other = pickle.loads(pickle.dumps(receiver))
            self.assertEqual((other.state, other.place, other.width), (receiver.state, cut, 32))
            self.assertEqual(before + other.feed(line[cut:]), found)

    def test_limits(self):
        """Any width and limit comes back, with areas of its own lengths and what was in them."""
        for limit, width in itertools.product(LIMITS, WIDTHS):
            sender, receiver = Sender(1, width, limit), Receiver(2, width, limit)
            for end, area in ((sender, limit + width // 8), (receiver, limit + width // 8 + 1)):
                saved = end.save()
                self.assertEqual(len(saved), 72 + 2 * area)
                other = type(end).restore(saved)
                self.assertEqual((other.settings, other.width, other.limit), (end.settings, width, limit))
                self.assertEqual((other.state, other.save(), repr(other)), (end.state, saved, repr(end)))
            sender, receiver = Sender(3, width, limit), Receiver(3, width, limit)
            sender.load(longest(limit))
            octets = sender.write(limit // 2 + 1)
            sender.load(longest(limit, b"\x41"), urgent=True)
            octets += sender.write()
            receiver.feed(octets)
            senders = [Sender.restore(sender.save()), copy.copy(sender), pickle.loads(pickle.dumps(sender))]
            rest = sender.rest()
            self.assertEqual([other.rest() for other in senders], [rest] * 3)
            receivers = [Receiver.restore(receiver.save()), copy.copy(receiver), pickle.loads(pickle.dumps(receiver))]
            found = receiver.feed(rest)
            self.assertEqual([report.octets for report in found], [longest(limit, b"\x41"), longest(limit)])
            self.assertEqual([other.feed(rest) for other in receivers], [found] * 3)
            for other in senders:
                with self.assertRaisesRegex(RefusedCall, f" {limit:,} octets"):
                    other.load(bytes(limit + 1))

    def test_what_was_not_saved(self):
        for (end, other), width, limit in itertools.product(((Receiver, Sender), (Sender, Receiver)), WIDTHS, LIMITS):
            saved = end(width=width, limit=limit).save()
            self.assertEqual((saved[:64], len(end().state)), (end(width=width, limit=limit).state, 64))
            # Not of the length that the width and the limit in the state ask for: cut, another end's, these two spoilt.
            wrongs = [b"", b"\x01", bytes(71), saved[:71], saved[:72], saved[:-1], saved[:-2]]
            wrongs += [saved + b"\0", saved + bytes(2), *(other(width=each, limit=limit).save() for each in WIDTHS)]
            wrongs += [saved[:1] + bytes((48 - width,)) + saved[2:]]
            wrongs += [saved[:2] + each.to_bytes(2, "little") + saved[4:] for each in (limit ^ 1, limit ^ 2, 300)
                       if 2 <= each <= 16384]
            for wrong in wrongs:
                with self.assertRaisesRegex(ValueError, f"no {end.__name__} .*was saved as {len(wrong)} octets"):
                    end.restore(wrong)
            at = 5 if end is Sender else 22  # the lane on the line; the last block
            spoilt = [saved[:at] + octet + saved[at + 1:] for octet in (b"\x01", b"\x03")]
            spoilt += [saved[:1] + bytes((octet,)) + saved[2:] for octet in (0, 24, 255)]  # the width
            spoilt += [saved[:2] + each.to_bytes(2, "little") + saved[4:] for each in (0, 1, 16385, 65535)]  # the limit
            for wrong in (bytes(len(saved)), *spoilt):
                with self.assertRaises(RefusedCall) as caught:
                    end.restore(wrong)
                self.assertEqual(caught.exception.number, 3)
            with self.assertRaises(TypeError):
                end.restore("saved")

    def test_out_of_bounds_at_another_limit(self):
        """A state that holds more than its limit allows, with areas of the lengths for that limit."""
        sender, receiver = Sender(limit=9), Receiver(limit=9)
        sender.load(NINE)
        receiver.feed(b"\x20" + bytes(12))
        for end in (sender, receiver):
            saved, area = end.save(), len(end.save()[72:]) // 2
            with self.assertRaises(RefusedCall) as caught:
                type(end).restore(saved[:2] + b"\x08\0" + saved[4:71 + area] + saved[72 + area:-1])
            self.assertEqual(caught.exception.number, 3)
            larger = type(end).restore(saved[:2] + b"\x0a\0" + saved[4:72 + area] + b"\0" + saved[72 + area:] + b"\0")
            self.assertEqual((larger.limit, larger.state[4:]), (10, end.state[4:]))


class CheckSequence(unittest.TestCase):
    def test_register(self):
        self.assertEqual(kuta.pppfcs16(NINE), 0x6F91)
        self.assertEqual(kuta.pppfcs16(b""), 0xFFFF)
        self.assertEqual(kuta.pppfcs16(NINE[4:], kuta.pppfcs16(NINE[:4])), 0x6F91)
        self.assertEqual(kuta.pppfcs16(NINE + b"\x6e\x90"), 0xF0B8)
        for wrong in (-1, 65536):
            with self.assertRaises(ValueError):
                kuta.pppfcs16(NINE, wrong)

    def test_register_of_32_bits(self):
        self.assertEqual(kuta.pppfcs32(NINE), 0x340BC6D9)
        self.assertEqual(kuta.pppfcs32(b""), 0xFFFFFFFF)
        self.assertEqual(kuta.pppfcs32(NINE[4:], kuta.pppfcs32(NINE[:4])), 0x340BC6D9)
        self.assertEqual(kuta.pppfcs32(NINE + b"\x26\x39\xf4\xcb"), 0xDEBB20E3)
        rng = random.Random(5)
        for length in (*range(300), 2048, 2052, 70000):
            octets, start = bytes(rng.randrange(256) for _ in range(length)), rng.getrandbits(32)
            self.assertEqual(kuta.pppfcs32(octets) ^ 0xFFFFFFFF, zlib.crc32(octets))
            self.assertEqual(kuta.pppfcs32(octets, start ^ 0xFFFFFFFF) ^ 0xFFFFFFFF, zlib.crc32(octets, start))
        for wrong in (-1, 1 << 32):
            with self.assertRaises(ValueError):
                kuta.pppfcs32(NINE, wrong)


class Module(unittest.TestCase):
    def test_doc_string(self):
        failed, tried = doctest.testmod(kuta)
        self.assertEqual(failed, 0)
        self.assertGreater(tried, 8)

    def test_readme(self):
        """The page's examples, run one behind the other from the root of the repository."""
        failed, tried = doctest.testfile(os.path.join(HERE, "README.md"), module_relative=False)
        self.assertEqual(failed, 0)
        self.assertGreater(tried, 8)

    def test_all(self):
        self.assertTrue(all(hasattr(kuta, name) for name in kuta.__all__))


class Program(unittest.TestCase):
    def run_with(self, arguments, octets=b"", environment=(), path=HERE):
        done = subprocess.run([sys.executable, "-B", *arguments], input=octets, cwd=ROOT, stdout=subprocess.PIPE,
                              stderr=subprocess.PIPE, env={**os.environ, "PYTHONPATH": path, **dict(environment)})
        return done.returncode, done.stdout.decode(), done.stderr.decode()

    def test_files(self):
        one = os.path.join("examples", "marked.octets")
        said = stored(os.path.join(ROOT, one), "lines")
        self.assertEqual(self.run_with(["-m", "kutarehopa", one]), (0, said, ""))
        self.assertEqual(self.run_with(["-m", "kutarehopa"], octets_of(os.path.join(ROOT, one))), (0, said, ""))
        status, out, error = self.run_with(["-m", "kutarehopa", one, "no such file", one])
        self.assertEqual((status, out), (1, f"==> {one} <==\n{said}\n==> {one} <==\n{said}"))
        self.assertEqual(error, "kutarehopa: no such file: cannot be read: No such file or directory\n")

    def test_width(self):
        line, said = os.path.join("examples", "alarm-32.line"), stored(os.path.join(ROOT, "examples", "alarm.octets"), "lines")
        self.assertEqual(self.run_with(["-m", "kutarehopa", "--width", "32", line]), (0, said, ""))
        self.assertNotEqual(self.run_with(["-m", "kutarehopa", line])[1], said)
        status, out, error = self.run_with(["-m", "kutarehopa", "--width", "24", line])
        self.assertEqual((status, out), (2, ""))
        self.assertIn("--width", error)
        self.assertTrue(error.endswith("kutarehopa: error: width must be 16 or 32, not 24\n"), error)

    def test_limit(self):
        packet = b"7" * 2049
        octets, said = kuta.line([packet], limit=2049), f"P 2049 {packet.hex(' ')}\n"
        for arguments, out in (([], "R 10\n"), (["--limit", "2049"], said)):
            self.assertEqual(self.run_with(["-m", "kutarehopa", *arguments], octets), (0, out, ""))
        for limit, out in (("9", "P 9 31 32 33 34 35 36 37 38 39\n"), ("8", "R 10\n")):
            found = self.run_with(["-m", "kutarehopa", "--width", "32", "--limit", limit], NINE_SENT_32)
            self.assertEqual(found, (0, out, ""))
        for arguments, said in ((["--limit", "1"], "limit must be from 2 to 16384, not 1\n"),
                                (["--width", "24", "--limit", "16385"], "limit must be from 2 to 16384, not 16385\n"),
                                (["--limit", "many"], "argument --limit: invalid int value: 'many'\n")):
            status, out, error = self.run_with(["-m", "kutarehopa", *arguments, "no such file"])
            self.assertEqual((status, out), (2, ""))
            self.assertTrue(error.endswith(f"kutarehopa: error: {said}"), error)

    def test_plain(self):
        octets = REQUEST_ESCAPED + b"\xff\x7d\x7e" + REQUEST_SENT
        request = f"P 8 {REQUEST.hex(' ').upper()}\n"
        for arguments, out in (([], f"{request}R 18\n{request}"), (["--plain", "0"], f"{request}R 18\n{request}"),
                               (["--plain", "off"], "R 5\nR 5\nR 5\n"),
                               (["--plain", "FFFFFFFF"], f"{request}R 18\nR 14\n"),
                               (["--plain=0xffffffff"], f"{request}R 18\nR 14\n")):
            self.assertEqual(self.run_with(["-m", "kutarehopa", *arguments], octets), (0, out, ""))
        for wrong in ("on", "-1", "100000000", "0A000x", ""):
            status, out, error = self.run_with(["-m", "kutarehopa", f"--plain={wrong}", "no such file"])
            self.assertEqual((status, out), (2, ""))
            self.assertTrue(error.endswith("kutarehopa: error: argument --plain: must be off, or a map of 1 to 8 "
                                           f"hexadecimal digits, not {wrong!r}\n"), error)

    def test_nobody_reads_on(self):
        command = f"'{sys.executable}' -B -m kutarehopa - | head -n 1"
        done = subprocess.run(["bash", "-c", command + "; exit ${PIPESTATUS[0]}"], input=NINE_SENT * 20000,
                              env={**os.environ, "PYTHONPATH": HERE}, stdout=subprocess.PIPE, stderr=subprocess.PIPE)
        self.assertEqual((done.returncode, done.stdout, done.stderr), (141, b"P 9 31 32 33 34 35 36 37 38 39\n", b""))

    def test_missing_library(self):
        """A copy of the module, with no checkout around it and no library named; and a name that is wrong."""
        with tempfile.TemporaryDirectory() as folder:
            os.mkdir(os.path.join(folder, "python"))
            shutil.copy(os.path.join(HERE, "kutarehopa.py"), os.path.join(folder, "python"))
            bare = {"KUTAREHOPA_LIBRARY": "", "LD_LIBRARY_PATH": ""}
            path = os.path.join(folder, "python")
            try:
                ctypes.CDLL("libkutarehopa.so.0")  # in a system that has one there is nothing to miss
            except OSError:
                status, out, error = self.run_with(["-c", "import kutarehopa"], environment=bare.items(), path=path)
                self.assertEqual((status, out), (1, ""))
                for part in ("ImportError", "libkutarehopa.so.0:", "make", "KUTAREHOPA_LIBRARY"):
                    self.assertIn(part, error)
            for wrong in ("/no/such/library.so", os.path.join(HERE, "kutarehopa.py"), "libc.so.6"):
                status, out, error = self.run_with(["-c", "import kutarehopa"],
                                                   environment=[("KUTAREHOPA_LIBRARY", wrong)], path=path)
                self.assertEqual((status, out), (1, ""))
                for part in ("ImportError", os.path.basename(wrong), "unset"):
                    self.assertIn(part, error)

    def test_checkout_and_system(self):
        """Without the variable: the library that stands in target/lib; then one that the system's loader finds."""
        library = kuta._library._name
        if not os.path.exists(library):
            self.skipTest("the library in use has no path to copy it from")
        with tempfile.TemporaryDirectory() as folder:
            built = os.path.join(folder, "target", "lib")
            os.makedirs(built)
            os.mkdir(os.path.join(folder, "python"))
            shutil.copy(os.path.join(HERE, "kutarehopa.py"), os.path.join(folder, "python"))
            path, where = os.path.join(folder, "python"), ["-c", "import kutarehopa; print(kutarehopa._library._name)"]
            shutil.copy(library, os.path.join(built, "libkutarehopa.so.0"))
            bare = [("KUTAREHOPA_LIBRARY", ""), ("LD_LIBRARY_PATH", built)]
            found = self.run_with(where, environment=bare, path=path)
            self.assertEqual(found, (0, "libkutarehopa.so.0\n", ""))
            os.rename(os.path.join(built, "libkutarehopa.so.0"), os.path.join(built, "libkutarehopa.so"))
            self.assertEqual(self.run_with(where, environment=bare, path=path)[:2], (1, ""))  # this is no checkout
            with open(os.path.join(folder, "crates.txt"), "w"):
                pass
            found = self.run_with(where, environment=bare, path=path)
            self.assertEqual(found, (0, os.path.join(os.path.realpath(built), "libkutarehopa.so") + "\n", ""))
            wrong = self.run_with(where, environment=[("KUTAREHOPA_LIBRARY", "/no/such/library.so")], path=path)
            self.assertEqual(wrong[:2], (1, ""))
            with open(os.path.join(built, "libkutarehopa.so"), "wb") as file:
                file.write(b"no library")
            found = self.run_with(where, environment=bare, path=path)
            self.assertEqual(found[:2], (1, ""))
            self.assertNotIn("libkutarehopa.so.0", found[2])


if __name__ == "__main__":
    os.chdir(ROOT)
    unittest.main()

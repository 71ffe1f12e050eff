#!/usr/bin/env python3
"""Our plain PPP (RFC 1662, octet stuffing) held against two programs that others wrote, pppdump and tshark:

    DEBIAN_FRONTEND=noninteractive apt-get install -y ppp tshark
    python3 tests/against_pppdump.py --seed 1 --count 3000 --driver target/bin/exercise
    python3 tests/against_pppdump.py --seed 1 --count 3000 --driver "MODEL exercise"      (the model: tests/model)

It needs both programs and is no part of the gate. Our sender makes the frames (command `p`, `w` of the exercise driver), our receiver reads them
(`r`), both programs read the same octets from a record file of pppd, all with the 16-bit FCS. For each of several pairs of maps:

1. a line of what our sender made: all three must deliver the packets that were sent;
2. the same frames damaged: all three must deliver the same packets from the same places of the line. Where they do not, one of RULES has to say why;
   what no rule explains is a difference, and the script fails.

A line is taken as its stretches: the octets between two flags. Before each stretch the record file has a step of time, by which the answers of both
programs are matched with the stretches.

So that the two rules that change what is read hide nothing, both are undone, and then each stretch must end in the same way, packet or not:
3. our reading of the damaged line is held against theirs of the line mended (the octets that our map removes and lone escapes taken out);
   it stands in the record file as the other direction;
4. our reading, with an empty map, of the damaged line as they take it (a lone escape carried over the flag) against theirs of the damaged line.
"""
import argparse
import os
import random
import shlex
import shutil
import struct
import subprocess
import sys
import tempfile
from collections import Counter
from dataclasses import dataclass

FLAG, ESCAPE = b"\x7e", b"\x7d"
SETTINGS, WIDTH, LIMIT = 3, 16, 2048
LONGEST = LIMIT + 2  # a frame, with its FCS
BEYOND = 6000  # the longest packet sent by a sender opened with a larger limit
# Both programs collect a frame in 8,192 octets. tshark ends its reading at a longer one; pppdump 2.4.9 writes on behind its area, so it gets none.
THEIR_LONGEST = 8000
LINE, MENDED = 2, 1  # the directions of a record file: received, sent
TOO_LONG, TOO_SHORT, BAD_CHECK, ABORTED = 10, 13, 14, 18  # our refusals
SHOWN = 10


@dataclass
class Frame:
    """What one of the two programs made of a stretch: the octets without the FCS (all of them if there is no more than an FCS)."""

    packet: bytes = b""
    length: int = 0  # with the FCS
    good: bool = True
    aborted: bool = False

    def delivered(self):
        return self.packet if self.length > 2 and self.good and not self.aborted else None

    def verdict(self):
        """What we have to say of a stretch with this outcome."""
        if self.length > LONGEST:
            return TOO_LONG
        if self.aborted:
            return ABORTED
        if self.length < 4:
            return TOO_SHORT
        return self.packet if self.good else BAD_CHECK

    def __str__(self):
        return f"{self.length} octets{', aborted' * self.aborted}{', bad FCS' * (not self.good)}: {self.packet[:40].hex(' ')}"


@dataclass
class Place:
    """A stretch of a damaged line, what we said of it, and what the others did."""

    stretch: bytes
    removed: bool  # it has octets that our map removes
    carried: bool  # they begin it with an escape left open before
    ours: object  # a packet, the number of a refusal, or None
    theirs: dict  # program -> Frame or None

    def delivered(self, program):
        frame = self.theirs[program]
        return frame.delivered() if frame else None

    def aborted(self):
        """Only pppdump says so."""
        return self.theirs["pppdump"] is not None and self.theirs["pppdump"].aborted


# ---- what is known to differ; the place is one where we and the program do not deliver the same

RULES = {
    # They have no receiving map (Linux has one): a control octet that came in on the way is an octet of the frame to them.
    "removes no control octets": lambda place, program: place.removed,
    # At a flag with nothing before it they leave the escape as it is, so 7D alone between two flags escapes the first octet behind. To us it is an
    # aborted frame, and the next one begins anew.
    "carries a lone escape over the flag": lambda place, program: place.carried,
    # pppdump says only ERROR of a packet above its MRU and prints it all the same; tshark takes any up to 8,192. We were opened with 2,048.
    "takes packets above 2,048": lambda place, program: place.ours == TOO_LONG and place.theirs[program].length > LONGEST,
    # RFC 1662 calls a frame of fewer than 4 octets with a 16-bit FCS invalid; they want one octet before the FCS. (tshark tests no FCS where this
    # octet is FF, 0F or 8F, which counts as not delivered.)
    "takes a packet of one octet": lambda place, program: place.ours == TOO_SHORT and place.theirs[program].length == 3,
    # tshark takes a frame closed by 7D 7E as if the 7D were not there; pppdump says that it was aborted.
    "knows no abort": lambda place, program: program == "tshark" and place.ours == ABORTED and place.aborted(),
}


def rule_of(place, program):
    """The first rule for why the program does not deliver here what we do."""
    return next((name for name, holds in RULES.items() if holds(place, program)), None)


# ---- our two ends, by the exercise driver


def number(value):
    return struct.pack("<H", value)


def octets(content):
    return number(len(content)) + content


def opened_pair(pair, limit):
    marks = sum(1 << mark for mark in pair.marks)
    return b"p" + bytes([SETTINGS, WIDTH]) + number(limit) + struct.pack("<I", pair.map) + marks.to_bytes(32, "little")


def opened_without_map():
    return b"O" + bytes([SETTINGS, WIDTH]) + number(LIMIT) + b"\x01" + bytes(4)


def driven(driver, script):
    return subprocess.run(driver, input=script, stdout=subprocess.PIPE, check=True).stdout.decode().splitlines()


def sent(driver, pair, packets, limit=LIMIT):
    """The octets on the line of each packet, its flag included."""
    script = opened_pair(pair, limit) + b"A" + number(40960) + b"".join(b"w" + octets(packet) for packet in packets)
    answers = [line.split() for line in driven(driver, script)]
    if [answer[0] for answer in answers] != ["W"] * len(packets):
        sys.exit(f"a packet was not sent: {answers[:3]}")
    return [bytes.fromhex("".join(answer[2:])) for answer in answers]


def report(lines):
    """What was said of one stretch: a packet, the number of a refusal, or nothing."""
    if not lines:
        return None
    if len(lines) > 1 or lines[0][0] not in "PR":
        sys.exit(f"no answers to one stretch of plain PPP: {lines}")
    fields = lines[0].split()
    return int(fields[1]) if fields[0] == "R" else bytes.fromhex("".join(fields[3:]))


def our_reading(driver, opening, stretches):
    """A report for each stretch; behind each, the driver is asked for no octets of an area, which makes a line X."""
    mark = b"x" + bytes(5)
    script = opening + b"".join(b"r" + octets(stretch + FLAG) + mark for stretch in stretches)
    reports, lines = [], []
    for line in driven(driver, script):
        if line == "X":
            reports.append(report(lines))
            lines = []
        else:
            lines.append(line)
    if lines or len(reports) != len(stretches):
        sys.exit(f"{len(stretches)} stretches, {len(reports)} answers, then {lines[:3]}")
    return reports


# ---- theirs, by a record file


def record(direction, content):
    return bytes([direction]) + struct.pack(">H", len(content)) + content


def write_records(path, stretches, mended):
    """The time 0, then for each stretch a step of a tenth of a second, the stretch as received, and the mended one as sent."""
    with open(path, "wb") as file:
        file.write(b"\x07" + bytes(4))
        for one, other in zip(stretches, mended):
            file.write(b"\x06\x01" + record(LINE, one + FLAG) + record(MENDED, other + FLAG))


def pppdump_reading(path, count):
    """-p: packets. -m: no ERROR lines, which would stand between the others."""
    text = subprocess.run(["pppdump", "-p", "-m", "65535", path], stdout=subprocess.PIPE, check=True).stdout.decode("latin-1")
    found = {LINE: [None] * count, MENDED: [None] * count}
    at, frame, further = -1, None, 0
    for line in text.splitlines()[1:]:
        direction = {"rcvd": LINE, "sent": MENDED}.get(line[:4])
        if line.startswith("time "):
            at += 1
            continue
        if direction:
            frame = found[direction][at] = Frame(aborted=line.endswith(" aborted packet:"))
            if frame.aborted:
                further = 5  # the next line stands so much further to the right
                continue
        take_line(frame, line[5 + further :])
        further = 0
    return found


def take_line(frame, text):
    """Up to 16 octets, each as a space and two digits, and then as characters; or a remark."""
    if text.startswith("short packet"):
        frame.packet = bytes.fromhex(text.split(":")[1])
        frame.length = len(frame.packet)
    elif text.startswith("BAD FCS"):
        frame.good = False
    else:
        frame.packet += bytes.fromhex(text[:48])
        frame.length = len(frame.packet) + 2


def tshark_reading(path, count):
    """The frames are written as pcap, their FCS status as text (1: good). A frame that begins 0F or 8F is Cisco's to tshark, its FCS is the same."""
    pcap = path + ".pcap"
    command = ["tshark", "-n", "-r", path, "-o", "ppp.fcs_type:16-Bit", "-o", "chdlc.fcs_type:16-Bit"]
    command += ["-F", "pcap", "-w", pcap, "-P", "-T", "fields", "-e", "ppp.fcs.status", "-E", "occurrence=f"]
    environment = dict(os.environ, WIRESHARK_CONFIG_DIR=os.path.dirname(path))
    done = subprocess.run(command, stdout=subprocess.PIPE, stderr=subprocess.PIPE, env=environment)
    if done.returncode:
        sys.exit(f"tshark: {done.stderr.decode()}")
    found = {LINE: [None] * count, MENDED: [None] * count}
    for (at, direction, content), status in zip(pcap_frames(pcap), done.stdout.decode().splitlines(), strict=True):
        packet = content[:-2] if len(content) > 2 else content
        found[direction][at] = Frame(packet, len(content), status == "1")
    return found


def pcap_frames(path):
    """Place, direction and octets of each; before the octets stands 1 for sent, 0 for received."""
    with open(path, "rb") as file:
        head = file.read(24)
        if struct.unpack("=I", head[20:])[0] != 204:
            sys.exit("tshark wrote another link type than PPP with directions")
        while head := file.read(16):
            seconds, micros, length, _ = struct.unpack("=IIII", head)
            content = file.read(length)
            yield seconds * 10 + micros // 100000 - 1, MENDED if content[0] else LINE, content[1:]


# ---- packets and maps


@dataclass
class Pair:
    map: int
    marks: set

    def removes(self, octet):
        return octet < 0x20 and self.map >> octet & 1


def map_pairs(rng):
    """Nothing but 7D and 7E; all control octets; and random pairs: the marks have all of the map, and not 20 to 3F nor 5E."""
    yield Pair(0, {0x7D, 0x7E})
    yield Pair(0xFFFFFFFF, {*range(0x20), 0x7D, 0x7E})
    allowed = [*range(0x20), *range(0x40, 0x5E), *range(0x5F, 0x100)]
    for _ in range(4):
        pair = Pair(rng.getrandbits(32), set(rng.sample(allowed, rng.randrange(60))) | {0x5D, 0x7D, 0x7E})
        pair.marks.update(octet for octet in range(0x20) if pair.removes(octet))
        yield pair


def some_octets(rng, longest):
    """Short ones more often than long ones."""
    return rng.randbytes(rng.randint(0, rng.choice([8, 64, longest])))


def lcp_like(rng):
    options = b"\x01\x04\x05\xdc\x02\x06" + rng.randbytes(4) + b"\x05\x06" + rng.randbytes(4) + b"\x07\x02\x08\x02"
    return b"\xc0\x21" + bytes([rng.randint(1, 4), rng.getrandbits(8)]) + struct.pack(">H", 4 + len(options)) + options


def ip_like(rng):
    content = some_octets(rng, 1474)
    head = b"\x45\x00" + struct.pack(">H", 20 + len(content)) + rng.randbytes(4) + b"\x40\x06" + rng.randbytes(10)
    return rng.choice([b"\x00\x21", b"\x21"]) + head + content


def stuffed_often(rng):
    """Octets that are escapes, look like one, or become one."""
    return bytes(rng.choices(b"\x5d\x5e\x7d\x7e\x11\x13\x31\x20\x00\xff", k=rng.randint(2, 200)))


def packet(rng):
    kind = rng.choice([lcp_like, ip_like, stuffed_often, lambda rng: rng.randbytes(2) + some_octets(rng, 1496)])
    return rng.choice([b"\xff\x03", b""]) + kind(rng)


def long_packets(rng, count):
    """About the limit, and well above it."""
    return [rng.randbytes(rng.choice([2047, 2048, 2049, 2050, rng.randint(2051, BEYOND)])) for _ in range(count)]


# ---- damage: each takes the octets of a frame on the line, with its flag


def with_bits_flipped(rng, frame):
    frame = bytearray(frame)
    for _ in range(rng.randint(1, 3)):
        frame[rng.randrange(len(frame))] ^= 1 << rng.randrange(8)
    return bytes(frame)


def with_octets_lost(rng, frame):
    at = rng.randrange(len(frame))
    return frame[:at] + frame[at + rng.randint(1, 3) :]


def put_in(content, frame, at):
    return frame[:at] + content + frame[at:]


def with_abort(rng, frame):
    """Anywhere, or behind the whole frame."""
    return put_in(ESCAPE + FLAG, frame, rng.choice([rng.randrange(len(frame)), len(frame) - 1]))


def with_flags(rng, frame):
    return put_in(FLAG * rng.randint(1, 3), frame, rng.choice([0, rng.randrange(len(frame))]))


def with_escape(rng, frame):
    return put_in(ESCAPE, frame, rng.randrange(len(frame)))


def with_control_octets(rng, frame):
    """Anywhere, or behind an escape."""
    for _ in range(rng.randint(1, 4)):
        behind = frame.find(ESCAPE, rng.randrange(len(frame))) + 1
        frame = put_in(bytes([rng.randrange(0x20)]), frame, rng.choice([behind, rng.randrange(len(frame))]))
    return frame


def with_noise_before(rng, frame):
    return rng.randbytes(rng.randint(1, 40)) + FLAG + frame


def with_lone_escape_before(rng, frame):
    """The last one leaves flags between it and the frame."""
    return rng.choice([b"\x7d\x7e", b"\x7d\x11\x7e", b"\x7d\x7e\x7d\x7e", b"\x11\x7e", b"\x7d\x7e\x7e\x7e"]) + frame


def with_short_before(rng, frame):
    """Packets of one octet or none with a good FCS, or up to three octets."""
    short = rng.randbytes(rng.randint(0, 1))
    return stuffed(rng.choice([short + fcs(short), short + fcs(short), rng.randbytes(rng.randint(1, 3))])) + FLAG + frame


def fcs(content):
    register = 0xFFFF
    for octet in content:
        register ^= octet
        for _ in range(8):
            register = register >> 1 ^ (0x8408 if register & 1 else 0)
    return struct.pack("<H", register ^ 0xFFFF)


def stuffed(content):
    return b"".join(bytes([0x7D, o ^ 0x20]) if o < 0x20 or o in (0x7D, 0x7E) else bytes([o]) for o in content)


DAMAGES = [with_bits_flipped, with_octets_lost, with_abort, with_flags, with_escape, with_control_octets]
DAMAGES += [with_noise_before, with_lone_escape_before, with_short_before]


def damaged(rng, frame):
    for _ in range(rng.choice([0, 1, 1, 2])):
        frame = rng.choice(DAMAGES)(rng, frame)
    return frame


# ---- lines


def stretches_of(frames, last):
    """FF 7E turns our plain reading on. Behind the frames comes one that is whole: tshark calls a file cut short that ends without one."""
    line = b"\xff\x7e" + b"".join(frames) + FLAG + last
    return [stretch[:THEIR_LONGEST] for stretch in line.split(FLAG)[:-1]]


def without_removed(pair, stretch):
    return bytes(octet for octet in stretch if not pair.removes(octet))


def carried_over(stretches):
    """The line as they take it: a lone escape goes to the next stretch that has octets."""
    line, left = [], b""
    for stretch in stretches:
        taken = left + stretch
        left = ESCAPE if taken == ESCAPE else b""
        line.append(b"" if left else taken)
    return line


# ---- the comparison


class Figures(Counter):
    """Counts by name, and the first differences in words."""

    def __init__(self):
        super().__init__()
        self.differences = []

    def differ(self, words, stretch, ours, theirs):
        ours = ours[:40].hex(" ") if isinstance(ours, bytes) else ours
        self.differ_at_all(f"{words}, {len(stretch)} octets: {stretch[:40].hex(' ')}\n    ours: {ours}\n    theirs: {theirs}\n")

    def differ_at_all(self, words):
        self["different"] += 1
        if len(self.differences) < SHOWN:
            self.differences.append(words)


def their_readings(folder, stretches, mended):
    path = os.path.join(folder, "records")
    write_records(path, stretches, mended)
    return {"pppdump": pppdump_reading(path, len(stretches)), "tshark": tshark_reading(path, len(stretches))}


def hold_whole_line(driver, folder, pair, packets, frames, figures):
    """Step 1."""
    stretches = stretches_of(frames[:-1], frames[-1])
    theirs = their_readings(folder, stretches, stretches)
    lists = {"ours": [found for found in our_reading(driver, opened_pair(pair, LIMIT), stretches) if isinstance(found, bytes)]}
    for program in theirs:
        lists[program] = [found.delivered() for found in theirs[program][LINE] if found and found.delivered() is not None]
    figures["sent"] += len(packets)
    for name, found in lists.items():
        figures["whole", name] += len(found)
        if found != packets:
            figures.differ_at_all(f"undamaged line, {name}: {len(packets)} packets sent, {len(found)} delivered, not the same\n")


def hold_damaged_line(driver, folder, pair, stretches, figures):
    """Steps 2 to 4."""
    kept = [without_removed(pair, stretch) for stretch in stretches]
    mended = [b"" if stretch == ESCAPE else stretch for stretch in kept]
    carried = carried_over(stretches)
    theirs = their_readings(folder, stretches, mended)
    ours = our_reading(driver, opened_pair(pair, LIMIT), stretches)
    ours_without_map = our_reading(driver, opened_without_map(), carried)
    for at, stretch in enumerate(stretches):
        there = {program: theirs[program][LINE][at] for program in theirs}
        hold_place(Place(stretch, stretch != kept[at], stretch != carried[at], ours[at], there), figures)
        lone = kept[at] == ESCAPE  # taken out of the mended line; an aborted frame to us
        here = {program: theirs[program][MENDED][at] for program in theirs}
        hold_outcome("line mended", stretch, ours[at], Frame(aborted=True) if lone else None, here, figures)
        hold_outcome("line as they take it", stretch, ours_without_map[at], None, there, figures)


def hold_place(place, figures):
    """Step 2: what is delivered."""
    ours = place.ours if isinstance(place.ours, bytes) else None
    figures["stretches"] += 1
    figures["damaged", "ours"] += ours is not None
    for program in place.theirs:
        theirs = place.delivered(program)
        figures["damaged", program] += theirs is not None
        rule = None if ours == theirs else rule_of(place, program)
        if ours == theirs:
            figures["same", program] += ours is not None
            figures["same, nothing delivered", program] += ours is None
        elif rule:
            figures[rule, program] += 1
        else:
            figures.differ(f"damaged line, {program}", place.stretch, place.ours, place.theirs[program])


def hold_outcome(words, stretch, ours, lone, found, figures):
    """Steps 3 and 4: the outcome of each stretch, also of those not delivered. `lone`: the frame to be thought of where they have none."""
    one, other = found["pppdump"] or lone, found["tshark"] or lone
    figures["outcomes"] += 1
    if ours != (one.verdict() if one else None):
        figures.differ(f"{words}, pppdump", stretch, ours, one)
    # That a frame was aborted, only pppdump says; a frame too short has no FCS status at tshark.
    elif (one is None) != (other is None) or one and (one.packet, one.length) != (other.packet, other.length):
        figures.differ(f"{words}, tshark", stretch, ours, other)
    elif one and one.length >= 4 and one.good != other.good:
        figures.differ(f"{words}, FCS at tshark", stretch, ours, other)


def print_figures(seed, figures):
    def by_all(line):
        return ", ".join(f"{name} {figures[line, name]:,}" for name in ("ours", "pppdump", "tshark"))

    print(f"seed {seed}: {figures['sent']:,} frames sent, {figures['pairs']} pairs of maps")
    print(f"undamaged lines, delivered: {by_all('whole')}")
    print(f"damaged lines, {figures['stretches']:,} stretches between flags, delivered: {by_all('damaged')}")
    for program in ("pppdump", "tshark"):
        same, none = figures["same", program], figures["same, nothing delivered", program]
        print(f"  {program}: the same packet {same:,}, like us none {none:,}; by a known rule, {program} ...")
        for rule in RULES:
            print(f"    {rule}: {figures[rule, program]:,}")
    print(f"outcomes held with both rules of reading undone: {figures['outcomes']:,}")
    print(f"different: {figures['different']}")
    print("".join(figures.differences), end="")


def run(driver, seed, count, folder):
    rng, figures = random.Random(seed), Figures()
    pairs = list(map_pairs(rng))
    for pair in pairs:
        packets = [packet(rng) for _ in range(max(2, count // len(pairs)))]
        frames = sent(driver, pair, packets)
        hold_whole_line(driver, folder, pair, packets, frames, figures)
        frames += sent(driver, pair, long_packets(rng, len(packets) // 20), BEYOND)
        rng.shuffle(frames)
        last = sent(driver, pair, [lcp_like(rng)])[0]
        hold_damaged_line(driver, folder, pair, stretches_of([damaged(rng, frame) for frame in frames], last), figures)
        figures["pairs"] += 1
    return figures


def main():
    words = argparse.ArgumentParser(description="Our plain PPP held against pppdump and tshark.")
    words.add_argument("--driver", default="target/bin/exercise", help="the exercise driver, or 'MODEL exercise'")
    words.add_argument("--seed", type=int, default=1)
    words.add_argument("--count", type=int, default=3000, help="frames to send")
    asked = words.parse_args()
    missing = [program for program in ("pppdump", "tshark") if not shutil.which(program)]
    if missing:
        sys.exit(f"{' and '.join(missing)} not found; DEBIAN_FRONTEND=noninteractive apt-get install -y ppp tshark")
    with tempfile.TemporaryDirectory() as folder:
        figures = run(shlex.split(asked.driver), asked.seed, asked.count, folder)
    print_figures(asked.seed, figures)
    return 1 if figures["different"] else 0


if __name__ == "__main__":
    sys.exit(main())

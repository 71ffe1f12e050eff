#!/usr/bin/env python3
"""Writes the sample captures, and beside each what the independent model (tests/model) prints of it; and a sample for send.

    python3 examples/make.py MODEL      MODEL: tests/model/model.rs, compiled

The octets of the line are written by the model's sender, too. The damage is done here, by hand."""
import os
import struct
import subprocess
import sys

HERE = os.path.dirname(os.path.abspath(__file__))
MODEL = sys.argv[1]
FLAG = b"\x7e"


def model(mode, given):
    return subprocess.run([MODEL, mode], input=given, capture_output=True, check=True).stdout


def load(letter, packet):
    return letter + struct.pack("<H", len(packet)) + packet


def calls(n):
    return b"n" + struct.pack("<H", n)


def opened(letter, width, limit=2048):
    """An end, both settings on, and areas that are long enough for either width; of a receiver plain reading is on, its map empty."""
    lent = struct.pack("<4H", limit + 4, limit + 4, limit + 5, limit + 5)
    reading = struct.pack("<BI", 1, 0) if letter == b"O" else b""
    return b"a" + lent + letter + struct.pack("<BBH", 3, width, limit) + reading


def sent(script, width=16, limit=2048):
    """The octets that a fresh sender writes for a script."""
    lines = model("exercise", opened(b"o", width, limit) + script).decode().split("\n")
    return bytes(int(line[2:], 16) for line in lines if line.startswith("O "))


def received(octets, width, limit=2048):
    """The lines of a fresh receiver's reports, as capture has them: without the number of a packet's area."""
    lines = model("exercise", opened(b"O", width, limit) + b"r" + struct.pack("<H", len(octets)) + octets).decode().split("\n")
    return "\n".join("P" + line[3:] if line.startswith("P ") else line for line in lines).encode()


def frame(packet):
    return sent(load(b"l", packet) + calls(5000))


def broken_off(packet, at, urgent):
    """Three frames: the packet, broken off after so many octets; the urgent one; the rest of the packet."""
    line = sent(load(b"l", packet) + calls(at) + load(b"h", urgent) + calls(9000))
    frames = line.split(FLAG)
    assert len(frames) == 4 and frames[3] == b""
    return [f + FLAG for f in frames[:3]]


# ---- packets, as PPP has them: a protocol number, then what it carries


def echo_reply(number):
    return bytes.fromhex("c0210a") + bytes([number]) + bytes.fromhex("0008") + b"KUTA"


def sum16(octets):
    if len(octets) % 2:
        octets += b"\0"
    total = sum(struct.unpack(">%dH" % (len(octets) // 2), octets))
    while total >> 16:
        total = (total & 0xFFFF) + (total >> 16)
    return ~total & 0xFFFF


def datagram(number, port, text):
    """An IPv4 datagram with a UDP one in it, from the mountain to the valley."""
    ends = bytes([10, 0, 7, 2]) + bytes([10, 0, 7, 1])
    udp = struct.pack(">HHHH", 7007, port, 8 + len(text), 0)
    check = sum16(ends + struct.pack(">HH", 17, 8 + len(text)) + udp + text) or 0xFFFF
    udp = struct.pack(">HHHH", 7007, port, 8 + len(text), check)
    head = struct.pack(">BBHHHBBH", 0x45, 0, 28 + len(text), number, 0, 64, 17, 0) + ends
    head = head[:10] + struct.pack(">H", sum16(head)) + head[12:]
    return b"\x00\x21" + head + udp + text


def flipped(octets, at, bit):
    changed = bytearray(octets)
    changed[at] ^= 1 << bit
    return bytes(changed)


def put(name, octets):
    with open(os.path.join(HERE, name), "wb") as f:
        f.write(octets)


def write(name, octets):
    for end, text in ((".octets", octets), (".lines", model("capture", octets)), (".counts", model("count", octets))):
        put(name + end, text)


# ---- document 01's own capture

MARKED = "0C 31 32 33 7E 0C 31 32 33 34 35 36 37 38 39 6E 90 7E D1 09 34 35 36 37 38 39 6E 90 7E D3 7E"

# ---- a quiet link: every packet is sent whole, the line is sound, and between packets flags keep it awake

QUIET = FLAG * 3 + b"".join((
    frame(echo_reply(1)),
    frame(datagram(1, 9, b"T-04.2 W11")),
    FLAG * 2,
    frame(echo_reply(2)),
    frame(datagram(2, 9, b"T-04.4 W12")),
))

# ---- a season later: urgent traffic, and noise. Every packet is another one: echo replies 81 to 89, datagrams 901 to 908.

WEATHER = (
    b"T-11.0 W31 T-11.3 W33 T-11.4 W30",
    b"T-11.5 W32 T-11.6 W34 T-11.8 W33",
    b"T-11.8 W36 T-11.7 W35 T-11.9 W38",
    b"T-11.9 W35 T-12.0 W37 T-12.2 W36",
)


def interrupted(number, at):
    """A long datagram broken off by an alarm, and resumed: the three frames. Both have numbers of their own."""
    batch = datagram(number, 9, WEATHER[(number - 901) // 2 % len(WEATHER)])
    return broken_off(batch, at, datagram(number + 1, 911, b"SNOW %d" % (number + 1)))


def season():
    yield frame(echo_reply(81))[6:]              # the capture begins inside a frame
    yield frame(echo_reply(82))
    yield from interrupted(901, 40)              # broken off, the alarm, resumed
    yield flipped(frame(echo_reply(83)), 6, 1)   # one bit turned
    yield frame(echo_reply(84))[:-1]             # its flag is lost, so it runs into the next
    yield frame(echo_reply(85))
    cut, alarm, rest = interrupted(903, 40)      # broken off, and the rest is hit by noise
    yield cut + alarm + flipped(rest, 9, 4)
    cut, alarm, rest = interrupted(905, 40)      # broken off, and the rest never arrives
    yield cut + alarm
    yield frame(echo_reply(86))
    cut, alarm, rest = interrupted(907, 33)      # another is broken off meanwhile, and replaces what is held
    yield cut + alarm + rest
    yield rest                                   # the same rest once more, as after an echo on the line: nothing is held
    yield frame(echo_reply(88))
    yield b"\xff\x03" + echo_reply(87) + FLAG    # an old modem's framing, without a check: from here on plain PPP is read
    yield frame(echo_reply(89))[:-4]             # the capture ends inside a frame


# ---- a restart, while a packet is suspended: echo replies 92 and 93, datagrams 931 to 936


CONTROLS = bytes(range(0x20))


def plain(packet, escaped=CONTROLS):
    """A frame of plain PPP (RFC 1662, section 4), as the model's plain sender writes it: FF 03 and the packet, with these octets
    escaped, and without a flag before it."""
    marks = sum(1 << octet for octet in escaped).to_bytes(32, "little")
    pair = b"p" + struct.pack("<BBHI", 3, 16, 2048, 0) + marks
    letter, length, *octets = model("exercise", pair + load(b"w", b"\xff\x03" + packet)).decode().split()
    assert letter == "W" and int(length) == len(octets)
    return bytes(int(octet, 16) for octet in octets)


MRU, MAP, SMALL_MRU = "01040800", "020600000000", "010400f0"  # options: packets of up to 2,048, no control octets escaped, up to 240


def configure(code, number, *options):
    """An LCP Configure message: 1 Request, 2 Ack, 3 Nak."""
    octets = b"".join(bytes.fromhex(option) for option in options)
    return struct.pack(">HBBH", 0xC021, code, number, 4 + len(octets)) + octets


def restart():
    yield frame(echo_reply(92))
    cut, alarm, rest = interrupted(931, 40)                # broken off, the alarm, and then the station restarts
    yield cut + alarm
    yield plain(configure(1, 1, MRU))                      # a Configure-Request. (The draft's option for COBS has no number.)
    yield plain(configure(2, 7, MRU))                      # a Configure-Ack
    # COBS again. The capture program goes on in plain PPP, since nobody opens it anew: it refuses all of this.
    cut, alarm, rest = interrupted(933, 33)                # broken off, and its beginning never arrives
    yield alarm + rest
    yield from interrupted(935, 40)
    yield frame(echo_reply(93))


# ---- a modem restarts: COBS, then the link is set up anew in plain PPP, where the file ends; and the line after that, for a
# receiver that is opened anew. Echo replies 101 to 109, datagrams 951 to 962


def modem():
    yield FLAG * 2 + frame(echo_reply(101)) + frame(datagram(951, 9, b"T-02.1 W08"))
    yield from interrupted(953, 40)                        # broken off, the alarm, resumed
    yield frame(echo_reply(102))
    cut, alarm, rest = interrupted(955, 33)                # broken off, the alarm, and then the modem restarts
    yield cut + alarm
    yield plain(configure(1, 1, SMALL_MRU, MAP))           # a Configure-Request, all control octets escaped as long as no map is agreed
    yield plain(configure(1, 1, SMALL_MRU, MAP))           # once more: nobody answered
    yield plain(configure(3, 1, MRU))                      # a Configure-Nak of what the other end asked for
    yield flipped(plain(configure(1, 2, MRU, MAP)), 9, 2)  # one bit turned
    yield plain(configure(1, 3, MRU, MAP)) + FLAG
    yield plain(configure(2, 2, MRU, MAP))                 # a Configure-Ack: from here on no control octet is escaped
    yield plain(echo_reply(103), b"") + plain(datagram(957, 9, b"T-02.4 W09 {~}"), b"")
    yield plain(echo_reply(104), b"\x11\x13")              # a sender that escapes these two all the same


def modem_after():
    yield frame(echo_reply(105))
    yield from interrupted(959, 40)
    yield frame(datagram(961, 9, b"T-02.6 W07")) + FLAG
    yield flipped(frame(echo_reply(106)), 6, 1)            # one bit turned
    yield frame(echo_reply(107))


# ---- for the sender: a file of packets (docs/SEND.md), and the line that the model makes of the same calls; with 16 bits and with 32;
# and a day's readings in one packet, longer than 2,048 octets, broken off by the alarm, on a link that has agreed on 4,000

BATCH = datagram(921, 9, b"T-13.1 W40 T-13.3 W41 T-13.2 W44")
ALARM = datagram(922, 911, b"WIND 44")


def record(lane, wait, packet):
    return lane + struct.pack(">HH", wait, len(packet)) + packet


RECORDS = record(b"L", 0, BATCH) + record(b"H", 40, ALARM) + record(b"L", 0, echo_reply(91))
DAY = datagram(923, 9, b" ".join(b"T-13.%d W%d" % (n % 10, 30 + n % 15) for n in range(240)))
DAY_RECORDS = record(b"L", 0, DAY) + record(b"H", 1000, ALARM)
DAY_CALLS = load(b"l", DAY) + calls(1000) + load(b"h", ALARM) + calls(9000)
CALLS = load(b"l", BATCH) + calls(40) + load(b"h", ALARM) + calls(9000) + load(b"l", echo_reply(91)) + calls(5000)


write("marked", bytes.fromhex(MARKED))
write("quiet-link", QUIET)
write("season-later", b"".join(season()))
write("restart", b"".join(restart()))
write("modem", b"".join(modem()))
write("modem-after", b"".join(modem_after()))
write("alarm", sent(CALLS))
put("alarm.records", b"\x03" + RECORDS)
put("alarm-32.records", b"\x03W\x20" + RECORDS)
put("alarm-32.line", sent(CALLS, 32))
assert received(sent(CALLS, 32), 32) == model("capture", sent(CALLS))  # so alarm.lines is for both
put("day.records", b"\x03M\x0f\xa0" + DAY_RECORDS)
put("day.line", sent(DAY_CALLS, 16, 4000))
put("day.reports", received(sent(DAY_CALLS, 16, 4000), 16, 4000))

"""The worked examples of document 01, and examples of slips 1, 11, 4, 8 and 5 of document 02, held
against model.rs:

    python3 worked.py MODEL
"""
import subprocess
import sys
import zlib

from compare import (fcs, fill, halves, hand_plain_sender, hand_receiver, lend, lend_out, lent, marks, open_pair, open_receiver,
                     open_sender, register_over, send_plain, show, stuffed)

MODEL = sys.argv[1]


def run(mode, data):
    return subprocess.run([MODEL, mode], input=data, stdout=subprocess.PIPE, check=True).stdout.decode()


def num(n):
    return bytes([n & 255, n >> 8])


def octs(data):
    return num(len(data)) + data


def hx(text):
    return bytes.fromhex(text)


failures = 0


def check(name, got, want):
    global failures
    ok = got == want
    failures += not ok
    print("ok  " if ok else "FAIL", name)
    if not ok:
        print("  got ", repr(got)[:300])
        print("  want", repr(want)[:300])


def sent(settings, packet, width=16, limit=2048):
    """What a sender opened with these settings sends for one low packet, as a hexadecimal text."""
    out = run("exercise", lend(lent(width, limit)) + open_sender(settings, width, limit) + b"l" + octs(packet)
              + b"n" + num(len(packet) + 300))
    lines = out.splitlines()
    assert lines[0] == "D", lines[0]
    octets = [line[2:] for line in lines[1:] if line[0] == "O"]
    assert all(line == "I" for line in lines[1 + len(octets):])
    return " ".join(octets)


def received(settings, octets, width=16, limit=2048, plain=0, control=0):
    return run("exercise", lend(lent(width, limit)) + open_receiver(settings, width, limit, plain, control) + b"r"
               + octs(octets)).splitlines()


# Check sequence
check("FCS of 123456789 is 906E", fcs(b"123456789"), hx("6E90"))
check("FCS of 123456789 is CBF43926 with 32 bits", fcs(b"123456789", 32), hx("26 39 F4 CB"))
check("32 bits, as Python's own CRC", [fcs(bytes(range(n, 256)), 32) for n in range(256)],
      [zlib.crc32(bytes(range(n, 256))).to_bytes(4, "little") for n in range(256)])
check("EDB88320 has RFC 1662's exponents (C.3), 0 highest",
      sum(1 << 31 - n for n in (0, 1, 2, 4, 5, 7, 8, 10, 11, 12, 16, 22, 23, 26)), 0xEDB88320)


check("good ends, 16 and 32 bits", [register_over(b"any" + fcs(b"any", width), width) for width in (16, 32)], [0xF0B8, 0xDEBB20E3])

# Marked frames
check("(a)", sent(3, hx("0000")), "E0 03 47 0F 7E")
check("(b)", sent(0, hx("0000")), "01 01 03 47 0F 7E")
check("(c)", sent(3, hx("7E7E")), "05 00 00 6A FF 7E")
check("(d)", sent(3, b"123456789"), "0C 31 32 33 34 35 36 37 38 39 6E 90 7E")
CAPTURE = hx("0C 31 32 33 7E 0C 31 32 33 34 35 36 37 38 39 6E 90 7E D1 09 34 35 36 37 38 39 6E 90 7E D3 7E")
check("(e)", run("capture", CAPTURE),
      "H 3 0\nP 9 31 32 33 34 35 36 37 38 39\nP 9 31 32 33 34 35 36 37 38 39\nR 13\n")
check("(e) counted", run("count", CAPTURE),
      "packets 2\nheld 1\nheld-replaced 0\n" + "".join(f"refused-{n} {int(n == 13)}\n" for n in (*range(5, 15), 18, 21)))
check("(f)", run("capture", hx("7E7E")), "")
check("(g)", run("capture", hx("05 31 7E 05 32 7E")), "H 1 0\nH 1 1\n")
check("(h) DB", run("capture", hx("DF") * 136 + hx("DB 7E")), "R 14\n")
check("(h) DC", run("capture", hx("DF") * 136 + hx("DC 7E")), "R 10\n")
check("(i) 206", sent(3, b"1" * 206 + hx("00"))[:2], "CF")
check("(i) 207", sent(3, b"1" * 207 + hx("00"))[:2], "D0")
check("(i) 206, both zeros", sent(3, b"1" * 206 + hx("0000"))[:2], "CF")

# Refusal table
check("1", run("exercise", b"l" + octs(hx("31"))), "R 1\n")
check("1, 2049", run("exercise", b"l" + octs(b"1" * 2049)), "R 1\n")
check("2048 is loaded", run("exercise", b"l" + octs(b"1" * 2048)), "D\n")
check("2", run("exercise", b"a" + num(2050) + num(2050) + num(2050) + num(2051) + b"r" + octs(hx("7E"))), "R 2\n")
check("3", run("exercise", b"s" + num(0) + num(300) + num(0) * 3 + num(208) + num(0) + num(1) + num(0) * 2 + num(16)
               + num(2048) + b"n" + num(1)), "R 3\n")
check("3, 207 is none", run("exercise", b"s" + num(0) + num(300) + num(0) * 3 + num(207) + num(0) + num(1)
                            + num(0) * 2 + num(16) + num(2048) + b"n" + num(1)), "O 00\n")
check("3, receiver", run("exercise", b"t" + num(0) * 4 + num(208) + num(0) + num(2) + num(1) + num(0) * 2 + num(16)
                         + num(2048) + num(0xFFFF) + num(0) * 4 + b"r" + octs(hx("31"))), "R 3\n")
check("4", run("exercise", (b"l" + octs(hx("3132"))) * 2), "D\nR 4\n")
for number, settings, octets in [
    (5, 3, hx("FF 03 C0 21 7E")), (6, 0, hx("E0 7E")), (7, 3, hx("D2 7E")), (8, 3, hx("D1 01 7E")),
    (10, 3, hx("DF") * 137 + hx("7E")), (11, 0, hx("05 31 7E")), (12, 3, hx("D0") + b"1" * 207 + hx("7E")),
    (13, 3, hx("D3 7E")), (14, 3, hx("05 31 31 31 31 7E")),
]:
    check(str(number), received(settings, octets), [f"R {number}"])
check("9", received(3, hx("05 31 7E D1 7E")), ["H 1 0", "R 9"])
check("01 7E is 13", received(3, hx("01 7E")), ["R 13"])

# docs/EXERCISE.md's example
check("EXERCISE.md", run("exercise", b"o" + hx("03 10 00 08") + b"l" + hx("02 00 00 00") + b"n" + hx("06 00")),
      "D\nO E0\nO 03\nO 47\nO 0F\nO 7E\nI\n")

# Slip 1, 32 bits
check("slip 1: 31 to 39", sent(3, b"123456789", 32), "0E 31 32 33 34 35 36 37 38 39 26 39 F4 CB 7E")
check("slip 1: 00 00", sent(3, hx("0000"), 32), "E0 05 FF 12 D9 41 7E")
check("slip 1: 00 00, settings 00", sent(0, hx("0000"), 32), "01 01 05 FF 12 D9 41 7E")
check("slip 1: 7E 7E", sent(3, hx("7E7E"), 32), "07 00 00 BC 1A D8 47 7E")
for width, octets, report in (
    (32, hx("05") + b"1" * 4, "R 13"), (16, hx("05") + b"1" * 4, "R 14"), (32, hx("06") + b"1" * 5, "R 13"),
    (32, hx("07") + b"1" * 6, "R 14"), (32, hx("DF") * 136 + hx("DD"), "R 14"), (32, hx("DF") * 136 + hx("DE"), "R 10"),
):
    check(f"slip 1: {octets[-7:].hex(' ')} 7E, {width} bits", received(3, octets + hx("7E"), width), [report])
for opens, end in ((open_sender, "sender"), (open_receiver, "receiver")):
    check(f"slip 1: {end} opened with 24, and with 0", run("exercise", opens(3, 24) + opens(3, 0)), "R 3\nR 3\n")
check("slip 1: width 24, a load of 1, an area of 0",
      run("exercise", b"a" + num(0) * 4 + b"s" + num(0) * 10 + num(24) + num(2048) + b"l" + octs(hx("31"))), "R 3\n")


def entry(place):
    """An entry of the model's 32-bit table, by the FCS of a packet whose second octet looks it up."""
    before = register_over(b"1", 32)
    packet = bytes((0x31, before & 0xFF ^ place))
    out = run("exercise", lend(lent(32)) + open_sender(3, 32) + b"l" + octs(packet) + b"x\0" + num(2) + num(4))
    return int.from_bytes(bytes.fromhex(out.split("X")[1]), "little") ^ 0xFFFFFFFF ^ before >> 8


def by_rule(place):
    for _ in range(8):
        place = place >> 1 ^ (0xEDB88320 if place & 1 else 0)
    return place


check("slip 1: table entries", [entry(place) for place in (1, 15, 20, 128, 255)],
      [0x77073096, 0x90BF1D91, 0x1ADAD47D, 0xEDB88320, 0x2D02EF8D])
check("slip 1: all entries by the rule", [entry(place) for place in range(256)], [by_rule(place) for place in range(256)])
check("slip 1: captures keep 16 bits", run("capture", hx("0E") + b"123456789" + hx("26 39 F4 CB 7E 05 31 31 31 31 7E")),
      "R 14\nR 14\n")

# Slip 11, the agreed limit
for opens, end in ((open_sender, "sender"), (open_receiver, "receiver")):
    check(f"slip 11: {end}, 03, 24, limit 1 and 16,385", run("exercise", opens(3, 24, 1) + opens(3, 24, 16385)), "R 23\nR 23\n")
    check(f"slip 11: {end}, 03, 24, limit 2", run("exercise", opens(3, 24, 2)), "R 3\n")
    check(f"slip 11: {end}, limits 0, 1, 2, 16,384, 16,385 and 65,535, either width", run("exercise", b"".join(
        opens(3, width, limit) for width in (16, 32) for limit in (0, 1, 2, 16384, 16385, 65535))), "R 23\n" * 8)


def loaded(limit, *tried):
    """What a fresh sender answers to loads: of each the length, and how many octets of the area are lent."""
    return run("exercise", open_sender(3, 16, limit) + b"".join(
        b"a" + num(area) + num(0) * 3 + b"l" + octs(b"1" * length) for length, area in tried)).split("\n")[:-1]


check("slip 11: limit 2, loads", loaded(2, (2, 3), (3, 4), (2, 4)), ["R 2", "R 1", "D"])
check("slip 11: limit 16,384, loads", loaded(16384, (16384, 16385), (16385, 16386), (16384, 16386)), ["R 2", "R 1", "D"])
check("slip 11: limit 1, a load of 1, an area of 0",
      run("exercise", b"a" + num(0) * 4 + b"s" + num(0) * 10 + num(16) + num(1) + b"l" + octs(hx("31"))), "R 3\n")
for octets, report in ((hx("05 41 42 EF 31"), "P 0 2 41 42"), (hx("06 41 42 43 2F 9F"), "R 10"), (hx("D5"), "R 14"),
                       (hx("D6"), "R 10")):
    check(f"slip 11: limit 2, {octets.hex(' ')} 7E", received(3, octets + hx("7E"), 16, 2), [report])
for width, most in ((16, 16387), (32, 16389)):
    zeros = hx("DF") * 1092
    check(f"slip 11: limit 16,384, {width} bits, {most} zeros, and one more", received(
        3, zeros + bytes((0xD0 + most - 16380,)) + hx("7E") + zeros + bytes((0xD1 + most - 16380,)) + hx("7E"), width, 16384),
        ["R 14", "R 10"])
check("slip 11: captures keep 2,048", run("capture", hx("DF") * 136 + hx("DC 7E") + hx("DF") * 1092 + hx("D7 7E")), "R 10\nR 10\n")

# Slip 4, a restart lets go what is held
check("slip 4: 05 31, FF 03, D1 01", received(3, hx("05 31 7E FF 03 7E D1 01 7E")), ["H 1 0", "R 5", "R 8"])
check("slip 4: 05 31, D2, D1 01", received(3, hx("05 31 7E D2 7E D1 01 7E")), ["H 1 0", "R 7", "R 13"])
check("slip 4: 05 31, FF", run("exercise", open_receiver(3) + b"r" + octs(hx("05 31 7E FF")) + b"d").splitlines()[::2],
      ["H 1 0", "T 3 1 0 0 0 0 0 1 0 5 16 2048 65535 0 0 0 0"])
for number, held, report in ((5, 2, "R 3"), (5, 1, "R 3"), (5, 0, "R 5"), *((n, 2, f"R {n}") for n in range(6, 11))):
    check(f"slip 4: in a frame, refusal {number}, held {held - 1 if held else 'none'}", run(
        "exercise", hand_receiver((3, 0, 0, held, 0, 0, 0, 1, 0, number, 16, 2048, 0xFFFF, 0)) + b"r" + octs(hx("7E"))), report
          + "\n")
check("slip 4: a packet suspended, a restart, its rest", received(3, hx("06 41 7E FF 03 C0 21 7E D1 05 42 43 2F 9F 7E")),
      ["H 1 0", "R 5", "R 8"])
check("slip 4: then once more", received(3, hx("06 41 7E FF 03 C0 21 7E 06 41 7E D1 05 42 43 2F 9F 7E")),
      ["H 1 0", "R 5", "H 1 0", "P 1 3 41 42 43"])

# Slip 8, areas changed behind the receiver's back
def told(*commands, width=16):
    """The lines of a receiver opened with settings 03, the sender's left out."""
    lines = run("exercise", lend(lent(width)) + open_receiver(3, width) + b"".join(commands)).splitlines()
    return [line for line in lines if line[0] != "S"]


def r(text):
    return b"r" + octs(hx(text))


for width, register in ((16, 0x4D53), (32, 0xB0ACBB32)):
    held, fresh = (" ".join(map(str, (width, 2048, *halves(n), 0, 0, 0))) for n in (register, 2 ** width - 1))
    kept = f"T 3 1 0 3 0 0 0 0 0 0 {held}"
    check(f"slip 8: register of 31 32, {width} bits", register_over(b"12", width), register)
    check(f"slip 8: 05 31 32, {width} bits", told(r("05 31 32 7E"), b"d", width=width), ["H 2 0", kept])
    check(f"slip 8: octet 1 changed to 33, D1, 03 37 38, {width} bits",
          told(r("05 31 32 7E"), fill(2, 1, b"3"), r("D1"), b"d", r("03 37 38 7E"), b"d", width=width),
          ["H 2 0", f"T 3 1 0 0 0 0 0 1 1 21 {fresh}", "R 21", f"T 3 1 0 0 0 0 0 0 0 0 {fresh}"])
    check(f"slip 8: octet 2 changed, D1 01, {width} bits", told(r("05 31 32 7E"), fill(2, 2, b"3"), r("D1 01 7E"), width=width),
          ["H 2 0", "R 13"])
    check(f"slip 8: a packet delivered in between, {width} bits", told(
        r("05 31 32 7E"), r({16: "E0 03 47 0F 7E", 32: "E0 05 FF 12 D9 41 7E"}[width]), b"d", width=width),
        ["H 2 0", "P 1 2 00 00", kept])


def handed(settings, held, register, octets, *more):
    """The lines of a receiver out of a frame handed in; held as the driver counts it."""
    return told(hand_receiver((settings, 0, 0, held, *[0] * 6, 16, 2048, *halves(register))), r(octets), *more)


check("slip 8: no octet held, register 1234, D1", handed(3, 1, 0x1234, "D1 7E"), ["R 21"])
check("slip 8: no octet held, register FFFF, D1", handed(3, 1, 0xFFFF, "D1 7E"), ["R 9"])
check("slip 8: nothing held, register 1234", handed(3, 0, 0x1234, "7E 31 D1 FF"), ["R 3"] * 4)
check("slip 8: 1 held, register 10000", handed(3, 2, 0x10000, "7E 31 D1 FF"), ["R 3"] * 4)
check("slip 8: settings 01, 1 held, D1", handed(1, 2, 0x1234, "D1 7E", b"d"),
      ["R 6", "T 1 0 0 0 0 0 0 0 0 0 16 2048 65535 0 0 0 0"])
check("slip 8: no 21 in captures", run("count", CAPTURE + hx("05 31 7E D1 7E")).splitlines()[-1], "refused-21 0")

# Slip 5, plain PPP: 16 bits, packets to 2,048, settings 03
LCP = hx("FF 03 C0 21 01 01 00 04")
LINE = hx("FF 03 C0 21 01 01 00 04 D1 B5 7E")
CONTROLS = bytes(range(0x20))


def plain_sent(packet, marked=b"", control=0):
    """What the plain sender of a pair writes for a packet, and that the receiver of the pair reads it so."""
    out = run("exercise", open_pair(3, control=control, sending=marks(marked)) + send_plain(packet)).strip()
    letter, length, *octets = out.split()
    line = hx("".join(octets))
    assert letter == "W" and int(length) == len(line), out
    back = run("exercise", open_pair(3, control=control, sending=marks(marked))
               + hand_receiver((3, *[0] * 9, 16, 2048, 0xFFFF, 0, 2, *halves(control))) + b"r" + octs(line))
    check(f"slip 5: {packet[:8].hex(' ')} and back", back, f"P 0 {len(packet)}" + "".join(f" {o:02X}" for o in packet) + "\n")
    return line


def on(text, control=0):
    """The reports of a receiver opened with plain reading on."""
    return received(3, hx(text), plain=1, control=control)


def opened(width, limit, control, marked):
    return run("exercise", open_pair(3, width, limit, control, marks(marked))).split()


check("slip 5: an LCP packet sent, empty maps", plain_sent(LCP), LINE)
check("slip 5: the same, 00 to 1F marked", plain_sent(LCP, CONTROLS),
      hx("FF 7D 23 C0 21 7D 21 7D 21 7D 20 7D 24 D1 B5 7E"))
check("slip 5: the first, reading off", received(3, LINE), ["R 5"])
check("slip 5: the first, reading on", received(3, LINE, plain=1), ["P 0 8 FF 03 C0 21 01 01 00 04"])
check("slip 5: the first, map FFFFFFFF", received(3, LINE, plain=1, control=0xFFFFFFFF), ["R 14"])
check("slip 5: FF, 7D", on("FF 7E 7D 7E"), ["R 13", "R 18"])
check("slip 5: FF 7D", on("FF 7D 7E"), ["R 18"])
check("slip 5: FF, 11 11, with map", on("FF 7E 11 11 7E", 1 << 0x11), ["R 13"])
check("slip 5: FF, 11 11, without", on("FF 7E 11 11 7E"), ["R 13", "R 13"])
check("slip 5: FF, 7D 11, with map", on("FF 7E 7D 11 7E", 1 << 0x11), ["R 13", "R 18"])
check("slip 5: FF, 7D 11 5E 41 1E 36, with map", on("FF 7E 7D 11 5E 41 1E 36 7E", 1 << 0x11), ["R 13", "P 0 2 7E 41"])
check("slip 5: 5D marked", plain_sent(hx("5D 7D 7E 5E"), hx("5D")), hx("7D 7D 7D 5D 7D 5E 5E CF 0C 7E"))
for length, report in ((2048, "P 0 2048" + " 41" * 2048), (2049, "R 10")):
    whole = b"A" * length
    check(f"slip 5: {length} octets of 41", received(3, hx("FF 7E") + stuffed(whole + fcs(whole)) + hx("7E"), plain=1),
          ["R 13", report])
for more, report in (("7D 7E", "R 18"), ("7D 41 7E", "R 10"), ("41 7D 7E", "R 10")):
    check(f"slip 5: 2,050 octets, then {more}", received(3, hx("FF 7E") + b"A" * 2050 + hx(more), plain=1), ["R 13", report])
check("slip 5: 05 31, FF 03", run("exercise", open_receiver(3, plain=1) + b"r" + octs(hx("05 31 7E FF 03 7E")) + b"d").splitlines(),
      ["H 1 0", "R 13", "S 0 0 0 0 0 0 0 0 0 0 16 2048", "T 3 1 0 0 0 0 0 0 0 0 16 2048 65535 0 2 0 0"])
check("slip 5: FF, a COBS frame of 31 to 39", on("FF 7E 0C 31 32 33 34 35 36 37 38 39 6E 90 7E"), ["R 13", "R 14"])
for name, answers, given in (
    ("width 24, limit 1", ["R", "23"], (24, 1, 0, b"")), ("width 24", ["R", "3"], (24, 2048, 0, b"")),
    ("a mark lacking", ["R", "19"], (16, 2048, 1, b"")), ("5E", ["R", "19"], (16, 2048, 0, hx("5E"))),
    ("20", ["R", "19"], (16, 2048, 0, hx("20"))), ("3F", ["R", "19"], (16, 2048, 0, hx("3F"))),
    ("40, 5D, FF", [], (16, 2048, 0, hx("40 5D FF"))),
):
    check(f"slip 5: a pair, {name}", opened(*given), answers)
check("slip 5: areas of 3 and 4 for 41, of 4 and 5 for 41 42", run("exercise", b"".join(
    lend_out(length) + send_plain(packet) for packet, length in ((b"A", 3), (b"A", 4), (b"AB", 4), (b"AB", 5)))),
    "R 2\nR 1\nR 2\nW 5 41 42 EF 31 7E\n")
check("slip 5: marks handed in without 7D, 7E; with 5E", run("exercise", b"".join(
    hand_plain_sender(16, 2048, marks(marked)) + send_plain(b"AB")
    for marked in (b"", hx("7D"), hx("7E"), hx("7D 7E"), hx("5E 7D 7E")))),
    "R 3\nR 3\nR 3\nW 5 41 42 EF 31 7E\nR 3\n")
check("slip 5: a refused w writes nothing", run("exercise", b"f\x04" + num(0) + octs(b"1234") + lend_out(4) + send_plain(b"AB")
                                               + send_plain(b"A") + show(4, 0, 6)), "R 2\nR 1\nX 31 32 33 34 00 00\n")
check("slip 5: captures read plain", run("capture", hx("FF 03 C0 21 7E") + LINE), "R 14\nP 8 FF 03 C0 21 01 01 00 04\n")
check("slip 5: counted", run("count", hx("FF 03 C0 21 7E 7D 7E") + LINE),
      "packets 1\nheld 0\nheld-replaced 0\n" + "".join(
          f"refused-{n} {int(n in (14, 18))}\n" for n in (*range(5, 15), 18, 21)))

# Length bound: n + 1 + floor(n / 207) octets before the flag
LENGTHS = (2, 201, 202, 203, 204, 205, 206, 410, 411, 412, 2046, 2047, 2048)
for width in (16, 32):
    for length, limit in [(length, 2048) for length in LENGTHS] + [(n, n) for n in (2, 3, 20, 203, 205, 2049, 16383, 16384)]:
        for settings in range(4):
            for octets in (b"1" * length, bytes(length), (hx("00") + b"1" * 206) * 80):
                text = sent(settings, octets[:length], width, limit).split()
                n = length + width // 8
                if len(text) - 1 > n + 1 + n // 207:
                    check(f"bound {length} {settings} {width}", len(text) - 1, n + 1 + n // 207)
                back = received(settings, bytes.fromhex("".join(text)), width, limit)
                if back != [f"P 0 {length}" + "".join(f" {o:02X}" for o in octets[:length])]:
                    check(f"way back {length} {settings} {width}", back, "the packet")
print("bounds and ways back done")

# A cut between blocks, and one straight after D1
out = run("exercise", open_sender(3) + b"l" + octs(hx("00 00 00 31 32 33 34 35")) + b"n" + num(1) + b"h" + octs(hx("4142"))
          + b"n" + num(2 + 6 + 1) + b"h" + octs(hx("4344")) + b"n" + num(2 + 6) + b"n" + num(11))
octets = bytes.fromhex("".join(line[2:] for line in out.splitlines() if line[0] == "O"))
check("cut between blocks, and after D1", run("capture", octets),
      "H 3 0\nP 2 41 42\nH 3 0\nP 2 43 44\nP 8 00 00 00 31 32 33 34 35\n")

sys.exit(failures != 0)

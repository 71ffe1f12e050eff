#!/usr/bin/env python3
"""Writes the benchmark's inputs, always the same ones: make.py DIRECTORY LINK

LINK is the compiled link.rs; its sender makes the .octets of packets and fragments. A file is
left as it is if it has the size that the file `stamp` in DIRECTORY has for it.
"""
import binascii
import json
import random
import re
import subprocess
import sys
from pathlib import Path

LOW, HIGH, ZXE, PRE = b"L", b"H", 1, 2
# 0 to 127 become zero, the others 1 to 128 (7E is among them).
HALF_ZERO = bytes(128) + bytes(range(1, 129))

# Plain PPP: the octets sent as 7D and themselves xor 20. What is sent before the link is agreed on escapes all below 20.
MARKED = re.compile(rb"[\x7D\x7E]")
MARKED_CONTROLS = re.compile(rb"[\x00-\x1F\x7D\x7E]")
LCP = bytes.fromhex("FF 03 C0 21 01 01 00 04")
MIRRORED = bytes(int(f"{octet:08b}"[::-1], 2) for octet in range(256))


def record(lane, wait, packet):
    return lane + wait.to_bytes(2, "big") + len(packet).to_bytes(2, "big") + packet


def plain(rng, size, count, table=None):
    return (record(LOW, 0, rng.randbytes(size).translate(table)) for _ in range(count))


def cut(rng, size, count, high_size, wait):
    for _ in range(count):
        yield record(LOW, 0, rng.randbytes(size))
        yield record(HIGH, wait, rng.randbytes(high_size))


def fragments(rng, count):
    """Low packets, each cut one to three times, at different places."""
    for _ in range(count):
        size = rng.randint(20, 120)
        yield record(LOW, 0, rng.randbytes(size))
        sent, behind = 0, 1  # the low packet's first code
        for place in sorted(rng.sample(range(2, size - 2), rng.randint(1, 3))):
            high = rng.randint(4, 20)
            yield record(HIGH, place - sent + behind, rng.randbytes(high))
            # Before low data goes on: cut's flag; code, packet, FCS and flag; D1 and a code.
            sent, behind = place, 1 + (1 + high + 2 + 1) + 2


def records(settings, seed, maker, *numbers):
    def write(path):
        rng = random.Random(seed)
        with open(path, "wb", buffering=1 << 20) as file:
            file.write(bytes([settings]))
            file.writelines(maker(rng, *numbers))
    return write


def plain_frame(packet, marked):
    """A packet, its FCS and a flag. binascii has the FCS's polynomial with the bits the other way round."""
    register = binascii.crc_hqx(packet.translate(MIRRORED), 0xFFFF) ^ 0xFFFF
    fcs = register.to_bytes(2, "big").translate(MIRRORED)
    return marked.sub(lambda octet: bytes([0x7D, octet[0][0] ^ 0x20]), packet + fcs) + b"\x7E"


def plain_frames(marked, seed, size, count):
    """A frame that begins FF, and then plain PPP."""
    def write(path):
        rng = random.Random(seed)
        with open(path, "wb", buffering=1 << 20) as file:
            file.write(plain_frame(LCP, MARKED_CONTROLS))
            file.writelines(plain_frame(rng.randbytes(size), marked) for _ in range(count))
    return write


def sent(link, source):
    def write(path):
        with open(path.parent / source, "rb") as read, open(path, "wb") as file:
            subprocess.run([link, "send"], stdin=read, stdout=file, check=True)
    return write


def main(directory, link):
    directory, link = Path(directory), str(Path(link).resolve())
    files = {
        "quiet.octets": lambda path: path.write_bytes(b"\x31" * 60_000_000),
        "packets.records": records(ZXE | PRE, 1, plain, 1400, 14_200),
        "packets.octets": sent(link, "packets.records"),
        "fragments.records": records(ZXE | PRE, 2, fragments, 107_000),
        "fragments.octets": sent(link, "fragments.records"),
        "plain.octets": plain_frames(MARKED, 8, 1400, 14_150),
        "plain-controls.octets": plain_frames(MARKED_CONTROLS, 9, 1400, 12_590),
        "send-1400.records": records(ZXE | PRE, 3, plain, 1400, 14_300),
        "send-40.records": records(ZXE | PRE, 4, plain, 40, 500_000),
        "send-1400-cut.records": records(ZXE | PRE, 5, cut, 1400, 14_300, 40, 300),
        "send-40-cut.records": records(ZXE | PRE, 6, cut, 40, 500_000, 20, 15),
        "send-zeros.records": records(PRE, 7, plain, 1400, 14_300, HALF_ZERO),
    }
    directory.mkdir(parents=True, exist_ok=True)
    stamp = directory / "stamp"
    sizes = json.loads(stamp.read_text()) if stamp.exists() else {}
    for name, write in files.items():
        path = directory / name
        if not path.exists() or path.stat().st_size != sizes.get(name):
            write(path)
            sizes[name] = path.stat().st_size
            stamp.write_text(json.dumps(sizes, indent=1) + "\n")


if __name__ == "__main__":
    main(*sys.argv[1:])

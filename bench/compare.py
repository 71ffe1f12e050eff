#!/usr/bin/env python3
"""Times the proved programs against the Rust ones, or counts instructions: compare.py OURS THEIRS INPUTS [--instructions] [--clibrary PROGRAM]

OURS: the folder of the proved programs (target/bin). THEIRS: the compiled link.rs. INPUTS: the folder that make.py filled. PROGRAM: the
compiled clibrary.c; then its jobs are measured, in place of the programs. What both write must be the same. Time: the runs take turns, best of five each, wall clock, output to /dev/null. Instructions: callgrind's, of a
million octets from the middle (the difference of two prefixes), for each octet of the line.
"""
import re
import subprocess
import sys
import tempfile
import time
from pathlib import Path

ROWS = [
    ("capture", "quiet.octets"),
    ("capture", "packets.octets"),
    ("capture", "fragments.octets"),
    ("capture", "plain.octets"),
    ("capture", "plain-controls.octets"),
    ("send", "send-1400.records"),
    ("send", "send-1400-cut.records"),
    ("send", "send-40.records"),
    ("send", "send-40-cut.records"),
    ("send", "send-zeros.records"),
]
CLIBRARY_ROWS = [
    ("capture-octets", "quiet.octets"),
    ("capture-octets", "packets.octets"),
    ("capture-octets", "fragments.octets"),
    ("capture-octets", "plain.octets"),
    ("capture-octets", "plain-controls.octets"),
    ("capture-stretches", "quiet.octets"),
    ("capture-stretches", "packets.octets"),
    ("capture-stretches", "fragments.octets"),
    ("capture-stretches", "plain.octets"),
    ("capture-stretches", "plain-controls.octets"),
    ("send-octets", "send-1400.records"),
    ("send-octets", "send-40.records"),
    ("send-stretches", "send-1400.records"),
    ("send-stretches", "send-40.records"),
]
RUNS = 5


def run(command, source, to=subprocess.DEVNULL):
    with open(source, "rb") as file:
        subprocess.run(command, stdin=file, stdout=to, check=True)


def same(ours, theirs, source):
    """Whether both write the same; how many octets."""
    with tempfile.TemporaryDirectory() as folder:
        for name, command in (("ours", ours), ("theirs", theirs)):
            with open(Path(folder, name), "wb") as file:
                run(command, source, file)
        size = Path(folder, "ours").stat().st_size
        return subprocess.run(["cmp", "-s", Path(folder, "ours"), Path(folder, "theirs")]).returncode == 0, size


def seconds(command, source):
    began = time.perf_counter()
    run(command, source)
    return time.perf_counter() - began


def prefix(source, least):
    """The first octets of an input, whole records where it has records."""
    data = source.read_bytes()[: least + 5000]
    if source.suffix != ".records":
        return data[:least]
    at = 1
    while at < least:
        at += 5 + int.from_bytes(data[at + 3 : at + 5], "big")
    return data[:at]


def instructions(command, data):
    with tempfile.TemporaryDirectory() as folder:
        source = Path(folder, "in")
        source.write_bytes(data)
        with open(source, "rb") as file:
            say = subprocess.run(
                ["valgrind", "--tool=callgrind", f"--callgrind-out-file={folder}/out", *command],
                stdin=file, stdout=subprocess.DEVNULL, stderr=subprocess.PIPE, text=True, check=True,
            ).stderr
    return int(re.search(r"Collected : (\d+)", say)[1])


def main():
    ours, theirs, inputs = map(Path, sys.argv[1:4])
    count = "--instructions" in sys.argv
    clibrary = sys.argv[sys.argv.index("--clibrary") + 1] if "--clibrary" in sys.argv else None
    print("| program | input | ours | Rust | ratio |\n|---|---|---|---|---|")
    for program, name in CLIBRARY_ROWS if clibrary else ROWS:
        source = inputs / name
        job = program.split("-")[0]
        mine, other = [clibrary, program] if clibrary else [str(ours / program)], [str(theirs), job]
        if count:
            short, long = prefix(source, 400_000), prefix(source, 1_400_000)
            octets = len(long) - len(short)
            if job == "send":
                line = [len(subprocess.run(other, input=d, stdout=subprocess.PIPE, check=True).stdout) for d in (short, long)]
                octets = line[1] - line[0]
            a, b = ((instructions(c, long) - instructions(c, short)) / octets for c in (mine, other))
            print(f"| {program} | {name} | {a:.1f} | {b:.1f} | {a / b:.2f} |", flush=True)
            continue
        equal, _ = same(mine, other, source)
        if not equal:
            sys.exit(f"{program} of {name}: the two do not write the same")
        best = [min(times) for times in zip(*((seconds(mine, source), seconds(other, source)) for _ in range(RUNS)))]
        print(f"| {program} | {name} | {best[0]:.3f} s | {best[1]:.3f} s | {best[0] / best[1]:.2f} |", flush=True)


main()

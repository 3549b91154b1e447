#!/usr/bin/env python3
"""dumps.py PROGRAM..: holds `dump` and `dump --pcap` to the model of dump_model.py, on dumps of many windows too.

PROGRAM.. is the command that runs dump, as `./run dump`. The program cuts its input into windows of at most 65,536 bytes and
carries at most 4,098 of them over, so many dumps have something at a place where a window may begin or end. Status: 0 where
all is as expected, 1 where something is not.
"""
import contextlib
import itertools
import struct
import subprocess
import sys
import tempfile
import time

sys.dont_write_bytecode = True
from comparisons import Comparisons
from dump_model import meaning, ranges, records, total_line
from fixture_dump import SHA256, Chance, fixture_dump, frame, noisy_dump, sum_of

WINDOW = 65536
CARRIED = 4098
LONGEST = 4099
ADVANCE = WINDOW - CARRIED  # how far a window goes on that carries as much as it may

START = frame(0x71, b"")
LARGEST = frame(0x31, b"\x03" + START * 682)
assert len(LARGEST) == LONGEST
BROKEN = LARGEST[:-1] + b"\x54"  # no frame, so the start events in it are found
CUT = LARGEST[:-1]

held = Comparisons("dumps")
hold = held.hold
meanings_left_out = 0


def hold_rows(what, expected, came):
    """One comparison of two lists. Of those that differ the first row that does is shown."""
    if came == expected:
        hold(what, True, True)
        return
    pairs = enumerate(itertools.zip_longest(expected, came))
    row, pair = next((row, pair) for row, pair in pairs if pair[0] != pair[1])
    hold(f"{what}, row {row}", *pair)


# The program: what it prints, what it reports, and its status


def answer_of(done):
    return done.stdout, done.stderr.decode(errors="replace"), done.returncode


def from_pipe(words, dump):
    return answer_of(subprocess.run([*sys.argv[1:], *words], input=dump, capture_output=True))


def from_file(words, dump):
    with tempfile.TemporaryFile() as file:
        file.write(dump)
        file.seek(0)
        return answer_of(subprocess.run([*sys.argv[1:], *words], stdin=file, capture_output=True))


def in_pieces(*sizes):
    """A pipe that hands over pieces of these sizes, again and again. The program writes into files, since it may write more
    than a pipe holds before it has read all."""

    def fed(words, dump):
        with tempfile.TemporaryFile() as printed, tempfile.TemporaryFile() as reported:
            process = subprocess.Popen([*sys.argv[1:], *words], stdin=subprocess.PIPE, stdout=printed, stderr=reported)
            at, size = 0, itertools.cycle(sizes)
            # A program that reads no more has closed the pipe; what it has written shows that.
            with contextlib.suppress(BrokenPipeError), process.stdin:
                while at < len(dump):
                    at += process.stdin.write(dump[at : at + next(size)])
                    process.stdin.flush()
                    time.sleep(0.0005)
            process.wait()
            printed.seek(0)
            reported.seek(0)
            return printed.read(), reported.read().decode(errors="replace"), process.returncode

    return fed


# What is expected of a dump


def expected_lines(dump, found, came):
    """The lines of the ranges. Where the model cannot say what a frame means, the program's own words stand in."""
    global meanings_left_out
    lines = []
    for (at, length, is_kept), line in itertools.zip_longest(found, came[: len(found)], fillvalue=""):
        said = meaning(dump[at : at + length]) if is_kept else ""
        if said is None:
            meanings_left_out += 1
            said = line.partition("+")[2].partition(" ")[2] or "a meaning"
        lines.append(f"kept {at}+{length} {said}" if is_kept else f"skipped {at}+{length}")
    return lines


def capture_rows(capture):
    """The header's numbers, then those of each record with its bytes, then bytes that are left."""
    if len(capture) < 24:
        return [capture]
    rows, at = [struct.unpack("<IHHIIII", capture[:24])], 24
    while at + 16 <= len(capture):
        seconds, microseconds, kept, on_line = struct.unpack_from("<IIII", capture, at)
        rows.append((seconds, microseconds, kept, on_line, capture[at + 16 : at + 16 + kept]))
        at += 16 + kept
    return rows + ([capture[at:]] if at < len(capture) else [])


HEADER = (0xA1B2C3D4, 2, 4, 0, 0, LONGEST, 147)


def hold_dump(what, dump, ask_lines=from_pipe, ask_capture=from_file):
    """The lines come through a pipe, where a read gives less than was asked for, and the capture from a file."""
    found = ranges(dump)
    printed, reported, status = ask_lines([], dump)
    came = printed.decode(errors="replace").split("\n")
    lines = expected_lines(dump, found, came)
    total = total_line(dump, found, sum(line.split(" ")[2:3] == ["refused"] for line in lines))
    hold_rows(f"{what}, lines", [*lines, total, ""], came)
    hold(f"{what}, report and status", ("", 0), (reported, status))
    capture, reported, status = ask_capture(["--pcap"], dump)
    rows = [(*stamp, len(kept), len(kept), kept) for *stamp, kept in records(dump, found)]
    hold_rows(f"{what}, capture", [HEADER, *rows], capture_rows(capture))
    hold(f"{what}, report and status with --pcap", ("", 0), (reported, status))
    return came


# The cases


def hold_typed():
    """Lines that were worked out by hand. The program must print what they and the model say, so the model is held to them
    too."""
    with open("tests/dump.txt") as file:
        rows = [row.rstrip("\n") for row in file if row.strip() and not row.startswith("#")]
    for row in rows:
        digits, lines = row.split(" = ", 1)
        came = hold_dump(f"the dump '{digits}'", bytes.fromhex(digits))
        hold_rows(f"the typed lines of '{digits}'", [*lines.split(" | "), ""], came)


def hold_short():
    """Up to 8 bytes; then all rows of 6 of the bytes that decide, one after the other, which makes many frames and more that
    are almost one."""
    for size in range(1, 9):
        hold_dump(f"a start event and more, {size} bytes", (START + b"\xaa\x55")[:size])
        hold_dump(f"{size} bytes of AA", b"\xaa" * size)
    decisive = b"\xaa\x00\x02\x03\x55"
    hold_dump("all rows of 6 decisive bytes", b"".join(bytes(row) for row in itertools.product(decisive, repeat=6)))


def hold_fixture():
    dump = fixture_dump()
    hold("SHA-256 of the fixture: fixture_dump.py or Python's library has changed", SHA256, sum_of(dump))
    kept = [dump[at : at + length] for at, length, is_kept in ranges(dump) if is_kept]
    hold("the fixture, frames that the model and judge.txt cannot judge", 0, [meaning(found) for found in kept].count(None))
    hold_dump("the fixture", dump)
    slow = in_pieces(1, 2, 3, 5, 7, 641, 1021, 4095, 4097)
    hold_dump("the fixture in pieces", dump, slow, slow)
    fast = in_pieces(65535, 1, 61437, 3, 9973)
    hold_dump("three fixtures in large pieces", dump * 3, fast, fast)


def hold_ends():
    """Dumps that end where a window may end, with a frame, or with one that lacks its last byte, or with AA."""
    sizes = [*range(65530, 65546)]
    for place in ADVANCE, 2 * ADVANCE, ADVANCE + WINDOW, 2 * WINDOW, WINDOW + LONGEST:
        sizes += place, place + 1
    for size in sizes:
        hold_dump(f"{size} bytes that end in a frame", LARGEST.rjust(size, b"\x00"))
        hold_dump(f"{size} bytes that end in a cut frame", CUT.rjust(size, b"\x00"))
    for size in range(WINDOW - 1, WINDOW + 3):
        hold_dump(f"{size} bytes that end in AA and a length", b"\xaa\x0f\xff".rjust(size, b"\x00"))
        hold_dump(f"{size} bytes of start events", filled(size, START))


def filled(size, pattern):
    return (pattern * (size // len(pattern) + 1))[:size]


def placed(size, first, step, things, background):
    """A dump with a thing at the first place and after every step; the last may lose its end."""
    dump = bytearray(filled(size, background))
    for place, thing in zip(range(first, size, step), itertools.cycle(things)):
        dump[place : place + len(thing)] = thing
    return bytes(dump[:size])


def hold_seams():
    """The largest frame, and one that is none, at each place where a window may begin, end, or stop to search; and again as
    far on as the next window would."""
    places = [*range(ADVANCE - 2, ADVANCE + 3), *range(WINDOW - 2, WINDOW + 3)]
    kept_first, broken_first = (LARGEST, BROKEN, b"\xaa\x0f" + START), (BROKEN, b"\xaa\x0f" + START, LARGEST)
    for place in places:
        for step, things in (ADVANCE, kept_first), (ADVANCE, broken_first), (WINDOW, broken_first):
            what = f"{'the largest' if things is kept_first else 'a broken'} frame at {place} and every {step} bytes"
            hold_dump(f"{what}, zeros between", placed(200000, place, step, things, b"\x00"))
    for place, step in (ADVANCE - 1, ADVANCE), (ADVANCE, WINDOW), (WINDOW - 1, ADVANCE):
        what = f"the largest frame at {place} and every {step} bytes"
        hold_dump(f"{what}, 700,000 bytes", placed(700000, place, step, [LARGEST, BROKEN, CUT], b"\x00"))
    what = "the largest frame from 61437 on"
    hold_dump(f"{what}, start events between", placed(200000, ADVANCE - 1, WINDOW, [LARGEST, BROKEN], START))
    hold_dump(f"{what}, AA between", placed(200000, ADVANCE - 1, WINDOW, [LARGEST, BROKEN], b"\xaa"))


def hold_stretches():
    """Ranges that go over several windows, and many that do not."""
    for size in 200000, 700000:
        hold_dump(f"{size} bytes of AA", b"\xaa" * size)
        hold_dump(f"{size} zeros", bytes(size))
        hold_dump(f"{size} bytes of start events", filled(size, START))
        hold_dump(f"{size} bytes of the largest frame", filled(size, LARGEST))
    hold_dump("700,000 zeros, then a start event", bytes(700000) + START)
    hold_dump("a start event, then 700,000 bytes of 55", START + b"\x55" * 700000)
    for before in range(1, 6):
        hold_dump(f"{before} zeros, then start events", bytes(before) + START * 11000)
    for place in ADVANCE - 1, ADVANCE, WINDOW - 1, WINDOW:
        hold_dump(f"start events up to {place}, then zeros", filled(place, START) + bytes(70000))
        hold_dump(f"{place} zeros, then start events", bytes(place) + START * 1000)


def hold_seconds():
    """The place in microseconds has whole seconds from place 1,000,000 on."""
    dump = bytearray(2600000)
    for place in 999994, 1000000, 1999999, 2500000:
        dump[place : place + 6] = START
    hold_dump("2,600,000 bytes", bytes(dump))


def hold_generated():
    for seed in range(12):
        chance = Chance(seed)
        hold_dump(f"generated dump {seed}", noisy_dump(chance, 1 + chance.below(200000)))
    hold_dump("a generated dump of 700,000 bytes", noisy_dump(Chance(12), 700000))


def hold_late_fault():
    """An output that is full when many windows are still to come: one report, and no total."""
    for words in [], ["--pcap"]:
        with open("/dev/full", "wb") as full:
            done = subprocess.run([*sys.argv[1:], *words], input=START * 120000, stdout=full, stderr=subprocess.PIPE)
        start = "dump: cannot write standard output: "
        reported = done.stderr.decode(errors="replace")
        hold(f"a full output {words}", (1, start, 1), (done.returncode, reported[: len(start)], reported.count("\n")))


hold_typed()
hold_short()
hold_fixture()
hold_ends()
hold_seams()
hold_stretches()
hold_seconds()
hold_generated()
hold_late_fault()
print(f"dumps: {held.verdict()}; of {meanings_left_out} frames the model has ranges and bytes alone, not the meaning")
sys.exit(1 if held.differences else 0)

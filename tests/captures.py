#!/usr/bin/env python3
"""captures.py PROGRAM..: holds `capture write` and `capture read` to a model in Python's struct.

PROGRAM.. is the command that runs capture, as `./run capture`. The model is written from document 02, request 7, and from
the layout of classic pcap. Status: 0 where all is as expected, 1 where something is not.
"""
import random
import re
import struct
import subprocess
import sys
import time

sys.dont_write_bytecode = True
from comparisons import Comparisons
from judge_cases import judge_cases

LONGEST_FRAME = 4099
LONGEST_LINE = 65536

held = Comparisons("captures", slice(-400, None))
hold = held.hold


# The model of the format


def header(order, zone=0, accuracy=0, snap=LONGEST_FRAME, magic=0xA1B2C3D4, version=(2, 4), link=147):
    return struct.pack(order + "IHHIIII", magic, *version, zone, accuracy, snap, link)


def record(order, seconds, microseconds, frame, lengths=None):
    return struct.pack(order + "IIII", seconds, microseconds, *(lengths or (len(frame), len(frame)))) + frame


def line_of(seconds, microseconds, frame):
    return f"{seconds}.{microseconds:06d} {frame.hex() or '-'}"


def order_of(data):
    for order in "<>":
        if len(data) >= 24:
            magic, major, minor, _, _, _, link = struct.unpack(order + "IHHIIII", data[:24])
            if (magic, major, minor, link) == (0xA1B2C3D4, 2, 4, 147):
                return order
    return None


def read_model(data):
    """The lines of a capture, and the refusal, if it ends in one."""
    order, lines, at = order_of(data), [], 24
    if order is None:
        return lines, "refused CaptureHeaderInvalid @0"
    while at < len(data):
        head = data[at : at + 16]
        if len(head) == 16:
            seconds, microseconds, kept, on_line = struct.unpack(order + "IIII", head)
            frame = data[at + 16 : at + 16 + kept]
            if microseconds <= 999999 and kept == on_line <= LONGEST_FRAME and len(frame) == kept:
                lines.append(line_of(seconds, microseconds, frame))
                at += 16 + kept
                continue
        return lines, f"refused CaptureRecordInvalid @{at}"
    return lines, ""


# The model of a line to write

STAMP = re.compile(rb"([0-9]+)\.([0-9]{6})")
HEX = re.compile(rb"( *[0-9A-Fa-f]{2})+ *")


def said(line):
    """A record, None for nothing, or the start of what is wrong."""
    if len(line) > LONGEST_LINE:
        return "more than 65536 bytes"
    content = line.split(b"#")[0].rstrip(b" \t\r")
    if not content:
        return None
    stamp, space, digits = content.partition(b" ")
    match = STAMP.fullmatch(stamp)
    if not match or int(match[1]) >= 1 << 32:
        return "no time; "
    if not space or digits != b"-" and not HEX.fullmatch(digits):
        return "no frame; "
    frame = b"" if digits == b"-" else bytes.fromhex(digits.decode())
    if len(frame) > LONGEST_FRAME:
        return "a frame has at most 4099 bytes"
    return record("<", int(match[1]), int(match[2]), frame)


def write_model(text):
    """The capture of lines, and what is reported of the wrong ones."""
    capture, reported = header("<"), []
    lines = text.split(b"\n")
    for number, line in enumerate(lines if lines[-1] else lines[:-1], 1):
        found = said(line)
        if isinstance(found, bytes):
            capture += found
        elif found:
            reported.append(f"capture: line {number}: {found}")
    return capture, reported


# The program


def run(word, given, pieces=False):
    """What the program prints, what it reports, and its status. The input comes at once, or in pieces of a few bytes."""
    process = subprocess.Popen([*sys.argv[1:], word], stdin=subprocess.PIPE, stdout=subprocess.PIPE, stderr=subprocess.PIPE)
    if pieces:
        chance = random.Random(len(given))
        at = 0
        while at < len(given):
            count = chance.choice((1, 2, 7, 15, 16, 17, 40))
            process.stdin.write(given[at : at + count])
            process.stdin.flush()
            at += count
            time.sleep(0.002)
    printed, reported = process.communicate(None if pieces else given)
    return printed, reported.decode().splitlines(), process.returncode


def hold_read(what, data, meanings=None, pieces=False):
    printed, reported, status = run("read", data, pieces)
    lines, refusal = read_model(data)
    pairs = [line.partition(" # ") for line in printed.decode().splitlines()]
    hold(f"{what}, lines", lines, [line for line, _, _ in pairs])
    hold(f"{what}, each with a meaning", True, all(sign and meaning for _, sign, meaning in pairs))
    hold(f"{what}, refusal and status", ([refusal] if refusal else [], 1 if refusal else 0), (reported, status))
    if meanings is not None:
        hold(f"{what}, meanings", meanings, [meaning for _, _, meaning in pairs])
    return printed


def hold_write(what, text, pieces=False):
    printed, reported, status = run("write", text, pieces)
    capture, expected = write_model(text)
    hold(f"{what}, capture", capture.hex(), printed.hex())
    starts = [line[: len(start)] for line, start in zip(reported, expected)]
    hold(f"{what}, reports", (expected, len(expected)), (starts, len(reported)))
    hold(f"{what}, status", 1 if expected else 0, status)
    return printed


# The cases


def hold_headers():
    hold_read("an empty file", b"")
    for order in "<>":
        hold_read("a header alone", header(order))
        hold_read("a header of 23 bytes", header(order)[:23])
        hold_read("other zone, accuracy and snap length", header(order, 3600, 6, 65535) + record(order, 1, 2, b"\xaaU"))
        for what, wrong in (
            ("nanoseconds", {"magic": 0xA1B23C4D}),
            ("version 2.3", {"version": (2, 3)}),
            ("version 4.2", {"version": (4, 2)}),
            ("link type 1", {"link": 1}),
            ("link type 147 with a higher bit", {"link": 147 | 1 << 16}),
        ):
            hold_read(what, header(order, **wrong))


def hold_records():
    good = [(0, 0, b""), (4294967295, 999999, b"\xaa\x55"), (7, 1, bytes(range(256)) * 16 + b"abc")]
    for order in "<>":
        file = header(order) + b"".join(record(order, *fields) for fields in good)
        for count in (0, 1, 15, 16, 17, 40, 4114):
            hold_read(f"a file without its last {count} bytes", file[: len(file) - count])
        for what, wrong in (
            ("a second of microseconds", record(order, 1, 1000000, b"")),
            ("lengths that differ", record(order, 1, 2, b"ab", (2, 3))),
            ("a frame of 4,100 bytes", record(order, 1, 2, b"a" * 4100)),
            ("the other byte order", record("><"[order == ">"], 1, 2, b"ab")),
        ):
            hold_read(what, file + wrong)
            hold_read(f"{what}, and a good record after it", file + wrong + record(order, 1, 2, b"ab"))


def hold_meanings():
    frames = list(judge_cases())
    for order in "<>":
        file = header(order) + b"".join(record(order, i, i, frame) for i, (frame, _) in enumerate(frames))
        hold_read("the frames of judge.txt", file, [line for _, line in frames])
        hold_read("the frames of judge.txt, in pieces", file, [line for _, line in frames], pieces=True)


LINES = rb"""0.000000 -
1700000000.123456 aa00040036034155
  # a note alone

1.000000 AA 00 02 00 71 55 # a note
1.000000 aa55 	
1.00000 aa55
1.0000000 aa55
.000000 aa55
1.000000aa55
1.000000
+1.000000 aa55
4294967295.999999 00
4294967296.000000 00
18446744073709551617.000000 00
1.000000 aa5
1.000000 a a
1.000000 0x55
1.000000 --
1.000000 - -
1.000000  -
hello
1,000000 aa55
 1.000000 aa55
"""


def hold_lines():
    hold_write("no line", b"")
    hold_write("typed lines", LINES)
    hold_write("typed lines, in pieces", LINES, pieces=True)
    hold_write("typed lines that end in CR LF", LINES.replace(b"\n", b"\r\n"))
    hold_write("a last line without a line end", b"1.000000 aa55\n2.000000 aa")
    hold_write("a frame of 4,099 bytes", b"1.000000 " + b"5a" * 4099 + b"\n2.000000 00")
    hold_write("a frame of 4,100 bytes", b"1.000000 " + b"5a" * 4100 + b"\n2.000000 00")
    for count in (LONGEST_LINE, LONGEST_LINE + 1, 200000):
        line = b"1.000000 aa55 #".ljust(count, b".")
        hold_write(f"a line of {count:,} bytes", line + b"\n2.000000 00\n")
        hold_write(f"a last line of {count:,} bytes", b"2.000000 00\n" + line)


def random_record(chance):
    count = chance.choice((0, 1, 2, 8, 30, 300, 4099)) if chance.random() < 0.9 else chance.randrange(4100)
    return chance.randrange(1 << 32), chance.randrange(1000000), chance.randbytes(count)


def hold_generated():
    """Files of some hundred kilobytes, longer than what the program holds, of both byte orders; half with a flaw."""
    chance = random.Random(147)
    for i in range(40):
        order = chance.choice("<>")
        zone = 0 if i % 4 < 2 else chance.randrange(1 << 32)
        records = [random_record(chance) for _ in range(chance.randrange(400))]
        file = bytearray(header(order, zone) + b"".join(record(order, *fields) for fields in records))
        if i % 2:
            at = chance.randrange(len(file))
            file[at : at + chance.randrange(2)] = chance.randbytes(chance.randrange(2))
        printed = hold_read(f"generated capture {i}", bytes(file))
        written = hold_write(f"the lines of generated capture {i}", printed)
        if order == "<" and zone == 0 and not read_model(file)[1]:
            hold(f"generated capture {i}, written again", file.hex(), written.hex())


def hold_fault(what, words, start, given=b""):
    """Runs the program by a shell, with words for its input and output. It prints nothing and reports one line."""
    command = ["bash", "-c", f'"$@" {words}', "bash", *sys.argv[1:]]
    done = subprocess.run(command, input=given, capture_output=True)
    reported = done.stderr.decode()
    hold(what, (b"", 1, start, 1), (done.stdout, done.returncode, reported[: len(start)], reported.count("\n")))


def hold_faults():
    """Standard input and output that do not work, and wrong arguments."""
    for word, given in ("read", header(">") + record(">", 0, 0, b"")), ("write", b"1.000000 aa55\n"):
        hold_fault(f"{word}, a folder as input", f"{word} </", "capture: cannot read standard input: ")
        hold_fault(f"{word}, a closed input", f"{word} <&-", "capture: cannot read standard input: ")
        hold_fault(f"{word}, a full output", f"{word} >/dev/full", "capture: cannot write standard output: ", given)
        hold_fault(f"{word}, a closed output", f"{word} >&-", "capture: cannot write standard output: ", given)
    for words in "", "reads", "rea", "READ", "read write", "read read", "--read", "''", "write x":
        hold_fault(f"the arguments '{words}'", f"{words} </dev/null", "capture: usage: ")


hold_headers()
hold_records()
hold_meanings()
hold_lines()
hold_generated()
hold_faults()
print(f"captures: {held.verdict()}")
sys.exit(1 if held.differences else 0)

"""wireshark.py: holds the captures of ./run capture and of ./run dump --pcap, and the dissector for Wireshark, to tshark,
capinfos and editcap.

It is run by tests/wireshark, from the project's root. Status: 0 where all is as expected, 1 where something is not.
"""
import itertools
import json
import os
import random
import struct
import subprocess
import sys
import tempfile

sys.dont_write_bytecode = True
from comparisons import Comparisons
from dump_model import is_utf8, ranges, records
from fixture_dump import fixture_dump
from judge_cases import judge_cases

DISSECTOR = "crates/capture/wireshark/edm.lua"
LONGEST = 4099
COLUMN = 4095  # the bytes that Wireshark keeps of a column
GENERATED = 3000

# A time and a frame each, as ./run capture takes and prints them: the first second, the last microsecond of a second, an
# empty frame, two bytes that are no packet, the longest frame, and the last second.
TYPED = [
    "0.000000 aa0002007155",
    "1.999999 aa00040036034155",
    "1700000000.000001 -",
    "1700000000.000001 00ff",
    "1700000000.123456 aa0fff003103" + (bytes(range(256)) * 16)[:4092].hex() + "55",
    "4294967295.999999 aa55",
]

# Three frames between rubbish: after a 55, after AA that is no start, and after so many zeros that the time has seconds.
DUMP = bytes.fromhex("0055 aa0002007155 aa00ff aa00040036034155").ljust(2500000, b"\x00")
DUMP += bytes.fromhex("aa000300210755 aa")
DUMPED = ["0.000002 aa0002007155", "0.000011 aa00040036034155", "2.500000 aa000300210755"]

held = Comparisons("wireshark", slice(300))
hold = held.hold


def hold_each(what, expected, came):
    hold(f"number of {what}", len(expected), len(came))
    for wanted, seen in zip(expected, came):
        hold(what, wanted, seen)


def stop(words):
    print(f"wireshark: {words}")
    sys.exit(1)


def stop_at_differences():
    if held.differences:
        stop(held.verdict())


def text(printed):
    return printed.decode(errors="replace")


def run(*command, given=None, **more):
    """The bytes that a command prints. It must succeed, and Lua must have nothing to report."""
    done = subprocess.run(command, input=given, capture_output=True, timeout=120, **more)
    said = text(done.stderr)
    if done.returncode != 0 or "Lua" in said:
        stop(f"{' '.join(command)}: status {done.returncode}\n{said}")
    if b"Lua Error" in done.stdout:
        at = done.stdout.index(b"Lua Error")
        stop(f"{' '.join(command)}: {text(done.stdout[at : at + 200])}")
    return done.stdout


def tshark(path, *words):
    """Without the settings and the plugins of whoever runs this."""
    folder = os.path.dirname(path)
    return run("tshark", "-n", "-r", path, *words, env={**os.environ, "HOME": folder, "XDG_CONFIG_HOME": folder})


def layers(path, *words):
    return [packet["_source"]["layers"] for packet in json.loads(text(tshark(path, "-T", "json", "-x", *words)))]


def save(path, content):
    with open(path, "wb") as file:
        file.write(content)
    return path


def frame_from(digits):
    return bytes.fromhex("" if digits == "-" else digits)


def frame_of(line):
    return frame_from(line.split(" ")[1])


def line_of(time, frame):
    return f"{time} {frame.hex() or '-'}"


def write(path, lines):
    return save(path, run("./run", "capture", "write", given="".join(line + "\n" for line in lines).encode()))


def read(path):
    """The lines of a capture, and the meaning of each."""
    with open(path, "rb") as file:
        printed = text(run("./run", "capture", "read", given=file.read())).splitlines()
    pairs = [line.partition(" # ")[::2] for line in printed]
    return [line for line, _ in pairs], [meaning for _, meaning in pairs]


def big_endian(path, lines):
    """A capture that no program of ours wrote."""
    content = struct.pack(">IHHiIII", 0xA1B2C3D4, 2, 4, 0, 0, LONGEST, 147)
    for line in lines:
        seconds, microseconds = line.split(" ")[0].split(".")
        frame = frame_of(line)
        content += struct.pack(">IIII", int(seconds), int(microseconds), len(frame), len(frame)) + frame
    return save(path, content)


def hold_capinfos(path, count):
    printed = text(run("capinfos", "-M", path)).splitlines()
    came = {name: value.strip() for name, _, value in (line.partition(":") for line in printed)}
    expected = {
        "File type": "pcap",
        "File encapsulation": "user0",
        "File timestamp precision": "microseconds (6)",
        "Packet size limit": f"file hdr: {LONGEST} bytes",
        "Number of packets": str(count),
    }
    for name, value in expected.items():
        hold(f"capinfos, {name}", value, came.get(name))


def hold_packets(path, lines):
    """tshark prints times with nine digits after the point, and no bytes for an empty frame."""
    packets = layers(path)
    hold("tshark, packets", len(lines), len(packets))
    for line, packet in zip(lines, packets):
        time, frame = line.split(" ")[0], frame_of(line)
        said = packet["frame"]
        hold(f"tshark, time of {line[:60]}", time + "000", said["frame.time_epoch"])
        hold(f"tshark, lengths of {line[:60]}", [str(len(frame))] * 2, [said["frame.len"], said["frame.cap_len"]])
        hold(f"tshark, bytes of {line[:60]}", frame.hex(), packet.get("frame_raw", [""])[0])


def hold_captures(folder):
    """The capture that ./run capture writes, and those of other programs that it reads."""
    ours, big, host = (os.path.join(folder, name) for name in ("ours.pcap", "big.pcap", "host.pcap"))
    write(ours, TYPED)
    hold_capinfos(ours, len(TYPED))
    hold_packets(ours, TYPED)
    big_endian(big, TYPED)
    hold_each("lines of a big-endian capture", TYPED, read(big)[0])
    run("editcap", "-F", "pcap", big, host)
    hold_each("lines of the capture that editcap wrote", TYPED, read(host)[0])
    if sys.byteorder == "little":
        with open(ours, "rb") as one, open(host, "rb") as other:
            hold("the capture that editcap wrote, byte for byte", other.read().hex(), one.read().hex())


def dumped(path, dump):
    """The capture of the kept frames of a dump."""
    done = subprocess.run(["./run", "dump", "--pcap"], input=dump, capture_output=True, timeout=120)
    hold("./run dump --pcap, report and status", (b"", 0), (done.stderr, done.returncode))
    return save(path, done.stdout)


def hold_dumps(folder):
    """The captures that ./run dump writes of the typed dump and of the fixture."""
    fixture = fixture_dump()
    kept = records(fixture, ranges(fixture))
    found = [line_of(f"{seconds}.{microseconds:06}", frame) for seconds, microseconds, frame in kept]
    for name, dump, lines in ("dump.pcap", DUMP, DUMPED), ("fixture.pcap", fixture, found):
        path = dumped(os.path.join(folder, name), dump)
        hold_capinfos(path, len(lines))
        stop_at_differences()  # packets that should not be there may be too many for tshark's time
        hold_packets(path, lines)
    return len(DUMPED) + len(found)


def recorded_frames():
    """The frames that replay is asked about, and the answer that the Rust gave."""
    with open("crates/replay/stdin", encoding="latin-1", newline="\n") as asked:
        with open("crates/replay/stdout", encoding="latin-1", newline="\n") as answered:
            pairs = list(zip(asked, answered, strict=True))
    for question, answer in pairs:
        word, _, digits = question.rstrip("\n").partition(" ")
        if word == "frame" and not answer.startswith("what?"):
            frame = frame_from("".join(digits.split()))
            if len(frame) <= LONGEST:
                yield frame, answer.rstrip("\n")


def requests_at_edges():
    """AT requests with bytes at the edges of the Unicode Standard's Table 3-7. Python decides which are UTF-8."""
    leads = bytes.fromhex("00 7f 80 bf c0 c1 c2 df e0 e1 ec ed ee ef f0 f1 f3 f4 f5 ff")
    seconds = bytes.fromhex("7f 80 8f 90 9f a0 bf c0")
    rests = ("", "7f", "80", "bf", "c0", "8080", "bfbf", "807f", "80c0")
    for lead, second, rest in itertools.product(leads, seconds, rests):
        content = bytes([lead, second]) + bytes.fromhex(rest)
        frame = b"\xaa" + (len(content) + 2).to_bytes(2, "big") + b"\x00\x44" + content + b"\x55"
        yield frame, f"ATRequest {content.hex()}" if is_utf8(content) else "refused AtRequestEventDecodeError"


def generated_frames(frames, count):
    """Random bytes, and frames with a few bytes changed, added or lost. Half are given a start, length and stop that fit."""
    chance = random.Random(147)
    for _ in range(count):
        frame = bytearray(chance.choice(frames) if chance.random() < 0.9 else chance.randbytes(chance.randrange(40)))
        for _ in range(chance.randrange(1, 4)):
            place = chance.randrange(len(frame) + 1)
            frame[place : place + chance.randrange(3)] = chance.randbytes(chance.randrange(3))
        if chance.random() < 0.5:
            frame[0:3] = b"\xaa" + (max(len(frame) - 4, 0) % 4096).to_bytes(2, "big")
            frame[-1:] = b"\x55"
        yield bytes(frame[:LONGEST])


ESCAPES = {0x09: r"\t", 0x0A: r"\n", 0x0D: r"\r", 0x22: r"\"", 0x5C: r"\\"}
IDENTIFIERS = {
    0x0011: "ConnectEvent",
    0x0021: "DisconnectEvent",
    0x0031: "DataEvent",
    0x0036: "DataCommand",
    0x0041: "ATEvent",
    0x0044: "ATRequest",
    0x0045: "ATResponse",
    0x0056: "ResendConnectEvents",
    0x0071: "StartEvent",
}
# The fields of a payload, in the order of the words after the packet's name; an AT line has one, its text
FIELDS = {
    "ConnectEvent": "channel connect_type protocol remote_address remote_port local_address local_port".split(),
    "DisconnectEvent": ["channel"],
    "DataEvent": ["channel", "data"],
    "ATRequest": ["text"],
    "ResendConnectEvents": [],
    "StartEvent": [],
}
NUMBERS = ("length", "channel", "protocol", "remote_port", "local_port")


def identifier_of(frame):
    return int.from_bytes(frame[3:5], "big")


def quoted(line):
    return '"' + "".join(ESCAPES.get(b) or (chr(b) if 0x20 <= b <= 0x7E else f"\\x{b:02x}") for b in line) + '"'


def fields_around(frame):
    if len(frame) < 6:
        return {}
    return {
        "start": frame[:1].hex(),
        "length": str(int.from_bytes(frame[1:3], "big") % 4096),
        "identifier": frame[3:5].hex(),
        "payload": frame[5:-1].hex() or "-",
        "stop": frame[-1:].hex(),
    }


def expected_answer(frame, line):
    """What Wireshark shows for a frame where judge prints `line`: the Info column, the fields, and the refusal in the mark
    of a malformed frame. The dissector shows an AT line and does not read it, so the name alone is judge's. A refusal of
    the AT layer does not name the packet, but the identifier does: it has passed its check by then."""
    name, *words = line.split(" ")
    refusal, fields = "", fields_around(frame)
    if line.startswith("refused AtPacketError "):
        name = IDENTIFIERS[identifier_of(frame)]
    if name == "refused":
        refusal = words[0]
    elif name in ("ATEvent", "ATResponse"):
        line = f"{name} {quoted(frame[5:-1])}"
        fields["text"] = fields["payload"]
    else:
        fields.update(zip(FIELDS[name], words, strict=True))
    return {"Info": line[:COLUMN], "fields": {k: v for k, v in fields.items() if v != "-"}, "refusal": refusal}


def word_of(name, layer):
    """A field as judge prints it: a number in decimal, the connect type by name, else the bytes in hex."""
    if name in NUMBERS:
        return layer["edm." + name]
    digits = layer[f"edm.{name}_raw"][0]
    return "ConnectEventIPv4" if (name, digits) == ("connect_type", "02") else digits


def answer_of(info, layer):
    """tshark gives a layer without fields as a text."""
    layer = layer if isinstance(layer, dict) else {}
    layer = {**layer, **layer.get("edm.payload_tree", {})}
    names = [key[4:-4] for key in layer if key.startswith("edm.") and key.endswith("_raw")]
    mark = layer.get("_ws.expert", {}).get("_ws.expert.message", "")
    return {"Info": info, "fields": {name: word_of(name, layer) for name in names}, "refusal": mark.split(":")[0]}


def dissected(path):
    """What Wireshark shows for each packet, and the labels of all identifiers, from three runs of tshark."""
    script = ("-X", "lua_script:" + DISSECTOR)
    printed = text(tshark(path, *script, "-T", "tabs", "-o", 'gui.column.format:"No.","%m","Info","%i"'))
    infos = [line.partition("\t")[2] for line in printed.split("\n")[:-1]]
    found = [packet.get("edm") for packet in layers(path, *script, "-J", "edm")]
    hold("tshark, packets in two forms", len(infos), len(found))
    label = "    Identifier and type: "
    labels = [line[len(label) :] for line in text(tshark(path, *script, "-V")).split("\n") if line.startswith(label)]
    return [answer_of(info, layer) for info, layer in zip(infos, found)], labels


def label_of(frame):
    identifier = identifier_of(frame)
    return f"{IDENTIFIERS.get(identifier, 'Unknown')} (0x{identifier:04x})"


def hold_dissector(folder):
    """The dissector on frames with a known line, and on generated ones, where ./run capture gives the line."""
    known = [*judge_cases(), *recorded_frames(), *requests_at_edges()]
    frames = [frame for frame, _ in known]
    frames += generated_frames(frames, GENERATED)
    lines = [line_of(f"{i}.{i:06}", frame) for i, frame in enumerate(frames)]
    path = write(os.path.join(folder, "frames.pcap"), lines)
    came, meanings = read(path)
    hold_each("lines of the capture of all frames", lines, came)
    for (frame, line), meaning in zip(known, meanings):
        hold(f"meaning of {frame.hex()[:60]}", line, meaning)
    stop_at_differences()  # a packet that is not there would move all that follow

    answers, labels = dissected(path)
    hold("frames that tshark shows", len(frames), len(answers))
    hold_each("labels of identifiers", [label_of(frame) for frame in frames if len(frame) >= 6], labels)
    judged = [line for _, line in known] + meanings[len(known) :]
    for frame, line, answer in zip(frames, judged, answers):
        for part, expected in expected_answer(frame, line).items():
            hold(f"dissector, {part} of {frame.hex()[:60]}", expected, answer[part])
    print(f"wireshark: {len(known)} frames with a known line and {GENERATED} generated ones compared")
    return len(frames)


def main():
    with tempfile.TemporaryDirectory() as folder:
        hold_captures(folder)
        kept = hold_dumps(folder)
        count = hold_dissector(folder)
    stop_at_differences()
    print(f"tshark and capinfos: {len(TYPED)} packets, {kept} frames kept of dumps and {count} frames as expected")


if __name__ == "__main__":
    main()

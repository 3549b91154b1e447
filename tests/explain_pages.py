#!/usr/bin/env python3
"""explain_pages.py [--generated COUNT] PROGRAM..: holds the text page and the HTML page of each input of explain.txt to explain_model.py.

PROGRAM.. is the command that runs explain, as `./run explain`. COUNT more inputs are made from those of explain.txt by a fixed rule. Status: 0 where
all pages are as expected, 1 where one is not.
"""
import os
import random
import re
import subprocess
import sys
from html.parser import HTMLParser

sys.dont_write_bytecode = True
from explain_model import KINDS, NAMES, PACKETS, read


def title_of(kind, r, verdict):
    n = len(r.data)
    said = {"accepted": "accepted, " + r.what, "refused": "refused", "not binary": "not a binary event"}[verdict]
    return f"{KINDS[kind]} of {n} byte{'' if n == 1 else 's'}: {said}"


NOT_BINARY = "A binary event starts with CR LF +UESODB: or CR LF +UESODBF:, and this input does not."


# the program reads no more than 4,100 bytes
CUT = "Only the first 4,100 bytes are read; what follows them, if anything, is not explained."


def cut_note(r):
    return [CUT] if len(r.data) >= 4100 else []


def readable(b):
    return chr(b) if 0x20 <= b <= 0x7E else "."


def owners_of(r, verdict):
    """For each byte the number of its field, from 1; 0 for none."""
    owners = [0] * len(r.data)
    if verdict == "accepted":
        for i, (start, length, _, _) in enumerate(r.fields):
            owners[start : start + length] = [i + 1] * length
    return owners


def under(r, verdict, owners, start):
    """The line under 16 bytes."""
    cells = [" "] * (6 + 16 * 3)
    for place in range(start, min(start + 16, len(owners))):
        k, at = owners[place], 6 + 3 * (place - start)
        if k:
            ends = place + 1 == len(owners) or owners[place + 1] != k
            cells[at] = "-" if place and owners[place - 1] == k else "["
            cells[at + 1] = "]" if ends else "-"
            cells[at + 2] = " " if ends else "-"
    if verdict == "refused" and start <= r.broken[2] < start + 16:
        return " " * (6 + 3 * (r.broken[2] - start)) + f"^^ byte {r.broken[2]}"
    return "".join(cells).rstrip()


def note_of(r):
    return f"The event ends before byte {r.past}." if r.past < len(r.data) else r.note


def text_page(kind, r, verdict):
    lines = [title_of(kind, r, verdict), ""] + [line for note in cut_note(r) for line in (note, "")]
    lines += ["byte   0  1  2  3  4  5  6  7  8  9 10 11 12 13 14 15"]
    owners = owners_of(r, verdict)
    shown = len(r.data) + (verdict == "refused" and r.broken[2] == len(r.data))
    for start in range(0, shown, 16):
        row = r.data[start : start + 16]
        hexes = " ".join("%02X" % b for b in row)
        lines.append(f"{start:4}  {hexes:47}  {''.join(map(readable, row))}".rstrip(" "))
        below = under(r, verdict, owners, start)
        if below:
            lines.append(below)
    lines.append("")
    if verdict == "refused":
        name, number, byte, sentence = r.broken
        lines += [f"Refused at byte {byte}:", "  " + sentence, f"Refusal {number}, {NAMES[number - 1]}", ""]
        lines += ["Checks that held before it:"] + ["  " + held for held in r.held or ["none; it is the first check"]]
    elif verdict == "not binary":
        lines.append(NOT_BINARY)
    elif not r.fields:
        lines.append("It has no fields.")
    else:
        lines.append("byte  bytes  field                  meaning")
        lines += [f"{start:4}  {length:5}  {name:21}  {meaning}" for start, length, name, meaning in r.fields]
    if verdict == "accepted" and note_of(r):
        lines += ["", note_of(r)]
    return "".join(line + "\n" for line in lines)


class Page(HTMLParser):
    """The elements of a page, and what is wrong with it."""

    ALONE = {"meta"}

    def __init__(self):
        super().__init__(convert_charrefs=True)
        self.open, self.wrong, self.elements = [], [], []

    def handle_decl(self, decl):
        self.elements.append(["!" + decl, {}, "", []])

    def handle_starttag(self, tag, attributes):
        element = [tag, dict(attributes), "", [e[0] for e in self.open]]
        self.elements.append(element)
        if tag in ("script", "link", "img", "iframe") or {"src", "href", "style"} & set(element[1]):
            self.wrong.append(f"<{tag}> with {attributes}")
        if tag not in self.ALONE:
            self.open.append(element)

    def handle_endtag(self, tag):
        if not self.open or self.open[-1][0] != tag:
            self.wrong.append(f"</{tag}> ends what is not open last")
        else:
            self.open.pop()

    def handle_data(self, text):
        for element in self.open:
            element[2] += text

    def texts(self, tag, inside=None):
        return [e[2] for e in self.elements if e[0] == tag and (inside is None or inside in e[3])]


def cells_of(r, verdict):
    """Of each byte of the HTML page its class, its title, its label, and the text in it."""
    cells = []
    owners = owners_of(r, verdict)
    refused = r.broken[2] if verdict == "refused" else None
    for place in range(len(r.data) + (refused == len(r.data))):
        shown = "%02X%s" % (r.data[place], readable(r.data[place])) if place < len(r.data) else "end "
        if place == refused:
            said = f"byte {place}, refused"
            cells.append(("refused", said, said, "img", shown + "^"))
        elif owners[place]:
            cells.append((f"f{owners[place] % 8}", f"byte {place}, field {owners[place]}", None, None, shown + str(owners[place])))
        else:
            cells.append((None, f"byte {place}", None, None, shown))
    return cells


def html_faults(kind, r, verdict, markup):
    """What differs between the HTML page and what is expected of it."""
    page = Page()
    page.feed(markup)
    page.close()
    faults = page.wrong + [f"<{e[0]}> is not closed" for e in page.open]
    if re.sub(r"&(amp|lt|gt|quot);", "", markup).count("&"):
        faults.append("an & that is not escaped")
    if "url(" in markup or "@import" in markup:
        faults.append("a file from outside")

    def same(what, came, expected):
        if came != expected:
            faults.append(f"{what}: expected {expected}, came {came}")

    same("first element", page.elements[0][0], "!DOCTYPE html")
    metas = [e[1] for e in page.elements if e[0] == "meta"]
    same("meta", metas, [{"charset": "utf-8"}, {"name": "viewport", "content": "width=device-width, initial-scale=1"}])
    same("lang", [e[1] for e in page.elements if e[0] == "html"], [{"lang": "en"}])
    title = title_of(kind, r, verdict)
    same("title", page.texts("title") + page.texts("h1"), [title, title])
    cells = [
        (e[1].get("class"), e[1].get("title"), e[1].get("aria-label"), e[1].get("role"), e[2]) for e in page.elements if e[0] == "i"
    ]
    expected = cells_of(r, verdict)
    same("bytes", cells, expected)
    same("places", page.texts("em"), [str(p) for p in range(0, len(expected), 8)])
    colours = set(re.findall(r"\.(f[0-7])\{background:var\(--\1\)\}", markup))
    same("colours", {c[0] for c in cells} - {None, "refused"} - colours, set())
    faults_in_rest(page, r, verdict, same)
    return faults


def faults_in_rest(page, r, verdict, same):
    said = [e[2] for e in page.elements if e[0] == "p" and "div" not in e[3]]
    rows = [[""]]
    for e in page.elements:
        if e[0] == "tr":
            rows.append([])
        elif e[0] in ("td", "th"):
            rows[-1].append(e[2])
    chips = [(e[1].get("class"), e[2]) for e in page.elements if e[0] == "b"]
    table, numbers, expected = [], [], []
    if verdict == "refused":
        _, number, byte, sentence = r.broken
        expected = [f"Refused at byte {byte}: {sentence}", f"Refusal {number}, {NAMES[number - 1]}"]
        same("checks", page.texts("li"), r.held or ["none; it is the first check"])
    elif verdict == "not binary":
        expected = [NOT_BINARY]
    elif r.fields:
        table = [["byte", "bytes", "field", "meaning"]]
        for i, (start, length, name, meaning) in enumerate(r.fields):
            table.append([str(start), str(length), str(i + 1) + name, meaning])
            numbers.append((f"f{(i + 1) % 8}", str(i + 1)))
    else:
        expected = ["It has no fields."]
    if verdict == "accepted" and note_of(r):
        expected.append(note_of(r))
    same("sentences", said, cut_note(r) + expected)
    same("table", rows[1:], table)
    same("numbers of the fields", chips, numbers)


def bytes_of(text):
    """`~` is CR LF, `<..>` holds bytes in hex with `*COUNT` to repeat the one before, and the rest stands for itself."""
    data = b""
    for piece in re.findall(r"<[^>]*>|~|[^<~]+", text):
        if piece == "~":
            data += b"\r\n"
        elif piece[0] == "<":
            for word in piece[1:-1].split():
                data = data + data[-1:] * (int(word[1:]) - 1) if word[0] == "*" else data + bytes.fromhex(word)
        else:
            data += piece.encode()
    return data


def cases():
    """Of each line of explain.txt its kind, its bytes and what it is to show: `accepted`, `not binary` or the check that refuses."""
    for line in open(os.path.join(os.path.dirname(os.path.abspath(__file__)), "explain.txt"), encoding="utf-8"):
        line = line.rstrip("\n")
        if line and line[0] != "#":
            kind, shows, text = (line + " ").split(" ", 2)
            data = bytes_of(text[:-1])
            if re.fullmatch("[0-9A-F]{4}", kind):
                data = b"\xaa" + (len(data) + 2).to_bytes(2, "big") + bytes.fromhex(kind) + data + b"\x55"
                kind = "frame"
            yield kind, shows, data


def generated(count, known):
    """Inputs made from the known ones: a byte changed, added, lost or moved, or an end cut off."""
    rng = random.Random(6)
    for _ in range(count):
        kind, _, data = rng.choice(known)
        data = bytearray(data[:400])
        for _ in range(rng.randint(1, 3)):
            place = rng.randint(0, len(data))
            what = rng.randint(0, 4)
            if what == 0:
                data[place : place + 1] = bytes([rng.choice(b"\x00\x01\x0a\x0d\x20\"&'+,-0123459:<>AU\\\x7f\x80\xaa\xc3\xff")])
            elif what == 1:
                data[place:place] = bytes([rng.choice(b"\x01\x0a\x0d+,019:x\x80\xe2")])
            elif what == 2:
                del data[place : place + rng.randint(1, 4)]
            elif what == 3:
                del data[place:]
            else:
                data[place:place] = data[rng.randint(0, len(data)) :][:8]
        if kind == "frame" and rng.random() < 0.7 and len(data) >= 6:
            data[0], data[-1] = 0xAA, 0x55
            data[1:3] = (len(data) - 4).to_bytes(2, "big")
        yield kind, None, bytes(data)


def run(program, html, kind, data):
    words = (["--html"] if html else []) + ([] if kind == "frame" else [kind])
    ran = subprocess.run(program + words, input=data, capture_output=True)
    return ran.stdout, ran.stderr, ran.returncode


def faults_of(program, kind, shows, data):
    """What is wrong with the two pages of an input."""
    r, verdict = read(kind, data[:4100])
    shown = r.broken[0] if verdict == "refused" else verdict.replace(" ", "-")
    faults = [f"explain.txt says {shows}, the model {shown}"] if shows not in (None, shown) else []
    text, said, status = run(program, False, kind, data)
    markup, said_too, status_too = run(program, True, kind, data)
    if (said, said_too, status, status_too) != (b"", b"", 0, 0):
        faults.append(f"status {status} and {status_too}, on standard error: {(said + said_too).decode(errors='replace')}")
    expected = text_page(kind, r, verdict)
    if text.decode("latin-1") != expected:
        faults.append(f"the text page: expected\n{expected}came\n{text.decode('latin-1')}")
    if max(map(len, text.split(b"\n"))) > 100 or max(text, default=0) > 0x7E:
        faults.append("the text page has a line of more than 100 columns, or a byte that is not readable")
    return faults + html_faults(kind, r, verdict, markup.decode("latin-1"))


LINE = "Utf8 LineOfTwo PlaceTwo LineEnd EventName FieldThere FieldEmpty FieldByte FieldLarge"
CHECKS = {
    "frame": "FrameOfTwo StartByte EndByte FrameOfSix FrameLength Identifier ConnectOfTwo ConnectType ConnectSize DisconnectSize DataChannel "
    "RequestUtf8 FieldListed FieldType FirstLineEnd LastLineEnd " + LINE,
    "w26": "FieldListed FieldType " + LINE,
    "w36": LINE,
    "binary": "Marker Utf8 FieldThere FieldEmpty FieldByte FieldLarge LengthBytes DataBytes not-binary",
    "response": "Utf8 FirstLineEnd LastLineEnd",
}


def not_covered(known):
    """The checks of each kind, and the packets, that no input shows."""
    shown = {(kind, shows) for kind, shows, _ in known}
    packets = {int.from_bytes(data[3:5], "big") for kind, shows, data in known if (kind, shows) == ("frame", "accepted")}
    lacking = [f"{kind} {check}" for kind, checks in CHECKS.items() for check in ["accepted"] + checks.split() if (kind, check) not in shown]
    return lacking + [f"packet {packet:04X}" for packet in sorted(set(PACKETS) - packets)]


def main():
    words, count = sys.argv[1:], 0
    if words[:1] == ["--generated"]:
        count, words = int(words[1]), words[2:]
    if not words:
        sys.exit("usage: explain_pages.py [--generated COUNT] PROGRAM..")
    known = list(cases())
    failed = [f"explain.txt has no input for {what}" for what in not_covered(known)]
    for kind, shows, data in known + list(generated(count, known)):
        faults = faults_of(words, kind, shows, data)
        if faults:
            failed.append(f"explain, {kind} {data[:60].hex()}: " + "\n    ".join(faults)[:3000])
    total = len(known) + count
    for fault in failed:
        print("tests: " + fault)
    if failed:
        print(f"tests: {len(failed)} of {total} inputs of explain not as expected")
        sys.exit(1)
    print(f"tests: {total} inputs of explain, text page and HTML page as expected")


main()

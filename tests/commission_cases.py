"""commission_cases.py: sessions of `commission` with their answers: those of commission.txt, the frames of judge.txt, long
lines and high counts, all worked out by hand; and a generated one, which the model of commission_model.py answers."""
import functools
import re
from typing import NamedTuple

from commission_frames import generated_lines
from commission_model import LONGEST_LINE, Commission
from fixture_dump import Chance, frame
from judge_cases import judge_cases

CONNECT_3 = frame(0x11, bytes.fromhex("03 02 00 C0A80007 1388 0A000002 1389"))
CONNECTED_3 = "ConnectEvent 3 ConnectEventIPv4 0 c0a80007 5000 0a000002 5001"
ROW_3 = "3 open ipv4 192.168.0.7 5000"
LENGTH_REFUSED = "refused PacketTypeDecodeLengthMismatch"


class Case(NamedTuple):
    """One run of the program: each line of the input, with its line end, and the lines that answer it."""

    what: str
    pairs: list

    def given(self):
        return b"".join(line for line, _ in self.pairs)


def typed_line(text):
    """A line of the input as commission.txt has it."""
    content = re.sub(r"\{([0-9A-F]{2})\}", lambda found: chr(int(found[1], 16)), text.removesuffix("{end}"))
    return content.encode("latin-1") + (b"" if text.endswith("{end}") else b"\n")


def typed_cases():
    cases = []
    with open("tests/commission.txt") as file:
        for row in file.read().split("\n"):
            if row.startswith("= "):
                cases.append(Case(row[2:], []))
            elif row.startswith(">"):
                cases[-1].pairs.append((typed_line(row[2:]), []))
            elif row and not row.startswith("#"):
                cases[-1].pairs[-1][1].append(row)
    return cases


def judged_case(may_ask=lambda whole: True):
    """The frames of judge.txt, with the lines typed there."""
    pairs = [(f"frame {whole.hex() or '-'}\n".encode(), [line]) for whole, line in judge_cases() if may_ask(whole)]
    return Case("the frames of judge.txt", pairs)


# Lines around the longest that is looked at, longer ones, and the largest frame


def long_lines(size):
    """Lines of so many bytes, and their answers where lines of that length are looked at. One has 8,189 bytes in hex or so:
    no length of 12 bits fits."""
    yield b"frame AA0002007155".ljust(size), "StartEvent"
    yield b"frame AA00" + b"02007155".rjust(size - 10), "StartEvent"
    yield b"frame " + b"AA000300210355".rjust(size - 6), "DisconnectEvent 3"
    yield b"row " + b"255".rjust(size - 4, b"0"), "255 closed"
    yield b"row " + b"256".rjust(size - 4, b"0"), "what?"
    yield b"row " + b"9" * (size - 4), "what?"
    yield (b"frame AA" if size % 2 == 0 else b"frame AA ").ljust(size, b"5"), LENGTH_REFUSED
    yield b"frame AA".ljust(size - 1, b"5") + b"x", "what?"
    yield b"rows".ljust(size), "what?"
    yield b"counts".rjust(size), "what?"
    yield b" " * size, "what?"
    yield b"\x00" * size, "what?"


def long_line_case(size, ending, has_end=True):
    """Each line of so many bytes, CR and all, then what the table and the counts have become."""
    is_looked_at = size <= LONGEST_LINE
    pairs, refused = [], 0
    for line, answer in long_lines(size - len(ending)):
        answer = answer if is_looked_at else "what?"
        refused += answer == LENGTH_REFUSED
        row = "3 closed" if answer == "DisconnectEvent 3" else ROW_3
        pairs += (f"frame {CONNECT_3.hex()}\n".encode(), [CONNECTED_3]), (line + ending + b"\n", [answer])
        pairs += (b"row 3\n", [row]), (b"frame aa000300210355\n", ["DisconnectEvent 3"])
    pairs.append((b"counts\n", [f"reopened 0 closed {int(is_looked_at)} stray 0 refused {refused}"]))
    if not has_end:
        last = b"row " + b"255".rjust(size - 4 - len(ending), b"0") + ending
        pairs.append((last, ["255 closed" if is_looked_at else "what?"]))
    return Case(f"lines of {size:,} bytes{', with a CR' if ending else ''}", pairs)


def tail_case(before):
    """A long line with an end that would be a line."""
    pairs = [(before + b"frame AA55\n", ["what?"]), (b"frame AA\n", ["refused PacketDecodeFramingInvalid"])]
    pairs += (b"counts\n", ["reopened 0 closed 0 stray 0 refused 1"]), (before + b"rows", ["what?"])
    return Case(f"{len(before):,} bytes and then a word", pairs)


def largest_case():
    """Of data, 4,092 bytes fit into a frame."""
    pairs = []
    for count in 4091, 4092:
        largest = frame(0x31, b"\x03" + b"\x55" * count)
        for text in largest.hex(), largest.hex().upper(), largest.hex(" "):
            pairs.append((f"frame {text}\n".encode(), ["DataEvent 3 " + "55" * count]))
    pairs.append((f"frame aa1000003103{'55' * 4094}\n".encode(), [LENGTH_REFUSED]))
    pairs.append((b"counts\n", ["reopened 0 closed 0 stray 6 refused 1"]))
    return Case("the largest frame, and one with a byte more", pairs)


def limit_cases():
    for size in range(LONGEST_LINE - 1, LONGEST_LINE + 3):
        yield long_line_case(size, b"")
        yield long_line_case(size, b"\r")
        yield long_line_case(size, b"", has_end=False)
    for size in 2 * LONGEST_LINE, 2 * LONGEST_LINE + 1, 65536, 65537, 200000:
        yield long_line_case(size, b"", has_end=False)
    for before in range(LONGEST_LINE - 2, LONGEST_LINE + 4):
        for times in 1, 2, 4:
            yield tail_case(b"x" * (before * times))
    yield largest_case()


def count_case():
    """Each count goes past 65,535."""
    pairs = []
    for word, times, answer, rows in (
        (b"-", 65537, "refused PacketDecodeFramingInvalid", []),
        (b"aa000300310355", 65538, "DataEvent 3 -", []),
        (b"aa000300210355", 65539, "DisconnectEvent 3", []),
        (CONNECT_3.hex().encode(), 65541, CONNECTED_3, [ROW_3]),
    ):
        pairs += [(b"frame " + word + b"\n", [answer])] * times
        pairs.append((b"rows\n", [*rows, "end"]))
    pairs.append((b"counts\n", ["reopened 65540 closed 65539 stray 65538 refused 65537"]))
    return Case("counts past 65,535", pairs)


@functools.cache
def generated_case(frames):
    """Some lines have a CR, and the last one has no line end."""
    chance, model = Chance(9), Commission()
    pairs = []
    for line in generated_lines(chance, frames):
        line += b"\r" if chance.below(8) == 0 else b""
        pairs.append((line + b"\n", model.answer(line)))
    last, answer = pairs.pop()
    return Case(f"a generated run of {frames:,} frames", [*pairs, (last.removesuffix(b"\n"), answer)])

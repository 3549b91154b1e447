"""commission_faults.py: faults of `commission`, each as the methods that stand in for those of the model. A test that does
not notice one of them lacks a case."""
import re

from commission_model import LONGEST_LINE, Commission, meaning
from fixture_dump import frame


def counted(name, *instead):
    """These counts go up in place of the one named."""

    def add(self, count):
        for each in instead if count == name else (count,):
            Commission.add(self, each)

    return {"add": add}


def counts_to(most):
    def add(self, count):
        self.count[count] = min(self.count[count] + 1, most)

    return {"add": add}


def keeps(address, port, order="big"):
    """A connect keeps other bytes of the payload."""

    def connect(self, payload):
        Commission.connect(self, payload)
        self.remotes[payload[0]] = payload[address], int.from_bytes(payload[port], order)

    return {"connect": connect}


def keeps_first(self, payload):
    remote = self.remotes.get(payload[0])
    Commission.connect(self, payload)
    self.remotes[payload[0]] = remote or self.remotes[payload[0]]


def also(method, step):
    """A method does one thing more, after its own."""

    def both(self, *given):
        answer = getattr(Commission, method)(self, *given)
        step(self, *given)
        return answer

    return {method: both}


def clear(self, *given):
    self.remotes.clear()


def close(self, payload, further=0):
    """Closes the channel that stands first in a payload, or one further on."""
    if payload:
        self.remotes.pop(payload[0] + further, None)


def open_channel(self, payload):
    self.remotes.setdefault(payload[0], (bytes(4), 0))


def add_one(name):
    return lambda self, *given: self.add(name)


def fed(change):
    """Another frame is fed in than the one whose line is printed."""

    def feed(self, whole):
        other = change(whole)
        if meaning(other) is not None:
            Commission.feed(self, other)
        return meaning(whole)

    return {"feed": feed}


def without(identifier):
    """Such a frame changes nothing: a start event is fed in."""
    return fed(lambda whole: frame(0x71, b"") if whole[3:5] == identifier else whole)


def modulo(channels):
    return fed(lambda whole: whole[:5] + bytes([whole[5] % channels]) + whole[6:] if len(whole) > 6 else whole)


def answered(method, change):
    """The answer of a method is changed."""
    return {method: lambda self, *given: change(getattr(Commission, method)(self, *given))}


def row_says(pattern, instead):
    return answered("row", lambda line: re.sub(pattern, instead, line))


def rows_lacks(start):
    return answered("rows", lambda lines: [line for line in lines if not line.startswith(start)])


def turned(line):
    words = line.split()
    return " ".join(words[2:] + words[:2])


def taken(pattern, instead):
    """A line is taken for another one. An empty one is not understood."""

    def said(self, text):
        return Commission.said(self, re.sub(pattern, instead, text))

    return {"said": said}


def row_modulo(bits):
    return taken("(?<=^row )[0-9]{3,40}$", lambda found: str(int(found[0]) % 2**bits))


def line_as(change):
    return {"answer": lambda self, line: Commission.answer(self, change(line))}


def looked_at(is_short):
    """Another rule for the lines that are too long."""

    def answer(self, line):
        return self.said(line.removesuffix(b"\r").decode("latin-1")) if is_short(line) else self.what()

    return {"answer": answer}


def given_as(change):
    """Another input."""
    return {"answers": lambda self, given: Commission.answers(self, change(given))}


def several(given):
    """A line that is too long as several lines."""
    size = LONGEST_LINE + 1
    return b"\n".join(line[at : at + size] for line in given.split(b"\n") for at in range(0, len(line) or 1, size))


COUNT_FAULTS = {
    **{f"{name} is not counted": counted(name) for name in Commission().count},
    **{f"{name} is counted twice": counted(name, name, name) for name in Commission().count},
    "stray is counted as refused": counted("stray", "refused"),
    "closed is counted as stray": counted("closed", "stray"),
    "a count stops at 255": counts_to(255),
    "a count stops at 65,535": counts_to(65535),
    "every disconnect is counted as closed": also("disconnect", add_one("closed")),
    "every connect is counted as reopened": also("connect", add_one("reopened")),
    "data on an open channel is stray": {"data": add_one("stray")},
    "data without bytes is not stray": {"data": lambda self, payload: payload[1:] and Commission.data(self, payload)},
    "0031 is not stray": without(b"\x00\x31"),
    "0036 is not stray": without(b"\x00\x36"),
    "other packets are counted as refused": also("other", add_one("refused")),
    "other packets are counted as stray": also("other", add_one("stray")),
    "a refused frame is counted as closed too": also("refused", add_one("closed")),
    "what? is counted as refused": also("what", add_one("refused")),
    "counts are in another order": answered("counts", turned),
    "counts starts again": also("counts", lambda self: self.count.update(dict.fromkeys(self.count, 0))),
}
TABLE_FAULTS = {
    "a connect on an open channel keeps the old end": {"connect": keeps_first},
    "the local end is kept": keeps(slice(9, 13), slice(13, 15)),
    "the local address is kept": keeps(slice(9, 13), slice(7, 9)),
    "the local port is kept": keeps(slice(3, 7), slice(13, 15)),
    "the port has its low byte first": keeps(slice(3, 7), slice(7, 9), "little"),
    "the port has its low byte alone": keeps(slice(3, 7), slice(8, 9)),
    "the address is read one byte too soon": keeps(slice(2, 6), slice(7, 9)),
    "the address is turned around": keeps(slice(6, 2, -1), slice(7, 9)),
    "a disconnect does not close": {"disconnect": lambda self, payload: payload[0] in self.remotes or self.add("closed")},
    "a disconnect closes the channel after it too": also("disconnect", lambda self, payload: close(self, payload, 1)),
    "a disconnect closes all": also("disconnect", clear),
    "stray data opens its channel": also("data", open_channel),
    "data closes its channel": also("data", close),
    "other packets open channel 0": also("other", lambda self, payload: open_channel(self, b"\x00")),
    "other packets close channel 0": also("other", lambda self, payload: close(self, b"\x00")),
    "other packets close the channel that they name": also("other", close),
    "a refused frame closes the channel that it names": also("refused", close),
    "a refused frame clears the table": also("refused", clear),
    "what? clears the table": also("what", clear),
    "rows clears the table": also("rows", clear),
    "the table has 128 channels": modulo(128),
    "the table has 255 channels": modulo(255),
    "the top 4 bits of the length count": fed(lambda whole: b"" if whole[1:2] >= b"\x10" else whole),
    "the high byte of the identifier does not count": fed(lambda whole: whole[:3] + b"\x00" + whole[4:]),
}
ROW_FAULTS = {
    "a row is without ipv4": row_says(" ipv4", ""),
    "a row has the address in hex": row_says(r"\S+[.]\S+", lambda found: bytes(map(int, found[0].split("."))).hex()),
    "a row has the port after a colon": row_says(r"([.].*) ", r"\1:"),
    "a remote end of zeros is closed": row_says(" open ipv4 0.0.0.0 0$", " closed"),
    "a closed row says open": row_says("closed", "open"),
    "rows are in the order of opening": {"rows": lambda self: [self.row(channel) for channel in self.remotes] + ["end"]},
    "rows are in the order of their digits": answered("rows", lambda lines: sorted(lines[:-1]) + ["end"]),
    "rows are turned around": answered("rows", lambda lines: lines[-2::-1] + ["end"]),
    "rows has closed channels": {"rows": lambda self: [self.row(channel) for channel in range(256)] + ["end"]},
    "rows lacks 0": rows_lacks("0 "),
    "rows lacks 255": rows_lacks("255 "),
    "rows lacks its end": rows_lacks("end"),
    "rows lacks its end where nothing is open": answered("rows", lambda lines: lines if len(lines) > 1 else []),
    "row takes 256 as 0": row_modulo(8),
    "row takes numbers modulo 2^32": row_modulo(32),
    "row takes numbers modulo 2^64": row_modulo(64),
    "row takes no leading zeros": taken("^row 0[0-9]+$", ""),
    "row takes three digits at most": taken("^row [0-9]{4,}$", ""),
    "row takes a sign": taken("^row [+]", "row "),
    "row takes a second space": taken("^row  ", "row "),
    "row takes a space at its end": taken("^(row [0-9]+) $", r"\1"),
}
LINE_FAULTS = {
    "what? has more": answered("what", lambda lines: ["what? 1"]),
    "rows takes more": taken("^rows .*", "rows"),
    "frame without hex is an empty frame": taken("^frame *$", "frame -"),
    "frame - is not taken": taken("^frame -$", ""),
    "hex is in capitals alone": taken("^frame .*[a-f].*", ""),
    "hex has spaces within a byte": taken("(?<=[0-9A-Fa-f]) (?=[0-9A-Fa-f])", ""),
    "hex has no second space": taken("^frame .*  .*", ""),
    "hex ends where it is none": taken("(?<=[0-9A-F]{2})x.*", ""),
    "words are in capitals too": taken("^[A-Z]+", lambda found: found[0].lower()),
    "a line may start with a space": taken("^ +", ""),
    "a CR counts": line_as(lambda line: line + b"\r" if line.endswith(b"\r") else line),
    "every CR at the end is dropped": line_as(lambda line: line.rstrip(b"\r")),
    "every CR is dropped": line_as(lambda line: line.replace(b"\r", b"")),
    "an empty line is passed over": {"answer": lambda self, line: Commission.answer(self, line) if line else []},
    "a line of 16,384 bytes is too long": looked_at(lambda line: len(line) < LONGEST_LINE),
    "a line of 16,385 bytes is not too long": looked_at(lambda line: len(line) <= LONGEST_LINE + 1),
    "a CR is not one of the 16,384 bytes": looked_at(lambda line: len(line.removesuffix(b"\r")) <= LONGEST_LINE),
    "no line is too long": looked_at(lambda line: True),
    "the start of a long line is looked at": line_as(lambda line: line[:LONGEST_LINE]),
    "a long line is several": given_as(several),
    "a last line without an end is dropped": given_as(lambda given: given[: given.rfind(b"\n") + 1]),
    "the end of the input is a line": given_as(lambda given: given + b"\n"),
}
FAULTS = COUNT_FAULTS | TABLE_FAULTS | ROW_FAULTS | LINE_FAULTS

"""programs.py: ways to run a program on an input. All but into_full give what the program prints, what it reports, and its
status."""
import contextlib
import itertools
import os
import select
import subprocess
import tempfile
import time

PATIENCE = 5  # seconds that an answer may take
LATE = f"(no answer within {PATIENCE} seconds)\n".encode()


def answer_of(done):
    return done.stdout, done.stderr.decode(errors="replace"), done.returncode


def from_pipe(command, given):
    return answer_of(subprocess.run(command, input=given, capture_output=True))


def from_file(command, given):
    with tempfile.TemporaryFile() as file:
        file.write(given)
        file.seek(0)
        return answer_of(subprocess.run(command, stdin=file, capture_output=True))


def in_pieces(*sizes):
    """A pipe that hands over pieces of these sizes, again and again. The program writes into files, since it may write more
    than a pipe holds before it has read all."""

    def fed(command, given):
        with tempfile.TemporaryFile() as printed, tempfile.TemporaryFile() as reported:
            process = subprocess.Popen(command, stdin=subprocess.PIPE, stdout=printed, stderr=reported, bufsize=0)
            at, size = 0, itertools.cycle(sizes)
            # A program that reads no more has closed the pipe; what it has written shows that.
            with contextlib.suppress(BrokenPipeError), process.stdin:
                while at < len(given):
                    at += process.stdin.write(given[at : at + next(size)])
                    time.sleep(0.0005)
            process.wait()
            printed.seek(0)
            reported.seek(0)
            return printed.read(), reported.read().decode(errors="replace"), process.returncode

    return fed


def into_full(command, given):
    """An output that is full: what is reported, up to the system's reason, in how many lines, and the status."""
    with open("/dev/full", "wb") as full:
        done = subprocess.run(command, input=given, stdout=full, stderr=subprocess.PIPE)
    reported = done.stderr.decode(errors="replace")
    return ": ".join(reported.split(": ")[:2]), reported.count("\n"), done.returncode


def rows_in_time(pipe, count):
    """So many rows, or fewer where the program has ended."""
    rows = b""
    while rows.count(b"\n") < count:
        if not select.select([pipe], [], [], PATIENCE)[0]:
            raise TimeoutError
        piece = os.read(pipe.fileno(), 65536)
        if not piece:
            break
        rows += piece
    return rows


def in_turn(command, pairs):
    """A pipe that hands over a line when the one before it has its answer, and nothing more after a late one. Each line is
    paired with the rows that answer it. A last line without a line end is answered when the input ends."""
    process = subprocess.Popen(command, stdin=subprocess.PIPE, stdout=subprocess.PIPE, stderr=subprocess.PIPE, bufsize=0)
    printed = b""
    try:
        for line, rows in pairs:
            process.stdin.write(line)
            printed += rows_in_time(process.stdout, len(rows) if line.endswith(b"\n") else 0)
    except TimeoutError:
        printed += LATE
    except BrokenPipeError:
        pass  # The program reads no more; the answers that are missing show that.
    rest, reported = process.communicate()
    return printed + rest, reported.decode(errors="replace"), process.returncode

#!/usr/bin/env python3
"""commissions.py PROGRAM..: holds `commission` to the sessions of commission_cases.py.
commissions.py --selftest: puts the faults of commission_faults.py into the model, one at a time, and says how many of them
these sessions notice.

PROGRAM.. is the command that runs commission, as `./run commission`. That a count stays at 4,294,967,295 is not tried, since
no run has so many frames. Status: 0 where all is as expected, 1 where something is not.
"""
import contextlib
import io
import sys

sys.dont_write_bytecode = True
from commission_cases import count_case, generated_case, judged_case, limit_cases, typed_cases
from commission_faults import FAULTS
from commission_frames import BLOCK
from commission_model import Commission, meaning
from comparisons import Comparisons
from programs import from_pipe, in_pieces, in_turn, into_full

FRAMES = 100000  # of the generated run


def hold_case(held, what, case, answer):
    """A comparison for each line of the input, one of what comes after the last answer, and one of report and status."""
    printed, reported, status = answer
    came, at = printed.decode(errors="replace").split("\n"), 0
    for number, (line, expected) in enumerate(case.pairs, 1):
        past = at + len(expected)
        held.hold(f"{what}, {case.what}, line {number}, {line[:200]}", expected, came[at:past])
        at = past
    held.hold(f"{what}, {case.what}, after the last answer", [""], came[at:])
    held.hold(f"{what}, {case.what}, report and status", ("", 0), (reported, status))


def hold_model(held, model, case):
    hold_case(held, "the model", case, (model().answers(case.given()), "", 0))


def hold_program(program):
    held = Comparisons("commissions")
    generated = generated_case(FRAMES)
    for case in *typed_cases(), judged_case(), *limit_cases(), count_case(), generated:
        hold_case(held, "at once", case, from_pipe(program, case.given()))
    for case in typed_cases():
        hold_case(held, "in small pieces", case, in_pieces(1, 2, 3, 5, 7, 11)(program, case.given()))
    mixed = in_pieces(1, 2, 3, 5, 7, 641, 1021, 4095, 4097, 16385)
    for case in *limit_cases(), generated:
        hold_case(held, "in pieces", case, mixed(program, case.given()))
    # A page asks, and waits for the answer before it asks again.
    start = generated_case(BLOCK)
    hold_case(held, "in turn", start, in_turn(program, start.pairs))
    # Full when many lines are still to come, the last of them without its end: one report.
    expected = "commission: cannot write standard output", 1, 1
    held.hold("a full output", expected, into_full(program, b"counts\n" * 100000 + b"row 3"))
    # The model is held to what was worked out by hand. It does not know every AT event of judge.txt.
    for case in *typed_cases(), *limit_cases(), judged_case(lambda whole: meaning(whole) is not None):
        hold_model(held, Commission, case)
    print(f"commissions: {held.verdict()}")
    return held.differences == 0


# The self test


def noticed_by(model):
    """The first group of sessions that notices a fault, or None. What the first frames of the generated run notice, all of
    it does."""
    groups = {
        "the typed sessions": typed_cases,
        "the long lines": limit_cases,
        "the generated run": lambda: [generated_case(5 * BLOCK)],
        "the counts past 65,535": lambda: [count_case()],
    }
    for name, cases in groups.items():
        for case in cases():
            held = Comparisons("commissions")
            with contextlib.redirect_stdout(io.StringIO()):
                hold_model(held, model, case)
            if held.differences:
                return name
    return None


def hold_faults():
    """Each fault is noticed, and the model without one is as expected."""
    noticed = {fault: noticed_by(type("Faulty", (Commission,), methods)) for fault, methods in FAULTS.items()}
    missed = [fault for fault, name in noticed.items() if name is None]
    for fault in missed:
        print(f"commissions: not noticed: {fault}")
    blamed = noticed_by(Commission)
    if blamed:
        print(f"commissions: the model without a fault is not as expected by {blamed}")
    found = [name for name in noticed.values() if name]
    first = ", ".join(f"{found.count(name)} first by {name}" for name in dict.fromkeys(found))
    print(f"commissions: {len(found)} of {len(FAULTS)} faults noticed, {first}")
    return not missed and not blamed


words = sys.argv[1:]
if not words:
    sys.exit("commissions: usage: commissions.py PROGRAM.. or commissions.py --selftest")
sys.exit(0 if (hold_faults() if words == ["--selftest"] else hold_program(words)) else 1)

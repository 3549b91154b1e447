"""judge_cases.py: the cases of judge.txt, for tests that hold another program to the same lines."""


def judge_cases():
    """Each frame, and the line typed for it."""
    with open("tests/judge.txt") as file:
        for row in file:
            if row.strip() and not row.startswith("#"):
                frame, line = row.rstrip("\n").split(" = ", 1)
                yield bytes.fromhex(frame), line

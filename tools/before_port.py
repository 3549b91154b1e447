#!/usr/bin/env python3
"""before_port.py: run once, before the kit's port.py. Four proof files call a module of the generated part by a name that port.py takes for a
sign of the newer spelling, after which it leaves its older steps out. The names get dashes, as all others here had."""
import re
import sys

FILES = {
    "crates/text/proofs/Utf8Sequences.antt": ["valid_up_to"],
    "crates/text/proofs/OneOutcome.antt": ["no_fields", "has_part", "valid_up_to", "first_byte", "field_at"],
    "crates/at/proofs/OneOutcome.antt": ["value_at", "name_at"],
    "crates/render/proofs/OneOutcome.antt": ["of_at"],
}

for path, names in FILES.items():
    with open(path, encoding="utf-8") as file:
        text = file.read()
    for name in names:
        # the name that stands after `as`, and where it heads a path; in a path below proofs. it is the function's own
        text, count = re.subn(rf"(?<![\w.`-]){name}(?=\.Kinds|\.Reads|$)", name.replace("_", "-"), text, flags=re.M)
        if count < 2:
            sys.exit(f"{path}: {name} stands {count} times")
    with open(path, "w", encoding="utf-8") as file:
        file.write(text)

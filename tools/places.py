#!/usr/bin/env python3
"""Lists the places in crates/*/src/ that an older form of Rattle left: `tools/places.py [POINT]`, with a count for each point.

  1  own enums of the shape of Option or Result, flags with a value beside them, numbers for kinds
  2  functions that differ only in a type, a size, a constant or a name
  3  loops that count an index by hand
  4  conversions, comparisons and printing written by hand
  5  facts that stand in three or more contracts, parameters that travel together
  6  buffers with a length beside them, values in numbered fields
  7  functions that only choose which function to run
  8  lines of answers in proofs

The places are found by the shape of the text, so a list names candidates: docs/DESIGN-PASS.md says of each what became of it.
"""
import collections
import glob
import re
import sys

EMPTY = {"Nothing", "None", "NoRoom", "NoHex", "Done", "End", "Short", "Nowhere", "Unknown", "NotBinary", "Refused", "Wrong"}
KEYWORDS = {"fn", "if", "else", "while", "for", "in", "let", "mut", "match", "return", "true", "false", "self", "as", "loop", "break"}


def sources():
    for path in sorted(glob.glob("crates/*/src/*.rt")):
        text = open(path).read()
        text = re.sub(r"//[^\n]*", lambda m: " " * len(m.group()), text)
        yield path, text


def line_of(text, place):
    return text.count("\n", 0, place) + 1


def block(text, start):
    """The text from the brace at or after `start` to its partner."""
    open_at = text.index("{", start)
    depth = 0
    for i in range(open_at, len(text)):
        if text[i] == "{":
            depth += 1
        elif text[i] == "}":
            depth -= 1
            if depth == 0:
                return text[open_at : i + 1]
    return text[open_at:]


def after_parameters(text, start):
    """The place past the closing parenthesis of the parameters that begin at or after `start`."""
    depth = 0
    for i in range(text.index("(", start), len(text)):
        if text[i] == "(":
            depth += 1
        elif text[i] == ")":
            depth -= 1
            if depth == 0:
                return i + 1
    return len(text)


def functions():
    """Each function with a body: file, line, name, parameters and result, clauses, body."""
    for path, text in sources():
        for m in re.finditer(r"^( *)(?:pub(?:\(crate\))? )?fn (\w+)", text, re.M):
            past = after_parameters(text, m.end())
            line_end = text.index("\n", past)
            clauses = []
            if text[past:line_end].rstrip().endswith("{"):
                body_at = text.index("{", past)
            elif text[past:line_end].rstrip().endswith("}"):
                body_at = text.index("{", past)
            else:
                opening = re.compile(r"^" + m.group(1) + r"\{", re.M).search(text, line_end)
                if opening is None:
                    continue
                body_at = opening.end() - 1
                clauses = re.findall(r"(requires|ensures)(?: \w+)? \{ (.*?) \}\s*$", text[line_end:body_at], re.M)
            yield path, line_of(text, m.start()), m.group(2), text[m.end() : line_end], clauses, block(text, body_at)


def own_answers():
    for path, text in sources():
        for m in re.finditer(r"enum (\w+)(?:<[^>]*>)? \{", text):
            body = block(text, m.start())[1:-1]
            names = re.findall(r"^    (\w+)", body, re.M)
            bare = [n for n in names if re.search(r"^    " + n + r",?\s*$", body, re.M)]
            two = len(names) == 2 and len(bare) == 1
            if two or any(n in EMPTY for n in names):
                yield path, line_of(text, m.start()), "enum " + m.group(1) + ": " + ", ".join(names)


def flags():
    for path, text in sources():
        for m in re.finditer(r"struct (\w+)(?:<[^>]*>)? \{", text):
            body = block(text, m.start())
            fields = re.findall(r"(\w+): ([^,\n]+)", body)
            flagged = [f for f, t in fields if t.strip() == "bool"]
            if flagged and len(fields) > len(flagged):
                yield path, line_of(text, m.start()), "struct " + m.group(1) + ": flag " + ", ".join(flagged)


def kind_numbers():
    for path, text in sources():
        consts = re.findall(r"^(?:pub(?:\(crate\))? )?const (\w+): (?:u8|u16|u32|usize) = (\d+);", text, re.M)
        values = [int(v) for _, v in consts]
        if len(consts) >= 3 and any(v + 1 in values for v in values):
            for m in re.finditer(r"^(?:pub(?:\(crate\))? )?const (\w+): (?:u8|u16|u32|usize) = \d+;", text, re.M):
                yield path, line_of(text, m.start()), "const " + m.group(1) + ": one number of several"
    for path, line, name, params, clauses, body in functions():
        numbers = re.findall(r"=> (?:0x)?[0-9A-Fa-f]+,", body)
        if len(numbers) >= 3 and re.search(r"-> (?:u8|u16|u32|usize)\b", params):
            yield path, line, "fn " + name + ": numbers for cases"


def point1():
    yield from own_answers()
    yield from flags()
    yield from kind_numbers()


def shape(body):
    """A body with the types, numbers, texts and long names taken out."""
    body = re.sub(r'b?"(?:\\.|[^"\\])*"|b?\'(?:\\.|[^\'\\])\'', "TEXT", body)
    words = re.findall(r"\w+|[^\w\s]", body)
    out = []
    for w in words:
        if w[0].isdigit():
            out.append("0")
        elif w in KEYWORDS:
            out.append(w)
        elif re.fullmatch(r"u8|u16|u32|u64|usize", w):
            out.append("T")
        elif w[0].isalpha() or w[0] == "_":
            out.append("v")
        else:
            out.append(w)
    return " ".join(out)


def point2():
    groups = collections.defaultdict(list)
    for path, line, name, params, clauses, body in functions():
        s = shape(body)
        if len(s.split()) >= 16:
            groups[(path.split("/")[1], s)].append((path, line, name))
    for group in groups.values():
        if len(group) > 1:
            for path, line, name in group:
                others = ", ".join(n for _, _, n in group if n != name)
                yield path, line, "fn " + name + " is like " + (others or name)
    across = collections.defaultdict(list)
    for path, line, name, params, clauses, body in functions():
        words = re.findall(r"\w+|[^\w\s]", body)
        if len(words) >= 16:
            across[" ".join(words)].append((path, line, name))
    for group in across.values():
        if len({p.split("/")[1] for p, _, _ in group}) > 1:
            for path, line, name in group:
                yield path, line, "fn " + name + " stands the same in another crate"


def point3():
    for path, text in sources():
        for m in re.finditer(r"\bwhile ([^{]*)\{", text):
            if m.group(1).startswith("let "):
                continue
            body = block(text, m.end() - 1)
            if re.search(r"\b\w+ [+-]= ", body):
                yield path, line_of(text, m.start()), "while " + m.group(1).strip()


def point4():
    for path, text in sources():
        for m in re.finditer(r"\w[\w.\[\]()]* as (u8|u16|u32|u64|usize)\b", text):
            yield path, line_of(text, m.start()), m.group()
    for path, line, name, params, clauses, body in functions():
        inner = body[1:-1].strip()
        if inner.startswith("match ") and inner.endswith("}"):
            arms = re.findall(r"=> (\w[\w:]*|\d\w*),", inner)
            if len(arms) >= 2 and set(arms) <= {"true", "false"}:
                yield path, line, "fn " + name + ": a match that says true or false"
            elif len(arms) >= 3 and len(arms) == inner.count("=>") and not re.search(r"&(?:mut )?\[", params):
                yield path, line, "fn " + name + ": a conversion by cases"
        if re.search(r"\{ false \}|\{ true \}", body) and "else" in body:
            yield path, line, "fn " + name + ": a test by branches"


def point5():
    facts = collections.defaultdict(set)
    pairs = collections.defaultdict(set)
    for path, line, name, params, clauses, body in functions():
        crate = path.split("/")[1]
        for kind, text in clauses:
            if kind == "requires":
                for fact in re.split(r" × ", text):
                    facts[(crate, fact.strip("() "))].add(name)
        typed = re.findall(r"(\w+): ([^,()]+(?:\([^)]*\))?)", params.split("->")[0])
        names = [n + ": " + " ".join(t.split()) for n, t in typed]
        for i in range(len(names)):
            for j in range(i + 1, len(names)):
                pairs[(crate, names[i], names[j])].add(name)
    for (crate, fact), where in sorted(facts.items()):
        if len(where) >= 3:
            yield "crates/" + crate, 0, "fact " + fact + " in " + ", ".join(sorted(where))
    for (crate, a, b), where in sorted(pairs.items()):
        if len(where) >= 5:
            yield "crates/" + crate, 0, f"({a}, {b}) in {len(where)} functions"


def point6():
    for path, text in sources():
        for m in re.finditer(r"struct (\w+)(?:<[^>]*>)? \{", text):
            fields = re.findall(r"(\w+): ([^\n]+),", block(text, m.start()))
            names = [f for f, _ in fields]
            arrays = [f for f, t in fields if re.match(r"\[|&(?:'\w+ )?(?:mut )?\[", t)]
            counts = [f for f in names if re.fullmatch(r"len|count|at|end|used|n|size|failed", f)]
            if arrays and counts:
                yield path, line_of(text, m.start()), f"struct {m.group(1)}: {', '.join(arrays)} with {', '.join(counts)}"
            elif len(arrays) > 1:
                yield path, line_of(text, m.start()), f"struct {m.group(1)}: {', '.join(arrays)} beside each other"
            if {"a", "b", "c"} <= set(names):
                yield path, line_of(text, m.start()), f"struct {m.group(1)}: values in fields a, b, c, .."


def point7():
    for path, line, name, params, clauses, body in functions():
        inner = body[1:-1].strip()
        if not inner.startswith("match "):
            continue
        arms = re.findall(r"=> (?:\{\s*)?([\w:]+)\(([^()]*)\)", inner)
        if len(arms) >= 3 and len({a for _, a in arms}) == 1 and len({f for f, _ in arms}) >= 3:
            yield path, line, "fn " + name + " chooses among " + ", ".join(f for f, _ in arms)


def point8():
    for crate in sorted(glob.glob("crates/*")):
        lines = 0
        for path in glob.glob(crate + "/proofs/**/*.antt", recursive=True):
            lines += sum(1 for _ in open(path))
        yield crate, 0, f"{lines} lines of proofs"


POINTS = {"1": point1, "2": point2, "3": point3, "4": point4, "5": point5, "6": point6, "7": point7, "8": point8}


def main():
    asked = sys.argv[1:] or list(POINTS)
    if any(p not in POINTS for p in asked):
        sys.exit("usage: tools/places.py [1..8]")
    for p in asked:
        found = list(POINTS[p]())
        for path, line, what in found:
            print(f"{path}:{line}: {what}" if line else f"{path}: {what}")
        print(f"point {p}: {len(found)}")


main()

#!/usr/bin/env python3
"""respell.py: run once, after the kit's port.py, at the top. Brings the definitions and lemmas of this repository to the spelling of the
newer kit: words in snake case (`firstOf` is `first_of`), and in a lemma's name a dash only between the names of two definitions (`same-bad` is
`same_bad`, and `length-part` stays). Functions of src/, exported names, strings and types keep theirs. It prints each name with what it has become.
"""
import glob
import re
import sys

SPECS = sorted(glob.glob("crates/*/specs/**/*.antt", recursive=True))
LAWS = sorted(glob.glob("crates/*/proofs/*.antt"))
PROOFS = sorted(glob.glob("crates/*/proofs/*/**/*.antt", recursive=True))
SOURCES = sorted(glob.glob("crates/*/src/*.rt"))
EDITS = sorted(glob.glob("crates/*/must-fail/*.edit"))
# In a name: a letter, then letters, digits, _ and -, and signs such as ′ or ₀
NAME = r"[^\W\d_][\w\-'₀-₉]*"
CAMEL = re.compile(r"[a-z][a-z0-9_]*[A-Z][A-Za-z0-9_]*(?:-[\w'\-]+)?")


def read(path):
    with open(path, encoding="utf-8") as file:
        return file.read()


def declared(path, together=True):
    """Names that a file declares: definitions, lemmas, constructors, fields, and those after `as` in its imports; those too that a line
    declares together, where they are wanted."""
    found = set()
    for line in read(path).split("\n"):
        head = re.match(rf"\s*(?:(?:abbrev|unfoldable|pub)\s+)*((?:{NAME}\s+)+):\s", line)
        words = head[1].split() if head else []
        if len(words) == 1 or (together and words[:1] != ["let"]):
            found.update(words)
        if line.startswith("use "):
            found.update(re.findall(rf" as ({NAME})", line))
    return found


def snake(word):
    return re.sub(r"(?<=[a-z0-9])(?=[A-Z])", "_", word).lower()


def library_names():
    """Names that are brought in from outside the repository."""
    ours = {path.split("/")[1] for path in SOURCES}
    found = set()
    for path in SPECS + LAWS + PROOFS + SOURCES:
        for path_of, names in re.findall(r"^(?:ghost )?use ([\w.·◌\-]+?)\.\{([^}]*)\}", read(path), re.M):
            crate = path_of.split(".")
            if crate[0] == "Rattle" and len(crate) > 1 and crate[1] in ours:
                continue
            found.update(name.split(" as ")[0].strip() for name in names.split(","))
    return found


def renamed():
    names, specs = set(), set()
    for path in SPECS:
        specs |= declared(path, together=False)
    for path in SPECS + LAWS:
        names |= declared(path)
    library = library_names()
    to = {}
    for name in sorted(names):
        if name[0].islower() and re.search("[a-z][A-Z]", name.split("-")[0]) and name not in library:
            to[name] = "-".join(snake(part) if part[0].islower() else part for part in name.split("-"))
    # the names that a dash may join
    whole = {to.get(name, name) for name in specs} | library
    for name in sorted(names):
        if "-" not in name or not name[0].isalpha() or name in library or name.startswith(("Inv-", "μ")):
            continue
        parts = [snake(part) if part[:1].islower() else part for part in name.split("-")]
        if "" in parts:
            continue
        new, at = parts[0], 1
        joins = new in whole or new[0].isupper()
        while at < len(parts):
            # the longest run of parts that is a name
            for end in range(len(parts), at, -1):
                word = "_".join(parts[at:end])
                if joins and (word in whole or (end == at + 1 and word[0].isupper())):
                    new, at = f"{new}-{word}", end
                    break
            else:
                new, joins, at = f"{new}_{parts[at]}", parts[at] in whole, at + 1
        if new != name:
            to[name] = new
    taken = (names | library) - set(to) - LEMMAS - MODULES
    for name in sorted(to, key=lambda it: ("-" in it, it)):
        while to[name] in taken:
            to[name] += "_lem"
        taken.add(to[name])
    return to


# Lemmas that port.py gave the name that a definition gets here, and modules of functions that an import calls so
LEMMAS = set(
    "after_kept all_hold by_last by_name connect_event fields_back in_list in_source next_field no_fields one_byte one_from passed_over room_after short_row "
    "some_bytes text_at too_large too_long two_bytes".split()
)
MODULES = {"inside_character", "next_field", "no_fields", "valid_up_to"}
TO = renamed()
TOKEN = re.compile(r'"(?:[^"\\\n]|\\.)*"|' + NAME)


def turn(text):
    for names, end in (LEMMAS, "_lem"), (MODULES, "_fn"):
        for name in names:
            if end == "_fn" and not re.search(rf" as {name}$", text, re.M):
                continue
            if end == "_lem" and re.search(rf" as {name}$", text, re.M):
                continue
            text = re.sub(rf"(?<![\w.:'-]){name}(?![\w'-])", name + end, text)
    return TOKEN.sub(lambda it: it[0] if it[0][0] == '"' else TO.get(it[0], it[0]), text)


def turn_source(text):
    """Clauses, ghost lines and comments have names of specs/. In code no name is in camel case, and a dash stands between two names."""
    camel = {name: new for name, new in TO.items() if "-" not in name}
    quoted = {name: new for name, new in TO.items() if "-" in name}
    text = re.sub(r"`(" + NAME + ")`", lambda it: "`" + quoted.get(it[1], it[1]) + "`", text)
    return re.sub(r'b?"(?:[^"\\\n]|\\.)*"|[A-Za-z_]\w*', lambda it: camel.get(it[0], it[0]), text)


def main():
    for name, new in TO.items():
        print(name, new)
    if sys.argv[1:] == ["--list"]:
        return
    for path in SPECS + LAWS + PROOFS + SOURCES + EDITS:
        text = read(path)
        new = turn(text) if path.endswith(".antt") else turn_source(text)
        if new != text:
            with open(path, "w", encoding="utf-8") as file:
                file.write(new)


main()

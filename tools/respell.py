#!/usr/bin/env python3
"""Respells the names that this repository's .antt files declare: types and modules in camel case, all else in snake case.

usage: respell.py [--check] FOLDER..    (once, behind the kit's own scripts; --check writes nothing and lists each name with its new one)

A name that Rattle makes keeps its dashes: the goals that Answers and Invariants declare at a type `goal.x` stay as they are, and so does what
stands right behind `goal.`. In .rt files only clauses, ghost items and `ghost use` lines are turned. It says where two names would fall together.
"""

import os
import re
import sys

WORD = r"[^\s(){}.;,@\"«»]+"
DECLARED = re.compile(rf"(?m)^ *(?:(?:pub|abbrev|unfoldable|opaque|record|data|module) +)*({WORD})((?: +[({{][^\n]*?[)}}])*) +: +(.*)$")
BOUND = re.compile(rf"(?:[({{]((?:{WORD} )*{WORD}) : |λ ((?:{WORD} )*{WORD})\. |let ({WORD}) (?::|=) )")
ALIAS = re.compile(rf" as ({WORD})")
COMMENT = re.compile(r"(?<![^\s(){}.;,@\"«»])--[^\n]*")
CLAUSE = re.compile(r"\b(?:requires|ensures)\s*\*?\s*(?:\w+\s*)?\{|\bghost\s*(?:\w+\s*(?::\s*(?:(?:owns|lends)\s*)?|=\s*))?\{")
GHOST_USE = re.compile(r"ghost\s+use\b[^;]*;")
MADE = re.compile(r"^(?:goal|given|need)\.")


def files(folders, ending):
    for folder in folders:
        for at, dirs, names in os.walk(folder):
            dirs[:] = sorted(d for d in dirs if d not in ("out", ".git"))
            for name in sorted(names):
                if name.endswith(ending):
                    yield os.path.join(at, name)


def read(path):
    with open(path, encoding="utf-8") as f:
        return f.read()


def new_name(old):
    old = old.replace("getD", "slice_index")
    parts = old.split("-")
    if old[:1].isupper():
        return parts[0] + "".join(p[:1].upper() + p[1:] for p in parts[1:])
    return re.sub(r"(?<=[a-z0-9])[A-Z]", lambda m: "_" + m[0].lower(), "_".join(parts))


def is_turned(old):
    if not re.fullmatch(r"[A-Za-z][\w'₀-₉-]*", old):
        return False
    return "-" in old or (old[0].islower() and re.search("[A-Z]", old) is not None)


def declared(paths):
    """Each name that is declared, with the files that declare it; and the goals that answers declare."""
    names, goals = {}, set()
    for path in paths:
        text = COMMENT.sub("", read(path)) if path.endswith(".antt") else "\n".join(m[0] for m in GHOST_USE.finditer(read(path)))
        for m in ALIAS.finditer(text):
            names.setdefault(m.group(1), set()).add(path)
        for m in BOUND.finditer(text):
            for name in (m[1] or m[2] or m[3]).split():
                if "-" in name:
                    names.setdefault(name, set()).add(path)
        for m in DECLARED.finditer(text):
            if MADE.match(m.group(3)):
                goals.add(m.group(1))
            else:
                names.setdefault(m.group(1), set()).add(path)
    return names, goals


def turn(text, table):
    """The text with each whole word of the table turned, but for what stands behind `goal.`, and for quoted text."""

    def word(m):
        if text[max(0, m.start() - 5) : m.start()] == "goal.":
            return m[0]
        return table.get(m[0], m[0])

    return re.sub(WORD, word, text)


def spans(text):
    """Where clauses, ghost items and `ghost use` lines stand in Rattle's text."""
    found = [(m.start(), m.end()) for m in GHOST_USE.finditer(text)]
    for m in CLAUSE.finditer(text):
        depth, end = 1, m.end()
        while depth and end < len(text):
            depth += {"{": 1, "}": -1}.get(text[end], 0)
            end += 1
        found.append((m.end(), end))
    return sorted(found)


def turn_code(text, table):
    parts, at = [], 0
    for start, end in spans(text):
        if start < at:
            continue
        parts += [text[at:start], turn(text[start:end], table)]
        at = end
    return "".join(parts + [text[at:]])


def main(argv):
    check = "--check" in argv
    folders = [a for a in argv if a != "--check"]
    if not folders:
        print(__doc__)
        return 2
    proofs, code = list(files(folders, ".antt")), list(files(folders, ".rt"))
    names, goals = declared(proofs + code)
    table = {n: new_name(n) for n in names if is_turned(n) and new_name(n) != n and n not in goals}
    for n in sorted(table):
        if n in goals:
            print(f"look: {n} is a goal too")
        other = names.get(table[n], set())
        if other:
            print(f"look: {n} ({', '.join(sorted(names[n]))}) would meet {table[n]} ({', '.join(sorted(other))})")
    for new in {t for t in table.values() if list(table.values()).count(t) > 1}:
        print(f"look: {new} is the new name of {', '.join(n for n in table if table[n] == new)}")
    if check:
        for n in sorted(table):
            print(f"{n}\t{table[n]}")
        return 0
    changed = 0
    for path in proofs + code:
        old = read(path)
        new = turn_code(old, table) if path.endswith(".rt") else turn(old, table)
        if new != old:
            changed += 1
            with open(path, "w", encoding="utf-8") as f:
                f.write(new)
    print(f"respell: {len(table)} names, {changed} files")
    return 0


if __name__ == "__main__":
    raise SystemExit(main(sys.argv[1:]))

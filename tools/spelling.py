#!/usr/bin/env python3
"""Brings the names of this repository's own definitions, lemmas, fields and variables to today's spelling.

usage: python3 tools/spelling.py      at the top, once, right after the scripts of the kit's port

A name of antt's that was joined by dashes, as `put-row`, is in snake case, as `put_row`. Names of the library, names that
the check makes for a function's goals, names of functions in src/ and what stands in strings stay as they are. In comments
a name is respelled where it stands in backquotes. It writes files in place and prints what falls together.

The crate `hex` is `hexadecimal` from here on, since the library has one of that name.
"""

import collections
import glob
import os
import re
import sys

TOKEN = re.compile(r"[^\s(){}\[\].;,«»\"`:]+")
DASHED = re.compile(r"^[A-Za-zℕ_][^\s-]*(-[^\s-]+)+$")
DECLARED = re.compile(
    r"(\s*)(?:(?:pub|abbrev|unfoldable|opaque|data|record|rec|mutual)\s+)*([^\s(){}\[\].;,«»\"`:]+)\s*(?::|\(|\{)"
)
FUNCTION = re.compile(r"/proofs/.+/(Proof|Answers|Invariants)\.antt$")
# what the kit's scripts took for names of the library
GARBLED = {
    "Room-after": "room_after",
    "some_IsFirst": "some_first",
    "get_d_part": "get_or_part",
    # a name of the library's own stands beside it
    "field-of": "field_operand",
}


def uses(text):
    """The names that a file brings in: each with the module it comes from."""
    found = {}
    for m in re.finditer(r"^\s*(?:pub )?(?:ghost )?use\s+([^\s{};]+?)\.\{([^}]*)\}", text, re.M):
        for name in re.split(r"[,\s]+", m.group(2)):
            if name and name != "as":
                found[name] = m.group(1)
    return found


def own(module, crates):
    parts = module.split(".")
    return len(parts) > 2 and parts[0] == "Rattle" and parts[1] in crates and parts[2] in ("specs", "proofs")


def code_of(line, mark):
    """A line's code and its comment."""
    m = re.search(r"(^|\s)" + mark + r"(\s|$)", line)
    return (line[: m.start()], line[m.start() :]) if m else (line, "")


def snake(name):
    return GARBLED.get(name, name.replace("-", "_"))


def rename_crate(old, new):
    """Its folder, its line and lines that list it, and its paths."""
    if not os.path.isdir("crates/" + old):
        return
    os.rename("crates/" + old, "crates/" + new)
    with open("crates.txt", encoding="utf-8") as f:
        lines = f.read().split("\n")
    with open("crates.txt", "w", encoding="utf-8") as f:
        f.write("\n".join(x if x.startswith("#") else re.sub(r"\b%s\b" % old, new, x) for x in lines))
    for p in glob.glob("crates/**/*.rt", recursive=True) + glob.glob("crates/**/*.antt", recursive=True):
        with open(p, encoding="utf-8") as f:
            text = f.read()
        turned = text.replace(f"Rattle.{old}.", f"Rattle.{new}.")
        if p.endswith(".rt"):
            turned = re.sub(r"\b%s::" % old, new + "::", turned)
        if turned != text:
            with open(p, "w", encoding="utf-8") as f:
                f.write(turned)


def main():
    rename_crate("hex", "hexadecimal")
    crates = set(os.listdir("crates"))
    antt = sorted(p for p in glob.glob("crates/**/*.antt", recursive=True) if "/out/" not in p)
    code = sorted(p for p in glob.glob("crates/**/*.rt", recursive=True) if "/out/" not in p)
    declared = collections.defaultdict(set)
    for p in antt:
        if FUNCTION.search(p):
            continue
        with open(p, encoding="utf-8") as f:
            for line in f:
                text = code_of(line, "--")[0]
                if text.lstrip().startswith(("use ", "pub use ", "let ")):
                    continue
                m = DECLARED.match(text)
                # a definition, a lemma or a field; not a variable deeper in
                if m and DASHED.match(m.group(2)) and (m.group(1) == "" or re.match(r"\s+pub ", text)):
                    declared[m.group(2)].add(p)
    names = collections.defaultdict(set)
    for p in antt + code:
        with open(p, encoding="utf-8") as f:
            text = f.read()
        brought = uses(text)
        # names of the library, here
        theirs = {n for n, m in brought.items() if not own(m, crates)}
        mine = {n for n, m in brought.items() if own(m, crates)}
        function = FUNCTION.search(p) is not None
        source = p.endswith(".rt")

        def turn(m):
            t = m.group(0)
            if t in GARBLED:
                return GARBLED[t]
            if not DASHED.match(t) or (t in theirs and p not in declared.get(t, ())):
                return t
            if t in mine or t in declared:
                return snake(t)
            if function or source:
                return t
            # a variable of a lemma or a definition
            return snake(t) if t not in LIBRARY else t

        out = []
        for line in text.split("\n"):
            body, said = code_of(line, "//" if source else "--")
            if re.match(r"\s*(pub )?(ghost )?use ", body):
                m = re.match(r"\s*(?:pub )?(?:ghost )?use\s+([^\s{};]+)", body)
                if own(m.group(1).rstrip("."), crates):
                    body = TOKEN.sub(lambda m: snake(m.group(0)) if DASHED.match(m.group(0)) else GARBLED.get(m.group(0), m.group(0)), body)
            else:
                pieces = re.split(r'("(?:[^"\\]|\\.)*")', body)
                body = "".join(x if x.startswith('"') else TOKEN.sub(turn, x) for x in pieces)
            said = re.sub(r"`[^`]*`", lambda m: TOKEN.sub(lambda t: snake(t.group(0)) if t.group(0) in declared else t.group(0), m.group(0)), said)
            out.append(body + said)
        new = "\n".join(out)
        if new != text:
            with open(p, "w", encoding="utf-8") as f:
                f.write(new)
        # names that fall together in one file
        before = {t for t in TOKEN.findall(text)}
        for t in before:
            if DASHED.match(t) and t in declared and snake(t) in before:
                names[t].add(p)
    for t in sorted(names):
        print(f"falls together: {t} and {snake(t)}: {' '.join(sorted(names[t]))}")


# names of the library that lemmas and definitions use unimported, as fields or through a module's name
LIBRARY = set()

if __name__ == "__main__":
    kit = "/opt/rattle/rattle"
    for p in glob.glob(kit + "/**/*.antt", recursive=True):
        if "/examples/" in p or "/tests/" in p:
            continue
        with open(p, encoding="utf-8", errors="replace") as f:
            for line in f:
                m = DECLARED.match(line)
                if m and DASHED.match(m.group(2)):
                    LIBRARY.add(m.group(2))
    main()

#!/usr/bin/env python3
"""Spells this repository's own definitions, fields and lemmas as the library does: words in snake case.

usage: python3 tools/snake_names.py        at the top of the checkout, once, right after the toolchain's port.py

It goes by text. Names that specs/*.antt and proofs/*.antt declare are turned: startsRight to starts_right, and a dash to an
underscore. A name that would then fall together with another keeps its dashes (its parts still turn). Names of src/, of
arguments and of generated goals are left alone. It prints each row of the table that it used.
"""

import glob
import re
import sys

WORD = r"[^\s(){}\[\];,.@\"«»λ]+"
DECLARED = re.compile(rf"^( *)((?:pub |abbrev |unfoldable )*)({WORD}) :(?: |$)")
RECORD = re.compile(rf"^ *(?:pub )?record ({WORD})")
CAMEL = re.compile(r"(?<=[a-z0-9])([A-Z]+)(?=[a-z0-9]|$|-)")


def snake(name):
    """startsRightOf -> starts_right_of; a name that begins with a capital, a type, stays."""
    if not re.match(r"[a-z]", name):
        return name
    turned = CAMEL.sub(lambda m: "_" + m[1].lower(), name)
    return turned


def antt_files():
    return sorted(
        glob.glob("crates/*/specs/*.antt") + glob.glob("crates/*/proofs/*.antt")
    )


def all_antt():
    return sorted(glob.glob("crates/*/**/*.antt", recursive=True))


def declared():
    """Returns the names that the files declare at the head of a line, and those of them that are fields of a record."""
    names, fields, types = set(), set(), set()
    for path in antt_files():
        inside = None
        with open(path, encoding="utf-8") as f:
            for line in f:
                indent = len(line) - len(line.lstrip(" "))
                if line.strip() and inside is not None and indent <= inside:
                    inside = None
                m = RECORD.match(line)
                if m:
                    inside = indent
                    types.add(m[1])
                    continue
                m = DECLARED.match(line)
                if m:
                    names.add(m[3])
                    if inside is not None:
                        fields.add(m[3])
    return names, fields, types


def imported():
    """Returns the names of the library that the files import."""
    names = set()
    for path in all_antt() + glob.glob("crates/*/src/**/*.rt", recursive=True):
        with open(path, encoding="utf-8") as f:
            for line in f:
                if re.match(r"(ghost )?use ", line) and (
                    "Rattle.std" in line or "Rattle." not in line
                ):
                    inner = re.search(r"\{(.*)\}", line)
                    if inner:
                        names |= {w.strip() for w in inner[1].split(",")}
    return names


def table():
    names, fields, _ = declared()
    library = imported()
    new = {}
    taken = {n for n in names if snake(n) == n and "-" not in n} | library
    # definitions first, then what has a dash
    for n in sorted(names, key=lambda n: ("-" in n, n)):
        s = snake(n)
        flat = s.replace("-", "_")
        for it in (flat, s):
            if it == n:
                break
            if it not in taken:
                new[n] = it
                taken.add(it)
                break
        else:
            print(f"left: {n}")
    return new, fields


def turn_antt(text, new, fields):
    out = []
    for line in text.split("\n"):
        code, dash, comment = line.partition("-- ") if line.lstrip().startswith("-- ") else (line, "", "")
        # a name behind a dot is a field
        def one(m):
            w = m[0]
            behind_dot = m.start() > 0 and code[m.start() - 1] == "."
            path = behind_dot and re.search(r"(?:Rattle|tie|goal|given)[\w.]*\.$", code[: m.start()])
            if w not in new or (behind_dot and w not in fields) or path:
                return w
            return new[w]

        code = re.sub(WORD, one, code)
        comment = re.sub(r"[A-Za-z][A-Za-z0-9]*", lambda m: new.get(m[0], m[0]) if re.search("[a-z][A-Z]", m[0]) else m[0], comment)
        out.append(code + dash + comment)
    return "\n".join(out)


def turn_camel(text, new):
    """Only what no word of Rust, of English or of a path can be: a small letter first, a capital within."""
    return re.sub(
        r"(?<![\w/.-])[a-z][a-z0-9]*(?:[A-Z][a-z0-9]*)+(?![\w-])",
        lambda m: new.get(m[0], m[0]),
        text,
    )


def main():
    new, fields = table()
    for path in all_antt():
        with open(path, encoding="utf-8") as f:
            old = f.read()
        turned = turn_antt(old, new, fields)
        if turned != old:
            with open(path, "w", encoding="utf-8") as f:
                f.write(turned)
    others = glob.glob("crates/*/src/**/*.rt", recursive=True)
    others += glob.glob("crates/*/must-fail/*.edit") + ["README.md"] + glob.glob("docs/*.md")
    for path in others:
        with open(path, encoding="utf-8") as f:
            old = f.read()
        turned = turn_camel(old, new)
        if turned != old:
            with open(path, "w", encoding="utf-8") as f:
                f.write(turned)
    for n in sorted(new):
        print(f"{n}\t{new[n]}")


if __name__ == "__main__":
    sys.exit(main())

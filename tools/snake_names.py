#!/usr/bin/env python3
"""Turns the repository's own definitions, lemmas, record fields and local names from camelCase to snake_case: `matrixOnes` to
`matrix_ones`, `checkSum-append` to `check_sum-append`. It was run once, right after the kit's script for an older repository.

  tools/snake_names.py     rewrites specs/, proofs/, src/ and must-fail/ of every crate, README.md and docs/, in place

Types and modules keep their capitals. Of a .rt file the text between double quotes stays as it is: functions, types and what is
printed keep their names, since no function of src/ is in camelCase. A name stays where it is that of the C interface or of a file.
"""
import pathlib
import re

# a name: letters, digits, _ and ', parts joined by dashes
NAME = re.compile(r"(?<![\w'\u2032-])[^\W\d][\w'\u2032]*(?:-[\w'\u2032]+)*")
HUMP = re.compile(r"(?<=[^\W_A-Z])([A-Z])")
# two lemmas that would have had the name of the definition that they are about
LEMMAS = {"same_place": "same_place-equal", "place_at": "is_place_of-at"}
QUOTED = re.compile(r'("(?:[^"\\]|\\.)*")')


def snake(name):
    """Each part that begins with a small letter and has a capital later."""
    parts = re.split(r"(-)", name)
    return "".join(HUMP.sub(lambda m: "_" + m.group(1).lower(), p) if p[:1].islower() else p for p in parts).replace("\u2032", "'")


def turn(text, own):
    lemmas = {n: to for n, to in LEMMAS.items() if any(snake(o) == n for o in own)}
    return NAME.sub(lambda m: snake(m.group(0)) if m.group(0) in own else lemmas.get(m.group(0), m.group(0)), text)


def files(*patterns):
    for pattern in patterns:
        yield from sorted(p for p in pathlib.Path(".").glob(pattern) if "out" not in p.parts)


def names(path):
    """The names in camelCase of a file: of a .rt file, those of its imports for contracts alone."""
    text = path.read_text(encoding="utf8")
    if path.suffix == ".rt":
        text = "\n".join(line for line in text.splitlines() if line.startswith("ghost use "))
    return {n for n in NAME.findall(text) if snake(n) != n}


def main():
    antt = list(files("crates/*/specs/**/*.antt", "crates/*/proofs/**/*.antt"))
    code = list(files("crates/*/src/**/*.rt"))
    own = set().union(*map(names, antt + code))
    for path in antt + list(files("crates/*/must-fail/*.edit", "README.md", "docs/*.md")):
        text = path.read_text(encoding="utf8")
        path.write_text(turn(text, own), encoding="utf8")
    for path in code:
        parts = QUOTED.split(path.read_text(encoding="utf8"))
        path.write_text("".join(p if p.startswith('"') else turn(p, own) for p in parts), encoding="utf8")


if __name__ == "__main__":
    main()

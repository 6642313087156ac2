#!/usr/bin/env python3
"""Respells the repository's own definitions and lemmas as today's Rattle does.

usage: python3 tools/respell.py [FOLDER]      once, after port.py, at the top of the repository or of FOLDER

A name with hyphens becomes snake case (if-place: if_place), a fact or a type with hyphens camel case (Sum-is-word: SumIsWord).
Names of the library and of the goals that the check makes keep their hyphens. In `EXCEPTIONS` are the names that would have fallen
together with another one.
"""

import glob
import os
import re
import sys

EXCEPTIONS = {
    "Log-tables": "IsLogTables",  # LogTables is the module of their lemmas
    "No-word": "NoWordAgrees",  # NoWord is a variant of two enums
    "bit-xor": "bit_of_xor",  # bit_xor is the library's exclusive or
    "row-sums": "all_row_sums",  # row_sums is a field of Demonstration
}
NAME = re.compile(r"(?<![\w'·-])[A-Za-z_][\w'→₀-₉]*(?:-[\w'→₀-₉]+)+(?![\w'-])")
LIBRARY = re.compile(r"\s*(?:ghost )?use (?!Rattle\.(?!std\b))[\w.]+\.\{(.*)\}")


def respelled(name):
    if name in EXCEPTIONS:
        return EXCEPTIONS[name]
    parts = name.split("-")
    if name[0].isupper():
        return "".join(part[:1].upper() + part[1:] for part in parts)
    return "_".join(parts)


def is_made(match):
    """Whether it is a field that the check made: none of the exceptional names is a field of ours."""
    return match.group() in EXCEPTIONS and match.string[: match.start()].endswith(".")


def read(path):
    with open(path, encoding="utf-8") as f:
        return f.read()


def own_names(top):
    """The hyphenated names in the files of definitions and lemmas, but for those that a library has."""
    names, library = set(), set()
    for path in glob.glob(os.path.join(top, "crates/*/**/*.antt"), recursive=True):
        for line in read(path).split("\n"):
            use = LIBRARY.match(line)
            if use:
                library |= {name.strip() for name in use.group(1).split(",")}
    for folder in ("specs", "proofs"):
        for path in glob.glob(os.path.join(top, "crates/*", folder, "*.antt")):
            for line in read(path).split("\n"):
                names |= set(NAME.findall(line.split("--")[0]))
    return names - library


def main():
    top = sys.argv[1] if len(sys.argv) > 1 else "."
    names = own_names(top)
    for path in glob.glob(os.path.join(top, "crates/*/**/*.*"), recursive=True):
        if not path.endswith((".antt", ".rt")) or "/out/" in path:
            continue
        old = read(path)
        lines = []
        for line in old.split("\n"):
            code, dashes, comment = line.partition("--") if path.endswith(".antt") else (line, "", "")
            if path.endswith(".rt") and "ghost" not in line and "ensures" not in line and "requires" not in line:
                lines.append(line)
                continue
            code = NAME.sub(lambda m: m.group() if is_made(m) or m.group() not in names else respelled(m.group()), code)
            lines.append(code + dashes + comment)
        new = "\n".join(lines)
        if new != old:
            with open(path, "w", encoding="utf-8") as f:
                f.write(new)


if __name__ == "__main__":
    main()

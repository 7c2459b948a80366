#!/usr/bin/env python3
"""Brings the names of this repository's definitions, laws and fields to the library's spelling: snake case, types in camel case.

    tools/respell.py ROOT     rewrites the files of ROOT/crates in place

It is for a checkout of an older state that the kit's port.py has turned, so that it can be laid beside today's; docs/PORT.md has the commands.
respell.names has a line for each name: as it was, and as it is; where two definitions of different crates had one name, the crate stands before it. A
name that a file imports from a library is left as the library spells it, and so are the names of functions, which were in snake case before.
"""
import re
import sys
from pathlib import Path

NAMES = dict(line.split() for line in Path(__file__).with_suffix(".names").read_text().splitlines())
WORD = re.compile(r"(?<![\w'-])[A-Za-z_][\w']*(?:-[\w']+)*")
# what a file imports from a library, and not from a crate of this repository
IMPORT = re.compile(r"^use (?!Rattle\.(?!std\.))[\w.]+\.\{([^}]*)\}", re.M)
KINDS = (".rt", ".antt", ".edit")


def library_names(text):
    """The names that this file has from a library."""
    return {name.strip() for names in IMPORT.findall(text) for name in names.split(",")}


def respelled(line, crate, kind, foreign):
    """The line with each name as it is now. A name without a capital or a hyphen is one of a law only in a file of laws, and a word in a comment."""

    def turned(found):
        word = found[0]
        if word in foreign or line[: found.start()].endswith("bool."):
            return word
        if word.islower() and "-" not in word and line.lstrip().startswith(("--", "//", "#")):
            return word
        if here := NAMES.get(f"{crate}:{word}"):
            return here
        return NAMES.get(word, word) if kind == ".antt" or not (word.islower() and "-" not in word) else word

    return WORD.sub(turned, line)


def main(root):
    crates = Path(root) / "crates"
    for path in sorted(crates.glob("*/**/*")):
        if path.suffix in KINDS:
            text = path.read_text()
            crate, foreign = path.relative_to(crates).parts[0], library_names(text)
            path.write_text("".join(respelled(line, crate, path.suffix, foreign) for line in text.splitlines(keepends=True)))


if __name__ == "__main__":
    main(sys.argv[1])

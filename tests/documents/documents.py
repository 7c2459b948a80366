"""Holds what README.md, the manual page and the documents say to the files that they speak of.

    documents.py WHAT    one of the checks below, from the repository's root
"""
import re
import sys
from pathlib import Path

README = Path("README.md").read_text()
PAGE = Path("install/permits.1.in").read_text()
DOCUMENTS = [Path("README.md"), *sorted(Path("docs").glob("*.md"))]


def part(text, title, mark="## "):
    """The part of a text under a title, up to the next title of that kind."""
    return text.split(f"\n{mark}{title}\n", 1)[1].split(f"\n{mark}", 1)[0]


def session():
    """README.md's lines of the session are 01's; the words beside them are its own."""
    shown = re.search(r"^    1 27 .*?^    0 2 2$", README, re.M | re.S)[0]
    lines = [re.sub(r"   .*", "", line[4:]) for line in shown.splitlines()]
    if lines != Path("crates/permits/stdout").read_text().splitlines():
        yield f"README.md shows {lines}"


def quoted():
    """README.md has the first console and the lines that it prints, each as a block of code."""
    for path in Path("examples/first.c"), Path("examples/first.expected"):
        if re.sub(r"^(?=.)", "    ", path.read_text(), flags=re.M) not in README:
            yield f"README.md does not have {path}"


def readme_rows():
    """The texts of README.md's tables of numbers. One row may have several numbers, and its text is then of all of them."""
    for numbers, text in re.findall(r"^\| ([\d, ]+) \| (.*) \|$", part(README, "The numbers"), re.M):
        for number in numbers.split(", "):
            yield number, text


def page_rows():
    """The texts of the manual page's numbers; a text may go on in lines that begin with spaces."""
    rows = re.findall(r"^ ?(\d+)  (.*(?:\n {4}.*)*)", part(PAGE, "NUMBERS", ".SH "), re.M)
    return [(number, re.sub(r"\s+", " ", text)) for number, text in rows if number != "0"]


def numbers():
    """Each number has its row in both, with 01's words for it, and no other has one."""
    lines = Path("tests/documents/words.txt").read_text().splitlines()
    words = dict(line.split(" ", 1) for line in lines if not line.startswith("#"))
    for name, rows in ("README.md", list(readme_rows())), ("the manual page", page_rows()):
        if sorted(number for number, _ in rows) != sorted(words):
            yield f"{name} has rows for {[number for number, _ in rows]}"
        for number, text in rows:
            if words.get(number, "") not in text:
                yield f"{name} says of {number}: {text}"


def calls():
    """README.md's table of the calls from C has each function that the header declares, with the header's names of its arguments."""
    header = Path("include/permits.h").read_text()
    declared = {name: re.findall(r"(\w+)(?:,|$)", words) for name, words in re.findall(r"^\w+ (\w+)\((.*)\);$", header, re.M)}
    rows = re.findall(r"^\| `(\w+)\((.*?)\)` \|", part(README, "The calls, from C"), re.M)
    if {name: words.split(", ") for name, words in rows} != declared:
        yield f"README.md has {rows}, and the header {declared}"


def stack():
    """README.md's bytes of stack are docs/PERFORMANCE.md's by the frames, and those measured are no more and at most 32 less."""
    rows = re.findall(r"^\| `(\w+)\(.* \| ([\d,]+) \|$", part(README, "The calls, from C"), re.M)
    table = re.findall(r"^\| `(\w+)` \| ([\d,]+) \| ([\d,]+) \|$", part(Path("docs/PERFORMANCE.md").read_text(), "Stack"), re.M)
    if not rows or sorted(rows) != sorted((name, framed) for name, _, framed in table):
        yield f"README.md has {rows}, and docs/PERFORMANCE.md {table}"
    for name, measured, framed in table:
        if not 0 <= int(framed.replace(",", "")) - int(measured.replace(",", "")) <= 32:
            yield f"docs/PERFORMANCE.md has {measured} measured of {name}, and {framed} by the frames"


def paths():
    """Each path that a document names, from the repository's root, is there. A part in capitals stands for any name; what a build leaves in the
    folder out of a crate need not be there."""
    named = re.compile(r"(?<![\w/.~-])(?:crates|tests|docs|include|examples|install)/[\w./*-]*[\w*]")
    for document in DOCUMENTS:
        for path in sorted(set(named.findall(document.read_text()))):
            place = re.sub(r"^(crates/\w+)/out/.*", r"\1", re.sub(r"\b[A-Z]+(?=/|$)", "*", path))
            if not any(Path(".").glob(place)):
                yield f"{document} names {path}"


def names():
    """Each name of several words that a document has between backquotes is one of a crate's sources, definitions or laws, or of the header."""
    files = [path for part in ("src", "specs", "proofs") for path in Path("crates").glob(f"*/{part}/**/*.*t") if path.is_file()]
    there = {name for path in [*files, Path("include/permits.h")] for name in re.findall(r"[A-Za-z][\w'-]*", path.read_text())}
    for document in DOCUMENTS:
        for name in sorted(set(re.findall(r"`([A-Za-z][\w'-]*)`", document.read_text())) - there):
            if re.search(r"[a-z\d][A-Z]|\w[_-]\w", name):
                yield f"{document} names {name}"


def crates():
    """README.md's layout has each crate of crates.txt once, and no other."""
    listed = re.findall(r"^(\w+)(?: staticlib)?:", Path("crates.txt").read_text(), re.M)
    shown = re.findall(r"^    crates/(\w+) ", part(README, "Layout"), re.M)
    if sorted(shown) != sorted(listed):
        yield f"README.md has {shown}, and crates.txt {listed}"


CHECKS = [session, quoted, numbers, calls, stack, paths, names, crates]


def main(name):
    wrongs = list({check.__name__: check for check in CHECKS}[name]())
    for wrong in wrongs:
        print(wrong)
    return not wrongs


if __name__ == "__main__":
    sys.exit(0 if main(sys.argv[1]) else 1)

"""Reads off what the gate printed where the check refused each must-fail edit, and holds docs/WRONG-PROGRAMS.md to it.

    edits.py table ROOT LOG     the document's table, for a reader to judge; an edit that LOG does not have keeps its row
    edits.py check ROOT LOG     that the document has each edit once, with what it changes, its own first line and the fact that LOG has
    edits.py whole ROOT LOG     that LOG, which `rt ci` printed, ends with all passed and no edit bad
    edits.py itself ROOT LOG    that these checks fail where that line is not so, where a row is left out, doubled or names another fact, and where an
                                edit was not tried, was not refused, or was refused for nothing that its contracts say

LOG has what `rt ci` or `rt must-fail` printed: a line for each edit, with the first fact of which the check said that it does not hold.
"""
import re
import sys
from pathlib import Path

DOCUMENT = "docs/WRONG-PROGRAMS.md"

# The line with which `rt ci` ends its work where all passed. The line says how many files of must-fail/ are bad, also those that have no line of their
# own in the log.
WHOLE = re.compile(r"^rt: ok; (.*)$", re.M)
BAD = re.compile(r", \d+ bad\b")
# The line of an edit in the log: crate, name and what is said of it.
LINE = re.compile(r"^rt: must-fail (\w+)/([\w.-]+)\.edit: (.*)$", re.M)
# What is said of an edit that a fact refuses. Any other word in its place (not refused, not tried, a bad edit, refused only because a name is gone
# or for a limit of the check) shows nothing of a contract.
REFUSED = "refused, as it must be: "
# The law or the step of a function's proof that was not accepted: its file and name.
ERROR = re.compile(r"(?:\./)?((?:specs|proofs)/\S+\.antt):\d+:\d+: error: `([^`]+)`: ")
# What the check's own walk of a function leaves open, or the ghost fields of a value that it makes: file and line of the function or of a part of it.
OPEN = re.compile(r"note: (?:\./)?(src/\S+\.rt):(\d+):\d+: (?:it is not proved that |`search` found no proof \(`invariant_of-)")
# The files of the proof of one function, in a folder of its name below proofs/; a file of laws may have one of these names too.
PARTS = {"Answers.antt", "Invariants.antt", "Proof.antt"}
PAIR = re.compile(r"^file: (\S+)$|^old: (.*)$", re.M)
ROW = re.compile(r"^\| (\w+/[\w.-]+) \| (.*) \| (.*) \| (.*) \|$", re.M)
# A clause, and nothing in code, has one of these: a promise's words, what a lent argument holds, the names that a ghost use brings.
CLAUSE = re.compile(r"^ghost use|≡|\b(?:ensures|requires)\b|\.(?:now|old|new)\b")


def function_at(source, line):
    """The function whose text has this line of a source file, the last that begins there or before. No edit changes the number of lines."""
    lines = source.read_text().splitlines()
    return re.findall(r"\bfn (\w+)", "\n".join(lines[: line + 1]))[-1]


def fact(crate, said):
    """What the check says does not hold, given the folder of the crate and what the log says of the edit; None where that is no fact."""
    said = said.removeprefix(REFUSED)
    if error := ERROR.match(said):
        place = Path(error[1])
        if place.name in PARTS and len(place.parts) > 2:
            return f"the contract of `{place.parent.name}`"
        return f"`{error[2]}`, {place.with_suffix('')}"
    if left := OPEN.match(said):
        return f"the contract of `{function_at(crate / left[1], int(left[2]))}`"
    return None


def kind_of(source, old):
    """What an edit changes in a file of a crate, given the text that it takes out."""
    folder = source.parts[source.parts.index("crates") + 2]
    if folder != "src":
        return {"specs": "definition", "proofs": "proof"}[folder]
    return "contract" if CLAUSE.search(old) else "code"


def changes(path):
    """What the edit changes in its crate, each kind once."""
    kinds, source = [], None
    for file, old in PAIR.findall(path.read_text()):
        if file:
            source = path.parent.parent / file
        else:
            kinds.append(kind_of(source, old))
    return " and ".join(kind for kind in ("definition", "contract", "code", "proof") if kind in kinds)


def edits(root):
    """Each edit's name, what it changes, what its first line says it gets wrong, and the folder of its crate."""
    for path in sorted(root.glob("crates/*/must-fail/*.edit")):
        crate = path.parent.parent
        wrong = path.read_text().splitlines()[0].removeprefix("# ")
        yield f"{crate.name}/{path.stem}", changes(path), wrong, crate


def rows(root):
    """The rows of the document: the edit, what it changes, what it gets wrong, and where it is refused."""
    path = root / DOCUMENT
    return ROW.findall(path.read_text()) if path.exists() else []


def logged(log):
    """What the log says of each edit. One that was tried twice has what was said last."""
    return {f"{crate}/{name}": said for crate, name, said in LINE.findall(log)}


def table(root, log):
    """The rows as the log has them."""
    said = logged(log)
    named = {row[0]: row[3] for row in rows(root)}
    for name, changed, wrong, crate in edits(root):
        found = fact(crate, said[name]) if name in said else named.get(name)
        yield name, changed, wrong, found or said.get(name, "not tried yet")


def complaints(found, said, stated):
    """What is wrong with the rows or with how an edit was refused, given the edits, what the log says of them, and the rows."""
    names = [row[0] for row in stated]
    for name in sorted(set(names) - {edit[0] for edit in found}):
        yield f"{name}: in the document, and no edit"
    for name, changed, wrong, crate in found:
        if name not in said:
            yield f"{name}: not tried; `rt must-fail {crate.name}` tries it"
            continue
        refused_at = fact(crate, said[name]) if said[name].startswith(REFUSED) else None
        if refused_at is None:
            yield f"{name}: refused for no fact that a row could name: {said[name]}"
            continue
        if names.count(name) != 1:
            yield f"{name}: {names.count(name)} rows in the document"
            continue
        row = stated[names.index(name)]
        if row[1:3] != (changed, wrong):
            yield f"{name}: the document says {row[1:3]} of it, and the edit {(changed, wrong)}"
        if row[3] != refused_at:
            yield f"{name}: the document has it refused at {row[3]}, and the log at {refused_at}"


def incomplete(log):
    """What is wrong with a log of the gate as a whole: it has no line, or more than one, that all passed, or that line speaks of bad edits."""
    said = WHOLE.findall(log)
    if len(said) != 1:
        yield f"gate: {len(said)} lines that begin with 'rt: ok; '"
    for line in said:
        if BAD.search(line):
            yield f"gate: {line}"


def whole(root, log):
    """Whether the gate's own log says that all passed and that no edit is bad."""
    wrongs = list(incomplete(log))
    for wrong in wrongs:
        print(wrong)
    return not wrongs


def check(root, log):
    """Whether the document says what the log has."""
    found = list(edits(root))
    wrongs = list(complaints(found, logged(log), rows(root)))
    for complaint in wrongs:
        print(complaint)
    print(f"{len(found)} edits")
    return bool(found) and not wrongs


def itself(root, log):
    """Whether each wrong document and each wrong log is found, made from the right ones by changing one row or one line."""
    found, said = list(edits(root)), logged(log)
    right = list(table(root, log))
    passed = failed = 0

    def tried(name, what, wrongs):
        nonlocal passed, failed
        if any(complaint.startswith(f"{name}: ") for complaint in wrongs):
            passed += 1
        else:
            failed += 1
            print(f"not found of {name}: {what}")

    for k, row in enumerate(right):
        name = row[0]
        others = [(*row[:i], row[i] + ".", *row[i + 1 :]) for i in range(4)]
        for wrong in [], [row] * 2, *([other] for other in others):
            tried(name, wrong, complaints(found, said, right[:k] + wrong + right[k + 1 :]))
        first = said.get(name, "").removeprefix(REFUSED)
        for wrong in (
            "NOT REFUSED: the crate is still proved with this edit",
            "NOT TRIED: its check was killed",
            "BAD EDIT: an 'old:' text is in src/lib.rt 0 times, and not once",
            f"refused, as it must be (only because a proof file names what the edit took away): {first}",
            f"refused, as it must be (only by a limit of the prover): {first}",
            "refused, as it must be",
            f"{REFUSED}./proofs/Elsewhere.antt:1:1: error: `elsewhere`: expected another type",
            f"{REFUSED}./proofs/elsewhere/Answers.antt:1:1: error: `returns`: expected another type",
        ):
            tried(name, wrong, complaints(found, {**said, name: wrong}, right))
        tried(name, "no line", complaints(found, {edit: line for edit, line in said.items() if edit != name}, right))
    for complaint in complaints(found, said, right):
        failed += 1
        print(complaint)
    ended = "rt: ok; handles allowed: none; must-fail edits: 3 refused"
    limited = f"{ended}, 1 of them only by a limit"
    for text, good in (
        (f"{ended}; done in this run: all\n", True),
        (f"{limited}; done in this run: all\n", True),
        ("", False),
        (f"{ended}, 2 bad; done in this run: all\n", False),
        (f"{limited}, 2 bad\n", False),
        (f"{ended}\n{ended}\n", False),
    ):
        if any(incomplete(text)) != good:
            passed += 1
        else:
            failed += 1
            print(f"taken for {'bad' if good else 'good'}: the gate's log has {text!r}")
    print(f"{passed} passed, {failed} failed")
    return passed > 0 and failed == 0


def show(root, log):
    for row in table(root, log):
        print("| " + " | ".join(row) + " |")
    return True


def main(what, root, log):
    log = Path(log)
    if not log.exists():
        print(f"there is no {log}: .ci/run writes it, or `rt must-fail`, given it as its standard output")
        return False
    return {"table": show, "check": check, "whole": whole, "itself": itself}[what](Path(root), log.read_text())


if __name__ == "__main__":
    sys.exit(0 if main(*sys.argv[1:]) else 1)

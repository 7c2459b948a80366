"""Reads off the source that the public calls have no preconditions and the promises that stand once more in promises.txt: no proof asks for that,
since a `requires`, or a condition or a part less in a promise, only makes a function easier to prove.

    promises.py check ROOT     the calls of the two tables in README.md, and the functions exported for C
    promises.py itself ROOT    that the check fails where one of them gets a precondition or another promise, or loses its row or its declaration
"""
import re
import shutil
import sys
import tempfile
from collections import namedtuple
from pathlib import Path

# A function of a crate: its clauses are the words before braces, from the parameters to the body, the kind and the name if there is one; `places`
# has where each clause begins, and last where the body does.
Function = namedtuple("Function", "crate path name public exported clauses places")

HEAD = re.compile(r'^[ ]*(pub )?(extern "C" )?fn (\w+)[^(]*', re.M)


def behind_bracket(text, at):
    """The place behind the bracket that closes the one at `at`."""
    depth = 0
    for place in range(at, len(text)):
        depth += (text[place] in "([{") - (text[place] in ")]}")
        if depth == 0:
            return place + 1
    raise ValueError("a bracket is not closed")


def contract(text, at):
    """The clauses of the function whose parameters begin at `at`, and their places. The type that it returns stands on the line on which the
    parameters end."""
    at = behind_bracket(text, at)
    at = min(place for place in (text.find("\n", at), text.find("{", at)) if place >= 0)
    clauses, places = [], []
    while True:
        brace = text.index("{", at)
        word = text[at:brace].strip()
        places.append(brace - len(text[at:brace].lstrip()))
        if not word:
            return clauses, places
        clauses.append(word)
        at = behind_bracket(text, brace)


def functions(root):
    """Every function with a body in the crates' sources. Comments are blanked, so that places stay."""
    for path in sorted(root.glob("crates/*/src/**/*.rt")):
        text = re.sub(r"//[^\n]*", lambda comment: " " * len(comment[0]), path.read_text())
        for head in HEAD.finditer(text):
            clauses, places = contract(text, head.end())
            crate = path.relative_to(root).parts[1]
            yield Function(crate, path, head[3], bool(head[1]), bool(head[2]), clauses, places)


def calls(root):
    """The calls of README.md's two tables, from C and in Rattle, and the crates of their row, of which one has the call."""
    tables = re.findall(r"^## The calls, [^\n]*\n(.*?)(?=^## )", (root / "README.md").read_text(), re.M | re.S)
    found = {}
    for row in re.findall(r"^\| (`.*)$", "".join(tables), re.M):
        cells = row.split("|")
        for name in re.findall(r"`(?:\w+::)*(\w+)\(", cells[0]):
            found[name] = cells[1].replace(",", " ").split()
    return found.items()


def declared(root):
    """The functions that include/permits.h declares: their lines begin with a type, those with a body with `static`."""
    return set(re.findall(r"^\w+ (\w+)\(.*;$", (root / "include/permits.h").read_text(), re.M))


def is_promise(clause):
    """Whether the words before a clause's braces are those of an `ensures`, with or without a name."""
    return re.fullmatch(r"ensures( \w+)?", clause) is not None


def promise(f):
    """What stands in the braces of the function's `ensures`, in one line, and the modules that have the definitions it names by words."""
    text = f.path.read_text()
    parts = [text[f.places[k] : f.places[k + 1]] for k, clause in enumerate(f.clauses) if is_promise(clause)]
    said = " and ".join(" ".join(part[part.index("{") + 1 : part.rindex("}")].split()) for part in parts)
    uses = re.findall(r"^ghost use Rattle\.([^{;]+)\.\{([^}]*)\};", text, re.M)
    modules = sorted(module for module, names in uses if set(re.split(r"[,\s]+", names)) & set(re.findall(r"[\w'-]+", said)))
    return " ".join([said, "by", *modules])


def stated(root):
    """The promise of each call, as promises.txt has it: a line for each, the name first."""
    lines = (root / "tests/promises/promises.txt").read_text().splitlines()
    return dict(line.split(": ", 1) for line in lines if line and not line.startswith("#"))


def complaints(root):
    """What is wrong, each with the name of its call first."""
    found = list(functions(root))
    named = list(calls(root))
    promises = stated(root)
    for name, crates in named:
        ours = [f for f in found if f.public and f.name == name and f.crate in crates]
        if len(ours) != 1:
            yield f"{name}: README.md's tables have it in {' or '.join(crates)}, which has {len(ours)} public functions of that name"
        for f in ours:
            yield from unkept(f)
            if promise(f) != promises.get(name):
                yield f"{name}: another promise than in promises.txt, {f.path}"
    rows = {name for name, _ in named}
    exported = {f.name for f in found if f.exported}
    for name in sorted(set(promises) - rows):
        yield f"{name}: in promises.txt, and not in README.md's tables"
    for name in sorted(exported - rows):
        yield f"{name}: exported for C, and not in README.md's tables"
    for name in sorted(exported ^ declared(root)):
        yield f"{name}: exported for C or declared in include/permits.h, and not both"


def unkept(f):
    for clause in f.clauses:
        if not is_promise(clause):
            yield f"{f.name}: a public call with `{clause}`, {f.path}"
    if not any(map(is_promise, f.clauses)):
        yield f"{f.name}: a public call without `ensures`, {f.path}"


def wrong(root):
    """Each wrong edit: how the complaint of it begins, the file, and the text that the file then has."""
    found = list(functions(root))
    for name, crates in calls(root):
        f = next(f for f in found if f.public and f.name == name and f.crate in crates)
        text = f.path.read_text()
        for place in f.places:
            for clause in "requires", "requires never", "requires*":
                yield f"{name}: a public call with `{clause}`", f.path, text[:place] + clause + " { ⊥ }\n" + text[place:]
        yield f"{name}: a public call without `ensures`", f.path, text[: f.places[0]] + text[f.places[-1] :]
        yield f"{name}: another promise", f.path, text[: f.places[0]] + text[f.places[0] :].replace("{ ", "{ ⊥ → ", 1)
        yield f"{name}: another promise", f.path, text.replace("ghost use Rattle.", "ghost use Rattle.other.")
        yield f"{name}: README.md's tables", f.path, re.sub(rf"\bfn {name}\b", f"fn {name}_other", text, count=1)
    for name in {f.name for f in found if f.exported}:
        for path in root / "README.md", root / "include/permits.h":
            yield f"{name}: exported for C", path, path.read_text().replace(f"{name}(", f"{name}_other(")


def itself(root):
    """Whether each wrong edit is found."""
    passed = failed = 0
    with tempfile.TemporaryDirectory() as folder:
        copy = Path(folder)
        for path in ["README.md", "include/permits.h", "tests/promises/promises.txt", *(f.path.relative_to(root) for f in functions(root))]:
            (copy / path).parent.mkdir(parents=True, exist_ok=True)
            shutil.copy(root / path, copy / path)
        for expected, path, text in wrong(copy):
            right = path.read_text()
            path.write_text(text)
            if any(complaint.startswith(expected) for complaint in complaints(copy)):
                passed += 1
            else:
                failed += 1
                print(f"not found in {path.relative_to(copy)}: {expected}")
            path.write_text(right)
    print(f"{passed} passed, {failed} failed")
    return passed > 0 and failed == 0


def check(root):
    """Whether nothing is wrong with the calls as they stand."""
    wrongs = list(complaints(root))
    for complaint in wrongs:
        print(complaint)
    number = len(list(calls(root)))
    print(f"{number} calls")
    return number > 0 and not wrongs


if __name__ == "__main__":
    sys.exit(0 if {"check": check, "itself": itself}[sys.argv[1]](Path(sys.argv[2])) else 1)

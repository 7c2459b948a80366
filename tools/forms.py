#!/usr/bin/env python3
"""Counts the places of each point of docs/DESIGN-PASS.md in crates/*/src: `python3 tools/forms.py [DIR] [-v]` (-v names them)."""
import glob
import os
import re
import sys

TYPES = {"u8", "u16", "u32", "u64", "usize", "bool"}


def functions(root):
    """(crate, name, head, body) of each function; the head runs from `fn` to the line before the body's `{`."""
    for path in sorted(glob.glob(os.path.join(root, "crates/*/src/*.rt"))):
        crate = path.split("/crates/")[1].split("/")[0]
        lines = open(path).read().split("\n")
        i = 0
        while i < len(lines):
            m = re.match(r'^( *)(?:pub )?(?:extern "C" )?fn (\w+)', lines[i])
            if not m:
                i += 1
                continue
            indent, start = m.group(1), i
            if lines[i].endswith("{"):
                j = i
            else:
                j = next(k for k in range(i, len(lines)) if lines[k] == indent + "{" or lines[k].endswith(";"))
            if lines[j].endswith(";"):
                i = j + 1
                continue
            end = next(k for k in range(j, len(lines)) if lines[k] == indent + "}")
            yield crate, m.group(2), "\n".join(lines[start:j + 1]), [x.strip() for x in lines[j + 1:end]]
            i = end + 1


def signature(head):
    return re.split(r"\n +(?:requires|ensures)", head)[0]


def parameters(head):
    text = signature(head)
    depth, out, start = 0, [], None
    for k in range(text.index("("), len(text)):
        c = text[k]
        if c in "([{<":
            depth += 1
            if depth == 1 and start is None:
                start = k + 1
        elif c in ")]}>" and text[k - 1] != "-":
            depth -= 1
            if depth == 0:
                out.append(text[start:k])
                break
        elif c == "," and depth == 1:
            out.append(text[start:k])
            start = k + 1
    return [p.strip() for p in out if p.strip()]


def shape(body):
    """The body with names, types and numbers replaced by their order of appearance: equal for functions that differ in these alone."""
    seen = {}

    def word(m):
        w = m.group(0)
        if w in TYPES or re.match(r"\d", w):
            return "#"
        if w in ("if", "return", "for", "in", "let", "mut", "while", "true", "false", "as", "match", "else"):
            return w
        return "$%d" % seen.setdefault(w, len(seen))

    return re.sub(r"b?'.'|\w+", word, " ".join(body))


def requirements(head):
    """The single facts that a contract requires."""
    for clause in re.findall(r"requires(?: \w+)? \{(.*?)\}(?=\n|$)", head, re.S):
        for fact in re.split(r"×", clause):
            fact = re.sub(r"[()]", " ", fact)
            yield re.sub(r"\s+", " ", fact).strip()


def main():
    args = [a for a in sys.argv[1:] if a != "-v"]
    verbose = "-v" in sys.argv
    root = args[0] if args else os.path.join(os.path.dirname(os.path.abspath(__file__)), "..")
    fns = list(functions(root))
    rows = []

    def row(point, what, places):
        rows.append((point, what, sorted(places)))

    name = lambda f: f[0] + "::" + f[1]
    returns_byte = [f for f in fns if re.search(r"-> u8\b", signature(f[2]))]
    row(1, "functions that return the number of a refusal, 0 for none",
        {name(f) for f in returns_byte if any(re.match(r"return (\d\d?|early|number|own)\b", x) or x == "0" for x in f[3])})
    row(1, "functions that take a kind as a number", {name(f) for f in fns if re.search(r"\bkind: (u8|usize)", signature(f[2]))})
    structs = []
    for path in glob.glob(os.path.join(root, "crates/*/src/*.rt")):
        text = open(path).read()
        for m in re.finditer(r"pub struct (\w+)[^{;]*\{(.*?)\n\}", text, re.S):
            if re.search(r"pub (answer|code): u8", m.group(2)):
                structs.append(path.split("/crates/")[1].split("/")[0] + "::" + m.group(1))
    row(1, "structs of a number that refuses and a value beside it", structs)
    groups = {}
    for f in fns:
        if len(f[3]) >= 1 and len(shape(f[3]).split()) >= 8:
            groups.setdefault(shape(f[3]), []).append(name(f))
    row(2, "functions whose bodies differ in names, types and numbers alone", [" = ".join(g) for g in groups.values() if len(g) > 1])
    row(3, "loops that count an index by hand", {name(f) for f in fns if any(re.match(r"while\b", x) for x in f[3]) and any(re.search(r"(\+= 1|= \w+ - 1);", x) for x in f[3])})
    row(3, "other `while` loops", {name(f) for f in fns if any(re.match(r"while\b", x) for x in f[3]) and not any(re.search(r"(\+= 1|= \w+ - 1);", x) for x in f[3])})
    row(3, "`for` loops that only test", {name(f) for f in fns if any(x.startswith("for ") for x in f[3]) and any(x in ("return false;", "return true;") for x in f[3])})
    row(4, "conversions by a function or by `as`", {name(f) + ": " + x for f in fns for x in f[3] if re.search(r"\bas (u8|u16|u32|usize)\b|\bwide\(|\bwider\(|\bshort\(", x)})
    facts = {}
    for f in fns:
        for fact in set(requirements(f[2])):
            facts.setdefault(fact, []).append(name(f))
    row(5, "facts in the contracts of three or more functions", ["%s (%d)" % (k, len(v)) for k, v in facts.items() if len(v) >= 3])
    row(5, "functions with six or more parameters", {"%s (%d)" % (name(f), len(parameters(f[2]))) for f in fns if len(parameters(f[2])) >= 6})
    row(6, "functions that take a buffer and a place or a length in it",
        {name(f) for f in fns if any(re.search(r": &('\w+ )?(mut )?\[u8[\];]", p) for p in parameters(f[2])) and re.search(r"\b(at|n): usize", signature(f[2]))})
    row(7, "functions that switch on a number that says what to do", {name(f) for f in fns if any(re.match(r"if kind ==", x) for x in f[3])})
    for point, what, places in rows:
        print("%d  %3d  %s" % (point, len(places), what))
        if verbose:
            for p in places:
                print("        " + p)


main()

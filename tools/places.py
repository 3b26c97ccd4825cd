#!/usr/bin/env python3
"""Lists the places in crates/*/src that docs/DESIGN-PASS.md counts, a section for each of its points.

    python3 tools/places.py [COMMIT]      of the working tree, or of a commit
    python3 tools/places.py --count [COMMIT]      the counts alone
"""
import re
import subprocess
import sys
from collections import defaultdict

INTEGER = r"(?:u8|u16|u32|u64|usize|i32|i64)"
TOKEN = re.compile(r"[A-Za-z_][A-Za-z_0-9]*|\d+|\S")
KEYWORDS = set("if else while for in let mut return match fn pub loop break continue as ref true false".split())
# The fewest tokens of a body that is compared with others.
LEAST_BODY = 12
# More parameters than these travel together.
FEW_PARAMETERS = 7


def sources(commit):
    """Path and lines of every source file."""
    if commit:
        names = subprocess.run(["git", "ls-tree", "-r", "--name-only", commit, "crates"], capture_output=True, text=True, check=True).stdout.split()
        names = [n for n in names if "/src/" in n and n.endswith(".rt")]
        read = lambda n: subprocess.run(["git", "show", f"{commit}:{n}"], capture_output=True, text=True, check=True).stdout
    else:
        names = subprocess.run(["git", "ls-files", "crates"], capture_output=True, text=True, check=True).stdout.split()
        names = [n for n in names if "/src/" in n and n.endswith(".rt")]
        read = lambda n: open(n, encoding="utf-8").read()
    return [(n, read(n).split("\n")) for n in sorted(names)]


def functions(lines):
    """(line, name, signature, clauses, body) of every function."""
    at = 0
    while at < len(lines):
        found = re.match(r"^(\s*)(?:pub )?(?:const )?(?:extern \"C\" )?fn (\w+)", lines[at])
        if not found:
            at += 1
            continue
        indent, name, start = found.group(1), found.group(2), at
        opening = start
        while lines[opening] != indent + "{" and not (lines[opening].endswith(" {") and not re.match(r"^\s+(requires|ensures|match)", lines[opening])):
            if lines[opening].endswith(";"):
                break
            opening += 1
        closing = opening
        while closing < len(lines) and lines[closing] != indent + "}":
            closing += 1
        head = lines[start:opening + 1]
        first_clause = next((i for i, l in enumerate(head) if re.match(r"^\s+(requires|ensures)", l)), len(head))
        yield start + 1, name, " ".join(head[:first_clause]), " ".join(head[first_clause:]), lines[opening + 1:closing]
        at = closing + 1


def parameters(signature):
    inside = signature[signature.index("(") + 1:signature.rindex(")")]
    return [p for p in re.split(r",\s*(?![^<\[(]*[>\])])", inside) if p.strip()]


def shape(body):
    """The tokens of a body with its names and numbers taken out."""
    out = []
    for line in body:
        for token in TOKEN.findall(line.split("//")[0]):
            if token in KEYWORDS:
                out.append(token)
            elif re.match(r"\d", token):
                out.append("0")
            elif re.match(r"[A-Za-z_]", token):
                out.append("x")
            else:
                out.append(token)
    return tuple(out)


def two_cases(name, lines):
    """Enums of two cases, one of which at least holds a value: what Option and Result are."""
    text = "\n".join(lines)
    for found in re.finditer(r"^(?:pub )?enum (\w+)[^{]*\{\n(.*?)^\}", text, re.M | re.S):
        cases = re.findall(r"^    (\w+) ?(.?)", re.sub(r"//[^\n]*", "", found.group(2)), re.M)
        if len(cases) == 2 and any(rest in "({ " and rest.strip() for _, rest in cases):
            yield text[:found.start()].count("\n") + 1, found.group(1)


def lines_with(pattern):
    def search(name, lines):
        for number, line in enumerate(lines, 1):
            if re.search(pattern, line.split("//")[0]):
                yield number, line.strip()
    return search


def by_function(test):
    def search(name, lines):
        for number, function, signature, clauses, body in functions(lines):
            what = test(function, signature, clauses, body)
            if what:
                yield number, f"{function}: {what}"
    return search


def many_parameters(function, signature, clauses, body):
    count = len(parameters(signature))
    return f"{count} parameters" if count > FEW_PARAMETERS else None


def with_offset(function, signature, clauses, body):
    names = [p.split(":")[0].strip() for p in parameters(signature)]
    pairs = [(a, "at") for a in ("buffer", "bytes", "list") if a in names and ("at" in names or "first" in names)]
    return ", ".join(" and ".join(p) for p in pairs) or None


def parallel(function, signature, clauses, body):
    slices = [p for p in parameters(signature) if re.search(r"&(?:'\w+ )?(?:mut )?\[", p)]
    return f"{len(slices)} slices" if len(slices) > 2 else None


def counted_number(function, signature, clauses, body):
    names = re.findall(rf"\b(mode|side|size|why|number|bit|phase|refusal|targets|kind): {INTEGER}\b", signature)
    return ", ".join(names) or None


def switch(function, signature, clauses, body):
    return next((l.strip() for l in body if re.search(r"if (left % 2|side|size|step) ==", l)), None)


SEARCHES = [
    ("1a", "enums of two cases", two_cases),
    ("1b", "constants that are numbers", lines_with(rf"^(?:pub )?const \w+: {INTEGER} =")),
    ("1c", "lines that answer or test a number that says that there is no answer", lines_with(r"\b(FULL|OUT|UNSETTLED)\b")),
    ("1d", "functions with a kind as a number", by_function(counted_number)),
    ("1e", "fields that hold a kind as a number", lines_with(rf"^    pub (mode|side|number|inverse|code|fault): {INTEGER}")),
    ("3", "loops by while", lines_with(r"^\s*while ")),
    ("4a", "functions that compare, choose, convert or print by hand", lines_with(
        r"fn (same_\w+|\w+_is|widen|narrow\w*|wide|number_of|least|larger|lower|higher|magnitude|rotated|put_\w+|copy_\w+|clear_\w+|write_(numbers|entries|pair|both))\(")),
    ("4b", "casts", lines_with(rf"\bas {INTEGER}\b")),
    ("5a", "functions with more than seven parameters", by_function(many_parameters)),
    ("5b", "fields read out to be passed on, or slots of a plan by number", lines_with(r"\b(plan|tally)\[")),
    ("6a", "buffers with an offset beside them", by_function(with_offset)),
    ("6b", "functions with three slices or more side by side", by_function(parallel)),
    ("7", "switches on which step to run", by_function(switch)),
]


def twins(files):
    groups = defaultdict(list)
    for name, lines in files:
        for number, function, signature, clauses, body in functions(lines):
            tokens = shape(body)
            if len(tokens) >= LEAST_BODY:
                groups[tokens].append(f"{name}:{number} {function}")
    return [g for g in groups.values() if len(g) > 1]


def facts(files):
    """Facts by name that three requires or more state."""
    stated = defaultdict(set)
    for name, lines in files:
        for number, function, signature, clauses, body in functions(lines):
            for clause in re.findall(r"requires\s+\w*\s*\{(.*?)\}(?=\s*(?:requires|ensures|$))", clauses):
                for fact in re.findall(r"(?:^|[(×])\s*([A-Z]\w+)", clause):
                    stated[fact].add(f"{name.split('/')[1]}::{function}")
    return {f: s for f, s in stated.items() if len(s) >= 3}


def main():
    arguments = sys.argv[1:]
    count_only = "--count" in arguments
    arguments = [a for a in arguments if a != "--count"]
    files = sources(arguments[0] if arguments else None)
    for point, title, search in SEARCHES:
        places = [f"{name}:{number} {text}" for name, lines in files for number, text in search(name, lines)]
        print(f"{point:3} {len(places):4} {title}")
        if not count_only:
            print("".join(f"         {p}\n" for p in places), end="")
    groups = twins(files)
    print(f"{'2':3} {len(groups):4} groups of bodies that differ in names and numbers alone, {sum(map(len, groups))} functions")
    if not count_only:
        print("".join("         " + " | ".join(g) + "\n" for g in groups), end="")
    stated = facts(files)
    print(f"{'5c':3} {len(stated):4} facts that three requires or more state")
    if not count_only:
        print("".join(f"         {f}: {', '.join(sorted(s))}\n" for f, s in sorted(stated.items())), end="")


if __name__ == "__main__":
    main()

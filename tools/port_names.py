#!/usr/bin/env python3
"""Brings the names that this repository's specs/ and proofs/ declare to today's spelling.

usage: tools/port_names.py [FOLDER]

FOLDER is a checkout as port.py leaves it; without it, this one. Run it once, right after port.py: words get underscores, types upper
camel case, primes apostrophes, as PORTING.md asks. Names of libraries, names that Rattle makes and names of src/ stay. It prints the
names that fall together; at the port, each such pair was one name that port.py had turned in some files and not in others.
"""

import os
import re
import sys

NAME = re.compile(r"[^\s(){}.;,@\"«»⟨⟩`]+")
DECLARED = re.compile(r"^\s*(?:pub |abbrev |unfoldable |data |record |axiom )*([^\s(){}.;,@\"«»:=]+)((?: \([^()]*(?:\([^()]*\)[^()]*)*\)| \{[^{}]*\})*)\s+:(?=\s|$)(.*)")
USE = re.compile(r"^(\s*(?:pub )?(?:ghost )?use )([^\s;{]+?)(?:\.\{([^}]*)\})?(?: as ([^\s;]+))?(?: use \{.*)?;?\s*$")
HYPHEN = re.compile(r"(?<=[\w⁻¹^'√])-(?=[\w√^])")
CAMEL = re.compile(r"^[a-z]+[A-Z]\w*$")
# Two definitions whose names would fall together: of a number, and of a matrix.
APART = {"inWidth": "number_in_width"}
GENERATED = ("Goals", "Given", "Tie", "Code", "Statement", "Mir", "Lts", "Reads")


def texts(root):
    for folder, dirs, files in os.walk(os.path.join(root, "crates")):
        dirs[:] = sorted(d for d in dirs if d != "out")
        for f in sorted(files):
            if f.endswith((".antt", ".rt", ".edit", ".antt.txt", ".edit.txt")):
                yield os.path.join(folder, f)


def crates(root):
    return set(os.listdir(os.path.join(root, "crates")))


def is_generated(path):
    steps = path.split(".")
    return "proofs" in steps and any(s in GENERATED for s in steps) or "contracts" in steps


def is_own(path, own):
    steps = path.split(".")
    return steps[0] == "Rattle" and len(steps) > 1 and steps[1] in own and not is_generated(path)


def is_lemma_file(path):
    """A file of specs/ or one that stands right in proofs/."""
    return re.search(r"/(specs|proofs)/[^/+]+\.antt(\.txt)?$", path) is not None


def spelled(name, types):
    if name in APART:
        return APART[name]
    if name in types:
        return re.sub(r"-(\w)", lambda m: m[1].upper(), name)
    name = HYPHEN.sub("_", name)
    if CAMEL.match(name):
        name = re.sub(r"(?<=[a-z0-9])[A-Z]", lambda m: "_" + m[0].lower(), name)
    return name.replace("′", "'")


def code_of(line):
    at = re.search(r"(?<!\S)--(?=\s|$)", line)
    return (line, "") if at is None else (line[: at.start()], line[at.start() :])


def declarations(root):
    """Each name that a file of specs/ or proofs/ declares, and those of them that are types."""
    names, types = set(), set()
    for path in texts(root):
        if not is_lemma_file(path):
            continue
        with open(path, encoding="utf-8") as f:
            lines = f.read().split("\n")
        for line in lines:
            code = code_of(line)[0]
            m = DECLARED.match(code)
            if not m or code.lstrip().startswith(("use ", "pub use ", "module ", "--")):
                continue
            names.add(m[1])
            if m[1][:1].isupper() and ("-" in m[1]) and (re.match(r"\s*(pub |)(data|record) ", code) or re.search(r"Type 0\s*(where)?\s*$", m[3])):
                types.add(m[1])
    return names, types


def library_names(lines, own):
    """The names that a file takes from a library or from what Rattle makes: they stay in it."""
    stay = set()
    for line in lines:
        m = USE.match(line)
        if m and not is_own(m[2], own):
            for item in (m[3] or "").split(","):
                stay.update(item.strip().split(" as "))
            stay.add(m[4])
    return stay


def goal_names(lines):
    """Names that answer a goal, in the folder of a function's proof."""
    return {m[1] for m in (re.match(r"^(?:pub |abbrev )*(\S+) : (?:tie|goal|lts|[a-z_]*tie)\.", l) for l in lines) if m}


def turn(path, root, own, names, types, changed):
    with open(path, encoding="utf-8") as f:
        text = f.read()
    lines = text.split("\n")
    rust, edit = path.endswith(".rt"), ".edit" in os.path.basename(path)
    stay = set() if edit else library_names(lines, own)
    if not is_lemma_file(path):
        stay |= goal_names(lines)
    bare = {spelled(n, types) for n in names}

    def one(m, line, comment, path_of_use):
        word = m[0]
        if word in stay or not re.search(r"\w", word) or "◌" in word:
            return word
        new = spelled(word, types)
        if new == word:
            return word
        behind_dot = m.start() > 0 and line[m.start() - 1] == "."
        known = word in names or (edit and new in bare)
        if not known and (comment or behind_dot or rust or edit or path_of_use or CAMEL.match(word)):
            return word
        changed.setdefault(word, new)
        return new

    out = []
    for line in lines:
        if rust:
            ghost = re.match(r"\s*(ghost use|//)", line) or re.search(r"[≡∷≤λ→×]|\b(requires|ensures)\b", line) or "." in line
            out.append(NAME.sub(lambda m: one(m, line, True, False), line) if ghost else line)
            continue
        m = USE.match(line)
        if m:
            if is_own(m[2], own):
                out.append(NAME.sub(lambda w: one(w, line, False, w.start() < m.end(2)), line))
            else:
                out.append(line)
            continue
        code, comment = code_of(line)
        out.append(NAME.sub(lambda w: one(w, code, False, False), code) + NAME.sub(lambda w: one(w, comment, True, False), comment))
    new = "\n".join(out)
    return text, new


def main(argv):
    root = argv[0] if argv else os.path.dirname(os.path.dirname(os.path.realpath(__file__)))
    own = crates(root)
    names, types = declarations(root)
    changed, written = {}, {}
    for path in texts(root):
        old, new = turn(path, root, own, names, types, changed)
        if new != old:
            written[path] = new
    back = {}
    for old, new in changed.items():
        back.setdefault(new, set()).add(old)
    clash = {n: o for n, o in back.items() if len(o) > 1 or (n in names and n not in o)}
    for n in sorted(clash):
        print(f"falls together: {n} from {', '.join(sorted(clash[n]))}{' and itself' if n in names else ''}")
    for path, new in written.items():
        with open(path, "w", encoding="utf-8") as f:
            f.write(new)
    print(f"{len(changed)} names in {len(written)} files")
    return 0


if __name__ == "__main__":
    raise SystemExit(main(sys.argv[1:]))

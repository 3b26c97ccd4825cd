#!/usr/bin/env python3
"""Lists what changed since a commit, old and new side by side, as docs/DESIGN-PASS.md ends with it: public functions, definitions, and
the theorems in proofs/ that the pages name.

    python3 tools/side_by_side.py COMMIT      the three lists
    python3 tools/side_by_side.py --gone COMMIT      names that are gone and that the page does not say
"""
import re
import subprocess
import sys

PAGE = "docs/DESIGN-PASS.md"
DECLARED = re.compile(r"^(?:unfoldable |abbrev )?pub (?:data |record )?([^\s:(){}]+)(?= [:({]|$)")


def files(commit):
    """Path and text of every source, specs and proofs file and of the pages, of a commit or of the working tree."""
    command = ["git", "ls-tree", "-r", "--name-only", commit] if commit else ["git", "ls-files"]
    found = {}
    for name in subprocess.run(command, capture_output=True, text=True, check=True).stdout.split():
        if re.match(r"crates/\w+/(src/.*\.rt|(specs|proofs)/.*\.antt)$", name) or name.endswith(".md"):
            if commit:
                found[name] = subprocess.run(["git", "show", f"{commit}:{name}"], capture_output=True, text=True, check=True).stdout
            else:
                found[name] = open(name, encoding="utf-8").read()
    return found


def squeezed(lines):
    return re.sub(r"\s+", " ", " ".join(lines)).strip()


def functions(tree):
    """(crate, name): the signature and the clauses of every public function."""
    found = {}
    for path, text in tree.items():
        if not path.endswith(".rt"):
            continue
        owner = ""
        lines = [l for l in text.split("\n") if not l.lstrip().startswith("//")]
        for at, line in enumerate(lines):
            if inside := re.match(r"^impl(?:<[^>]*>)? (?:\w+ for )?(\w+)", line):
                owner = inside.group(1) + "::"
            if line == "}":
                owner = ""
            head = re.match(r'^(\s*)pub (?:const )?(?:extern "C" )?fn (\w+)', line)
            if not head:
                continue
            end = at
            while lines[end] != head.group(1) + "{":
                end += 1
            clauses, parts = [], []
            for part in lines[at:end]:
                if re.match(r"^\s+(requires|ensures)\b", part) and parts:
                    clauses.append(squeezed(parts))
                    parts = []
                parts.append(part)
            clauses.append(squeezed(parts))
            signature = clauses[0][clauses[0].index(head.group(2)) + len(head.group(2)):]
            found[path.split("/")[1] + "::" + owner + head.group(2)] = (signature, clauses[1:])
    return found


def declared(tree, folder):
    """The text of what every file of the folder declares for others, by crate and name: definitions, or laws with what they state."""
    found = {}
    for path, text in tree.items():
        if not re.match(rf"crates/\w+/{folder}/\w+\.antt$", path):
            continue
        lines = [l for l in text.split("\n") if not l.lstrip().startswith("--")]
        fields_end = 0
        for at, line in enumerate(lines):
            if at < fields_end:
                continue
            indent = len(line) - len(line.lstrip())
            name = DECLARED.match(line.lstrip())
            if not name or name.group(1) in ("open", "mod", "module", "use", "syntax", "infix", "instance"):
                continue
            end = at + 1
            own = re.compile(rf"^ {{{indent}}}{re.escape(name.group(1))}(?= )")
            while end < len(lines) and (not lines[end].strip() or len(lines[end]) - len(lines[end].lstrip()) > indent or own.match(lines[end])
                                        or re.match(rf"^ {{{indent}}}}}", lines[end])):
                if folder == "proofs" and own.match(lines[end]):
                    break
                end += 1
            if re.match(r"\s*pub (record|data) ", line):
                fields_end = end
            found.setdefault((path.split("/")[1], name.group(1)), (path, squeezed(lines[at:end])))
    return found


def named(tree):
    """The words in code spans of the pages."""
    return {word for path, text in tree.items() if path.endswith(".md") and not path.startswith("docs/changes/")
            for span in re.findall(r"`([^`\n]+)`", text) for word in re.split(r"[\s,.:()]+", span)}


def show(heading, was, now):
    print(heading)
    for mark, parts in (("-", was), ("+", now)):
        for part in parts:
            print(mark, part)


def changed_functions(old, new):
    was, now = functions(old), functions(new)
    for name in sorted(was.keys() & now.keys()):
        (signature, clauses), (signature_now, clauses_now) = was[name], now[name]
        if (signature, clauses) == (signature_now, clauses_now):
            continue
        gone = [c for c in clauses if c not in clauses_now]
        come = [c for c in clauses_now if c not in clauses]
        show(name, [signature] * (signature != signature_now) + gone, [signature_now] * (signature != signature_now) + come)


def changed(old, new, folder, names=None):
    was, now = declared(old, folder), declared(new, folder)
    for crate, name in sorted(was.keys() & now.keys()):
        (_, text), (_, text_now) = was[crate, name], now[crate, name]
        if text != text_now and (names is None or name in names):
            show(f"{crate} {name}", [text], [text_now])


def gone(old, new):
    """Names that are gone and that no row of the page says."""
    page = named({PAGE: new[PAGE]})
    for title, was, now in (("functions", functions(old), functions(new)), ("definitions", declared(old, "specs"), declared(new, "specs")),
                            ("laws", declared(old, "proofs"), declared(new, "proofs"))):
        print(title)
        for key in sorted(was.keys() - now.keys()):
            crate, name = key if isinstance(key, tuple) else (key.split("::")[0], key.split("::")[-1])
            anywhere = any(name == (k[1] if isinstance(k, tuple) else k.split("::")[-1]) for k in now)
            if name not in page:
                print("   ", crate, name, "(elsewhere)" if anywhere else "")


def main():
    arguments = [a for a in sys.argv[1:] if a != "--gone"]
    old, new = files(arguments[0]), files(None)
    if "--gone" in sys.argv:
        gone(old, new)
        return
    for title, fill in (("Public functions that kept their names", lambda: changed_functions(old, new)), ("Definitions", lambda: changed(old, new, "specs")),
                        ("Theorems that the pages name", lambda: changed(old, new, "proofs", named(old) | named(new)))):
        print(f"### {title}\n\n```text")
        fill()
        print("```\n")


if __name__ == "__main__":
    main()

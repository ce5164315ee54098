#!/usr/bin/env python3
"""Respells the repository's own definitions, fields, constructors and lemmas: words in snake case, types and facts in camel case.

usage: python3 tools/respell.py [ROOT] [--list]

It goes by text, over the .rt and .antt files below ROOT/crates, once, after the kit's port.py. It changes names that files of specs/ and proofs/ define,
and names that a `use` line gives by `as`. It leaves alone: names of the library that a file imports, names of goals, functions of src/, strings and the
comments of .rt files. With --list it only prints the table of old and new names.
"""

import os
import re
import sys

# Names that would fall together with others of theirs: told apart here.
APART = {
    "names-of": "index_names_of",  # of a contract that is found; `names_of` are those of a list of names
    "claim-of": "claim_said_of",  # a lemma on what is claimed; `claim_of` is the definition
    "No-line": "NoReportLine",  # a call that marks no line; `NoLine` is the code's
    "fileOf": "as_file",  # a held file as plain data; `file_of` is the file of a number
}
WORD = re.compile(r"[A-Za-z_\u00c0-\u02ff][\w'\u2032-]*")
RESERVED = set("data record deriving module where use mod pub package open as unfoldable abbrev axiom unfold unfolding ruleset mutual infix infixl infixr elim let in do type ghost".split())
GOALS = ("Answers.antt", "Invariants.antt", "Choices.antt")


def files(root, endings):
    for folder, folders, names in os.walk(os.path.join(root, "crates")):
        folders[:] = sorted(f for f in folders if f not in ("out", "misuse", "must-fail"))
        for name in sorted(names):
            if name.endswith(endings):
                yield os.path.join(folder, name)


def text_of(path):
    with open(path, encoding="utf-8") as f:
        return f.read()


def defined(root):
    """The names that specs/ and proofs/ define, but for goals."""
    found = set()
    for path in files(root, (".antt",)):
        goals = os.path.basename(path) in GOALS
        inside = None
        for line in text_of(path).split("\n"):
            if not line.strip() or line.strip().startswith("--"):
                continue
            if not line.startswith(" "):
                inside = None
                if re.match(r"(use|pub use|pub mod|mod|open|unfolding|infix)", line):
                    continue
                m = re.match(r"(?:(abbrev|unfoldable|ruleset)\s+)?(?:pub\s+)?(?:(data|record)\s+)?([^\s:(){}]+)", line)
                if not m or not (" : " in line or line.endswith(" :") or m.group(1) or m.group(2)):
                    continue
                if goals and re.match(r"(abbrev )?(pub )?[^\s]+ :\s*((need|goal|choice|given)\.|$)", line):
                    continue
                found.add(m.group(3))
                inside = m.group(2)
            elif re.match(r"\s+(abbrev|unfoldable)\s", line):
                found.add(re.match(r"\s+(?:abbrev|unfoldable)\s+(?:pub\s+)?([^\s:(){}]+)", line).group(1))
            elif inside:
                m = re.match(r"\s+(?:pub\s+)?([^:]+?)\s+:\s", line)
                if m:
                    found.update(m.group(1).split())
            else:
                m = re.match(r"\s+(?:pub\s+)?([\w'-]+)\s+:(\s|$)", line)
                if m:
                    found.add(m.group(1))
    return found


def respelled(name):
    if name in APART:
        return APART[name]
    name = name.replace("\u2032", "'")
    if name[0].isupper():
        return "".join(w[0].upper() + w[1:] for w in re.split("[-_]", name) if w)
    name = re.sub(r"([a-z0-9])([A-Z])", lambda m: m.group(1) + "_" + m.group(2).lower(), name)
    return name.replace("-", "_")


def odd(name):
    return "-" in name.strip("-") or name[0].isupper() and "_" in name or "\u2032" in name or re.search(r"[a-z0-9][A-Z]", name) and name[0].islower()


def table(root):
    return {n: respelled(n) for n in sorted(defined(root)) if WORD.fullmatch(n) and odd(n)}


def imports(text):
    """Pairs of a use line's path and the items in its braces."""
    return re.findall(r"use ([\w.'+-]+)\.\{([^}]*)\}", text)


def library_names(text, own):
    """Names that a file imports from elsewhere than the repository's crates."""
    found = set()
    for path, items in imports(text):
        parts = path.split(".")
        if parts[0] == "Rattle" and len(parts) > 1 and parts[1] in own:
            continue
        for item in items.split(","):
            found.add(item.strip().split(" as ")[0].strip().strip("\u00ab\u00bb"))
    return found


def given_names(text):
    """Names that use lines give by `as`, and their new spelling."""
    found = {}
    for m in re.finditer(r"\bas (?:\u00ab)?([\w'\u2032-]+)(?:\u00bb)?(?=[,;}\n])", text):
        if WORD.fullmatch(m.group(1)) and odd(m.group(1)):
            found[m.group(1)] = respelled(m.group(1))
    return found


def renamed(line, names):
    line = re.sub("\u00ab([^\u00bb]+)\u00bb", lambda m: names.get(m.group(1), m.group(0)), line)
    return WORD.sub(lambda m: names.get(m.group(0), m.group(0)), line)


def turned(path, names, own):
    text = text_of(path)
    keep = library_names(text, own)
    here = {o: n for o, n in names.items() if o not in keep}
    here.update(given_names(text))
    out = []
    for line in text.split("\n"):
        end = len(line)
        if path.endswith(".rt"):
            cut = re.search(r"(^|\s)//", line)
            end = cut.start() if cut else end
        pieces = re.split(r'("(?:[^"\\]|\\.)*")', line[:end])
        line = "".join(p if p.startswith('"') else renamed(p, here) for p in pieces) + line[end:]
        line = re.sub("\u00ab([a-z_][a-z0-9_]*)\u00bb", lambda m: m.group(0) if m.group(1) in RESERVED else m.group(1), line)
        out.append(line)
    return text, "\n".join(out)


def main(argv):
    roots = [a for a in argv if not a.startswith("--")]
    root = roots[0] if roots else "."
    names = table(root)
    if "--list" in argv:
        for old, new in names.items():
            print(f"{old} {new}")
        return
    own = set(os.listdir(os.path.join(root, "crates")))
    count = 0
    for path in files(root, (".rt", ".antt")):
        old, new = turned(path, names, own)
        if new != old:
            with open(path, "w", encoding="utf-8") as f:
                f.write(new)
            count += 1
    print(f"respell: {len(names)} names, {count} files")


main(sys.argv[1:])

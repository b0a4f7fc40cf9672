#!/usr/bin/env python3
"""Brings this repository's own definitions and lemmas to today's spelling, once, right after port.py.

usage: python3 tools/respell.py [FOLDER]     FOLDER is a checkout that port.py has turned; this one where it is left out

A name that specs/ or proofs/ declares with a hyphen gets snake case (is-blank: is_blank; ACK-0: ACK_0), and camel case
where it begins with a capital, as types and facts do (Altered-refused: AlteredRefused). Names that Rattle makes (goals
and steps), names of the library, functions of src/, strings and comments keep theirs. It prints each name with its new
spelling, and before them names that fall together and new spellings that stand somewhere already.
"""

import os
import re
import sys

ROOT = sys.argv[1] if len(sys.argv) > 1 else os.path.dirname(os.path.dirname(os.path.realpath(__file__)))
CRATES = os.path.join(ROOT, "crates")

# Names whose plain new spelling would fall together with another name in scope.
OTHER = {
    "getD-around": "get_or_around",
}
# Goals and steps, as Rattle names them, and this repository's own names that look like one.
MADE = re.compile(r"^(returns|loop|invariant|decreases|overflow|slice|then|else|in|if|ensures)-|-requires(-\d+)?$")
OWN = {"in-hand", "in-time", "if-made", "if-open"}
DECLARED = re.compile(r"^\s*(?:(?:abbrev|unfoldable|pub|data|record|private|macro|prove)\s+)*((?:[^\s(){}\[\]:.,;=→λ]+\s+)*?[^\s(){}\[\]:.,;=→λ]+)\s*(?:\([^()]*\)\s*|\{[^{}]*\}\s*)*:\s")
TOKEN = re.compile(r"[^\s(){}\[\].,;:«»\"|*∀⌜⌝]+")


def files(ending):
    for folder, dirs, names in os.walk(CRATES):
        dirs[:] = sorted(d for d in dirs if d != "out")
        for name in sorted(names):
            if name.endswith(ending):
                yield os.path.join(folder, name)


def read(path):
    with open(path, encoding="utf-8") as f:
        return f.read()


def library_names():
    """What the files import from outside this repository."""
    own = set(os.listdir(CRATES))
    found = set()
    for path in list(files(".antt")) + list(files(".rt")):
        for crate, names in re.findall(r"use Rattle\.(\w+)\.[^{};\n]*\{([^}]*)\}", read(path)):
            if crate not in own:
                found |= {n.strip() for n in names.split(",")}
    return found


def declared():
    """Names with a hyphen that this repository declares."""
    found = set()
    for path in files(".antt"):
        for line in read(path).splitlines():
            line = line.split("--")[0] if line.lstrip().startswith("--") else line
            m = DECLARED.match(line)
            if not m or "goal." in line[m.end() - 2 :]:
                continue
            for name in m.group(1).split():
                if "-" in name.strip("-") and (name in OWN or not MADE.search(name)) and re.match(r"^[A-Za-z]", name):
                    found.add(name)
    return found


def today(name):
    if name in OTHER:
        return OTHER[name]
    if name.upper() == name:
        return name.replace("-", "_")
    if name[0].isupper():
        return "".join(p[:1].upper() + p[1:] for p in name.split("-"))
    return name.replace("-", "_")


def turned(text, names, comment):
    """The text with each name turned, outside comments and strings."""
    out = []
    for line in text.split("\n"):
        code, tail = line, ""
        m = re.search(r"(^|\s)" + re.escape(comment), line)
        if m and line[: m.start()].count('"') % 2 == 0:
            code, tail = line[: m.start()], line[m.start() :]
        parts = re.split(r'("(?:[^"\\]|\\.)*")', code)
        parts[::2] = [TOKEN.sub(lambda t: names.get(t.group(), t.group()), p) for p in parts[::2]]
        out.append("".join(parts) + tail)
    return "\n".join(out)


def main():
    library = library_names()
    names = {n: today(n) for n in sorted(declared()) if n not in library}
    taken = {}
    for old, new in names.items():
        taken.setdefault(new, []).append(old)
    for new, olds in taken.items():
        if len(olds) > 1:
            print("fall together:", new, olds)
    tokens = set()
    for path in files(".antt"):
        tokens |= set(TOKEN.findall(read(path)))
    for old, new in names.items():
        if new in tokens:
            print("look: taken in specs or proofs:", old, new)
    words = set()
    for path in files(".rt"):
        words |= set(re.findall(r"\b(?:fn|const|static|struct|enum|mod|trait|let|let mut) (\w+)", read(path)))
    for old, new in names.items():
        if new in words:
            print("look: a name of src:", old, new)
    for ending, comment in ((".antt", "--"), (".rt", "//")):
        for path in files(ending):
            text = read(path)
            new = turned(text, names, comment)
            if new != text:
                with open(path, "w", encoding="utf-8") as f:
                    f.write(new)
    for old, new in names.items():
        print(old, new)


main()

#!/usr/bin/env python3
"""Respells this repository's own definitions and lemmas for today's Rattle: words in snake case, types, facts and modules in camel case.

usage: python3 tools/respell.py     once, at the top of the repository, after the kit's port.py

A name is the repository's own where no file imports it from the kit. Names that begin with a capital keep it (types, facts, refusals, the set K);
their dashes become underscores like all others. It stops, and changes nothing, where two names would fall together in one file.
"""

import glob
import re
import sys

TOKEN = re.compile(r"[^\s(){}\[\].,;:|←→↦λ=`]+")
USE = re.compile(r"^use (\S+?)\.\{([^}]*)\}", re.M)
# Where the plain respelling is the name of a function of the same crate, or of a definition, or has the library's old word in it.
LEMMAS = {
    "event-at": "event_at_lem",
    "row-mark": "row_mark_lem",
    "in_use": "in_use_places",
    "none_yet": "none_yet_at",
    "get_d_map": "get_or_map",
    "getD-below": "get_or_below",
    "getD-upFrom": "get_or_up_from",
}
# A definition and the function that computes it may share a name: they stand in different scopes.
FUNCTIONS = {"counts_fit", "places_fit"}


def laws():
    return sorted(glob.glob("crates/*/specs/**/*.antt", recursive=True) + glob.glob("crates/*/proofs/*.antt"))


def everything():
    more = glob.glob("crates/*/proofs/*/**/*.antt", recursive=True) + glob.glob("crates/*/src/*.rt")
    return laws() + sorted(more)


def snake(name):
    if name in LEMMAS:
        return LEMMAS[name]
    name = name.replace("-", "_")
    if name[0].isupper() and not re.match(r"[A-Z]_", name):
        return name
    return re.sub(r"(?<=[a-z0-9'])([A-Z])", lambda m: "_" + m.group(1).lower(), name)


def own_names():
    of_the_kit = set()
    for path in everything():
        for module, names in USE.findall(open(path, encoding="utf-8").read()):
            if not module.startswith("Rattle.") or module.startswith("Rattle.std."):
                of_the_kit |= {n.strip().split(" as ")[0] for n in names.split(",")}
    found = {}
    for path in laws():
        for line in open(path, encoding="utf-8"):
            if line.lstrip().startswith(("--", "use ", "pub mod", "mod ")):
                continue
            for name in TOKEN.findall(line):
                if not re.match(r"[A-Za-z]", name) or name in of_the_kit:
                    continue
                if (name in LEMMAS or re.search(r"[a-z0-9'][A-Z]|\w-\w", name)) and snake(name) != name:
                    found[name] = snake(name)
    return found


def turned(text, names):
    return TOKEN.sub(lambda m: names.get(m.group(), m.group()), text)


def comment(line, names):
    line = turned(line, names)
    line = re.sub(r"(?<=[\s,])-(?=[a-z])([\w-]*)", lambda m: "_" + snake("x-" + m.group(1))[2:], line)
    return re.sub(r"(?<=\w)-(?=\.\.)|(?<=\.\.)-(?=\w)", "_", line)


def main():
    names = own_names()
    together = []
    for path in everything():
        words = set(TOKEN.findall(open(path, encoding="utf-8").read()))
        for old in sorted(words & names.keys()):
            if names[old] in words and names[old] not in names and names[old] not in FUNCTIONS:
                together.append(f"{path}: {old} and {names[old]}")
    for old, new in names.items():
        others = [o for o in names if names[o] == new and o != old]
        if others:
            together.append(f"{old} and {others[0]}")
    if together:
        print("\n".join(together), file=sys.stderr)
        return 1
    for path in everything():
        with open(path, encoding="utf-8") as f:
            lines = f.read().split("\n")
        mark = "//" if path.endswith(".rt") else "--"
        lines = [comment(l, names) if l.lstrip().startswith(mark) else turned(l, names) for l in lines]
        with open(path, "w", encoding="utf-8") as f:
            f.write("\n".join(lines))
    for path in ["README.md"] + sorted(glob.glob("docs/**/*.md", recursive=True)):
        with open(path, encoding="utf-8") as f:
            text = f.read()
        text = re.sub(r"`[^`\n]+`", lambda m: turned(m.group(), names), text)
        with open(path, "w", encoding="utf-8") as f:
            f.write(text)
    print(f"{len(names)} names")
    return 0


if __name__ == "__main__":
    sys.exit(main())

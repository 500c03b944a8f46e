#!/usr/bin/env python3
"""Respells the repository's own definitions and lemmas, once, after the kit's port.py: words in snake case, types in camel case.

A name counts as the repository's own when a file of specs/ or proofs/ states it; names of goals keep the spelling that the kit gives them.
Run at the top of the repository. It stops, writing nothing, where two names would fall together.
"""
import os
import re
import sys

NAME = r"[A-Za-z_λθ][\w'-]*"
STATED = re.compile(r"\s*(?:abbrev |unfoldable )?(?:pub )?(?:data |record )?(" + NAME + r") (?:\{[^}]*\} |\([^)]*\) )*: (.*)")
SPECIAL = {"getD-far": "get_or_far"}
RECURSIVE_ALL = "AllByRecursion as All"


def texts():
    for folder, folders, names in os.walk("crates"):
        folders[:] = sorted(f for f in folders if f != "out")
        for name in sorted(names):
            if name.endswith((".rt", ".antt")):
                yield os.path.join(folder, name)


def respelt(name):
    if name in SPECIAL:
        return SPECIAL[name]
    if name[0].isupper():
        return "".join(word[:1].upper() + word[1:] for word in name.split("-"))
    return name.replace("-", "_")


def main():
    files = {}
    for path in texts():
        with open(path, encoding="utf-8") as file:
            files[path] = file.read()
    stated = set()
    for path, text in files.items():
        if path.endswith(".antt"):
            for line in text.split("\n"):
                found = STATED.match(line)
                if found and not found.group(2).startswith("goal."):
                    stated.add(found.group(1))
    own = {name: respelt(name) for name in stated if "-" in name}
    if len(set(own.values())) < len(own) or set(own.values()) & stated:
        print("names fall together:", sorted(set(own.values()) & stated), file=sys.stderr)
        return 1
    for path, text in files.items():
        new = re.sub(NAME, lambda found: own.get(found.group(0), found.group(0)), text)
        if RECURSIVE_ALL in new:
            new = re.sub(r"(?<![\w'-])All(?![\w'-])", "AllByRecursion", new.replace(RECURSIVE_ALL, "AllByRecursion"))
        if new != text:
            with open(path, "w", encoding="utf-8") as file:
                file.write(new)
    print(f"{len(own)} names respelt")
    return 0


if __name__ == "__main__":
    raise SystemExit(main())

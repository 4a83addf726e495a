#!/usr/bin/env python3
"""Brings the definitions and lemmas of this repository to the spelling of today's Rattle.

usage: python3 tools/respell.py      once, at the top of the repository, after the kit's port.py

What is defined in specs/ and proofs/ with a dash in its name gets an underscore there, or, where
it begins with a capital letter, is written in upper camel case. The names of goals, which Rattle
makes, and the names of the libraries stay.
"""
import glob
import re
import sys

NAME = r"[^\s(){}\[\];.,@\"λ:]+"
GOALS = re.compile(r"^(returns|loop|overflow|invariant|decreases|bounds|slice_bounds|offset_bounds|nonzero|prove|the)[-_]")
TOKEN = re.compile(r"[^\s(){}\[\];.,@\"`]+")
OWN = {"getD": "get_or", "bitN": "bit_n"}


def read(path):
    with open(path, encoding="utf-8") as f:
        return f.read()


def antt():
    return sorted(glob.glob("crates/*/specs/**/*.antt", recursive=True) + glob.glob("crates/*/proofs/**/*.antt", recursive=True))


def uses(text):
    return re.findall(r"^use (.*)$", text, re.M)


def defined(text):
    names = set()
    for line in text.split("\n"):
        code = line.strip()
        if code.startswith("--") or code.startswith("use "):
            continue
        for m in re.finditer(rf"({NAME}(?:\s+{NAME})*)\s+:\s", line):
            names.update(m.group(1).split())
        names.update(re.findall(rf"\b(?:record|data) ({NAME})", line))
        names.update(re.findall(rf"\blet ({NAME}) =", line))
        for m in re.finditer(rf"λ ((?:{NAME}\s*)+)\.", line):
            names.update(m.group(1).split())
    return names


def spelled(name):
    for old, new in OWN.items():
        name = re.sub(rf"(?<![A-Za-z]){old}(?![A-Za-z])", new, name)
    if name[0].isupper():
        return "".join(part[:1].upper() + part[1:] for part in name.split("-"))
    return name.replace("-", "_")


def mapping():
    own, foreign, tokens = set(), set(), set()
    for path in antt():
        text = read(path)
        own |= defined(text)
        tokens |= set(TOKEN.findall(text))
        for line in uses(text):
            if not re.match(r"Rattle\.(format|formats|rows|wordtext|sheetdump|location|arena|trace)\b", line):
                foreign |= set(TOKEN.findall(line))
    names = {}
    for name in own:
        if not re.fullmatch(r"[A-Za-z][A-Za-z0-9_'-]*", name) or GOALS.match(name):
            continue
        if spelled(name) != name:
            names[name] = spelled(name)
    for name in sorted(names):
        if name in foreign:
            print("stays, a library has it:", name)
            del names[name]
        elif names[name] in tokens:
            print("look: there was a", names[name], "beside", name)
    for new in sorted(set(names.values())):
        if list(names.values()).count(new) > 1:
            print("look: several names become", new)
    return names


def respelled(text, names):
    return TOKEN.sub(lambda m: names.get(m.group(0), m.group(0)), text)


def main():
    names = mapping()
    for path in antt() + sorted(glob.glob("crates/*/src/**/*.rt", recursive=True)):
        comment = "//" if path.endswith(".rt") else "--"
        lines = read(path).split("\n")
        new = [line if line.strip().startswith(comment) else respelled(line, names) for line in lines]
        if new != lines:
            open(path, "w", encoding="utf-8").write("\n".join(new))
    print(len(names), "names")
    return 0


if __name__ == "__main__":
    sys.exit(main())

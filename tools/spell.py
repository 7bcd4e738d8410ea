#!/usr/bin/env python3
"""Spells the repository's own definitions and lemmas as today's Rattle does: words in snake case, types in camel case.

Run once, at the top, after the kit's porting script. It takes the names with a dash from what specs/ and proofs/
define, respells each token that is one of them in .antt and .rt files (there, no name of code has a dash), and says
where a new spelling falls together with a name that a file already has. Strings and the text of comments stay.
"""
import glob
import re
import sys

TOKEN = re.compile(r"[A-Za-z_κ][\w'′]*(?:-[\w'′]+)*")
DEFINED = re.compile(r"^\s*(?:(?:abbrev|unfoldable|pub|data|record)\s+)*([A-Za-z_][\w'′]*(?:-[\w'′]+)+)\s*(?::|\(|\{)")


# names that are bound where they are used, or imported under another name
BOUND = {
    "i-in", "in-free", "in-r", "in-service", "in-tested", "in-time'", "lowered-load", "nothing-waits", "out-free",
    "out-tested", "packets-of", "within-n", "within-out",
}


def spelled(name):
    parts = name.split("-")
    if name[0].isupper():
        return "".join(part[:1].upper() + part[1:] for part in parts)
    return "_".join(parts)


def own_names(files):
    names = set()
    for path in files:
        for line in open(path, encoding="utf-8"):
            found = DEFINED.match(line)
            if found and not line.lstrip().startswith("--"):
                names.add(found.group(1))
    return names


def kept_from_std(text):
    """The names that a file takes from the library keep the library's spelling."""
    kept = set()
    for found in re.finditer(r"use (?!Rattle\.(?:OWN)\b)([\w.·]+)\.\{([^}]*)\}".replace("OWN", OWN), text):
        kept.update(part.split(" as ")[-1].strip() for part in found.group(2).split(","))
    return kept


def code_parts(line, comment):
    """A line in parts, each with whether it is code."""
    out, rest = [], line
    pattern = re.compile(r'"(?:[^"\\]|\\.)*"|' + comment + r".*$")
    at = 0
    for found in pattern.finditer(rest):
        out.append((rest[at : found.start()], True))
        out.append((found.group(0), False))
        at = found.end()
    out.append((rest[at:], True))
    return out


def respell(path, names):
    text = open(path, encoding="utf-8").read()
    kept = kept_from_std(text)
    comment = "--(?= |$)" if path.endswith(".antt") else "//"
    before = set()
    used = {}

    def turn(found):
        token = found.group(0)
        if token in names and token not in kept:
            used[token] = spelled(token)
            return used[token]
        before.add(token)
        return token

    lines = []
    for line in text.split("\n"):
        parts = code_parts(line, comment)
        lines.append("".join(TOKEN.sub(turn, part) if code else part for part, code in parts))
    for old, new in sorted(used.items()):
        if new in before:
            print(f"{path}: {old} falls together with {new}")
    new_text = "\n".join(lines)
    if new_text != text:
        open(path, "w", encoding="utf-8").write(new_text)


def main():
    global OWN
    crates = [line.split(":")[0].split()[0] for line in open("crates.txt") if line.strip() and not line.startswith("#")]
    OWN = "|".join(crates)
    specs = sorted(glob.glob("crates/*/specs/**/*.antt", recursive=True))
    proofs = sorted(glob.glob("crates/*/proofs/**/*.antt", recursive=True))
    lemmas = [path for path in proofs if not path.endswith(("/Answers.antt", "/Invariants.antt"))]
    names = own_names(specs + lemmas) | BOUND
    by_new = {}
    for name in sorted(names):
        other = by_new.setdefault(spelled(name), name)
        if other != name:
            print(f"{name} and {other} fall together")
    for path in specs + proofs + sorted(glob.glob("crates/*/src/**/*.rt", recursive=True)):
        respell(path, names)
    print(f"spell: {len(names)} names", file=sys.stderr)


OWN = ""
if __name__ == "__main__":
    main()

#!/usr/bin/env python3
"""Brings the repository's own definitions and lemmas to the spelling of today's Rattle: functions, lemmas, fields and
constructors in snake case, with a dash only between the names of two definitions, as in `has-union`.

usage: python3 tools/respell.py      at the top of the repository, once, after the kit's port.py

It renames what specs/ and proofs/*.antt declare, wherever it stands in specs/, proofs/ and the clauses of src/.
Functions of src/, exported names and strings keep their names: they are in snake case as they are.
"""
import collections
import glob
import re
import sys

# Names that would fall together with another.
CHOSEN = {
    "written-bytes": "bytes_written",
    "firstByte": "first_byte",
    "first_byte": "first_byte_lem",
    "goesOn": "goes_on",
    "goes_on": "goes_on_lem",
}
# Words of the library that lemmas of ours are about.
LIBRARY = {"length", "map", "take", "drop", "replicate", "reverse", "flatten", "cond", "get_or", "set"}
NAME = r"[^\s(){}\[\];,.:\"\\]+"
TOKEN = re.compile(NAME)
HEAD = re.compile(r"^(\s*)((?:(?:abbrev|unfoldable|pub)\s+)*)(" + NAME + r"(?:\s+" + NAME + r")*)\s*:\s")
BLOCK = re.compile(r"^(\s*)(?:pub\s+)?(data|record|module)\b")


def sources(pattern):
    return sorted(glob.glob(pattern, recursive=True))


def declared():
    """name -> kind ('def' of specs/, 'lemma' of proofs/, 'member' of a record or data)"""
    found = {}
    files = sources("crates/*/specs/*.antt") + sources("crates/*/proofs/*.antt")
    for path in files:
        blocks = []
        for line in open(path, encoding="utf-8"):
            if not line.strip() or line.lstrip().startswith(("--", "use ")):
                continue
            indent = len(line) - len(line.lstrip())
            while blocks and indent <= blocks[-1][0]:
                blocks.pop()
            block = BLOCK.match(line)
            if block:
                blocks.append((indent, block.group(2)))
                continue
            head = HEAD.match(line)
            if not head:
                continue
            inner = blocks[-1][1] if blocks else None
            names = head.group(3).split()
            if inner in ("record", "data"):
                kind = "member"
            elif len(names) > 1 or (indent and inner is None):
                continue
            else:
                kind = "def" if "/specs/" in path else "lemma"
            for name in names:
                found.setdefault(name, kind)
    return found


def snake(name):
    """camel case to snake case"""
    if not re.search(r"[a-z0-9][A-Z]", name) or name[0].isupper():
        return name
    return re.sub(r"(?<=[a-z0-9])([A-Z])", lambda m: "_" + m.group(1).lower(), name)


def joined(name, definitions):
    """a lemma's name: a dash between two definitions, else an underscore"""
    parts = snake(name).split("-")
    segments = []
    i = 0
    while i < len(parts):
        for j in range(len(parts), i, -1):
            run = "_".join(parts[i:j])
            if run in definitions:
                segments.append((run, True))
                i = j
                break
        else:
            segments.append((parts[i], False))
            i += 1
    text = segments[0][0]
    for (_, before), (word, here) in zip(segments, segments[1:]):
        text += ("-" if before and here else "_") + word
    return text


def renamings():
    found = declared()
    definitions = {snake(n).replace("-", "_") for n, k in found.items() if k == "def"} | LIBRARY
    new = {}
    for name, kind in found.items():
        if name[0].isupper():
            continue
        to = joined(name, definitions) if kind == "lemma" else snake(name).replace("-", "_")
        if to != name:
            new[name] = to
    for name in CHOSEN.keys() & found.keys():
        new[name] = CHOSEN[name]
    taken = {n for n in found if n not in new}
    by_kind = sorted(new, key=lambda n: (["def", "member", "lemma"].index(found[n]), n))
    for name in by_kind:
        if new[name] in taken:
            new[name] += "_lem"
            if new[name] in taken:
                sys.exit(f"respell: {name} falls together with another name")
        taken.add(new[name])
    return found, new


def respelled(path, text, found, new):
    in_function = re.search(r"/proofs/.+/[^/]+\.antt$", path)
    local = set()
    if in_function:
        for line in text.splitlines():
            head = HEAD.match(line)
            if head:
                local.update(head.group(3).split())

    def one(match):
        name = match.group(0)
        if name not in new or name in local:
            return name
        if match.start() and text[match.start() - 1] == "." and found[name] != "member" and "-" in name:
            return name
        return new[name]

    if path.endswith(".rt"):
        return re.sub(r"\b[a-z]\w*[A-Z]\w*\b", lambda m: new.get(m.group(0), m.group(0)), text)
    return TOKEN.sub(one, text)


def main():
    found, new = renamings()
    files = sources("crates/*/specs/*.antt") + sources("crates/*/proofs/**/*.antt") + sources("crates/*/src/**/*.rt")
    for path in files:
        with open(path, encoding="utf-8") as f:
            text = f.read()
        after = respelled(path, text, found, new)
        if after != text:
            with open(path, "w", encoding="utf-8") as f:
                f.write(after)
    return 0


if __name__ == "__main__":
    sys.exit(main())

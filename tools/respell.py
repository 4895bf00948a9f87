#!/usr/bin/env python3
"""Brings the repository's own definitions and lemmas to the library's spelling: words in snake case, types in camel case.

usage: python3 tools/respell.py [--dry]     at the top of the repository, once, after port.py

A name is respelled if a file of specs/ or proofs/ declares it with a dash: a definition, a field of a record, a
constructor or a lemma. Names that Rattle makes (a goal and its answer) and names of the library keep their spelling,
as do functions of src/, strings, comments and must-fail edits. Where a new name is declared already, or a file that
says the old one says the new one too, a line 'look:' tells it: a definition may share its name with the function that
it describes, and with nothing else.
"""

import os
import re
import sys

STOPS = r"\s(){}\[\];,.«»\"|"
NAME = re.compile(rf"[^{STOPS}]+")
HEAD = re.compile(rf"^(\s*)((?:(?:abbrev|unfoldable|pub|data|record)\s+)*)([^{STOPS}]+)(?=[\s({{])")


def files(root, *endings):
    for folder, dirs, names in os.walk(os.path.join(root, "crates")):
        dirs[:] = sorted(d for d in dirs if d not in ("out", ".git"))
        for name in sorted(names):
            if name.endswith(endings):
                yield os.path.join(folder, name)


def read(path):
    with open(path, encoding="utf-8") as f:
        return f.read()


def declared(text):
    """The names that an antt file declares, but for answers, whose type is the goal that Rattle made."""
    inside = False
    for line in text.splitlines():
        if not line.strip() or line.lstrip().startswith("--") or line.startswith("use "):
            continue
        m = HEAD.match(line)
        if not m:
            continue
        indent, words, name = m.groups()
        if not indent:
            inside = bool(re.search(r"\b(record|data)\b.*\bwhere\s*$", line))
        rest = line[m.end():]
        signature = re.match(r"\s*:\s", rest) or ("record" in words or "data" in words)
        if re.match(r"\s*:\s*goal\.", rest):
            continue
        if signature and (not indent or inside or words):
            yield name


def respelled(name):
    parts = name.split("-")
    if name[0].isupper():
        return "".join(p[:1].upper() + p[1:] for p in parts)
    return "_".join(parts)


def spans(path, text):
    """The parts of a text that are neither comments nor strings."""
    quote = r'"(?:\\.|[^"\\])*"' if path.endswith(".rt") else r"(?!)"
    comment = r"//[^\n]*" if path.endswith(".rt") else r"--[^\n]*"
    at = 0
    for m in re.finditer(rf"{quote}|(?<![^\s(){{}}\[\];,]){comment}", text):
        yield text[at:m.start()], True
        yield m.group(), False
        at = m.end()
    yield text[at:], True


def turned(path, text, names, fields):
    def one(m):
        word = m.group()
        made = m.start() and m.string[m.start() - 1] == "." and word not in fields
        path_of = made and re.search(r"Rattle\.[\w.]*$", m.string[:m.start()])
        return word if made and not path_of else names.get(word, word)

    return "".join(NAME.sub(one, part) if code else part for part, code in spans(path, text))


def main():
    own, fields, old = {}, set(), set()
    for path in files(".", ".antt"):
        place = path.split(os.sep)
        if "specs" in place or "proofs" in place:
            for name in declared(read(path)):
                old.add(name)
                if "-" in name:
                    own[name] = respelled(name)
    for path in files(".", ".antt"):
        inside = False
        for line in read(path).splitlines():
            if re.match(r"^\S", line):
                inside = bool(re.search(r"\b(record|data)\b.*\bwhere\s*$", line))
            m = inside and HEAD.match(line)
            if m and m.group(1):
                fields.add(m.group(3))
    bad = []
    back = {}
    for name, new in own.items():
        back.setdefault(new, []).append(name)
        if new in old:
            bad.append(f"{name}: {new} is declared already")
    bad += [f"{' and '.join(v)} fall together in {k}" for k, v in back.items() if len(v) > 1]
    for path in files(".", ".antt", ".rt"):
        words = set(NAME.findall(read(path)))
        bad += [f"{path}: {n} becomes {own[n]}, which the file says already" for n in words if n in own and own[n] in words]
    for line in sorted(bad):
        print("look:", line)
    print(f"{len(own)} names, of them {sum(n in fields for n in own)} fields")
    if "--dry" in sys.argv:
        for name in sorted(own):
            print(f"  {name} -> {own[name]}")
        return
    for path in files(".", ".antt", ".rt"):
        text = read(path)
        new = turned(path, text, own, fields)
        if new != text:
            with open(path, "w", encoding="utf-8") as f:
                f.write(new)


main()

#!/usr/bin/env python3
"""Spells the repository's own definitions and lemmas as the library spells its own: words in snake case, types in camel case.

usage: tools/respell.py [--check]     at the top of the repository, once, after the kit's own script

A name is one that a file of specs/ or proofs/ declares (a function's Proof.antt aside, whose names the prover offers). It turns as a whole word,
in specs/, in proofs/, in the clauses and `ghost use` items of src/, in must-fail edits, and in the code spans of comments and pages.
Names of functions, strings and values stay as they are. --check writes nothing. Each name that turned is printed beside its new spelling; the script stops
where two names would fall together.
"""

import os
import re
import sys

WORD = re.compile(r"[^\s(){}\[\].;,@\"«»`]+")
DECLARED = re.compile(r"^\s*(?:(?:abbrev|unfoldable|pub|record|data|ruleset)\s+)*([^\s:(){}.;,]+)(?:\s+\{[^{}]*\})*\s*:(?=\s|$)")
OPENED = re.compile(r"^\s*(?:pub\s+)?(?:record|data|ruleset)\s+(?:pub\s+)?([^\s:(){}.;,]+)")
ALONE = re.compile(r"^\s*(?:pub\s+)?([a-z][^\s:(){}.;,=]*)$")
RULES = re.compile(r"^\s*ruleset\s+(?:pub\s+)?([^\s:(){}.;,]+)")
SPAN = re.compile(r"`[^`\n]+`")
USE = re.compile(r"^\s*(?:pub )?(?:ghost )?use ([\w.]+)\.\{([^}]*)\}", re.M)
CRATES = set(os.listdir("crates"))
# Names that would fall together with one of the library's.
OTHERWISE = {"nat-abs": "abs-nat"}
NUMERAL = re.compile(r"(\de)-(\d)")


def files(*endings):
    for folder, dirs, names in os.walk("."):
        dirs[:] = sorted(d for d in dirs if d not in ("out", "target", ".git", "tools"))
        for name in sorted(names):
            if name.endswith(endings):
                yield os.path.join(folder, name)


def read(path):
    with open(path, encoding="utf-8") as file:
        return file.read()


def spelled(name):
    """The new spelling of a name: a sign at its head and the exponent of a numeral stay."""
    head = name[0] if name[0] in "-+" else ""
    rest = NUMERAL.sub("\\1\0\\2", OTHERWISE.get(name, name)[len(head):])
    if rest[:1].isupper() and "-" in rest:
        rest = "".join(part[:1].upper() + part[1:] for part in rest.split("-"))
    elif re.fullmatch(r"[a-z][A-Za-z0-9-]*", rest):
        rest = re.sub(r"(?<=[a-z0-9])[A-Z](?=[a-z-]|$)", lambda capital: "_" + capital[0].lower(), rest)
    return head + rest.replace("-", "_").replace("\0", "-").replace("′", "'")


def declared():
    names = set()
    for path in files(".antt"):
        if os.path.basename(path) == "Proof.antt":
            continue
        lines = read(path).splitlines()
        for line, after in zip(lines, lines[1:] + [""]):
            alone = ALONE.match(line)
            if alone and after.lstrip().startswith(": ") and spelled(alone[1]) != alone[1]:
                names.add(alone[1])
            for form in (DECLARED, OPENED, RULES):
                found = form.match(line)
                if found and not found[1].startswith("--") and spelled(found[1]) != found[1]:
                    names.add(found[1])
    return names


def own(path):
    steps = path.split(".")
    return steps[0] == "Rattle" and steps[1] in CRATES


def lent(text):
    """The names that a file imports from a library, which keep their spelling in it."""
    return {item.split(" as ")[0].strip() for use in USE.finditer(text) if not own(use[1]) for item in use[2].split(",")}


def turned(text, table):
    return WORD.sub(lambda word: table.get(word[0], word[0]), text)


def spans(text, table):
    return SPAN.sub(lambda span: turned(span[0], table), text)


def turned_antt(text, table):
    lines = []
    for line in text.split("\n"):
        code, dash, comment = line, "", ""
        found = re.search(r"(?:^|(?<=\s))--(?=\s|$)", line)
        if found:
            code, comment = line[:found.start()], line[found.start():]
        lines.append(turned(code, table) + spans(comment, table))
    return "\n".join(lines)


def turned_rt(text, table):
    lines = []
    for line in text.split("\n"):
        found = re.search(r"//", line)
        code, comment = (line[:found.start()], line[found.start():]) if found else (line, "")
        lines.append(turned(code, table) + spans(comment, table))
    return "\n".join(lines)


def main(check):
    table = {name: spelled(name) for name in declared()}
    new = {}
    for name, to in sorted(table.items()):
        new.setdefault(to, []).append(name)
    words = set()
    for path in files(".antt", ".rt"):
        if os.path.basename(path) != "Proof.antt":
            words.update(WORD.findall(read(path)))
    together = [(to, names) for to, names in new.items() if len(names) > 1 or to in words]
    for to, names in together:
        print("together:", to, "from", ", ".join(names), "(a word of the tree)" if to in words else "")
    if check:
        print(len(table), "names")
        return
    for path in files(".antt", ".rt", ".edit", ".md"):
        text = read(path)
        names = {name: to for name, to in table.items() if name not in lent(text)}
        by = turned_antt if path.endswith(".antt") else turned_rt if path.endswith(".rt") else turned if path.endswith(".edit") else spans
        to = by(text, names)
        if to != text:
            with open(path, "w", encoding="utf-8") as file:
                file.write(to)
    for name, to in sorted(table.items()):
        print(name, to)


main(sys.argv[1:] == ["--check"])

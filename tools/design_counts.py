#!/usr/bin/env python3
"""Counts, in crates/*/src, the places that docs/DESIGN-PASS.md speaks of: design_counts.py [--list] [POINT..]

Each point is counted by a rule that a reader can follow; --list prints the places too.
"""
import collections
import glob
import os
import re
import sys

ROOT = os.path.dirname(os.path.dirname(os.path.abspath(__file__)))


def sources():
    for path in sorted(glob.glob(ROOT + "/crates/*/src/**/*.rt", recursive=True)):
        yield path.split("/crates/")[1], open(path).read()


def code(text):
    """The text without comments and contracts' lines."""
    return "\n".join(re.sub(r"//.*", "", line) for line in text.split("\n"))


def signatures():
    """(file, function, parameter names, parameter types)"""
    for name, text in sources():
        for found in re.finditer(r"fn (\w+)(?:<[^>]*>)?\(([^)]*)\)", text):
            parts = [p.strip() for p in found.group(2).replace("\n", " ").split(",") if p.strip()]
            names = [p.split(":")[0].replace("mut ", "").strip() for p in parts]
            types = [p.split(":", 1)[1].strip() if ":" in p else "" for p in parts]
            yield name, found.group(1), names, types


def functions():
    """(file, function, header, body)"""
    for name, text in sources():
        for found in re.finditer(r'(?m)^( *)(?:pub )?(?:unsafe )?(?:extern "C" )?fn (\w+)', text):
            rest = text[found.start():]
            body = re.search(r"(?ms)^%s\{\n(.*?)^%s\}" % (found.group(1), found.group(1)), rest)
            short = re.search(r"(?m)\{\n", rest)
            if body and body.start() <= short.start():
                yield name, found.group(2), rest[:body.start()], body.group(1)
            elif short:
                end = re.search(r"(?m)^%s\}" % found.group(1), rest)
                yield name, found.group(2), rest[:short.start()], rest[short.end():end.start()]


def point_1():
    """own enums of two variants of which one or both hold a value; functions that answer a number of a refusal; sentinels"""
    for name, text in sources():
        for found in re.finditer(r"(?ms)^(?:pub )?enum (\w+) \{\n(.*?)^\}", text):
            variants = [v.strip() for v in re.sub(r"//.*", "", found.group(2)).split("\n") if v.strip()]
            if 2 <= len(variants) <= 3 and any("(" in v for v in variants):
                yield "%s: enum %s" % (name, found.group(1))
        for found in re.finditer(r"\bFAULT\b", code(text)):
            yield "%s: a position that is none (FAULT)" % name
    for name, function, header, body in functions():
        if re.search(r"\) -> u8\b", header) and not re.search("_cell|ending", function):
            yield "%s: %s answers a refusal's number" % (name, function)
        if re.search(r"\bkind: (u64|usize)", header):
            yield "%s: %s takes a kind as a number" % (name, function)


def shape(body):
    """A body with names by the order they come in, numbers and texts left out."""
    body = re.sub(r"//[^\n]*", "", body)
    body = re.sub(r"\b\d[\d_]*(\.\d+)?\b", "N", body)
    body = re.sub(r'b"[^"]*"', "S", body)
    body = re.sub(r"\s+", " ", body)
    words = {}
    own = set("let mut if else return match while loop for in as true false N S fn pub self continue break".split())
    return re.sub(r"[A-Za-z_]\w*", lambda m: m.group(0) if m.group(0) in own else words.setdefault(m.group(0), "v%d" % len(words)), body)


def point_2():
    """functions whose bodies are the same but for names, types, numbers and texts, three lines or more"""
    groups = collections.defaultdict(list)
    for name, function, header, body in functions():
        if len(body.strip().split("\n")) >= 3:
            groups[shape(body)].append("%s: %s" % (name, function))
    for group in groups.values():
        if len(group) > 1:
            for place in group:
                yield "%s (one of %d)" % (place, len(group))


def point_3():
    """loops that count by hand: each `while` whose body adds to or takes from a number that its test names"""
    for name, function, header, body in functions():
        for found in re.finditer(r"(?m)^( *)while (.*) \{\n((?:.*\n)*?)\1\}", body):
            for word in re.findall(r"[a-z_]\w*", found.group(2)):
                if re.search(r"\b%s (\+|-)= \w+;|\b%s = %s (\+|-) " % (word, word, word), found.group(3)):
                    yield "%s: %s, while %s" % (name, function, found.group(2))
                    break


def point_4():
    """equality, copying, conversion and printing by hand, by the functions' names"""
    for name, function, header, body in functions():
        if re.match(r"same_|with_rest$|kept$|put_(bytes|digits|decimal|signed)$|print_|magnitude$|of_refusal$", function):
            yield "%s: %s" % (name, function)


TOGETHER = [
    "service ready due penalty flags", "n distances times", "n distances", "lengths stops", "s at", "text at",
    "needed vehicle demand", "soft needed vehicle", "tape d", "pool count", "limit clock", "asked agreed", "a i b j",
    "stops at end", "earliest latest duration",
]
FACTS = ["Fit", "Square", "Admitted", "Demands", "Lent", "Planned", "needed ≡", "soft ≡", "512 ≤ length", "(n ≤ 256)"]


def point_5():
    """parameters that stand together in three functions or more; facts in three functions' requires or more"""
    for group in TOGETHER:
        places = ["%s: %s" % (n, f) for n, f, names, types in signatures() if " %s " % group in " %s " % " ".join(names)]
        if len(places) >= 3:
            for place in places:
                yield "%s (%s)" % (place, group)
    for fact in FACTS:
        places = []
        for name, function, header, body in functions():
            if any(fact in clause for clause in re.findall(r"requires[^\n]*\{(.*?)\n    (?=requires|ensures|\{)", header + "\n    {", re.S)):
                places.append("%s: %s" % (name, function))
        if len(places) >= 3:
            for place in places:
                yield "%s (requires %s)" % (place, fact)


BUFFERS = ["pool count", "left m", "left count", "tape d", "out at", "lengths stops", "cells base", "text at", "s at"]


def point_6():
    """a buffer with a number beside it that says how much of it is meant or where; [u64; 11] for counts by kind"""
    for name, function, names, types in signatures():
        line = " %s " % " ".join(names)
        for pair in BUFFERS:
            if " %s " % pair in line:
                yield "%s: %s (%s)" % (name, function, pair)
        if any("[u64; 11]" in t for t in types):
            yield "%s: %s (counts by kind)" % (name, function)


def point_7():
    """switches on a number that says which step to run: two tests or arms of it or more in one function"""
    for name, function, header, body in functions():
        if len(re.findall(r"\bkind (==|!=|<) ", body)) + len(re.findall(r"match kind", body)) >= 1:
            yield "%s: %s" % (name, function)


def point_8():
    """answers in the proofs of functions"""
    for path in sorted(glob.glob(ROOT + "/crates/*/proofs/**/Answers.antt", recursive=True)):
        for found in re.finditer(r"(?m)^pub \S+ : goal\.", open(path).read()):
            yield path.split("/crates/")[1]


def main():
    chosen = [a for a in sys.argv[1:] if a != "--list"] or [str(k) for k in range(1, 9)]
    for k in chosen:
        places = list(globals()["point_" + k]())
        print("%s. %s: %d" % (k, globals()["point_" + k].__doc__, len(places)))
        if "--list" in sys.argv:
            for place in places:
                print("   " + place)


main()

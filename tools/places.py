#!/usr/bin/env python3
"""Lists the places of src/ (and of proofs/, for point 8) that docs/DESIGN-PASS.md counts.

    python3 tools/places.py [ROOT] [--list]

It reads the text alone, so a place that it prints is one to look at, not one that is wrong.
"""
import collections
import glob
import re
import sys

ROOT = next((a for a in sys.argv[1:] if not a.startswith("-")), ".")
LIST = "--list" in sys.argv
FILES = {p[len(ROOT) + 1:]: open(p).read() for p in sorted(glob.glob(f"{ROOT}/crates/*/src/*.rt"))}
CLAUSE = re.compile(r"^\s*(?:ensures|requires)\b.*$", re.M)


def code(text):
    return re.sub(r"//[^\n]*", "", text)


def functions():
    for path, text in FILES.items():
        for m in re.finditer(r"^( *)(?:pub )?(?:extern \"C\" )?fn (\w+)(.*?)\{\n(.*?)^\1\}", code(text), re.M | re.S):
            yield path, m.group(2), m.group(3), m.group(4)


def shapes():
    """1: enums of the shape of Option, Result or Result<Option>; structs of a flag and one more field."""
    for path, text in FILES.items():
        for m in re.finditer(r"enum (\w+) \{\n(.*?)^\}", code(text), re.M | re.S):
            variants = re.findall(r"^    (\w+)(\(.*?\)|\s*\{.*?\})?,", m.group(2), re.M | re.S)
            loaded = [v for v in variants if v[1]]
            refused = [v for v in variants if v[1].startswith("(Refusal")]
            if len(variants) == 2 and loaded or len(variants) == 3 and len(loaded) == 2 and refused:
                yield f"{path}: enum {m.group(1)}"
        for m in re.finditer(r"struct (\w+)[^;{]*\{\n(.*?)^\}", code(text), re.M | re.S):
            fields = re.findall(r"^    (?:pub )?\w+: ([^,]+),", m.group(2), re.M)
            if len(fields) == 2 and "bool" in fields:
                yield f"{path}: struct {m.group(1)}"


def numbers():
    """1: structs with a number for a refusal or a kind."""
    for path, text in FILES.items():
        for m in re.finditer(r"struct (\w+)[^;{]*\{\n(.*?)^\}", code(text), re.M | re.S):
            if re.search(r"(refusal|kind|status|tag): u8", m.group(2)):
                yield f"{path}: struct {m.group(1)}"


def twins():
    """2: functions of at least three lines that are the same but for names and numbers."""
    groups = collections.defaultdict(list)
    for path, name, head, body in functions():
        if "/test_" in path or "/capi/" in path:
            continue
        shape = re.sub(r"\b(?!if\b|else\b|match\b|return\b|let\b|mut\b|for\b|while\b|in\b|loop\b)\w+\b", "x", CLAUSE.sub("", head) + body)
        shape = " ".join(shape.split())
        if body.count("\n") >= 3:
            groups[shape].append(f"{path}: {name}")
    for group in groups.values():
        if len(group) > 1:
            yield "; ".join(group)


def loops():
    """3: loops that count an index by hand."""
    for path, name, head, body in functions():
        for m in re.finditer(r"while (?:0 < (\w+)|(\w+) < [^{]+?) \{", body):
            word = m.group(1) or m.group(2)
            if re.search(rf"\b{word} (?:\+=|-=|=)", body):
                yield f"{path}: {name}"


def compared():
    """4: kinds compared by their numbers."""
    for path, name, head, body in functions():
        if re.search(r"(?:\bnumber|place_of|_code)\([^()]*(?:\([^()]*\))?[^()]*\) == ", body) or re.search(r"\bcode == \d", body):
            yield f"{path}: {name}"


def converted():
    """4: a match that turns a kind into a number or a number into a kind, or a kind into a flag."""
    for path, name, head, body in functions():
        arms = re.findall(r"^\s+[\w:| ]+ => ([^,{]+),", body, re.M)
        if len(arms) >= 2 and (
            all(re.fullmatch(r"(0x)?[0-9A-Fa-f_]+|true|false", a) for a in arms)
            or re.search(r"^\s+\d+ => (?:Some\()?[A-Z]\w+::", body, re.M)
        ):
            yield f"{path}: {name}"


def least():
    """4: the lesser or the greater of two, or one more up to the largest, by hand."""
    for path, name, head, body in functions():
        if re.fullmatch(r"\s*if (\w+) <=? (\w+) \{\s*(?:return )?(\w+);?\s*\}(?: else \{)?\s*(\w+)\s*\}?\s*", body):
            yield f"{path}: {name}"


def clauses():
    """5: a requires that three or more functions have."""
    count = collections.Counter(m.group(0).strip() for t in FILES.values() for m in re.finditer(r"^\s*requires.*$", t, re.M))
    for clause, n in count.items():
        if n >= 3:
            yield f"{n} x {clause}"


def together():
    """5: two parameters that stand side by side in three or more functions."""
    pairs = collections.defaultdict(set)
    for path, name, head, body in functions():
        if "/test_" in path or "/capi/" in path:
            continue
        params = re.findall(r"(\w+: (?:&mut |&)?(?:\[\w+\]|[\w<>(), ]+?))(?=,|\))", head.split("->")[0].split("ensures")[0])
        for a, b in zip(params, params[1:]):
            pairs[(a, b)].add(f"{path}: {name}")
    for (a, b), where in sorted(pairs.items()):
        if len(where) >= 3:
            yield f"{a}, {b}: {len(where)} functions"


def lengths():
    """6: a buffer with its length beside it."""
    for path, text in FILES.items():
        for m in re.finditer(r"let (?:mut )?(\w+) = \[0u8; \d+\];", code(text)):
            yield f"{path}: {m.group(0)}"


def steps():
    """7: tables of functions, function pointers, dyn."""
    for path, text in FILES.items():
        for m in re.finditer(r"\bdyn \w+|: fn\(", code(text)):
            yield f"{path}: {m.group(0)}"


def answers():
    """8: answers written by hand, by crate."""
    count = collections.Counter()
    for p in glob.glob(f"{ROOT}/crates/*/proofs/**/*.antt", recursive=True):
        count[p[len(ROOT) + 8:].split("/")[0]] += len(re.findall(r"^pub [^\n]* : goal\.", open(p).read(), re.M))
    for crate, n in sorted(count.items()):
        if n:
            yield from [f"{crate}"] * n


for what in (shapes, numbers, twins, loops, compared, converted, least, clauses, together, lengths, steps, answers):
    found = list(what())
    print(f"{len(found):5}  {what.__doc__}")
    if LIST:
        for place in found if what is not answers else []:
            print(f"         {place}")

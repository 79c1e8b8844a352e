#!/usr/bin/env python3
"""Respells this repository's own definitions and lemmas after /opt/rattle/port/port.py has run.

usage: python3 tools/respell_names.py        at the top of the repository, once

A definition or lemma in camel case gets snake case (`parityBit` is `parity_bit`). A dash stays where it joins two names, each of them
a definition, a function, or a word of the library's lemmas (`complement-lt`); else it is an underscore (`below-zero` is `below_zero`).
A lemma that would have its function's name gets `_lem`. Functions of src/, exported names, strings, inputs and outputs stay.
It changes specs/ and proofs/, the clauses and `ghost use` items of src/, comments, and names between backticks in README.md and docs/,
and prints what falls together.
"""
import collections
import glob
import os
import re
import sys

WORDS = set("""lt le eq ne ltb leb eqb add sub mul div mod pow suc zero pos negsuc true false nil cons append length take drop map sum
min max get set head last reverse filter refl sym not and or any all none some ok err""".split())
SPECIAL = {"getD": "get_or"}
TOKEN = re.compile(r"[^\s(){}\[\].,;:?@\"`«»|λ]+")
DECLARED = re.compile(r"^\s*(?:(?:abbrev|unfoldable|pub|data|record)\s+)*([^\s(){}.:,\"`]+)(?:\s[^:=]*)?\s:\s(.*)$")
KEYWORDS = {"use", "let", "where", "open", "module", "mod", "unfolding", "elim", "in", "--"}


def snake(part):
    if part in SPECIAL:
        return SPECIAL[part]
    if re.match(r"^[A-Z]", part):
        return part
    out = re.sub(r"(?<=[a-z0-9])([A-Z])", lambda m: "_" + m.group(1).lower(), part)
    return re.sub(r"(?<=[a-z0-9])([ℤℕ])", r"_\1", out)


def files(root, *patterns):
    for pattern in patterns:
        for path in sorted(glob.glob(os.path.join(root, pattern), recursive=True)):
            if "/out/" not in path:
                yield path


def declared(path):
    """The names that a file declares, each with whether it is a definition, but for the goals of a proof."""
    held = None
    with open(path, encoding="utf-8") as lines:
        for line in lines:
            if line.lstrip().startswith(("--", "use ")):
                continue
            m = DECLARED.match(line)
            if not m or m.group(1) in KEYWORDS:
                continue
            name, kind = m.group(1), m.group(2)
            if re.match(r"(tie|lts|goal)\.", kind) or name.startswith(("(", "λ")):
                continue
            yield name, bool(re.match(r"\s*(pub\s+)?(abbrev|unfoldable|data|record)\b", line))


def main():
    root = sys.argv[1] if len(sys.argv) > 1 else "."
    antt = list(files(root, "crates/*/specs/**/*.antt", "crates/*/proofs/**/*.antt"))
    rt = list(files(root, "crates/*/src/**/*.rt"))
    names, definitions = collections.defaultdict(set), set()
    for path in antt:
        for name, is_definition in declared(path):
            names[name].add(path)
            if is_definition:
                definitions.add(name)
    functions = set()
    for path in rt:
        with open(path, encoding="utf-8") as f:
            functions |= set(re.findall(r"\bfn (\w+)", f.read()))
    joined = {snake(n) for n in definitions if "-" not in n} | functions | WORDS
    # Goals of proofs are named by the check: they are not respelled here.
    goals = set()
    for path in antt:
        with open(path, encoding="utf-8") as f:
            goals |= set(re.findall(r"^\s*(?:pub )?(\S+) : (?:tie|lts|goal)\.", f.read(), re.M))
    # Names of the library stay.
    own = {os.path.basename(d) for d in glob.glob(os.path.join(root, "crates/*"))}
    library = set()
    for path in antt + rt:
        with open(path, encoding="utf-8") as f:
            for m in re.finditer(r"^(?:ghost )?use ([\w.+-]+)\.\{([^}]*)\}", f.read(), re.M):
                parts = m.group(1).split(".")
                if not (parts[0] == "Rattle" and parts[1] in own):
                    library |= {n.strip().split(" as ")[0] for n in m.group(2).split(",")}
    table = {}
    for name in names:
        if name in library:
            continue
        if not re.search(r"[a-z0-9][A-Zℤℕ]|-", name) or re.match(r"^[^a-z◌]", name):
            continue
        if name.endswith("-spec") or name in ("invariant-loop", "decreases-loop"):
            continue
        if name.startswith("◌"):
            new = "◌" + snake(name.strip("◌")) + "◌"
            table[name] = new
            table[name.strip("◌")] = new.strip("◌")
            continue
        parts = [snake(p) for p in name.split("-")]
        new = parts[0]
        for left, right in zip(parts, parts[1:]):
            new += ("-" if left in joined and right in joined else "_") + right
        if new != name:
            table[name] = new
    # A lemma must not fall together with a definition, nor with another name of a file that uses both.
    taken = {table.get(d, d) for d in definitions}
    fields = set()
    for path in antt:
        with open(path, encoding="utf-8") as f:
            text = f.read()
        if not path.endswith("Proof.antt"):
            fields |= set(re.findall(r"[\w')]\.([\w-]+)", re.sub(r"\b(?:Rattle|mir|lib|std|borrow)\.\S+|--.*", "", text)))
    for old in names:
        new = table.get(old, old)
        if old not in definitions and old not in fields and (new in taken or new in library and new != old) and old not in library:
            table[old] = new + "_lem"
    for old in ("in-sheet",):
        table[old] = table[old].removesuffix("_lem") + "_lem"

    clashes = []
    uses = {}
    for path in antt + rt:
        with open(path, encoding="utf-8") as f:
            text = f.read()
        seen = collections.defaultdict(set)
        for token in set(TOKEN.findall(text if path.endswith(".antt") else "\n".join(clauses(text)))):
            seen[table.get(token, token)].add(token)
        for new, olds in seen.items():
            if len(olds) > 1:
                clashes.append((path, new, sorted(olds)))
    if "--look" in sys.argv:
        for old, new in sorted(table.items()):
            print(old, new)
        for c in clashes:
            print("falls together:", *c)
        return

    def respelled(text, also_dashes=True):
        return TOKEN.sub(lambda m: one(m, text), text)

    def one(m, text):
        word, at = m.group(0), m.start()
        if at and text[at - 1] == "." and word.replace("-", "_") in functions and word not in fields:
            # a call of a function, as a proof cites it, or a part of a path
            return word.replace("-", "_")
        return table.get(word, word)

    def antt_text(text):
        out = []
        for line in text.split("\n"):
            code, mark, comment = line, "", ""
            m = re.match(r'^((?:[^"]|"[^"]*")*?)(\s--\s|^--\s)(.*)$', line)
            if line.startswith("-- "):
                code, mark, comment = "", "-- ", line[3:]
            elif m:
                code, mark, comment = m.group(1), m.group(2), m.group(3)
            pieces = re.split(r'("(?:[^"\\]|\\.)*")', code)
            code = "".join(p if p.startswith('"') else respelled(p) for p in pieces)
            out.append(code + mark + prose(comment))
        return "\n".join(out)

    def prose(text):
        """In words: names between backticks, and names in camel case."""
        text = re.sub(r"`[^`\n]*`", lambda m: respelled(m.group(0)), text)
        return TOKEN.sub(lambda m: table[m.group(0)] if m.group(0) in table and "-" not in m.group(0) else m.group(0), text)

    changed = 0
    for path in antt:
        with open(path, encoding="utf-8") as f:
            text = f.read()
        new = antt_text(text)
        if new != text:
            changed += 1
            with open(path, "w", encoding="utf-8") as f:
                f.write(new)
    for path in rt:
        with open(path, encoding="utf-8") as f:
            text = f.read()
        new = source_text(text, respelled)
        if new != text:
            changed += 1
            with open(path, "w", encoding="utf-8") as f:
                f.write(new)
    for path in [os.path.join(root, "README.md")] + list(files(root, "docs/*.md")):
        if os.path.basename(path) in ("PORT.md", "CHANGES.md"):
            continue
        with open(path, encoding="utf-8") as f:
            text = f.read()
        new = re.sub(r"`[^`\n]*`", lambda m: respelled(m.group(0)), text)
        if new != text:
            changed += 1
            with open(path, "w", encoding="utf-8") as f:
                f.write(new)
    print(f"respell: {len(table)} names, {changed} files")
    for c in clashes:
        print("falls together:", *c)


def spans(text):
    """Where the clauses and the `ghost use` items of a source stand."""
    for m in re.finditer(r"^ghost use [^;]*;", text, re.M):
        yield m.start(), m.end()
    for m in re.finditer(r"\b(?:requires|ensures)\*?(?: \w+)? \{|\bghost \w+: \{|\binvariant(?: \w+)? \{", text):
        depth, i = 1, m.end()
        while depth and i < len(text):
            depth += {"{": 1, "}": -1}.get(text[i], 0)
            i += 1
        yield m.end(), i


def clauses(text):
    return [text[a:b] for a, b in spans(text)]


def source_text(text, respelled):
    out, last = [], 0
    for a, b in sorted(spans(text)):
        if a < last:
            continue
        out.append(text[last:a])
        out.append(respelled(text[a:b]))
        last = b
    out.append(text[last:])
    return "".join(out)


if __name__ == "__main__":
    main()

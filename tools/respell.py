#!/usr/bin/env python3
"""Brings the definitions and lemmas of this repository to today's spelling. Run once, after port.py, at the top of the repository.

Words are in snake case: siftUp is sift_up. A dash joins two names and stays there; a plain word is added with `_`:
pairs-length stays, pop-one-item is pop_one_item. A lemma that would have its function's name gets `_lem`. Types, modules and
whatever Rattle makes keep their names, and so does everything of src/ but the definitions that its clauses cite. Nothing is
written where two names would become one.
"""
import glob
import re
import sys

SPLIT = re.compile(r"([\s(){}\[\],;.`]+)")
# words of the library that a lemma's name joins to another
LIBRARY = {"length", "take", "drop", "set", "append", "get_or", "nan", "neg", "cond", "le_z", "lt_z", "to_bits", "replicate"}
DEFINED = re.compile(r"^\s*(?:(?:abbrev|unfoldable|pub|data|record)\s+)*([^\s:(){}\[\],;.]+)(?:\s*[({][^)}]*[)}])*\s*:(?=\s)")
BOUND = re.compile(r"[({]([^\s:(){}\[\],;.]+(?:\s+[^\s:(){}\[\],;.]+)*)\s+:(?=\s)")
LET = re.compile(r"\blet ([^\s:(){}\[\],;.]+)\s*(?::|=)")


def snake(name):
    """siftUp is sift_up; a type, which begins with a capital, stays."""
    if name[0].isupper():
        return name
    return re.sub(r"(?<=[a-z0-9])([A-Z])", lambda m: "_" + m.group(1).lower(), re.sub(r"([A-Z])(?=[A-Z][a-z])", r"\1_", name)).lower()


def parts(name):
    return [snake(p) if p.isascii() else p for p in name.replace("\u2032", "'").split("-")]


def respelled(name, known):
    if name.startswith("-") or name.endswith("-") or name[0].isupper():
        return name
    words = parts(name)
    out = words[0]
    for left, right in zip(words, words[1:]):
        out += ("-" if left in known and right in known else "_") + right
    return out


def code(text):
    """The lines that are no comment."""
    return [line for line in text.split("\n") if not line.lstrip().startswith("--")]


def crate(path):
    return path.split("/")[1]


def main():
    lemmas = sorted(glob.glob("crates/*/specs/*.antt") + glob.glob("crates/*/proofs/*.antt"))
    walks = sorted(glob.glob("crates/*/proofs/*/**/*.antt", recursive=True))
    sources = sorted(glob.glob("crates/*/src/**/*.rt", recursive=True))
    texts = {p: open(p, encoding="utf-8").read() for p in lemmas + walks + sources}
    specs, own, imported = {}, {}, set()
    for path in lemmas:
        for line in code(texts[path]):
            use = re.match(r"use (\S+?)\.\{(.*)\}", line)
            if use:
                if not use.group(1).startswith("Rattle.") or use.group(1).startswith("Rattle.std"):
                    imported |= {n.strip() for n in use.group(2).split(",")}
                continue
            found = DEFINED.match(line)
            names = [found.group(1)] if found else []
            names += [n for m in BOUND.finditer(line) for n in m.group(1).split()]
            names += LET.findall(line)
            own |= {n: crate(path) for n in names if n not in own}
            if found and "/specs/" in path:
                specs.setdefault(found.group(1), crate(path))
    names = {}
    for name in sorted(set(own) - imported):
        below = {"kinds", own[name]} | ({"params"} if own[name] == "table" else set())
        new = respelled(name, LIBRARY | {snake(n) for n in specs if specs[n] in below and not n[0].isupper()})
        if new != name:
            names[name] = new
    # a lemma that would have its function's name
    functions = set(specs) | {snake(n) for n in specs} | imported
    names = {o: n + "_lem" if n in functions and o not in specs else n for o, n in names.items()}
    tokens = {t for p in lemmas for line in code(texts[p]) for t in SPLIT.split(line)}
    clash = [(o, n) for o, n in names.items() if n in tokens or list(names.values()).count(n) > 1]
    if clash:
        print("\n".join(f"{o} and another name would both be {n}" for o, n in clash))
        return 1
    for path, text in texts.items():
        new = "".join(names.get(t, t) for t in SPLIT.split(text))
        if new != text:
            with open(path, "w", encoding="utf-8") as f:
                f.write(new)
    print("\n".join(f"{o} -> {n}" for o, n in names.items()))
    return 0


if __name__ == "__main__":
    sys.exit(main())

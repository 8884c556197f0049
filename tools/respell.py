#!/usr/bin/env python3
"""Brings this repository's own ghost names to one spelling: words in snake case, types and modules in camel case.

usage: python3 tools/respell.py [ROOT]

Definitions, lemmas, record fields and constructors of specs/ and proofs/ are turned where they are declared and where
they are cited, in .antt and .rt files. Names that the check makes (goals, labels, folders of functions), names of
libraries, functions of src/, strings and comments in .rt keep their spelling. Text alone is changed. Names that fall
together are printed. Run it once: a second run would turn a name of OWN again.
"""

import glob
import os
import re
import sys

ROOT = sys.argv[1] if len(sys.argv) > 1 else "."
WORD = re.compile(r"[^\s(){}\[\],;.:|&∷×→≡λ\"+*]+")
# names that the rule alone would make one with another name: `first_of` is a tactic, and the rest are lemmas
# beside a definition of the same words
OWN = {
    "first_of": "first_doc_of",
    "all-rising": "all_from_rising",
    "held-rising": "held_is_zip",
    "at_field": "at_field_kind",
    "full-with": "full_with_split",
    "⊎-first": "either_first",
}


def spelled(name):
    if name in OWN:
        return OWN[name]
    if name[0].isupper() and "-" in name:
        return "".join(part[0].upper() + part[1:] for part in name.split("-") if part)
    if name[0].isupper():
        return name
    name = name.replace("-", "_")
    name = re.sub(r"(?<=[a-z0-9])([A-Z])", r"_\1", name)
    return name.lower() if name.isascii() else name


def files(kind):
    return sorted(glob.glob(f"{ROOT}/crates/*/{kind}/**/*.antt", recursive=True))


def imports(text):
    """(module, [(name, alias)]) of each use line, its braces possibly empty."""
    for m in re.finditer(r"^(?:ghost |pub )*use ([^\s;{]+?)(?:\.\{([^}]*)\})?(?: as (\S+?))?;?$", text, re.M):
        names = []
        for part in (m[2] or "").split(","):
            words = part.split()
            if words:
                names.append((words[0], words[2] if len(words) == 3 else words[0]))
        yield m[1], names


def made(module):
    return module.rsplit(".", 1)[-1] in ("Goals", "Given", "TheVariants", "TheConstants") or ".declared." in module


def own(module, crates):
    m = re.match(r"Rattle\.(\w+)\.(specs|proofs)\b", module)
    return bool(m) and m[1] in crates and not made(module)


def declared():
    """Names that specs/ and proofs/ declare, and the fields and constructors among them."""
    names, fields = set(), set()
    for path in files("specs") + files("proofs"):
        inside = False
        for line in open(path, encoding="utf-8"):
            if line.startswith(("use ", "pub use ", "--")) or not line.strip():
                continue
            m = re.match(r"((?:(?:abbrev|unfoldable|pub|record|data|mutual)\s+)*)([^\s(){}:]+)", line)
            if not line.startswith(" "):
                words = m[1].split() if m else []
                inside = "record" in words or "data" in words
                if m and (inside or re.search(r"\s:\s", line)) and "goal." not in line:
                    names.add(m[2])
                continue
            m = re.match(r"\s+(?:pub\s+)?(?:\|\s*)?([^\s(){}:=]+)\s+:\s", line)
            if m:
                names.add(m[1])
                if inside:
                    fields.add(m[1])
            for m in re.finditer(r"\blet ([^\s(){}:=]+) (?::[^=]*)?=", line):
                names.add(m[1])
    return names, fields


def locals_of(text):
    return {m[1] for m in re.finditer(r"\blet ([^\s(){}:=,]+)(?= [:=])", text)}


def turn(text, table, fields, skip, aliases, ghost_only):
    def word(m):
        w = m[0]
        if w not in table or w in skip:
            return w
        before = text[: m.start()]
        if before.endswith("."):
            owner = re.search(r"([^\s(){}\[\],;.:]+)\.$", before)
            if w in fields or (owner and owner[1] in aliases):
                return table[w]
            return w
        return table[w]

    out, at = [], 0
    for line in text.splitlines(keepends=True):
        start = at
        at += len(line)
        if ghost_only and line.lstrip().startswith("//"):
            out.append(line)
            continue
        pieces = re.split(r'("(?:[^"\\]|\\.)*")', line) if ghost_only else [line]
        pos = start
        for i, piece in enumerate(pieces):
            if i % 2:
                out.append(piece)
            else:
                out.append("".join(_turn_piece(text, pos, piece, word)))
            pos += len(piece)
    return "".join(out)


def _turn_piece(text, pos, piece, word):
    at = 0
    for m in WORD.finditer(text, pos, pos + len(piece)):
        yield text[pos + at : m.start()]
        yield word(m)
        at = m.end() - pos
    yield piece[at:]


def main():
    crates = {os.path.basename(p) for p in glob.glob(f"{ROOT}/crates/*")}
    names, fields = declared()
    table = {n: spelled(n) for n in names if spelled(n) != n}
    by = {}
    for old, new in table.items():
        by.setdefault(new, []).append(old)
    for new, olds in sorted(by.items()):
        if len(olds) > 1 or new in names:
            print("falls together:", new, "from", ", ".join(sorted(olds)), "and itself" if new in names else "")
    for path in files("specs") + files("proofs") + sorted(glob.glob(f"{ROOT}/crates/*/src/**/*.rt", recursive=True)):
        text = open(path, encoding="utf-8").read()
        skip, aliases = set(), set()
        for module, listed in imports(text):
            if not own(module, crates):
                skip |= {pair[0] for pair in listed if pair[0] == pair[1]}
                # an alias of a library's word is ours
                table.update({pair[1]: spelled(pair[1]) for pair in listed if pair[0] != pair[1] and spelled(pair[1]) != pair[1]})
        for m in re.finditer(r"^(?:ghost |pub )*use ([^\s;{]+) as (\w+)", text, re.M):
            if own(m[1], crates):
                aliases.add(m[2])
        for m in re.finditer(r" as ([A-Za-z][\w'-]*)[,}]", text):
            if spelled(m[1]) != m[1]:
                table.setdefault(m[1], spelled(m[1]))
        for m in re.finditer(r"^pub ([^\s:]+) : goal\.", text, re.M):
            skip.add(m[1])
        for m in re.finditer(r"^abbrev pub ([^\s:]+) : goal\.", text, re.M):
            skip.add(m[1])
        new = turn(text, table, fields, skip, aliases, path.endswith(".rt"))
        if new != text:
            open(path, "w", encoding="utf-8").write(new)


if __name__ == "__main__":
    main()

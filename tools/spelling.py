#!/usr/bin/env python3
"""Writes this repository's definitions and lemmas in snake case, as `next_piece` for `nextPiece` and `step_less` for `step-less`.

usage: tools/spelling.py [TOP]

It was run once, over the repository with the names of the older Rattle (docs/PORT.md); a second run finds nothing to do. What turns is
each name that specs/ and the law files of proofs/ declare or bind, and each camel-case word there: in specs/, proofs/ and src/ with
their comments, in must-fail edits, in the tools that print proofs, in docs/ and README.md. A file that takes the same spelling from
the kit keeps it. Where a lemma would get the name of a definition it gets `_lem` behind it.
"""

import collections
import os
import re
import sys

WORD = r"[^\s(){}.;,@\"«»\[\]\\`]+"
ANTT = re.compile(r'"(?:[^"\\\n]|\\.)*"|--[^\n]*|' + WORD)
SOURCE = re.compile(r'b?"(?:[^"\\]|\\.)*"|//[^\n]*|[A-Za-z_][\w\'-]*')
PROSE = re.compile(r"[A-Za-z][\w'-]*[\w']")
DECLARED = re.compile(
    r"^ *(?:(?:pub|unfoldable|abbrev|opaque|data|record|ruleset) )*(?P<name>[^\s(){}.;,@\"«»\[\]\\:=|]+)(?: [^:=\n]*)? :(?= |$)(?! goal\.)",
    re.M,
)
CAMEL = re.compile(r"[a-z][a-z0-9_]*[A-Z]\w*'*")
RULES = re.compile(r"^ *(?:pub )?ruleset (?P<name>\S+)", re.M)
BOUND = re.compile(r"\(([^()λ:]*) : |λ ([^.]*)\.|\blet (\S+) ")
IMPORT = re.compile(r"\buse ([\w.◌]+)\.\{([^}]*)\}")
# words of English that some lemma has for its name
ENGLISH = {"ill-formed", "well-formed", "one-indexed", "zero-indexed", "top-level"}
PRINTERS = ("tools/phrases.py", "tools/phrase_proofs.py", "tools/tables.rs")


def files(top, *endings):
    for folder, dirs, names in os.walk(top):
        dirs[:] = sorted(d for d in dirs if d not in ("out", "target", ".git"))
        yield from (os.path.join(folder, n) for n in sorted(names) if n.endswith(endings))


def read(path):
    with open(path, encoding="utf-8") as f:
        return f.read()


def is_of_a_function(path):
    """A file of proofs/F, whose names are mostly those of F's goals."""
    return os.path.basename(path) in ("Answers.antt", "Invariants.antt", "Proof.antt") and "/proofs/" in path


def snake(name):
    name = re.sub(r"([A-Z]+)([A-Z][a-z])", r"\1_\2", name)
    return re.sub(r"([a-z0-9])([A-Z])", r"\1_\2", name).lower().replace("-", "_")


def is_odd(name):
    return name[:1].islower() and ("-" in name or re.search("[A-Z]", name) is not None)


def table(top):
    """The new spelling of each name that the repository declares."""
    where = collections.defaultdict(set)
    for path in files(os.path.join(top, "crates"), ".antt"):
        if is_of_a_function(path):
            continue
        text = re.sub(r"--[^\n]*", "", read(path))
        names = [m["name"] for m in [*DECLARED.finditer(text), *RULES.finditer(text)]]
        names += [w for m in BOUND.finditer(text) for w in (m[1] or m[2] or m[3]).split() if is_odd(w)]
        names += [m[0] for m in ANTT.finditer(text) if CAMEL.fullmatch(m[0])]
        for name in names:
            where[name].add("/specs/" in path)
    alike = collections.defaultdict(list)
    for name in where:
        if name[:1].islower():
            alike[snake(name)].append(name)
    new = {}
    for spelling, names in alike.items():
        # a definition before a lemma
        names.sort(key=lambda n: (True not in where[n], "-" in n, n))
        for place, name in enumerate(names):
            new[name] = spelling if place == 0 else spelling + "_lem"
    return {old: it for old, it in new.items() if old != it}


def of_the_kit(text, own):
    """What the file takes from the kit under one of these spellings."""
    from_kit = [m[2] for m in IMPORT.finditer(text) if m[1].split(".")[0] != "Rattle" or m[1].startswith("Rattle.std")]
    return {w for items in from_kit for item in items.split(",") for w in item.split(" as ")[-1:] for w in [w.strip()] if w in own}


def in_prose(text, new):
    def one(m):
        ticked = text[max(0, m.start() - 1) : m.start()] == "`"
        return new.get(m[0], m[0]) if ticked or m[0] not in ENGLISH else m[0]

    return PROSE.sub(one, text)


def in_code(text, new, token, comment):
    def one(m):
        if m[0].startswith(comment):
            return in_prose(m[0], new)
        return m[0] if m[0][0] in '"b' and m[0].endswith('"') else new.get(m[0], m[0])

    return token.sub(one, text)


def main(top):
    new = table(top)
    odd = {old: it for old, it in new.items() if is_odd(old)}
    todo = [(p, lambda t, n: in_code(t, n, ANTT, "--")) for p in files(os.path.join(top, "crates"), ".antt")]
    todo += [(p, lambda t, n: in_code(t, n, SOURCE, "//")) for p in files(os.path.join(top, "crates"), ".rt")]
    todo += [(p, in_prose) for p in files(os.path.join(top, "crates"), ".edit")]
    todo += [(p, in_prose) for p in files(os.path.join(top, "docs"), ".md")]
    todo += [(os.path.join(top, p), in_prose) for p in (*PRINTERS, "README.md")]
    for path, turned in todo:
        text = read(path)
        kept = of_the_kit(text, new) if path.endswith(".antt") else set()
        rows = new if path.endswith(".antt") else odd
        after = turned(text, {old: it for old, it in rows.items() if old not in kept})
        if after != text:
            with open(path, "w", encoding="utf-8") as f:
                f.write(after)
            print(path)


if __name__ == "__main__":
    main(sys.argv[1] if len(sys.argv) > 1 else os.path.join(os.path.dirname(os.path.abspath(__file__)), ".."))

#!/usr/bin/env python3
"""Prints crates/reserved/src/phrases.rt, the table of reserved phrases, from the lists
in crates/reserved/specs.

    python3 tools/phrases.py phrases > crates/reserved/src/phrases.rt
    python3 tools/phrases.py compare

The second form lays the lists of specs/ beside those of the second reading
(tools/reading.py), which were typed from the Rust by themselves, and says which
phrases only one of them has.

`entries` in Inner/Entries.antt names the lists in the order of trying, each with its
group. A list is made of the items below, with `∷` or `++` between them; at any other
item this program stops. That the table holds the lists is proved (proofs/Lengths.antt):
nothing rests on this program.
"""

import re
import sys
from pathlib import Path

sys.dont_write_bytecode = True
import reading  # noqa: E402

SPECS = Path(__file__).resolve().parent.parent / "crates" / "reserved" / "specs"

WIDTH = 60

HEAD = """\
// The reserved phrases by their first letter and the length of their first word, in the order in which they are tried. Made by
// tools/phrases.py from the lists in specs/.
ghost use Rattle.std.specs.Prelude.{◌≡◌, ℕ};
ghost use Rattle.reserved.specs.Inner.Entries.{entries, entries_of, entries_long, listed_at};

use crate::entries::{Entry, Group};
"""

FOOT = """
// The phrases that begin with a letter, by the length of their first word.
pub fn lengths_of(letter: u8) -> &'static [&'static [Entry]]
    ensures { (n : ℕ) → listed_at n result.now ≡ entries_long n (entries_of letter entries) }
{
    match letter {
ARMS        _ => &[],
    }
}
"""


class Lists:
    """The lists of specs/, as (has IF EXISTS behind it or not, words) each"""

    def __init__(self):
        self.text = "\n".join(path.read_text(encoding="utf-8") for path in sorted(SPECS.rglob("*.antt")))
        defined = r"^unfoldable pub (\w+) : List (?:Phrase|\(List ℕ\))\n\1 =(.*(?:\n .*)*)"
        self.bodies = dict(re.findall(defined, self.text, re.MULTILINE))
        self.dropped = self.one(r'^each_dropped \(last ∷ lasts\) = phrase_if_exists \(bytes "([^"]*)" \+\+ last\)')
        self.if_exists = self.one(r"^grouped group \(phrase_if_exists words ∷ phrases\) = \((\w+), words\)")
        # an item's form, and what it stands for
        self.items = (
            (r"\[\]", lambda: []),
            (r'bytes "([^"]*)"', lambda words: [(False, words)]),
            (r'phrase \(bytes "([^"]*)"\)', lambda words: [(False, words)]),
            (r'each \(bytes "([^"]*)"\) (\w+)', lambda words, name: self.behind(words, name, False)),
            (r"each_dropped (\w+)", lambda name: self.behind(self.dropped, name, True)),
            (r"(\w+)", self.list),
        )

    def one(self, pattern):
        (found,) = re.findall(pattern, self.text, re.MULTILINE)
        return found

    def behind(self, words, name, optional):
        return [(optional, words + last) for _, last in self.list(name)]

    def item(self, text):
        for form, meaning in self.items:
            matched = re.fullmatch(form, text)
            if matched:
                return meaning(*matched.groups())
        sys.exit(f"no item of a list of phrases: {text}")

    def list(self, name):
        items = re.split(r"∷|\+\+", self.bodies[name])
        return [entry for item in items for entry in self.item(item.strip())]

    def joined(self, name):
        """The names of the lists that a list joins"""
        return [item.strip() for item in self.bodies[name].split("++")]

    def entries(self):
        """All phrases in the order of trying, each with its group"""
        body = self.one(r"^entries =((?:\n .*)+)")
        groups = re.findall(r"grouped (\w+) (\w+)", body)
        return [
            (self.if_exists if optional else group, words)
            for group, name in groups
            for optional, words in self.list(name)
        ]


def first_word(words):
    return len(re.match(r"[A-Z0-9_]*", words).group())


def by_letter_and_length(entries):
    """The phrases by their first letter and the length of their first word"""
    tables = {}
    for entry in entries:
        lengths = tables.setdefault(entry[1][0], {})
        lengths.setdefault(first_word(entry[1]), []).append(entry)
    return {letter: dict(sorted(tables[letter].items())) for letter in sorted(tables)}


def name_of(letter):
    return "DOLLAR" if letter == "$" else letter


def constant(name, kind, items):
    """A constant's list, laid out as `rt fmt` does"""
    line = ", ".join(items)
    if len(line) > WIDTH:
        line = "\n" + "".join(f"    {item},\n" for item in items)
    return f"\nconst {name}: {kind} = &[{line}];\n"


def of_a_length(name, entries):
    for _, words in entries:
        if not re.fullmatch(r"[A-Z0-9_$() ]+", words):
            sys.exit(f"no words of a phrase: {words!r}")
    items = [f'Entry(Group::{group}, "{words}")' for group, words in entries]
    return constant(name, "&[Entry]", items)


def of_a_letter(letter, lengths):
    name = name_of(letter)
    rows = [f"{name}_{n}" if n in lengths else "&[]" for n in range(max(lengths) + 1)]
    return constant(name, "&[&[Entry]]", rows)


def printed(entries):
    tables = by_letter_and_length(entries)
    text = HEAD
    for letter, lengths in tables.items():
        text += "".join(of_a_length(f"{name_of(letter)}_{n}", some) for n, some in lengths.items())
        text += of_a_letter(letter, lengths)
    arms = "".join(f"        b'{letter}' => {name_of(letter)},\n" for letter in tables)
    return text + FOOT.replace("ARMS", arms)


# The second reading's phrases, by their group
READ = {
    "TopLevel": reading.TOP_LEVEL,
    "NewlineAfter": reading.ON_CONFLICT,
    "Newline": reading.NEWLINE,
    "Join": reading.JOINS,
    "NoIndent": reading.NO_INDENT,
    "Plain": {2: reading.PLAIN_TWO, 1: reading.PLAIN_ONE},
}


def compare(entries):
    """Each phrase of a group stands in both readings, whatever the order"""
    ours = {(group, words) for group, words in entries if group != "Dropped"}
    for words in (words for group, words in entries if group == "Dropped"):
        ours |= {("TopLevel", words), ("TopLevel", words + " IF EXISTS")}
    theirs = {(group, words) for group, parser in READ.items() for words in reading.spelled(parser)}
    for group, words in sorted(ours ^ theirs):
        where = "specs/" if (group, words) in ours else "the second reading"
        print(f"only {where} has {group} {words}")
    print(f"{len(ours & theirs)} phrases stand in both, {len(ours ^ theirs)} in one alone")
    return ours == theirs


def main(arguments):
    entries = Lists().entries()
    if arguments == ["compare"]:
        sys.exit(not compare(entries))
    if arguments != ["phrases"]:
        sys.exit(__doc__)
    print(printed(entries), end="")


if __name__ == "__main__":
    main(sys.argv[1:])

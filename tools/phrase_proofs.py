#!/usr/bin/env python3
"""Prints the proof that goes through the table of reserved phrases letter by letter,
from the lists in crates/reserved/specs.

    python3 tools/phrase_proofs.py phrases/lengths_of/Answers > crates/reserved/proofs/phrases/lengths_of/Answers.antt
    python3 tools/phrase_proofs.py files

The second form names all that can stand there. Nothing rests on this program: what
it prints is checked as every proof is.
"""

import sys

sys.dont_write_bytecode = True
import phrases  # noqa: E402

PLAIN = phrases.Lists().joined("plain_one_phrases")
LISTS = (
    "entries grouped top_level_phrases creatable alterable_or_droppable each each_dropped newline_after_phrases newline_phrases"
    " join_phrases no_indent_phrases plain_two_phrases plain_one_phrases " + " ".join(PLAIN)
)
USED = f"""\
use Rattle.reserved.specs.Phrases.{{each}}
use Rattle.reserved.specs.TopLevel.{{creatable, alterable_or_droppable, each_dropped, top_level_phrases}}
use Rattle.reserved.specs.NewlineAfter.{{newline_after_phrases}}
use Rattle.reserved.specs.Newline.{{newline_phrases}}
use Rattle.reserved.specs.Join.{{join_phrases}}
use Rattle.reserved.specs.NoIndent.{{no_indent_phrases}}
use Rattle.reserved.specs.Plain.{{plain_two_phrases, plain_one_phrases, {", ".join(PLAIN)}}}
"""

HEAD = f"""\
-- Each arm is a test that the checker computes over all phrases. Made by tools/phrase_proofs.py.
use Rattle.std.proofs.Common.{{rules, ℕ, List, [], ◌∷◌, refl}}
use Rattle.characters.specs.Ranges.{{within}}
use Rattle.characters.specs.Ascii.{{is_letter, is_ascii_word}}
use Rattle.recognisers.specs.Taking.{{count, contains}}
{USED}use Rattle.reserved.specs.Inner.Entries.{{grouped, entries, entries_of, entries_long, listed, listed_at}}
use Rattle.reserved.proofs.Lengths.{{of_letter, of_no_letter}}
use Rattle.reserved.proofs.phrases.lengths_of.Goals as goal
"""

OF_A_LETTER = f"""
pub returns-in-LETTER : goal.returns-in-LETTER
unfolding count is_ascii_word is_letter within listed entries_of entries_long {LISTS}
returns-in-LETTER c = of_letter LETTER _ c.in-LETTER.is _ refl refl
"""

OF_NO_LETTER = f"""
letters : List ℕ
letters = LETTERS []

pub returns-in_default : goal.returns-in_default
unfolding letters contains listed_at {LISTS}
returns-in_default c = of_no_letter letters c.args.letter refl (search rules)
"""


def answers():
    letters = [str(ord(letter)) for letter in phrases.by_letter_and_length(phrases.Lists().entries())]
    text = HEAD + "".join(OF_A_LETTER.replace("LETTER", letter) for letter in letters)
    return text + OF_NO_LETTER.replace("LETTERS", "".join(f"{letter} ∷ " for letter in letters).rstrip())


FILES = {"phrases/lengths_of/Answers": answers}


def main(arguments):
    (name,) = arguments
    print("\n".join(FILES) + "\n" if name == "files" else FILES[name](), end="")


if __name__ == "__main__":
    main(sys.argv[1:])

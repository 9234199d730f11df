#!/usr/bin/env python3
"""Brings the names of this repository's own definitions, lemmas, fields and bound variables to snake case.

usage: tools/respell.py        at the top, once, right after the kit's port.py

A name is turned if a file of specs/ or proofs/ declares it and it has a dash between letters or a hump (dataPart, data-part). Types, facts and modules
keep their upper camel case. Where a definition and a lemma about it would fall together, the lemma ends in _lem.
It goes over specs/, proofs/, the clauses of src/, the must-fail edits, and the code spans of README.md and docs/.
"""

import collections
import re
import sys
from pathlib import Path

ROOT = Path(__file__).resolve().parents[1]
WORD = re.compile(r'[^\s(){}.;,@"«»`]+')
DASH = re.compile(r"(?<=[\w⊕₀₁₂₃'])-(?=[\w⊕])")
HUMP = re.compile(r"(?<=[a-z0-9])[A-Z]")
# Names that the kit's script had turned already, each a lemma about a definition that now gets this spelling.
LEMMAS = {name: name + "_lem" for name in ("first_below", "popped_back", "to_one")}
# The kit's script turns neither edits nor pages, so there the first spelling stands still.
FIRST = {"first-below": "first_below_lem", "popped-back": "popped_back_lem", "to-one": "to_one_lem"}
# Lemmas whose new name the library or another crate's definition has.
LEMMAS |= {"bit-or": "bit_or_lem", "symbol-at": "symbol_at_lem"}


def snake(word):
    return HUMP.sub(lambda m: "_" + m[0].lower(), DASH.sub("_", word))


def code_of(text):
    return re.sub(r"(?m)(?:^|(?<=\s))--.*$", "", text)


def declared(text):
    """Every name that the text of a file declares or binds."""
    code = re.sub(r"(?m)^(?:pub )?use .*$", "", code_of(text))
    # Names of goals and of a function's proof follow the code, not this table.
    code = re.sub(r"(?m)^\S+ : tie\..*$|^pub \S+ : \{M : Type 1\} → statement M$", "", code)
    name = r'([^\s(){}.;,@"«»]+)'
    found = set(re.findall(rf"(?m)^\s*(?:abbrev |unfoldable |pub )*{name}\s*:(?=\s)", code))
    found |= set(re.findall(rf"(?:let|;|in)\s+{name}\s*(?::|=)(?=\s)", code))
    for names in re.findall(r'[({]([^\s(){}.;,@"«»][^(){}:;,."]*?)\s+:\s', code) + re.findall(r"λ\s+([^.(){}]*)\.", code):
        found |= set(names.split())
    return found


def table():
    """The words to turn in .antt and .rt files, and those to turn in edits and pages, which have the first spelling of all names."""
    ours = collections.Counter()
    for path in sorted(ROOT.glob("crates/*/specs/*.antt")) + sorted(ROOT.glob("crates/*/proofs/**/*.antt")):
        ours.update(declared(path.read_text(encoding="utf-8")))
    turned = {word: snake(word) for word in ours if snake(word) != word and not word[0].isupper()}
    by_new = collections.defaultdict(set)
    for old, new in turned.items():
        by_new[new].add(old)
    for new, olds in by_new.items():
        for old in olds:
            if len(olds) > 1 and "-" in old:
                turned[old] = new + "_lem"
    turned |= {old: new for old, new in LEMMAS.items() if old in ours}
    return turned, Pages(turned, set(ours) | set(turned.values()))


class Pages(dict):
    def __init__(self, words, names):
        super().__init__(words | FIRST)
        self.names = names

    def get(self, word, default=None):
        new = snake(word)
        return super().get(word, new if new != word and new in self.names and not word[0].isupper() else default)


def turn(words, text):
    return WORD.sub(lambda m: m[0] if text[: m.start()].endswith("tie.") else words.get(m[0], m[0]), text)


def spans(words, text):
    """The code spans of prose, what stands behind a module's name, and words with a hump, which no prose has."""
    text = re.sub(r"`[^`\n]*`", lambda m: turn(words, m[0]), text)
    text = re.sub(r"(\b[A-Z]\w*\.)" + WORD.pattern, lambda m: m[1] + words.get(m[0][len(m[1]) :], m[0][len(m[1]) :]), text)
    return WORD.sub(lambda m: words.get(m[0], m[0]) if HUMP.search(m[0]) else m[0], text)


def by_line(words, text, comment):
    lines = []
    for line in text.split("\n"):
        at = re.search(rf"(?:^|(?<=\s)){comment}", line)
        code, prose = (line[: at.start()], line[at.start() :]) if at else (line, "")
        code = "".join(part if part.startswith('"') else turn(words, part) for part in re.split(r'("[^"]*")', code))
        lines.append(code + spans(words, prose))
    return "\n".join(lines)


def main():
    words, first = table()
    for path in sorted(ROOT.glob("crates/**/*")) + [ROOT / "README.md"] + sorted(ROOT.glob("docs/**/*.md")):
        if not path.is_file() or "out" in path.relative_to(ROOT).parts:
            continue
        kind = path.suffix
        if kind not in (".antt", ".rt", ".edit", ".md"):
            continue
        text = path.read_text(encoding="utf-8")
        new = {".antt": lambda: by_line(words, text, "--"), ".rt": lambda: by_line(words, text, "//"),
               ".edit": lambda: turn(first, text), ".md": lambda: spans(first, text)}[kind]()
        if new != text:
            path.write_text(new, encoding="utf-8")
    print(f"{len(words)} names turned")
    if "--table" in sys.argv:
        for old, new in sorted(words.items()):
            print(f"{old}\t{new}")


main()

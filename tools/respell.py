#!/usr/bin/env python3
"""Respells the repository's own definitions and lemmas as today's Rattle spells names: words in snake case.

usage: python3 tools/respell.py [ROOT]

spelling.txt beside this script has a line for each name: the old one and the new one. Each name is replaced wherever it stands
as a whole word in the .antt, .rt and .edit files below ROOT/crates and ROOT/refused, all at once, so that the order of the lines is of no
account. Where a lemma would have come to be called as a definition is, it is called NAME_lem. Run once, after
/opt/rattle/port/port.py; a second run changes nothing but the three lemmas whose old names are now those of definitions, and so
is refused.
"""
import os
import re
import sys

HERE = os.path.dirname(os.path.realpath(__file__))
# what a name consists of; the dot separates a module or a member from its name
WORD = re.compile(r"[^\s(){}\[\],;.`\"λ∷∙≡→×:|]+")
GHOST = re.compile(r"(?:new: |old: )?\s*(?:ghost|requires|ensures)\b")


def line_of(m):
    """The line in which a match begins."""
    text = m.string
    return text[text.rfind("\n", 0, m.start()) + 1 : m.end()]


def table():
    with open(os.path.join(HERE, "spelling.txt"), encoding="utf-8") as f:
        return dict(line.split() for line in f if line.strip())


def files(root):
    for top in ("crates", "refused"):
        for folder, dirs, names in os.walk(os.path.join(root, top)):
            dirs[:] = sorted(d for d in dirs if d != "out")
            for name in sorted(names):
                if name.endswith((".antt", ".rt", ".edit")):
                    yield os.path.join(folder, name)


def main(root):
    names = table()
    known = False
    texts = {}
    for path in files(root):
        with open(path, encoding="utf-8") as f:
            texts[path] = f.read()
        known = known or "costOf" in texts[path]
    if not known:
        print("respell: nothing to do: the old names are gone", file=sys.stderr)
        return 2
    changed = 0
    for path, old in texts.items():
        code = not path.endswith(".antt")

        def turn(m):
            word = m.group(0)
            # in source text a dash is no part of a name, but in its ghost lines and clauses
            if code and "-" in word and not GHOST.match(line_of(m)):
                return word
            return names.get(word, word)

        new = WORD.sub(turn, old)
        if new != old:
            changed += 1
            with open(path, "w", encoding="utf-8") as f:
                f.write(new)
    print(f"respell: {len(names)} names, {changed} files changed")
    return 0


if __name__ == "__main__":
    raise SystemExit(main(sys.argv[1] if len(sys.argv) > 1 else "."))

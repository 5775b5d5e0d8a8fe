#!/usr/bin/env python3
"""Brings this repository's own definitions and lemmas to the spelling of today's Rattle: words in snake case, no dots.

usage: tools/respell.py [FOLDER]

It was run once, right after the kit's port.py, which had respelled only some of them. A name that has a dash or a dot
(A·text) and is defined, bound or imported under another name in one of the .antt files gets underscores. In code and
clauses every such word is turned, in comments and pages only what stands in backticks. Words that a file imports from
the kit stay, and so do the names that Rattle makes for proofs.
"""

import collections
import os
import re
import sys

WORD = re.compile(r"[^\s(){}.;,@\"«»\[\]\\`]+")
# What a second spelling already stands for: the kit's `bit_or` is the number, this one the law of its bits.
APART = {"bit-or": "bit_of_or"}
DEFINED = [
    r"(?m)^\s*(?:(?:abbrev|unfoldable|pub|data|record|ruleset) )*((?:%s )+)[:{(]" % WORD.pattern,
    r"[({]((?:%s )+): " % WORD.pattern,
    r"λ ((?:%s ?)+)\." % WORD.pattern,
    r"\blet (%s)" % WORD.pattern,
    r"\bas (%s)" % WORD.pattern,
]
USE = re.compile(r"use ([\w.+'-]+?)\.?\{([^}]*)\}")
# What Rattle asks for under a name of its own, or makes in a module of its own.
RATTLES = re.compile(r"(invariant|decreases)-loop")
MADE = re.compile(r"(?:tie|Tie|[lL]ts(?:-\w+)?|[rR]eads|[kK]inds)\.\Z")


def respelled(name):
    if name in APART:
        return APART[name]
    if re.match(r"In-[a-z]", name):
        return "In" + "".join(word[:1].upper() + word[1:] for word in name[3:].split("-"))
    return re.sub("[-·]", "_", name)


def sources(root):
    for folder, inner, files in os.walk(os.path.join(root, "crates")):
        inner[:] = sorted(it for it in inner if it != "out")
        for name in sorted(files):
            if name.endswith((".antt", ".rt")):
                yield os.path.join(folder, name)


def pages(root):
    for place in ("README.md", "docs", "tests/README.md", "examples/README.md"):
        path = os.path.join(root, place)
        if os.path.isfile(path):
            yield path
        for folder, _, files in os.walk(path):
            yield from (os.path.join(folder, it) for it in sorted(files) if it.endswith(".md"))


def read(path):
    with open(path, encoding="utf-8", newline="") as it:
        return it.read()


def imported(text, own_crates):
    """The words with a dash that a file imports from the kit."""
    found = set()
    for module, names in USE.findall(text):
        path = module.split(".")
        if path[0] == "Rattle" and len(path) > 1 and path[1] in own_crates:
            continue
        found |= {it.split(" as ")[0].strip() for it in names.split(",")}
    return found


def names(texts):
    own = set()
    for path, text in texts.items():
        if path.endswith(".antt"):
            code = re.sub(r"--[^\n]*", "", text)
            for form in DEFINED:
                for found in re.findall(form, code):
                    own |= {it for it in found.split() if re.search(r"[^-·◌][-·]+[^-·◌]", it)}
    return {it for it in own if not RATTLES.match(it)}


def turned(text, own, comment):
    """Text with the names turned: in code everywhere but in strings, in comments in backticks."""
    def word(it):
        made = MADE.search(it.string, max(0, it.start() - 30), it.start())
        return respelled(it[0]) if it[0] in own and not made else it[0]

    quoted = lambda it: WORD.sub(word, it[0])
    if comment is None:
        return re.sub(r"`[^`\n]*`", quoted, text)
    parts = re.split(r"(%s[^\n]*|\"(?:[^\"\\\n]|\\.)*\")" % comment, text)
    for at, part in enumerate(parts):
        if at % 2 == 0:
            parts[at] = WORD.sub(word, part)
        elif part.startswith(comment):
            parts[at] = re.sub(r"`[^`\n]*`", quoted, part)
    return "".join(parts)


def main(root):
    own_crates = set(os.listdir(os.path.join(root, "crates")))
    texts = {path: read(path) for path in sources(root)}
    own = names(texts)
    kit = {path: imported(text, own_crates) for path, text in texts.items()}
    clash = collections.defaultdict(set)
    for path, text in texts.items():
        mine = own - kit[path]
        new = turned(text, mine, "--" if path.endswith(".antt") else "//")
        if new != text:
            with open(path, "w", encoding="utf-8", newline="") as it:
                it.write(new)
    everywhere = own - set().union(*kit.values())
    for path in pages(root):
        text = read(path)
        new = turned(text, everywhere, None)
        if new != text:
            with open(path, "w", encoding="utf-8", newline="") as it:
                it.write(new)
    for name in sorted(own):
        clash[respelled(name)].add(name)
    for name, several in sorted(clash.items()):
        if len(several) > 1:
            print("two names fall together:", name, sorted(several))


if __name__ == "__main__":
    main(sys.argv[1] if len(sys.argv) > 1 else ".")

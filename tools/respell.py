#!/usr/bin/env python3
"""Spells the repository's own definitions and lemmas as today's Rattle does: run once, at the top, right after port.py.

usage: tools/respell.py

A word `fooBar` or `foo-bar` that specs/ or proofs/ of a crate declares becomes `foo_bar`, in every crate, in the must-fail edits and in the pages.
A lemma that would so get the name of a definition ends in `_lem`. The proof of a function f is `f_spec`, and a step of a proof by hand has the
function's own spelling. Names that Rattle makes (`loop-i-preserved`), functions of src/, exported names and strings stay.
"""

import collections
import glob
import os
import re
import subprocess

WORD = r"[^\s(){}\[\];,.«»@λ⌜⌝`\"|]+"
DECLARED = re.compile(rf"^\s*(?:abbrev |unfoldable |pub |opaque |data |record )*({WORD}) :(?: |$)")
# A lemma of the name of a definition, as it was and as it is now.
LEMMAS = [
    "line-size", "line-words", "line-checks", "grid-words", "literal-true", "cell-first", "cell-variable", "by-column",
    "column-cell", "row-cell", "impacts-words", "begun-row", "last-end", "block-at", "bit-or", "bit-and", "color-of",
    "first_off", "is_negative", "line_of", "mask_at",
]
# `last-end` is also a part of this file's record, and falls together with nothing there.
PARTS = {"crates/table/specs/Fakes.antt": {"last-end": "last_end"}}


def respelled(name):
    name = re.sub(r"(?<=[a-z0-9])([A-Z])", lambda m: "_" + m.group(1).lower(), name.replace("getD", "get_or"))
    return name.replace("-", "_")


def main():
    proofs = sorted(p for p in glob.glob("crates/*/**/*.antt", recursive=True) if "/out/" not in p)
    sources = sorted(glob.glob("crates/*/src/*.rt"))
    functions = set()
    for path in sources:
        functions |= set(re.findall(r"\bfn (\w+)", open(path).read()))
    declared = set()
    for path in proofs:
        declared |= {m.group(1) for line in open(path) if (m := DECLARED.match(line))}
    names = {n: respelled(n) for n in declared if n[0].islower() and not re.match("(invariant|decreases)-", n)}
    names.update({n: respelled(n) + "_lem" for n in LEMMAS})
    names = {n: to for n, to in names.items() if n != to}
    fallen = [to for to, k in collections.Counter(names.values()).items() if k > 1]
    assert not fallen, fallen

    known_names = declared | set(names.values())

    def step(word):
        """A function's name in a proof by hand: `min-space`, its second call `min-space2`, its proof `min-space-spec`, in a cycle `+min-space-spec`."""
        plus, body, count, spec = re.fullmatch(r"(\+?)(.*?)(\d*)(-spec)?", word).groups()
        body = body.replace("-", "_")
        return plus + body + count + spec.replace("-", "_") if spec and body in functions else plus + body + count if body in functions else word

    edits = sorted(glob.glob("crates/*/must-fail/*.edit"))
    pages = sorted(glob.glob("*.md") + glob.glob("docs/*.md"))
    for path in proofs + sources + edits + pages:
        hand = path.endswith("/Proof.antt")
        here = names | PARTS.get(path, {})

        def turn(m):
            word = m.group(0)
            plain = word.rstrip("'")
            primes = word[len(plain):]
            if hand and step(word) != word:
                return step(word)
            return here.get(word) or (here[plain] + primes if plain in here and primes else word)

        text = open(path).read()
        if path.endswith(".md"):
            # In a page only a word in backquotes, or of the form fooBar, is a name.
            known = lambda w: here.get(w) or (w.replace("-", "_") if w.replace("-", "_") in known_names else w)
            new = re.sub(r"`([^`\n]+)`", lambda m: "`" + re.sub(WORD, lambda w: known(w.group(0)), m.group(1)) + "`", text)
        elif path.endswith(".antt"):
            new = re.sub(WORD, turn, text)
        else:
            # Of a source only what is said of it: clauses, ghost lines and comments.
            new = re.sub(WORD, lambda m: turn(m) if re.search("[A-Z]", m.group(0)) else m.group(0), text)
            if path.endswith(".rt"):
                new = re.sub(r"//.*|ghost use .*|(?:ensures|requires).*", lambda m: re.sub(WORD, turn, m.group(0)) if "-" in m.group(0) else m.group(0), new)
        if new != text:
            with open(path, "w") as f:
                f.write(new)
    for folder in sorted({path.split("/")[1] for path in sources}):
        subprocess.run(["rt", "fmt"], cwd=os.path.join("crates", folder), check=True, stdout=subprocess.DEVNULL)


main()

#!/usr/bin/env python3
"""Brings names of definitions and lemmas in the pages to the spelling of the sources, once: words in back quotes, where the word is no name of
today's and its snake-case spelling, or that with `_lem`, is.

    python3 tools/respell_pages.py [--show]
"""
import pathlib
import re
import sys

root = pathlib.Path(__file__).resolve().parent.parent
TOKEN = re.compile(r"[A-Za-z_][\w'ℕℤ≤≡≢₀-₉-]*")


def snake(word):
    word = re.sub(r"([a-z0-9])([A-Z])", r"\1_\2", word)
    return re.sub(r"([A-Z])([A-Z][a-z])", r"\1_\2", word).lower()


today = set()
for path in [*root.glob("crates/*/specs/**/*.antt"), *root.glob("crates/*/proofs/*.antt"), *root.glob("crates/*/src/**/*.rt"), *root.glob("host/*"), *root.glob("oracle/**/*.rs")]:
    if path.is_file():
        today |= set(TOKEN.findall(path.read_text(errors="replace")))
today |= {p.stem for p in root.glob("crates/*/must-fail/*.edit")}
changed, left = {}, set()


def other(met):
    word = met.group(0)
    if word in today or not re.match(r"[a-z]", word) or not re.search(r"[A-Z-]", word):
        return word
    joined = "_".join(snake(part) for part in word.split("-"))
    parts = word.split("-")
    # a word with a dash was a lemma
    options = [joined + "_lem", joined] if "-" in word else [joined, joined + "_lem"]
    for i in range(1, len(parts)):
        options.append("_".join(map(snake, parts[:i])) + "-" + "_".join(map(snake, parts[i:])))
    for new in options:
        if new in today:
            changed[word] = new
            return new
    left.add(word)
    return word


pages = [root / "README.md", *sorted(root.glob("docs/*.md")), root / "oracle/README.md", root / "bench/README.md"]
for page in pages:
    if page.name == "PORT.md":
        continue
    text = page.read_text()
    new = re.sub(r"`[^`\n]*`", lambda m: TOKEN.sub(other, m.group(0)), text)
    if new != text and "--show" not in sys.argv:
        page.write_text(new)
print(len(changed), "names")
for word in sorted(changed):
    print(" ", word, changed[word])
print("left:", " ".join(sorted(left)))

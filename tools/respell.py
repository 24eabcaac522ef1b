#!/usr/bin/env python3
"""Brings the repository's own definitions, lemmas and fields to snake case, once, after the toolchain's port.py.

    python3 tools/respell.py [--show] [FOLDER]

Words in camel case that begin with a small letter, as putBits, become put_bits: in proof text, in the clauses and imports of sources, in
must-fail edits and in comments. Names of lemmas that join plain words by dashes, as more-bits, become more_bits; a dash stays where it joins the
names of two definitions, as in bits_of-append. Rust functions, types, modules, strings and the names that the checker makes keep theirs. It
stops where two names would fall together. --show prints the table and changes nothing.
"""
import collections
import pathlib
import re
import sys

TOKEN = re.compile(r"[A-Za-z_][\w'ℕℤ≤≡≢₀-₉-]*")
DECLARED = re.compile(r"^(?:unfoldable |abbrev )?(?:pub )?([^\s:({]+)(?: *$| *:| +:)")
FIELD = re.compile(r"^ +(?:pub )?([a-z][^\s:({]*) *:")
DEFINED = re.compile(r"^(?:unfoldable|abbrev) (?:pub )?([^\s:({]+)")
JOINED = {"length", "append", "take", "drop", "map", "set", "cons", "replicate", "get_or"}

# Lemmas that port.py had brought to snake case already, and that would fall together with a definition.
LEMMAS = {
    "all_whole", "each_free", "fields_in", "in_order", "last_digits", "no_text", "none_found", "one_found", "one_line", "place_at", "put_first",
    "room_of", "same_step", "sum_rows",
}


def snake(word):
    word = re.sub(r"([a-z0-9])([A-Z])", r"\1_\2", word)
    return re.sub(r"([A-Z])([A-Z][a-z])", r"\1_\2", word).lower()


def table(root):
    """Old name -> new name, and the names that are there already."""
    present, camel, dashed, defined = set(), set(), set(), set()
    for path in sorted(root.glob("crates/*/*/**/*.antt")):
        in_specs = "specs" in path.relative_to(root / "crates").parts[1]
        for line in path.read_text().splitlines():
            code = line.split("--")[0]
            for word in TOKEN.findall(code):
                present.add(word)
                if re.match(r"[a-z]", word) and re.search(r"[A-Z]", word) and "-" not in word:
                    camel.add(word)
            if not in_specs:
                continue
            for alias in re.findall(r" as ([a-z][\w-]*)", code):
                if "-" in alias:
                    dashed.add(alias)
            for pattern in (DECLARED, FIELD):
                met = pattern.match(line)
                if met and re.match(r"[a-z]", met.group(1)) and "-" in met.group(1):
                    dashed.add(met.group(1))
            met = DEFINED.match(line)
            if met:
                defined.add(snake(met.group(1)) if re.match(r"[a-z]", met.group(1)) else met.group(1))
    names = {word: snake(word) for word in camel}
    for word in dashed:
        words = [snake(w) if re.match(r"[a-z]", w) else w for w in word.split("-")]
        joint = "_"
        if len(words) == 2 and words[0] in defined and (words[1] in defined or words[1] in JOINED):
            joint = "-"
        names[word] = joint.join(words)
    names = {old: new for old, new in names.items() if old != new}
    words = {new for old, new in names.items() if old in camel}
    for old in sorted(dashed):
        # a lemma that would have a definition's or a function's name
        if old in names and (names[old] in words or names[old] in present):
            names[old] += "_lem"
    return names, present, camel


def together(names, present, camel):
    """Names that would fall together."""
    taken = collections.defaultdict(set)
    for old, new in names.items():
        if "_" not in old or "-" in old:
            # the one word with both, ranges_Apart, is a function's name that port.py had respelled in a path
            taken[new].add(old)
    for new in taken:
        # what stands there already may be a Rust function's name or a field's: those do not fall together with a definition
        if new in present and not any(old in camel for old in taken[new]):
            taken[new].add(new)
    return {new: olds for new, olds in taken.items() if len(olds) > 1}


def turned(text, names, dashes, after_dots):
    def other(met):
        word = met.group(0)
        before = text[met.start() - 1] if met.start() else " "
        if word in LEMMAS and dashes and before != ".":
            return word + "_lem"
        if word not in names:
            return word
        if "-" in word and (not dashes or (before == "." and not after_dots)):
            return word
        return names[word]

    return TOKEN.sub(other, text)


def respelled(path, names):
    text = path.read_text()
    if path.suffix == ".antt":
        in_specs = "/specs/" in str(path)
        lines = []
        for line in text.split("\n"):
            code, mark, comment = line.partition("--")
            code = turned(code, names, True, in_specs)
            # in a comment only words in back quotes and words in camel case are names for sure
            comment = re.sub(r"`[^`]*`", lambda m: turned(m.group(0), names, True, True), comment)
            lines.append(code + mark + turned(comment, names, False, False))
        return "\n".join(lines)
    if path.suffix == ".edit":
        return turned(text, names, True, True)
    lines = []
    for line in text.split("\n"):
        code, mark, comment = line.partition("//")
        ghost = re.match(r" *(pub )?ghost ", code) or re.match(r" *(requires|ensures|invariant)\b", code)
        code = turned(code, names, bool(ghost), True)
        comment = re.sub(r"`[^`]*`", lambda m: turned(m.group(0), names, True, True), comment)
        lines.append(code + mark + turned(comment, names, False, False))
    return "\n".join(lines)


def main():
    words = [w for w in sys.argv[1:] if w != "--show"]
    root = pathlib.Path(words[0] if words else ".")
    names, present, camel = table(root)
    if "--show" in sys.argv:
        for old in sorted(names):
            print(old, names[old])
    clash = together(names, present, camel)
    for new in sorted(clash):
        print("together:", new, "from", ", ".join(sorted(clash[new])), file=sys.stderr)
    if "--show" in sys.argv:
        return
    if clash:
        sys.exit("respell: nothing was changed")
    count = 0
    for kind in ("*/*/**/*.antt", "*/src/**/*.rt", "*/must-fail/*.edit"):
        for path in sorted(root.glob("crates/" + kind)):
            new = respelled(path, names)
            if new != path.read_text():
                path.write_text(new)
                count += 1
    print(f"respell: {len(names)} names, {count} files")


main()

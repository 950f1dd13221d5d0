#!/usr/bin/env python3
"""Brings this repository's own names to the spelling of the toolchain that it was ported to, once, after that toolchain's own script.

usage: python3 tools/respell.py        at the top of the repository

Definitions, fields, constructors and variables go from camelCase, or words with dashes, to snake_case. In a lemma's name a dash joins the
names that it speaks of, and stays. Where a definition's new name was a lemma's, the lemma gets `_lem`. Functions of src/ and exported names
stay as they are. Files of specs/, proofs/, src/ and must-fail/ are rewritten in place. With --clashes nothing is written: it lists where a new name
stands in a file already, to be looked at by hand.
"""
import glob
import re
import sys

TOKEN = re.compile(r"[^\W\d][\w'\-]*")

# Names of definitions and fields that were joined by a dash.
DASHED = """by-under all-marks is-kind is-new is-simplex open-rim new-below rows-once cols-once by-within refused-open refused-unfilled
filled-by few-edges few-triangles few-tetrahedra chosen-simplices chosen-vertices triangle-sides tetrahedron-sides keys-long next-long
one-digit three-digits first-kept next-kept few-rows few-columns is-closed search-all found-same filling-found fills-or-not
smallest-in-class-exists rim-told fill-told class-told answer-told read-readable told-asking""".split()

# Lemmas that had the new name of the definition that they are about.
LEMMAS = {name: name + "_lem" for name in ("all_listed", "too_long", "chain_fits", "list_read")}

# Words of the older library in names of lemmas about them, and single capitals.
WORDS = {
    "getD-mapped": "get_or-mapped",
    "getD-xor": "get_or-xor",
    "flipped-R": "flipped-r",
    "flipped-R-keeps": "flipped-r-keeps",
    "flipped-V": "flipped-v",
    "flipped-V-keeps": "flipped-v-keeps",
}

# Spelled so by the toolchain's script, and no name of ours.
LEFT = {"read_Walk"}


def snake(name):
    return re.sub(r"(?<=[a-z0-9])([A-Z])", lambda m: "_" + m.group(1).lower(), name)


def files():
    for pattern in ("specs/*.antt", "proofs/**/*.antt", "src/*.rt", "must-fail/*.edit"):
        yield from sorted(glob.glob("crates/*/" + pattern, recursive=True))


def renamed(texts):
    names = {name: name.replace("-", "_") for name in DASHED} | LEMMAS | WORDS
    for path, text in texts.items():
        if not path.endswith(".antt"):
            continue
        for name in TOKEN.findall(text):
            if re.match("[a-z]", name) and re.search("[A-Z]", name) and name not in names and name not in LEFT:
                names[name] = snake(name)
    return {old: new for old, new in names.items() if old != new}


def main():
    texts = {}
    for path in files():
        with open(path, encoding="utf-8") as f:
            texts[path] = f.read()
    if not texts:
        sys.exit("respell: no crates/ here; run it at the top of the repository")
    names = renamed(texts)
    clashes = []
    for path, text in texts.items():
        used = set(TOKEN.findall(text))
        clashes += [f"{path}: {old} -> {new}, which stands there too" for old, new in names.items() if old in used and new in used and new not in names]
    if clashes and "--clashes" in sys.argv:
        print("\n".join(clashes))
    changed = 0
    for path, text in texts.items():
        new = TOKEN.sub(lambda m: names.get(m.group(0), m.group(0)), text)
        if new != text:
            changed += 1
            if "--clashes" not in sys.argv:
                with open(path, "w", encoding="utf-8") as f:
                    f.write(new)
    print(f"respell: {len(names)} names, {changed} files")


if __name__ == "__main__":
    main()

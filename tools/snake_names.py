#!/usr/bin/env python3
"""Respells the repository's own words in snake case, once: definitions and lemmas that port.py left in lower camel case, in code's clauses, specs/ and proofs/.

  snake_names.py          in the repository's root, behind port.py; rewrites the .rt and .antt files of crates/ in place
  snake_names.py --list   the words and what they become, and where two words would fall together

A lemma that would then have its function's name gets `_lem`. Types, modules, functions of src/, exported names and strings are not touched.
"""
import collections
import glob
import re
import sys

WORD = re.compile(r"(?<![\w'])([a-z][A-Za-z0-9_]*[A-Z][A-Za-z0-9_]*)")
OUTSIDE = re.compile(r'"(?:[^"\\\n]|\\.)*"|' + WORD.pattern)  # a string, or a word outside one
ANY = re.compile(r"(?<![\w'])([A-Za-z_][A-Za-z0-9_']*)")
# lemmas, by crate, that bear the name that their function gets
LEMMAS = {
    "model": ["ran_out", "same_bytes"],
    "update": ["moved_down", "moved_up"],
    "search": ["kept_on"],
    "rules": ["list_cases"],
    "bytes_only": ["goes_before", "same_key"],
}


def snake(word):
    return re.sub(r"([a-z0-9])([A-Z])", r"\1_\2", word.replace("gE", "GE")).lower()


def sources():
    return sorted(p for kind in ("src/**/*.rt", "specs/**/*.antt", "proofs/**/*.antt") for p in glob.glob(f"crates/*/{kind}", recursive=True))


def main(listing):
    fall = collections.defaultdict(set)
    for path in sources():
        with open(path, encoding="utf-8") as text:
            old = text.read()
        new = old
        for lemma in LEMMAS.get(path.split("/")[1], []):
            if path.endswith(".antt"):
                new = re.sub(rf"(?<![\w'.-]){lemma}(?![\w'-])", lemma + "_lem", new)
        words = set(WORD.findall(new))
        there = set(ANY.findall(new))
        for word in sorted(words):
            fall[snake(word)].add(word)
            if listing and snake(word) in there and path.endswith(".antt"):
                print(f"{path}: {word} falls together with {snake(word)}")
        new = OUTSIDE.sub(lambda found: found.group(0) if found.group(0)[0] == '"' else snake(found.group(0)), new)
        if new != old and not listing:
            with open(path, "w", encoding="utf-8") as text:
                text.write(new)
    if listing:
        for new, words in sorted(fall.items()):
            print(new, " ".join(sorted(words)))


if __name__ == "__main__":
    main("--list" in sys.argv[1:])

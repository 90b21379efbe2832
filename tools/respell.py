#!/usr/bin/env python3
"""Brings the names of definitions and lemmas to today's spelling: words in snake case, facts in upper camel case.

usage: python3 tools/respell.py [FOLDER]    rewrites crates/**/*.{rt,antt,edit} below FOLDER, or here, once, after port.py
Functions, exported names, strings and files keep their names. A name that would fall together with another gets one of its own.
"""

import os
import re
import sys

# A word that begins small and has a capital within it, also as a part of a dashed name.
PART = re.compile(r"(?<![A-Za-z0-9_'])[a-z][a-z0-9]*(?:_[a-z0-9]+)*(?:[A-Z][A-Za-z0-9_]*)+(?![A-Za-z0-9])")

# Names that a plain respelling would make the same as another that stands in the same file.
OWN = {
    "numberIs": "NumberIs",  # a fact
    "atFirst": "at_outset",  # a lemma is called at_first
    "readAs": "answered_read",  # a lemma is called read_as
    "recordLines": "lines_of_records",  # a lemma is called record_lines
}

# A lemma that has the name that a definition gets.
LEMMAS = {"crates/llc_frames/proofs/Paths.antt": [("laid_out", "laid-out")]}


def snake(word):
    if word in OWN:
        return OWN[word]
    return re.sub(r"(?<=[a-z0-9])(?=[A-Z])|(?<=[A-Z])(?=[A-Z][a-z])", "_", word).lower()


def respelled(text):
    return PART.sub(lambda m: snake(m.group()), text)


def main(top):
    for folder, dirs, files in os.walk(os.path.join(top, "crates")):
        dirs[:] = [d for d in dirs if d != "out"]
        for name in files:
            if not name.endswith((".rt", ".antt", ".edit")):
                continue
            path = os.path.join(folder, name)
            with open(path, encoding="utf-8") as f:
                old = f.read()
            new = old
            for one, other in LEMMAS.get(os.path.relpath(path, top), []):
                new = re.sub(rf"(?<![\w'.-]){re.escape(one)}(?![\w'-])", other, new)
            new = respelled(new)
            if new != old:
                with open(path, "w", encoding="utf-8") as f:
                    f.write(new)


if __name__ == "__main__":
    main(sys.argv[1] if len(sys.argv) > 1 else ".")

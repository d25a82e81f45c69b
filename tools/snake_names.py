#!/usr/bin/env python3
"""Brings the names of this repository's definitions, fields, constructors and lemmas from camel case to snake case, as the kit spells words.

usage: tools/snake_names.py              at the top, once, after the kit's port.py
       tools/snake_names.py --list       prints old and new names, and changes nothing
       tools/snake_names.py --together   prints the names that fall together with another, and changes nothing

It goes by the words of .antt files and of clauses, ghost items and comments of .rt files. Types, modules, the functions of src/ and whatever is
imported from the kit keep their names. So does a dash in a lemma's name: the kit joins names by it, as in get_or-set_same.
"""

import glob
import re
import sys

WORD = re.compile(r"(?<![\w'-])([a-z][\w']*(?:-[\w']+)*)(?![\w'-])")
USE = re.compile(r"^(?:pub )?(?:ghost )?use ([A-Za-z][\w.'-]*?)\.\{([^}]*)\}", re.M)
# en_US is a text of the protocol. T is the kit's word for a test that holds.
SPECIAL = {"enUS": "en_us", "en_US": "en_US", "is_Known": "is_Known", "false-T": "false-T", "true-T": "true-T"}
# A lemma that would have its function's name gets _lem, as the kit's guide on names says.
LEMMAS = {
    "crates/method/proofs/LoginLaws.antt": {"too_long": "too_long_lem"},
    "crates/method/proofs/TableLaws.antt": {"too_long": "too_long_lem"},
    "crates/method_reader/proofs/ReaderLaws.antt": {"table_filled": "table_filled_lem"},
}


def snake(name):
    name = re.sub(r"(?<=[a-z0-9])([A-Z])", r"_\1", name)
    return name.lower()


def files(*patterns):
    return sorted({p for pattern in patterns for p in glob.glob(pattern, recursive=True) if "/out/" not in p})


def read(path):
    with open(path, encoding="utf-8") as f:
        return f.read()


def from_kit():
    """Names that some file imports from the kit."""
    crates = {p.split("/")[1] for p in glob.glob("crates/*/src")}
    found = set()
    for p in files("crates/**/*.antt", "crates/**/*.rt"):
        for path, names in USE.findall(read(p)):
            parts = path.split(".")
            if parts[0] != "Rattle" or parts[1] not in crates:
                found |= {re.split(r"\s+as\s+", n.strip())[0] for n in names.split(",")}
    return found


def renames():
    words = set()
    for p in files("crates/*/specs/**/*.antt", "crates/*/proofs/**/*.antt"):
        words |= set(WORD.findall(read(p)))
    kit = from_kit()
    names = {w: SPECIAL.get(w, snake(w)) for w in words if re.search(r"[A-Z]", w) and w not in kit}
    return {old: new for old, new in names.items() if old != new}


def turned(text, names):
    return WORD.sub(lambda m: names.get(m.group(1), m.group(1)), text)


def together(names):
    """Old names that get one new name, and new names that a file has already."""
    by_new = {}
    for old, new in sorted(names.items()):
        by_new.setdefault(new, []).append(old)
    said = [f"{' and '.join(olds)} are both {new}" for new, olds in by_new.items() if len(olds) > 1]
    for p in files("crates/**/*.antt", "crates/**/*.rt"):
        words = set(WORD.findall(read(p)))
        said += [f"{p}: {old} becomes {names[old]}, which stands there" for old in sorted(words & set(names)) if names[old] in words]
    return said


def main(argv):
    names = renames()
    if argv == ["--list"]:
        print("\n".join(f"{old}\t{new}" for old, new in sorted(names.items())))
        return 0
    if argv == ["--together"]:
        print("\n".join(together(names)))
        return 0
    if argv:
        print(__doc__)
        return 2
    for p in files("crates/**/*.antt", "crates/**/*.rt"):
        text = read(p)
        new = turned(text, names | LEMMAS.get(p, {}))
        if new != text:
            with open(p, "w", encoding="utf-8") as f:
                f.write(new)
    return 0


if __name__ == "__main__":
    raise SystemExit(main(sys.argv[1:]))

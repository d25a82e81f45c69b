#!/usr/bin/env python3
"""Places of crates/*/src that an older language shaped, counted by rules of spelling (docs/DESIGN-PASS.md has the counts).

    tools/design_places.py [--list] [--at COMMIT]

Each rule finds candidates by how they are written; what is found and stays has its reason beside it or in that document.
"""

import collections
import re
import subprocess
import sys

LIST = "--list" in sys.argv
AT = sys.argv[sys.argv.index("--at") + 1] if "--at" in sys.argv else None


def git(*words):
    return subprocess.run(["git", *words], check=True, capture_output=True, text=True).stdout


def sources():
    if AT:
        names = [n for n in git("ls-tree", "-r", "--name-only", AT, "crates").split("\n") if re.fullmatch(r"crates/\w+/src/\w+\.rt", n)]
        return {n: git("show", f"{AT}:{n}") for n in names}
    names = [n for n in git("ls-files", "crates").split("\n") if re.fullmatch(r"crates/\w+/src/\w+\.rt", n)]
    return {n: open(n, encoding="utf-8").read() for n in names}


def line_of(text, place):
    return text.count("\n", 0, place) + 1


def block(text, start):
    """The text from `start` to the brace that closes the first one behind it."""
    depth = 0
    for i in range(text.index("{", start), len(text)):
        depth += {"{": 1, "}": -1}.get(text[i], 0)
        if depth == 0:
            return text[start : i + 1]
    return text[start:]


def functions(text):
    """Name, line, parameters and body of each function."""
    for m in re.finditer(r"^( *)(?:pub(?:\(crate\))? )?(?:const )?(?:extern \"C\" )?fn (\w+)[^(]*\(", text, re.M):
        end = text.find("\n" + m[1] + "}\n", m.start())
        whole = text[m.start() : end if end >= 0 else len(text)]
        head, _, body = whole.partition("\n" + m[1] + "{")
        depth, i = 0, head.index("(")
        for j in range(i, len(head)):
            depth += {"(": 1, ")": -1}.get(head[j], 0)
            if depth == 0:
                break
        yield m[2], line_of(text, m.start()), " ".join(head[i + 1 : j].split()), body, head[j + 1 :]


def result_shaped(files):
    """Own enums of the shape of Option or Result."""
    bare = {"None", "Unknown", "Untold", "Never", "WellFormed"}
    for name, text in files.items():
        for m in re.finditer(r"^(?:pub(?:\(crate\))? )?enum (\w+)", text, re.M):
            body = block(text, m.start())
            variants = re.findall(r"^    (\w+)", body, re.M)
            if len(variants) <= 3 and (bare & set(variants) or {"Refused", "IllFormed"} & set(variants)):
                yield name, line_of(text, m.start()), m[1]


def flags_with_values(files):
    """A flag or a number that says whether there is a value."""
    rules = r"\bknown: bool\b|\bcount: usize,\n\s*pub fields|\bconst NONE\b|\bSPARE_BIT: u8|0 says nothing|`end` if there is none|None has 0 records"
    for name, text in files.items():
        for m in re.finditer(rules, text):
            yield name, line_of(text, m.start()), m[0].split("\n")[0]


def numbers_for_kinds(files):
    """A match on a digit or an octet that stands for a kind."""
    for name, text in files.items():
        for m in re.finditer(r"match ([^{\n]*(?:/ 16|% 16|digit|words\[0\])[^{\n]*) \{", text):
            yield name, line_of(text, m.start()), m[1]


SHAPES = [
    (re.compile(r"\b(?:u|i)(?:8|16|32|64)\b|\busize\b|\bf(?:32|64)\b"), "T"),
    (re.compile(r"\bRead[UIF]\d+\b|\bRead\w+\b|\bOpt\w+\b|\bResult\w+\b"), "R"),
    (re.compile(r"\b0x[0-9A-Fa-f_]+\b|\b\d[\d_]*\b"), "N"),
    (re.compile(r"\b(\w*?)(?:8|16|32|64)\b"), r"\1N"),
    (re.compile(r"b\"(?:[^\"\\]|\\.)*\"|b'(?:[^'\\]|\\.)+'"), "L"),
]


def twins(files):
    """Functions whose text is the same but for types and constants; the first of each group is not counted."""
    groups = collections.defaultdict(list)
    for name, text in files.items():
        for function, line, parameters, body, _ in functions(text):
            if body.count("\n") < 3:
                continue
            shape = re.sub(r"//.*", "", parameters + body)
            for rule, by in SHAPES:
                shape = rule.sub(by, shape)
            groups[" ".join(shape.split())].append((name, line, function))
    for group in groups.values():
        yield from group[1:]


def index_loops(files):
    """While loops that count an index up or down by hand."""
    for name, text in files.items():
        for m in re.finditer(r"\bwhile ([^{]*)\{", text):
            body = block(text, m.start())
            for i in set(re.findall(r"\b(\w+) [+-]= (?:\d+|[A-Z_]+);", body)):
                if re.search(rf"\b{i}\b", m[1]):
                    yield name, line_of(text, m.start()), "while " + m[1].strip()
                    break


def conversions(files):
    """Functions that turn one type into another, or text, by a match or a chain of fields."""
    names = r"octet|numbered|from_u8|words|value|digit_of|kind_of|frame_type|name|letter|signed\d+|unsigned\d+|f\d+_bits|f\d+_value|known_\w+|is_same|bit_of|same_\w+"
    for name, text in files.items():
        for function, line, *_ in functions(text):
            if re.fullmatch(names, function):
                yield name, line, function


GROUPS = {
    "rt, out, at": ("rt: HostRuntime", "out: &mut [u8]", "at: usize"),
    "out, at": ("out: &mut [u8]", "at: usize"),
    "tape, used": ("tape: &mut [u64]", "used: usize"),
    "words, j": ("words: &mut [u64]", "j: usize"),
    "pool, tape": ("pool: &[u8]", "tape: &[u64]"),
}


def travelling(files):
    """Functions that take parameters which always travel together."""
    for name, text in files.items():
        for function, line, parameters, *_ in functions(text):
            for group, members in GROUPS.items():
                if all(member in parameters for member in members):
                    yield name, line, f"{function} ({group})"
                    break


def lengths_beside(files):
    """A buffer with its length beside it."""
    for name, text in files.items():
        for m in re.finditer(r"(\w+): (?:&(?:mut )?)?\[\w+; ?[\w ]+\],?\s+(?:pub )?(count|len|length|used): usize", text):
            yield name, line_of(text, m.start()), m[1]
        for m in re.finditer(r"(?:pub )?(count|len|length): usize,\n\s*(?:pub )?(\w+): \[", text):
            yield name, line_of(text, m.start()), m[2]


def function_tables(files):
    """A number that says which step to run, and pointers to functions."""
    for name, text in files.items():
        for m in re.finditer(r"match (kind|step|operation|op|which|function) \{\s*(?:0x|\d)|: fn\(", text):
            yield name, line_of(text, m.start()), m[0].split("{")[0]


RULES = [
    ("1 enums of the shape of Option or Result", result_shaped),
    ("1 flags and sentinels", flags_with_values),
    ("1 numbers for kinds", numbers_for_kinds),
    ("2 twins", twins),
    ("3 index loops", index_loops),
    ("4 conversions by hand", conversions),
    ("5 parameters that travel together", travelling),
    ("6 lengths beside buffers", lengths_beside),
    ("7 steps by number, tables of functions", function_tables),
]

files = sources()
for title, rule in RULES:
    found = sorted(rule(files))
    print(f"{len(found):4}  {title}")
    if LIST:
        for name, line, text in found:
            print(f"      {name}:{line}  {text}")

#!/usr/bin/env python3
"""Lists names that a file of the crates imports and does not use.

    tests/imports.py [FILE ..]     with no FILE: every .rt file of the crates

An import is used where its name, or each of the words of its operator, stands outside the file's imports, or where the file
has a `do` block, for the operators that join its lines. A name that a file hands on (`pub use`) counts as used, and so does a
trait, since a call of its methods does not name it. Of .antt files the prover says it itself, and knows better, since a
tactic may use a name that stands nowhere; they are read where they are named. Ends with 1 where there are any.
"""
import os
import re
import sys

TOP = os.path.dirname(os.path.dirname(os.path.abspath(__file__)))
# Traits whose methods are called without their names.
TRAITS = {"Read", "Write", "BufRead", "Digest", "Model", "ToString", "FromStr", "Hash", "Hasher", "Iterator", "Parser", "Display", "IsTerminal", "MetadataExt"}
OF_DO = ("◌>>=◌", "◌>>◌")
COMMENT = {".rt": r"//[^\n]*", ".antt": r"--[^\n]*"}
RUST_USE = re.compile(r"^[ \t]*(?P<hands_on>pub(?:\([^)]*\))?[ ])?(?:ghost[ ])?use[ ](?P<path>[^;]*);", re.M)
ANTT_USE = re.compile(r"^(?P<hands_on>pub[ ])?(?:unfoldable[ ])?use[ ](?P<path>[^{\n]*(?:\{[^}]*\})?[^\n]*)", re.M)


def imported(path):
    """The names that one import brings into its file."""
    path = path.strip()
    found = re.fullmatch(r"(.*?)(?:::|\.)?\{(.*)\}", path, re.S)
    if found:
        return [name for part in split(found[2]) for name in (imported(part) if part != "self" else imported(found[1]))]
    renamed = re.fullmatch(r".*\sas\s+(\S+)", path, re.S)
    if renamed:
        return [renamed[1]]
    last = re.split(r"::|\.(?!\.)", path)[-1].strip()
    return [last] if last and last != "*" else []


def split(text):
    """The parts of a list, at the commas that stand in no inner list."""
    parts, depth, start = [], 0, 0
    for at, letter in enumerate(text + ","):
        depth += {"{": 1, "}": -1}.get(letter, 0)
        if letter == "," and depth == 0:
            parts.append(text[start:at].strip())
            start = at + 1
    return [part for part in parts if part]


def is_used(name, text):
    """Whether the text has the name, or each word of the operator."""
    if name in OF_DO and re.search(r"\bdo\b", text):
        return True
    words = [word for word in re.split(r"◌|_(?=[^\w]|$)", name) if word] if "◌" in name else [name]
    edge = r"[\w'₀-₉-]" if not re.search(r"◌", name) else r"\b"
    for word in words:
        is_word = re.search(r"\w", word)
        pattern = rf"(?<!{edge}){re.escape(word)}(?!{edge})" if is_word and "◌" not in name else re.escape(word)
        if not re.search(pattern, text):
            return False
    return True


def unused(file):
    ending = os.path.splitext(file)[1]
    with open(file, encoding="utf-8") as opened:
        text = re.sub(COMMENT[ending], "", opened.read())
    form = RUST_USE if ending == ".rt" else ANTT_USE
    rest = form.sub("", text)
    names = [(name, text.count("\n", 0, found.start()) + 1) for found in form.finditer(text) if not found["hands_on"] for name in imported(found["path"])]
    return [(line, name) for name, line in names if name not in TRAITS and not is_used(name, rest)]


def sources():
    for at, folders, files in os.walk(os.path.join(TOP, "crates")):
        folders[:] = sorted(name for name in folders if name != "out")
        for name in sorted(files):
            if name.endswith(".rt"):
                yield os.path.join(at, name)


def main():
    count = 0
    for file in sys.argv[1:] or sources():
        for line, name in unused(file):
            count += 1
            print("{}:{}: {}".format(os.path.relpath(file, TOP), line, name))
    return 1 if count else 0


if __name__ == "__main__":
    sys.exit(main())

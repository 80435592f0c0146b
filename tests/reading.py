#!/usr/bin/env python3
"""Says where docs/MODEL.md and the files of definitions do not tell the same: tests/reading.py [--write]

Each file of crates/*/specs says in its first line which of four it is, and the row of its crate names it in the column for that.
The list of the files to read has their lines, their sum, and every file of the model that a listed one uses. Ends with 1 where
one of these is not so. With --write it first puts the right numbers into the list."""
import glob
import os
import re
import sys

TOP = os.path.dirname(os.path.dirname(os.path.abspath(__file__)))
COLUMNS = {"The model": 2, "A law": 2, "A view of code": 3, "A helper": 3}
IMPORT = re.compile(r"(?:pub |unfoldable )?use ")
USED = re.compile(r"^(?:pub |unfoldable )?use Rattle\.(\w+)\.specs\.([A-Z]\w*)", re.M)
LISTED = re.compile(r"^\| `crates/(\w+)/specs/(\w+)\.antt` \| (\d+) \|", re.M)
SUM = re.compile(r"these \d+ files, [\d,]+ lines, [\d,]+ of which define")


def read(*path):
    with open(os.path.join(TOP, *path), encoding="utf-8") as opened:
        return opened.read()


def kind(text):
    """Which of the four a file is, by its first line."""
    said = re.match(r"-- ([^:\n]*): \S", text)
    return said[1] if said and said[1] in COLUMNS else None


def defines(line):
    """Whether a line is more than a comment, an import or nothing."""
    return bool(line.strip()) and not line.strip().startswith("--") and not IMPORT.match(line)


def total(page, texts):
    """What the page has to say of all listed files."""
    listed = [texts.get(found[:2], "").splitlines() for found in LISTED.findall(page)]
    lines = [line for text in listed for line in text]
    return "these {} files, {:,} lines, {:,} of which define".format(len(listed), len(lines), sum(map(defines, lines)))


def corrected(page, texts):
    """The page with the numbers of lines that the listed files have."""
    def row(found):
        return "| `crates/{0}/specs/{1}.antt` | {2} |".format(*found.groups()[:2], len(texts.get(found.groups()[:2], "").splitlines()))
    return SUM.sub(total(page, texts), LISTED.sub(row, page))


def in_rows(page, texts):
    """Files that say nothing of what they are, or that stand in no row or in another column."""
    split = (line.split("|") for line in page.splitlines() if line.startswith("| `"))
    rows = {row[1].strip(" `"): row for row in split if len(row) == 6}
    for (crate, name), text in texts.items():
        if kind(text) is None:
            yield "crates/{}/specs/{}.antt: its first line does not begin with one of: {}".format(crate, name, ", ".join(COLUMNS))
        elif crate not in rows or "`{}`".format(name) not in rows[crate][COLUMNS[kind(text)]]:
            yield "docs/MODEL.md: the row of {} does not name {} ({})".format(crate, name, kind(text))


def in_list(page, texts):
    """Wrong numbers in the list of files to read, and files that it lacks."""
    listed = {(crate, name): int(lines) for crate, name, lines in LISTED.findall(page)}
    for file, lines in listed.items():
        text = texts.get(file, "")
        there, is_what = len(text.splitlines()), kind(text)
        if lines != there or is_what not in ("The model", "A law"):
            yield "docs/MODEL.md: crates/{}/specs/{}.antt has {} lines, and is {}".format(*file, there, is_what)
        for used in USED.findall(text):
            if used not in listed and kind(texts.get(used, "")) == "The model":
                yield "docs/MODEL.md: crates/{}/specs/{}.antt is not listed, and {}/{} uses it".format(*used, *file)
    if SUM.findall(page) != [total(page, texts)]:
        yield "docs/MODEL.md: it has to say {}".format(total(page, texts))


def main():
    files = sorted(glob.glob(os.path.join(TOP, "crates", "*", "specs", "*.antt")))
    texts = {(file.split(os.sep)[-3], os.path.basename(file)[:-5]): read(file) for file in files if not file.endswith("Lib.antt")}
    page = read("docs", "MODEL.md")
    if sys.argv[1:] == ["--write"]:
        page = corrected(page, texts)
        with open(os.path.join(TOP, "docs", "MODEL.md"), "w", encoding="utf-8") as opened:
            opened.write(page)
    faults = [*in_rows(page, texts), *in_list(page, texts)]
    for fault in faults:
        print(fault)
    return 1 if faults else 0


if __name__ == "__main__":
    sys.exit(main())

#!/usr/bin/env python3
"""Counts, in crates/*/src, the places of forms that have a plainer one; with -l it lists them.

A form is found by a pattern on lines without their comments, or, where it spans lines, by the text.
"""
import collections
import glob
import re
import sys

BY_LINE = {
    "1a an answer that is a bool in a Result, or says that a value beside it counts": r"-> [\w:]*Result<bool|^\s*(pub )?(open|more): bool,",
    "1b a byte of a frame's kind in a pattern or a field": r"\(?\b(0x4[1d5fc]|0x6[1d])\b",
    "1c the numbers 32 and 33 for a destination": r"(==|!=|<=|>=|<|>) *3[123]\b|\b33\b|destination: 3[23]\b",
    "1d a refusal by its number": r"Refused\(\d+\)|AtRecord\(\d|ask\(.*, \d+\)",
    "3a while and loop": r"\bwhile\b|\bloop \{",
    "3b for over a range of numbers": r"for \w+ in .*\.\.",
    "4a fields compared one by one": r"(\w+)\.(\w+) (==|!=) (\w+)\.(\2)\b",
    "4b a range test by two comparisons": r"<= *(\w+) *&& *\1 *<=|< *\w+(\.\w+)? *\|\| *\w+ *>",
    "4c a hand-written impl of a trait that can be derived": r"impl.* (Clone|Copy|PartialEq|Eq|PartialOrd|Ord|Default|Debug) for",
    "4d a match that hands an error on": r"Err\((\w+)\) => (return )?Err\(|Ok\(\(\)\) => (\{\}|Ok)|Some\(_\) = |Err\(_\) => (None|return Err)",
    "6a a count or length beside a buffer, as a field": r"^\s*(pub )?(pub\(crate\) )?(count|len|tail|head|used): usize,",
    "6b a hand-made blank value": r"const (ZERO|BLANK|OLD|NOWHERE|ROW|MARK|PLAIN_MARK|PLAIN_ROW): ",
}


def code(path):
    for number, line in enumerate(open(path), 1):
        bare = line.split("//")[0].rstrip()
        if bare and not bare.lstrip().startswith("ghost use"):
            yield number, bare


def found_by_line(pattern, name):
    for path in sorted(glob.glob("crates/*/src/**/*.rt", recursive=True)):
        for number, line in code(path):
            clause = line.lstrip().startswith(("ensures", "requires", "ghost"))
            if not clause and "/cases/" not in path and re.search(pattern, line):
                yield path, number, line


def twins():
    """Free functions and methods of one name in two places, but for what a trait names."""
    trait = {"look", "meets", "edit", "fmt", "from", "clone", "new", "main", "run", "cmp", "is_like", "try_from"}
    where = collections.defaultdict(list)
    for path in sorted(glob.glob("crates/*/src/**/*.rt", recursive=True)):
        for number, line in code(path):
            hit = re.search(r"\bfn (\w+)", line)
            if hit and hit.group(1) not in trait:
                where[hit.group(1)].append((path, number, line))
    for name, places in sorted(where.items()):
        if len(places) > 1:
            yield from places


def repeated_clauses():
    """Clauses of one text on three or more functions, `old` and `new` taken for one."""
    where = collections.defaultdict(list)
    for path in sorted(glob.glob("crates/*/src/**/*.rt", recursive=True)):
        for number, line in code(path):
            text = line.strip()
            if text.startswith(("requires", "ensures")):
                body = re.sub(r"^(requires|ensures)( \w+)? \{", "{", text)
                where[re.sub(r"\.(old|new|now)\b", "", body)].append((path, number, text))
    for body, places in sorted(where.items()):
        if len(places) > 2:
            yield from places


def answers(pattern, files="*"):
    for path in sorted(glob.glob(f"crates/*/proofs/**/{files}.antt", recursive=True)):
        for number, line in enumerate(open(path), 1):
            if re.search(pattern, line.rstrip()):
                yield path, number, line


def main():
    listing = "-l" in sys.argv[1:]
    rows = [(name, list(found_by_line(pattern, name))) for name, pattern in BY_LINE.items()]
    rows.append(("2a functions of one name in two places", list(twins())))
    rows.append(("8a answers, one goal each", list(answers(r"^(pub )?[\w-]+ : goal\."))))
    rows.append(("8b lines of proof", list(answers(r""))))
    rows.append(("5a a clause on three or more functions", list(repeated_clauses())))
    for name, places in sorted(rows):
        print(f"{len(places):4} {name}")
        if listing and not name.startswith("8b"):
            for path, number, line in places:
                print(f"       {path}:{number}: {line.strip()[:110]}")


main()

#!/usr/bin/env python3
"""Writes and checks the tables of docs/PLANTED.md: which wrong bodies and which faults of definitions were tried.

It counts the edits of crates/*/must-fail and crates/*/edits, and takes what was tried by hand from trials/planted.txt.
The tables stand in the document between the lines <!-- NAME --> and <!-- end -->. It proves nothing.

Usage: trials/planted.py           ends with 1 where trials/planted.txt names a crate, a row or a law that is not there,
                                   or where the document has other tables
       trials/planted.py --write   writes the tables
"""
import glob
import os
import re
import sys

TOP = os.path.dirname(os.path.dirname(os.path.abspath(__file__)))
DATA = f"{TOP}/trials/planted.txt"
DOCUMENT = f"{TOP}/docs/PLANTED.md"


def text_of(path):
    with open(path, encoding="utf-8") as file:
        return file.read()


def parts():
    """The lines of each part of the data, each taken apart at its bars."""
    found, name = {}, None
    for line in text_of(DATA).splitlines():
        if line.startswith("$"):
            name = found.setdefault(line[1:], [])
        elif line.strip() and not line.startswith("#"):
            name.append([part.strip() for part in line.split("|")])
    return found


def crates():
    lines = [line.partition("#")[0] for line in text_of(f"{TOP}/crates.txt").splitlines()]
    return [line.split(":")[0].split()[0] for line in lines if line.strip()]


def edits_of(crate, folder):
    return len(glob.glob(f"{TOP}/crates/{crate}/{folder}/*.edit"))


def names_in(part):
    return [word for word in part.split() if re.fullmatch(r"\w+", word)]


def faults(data):
    """What is named and is not there."""
    rows = "".join(text_of(path) for path in glob.glob(f"{TOP}/crates/model_rows/*/*.*t"))
    laws = "".join(text_of(path) for path in glob.glob(f"{TOP}/crates/*/src/*.rt"))
    for fault, of_rows, of_laws in data["DEFINITIONS"]:
        for name in names_in(of_rows):
            if not re.search(rf"\b{name}\b", rows):
                yield f"{fault}: model_rows has no row {name}"
        for name in names_in(of_laws):
            if not re.search(rf"\bfn {name}\b", laws):
                yield f"{fault}: there is no law {name}"
    for name, *_ in data["CRATES"]:
        if name not in crates():
            yield f"crates.txt has no crate {name}"


def table_of_crates(data):
    by_hand = {name: rest for name, *rest in data["CRATES"]}
    lines, sums = [], [0, 0, 0]
    for name in sorted(crates()):
        refused, unjudged, passed = by_hand.get(name, ["0", "0", ""])
        counts = [edits_of(name, "must-fail"), edits_of(name, "edits"), int(refused)]
        sums = [one + more for one, more in zip(sums, counts)]
        if any(counts) or int(unjudged) or passed:
            told = [str(count or "") for count in (*counts, int(unjudged))]
            lines.append(f"|`{name}`|{'|'.join(told)}|{passed}|")
    head = ["|Crate|Gate|Kept|By hand|Not judged|Still proved, and why that is right|", "|---|---|---|---|---|---|"]
    return [*head, *lines, f"|all|{sums[0]}|{sums[1]}|{sums[2]}|||"]


def table_of_definitions(data):
    def is_refused(part):
        return bool(names_in(part))

    kinds = [(is_refused(rows), is_refused(laws)) for _, rows, laws in data["DEFINITIONS"]]
    return [
        "|Refused by|Faults|",
        "|---|---|",
        f"|rows and laws|{kinds.count((True, True))}|",
        f"|rows alone|{kinds.count((True, False))}|",
        f"|laws alone|{kinds.count((False, True))}|",
        f"|nothing|{kinds.count((False, False))}|",
    ]


def written(document, data):
    for name, table in (("crates", table_of_crates(data)), ("definitions", table_of_definitions(data))):
        mark = f"<!-- {name} -->\n"
        before, _, rest = document.partition(mark)
        document = before + mark + "\n".join(table) + "\n<!-- end -->" + rest.partition("<!-- end -->")[2]
    return document


def main():
    data, document = parts(), text_of(DOCUMENT)
    found = list(faults(data))
    wanted = written(document, data)
    if sys.argv[1:] == ["--write"]:
        with open(DOCUMENT, "w", encoding="utf-8") as file:
            file.write(wanted)
    elif wanted != document:
        found.append("docs/PLANTED.md has other tables: trials/planted.py --write mends it")
    print(*found, sep="\n", end="\n" if found else "", file=sys.stderr)
    if not found:
        print(f"planted: {len(data['DEFINITIONS'])} faults of definitions and {len(data['CRATES'])} crates looked at")
    return 1 if found else 0


sys.exit(main())

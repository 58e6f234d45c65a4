#!/usr/bin/env python3
"""Prints the files of definitions that a contract rests on: what a reader must read to know what it says.

They are the files of specs/ that a source cites, and those that these cite, nearest first. Behind each stands its
number of lines. All other files of specs/ serve the inside of a crate: no promise of the source rests on them.

Usage: trials/reading.py [FILE]   FILE is a source with contracts, and without it that of `tws`.
"""
import os
import re
import sys

TOP = os.path.dirname(os.path.dirname(os.path.abspath(__file__)))
CITES = re.compile(r"^(?:ghost |pub )?use Rattle\.(\w+)\.specs\.([\w.]+)", re.M)


def lines_of(path):
    with open(f"{TOP}/{path}", encoding="utf-8") as file:
        return file.read().splitlines()


def cited_by(path):
    for crate, name in CITES.findall("\n".join(lines_of(path))):
        parts = name.split(".")
        for count in range(len(parts), 0, -1):
            file = f"crates/{crate}/specs/{'/'.join(parts[:count])}.antt"
            if os.path.isfile(f"{TOP}/{file}"):
                yield file
                break


def main():
    sources, seen, total = sys.argv[1:] or ["crates/tws_top/src/top.rt"], [], 0
    while sources:
        found = [file for source in sources for file in cited_by(source)]
        sources = [file for file in dict.fromkeys(found) if file not in seen]
        seen += sources
    for file in seen:
        total += len(lines_of(file))
        print(f"{len(lines_of(file)):5} {file}")
    print(f"{total:5} lines in {len(seen)} files")


main()

#!/usr/bin/env python3
"""Lemmas that stand twice: statements that stand in the proofs of two or more crates.

What counts: each declaration at the start of a line in crates/NAME/proofs/**/*.antt whose signature is a proposition or
a function type, `pub` or not. Its statement is what stands behind `name :`, over all its lines, with white space folded
and with the name left out. Two statements are one where their words are one and mean one: a word that a `use` line
takes from a crate of this tree, or that the file itself declares, counts with the module that it comes from.

A second look takes two statements for one where they differ only in the letters of what they bind: each name in
`(xs ys : List A)`, `{A : Type 0}`, `λ x.` or `λ (x : A).` counts as its place in the order of all names bound, and a
group of names as if each stood alone. What this look alone finds is listed and fails nothing.

What does not count: files Answers.antt and Invariants.antt, which answer goals of functions, and their generated
neighbours; what stands in a block, as a `where` or a `module`; declarations of data, records and abbreviations; a
signature that has neither an arrow nor an equation, since such a one is a value; statements `goal.NAME`.

Usage: trials/lemmas.py    lists each such statement, with file, line and name, and ends with 1 where one stands to
                           the letter in two crates
"""
import glob
import os
import re
import sys

TOP = os.path.dirname(os.path.dirname(os.path.abspath(__file__)))
WORD = re.compile(r"[^\s(){},;.]+")
TOKEN = re.compile(r"[(){}\[\],;]|[^\s(){}\[\],;.]+|\.")
CLOSING = {"(": ")", "{": "}"}
HEAD = re.compile(r"(?:pub )?([^\s(){},;.:]+) : ?(.*)")
NO_LEMMA = {"abbrev", "data", "record", "module", "mod", "use", "mutual", "open", "ruleset", "pattern", "where"}
ANSWERS = {"Answers.antt", "Invariants.antt", "Lib.antt"}


def uncommented(line):
    """The line without its comment."""
    return "" if line.startswith("--") else line.split(" -- ")[0].rstrip()


def blocks_of(text):
    """Each stretch of lines that begins at the start of a line: its line number, and its lines without comments."""
    blocks = []
    for number, line in enumerate(text.split("\n"), 1):
        line = uncommented(line)
        if not line:
            continue
        if line[0] not in " \t":
            blocks.append((number, [line]))
        elif blocks:
            blocks[-1][1].append(line)
    return blocks


def taken_of(line):
    """What a `use` line brings into the file: each word with the module that it comes from."""
    path = re.sub(r"^(pub )?use ", "", line)
    if "{" in path:
        module, words = path.split("{", 1)
        for word in words.rstrip("} ").split(","):
            parts = word.strip().split(" as ")
            if parts[0]:
                yield parts[-1].strip(), (module.rstrip("."), parts[0].strip())
    else:
        parts = path.strip().split(" as ")
        yield parts[-1].strip().split(".")[-1], (parts[0].strip(), "")


def lemmas_of(path):
    """The lemmas of a file: line, name and statement, and what each word of the statement means in this file."""
    with open(path, encoding="utf-8") as file:
        blocks = blocks_of(file.read())
    meaning, found = {}, []
    for number, lines in blocks:
        first = lines[0].removeprefix("pub ")
        if first.startswith("use "):
            meaning.update(taken_of(" ".join(line.strip() for line in lines)))
            continue
        words = first.split()
        while words and words[0] in ("abbrev", "pub", "pattern", "unfoldable"):
            words = words[1:]
        if words and words[0] in ("data", "record"):
            words = words[1:]
        if words and words[0] != "unfolding":
            meaning.setdefault(words[0], (path, words[0]))
        head = HEAD.match(lines[0])
        if not head or first.split()[0] in NO_LEMMA:
            continue
        said = [head.group(2)]
        for line in lines[1:]:
            if line.strip().startswith("unfolding"):
                break
            said.append(line.strip())
        statement = " ".join(" ".join(said).split())
        if ("→" in statement or "≡" in statement) and not statement.startswith("goal."):
            found.append((number, head.group(1), statement))
    return found, meaning


def meant(statement, meaning):
    """What decides whether two equal statements are one: the words that come from this tree, each with its module."""
    words = []
    for word in sorted(set(WORD.findall(statement))):
        for form in (word, "◌" + word + "◌"):
            module = meaning.get(form)
            if module and not module[0].startswith("Rattle.std."):
                words.append((word, module))
    return (statement, tuple(words))


def group_at(tokens, start):
    """Of `(NAMES : TYPE)` or `{NAMES : TYPE}` that begins here: its names, and the places of its colon and its end."""
    colon = start + 1
    while colon < len(tokens) and WORD.fullmatch(tokens[colon]) and tokens[colon] != ":":
        colon += 1
    if colon == start + 1 or colon >= len(tokens) or tokens[colon] != ":":
        return None
    return tokens[start + 1 : colon], colon, end_of(tokens, start)


def end_of(tokens, start):
    """Where the bracket that begins here ends."""
    end, depth = start, 1
    while depth and end + 1 < len(tokens):
        end += 1
        depth += (tokens[end] in CLOSING) - (tokens[end] in CLOSING.values())
    return end


class Unlettered:
    """Tokens in which each bound name is the number of its binding."""

    def __init__(self):
        self.bound = 0

    def bind(self, scope, names):
        """The scope with these names bound, and the numbers that they have."""
        numbers = [f"#{self.bound + place}" for place in range(len(names))]
        self.bound += len(names)
        return {**scope, **dict(zip(names, numbers))}, numbers

    def of(self, tokens, scope):
        """The tokens with numbers for names. A name is bound up to the end of what is handed in."""
        said, at = [], 0
        while at < len(tokens):
            token = tokens[at]
            group = group_at(tokens, at) if token in CLOSING else None
            if group:
                names, colon, end = group
                kind = self.of(tokens[colon + 1 : end], scope)
                scope, numbers = self.bind(scope, names)
                said += [word for number in numbers for word in (token, number, ":", *kind, CLOSING[token])]
                at = end + 1
            elif token == "λ":
                said.append(token)
                at += 1
                while at < len(tokens) and tokens[at] != "." and tokens[at] not in CLOSING:
                    scope, numbers = self.bind(scope, [tokens[at]])
                    said += numbers
                    at += 1
            elif token in CLOSING:
                end = end_of(tokens, at)
                said += [token, *self.of(tokens[at + 1 : end], scope), *tokens[end : end + 1]]
                at = end + 1
            else:
                said.append(scope.get(token, token))
                at += 1
        return said


def unlettered(statement):
    """The statement with a number for each name that it binds."""
    return " ".join(Unlettered().of(TOKEN.findall(statement), {}))


def copies(top, seen_as):
    """The statements that stand in two or more crates, as this look sees them: for each its first text and its places."""
    statements = {}
    for path in sorted(glob.glob("crates/*/proofs/**/*.antt", root_dir=top, recursive=True)):
        if os.path.basename(path) in ANSWERS:
            continue
        found, meaning = lemmas_of(os.path.join(top, path))
        for number, name, statement in found:
            _, places = statements.setdefault(meant(seen_as(statement), meaning), (statement, []))
            places.append((path, number, name))
    return [(said, places) for said, places in statements.values() if len({path.split("/")[1] for path, _, _ in places}) > 1]


def told(twice, how):
    """The list of these statements with their places, and their count."""
    for statement, places in twice:
        print(statement)
        for path, number, name in places:
            print(f"    {path}:{number} {name}")
    more = sum(len(places) - 1 for _, places in twice)
    if twice:
        print(f"{len(twice)} statements of lemmas stand in two or more crates{how}: {more} copies too many")


def main():
    exact = copies(TOP, lambda statement: statement)
    known = [set(places) for _, places in exact]
    lettered = [found for found in copies(TOP, unlettered) if set(found[1]) not in known]
    told(lettered, ", but for letters")
    told(exact, "")
    return 1 if exact else 0


if __name__ == "__main__":
    sys.exit(main())

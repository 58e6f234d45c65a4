"""The definitions that a contract cites, and those that these cite, through all crates, for the scripts beside this one.

A definition is a block of a file of specs/, with the types, constructors and fields that stand in it. A name stands for
what the file imports under it, or else for what the file itself defines. Of a type of the code its text counts. What the
standard library defines does not.
"""
import functools
import os
import re

TOP = os.path.dirname(os.path.dirname(os.path.abspath(__file__)))
USE = re.compile(r"^ *(?:ghost |pub )?use Rattle\.([\w.-]+?)(?:\.\{([^}]*)\}| as (\w+))?;?$", re.M)
NAME = re.compile(r"[^\W\d][\w'-]*(?:\.[^\W\d][\w'-]*)*")
HEAD = re.compile(r" *(?:(?:pub|abbrev|unfoldable|record|data) +)*([^\W\d][\w'-]*)[^=]*? ?[:({]")


def text_of(path):
    with open(path, encoding="utf-8") as file:
        return file.read()


def imports_of(text):
    """What each imported name stands for: a module, or a module and a name in it."""
    found = {}
    for module, items, alias in USE.findall(text):
        if not items:
            found[alias or module.rpartition(".")[2]] = (module, None)
        for item in items.split(","):
            name, _, other = item.strip().partition(" as ")
            found[other or name] = (module, name)
    return found


def blocks_of(text):
    """The definitions of a file. What stands deeper than a definition is part of it, but for what a module holds."""
    blocks, in_module = [], False
    for block in re.split(r"\n\s*\n", re.sub(r"^ *(use|pub use|--).*\n", "", text, flags=re.M)):
        lines = [line for line in block.split("\n") if line.strip()]
        if not lines:
            continue
        indent = len(lines[0]) - len(lines[0].lstrip())
        if indent == 0:
            in_module = bool(re.match(r"(pub )?module ", lines[0]))
        if indent > (2 if in_module else 0) and blocks:
            blocks[-1] += "\n" + "\n".join(lines)
        else:
            blocks.append("\n".join(lines))
    return blocks


@functools.cache
def file_of(top, module):
    """The imports and the definitions by their names of a module of specs."""
    parts = module.split(".")
    path = f"{top}/crates/{parts[0]}/specs/{'/'.join(parts[2:])}.antt"
    if len(parts) < 3 or parts[1] != "specs" or not os.path.isfile(path):
        return None
    text, named = text_of(path), {}
    for block in blocks_of(text):
        for line in block.split("\n"):
            found = HEAD.match(line)
            if found:
                named.setdefault(found.group(1), block)
    return imports_of(text), named


@functools.cache
def types_of(top, crate):
    """The types of a crate's code by their names."""
    found = {}
    for at, _, names in os.walk(f"{top}/crates/{crate}/src"):
        for name in names:
            for it in re.finditer(r"^pub(?:\(crate\))? (?:enum|struct) (\w+)[^\n]*\n(?:[^}].*\n)*", text_of(f"{at}/{name}"), re.M):
                found[it.group(1)] = re.sub(r"^ *//.*\n", "", it.group(0), flags=re.M)
    return found


def stands_for(top, token, module, imports, named):
    """The module and the block that a name in a file stands for, and none where that is no definition here."""
    head, *rest = token.split(".")
    place, name = imports.get(head, (None, None))
    if place is None:
        return (module, named[head]) if head in named else None
    if name is None:
        if not rest and ".declared." not in place:
            return None
        name = rest[0] if rest else head
    crate, _, inside = place.partition(".specs.declared.")
    if inside:
        owner = [part for part in inside.split(".") if part[:1].isupper() and part != "TheVariants"]
        text = types_of(top, crate).get(owner[-1] if owner else name)
        return (None, text) if text else None
    there = file_of(top, place)
    if there and name not in there[1] and name in there[0]:
        return stands_for(top, name, place, *there)
    return (place, there[1][name]) if there and name in there[1] else None


def definitions_of(contracts, source, top=TOP):
    """The texts of all definitions that these texts of a source cite, and of those that these cite."""
    seen, wait = set(), [(None, text, imports_of(source), {}) for text in contracts]
    while wait:
        module, text, imports, named = wait.pop()
        for token in set(NAME.findall(text)):
            it = stands_for(top, token, module, imports, named)
            if it and it not in seen:
                seen.add(it)
                if it[0]:
                    wait.append((it[0], it[1], *file_of(top, it[0])))
    return sorted({text for _, text in seen})

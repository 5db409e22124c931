#!/usr/bin/env python3
"""Brings the definitions and lemmas of specs/ and proofs/ to snake case: a word's humps and dashes become underscores.

usage: python3 tools/port_names.py [--list]      at the top of the repository, once, right after the kit's port.py

Types keep their capitals, and so do the letters that name the worked markets. Goals that Rattle names, functions of src/
and strings keep their names. What turns: whole words of every .antt file, of a .rt file's clauses and comments, of the
must-fail edits, and of code spans in README.md and docs/. Two names that would fall together are named, and nothing is
written. --list prints old and new names alone.
"""

import os
import re
import sys

DECLARED = re.compile(r"^\s*(?:(?:abbrev|unfoldable|pub|data|record) )*([^\s:(){}.;,]+)(?:\s*[({][^:]*:[^)}]*[)}])*\s*:\s(.*)")
WORD = re.compile(r"[^\s(){}.;,@\"«»`]+")
# a lemma that would have its function's name, and words that are not names as they stand
BY_HAND = {
    "Left": "rest_from",
    "bit-and": "bit-bit_and",
    "bit-or": "bit-bit_or",
    "flows-in": "flows_in_lem",
    "is_member": "is_member_lem",
    "is-price": "is_price_lem",
    "is-total": "is_total_lem",
    "limit-of": "limit_of_lem",
    "member-at": "member_at_lem",
    "member-by": "member_by_lem",
    "member-in": "member_in_lem",
    "no-offer": "no_offer_lem",
    "no-total": "no_total_lem",
    "on-mask": "on_mask_lem",
    "parent-at": "parent_at_lem",
    "place-in": "place_in_lem",
}


def files(kind):
    for folder, dirs, names in os.walk("crates"):
        dirs[:] = sorted(d for d in dirs if d != "out")
        for name in sorted(names):
            if name.endswith(kind):
                yield os.path.join(folder, name)


def snake(name):
    if name in BY_HAND:
        return BY_HAND[name]
    head = name.split("-")[0]
    if not head or head[0].isupper() or head[0] == "◌":
        return name
    name = re.sub(r"(?<=[a-z0-9])([A-Z])", lambda m: "_" + m.group(1), name)
    name = name.replace("-", "_")
    return re.sub(r"[A-Z]", lambda m: m.group(0).lower(), name)


def is_goal(path, kind):
    return path.endswith("Proof.antt") and kind.startswith(("tie.", "goal.", "statement"))


def pages():
    yield "README.md"
    for folder, _, names in os.walk("docs"):
        yield from (os.path.join(folder, name) for name in sorted(names) if name.endswith(".md"))


def old_words():
    for path in files(".edit"):
        with open(path, encoding="utf-8") as file:
            yield from WORD.findall(file.read())
    for path in pages():
        with open(path, encoding="utf-8") as file:
            for span in re.findall(r"`[^`\n]+`", file.read()):
                yield from WORD.findall(span)


def main():
    texts, table, goals, declared = {}, {}, {}, set()
    for path in files(".antt"):
        with open(path, encoding="utf-8") as file:
            texts[path] = file.read()
        goals[path] = set()
        for line in texts[path].splitlines():
            found = DECLARED.match(line)
            if not found or line.lstrip().startswith("--"):
                continue
            name, kind = found.groups()
            declared.add(name)
            if kind.startswith(("tie.", "goal.")):
                goals[path].add(name)
            elif snake(name) != name:
                table[name] = snake(name)
    words = {path: set(WORD.findall(text)) for path, text in texts.items()}
    bad = 0
    back = {}
    for old, new in sorted(table.items()):
        if back.setdefault(new, old) != old:
            print(f"{old} and {back[new]} fall together as {new}")
            bad += 1
        for path, here in words.items():
            if old in here and new in here and new not in table and os.path.basename(os.path.dirname(path)) != new:
                print(f"{path}: {old} would read as {new}, which stands there")
                bad += 1
            if old in here and old in goals[path] and not path.endswith("Proof.antt"):
                print(f"{path}: {old} is a goal there")
                bad += 1
    if "--list" in sys.argv:
        for old, new in sorted(table.items()):
            print(f"{old}\t{new}")
        return 0
    if bad:
        return 1

    def turned(text, but=frozenset()):
        return WORD.sub(lambda m: m.group(0) if m.group(0) in but else table.get(m.group(0), m.group(0)), text)

    def write(path, new, old):
        if new != old:
            with open(path, "w", encoding="utf-8") as file:
                file.write(new)

    for path, text in texts.items():
        write(path, turned(text, goals[path]), text)
    for path in files(".rt"):
        with open(path, encoding="utf-8") as file:
            text = file.read()
        write(path, turned(text), text)

    # edits and pages were not turned by port.py: a word whose turned form it made is turned here
    names = declared | set(table.values())
    table.update((w, snake(w)) for w in old_words() if w not in table and w not in declared and snake(w) in names)
    for path in files(".edit"):
        with open(path, encoding="utf-8") as file:
            text = file.read()
        write(path, turned(text), text)
    for path in pages():
        with open(path, encoding="utf-8") as file:
            text = file.read()
        write(path, re.sub(r"`[^`\n]+`", lambda m: turned(m.group(0)), text), text)
    print(f"{len(table)} names")
    return 0


if __name__ == "__main__":
    raise SystemExit(main())

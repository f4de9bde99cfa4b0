#!/usr/bin/env python3
"""Brings the repository's own definitions and lemmas to today's spelling of names.

usage: python3 tools/snake_names.py        at the top of the repository, once, after port.py

A definition in camel case gets snake case: `blockLength` -> `block_length`. In a lemma's name a dash stays where it joins two names of definitions or
operators, as in `dot-by_root`, and becomes an underscore where it joins a plain word: `condition-one` -> `condition_one`. Types, modules, the names
of src/ and those of the libraries stay. Rewritten are .antt files, the clauses of .rt files, must-fail edits and the pages. Where a lemma's name would
be that of a definition, it gets the ending `_lem`; names that fall together are printed.
"""
import collections
import glob
import re
import sys

WORD = r"[^\s(){}\[\].;,@\"«»:`|]+"
TOKEN = re.compile(r"(?<![^\s(){}\[\].;,@\"«»:`|])" + WORD)
ANTT = sorted(glob.glob("crates/*/specs/**/*.antt", recursive=True) + glob.glob("crates/*/proofs/**/*.antt", recursive=True))
RT = sorted(glob.glob("crates/*/src/**/*.rt", recursive=True))
OTHER = sorted(glob.glob("crates/*/must-fail/*.edit") + ["README.md"] + glob.glob("docs/*.md"))
# Words of the libraries and of lists and numbers, which a dash may join to a definition.
WORDS = set(
    "length map take drop append reverse replicate get_or set sum concat add sub mul div mod pow min max not suc zero eq lt le true false cond".split()
)


def read(path):
    with open(path, encoding="utf-8") as it:
        return it.read()


def declared():
    """Returns each name that the repository declares, with the files; which of them are definitions and not lemmas; and which of these are functions."""
    files, terms, functions = collections.defaultdict(set), set(), set()
    for path in ANTT:
        if path.endswith(("/Proof.antt", "/Answers.antt", "/Invariants.antt")):
            continue
        definition = False
        for line in read(path).split("\n"):
            if line.lstrip().startswith("--"):
                continue
            m = re.match(r"^\s*((?:pub |abbrev |unfoldable |data |record )*)(" + WORD + r")(?:\s+[({].*)?\s:\s(.*)", line)
            if m:
                files[m.group(2)].add(path)
                definition = "abbrev" in m.group(1) or "unfoldable" in m.group(1)
                if definition or "/specs/" in path:
                    terms.add(m.group(2))
                if definition:
                    functions.add(m.group(2))
            m = re.match(r"^\s*(?:pub |abbrev )*(?:data|record) (?:pub )?(" + WORD + ")", line)
            if m:
                files[m.group(1)].add(path)
                terms.add(m.group(1))
    return files, terms, functions


def of_libraries():
    """Returns the names that files take from elsewhere than the repository's own crates."""
    crates = {it.split("/")[1] for it in ANTT + RT}
    found = set()
    for path in ANTT + RT:
        for m in re.finditer(r"\buse ([^\s{;]+)\.\{([^}]*)\}", read(path)):
            head = m.group(1).split(".")
            if head[0] == "Rattle" and len(head) > 1 and head[1] in crates:
                continue
            for it in m.group(2).split(","):
                found.add(it.split(" as ")[0].strip())
    return found


def snake(piece):
    """Returns the piece with camel case turned, but not a type's name."""
    if not re.match(r"[a-z]", piece):
        return piece
    return re.sub(r"(?<=[a-z0-9])([A-Z])", lambda m: "_" + m.group(1).lower(), piece)


def new_name(name, terms):
    """Returns the name with a dash only between two names of definitions or operators."""
    pieces = name.split("-")
    if name.startswith("-") or "" in pieces:
        return name
    if pieces[0] == "getD":
        # The library's word is `get_or` now.
        return "-".join(["get_or"] + pieces[1:])
    is_name = lambda it: it in terms or it in WORDS or not re.search(r"[a-zA-Z]", it)
    out, part = [], snake(pieces[0])
    for at in range(1, len(pieces)):
        rest = "_".join(snake(it) for it in pieces[at:])
        if is_name(part) and is_name(rest) and not (at == 2 and pieces[:2] == ["burst", "bits"]):
            out.append(part)
            part = snake(pieces[at])
        else:
            part += "_" + snake(pieces[at])
    return "-".join(out + [part])


def renamings():
    files, terms, functions = declared()
    fixed = of_libraries()
    spelled = {snake(it) for it in functions if "-" not in it}
    turned = {it: new_name(it, spelled) for it in files if it not in fixed}
    into = collections.defaultdict(set)
    for it in files:
        into[turned.get(it, it)].add(it)
    for new, olds in sorted(into.items()):
        if new in fixed and olds != {new}:
            print(f"stays, since a library has the name: {', '.join(sorted(olds))} -> {new}")
            for it in olds:
                turned.pop(it, None)
        elif len(olds) > 1:
            # The definition has the name, and a lemma that would have it too gets an ending.
            for it in sorted(olds - terms):
                turned[it] = new + "_lem"
            if len(olds & terms) > 1:
                print(f"falls together: {', '.join(sorted(olds))} -> {new}")
            else:
                print(f"told apart: {', '.join(f'{it} -> {turned[it]}' for it in sorted(olds))}")
    return {a: b for a, b in turned.items() if a != b}


def token(names, of_a_function=False):
    """Returns the word's new form. After a dot, names of the source and those that Rattle makes from them stay."""

    def turn(m):
        word = m.group(0)
        after_dot = m.start() > 0 and m.string[m.start() - 1] == "."
        camel = re.search(r"[a-z0-9][A-Z]", word)
        if after_dot and not camel and (of_a_function or "-" not in word):
            return word
        return names.get(word, word)

    return turn


def clauses(text, names):
    """Turns the `ghost use` lines and the text between the braces of a clause."""
    text = re.sub(r"(?m)^ghost use [^;]*;", lambda m: TOKEN.sub(token(names), m.group(0)), text)
    return re.sub(r"(?m)^(\s*(?:requires|ensures|ghost(?! use))\b[^{\n]*\{)(.*)(\}.*)$", lambda m: m.group(1) + TOKEN.sub(token(names), m.group(2)) + m.group(3), text)


def main():
    names = renamings()
    for path in ANTT + RT + OTHER:
        text = read(path)
        if path.endswith(".antt"):
            new = TOKEN.sub(token(names, path.endswith("/Proof.antt")), text)
        elif path.endswith(".rt"):
            new = clauses(text, names)
        elif path.endswith(".edit"):
            new = "\n".join(TOKEN.sub(token(names), it) if any(a in it for a in ("≡", "→", "∷")) or ".antt" in text.split("\n")[0] else it for it in text.split("\n"))
        else:
            new = re.sub(r"`([^`\n]+)`", lambda m: "`" + names.get(m.group(1), m.group(1)) + "`", text)
        if new != text:
            with open(path, "w", encoding="utf-8") as it:
                it.write(new)
    print(f"{len(names)} names turned")
    if "--list" in sys.argv:
        for a, b in sorted(names.items()):
            print(a, b)


main()

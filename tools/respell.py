#!/usr/bin/env python3
"""Brings the names of this repository's own definitions and lemmas to the spelling of the library: words in snake case,
types in camel case, and a dash only between two names, as in `length-be_bytes`; a plain word is joined by `_`.

    tools/respell.py            at the top of the repository, once
    tools/respell.py --list     prints the names and what they become, and changes nothing

Names of src/ keep their spelling. A lemma that would fall together with another name gets `_lem` behind its own."""
import glob
import re
import sys

# A name of a definition where it is declared: a line of its own, or the field of a record.
DECLARED = re.compile(r"\s*(?:(?:abbrev|unfoldable|pub|data|record|mutual) )*([A-Za-z][^\s:(){},.;]*)(?: [^:=]*)?\s:\s")
RENAMED_IMPORT = re.compile(r" as ([a-z][A-Za-z0-9_'-]*)")
LETTERS = r"A-Za-z0-9_'ℕℤ₀-₉"
TOKEN = re.compile(r"(?<![%s-])[A-Za-z_][%s]*(?:[-*+][%s]+)*" % (LETTERS, LETTERS, LETTERS))

# Names of the library that a lemma's name can begin with or end in.
LIBRARY = {"length", "take", "drop", "get_or", "sum", "append", "set", "reverse", "map", "min", "cons"}


def antt():
    return sorted(glob.glob("crates/*/specs/*.antt") + glob.glob("crates/*/proofs/**/*.antt", recursive=True))


def rattle():
    return sorted(glob.glob("crates/*/src/**/*.rt", recursive=True))


def generic(line):
    return TOKEN.sub(lambda m: snake(m[0]) if is_camel(m[0]) else m[0], line)


# The forms of clauses that a must-fail edit still has in the older spelling.
TURNED = [
    (re.compile(r"\bget_d\b"), "get_or"),
    (re.compile(r"Prim\.Native\.Nat\._%_"), "Prim.Native.Nat.◌%◌"),
    (re.compile(r"\(now \((\w+) \.(\w+)\)\)"), r"\1.\2.now"),
    (re.compile(r"\(now (\w+)\)"), r"\1.now"),
    (re.compile(r"\((\w+)((?: \.\w+)+)\)"), lambda m: m[1] + m[2].replace(" ", "")),
    (re.compile(r"\((\w+(?: [\w.]+)+) \.(\w+)\)"), r"(\1).\2"),
    (re.compile(r"(?<=\w) (?=\.\w)"), ""),
]


def turned(line):
    for pattern, text in TURNED:
        line = pattern.sub(text, line)
    return line


def edits():
    return sorted(glob.glob("crates/*/must-fail/*.edit"))


def read(path):
    return open(path, encoding="utf-8").read()


def declared():
    """Each name declared in specs/ and in proofs/, with whether a file other than a function's proof declares it."""
    names = {}
    for path in antt():
        own = path.endswith("/Proof.antt")
        for line in read(path).split("\n"):
            found = DECLARED.match(line)
            if found:
                names[found[1]] = names.get(found[1], False) or not own
            for alias in RENAMED_IMPORT.findall(line) if line.startswith("use ") else ():
                names.setdefault(alias, False)
    return names


def snake(word):
    return re.sub(r"(?<=[a-z0-9])([A-Z])", lambda m: "_" + m[1].lower(), word)


def is_camel(word):
    return word[0].islower() and re.search(r"[a-z0-9][A-Z]", word) is not None


def functions():
    return {name for path in rattle() for name in re.findall(r"\bfn ([a-z_0-9]+)", read(path))}


def mapping():
    names = declared()
    words = {name: snake(name) for name in names if is_camel(name) and "-" not in name}
    parts_known = LIBRARY | functions() | {words.get(n, n) for n in names if "-" not in n and (n in specified() or is_camel(n))}
    for name, shared in names.items():
        if "-" not in name or not shared:
            continue
        parts = [snake(p) if is_camel(p) else p for p in name.split("-")]
        parts = ["get_or" if p == "get_d" else p for p in parts]
        merged = []
        while parts:
            for k in range(len(parts), 0, -1):
                if k == 1 or "_".join(parts[:k]) in parts_known:
                    merged.append("_".join(parts[:k]))
                    parts = parts[k:]
                    break
        new = merged[0]
        for before, part in zip(merged, merged[1:]):
            new += ("-" if before in parts_known and part in parts_known else "_") + part
        words[name] = new
    # Where two fall together, a definition of specs/ keeps the name, and the lemma is marked as one.
    taken = {}
    for name in sorted(names, key=lambda n: (n not in specified(), "-" in n, n)):
        new = words.get(name, name)
        if new in taken and name in words:
            words[name] = new = new + "_lem"
        taken[new] = name
    return {old: new for old, new in words.items() if old != new}


def specified():
    if not hasattr(specified, "names"):
        specified.names = set()
        for path in glob.glob("crates/*/specs/*.antt"):
            for line in read(path).split("\n"):
                found = DECLARED.match(line)
                if found:
                    specified.names.add(found[1])
    return specified.names


def respelled(text, words):
    def new(found):
        token = found[0]
        if token not in words:
            return token
        if "-" in token and found.start() and text[found.start() - 1] == ".":
            return token
        return words[token]

    return TOKEN.sub(new, text)


def strings_kept(line, words):
    pieces = re.split(r'("(?:[^"\\]|\\.)*")', line)
    return "".join(p if p.startswith('"') else respelled(p, words) for p in pieces)


def main():
    words = mapping()
    if sys.argv[1:] == ["--list"]:
        for old, new in sorted(words.items()):
            print(old, new)
        return
    plain = {old: new for old, new in words.items() if "-" not in old}
    for path in antt() + rattle() + edits():
        old = read(path)
        use = plain if path.endswith(".rt") else words
        new = "\n".join(strings_kept(line, use) for line in old.split("\n"))
        if path.endswith(".edit"):
            new = "\n".join(turned(generic(line)) if line.startswith(("old: ", "new: ")) else line for line in new.split("\n"))
        if new != old:
            open(path, "w", encoding="utf-8").write(new)


main()

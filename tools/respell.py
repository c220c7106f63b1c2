#!/usr/bin/env python3
"""Spells the repository's own definitions and lemmas in snake case, after port.py has run: words in snake case, a dash of a lemma
as an underscore. Names that begin with a capital keep their spelling, and so does every name of the code (src/), of a string, of
an input and of an output. Where a lemma and a definition would fall together, the lemma gets `_lem`.

Run once, at the top of the repository: python3 tools/respell.py
"""
import collections
import os
import re

WORD = r"[^\s(){}\[\],;.«»\"@`]+"
DECLARED = re.compile(rf"^ *(?:unfoldable |abbrev )?(?:pub )?({WORD})(?: \{{[^{{}}\n]*\}})* : ", re.M)
# What stands in a file of a function's proof is named after the function's own needs.
OF_A_FUNCTION = ("Proof.antt", "Answers.antt", "Invariants.antt")


def snake(name):
    words = re.sub(r"(?<=[a-z0-9])[A-Z]", lambda m: "_" + m[0].lower(), name)
    return words.replace("-", "_")


def texts(kinds):
    for top in ("crates", "docs", "README.md"):
        for folder, dirs, names in os.walk(top) if os.path.isdir(top) else [(".", [], [top])]:
            dirs[:] = sorted(d for d in dirs if d != "out")
            for name in sorted(names):
                if name.endswith(kinds):
                    yield os.path.join(folder, name)


def read(path):
    with open(path, encoding="utf-8") as f:
        return f.read()


def respelled():
    """The table of old names and new ones."""
    declared = set()
    for path in texts((".antt",)):
        if os.path.basename(path) not in OF_A_FUNCTION:
            declared.update(DECLARED.findall(read(path)))
            declared.update(re.findall(rf"^ *(?:pub )?ruleset ({WORD}) = ", read(path), re.M))
    old = {n for n in declared if not n[0].isupper() and not n.startswith("-")}
    meets = collections.defaultdict(list)
    for n in sorted(old):
        meets[snake(n)].append(n)
    table = {}
    for new, names in meets.items():
        # the definition, in camel case or without a dash, takes the name
        names.sort(key=lambda n: (not re.search("[a-z0-9][A-Z]", n), "-" in n, n))
        for i, n in enumerate(names):
            table[n] = new + "_lem" * i
    for alias in set(re.findall(r"as (the[A-Z]\w*)", "".join(map(read, texts((".rt", ".antt")))))):
        table[alias] = snake(alias)
    return {a: b for a, b in table.items() if a != b}


def main():
    table = respelled()
    camel = {a: b for a, b in table.items() if re.search("[a-z0-9][A-Z]", a)}

    def turn(text, by):
        return re.sub(WORD, lambda m: by.get(m[0], m[0]), text)

    def quoted(text):
        return re.sub(r"`[^`\n]*`", lambda m: turn(m[0], table), turn(text, camel))

    for path in texts((".antt", ".rt", ".edit", ".md")):
        text = read(path)
        if path.endswith(".antt"):
            new = "\n".join(turn(code, table) + (dash + quoted(said) if dash else "") for code, dash, said in (line.partition("--") if line.lstrip().startswith("--") else (line, "", "") for line in text.split("\n")))
        elif path.endswith((".rt", ".edit")):
            new = quoted(text)
        else:
            new = re.sub(r"`[^`\n]*`", lambda m: turn(m[0], table), text)
        if new != text:
            with open(path, "w", encoding="utf-8") as f:
                f.write(new)


main()

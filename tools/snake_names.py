#!/usr/bin/env python3
"""Spells the repository's own definitions and lemmas in snake case: a dash in a name becomes an underscore, a prime an apostrophe.

usage: tools/snake_names.py [--dry]     at the top of the repository, once, right after port.py

A name is the repository's own if a file of specs/ or a lemma file of proofs/ declares it (a definition, lemma, field, constructor or helper
of one). It is respelled in specs/, proofs/, must-fail/ and in the clauses and comments of src/, but in a file that imports that name from a
library. Function proofs (Proof.antt) keep the names that they alone declare. Names made by Rattle, strings, inputs and outputs stay.
"""
import os
import re
import sys

NAME = r"[^\s(){}.;,@\"«»⟦⟧:]+"
DECLARED = re.compile(rf"(?m)^[ \t]*(?:(?:abbrev|unfoldable|pub|ruleset|private) +)*({NAME})(?: +\{{[^{{}}\n]*\}})* :(?= )")
RECORD = re.compile(rf"(?m)^[ \t]*(?:pub +)?(?:record|data|ruleset) +({NAME})")
USE = re.compile(r"(?m)^(?:ghost )?use ([^\s;{]+?)\.\{([^}]*)\}")
DRY = "--dry" in sys.argv


def files():
    for folder, dirs, names in os.walk("crates"):
        dirs[:] = sorted(d for d in dirs if d not in ("out",))
        for name in sorted(names):
            if name.endswith((".rt", ".antt", ".edit")):
                yield os.path.join(folder, name)


def is_proof(path):
    return path.endswith("/Proof.antt") and "/proofs/" in path


def spelled(name):
    return name.replace("-", "_").replace("′", "'")


texts = {path: open(path, encoding="utf-8").read() for path in files()}
own = set()
for path, text in texts.items():
    if path.endswith(".antt") and not is_proof(path):
        bare = re.sub(r"(?m)--.*$", "", text)
        own |= {it for it in DECLARED.findall(bare) + RECORD.findall(bare) if spelled(it) != it and "◌" not in it and it not in ("-",)}
table = {it: spelled(it) for it in own}


def from_library(text):
    kept = set()
    for module, names in USE.findall(text):
        if not module.startswith("Rattle.") or module.startswith("Rattle.std."):
            for item in names.split(","):
                kept |= set(item.split(" as ")[0].split())
    return kept


TOKEN = re.compile(NAME)


def turned(path, text):
    kept = from_library(text)
    if is_proof(path):
        kept |= set(DECLARED.findall(text)) - {it for it in own if re.search(rf"(?m)^use Rattle[^\n]*[{{, ]{re.escape(it)}[}},]", text)}

    def word(m):
        it = m.group(0)
        if it in table and it not in kept:
            return table[it]
        return it

    def quoted(part):
        return re.sub(rf"(?<=`){NAME}(?=`)", word, part)

    mark = "//" if path.endswith(".rt") else "--"
    out = []
    for line in text.split("\n"):
        at = re.search(rf"(?:^|(?<=\s)){mark}(?=\s|$|-)", line)
        code, comment = (line[: at.start()], line[at.start() :]) if at else (line, "")
        out.append(TOKEN.sub(word, code) + quoted(comment))
    return "\n".join(out)


# names that fall together
for path, text in texts.items():
    words = set(TOKEN.findall(re.sub(r"(?m)--.*$", "", text)))
    seen = {}
    for it in words:
        new = table.get(it, it) if it not in from_library(text) else it
        if new in seen and seen[new] != it:
            print(f"meets: {path}: {it} and {seen[new]}")
        seen[new] = it
fields = set()
for path, text in texts.items():
    if path.endswith(".rt"):
        fields |= set(re.findall(r"(?m)^\s*(?:pub )?(\w+): ", text)) | set(re.findall(r"\b(?:const|static|struct|enum|type) (\w+)", text))
for it in sorted(own):
    if table[it] in fields:
        print(f"rust: {it} would be spelled as a field, constant or type of src/: {table[it]}")
print(f"{len(own)} names of the repository respelled")
if not DRY:
    for path, text in texts.items():
        new = turned(path, text)
        if new != text:
            open(path, "w", encoding="utf-8").write(new)
    declared = set()
    for path in files():
        if path.endswith(".antt"):
            declared |= set(DECLARED.findall(open(path, encoding="utf-8").read()))
    for folder in (".", "docs", "docs/changes", "oracle", "bench", "examples"):
        for name in sorted(os.listdir(folder)):
            path = os.path.join(folder, name)
            if name.endswith(".md"):
                text = open(path, encoding="utf-8").read()
                name_of = lambda m: spelled(m.group(0)) if spelled(m.group(0)) in declared else m.group(0)
                new = re.sub(r"`[^`\n]*`", lambda m: re.sub(r"[^\s(){}.;,`]+", name_of, m.group(0)), text)
                if new != text:
                    open(path, "w", encoding="utf-8").write(new)

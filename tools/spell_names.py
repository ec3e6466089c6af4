#!/usr/bin/env python3
"""Spells the repository's own definitions and lemmas as Rattle's style has it: types in upper camel case, all else in snake case.

usage: python3 tools/spell_names.py [--map FILE]      at the top of the repository, once, after port.py

A name counts as own if a file of crates/*/specs or crates/*/proofs declares it: a definition, a lemma, a record, a field, a
constructor, what stands behind `where` or `let`, or another name in a `use` line. It is spelled anew in specs/, proofs/, src/ (strings left out) and must-fail/,
but not in a file that imports the same name from the kit. Labels of goals (`.. : tie.Need..`) and the names that Rattle gives to
proofs stay. Where two names of one file would fall together, the map of the run says so and nothing is written.
"""

import collections
import os
import re
import sys

DECLARED = re.compile(r"^\s*(?:(?:pattern|unfoldable|abbrev|pub|axiom) )*(?:(data|record) )?([^\s:(){}.;,\"«»@]+)(?:(?: *\{[^}]*\}| *\([^)]*\))*) :( .*)?$")
LET = re.compile(r"\blet ([^\s:(){}.;,=]+)")
ALIAS = re.compile(r" as ([^\s,;{}]+)")
TOKEN = re.compile(r"[^\s(){}\[\];,.@\"«»`|]+")
USE = re.compile(r"^\s*(?:ghost )?(?:pub )?use ([^\s;{]+?)\.\{([^}]*)\}", re.M)
STRING = re.compile(r'b?"(?:[^"\\]|\\.)*"')
LABEL = re.compile(r"^([^\s:]+) : tie\.", re.M)
PROOF = re.compile(r"^pub ([^\s:]+-spec) :", re.M)
# Types spelled as functions were, and lemmas whose name in snake case the kit's function has.
TYPES = {"Goes_on": "GoesOn", "is-sound": "IsSound", "is-corrupt": "IsCorrupt", "bit-and": "bit-bit_and", "bit-or": "bit-bit_or", "bit-xor": "bit-bit_xor"}


def files(root, endings):
    for folder, dirs, names in os.walk(os.path.join(root, "crates")):
        dirs[:] = sorted(d for d in dirs if d != "out")
        for name in sorted(names):
            if name.endswith(endings):
                yield os.path.join(folder, name)


def read(path):
    with open(path, encoding="utf-8") as f:
        return f.read()


def camel(name):
    return "".join(part[:1].upper() + part[1:] for part in name.split("-"))


def snake(name):
    return re.sub(r"-(?=\w)", "_", name)


def own_names(root):
    own = set()
    for path in files(root, (".antt",)):
        text = read(path)
        skip = set(LABEL.findall(text)) | set(PROOF.findall(text))
        for line in text.splitlines():
            if line.lstrip().startswith("--"):
                continue
            m = DECLARED.match(line)
            if m and m[2] not in skip:
                own.add(m[2])
            own.update(LET.findall(line))
            if line.lstrip().startswith(("use ", "pub use ")):
                own.update(ALIAS.findall(line))
    return {n for n in own if n in TYPES or "-" in n.strip("-") and not n.startswith(("+", "#")) and "◌" not in n and n not in TYPES.values()}


def from_kit(text, crates):
    names = set()
    for path, items in USE.findall(text):
        steps = path.split(".")
        if steps[0] == "Rattle" and len(steps) > 1 and steps[1] in crates:
            continue
        for item in items.split(","):
            if " as " not in item:
                names.add(item.strip())
    return names


def main(argv):
    root = "."
    crates = set(os.listdir(os.path.join(root, "crates")))
    spelled = {}
    for name in sorted(own_names(root)):
        if name in TYPES:
            spelled[name] = TYPES[name]
        else:
            spelled[name] = camel(name) if name[0].isupper() else snake(name)
    spelled = {a: b for a, b in spelled.items() if b and a != b}
    met = collections.defaultdict(set)
    out = {}
    for path in files(root, (".antt", ".rt", ".edit")):
        text = read(path)
        keep = from_kit(text, crates) | set(LABEL.findall(text)) | set(PROOF.findall(text))
        before = set(TOKEN.findall(text))
        after = collections.defaultdict(set)
        for token in before:
            after[spelled.get(token, token) if token not in keep else token].add(token)
        for new, olds in after.items():
            if len(olds) > 1:
                met[new, tuple(sorted(olds))].add(path)

        def turn(part):
            return TOKEN.sub(lambda m: m[0] if m[0] in keep else spelled.get(m[0], m[0]), part)

        if path.endswith(".rt"):
            parts, at = [], 0
            for m in STRING.finditer(text):
                parts += [turn(text[at:m.start()]), m[0]]
                at = m.end()
            new = "".join(parts) + turn(text[at:])
        else:
            new = turn(text)
        if new != text:
            out[path] = new
    for (new, olds), where in sorted(met.items()):
        print("meet:", new, olds, len(where), sorted(where)[:3])
    if "--map" in argv:
        with open(argv[argv.index("--map") + 1], "w", encoding="utf-8") as f:
            f.writelines(f"{a}\t{b}\n" for a, b in sorted(spelled.items()))
    if "--dry" in argv:
        print(len(spelled), "names", len(out), "files")
        return 0
    for path, text in out.items():
        with open(path, "w", encoding="utf-8") as f:
            f.write(text)
    print(f"spelled {len(spelled)} names in {len(out)} files")
    return 0


if __name__ == "__main__":
    raise SystemExit(main(sys.argv[1:]))

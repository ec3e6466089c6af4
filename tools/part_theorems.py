#!/usr/bin/env python3
"""Moves the theorems of crates/*/specs to crates/*/proofs, and leaves there the definitions and what they are made of.

usage: python3 tools/part_theorems.py [--dry]      at the top of the repository, once, after spell_names.py

An edit of a definition counts as refused only where what refuses it stands in proofs/: a file of specs/ that no longer checks makes it a bad
edit. So a definition (data, record, abbrev, unfoldable) stays in specs/, with each theorem that it names, and all else goes, word for word, to
the file of the same name in proofs/. `use` lines follow.
"""

import collections
import os
import re
import sys

MARKS = r"(?:(?:pattern|unfoldable|abbrev|pub|axiom) )*"
DECL = re.compile(rf"^({MARKS})(?:(data|record) )?([^\s:(){{}}]+)((?: *\{{[^}}]*\}}| *\([^)]*\))*) :( |$)")
MODULE = re.compile(rf"^({MARKS})module ([^\s(]+)")
USE = re.compile(r"^(\s*)((?:ghost )?(?:pub )?use )Rattle\.(\w+)\.specs\.(\w+)((?:\.\w+)*)(?:\.\{([^}]*)\})?(?: as (\w+))?(;?)\s*$")
ANYUSE = re.compile(r"^(?:pub )?use \S+?(?:\.\{([^}]*)\})?(?: as (\S+))?$")
TOKEN = re.compile(r"[^\s(){}\[\];,.@\"«»|]+")


class Block:
    def __init__(self, path):
        self.path, self.lines, self.kind, self.names, self.marks = path, [], None, [], []
        self.inner_defs, self.unfolds = [], []

    def text(self):
        return "\n".join(self.lines)

    def tokens(self):
        out = set()
        for line in self.lines:
            code = line.split("--")[0] if line.lstrip().startswith("--") else re.split(r"(?:^| )-- ", line)[0]
            field = re.match(r"^ +(?:pub )?([^\s:]+) :( |$)", code) if self.kind == "record" else None
            out |= set(TOKEN.findall(code[field.end(1):] if field else code))
        return out


def parse(path):
    with open(path, encoding="utf-8") as f:
        # a list of items over several lines is read as one line; rt fmt lays it out again
        text = re.sub(r"(?m)^use [^\n{}]*\{\n[^{}]*\}", lambda m: re.sub(r",?\s*\}", "}", re.sub(r"\{\s*", "{", re.sub(r",\s+", ", ", m[0]))), f.read())
        lines = text.rstrip("\n").split("\n")
    head, uses, blocks, i = [], [], [], 0
    while i < len(lines) and (lines[i].startswith("--") or not lines[i].strip()):
        head.append(lines[i])
        i += 1
    while i < len(lines) and (lines[i].startswith("use ") or lines[i].startswith("pub use ") or not lines[i].strip()):
        if lines[i].strip():
            uses.append(lines[i])
        i += 1
    # comments that stand directly on a first block stay with it
    pending, cur = [], None
    for line in lines[i:]:
        if not line.strip():
            if cur is not None and not pending:
                cur.lines.append(line)
            else:
                pending.append(line)
            continue
        if line.startswith("--"):
            pending.append(line)
            continue
        if line.startswith(" "):
            if pending:
                cur.lines += pending
                pending = []
            cur.lines.append(line)
            continue
        m, d = MODULE.match(line), DECL.match(line)
        starts = m or d or line.startswith(("infix", "use ", "ruleset", "pub ruleset", "mutual"))
        same = cur is not None and any(line == n or line.startswith(n + " ") for n in cur.names)
        if line.startswith("unfolding ") or (same and not m and not (d and d[1].strip())) and not (d and not same):
            if pending:
                cur.lines += pending
                pending = []
            cur.lines.append(line)
            continue
        if not starts:
            cur.lines += pending
            pending = []
            cur.lines.append(line)
            continue
        if cur is not None and cur.kind == "infix":
            cur.lines += pending + [line]
            pending = []
            blocks.pop()
        else:
            cur = Block(path)
            cur.lines = pending + [line]
            pending = []
        if m:
            cur.kind, cur.marks, cur.names = "module", m[1].split(), [m[2]]
        elif d:
            cur.marks = d[1].split()
            cur.kind = d[2] or ("abbrev" if "abbrev" in cur.marks else "unfoldable" if "unfoldable" in cur.marks else "plain")
            cur.names = [d[3]]
        else:
            cur.kind, cur.names = line.split()[0], []
            if line.startswith("infix"):
                cur.kind = "infix"
        blocks.append(cur)
    if pending and cur is not None:
        cur.lines += pending
    for b in blocks:
        while b.lines and not b.lines[-1].strip():
            b.lines.pop()
        while b.lines and not b.lines[0].strip():
            b.lines.pop(0)
        for line in b.lines:
            if line.startswith(" ") and line.strip().startswith("unfolding ") or line.startswith("unfolding "):
                b.unfolds += line.split()[1:]
            inner = re.match(rf"^ +({MARKS})(?:(data|record) )?([^\s:(){{}}]+)((?: *\{{[^}}]*\}}| *\([^)]*\))*) :( |$)", line)
            if inner:
                if b.kind == "module" and line.startswith("  ") and not line.startswith("   "):
                    b.names.append(inner[3])
                    marks = inner[1].split()
                    if inner[2] or "abbrev" in marks or "unfoldable" in marks:
                        b.inner_defs.append(inner[3])
            if b.kind == "data" and line.startswith("  ") and not line.startswith("   ") and " : " in line:
                b.names += line.split(" : ")[0].split()
        if b.kind == "module":
            # anonymous modules within a module export their names too
            for line in b.lines:
                inner = re.match(rf"^ {{4,}}({MARKS})(?:(data|record) )?([^\s:(){{}}]+)((?: *\{{[^}}]*\}}| *\([^)]*\))*) :( |$)", line)
                if inner and "pub" in inner[1].split():
                    b.names.append(inner[3])
    return head, uses, blocks


def main(argv):
    dry = "--dry" in argv
    files, owner = {}, {}
    for c in sorted(os.listdir("crates")):
        d = f"crates/{c}/specs"
        if not os.path.isdir(d):
            continue
        for f in sorted(os.listdir(d)):
            if f.endswith(".antt") and f != "Lib.antt":
                files[c, f[:-5]] = parse(f"{d}/{f}")
    # which block declares a name of a file
    for key, (head, uses, blocks) in files.items():
        for n, b in enumerate(blocks):
            for name in b.names:
                if name != "_":
                    owner.setdefault((*key, name), n)

    def imported(uses):
        """name or alias -> (crate, file, name), and alias -> (crate, file)"""
        names, aliases = {}, {}
        for line in uses:
            m = USE.match(line)
            if not m or m[4] == "declared" or (m[3], m[4]) not in files:
                continue
            if m[6] is not None:
                for item in m[6].split(","):
                    parts = item.strip().split(" as ")
                    names[parts[-1].strip()] = (m[3], m[4], parts[0].strip())
            else:
                aliases[m[7] or m[4]] = (m[3], m[4])
        return names, aliases

    edges = collections.defaultdict(set)
    for key, (head, uses, blocks) in files.items():
        names, aliases = imported(uses)
        for n, b in enumerate(blocks):
            for t in b.tokens():
                if (*key, t) in owner and owner[*key, t] != n:
                    edges[*key, n].add((*key, owner[*key, t]))
                elif t in names and names[t] in owner:
                    edges[*key, n].add((*names[t][:2], owner[names[t]]))
                elif t in aliases:
                    for (c, f, name), k in owner.items():
                        if (c, f) == aliases[t] and re.search(rf"\b{re.escape(t)}\.{re.escape(name)}(?![\w-])", b.text()):
                            edges[*key, n].add((c, f, k))

    def is_theorem(node):
        b = files[node[:2]][2][node[2]]
        return b.kind == "plain" or (b.kind == "module" and not b.inner_defs)

    stay, why = set(), {}

    def keep(todo):
        """These stay, and all that they are made of within their crate."""
        while todo:
            node, reason = todo.pop()
            if node not in stay:
                stay.add(node)
                why[node] = reason
                todo += [(e, f"used by {node[1]}:{files[node[:2]][2][node[2]].names[:1]}") for e in edges[node] if e[0] == node[0]]

    # what the code's contracts name
    todo = []
    for c in sorted(os.listdir("crates")):
        for folder, dirs, names in os.walk(f"crates/{c}/src"):
            for f in names:
                if f.endswith(".rt"):
                    for line in open(os.path.join(folder, f), encoding="utf-8"):
                        m = USE.match(line)
                        if m and m[6] and (m[3], m[4]) in files:
                            for item in m[6].split(","):
                                k = (m[3], m[4], item.strip().split(" as ")[0].strip())
                                if k in owner:
                                    todo.append(((m[3], m[4], owner[k]), "src"))
    keep(todo)

    # other definitions, but for those that are made of a theorem of their own crate
    def with_theorem(node, seen):
        if node in stay:
            return False
        if is_theorem(node):
            return True
        return any(with_theorem(e, seen | {node}) for e in edges[node] if e[0] == node[0] and e not in seen)

    for key, (head, uses, blocks) in files.items():
        for n, b in enumerate(blocks):
            if b.kind in ("data", "record", "abbrev", "unfoldable") and "pub" in b.marks and (*key, n) not in stay:
                if with_theorem((*key, n), frozenset()):
                    print("made of theorems, goes:", *key, b.kind, b.names[:3])
                    continue
                keep([((*key, n), "def")])
    moved = {}
    for key, (head, uses, blocks) in files.items():
        for n, b in enumerate(blocks):
            for name in b.names:
                if owner.get((*key, name)) == n and (*key, n) not in stay:
                    moved[*key, name] = True
    for key, (head, uses, blocks) in files.items():
        kept = [b for n, b in enumerate(blocks) if (*key, n) in stay]
        gone = [b for n, b in enumerate(blocks) if (*key, n) not in stay]
        for n, b in enumerate(blocks):
            if (*key, n) in stay and b.kind in ("plain", "module"):
                print("stays:", *key, b.kind, b.names[:4], why[*key, n], "inner theorems", [x for x in b.names if x != "_" and x not in b.inner_defs], "lines", len(b.lines))
        names, _ = imported(uses)
        for b in gone:
            for u in b.unfolds:
                k = (*key, u) if (*key, u) in owner else names.get(u)
                if k and k in owner and k not in moved and files[k[:2]][2][owner[k]].kind not in ("abbrev", "unfoldable") and u not in files[k[:2]][2][owner[k]].inner_defs:
                    print("unfolds:", *key, b.names[:2], "unfolds", u)
    if dry:
        print(sum(len(b.lines) for k, (h, u, bs) in files.items() for n, b in enumerate(bs) if (*k, n) in stay), "lines stay,", sum(len(b.lines) for k, (h, u, bs) in files.items() for n, b in enumerate(bs) if (*k, n) not in stay), "go")
        return 0

    def used(line, body):
        """The line with only the items that the body names; operators stay."""
        m = re.match(r"^(use \S+?)\.\{([^}]*)\}$", line)
        if not m:
            a = re.match(r"^use \S*?(\w+)(?: as (\w+))?$", line)
            if a and not re.search(rf"(?<![\w-]){re.escape(a[2] or a[1])}\.", body):
                return None
            return line
        items = [i.strip() for i in m[2].split(",")]
        tokens = set(TOKEN.findall(body))

        def named(i):
            name = i.split(" as ")[-1].strip()
            if "◌" in name:
                return all(p == "" or p in body for p in name.split("◌"))
            return name in tokens or any(t.startswith(name) for t in tokens if not t[0].isalpha()) or name in ("[]", "∷")

        items = [i for i in items if named(i)]
        return f"{m[1]}.{{{', '.join(items)}}}" if items else None

    def repoint(line):
        m = USE.match(line)
        if not m or (m[3], m[4]) not in files:
            return [line]
        c, f = m[3], m[4]
        blocks = files[c, f][2]
        all_gone = all((c, f, n) not in stay for n in range(len(blocks)))
        none_gone = all((c, f, n) in stay for n in range(len(blocks)))
        if none_gone:
            return [line]
        end = m[8]
        if m[6] is None:
            if all_gone:
                return [line.replace(f".specs.{f}", f".proofs.{f}")]
            print("alias:", line)
            return [line]
        sides = {"specs": [], "proofs": []}
        for item in m[6].split(","):
            item = item.strip()
            sides["proofs" if (c, f, item.split(" as ")[0].strip()) in moved else "specs"].append(item)
        return [f"{m[1]}{m[2]}Rattle.{c}.{side}.{f}.{{{', '.join(items)}}}{end}" for side, items in sides.items() if items]

    # whole blocks that stay but are private, and are named by what goes, become public
    for key, (head, uses, blocks) in files.items():
        gone = [b for n, b in enumerate(blocks) if (*key, n) not in stay]
        kept = [b for n, b in enumerate(blocks) if (*key, n) in stay]
        if not gone:
            continue
        path = f"crates/{key[0]}/specs/{key[1]}.antt"
        names_needed = set()
        body = "\n".join(b.text() for b in gone)
        tokens = set().union(*(b.tokens() for b in gone))
        for b in kept:
            for name in b.names:
                plain = name.replace("◌", "")
                if name != "_" and (name in tokens or ("◌" in name and plain in body)):
                    names_needed.add(name)
                    if name == b.names[0] and b.kind != "module" and "pub" not in b.marks:
                        for i, line in enumerate(b.lines):
                            d = DECL.match(line)
                            if d and d[3] == name:
                                b.lines[i] = line.replace(name, "pub " + name, 1) if not line.startswith(("data", "record")) else "pub " + line
                                print("public:", *key, name)
                                break
        os.makedirs(f"crates/{key[0]}/proofs", exist_ok=True)
        to = f"crates/{key[0]}/proofs/{key[1]}.antt"
        if os.path.exists(to):
            print("clash:", to)
        lines = list(head) if not kept else [f"-- Laws of the definitions in specs/{key[1]}. " + (head[0][3:] if head and not kept else "Assumes nothing.")]
        while lines and not lines[-1].strip():
            lines.pop()
        own = [f"use Rattle.{key[0]}.specs.{key[1]}.{{{', '.join(sorted(names_needed))}}}"] if names_needed else []
        new_uses = [u for u in (used(l, body) for l in uses) if u]
        out = lines + [x for l in new_uses for x in repoint(l)] + own
        for b in gone:
            out += [""] + b.lines
        with open(to, "w", encoding="utf-8") as f:
            f.write("\n".join(out) + "\n")
        if kept:
            body = "\n".join(b.text() for b in kept)
            new_uses = [u for u in (used(l, body) for l in uses) if u]
            out = list(head)
            while out and not out[-1].strip():
                out.pop()
            out += [x for l in new_uses for x in repoint(l)]
            for b in kept:
                out += [""] + b.lines
            with open(path, "w", encoding="utf-8") as f:
                f.write("\n".join(out) + "\n")
        else:
            os.remove(path)
        for lib, drop in ((f"crates/{key[0]}/specs/Lib.antt", not kept), (f"crates/{key[0]}/proofs/Lib.antt", False)):
            text = open(lib, encoding="utf-8").read() if os.path.exists(lib) else ""
            if drop:
                text = re.sub(rf"(?m)^pub mod {key[1]}\n", "", text)
            elif "proofs" in lib:
                text += ("" if text.endswith("\n") or not text else "\n") + f"pub mod {key[1]}\n"
            with open(lib, "w", encoding="utf-8") as f:
                f.write(text)
    done = {f"crates/{k[0]}/{side}/{k[1]}.antt" for k, (h, u, bs) in files.items() if any((*k, n) not in stay for n in range(len(bs))) for side in ("specs", "proofs")}
    for folder, dirs, fs in os.walk("crates"):
        dirs[:] = [d for d in dirs if d != "out"]
        for f in sorted(fs):
            p = os.path.join(folder, f)
            if not f.endswith((".antt", ".rt")) or p in done:
                continue
            old = open(p, encoding="utf-8").read()
            new = "\n".join(x for l in old.split("\n") for x in repoint(l))
            if new != old:
                with open(p, "w", encoding="utf-8") as g:
                    g.write(new)
    return 0


if __name__ == "__main__":
    raise SystemExit(main(sys.argv[1:]))

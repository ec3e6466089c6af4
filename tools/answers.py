#!/usr/bin/env python3
"""Turns the old walks of a crate, proofs/**/F/Proof.antt, into Invariants.antt and Answers.antt.

usage: tools/answers.py [--names FILE] [--keep] [--new] CRATE [F..]

Run it at the top of the repository. CRATE is a folder of crates/, F a function as its folder stands below proofs/ (all, if none is given).
It asks 'rt check --old-names' how the goals and the steps of each function are called now, which works where all crates below CRATE
prove. --names takes a names.json that is there already. --keep leaves the Proof.antt where it is. --new reads the walk from git's HEAD,
for a second run.

What it does
- an answer of a Proof.antt becomes one of Answers.antt, under the goal's new name; one that only searches is left out,
- a path by counted '.before's becomes 'c.STEP.FIELD', and a 'let' of a place goes,
- an invariant and a measure become functions of the record 'l', in Invariants.antt,
- other declarations and comments stay, 'use' lines lose the names that a file does not use,
- Proof.antt goes.

It proves nothing: 'rt check' decides. Lines 'look:' name what it could not resolve, 'gone:' answers whose goal is no longer asked.
It is for one use, with the walks as they stood when the repository was turned to this Rattle.
"""

import json
import os
import re
import subprocess
import sys
import tempfile

TOP = os.path.dirname(os.path.dirname(os.path.abspath(__file__)))

# What an answer says that Rattle tries by itself.
SEARCHES = re.compile(r"\(?(search rules|\s|,)*\)?")

WORD = re.compile(r"[^\s(){}\[\],;]+")
TOKEN = re.compile(r"--[^\n]*|[^\s(){}\[\],;]+|\s+|[(){}\[\],;]")
SIGNATURE = re.compile(r"((?:abbrev |unfoldable |pub )*)([^\s:(){}]+) : ?")


def plain(name):
    """An old name without what the spellings differ in."""
    name = re.sub(r"^(overflow|nonzero)-", "", name.replace("_", "-").lower())
    return re.sub(r"^slice-bounds-", "part-", re.sub(r"^bounds-", "index-", name))


# --- reading a walk ---


class Decl:
    def __init__(self):
        self.comments, self.lines, self.unfolding, self.clauses = [], [], None, []
        self.marks, self.name, self.type = "", "", ""

    def text(self):
        return "\n".join(self.comments + self.lines)


def read(text):
    """The comment at the head, the 'use' lines, and the declarations in order."""
    lines = text.rstrip("\n").split("\n")
    head, uses, decls, pending = [], [], [], []
    i = 0
    while i < len(lines) and lines[i].startswith("--"):
        head.append(lines[i])
        i += 1
    now = None
    while i < len(lines):
        s = lines[i]
        if s.startswith("use ") or s.startswith("pub use "):
            while "{" in s and "}" not in s:
                i += 1
                s += " " + lines[i].strip()
            uses.append(s)
        elif not s.strip():
            pass
        elif s.startswith("--"):
            pending.append(s)
            now = None
        elif s[0] in " \t":
            now.lines.append(s)
        else:
            m = SIGNATURE.match(s)
            first = WORD.match(re.sub(r"^((abbrev|unfoldable|pub) )*", "", s))
            if now is not None and first and first[0] == now.name and not (m and m[2] == now.name):
                now.lines.append(s)  # a clause
            elif now is not None and s.startswith("unfolding "):
                now.lines.append(s)
            elif now is not None and s[0] in ")}":
                now.lines.append(s)
            else:
                now = Decl()
                now.comments, pending = pending, []
                now.lines.append(s)
                if m:
                    now.marks, now.name = m[1], m[2]
                decls.append(now)
        i += 1
    for d in decls:
        split(d)
    return head, uses, decls


def split(d):
    """The type, the 'unfolding' line and the clauses of a declaration."""
    type_, clauses = [], []
    for s in d.lines:
        if s.startswith("unfolding "):
            d.unfolding = s
        elif d.name and s[0] not in " \t" and type_ and not s[0] in ")}":
            clauses.append([s])
        elif clauses:
            clauses[-1].append(s)
        else:
            type_.append(s)
    d.type = "\n".join(type_)
    d.clauses = ["\n".join(c) for c in clauses]


def clause_parts(name, clause):
    """The arguments and the term of 'NAME ARGS = TERM'."""
    depth = 0
    for m in TOKEN.finditer(clause):
        t = m[0]
        if t in "([{":
            depth += 1
        elif t in ")]}":
            depth -= 1
        elif t == "=" and depth == 0:
            return clause[len(name) : m.start()].split(), clause[m.end() :]
    raise ValueError(clause)


# --- resolving paths ---


class Walk:
    """What names.json says of one function, seen from one goal."""

    def __init__(self, names):
        self.n = names
        self.places = names["places"]
        self.at = {p[0]: i for i, p in enumerate(self.places)}
        self.arms = names["arms"]
        self.typed = names["typed"]
        self.needs = {}
        for (old, new), (place, _) in zip(names["needs"], names["asked_at"]):
            self.needs.setdefault(plain(old), (new, self.at.get(place)))

    def parent(self, i):
        p = self.places[i][1]
        return None if p is None else self.at[p]

    def chain(self, i):
        out = []
        while i is not None:
            out.append(i)
            i = self.parent(i)
        return out

    def arm_of(self, goal):
        """For each place on the way to the goal, the arm that has it, if one does."""
        out, chain, i = {}, self.chain(goal), 0
        while i < len(chain):
            arm = self.arms[chain[i]]
            if arm:
                for j in range(i, min(i + arm[1], len(chain))):
                    out[chain[j]] = arm
                i += arm[1]
            else:
                out[chain[i]] = None
                i += 1
        return out

    def find(self, goal, place, path):
        """The new path of an old one, or None where the old one is only a part of a path that has a new name.

        The second of the pair is a note on what is unsure."""
        if not path:
            return (["c"], None if place == goal else "a place alone")
        if path[0] in ("args", "requires", "ranges", "utf8", "lifetimes"):
            return (["c"] + path, None)
        chain = self.chain(goal)
        step, rest = path[0], path[1:]
        note = None
        if plain(step) != plain(self.places[place][2][0]):
            # places may have come or gone since, but a step's name is of one place of the way
            others = [i for i in chain if plain(self.places[i][2][0]) == plain(step)]
            if not others:
                return (["c"] + path, "no step '%s' on the way, '%s' stands there" % (step, self.places[place][2][0]))
            place = others[0]
        _, _, (old, new), _, fields = self.places[place]
        for variable, known in self.typed[goal]:
            if plain(known) == plain(step) and rest[:1] == ["given"]:
                return (["c", "type_inv", variable] + rest[1:], None)
        for i in chain:
            for variable, known in self.typed[i]:
                if plain(known) == plain(step) and rest[:1] == ["given"]:
                    return (["c", "type_inv", variable] + rest[1:], None)
        arm = self.arm_of(goal).get(place)
        if arm:
            best = None
            for field, of, below in arm[2]:
                if plain(of) == plain(step) and rest[: len(below)] == below:
                    if below and (best is None or len(below) > len(best[1])):
                        best = (field, below)
            if best:
                return (["c", arm[0], best[0]] + rest[len(best[1]) :], None)
            if any(plain(of) == plain(step) and below[: len(rest)] == rest and below for _, of, below in arm[2]):
                return (None, None)
            for field, of, below in arm[2]:
                if plain(of) == plain(step) and not below:
                    return (["c", arm[0], field] + rest, "the arm's own: " + ".".join(path))
        return (["c", new] + rest, note)


def translate(term, walk, goal, left):
    """The term with its paths resolved; appends what is unsure to left."""
    scope = {"c": (goal, [], None)}
    tokens = TOKEN.findall(term)
    out = []

    def symbol(word):
        parts = word.split(".")
        if parts[0] not in scope or parts[-1] == "":
            return None
        place, path, kept = scope[parts[0]]
        path = path + parts[1:]
        if parts[0] == "c" or not path or not scope[parts[0]][1]:
            pass
        while path and path[0] == "before":
            up = walk.parent(place)
            place, path = place if up is None else up, path[1:]
        return place, path, parts[0], kept

    def said(word):
        got = symbol(word)
        if got is None:
            return word
        place, path, name, kept = got
        new, note = walk.find(goal, place, path)
        if note:
            left.append("%s: %s" % (word, note))
        if new is None:
            left.append("%s: a part of a path with no name" % word)
            return word
        if kept and new[: len(kept)] == kept:
            return ".".join([name] + new[len(kept) :])
        return ".".join(new)

    i = 0
    while i < len(tokens):
        t = tokens[i]
        if t.startswith("--"):
            out.append(t)
            i += 1
            continue
        # let NAME = WORD in
        if t == "let" and i + 8 < len(tokens) and tokens[i + 4] == "=" and WORD.fullmatch(tokens[i + 6]):
            name, word = tokens[i + 2], tokens[i + 6]
            if tokens[i + 8] == "in":
                got = symbol(word)
                if got is not None:
                    place, path, _, _ = got
                    new, note = walk.find(goal, place, path) if path else (None, None)
                    if not path or new is None:
                        scope[name] = (place, path, None)
                        i += 9
                        if i < len(tokens) and tokens[i].isspace():
                            i += 1
                        continue
                    out += [t, tokens[i + 1], name, tokens[i + 3], "=", tokens[i + 5], said(word)]
                    scope[name] = (place, path, new)
                    i += 7
                    continue
            scope.pop(name, None)
        elif t == "let" and i + 2 < len(tokens):
            # any other let of the name hides it, once its own value is read; names do not come twice in the walks
            name = tokens[i + 2]
            if name in scope and name != "c":
                left.append("'%s' is bound twice" % name)
        if t == "λ" or t.startswith("λ"):
            # binders hide names up to the dot
            j = i + 1
            while j < len(tokens) and not tokens[j].endswith("."):
                j += 1
            for b in tokens[i + 1 : j + 1]:
                b = b.rstrip(".")
                if b in scope and b != "c":
                    scope.pop(b)
        out.append(said(t) if WORD.fullmatch(t) else t)
        i += 1
    return "".join(out)


# --- invariants ---


def loop_clause(walk, which, new, args, term, left):
    """The term of an invariant or a measure, over the record l."""
    variables, changed = walk.n["loops"][which][1], walk.n["changed"][which]
    known = {plain(v): v for v in variables}
    to = {}
    for a in args:
        bare = a[:-1] if a.endswith("₀") else a
        v = known.get(plain(bare))
        if v is None:
            continue
        to[a] = ("l.initial." if a.endswith("₀") else "l.") + v
    names = {w.split(".")[0] for w in WORD.findall(term)}
    for a in args:
        if a not in to and a in names:
            left.append("%s: the variable %s has no new name" % (new, a))
    record = "l"
    if "l" in names and "l" not in args:
        record = "w"
    out = []
    for t in TOKEN.findall(term):
        head = t.split(".")[0]
        if head in to and not t.startswith("--") and not t.endswith("."):
            t = to[head].replace("l.", record + ".", 1) + t[len(head) :]
        out.append(t)
    return record, "".join(out)


# --- writing ---


def names_in(text):
    found = set()
    for line in text.split("\n"):
        if line.startswith("--"):
            continue
        if "[]" in line:
            found.add("[]")
        for w in WORD.findall(line.split(" -- ")[0]):
            found.add(w)
            found.update(w.split("."))
    return found


def is_used(name, found):
    """Whether a name, maybe an operator with holes, stands in the text."""
    if name in found:
        return True
    if "◌" in name:
        parts = [p for p in name.split("◌") if p]
        return all(any(p == f for f in found) for p in parts)
    return False


def use_lines(uses, text):
    found = names_in(text)
    if re.search(r"(?<![\w.])\d", text):
        pass
    out = []
    for u in uses:
        m = re.fullmatch(r"(use \S+?)\.\{(.*)\};?", u)
        if m:
            kept = []
            for n in [x.strip() for x in m[2].split(",") if x.strip()]:
                shown = n.split(" as ")[-1]
                if is_used(shown, found):
                    kept.append(n)
            if kept:
                out.append("%s.{%s}" % (m[1], ", ".join(kept)))
            continue
        m = re.fullmatch(r"use (\S+)(?: as (\S+))?", u)
        last = m[2] or m[1].split(".")[-1]
        if last in found:
            out.append(u)
    return out


def head_of(head):
    text = "\n".join(head)
    return text.rstrip()


def convert(crate, f, text, names):
    """The texts of Invariants.antt and Answers.antt (None where there is nothing to say), and notes."""
    head, uses, decls = read(text)
    walk = Walk(names)
    module = "Rattle.%s.proofs.%s" % (crate, f.replace("/", "."))
    uses = [u for u in uses if not re.search(r"%s\.(Statement|Tie)\b" % re.escape(module), u)]
    left, gone, invariants, answers, local = [], [], [], [], []
    # the order of the needs, where a label has another name now
    order = []
    for d in decls:
        spec = re.search(r"\(tie\.spec\s(.*)\)\s*$", d.text(), re.S)
        if spec:
            order = [w for w in spec[1].split() if not re.match(r"(invariant|decreases)_", w)]
    by_order = {}
    if len(order) == len(names["needs"]):
        for label, (_, new), (place, _) in zip(order, names["needs"], names["asked_at"]):
            by_order[label] = (new, walk.at.get(place))
    for d in decls:
        need = re.search(r"tie\.Need-(\S+)", d.type)
        chosen = re.match(r"[^:]*: tie\.(invariant|decreases)_(\S+)", d.type)
        if "tie.spec" in d.text() or "tie.close" in d.text():
            continue
        if need:
            clause = d.clauses[0]
            args, term = clause_parts(d.name, clause)
            if SEARCHES.fullmatch(term.strip()):
                continue
            got = walk.needs.get(plain(need[1]))
            placed = by_order.get(d.name)
            if got and placed and got != placed:
                left.append("%s: by its place it would be %s" % (got[0], placed[0]))
            got = got or placed
            if got is None:
                gone.append("%s: %s" % (need[1], " ".join(term.split())))
                continue
            new, place = got
            args = [a for a in args if a != "κs"]
            notes = []
            if args[0] != "c":
                notes.append("arguments " + " ".join(args))
            term = translate(term, walk, place, notes)
            left += ["%s: %s" % (new, n) for n in notes]
            lines = list(d.comments) + ["pub %s : goal.%s" % (new, new)]
            if d.unfolding:
                lines.append(d.unfolding)
            lines.append("%s %s =%s" % (new, " ".join(args), term))
            answers.append("\n".join(lines))
        elif chosen:
            kind, loop = chosen[1], chosen[2]
            which = [k for k, v in enumerate(names["loops"]) if plain(v[0][0]) == plain(loop)]
            if not which:
                left.append("no loop " + loop)
                continue
            new = "%s-%s" % (kind, names["loops"][which[0]][0][1])
            args, term = clause_parts(d.name, d.clauses[0])
            record, term = loop_clause(walk, which[0], new, args, term, left)
            if kind == "invariant" and term.strip() == "Unit {0}":
                continue
            lines = list(d.comments) + ["abbrev pub %s : goal.%s" % (new, new)]
            if d.unfolding:
                lines.append(d.unfolding)
            lines.append("%s %s =%s" % (new, record, term))
            invariants.append("\n".join(lines))
        else:
            local.append(d)
    # local declarations that an invariant names, and those that these name, go along
    shared, grown = set(), True
    text_of = "\n".join(invariants)
    while grown:
        grown = False
        for d in local:
            if d.name and d.name not in shared and is_used(d.name, names_in(text_of)):
                shared.add(d.name)
                text_of += "\n" + d.text()
                grown = True
    answered = "\n".join(answers) + "\n" + "\n".join(d.text() for d in local if d.name not in shared)
    to_share = [d for d in local if d.name in shared]
    others = [d for d in local if d.name not in shared]
    # a lemma that no answer names any more is not needed
    kept, grown = [], True
    seen = "\n".join(answers)
    while grown:
        grown = False
        for d in others:
            if d not in kept and (not d.name or is_used(d.name, names_in(seen))):
                kept.append(d)
                seen += "\n" + d.text()
                grown = True
    for d in others:
        if d not in kept:
            gone.append("lemma %s, which nothing cites now" % d.name)
    others = [d for d in others if d in kept]
    comment = head_of(head)
    made = {}
    if invariants:
        parts = []
        for d in to_share:
            s = d.text()
            if "pub" not in d.marks:
                s = re.sub(r"(?m)^((?:abbrev |unfoldable )?)(?=%s : )" % re.escape(d.name), r"\1pub ", s, count=1)
            parts.append(s)
        body = "\n\n".join(parts + invariants)
        lines = use_lines(uses, body) + ["use %s.Given as goal" % module]
        made["Invariants.antt"] = comment + "\n" + "\n".join(lines) + "\n\n" + body + "\n"
    if answers:
        body = "\n\n".join([d.text() for d in others] + answers)
        lines = use_lines(uses, body)
        cited = [d.name for d in to_share if is_used(d.name, names_in(body))]
        if cited:
            lines.append("use %s.Invariants.{%s}" % (module, ", ".join(cited)))
        lines.append("use %s.Goals as goal" % module)
        made["Answers.antt"] = comment + "\n" + "\n".join(lines) + "\n\n" + body + "\n"
    return made, left, gone


def main():
    given = sys.argv[1:]
    keep, new, names = False, False, None
    while given and given[0].startswith("--"):
        flag = given.pop(0)
        if flag == "--keep":
            keep = True
        elif flag == "--new":
            new = True
        elif flag == "--names":
            names = given.pop(0)
        else:
            raise SystemExit(__doc__)
    if not given:
        raise SystemExit(__doc__)
    crate, only = given[0], given[1:]
    folder = os.path.join(TOP, "crates", crate)
    if names is None:
        to = os.path.join(tempfile.mkdtemp(), "names_" + crate)
        said = subprocess.run(["rt", "check", "--generated", to, "--old-names"], cwd=folder, capture_output=True, text=True)
        names = to + "/names.json"
        if not os.path.exists(names):
            raise SystemExit(said.stdout + said.stderr)
    with open(names, encoding="utf-8") as file:
        listed = json.load(file)
    found = []
    if new:
        files = subprocess.run(["git", "ls-tree", "-r", "--name-only", "HEAD", "proofs"], cwd=folder, capture_output=True, text=True).stdout.split("\n")
        found = [p for p in files if p.endswith("/Proof.antt")]
    else:
        for at, dirs, files in os.walk(os.path.join(folder, "proofs")):
            if "Proof.antt" in files:
                found.append(os.path.relpath(os.path.join(at, "Proof.antt"), folder))
    for path in sorted(found):
        f = os.path.dirname(path)[len("proofs/") :]
        if only and f not in only:
            continue
        if new:
            text = subprocess.run(["git", "show", "HEAD:./" + path], cwd=folder, capture_output=True, text=True).stdout
        else:
            with open(os.path.join(folder, path), encoding="utf-8") as file:
                text = file.read()
        key = "Rattle-%s-proofs.%s.Lts" % (crate, f.replace("/", "."))
        if "tie.spec" not in text or "tie.close" not in text:
            print("look: %s: a walk of another form, left as it is" % path)
            continue
        if key not in listed:
            print("look: %s: names.json has no %s" % (path, key))
            continue
        made, left, gone = convert(crate, f, text, listed[key])
        for name, body in made.items():
            with open(os.path.join(folder, "proofs", f, name), "w", encoding="utf-8") as file:
                file.write(body)
        if not keep and os.path.exists(os.path.join(folder, path)):
            os.remove(os.path.join(folder, path))
            if not made and not os.listdir(os.path.join(folder, "proofs", f)):
                os.rmdir(os.path.join(folder, "proofs", f))
        print("%s: %s" % (f, ", ".join(made) or "nothing to say"))
        for s in left:
            print("  look: %s" % s)
        for s in gone:
            print("  gone: %s" % s[:200])


if __name__ == "__main__":
    main()

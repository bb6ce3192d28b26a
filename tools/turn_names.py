#!/usr/bin/env python3
"""Brings the repository's own names in specs/ and proofs/ to today's spelling, behind port.py: words in snake case.

usage: python3 tools/turn_names.py [--list]     at the top of the repository; --list prints the names and changes nothing

A name that a file of specs/ or proofs/ declares goes from `sameIdentity` or `drop-wiped` to `same_identity`, `drop_wiped`, wherever it stands: in
specs/, proofs/, and the clauses and ghost items of src/. A name that begins with a capital (a type, a fact) keeps its spelling. Names that would
fall together in a file are told apart: the definition has the plain name, and the lemma gets `_lem`. What a proof file answers (`tie.Need-..`) and
the names that a file takes from the kit stay. Names in docs/ go by tools/names.txt, which it writes: the old and the new name, a line each.
"""
import collections, os, re, sys

DELIM = " \t\n(){}[],;.«»"
TOKEN = re.compile(r"[^" + re.escape(DELIM) + r"]+")
DECL = re.compile(r"^(\s*)((?:(?:abbrev|unfoldable|pub)\s+)*)([^\s(){}\[\],;.«»:]+)\s+:\s+(.*)$")
USE = re.compile(r"^\s*(?:pub )?(?:ghost )?use\s+([^\s{;]+?)\.\{([^}]*)\}")
BOUND = re.compile(r"[({]\s*([^(){}:,;]+?)\s+:\s|\blet\s+([^\s(){}:=]+)\s|λ\s+([^(){}:.]+)\.")
MADE = ("Tie", "Statement", "Symbol", "Met", "Code", "TheLaws")


def files(root):
    for folder, dirs, names in os.walk(os.path.join(root, "crates")):
        dirs[:] = sorted(d for d in dirs if d != "out")
        for n in sorted(names):
            if n.endswith((".antt", ".rt")):
                yield os.path.join(folder, n)


def turned(name):
    """The name in snake case."""
    if not name[0].islower():
        return name
    if not re.search(r"[A-Z]", name) and "-" not in name:
        return name
    parts = []
    for part in name.split("-"):
        if part and part[0].isupper() and parts:  # a type or fact joined to a name keeps its dash
            parts.append("-" + part)
            continue
        part = re.sub(r"(?<=[a-z0-9])([A-Z])", lambda m: "_" + m.group(1).lower(), part)
        parts.append(("_" if parts else "") + part)
    return "".join(parts)


def own(module):
    return module.startswith("Rattle.") and not module.startswith("Rattle.std")


def read(path):
    with open(path, encoding="utf-8") as f:
        return f.read()


def kept(text, answers):
    """The names of a file that stay: those from the kit, those of Rattle's own modules, and a proof file's answers."""
    names = set()
    for line in text.split("\n"):
        m = USE.match(line)
        if m and (not own(m.group(1)) or ".proofs." in m.group(1) and m.group(1).rsplit(".", 1)[-1] in MADE):
            for item in m.group(2).split(","):
                names.add(item.split()[0]) if item.split() else None
        if answers:
            d = DECL.match(line)
            if d and not d.group(1) and (re.match(r"tie\.(Need|invariant|decreases)", d.group(4)) or "statement" in TOKEN.findall(d.group(4))):
                names.add(d.group(3))
    return names


def parts(path, text):
    """The file's text as pieces (piece, turned?): an .antt file's code, an .rt file's clauses and ghost items; of comments, what is in backticks."""
    clause = 0
    for line in text.split("\n"):
        mark = "--" if path.endswith(".antt") else "//"
        at = len(line)
        if line.lstrip().startswith(mark):
            at = 0
        elif path.endswith(".antt") and " -- " in line:
            at = line.index(" -- ")
        code, note = line[:at], line[at:]
        if path.endswith(".antt"):
            yield code, True
        else:
            opens = re.match(r"^\s*(requires|ensures|ghost\b.*|decreases|invariant)\b", code)
            if clause or opens:
                yield code, True
                clause = max(0, clause + code.count("{") - code.count("}"))
            else:
                yield code, False
        for i, piece in enumerate(re.split(r"(`[^`]*`)", note)):
            yield piece, i % 2 == 1
        yield "\n", False


def bare(piece):
    """The names of a piece that stand for themselves: no segment of a module's path, no field behind a dot."""
    m = USE.match(piece)
    if m:
        return TOKEN.findall(m.group(2))
    return [m.group(0) for m in TOKEN.finditer(piece) if not (m.start() and piece[m.start() - 1] == ".")]


def main():
    root = os.getcwd()
    texts = {p: read(p) for p in files(root)}
    keeps = {p: kept(t, p.endswith("Proof.antt")) for p, t in texts.items()}
    kinds, plain = collections.defaultdict(set), collections.defaultdict(set)
    for p, t in texts.items():
        if not p.endswith(".antt"):
            for line in t.split("\n"):
                m = re.match(r"\s*ghost use (\S+)", line)
                for w in re.findall(r" as ([^\s,}]+)", line) if m and own(m.group(1)) else []:
                    if turned(w) != w:
                        kinds[w].add("lemma")
            continue
        for line in t.split("\n"):
            d = DECL.match(line)
            if d and d.group(3) not in keeps[p]:
                to = plain if turned(d.group(3)) == d.group(3) else kinds
                to[d.group(3)].add("definition" if re.search("abbrev|unfoldable", d.group(2)) else "lemma")
            if line.lstrip().startswith("--"):
                continue
            if line.startswith("use "):
                if own(line.split()[1]):
                    for w in re.findall(r" as ([^\s,}]+)", line):
                        if turned(w) != w:
                            kinds[w].add("lemma")
                continue
            for m in BOUND.finditer(line):  # what a binder names
                for w in (m.group(1) or m.group(2) or m.group(3)).split():
                    if w not in keeps[p] and turned(w) != w:
                        kinds[w].add("lemma")
    tokens = {p: set(w for piece, yes in parts(p, t) if yes for w in bare(piece)) for p, t in texts.items()}
    new = {n: turned(n) for n in kinds}

    def clashes():
        found = collections.defaultdict(set)
        for p, ws in tokens.items():
            by = collections.defaultdict(set)
            for w in ws:
                by[new[w] if w in new and w not in keeps[p] else w].add(w)
            for to, olds in by.items():
                if len(olds) > 1:
                    found[to] |= olds
        return found

    for _ in range(4):
        found = clashes()
        if not found:
            break
        for to, olds in sorted(found.items()):
            for o in olds:  # a lemma that has a definition's new name already
                if o not in new and plain[o] == {"lemma"} and any(kinds[d] == {"definition"} for d in olds if d in new):
                    new[o] = o + "_lem"
                    kinds[o] = {"lemma"}
            if not any(o not in new for o in olds) and to in olds:
                continue
            taken = any(o not in new for o in olds)
            for o in sorted(o for o in olds if o in new):
                if taken or kinds[o] == {"lemma"}:
                    new[o] += "_lem" if kinds[o] == {"lemma"} else "_of"
    left = clashes()
    if "--list" in sys.argv:
        for o in sorted(new):
            print(o, new[o], "/".join(sorted(kinds[o])))
        for to, olds in left.items():
            print("falls together:", to, sorted(olds))
        return
    if left:
        raise SystemExit(f"names fall together: {dict(left)}")
    for p, t in texts.items():
        def swap(m):
            w = m.group(0)
            return new[w] if w in new and w not in keeps[p] else w
        out = "".join(TOKEN.sub(swap, piece) if yes else piece for piece, yes in parts(p, t))
        out = out[:-1]  # parts ends each line, the last too
        if out != t:
            with open(p, "w", encoding="utf-8") as f:
                f.write(out)
    with open(os.path.join(root, "tools", "names.txt"), "w", encoding="utf-8") as f:
        f.writelines(f"{o} {new[o]}\n" for o in sorted(new))


main()

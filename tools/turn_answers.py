#!/usr/bin/env python3
"""Turns the proofs of a crate that have the old form (Proof.antt, with its Tie) into Invariants.antt and Answers.antt.

usage: turn_answers.py CRATE [FUNCTION..]

       turn_answers.py CRATE --again [FUNCTION..]

Run it at the top of the repository. Where it says so, run it a second time with --again, which runs a check to see what records Rattle makes. FUNCTION is a folder below proofs/, such as Words/below. It reads names.json, which
'rt check --generated DIR --old-names' writes (it runs that where the file is missing, with DIR in /tmp/turn-HASH), turns each Proof.antt that it can read,
removes it, and says which it left. It also adds '#![tactic(auto)]' to the crate's root.
"""

import hashlib
import json
import os
import re
import subprocess
import sys

HEAD = re.compile(r"^((?:abbrev |pub |unfoldable )*)([^\s:(){}]+) :(\s|$)")
WORD = r"[^\s(){}.;,@\"«»\[\]\\]+"
NAME = re.compile(r"(?<![^\s(){};,\[\]\\])" + WORD)
KEEP_DASH = re.compile(r"^(field|not|in|in_ok|in_err|if|loop|returns|match)-|-(is|own|index|item|items|iterator|test|bits|fits|0|1|2)$")


def plain(name):
    return name.replace("_", "-")


HERE = hashlib.md5(os.getcwd().encode()).hexdigest()[:6]


def kept(what, crate):
    """A folder of /tmp for this checkout and this crate."""
    return "/tmp/turn-%s/%s-%s" % (HERE, what, crate)


class Left(Exception):
    pass


class Names:
    """The names of one function, old and new."""

    def __init__(self, entry):
        self.entry = entry
        self.places = entry["places"]
        self.new_place = entry["places_by_name"]
        self.at = {plain(p[0]): i for i, p in enumerate(self.places)}
        self.parent = [None if p[1] is None else self.at[plain(p[1])] for p in self.places]
        self.step = [p[2] for p in self.places]
        self.needs = {}
        for i, (old, new) in enumerate(entry["needs"]):
            self.needs[plain(old)] = (i, new)
        self.asked = entry["asked_at"]
        self.loops = entry["loops"]
        self.changed = entry["changed"]
        self.arms = entry["arms"]

    def need(self, old):
        key = plain(old)
        if key in self.needs:
            return self.needs[key]
        for cut in ("overflow-", "nonzero-"):
            if key.startswith(cut) and key[len(cut):] in self.needs:
                return self.needs[key[len(cut):]]
        return None

    def chain(self, place):
        while place is not None:
            yield place
            place = self.parent[place]

    def up(self, place, root):
        """How many steps `place` is above `root`."""
        n = 0
        p = root
        while p is not None and p != place:
            arm = self.arms[p] if p < len(self.arms) else None
            for _ in range(arm[1] if arm else 1):  # the steps of an arm are one record
                if p == place or p is None:
                    break
                p = self.parent[p]
            n += 1
        if p is None:
            raise Left("a place that is not above its own")
        return n


def blocks(text):
    """The head comment, the use lines and the declarations."""
    lines = text.split("\n")
    i = 0
    head = []
    while i < len(lines) and (lines[i].startswith("--") or not lines[i].strip()):
        if lines[i].strip():
            head.append(lines[i])
        i += 1
    uses = []
    while i < len(lines) and (lines[i].startswith("use ") or not lines[i].strip() or lines[i].startswith(" ")):
        if lines[i].startswith("use "):
            uses.append(lines[i])
        elif lines[i].strip():
            uses[-1] += "\n" + lines[i]
        i += 1
    decls = []
    comments = []
    cur = None
    for line in lines[i:]:
        if line.startswith("--"):
            comments.append(line)
            continue
        if not line.strip():
            continue
        if not line.startswith(" "):
            m = HEAD.match(line)
            if m and not (cur and re.match(re.escape(cur["name"]) + r"\s[^:]*=", line) and " = " in line.split(" : ")[0]):
                cur = {"mods": m.group(1), "name": m.group(2), "sig": line[m.end():].lstrip() if line[m.end():].strip() else "", "body": [], "unfolding": None, "comments": comments, "insig": True}
                comments = []
                decls.append(cur)
                continue
            if cur is None or line.startswith(("module", "pub data", "data ", "record ", "pub record", "open ")):
                raise Left("a declaration of another kind: " + line[:60])
            if line.startswith("unfolding "):
                cur["unfolding"] = line
                cur["insig"] = False
                continue
            cur["insig"] = False
            cur["body"].append(line)
            continue
        if cur is None:
            raise Left("text before the first declaration")
        if cur["insig"]:
            cur["sig"] += "\n" + line
        else:
            cur["body"].append(line)
    for d in decls:
        d["body"] = "\n".join(d["body"])
    return head, uses, decls


def opened(text):
    """A `module _ (c : tie.X ..) where` block, as declarations that take c themselves."""
    lines = text.split("\n")
    out = []
    i = 0
    while i < len(lines):
        m = re.match(r"module _ \((\S+) : (tie\.[A-Z][^()]*)\) where$", lines[i])
        if not m:
            out.append(lines[i])
            i += 1
            continue
        var, kind = m.groups()
        i += 1
        block = []
        while i < len(lines) and (not lines[i].strip() or lines[i].startswith("  ")):
            block.append(lines[i][2:])
            i += 1
        _, _, decls = blocks("use X\n" + "\n".join(block))
        names = []
        for d in decls:
            sig = d["sig"]
            body = []
            for args, right in equations(d):
                body.append((args, right))
            for x in names:
                to = {x: "(%s %s)" % (x, var)}
                sig = rename(sig, to)
                body = [(a, rename(r, to)) for a, r in body]
            out += d["comments"]
            one = "%s%s : (%s : %s) → %s" % (d["mods"], d["name"], var, kind, sig.strip())
            out += one.split("\n")
            if d["unfolding"]:
                out.append(d["unfolding"])
            for a, r in body:
                one = "%s %s =%s%s" % (d["name"], " ".join([var] + a), "" if r.startswith("\n") else " ", r)
                out += one.split("\n")
            out.append("")
            names.append(d["name"])
    return "\n".join(out)


def atoms_end(text, i):
    """The end of the bracket that opens at i."""
    depth = 0
    for j in range(i, len(text)):
        if text[j] in "({[":
            depth += 1
        elif text[j] in ")}]":
            depth -= 1
            if depth == 0:
                return j + 1
    return len(text)


def atoms(text, i):
    """The end of the atom that starts at i, or None."""
    if i >= len(text):
        return None
    if text[i] in "({[":
        depth = 0
        j = i
        while j < len(text):
            if text[j] in "({[":
                depth += 1
            elif text[j] in ")}]":
                depth -= 1
                if depth == 0:
                    j += 1
                    break
            j += 1
        else:
            return None
        while j < len(text) and text[j] == "." and j + 1 < len(text) and not text[j + 1].isspace():
            m = re.compile(WORD).match(text, j + 1)
            if not m:
                break
            j = m.end()
        return j
    m = re.compile(r"@?" + WORD + r"(?:\." + WORD + r")*").match(text, i)
    if not m or text[i] in "=→λ×":
        return None
    return m.end()


def equations(d):
    """The equations of a declaration, as (arguments, the right side)."""
    out = []
    text = d["body"]
    starts = [m.start() for m in re.finditer(r"^(?=\S)", text, re.M)]
    for a, b in zip(starts, starts[1:] + [len(text)]):
        eq = text[a:b].rstrip("\n")
        if not eq.startswith(d["name"]) :
            raise Left("an equation of another form: " + eq[:60])
        i = len(d["name"])
        args = []
        while True:
            while i < len(eq) and eq[i].isspace():
                i += 1
            if eq.startswith("=", i) and (i + 1 == len(eq) or eq[i + 1].isspace()):
                i += 1
                break
            j = atoms(eq, i)
            if j is None:
                raise Left("an equation of another form: " + eq[:60])
            args.append(eq[i:j])
            i = j
        out.append((args, eq[i:].lstrip(" ")))
    return out


TIE = re.compile(r"tie\.([A-Z][^\s(){}.;,]*)((?:\s+(?:invariant|decreases)-?[^\s(){}.;,→]*)*)")
BINDER = re.compile(r"\(([^():]+?) : tie\.([A-Z][^\s(){}.;,]*)((?:\s+(?:invariant|decreases)-?[^\s(){}.;,→]*)*)\)")


class Turner:
    def __init__(self, names, module, crate):
        self.n = names
        self.module = module
        self.crate = crate
        self.imports = set()
        self.cited = {}
        self.helpers = {}
        self.gives = {}
        self.want = None
        self.views = None
        self.problems = []

    # A path such as c.before.before.loop.i

    def goes(self, var, segs, env, goal):
        """The path's new spelling."""
        n = self.n
        place, spelled = env[var]
        root = place
        i = 0
        while i < len(segs) and segs[i] == "before":
            if place is None:
                break
            if n.parent[place] is not None:  # an older path may have steps that are no longer there
                place = n.parent[place]
            i += 1
        rest = segs[i:]
        if not rest:
            return ("place", place)
        f = rest[0]
        for p in n.chain(root):
            old, new = n.step[p]
            if old and plain(old) == plain(f):
                for q in n.chain(root):
                    arm = n.arms[q] if q < len(n.arms) else None
                    if not arm:
                        continue
                    for field, step, path in sorted(arm[2], key=lambda a: -len(a[2])):
                        if plain(step) == plain(f) and rest[1:1 + len(path)] == path and len(rest) > 1:
                            return ("path", [arm[0], field] + self.fields(rest[1 + len(path):]))
                more = rest[1:]
                if more and more[0] in ("taken", "left") and re.match(r"(if|loop)-", new):
                    more = [{"taken": "true", "left": "false"}[more[0]]] + more[1:]
                if len(more) > 1 and more[0] == "new" and more[1].isdigit():
                    more = ["new"] + self.behind(p, more[1:])
                return ("path", [new] + self.fields(more))
        if f == "pre":
            f = "requires"
        if f.endswith("_lem"):  # a step that the scripts took for a lemma of std
            return self.goes(var, segs[:i] + [f[:-4]] + rest[1:], env, goal)
        return ("path", [f.replace("-", "_") if f in ("well-formed",) else f] + self.fields(rest[1:]))

    def behind(self, place, digits):
        """The parameter that .1.1.0 names after `new`, of the call that leads to the place."""
        callee = self.n.places[place][3]
        params = self.n.entry["params"].get(callee)
        k = 0
        while k < len(digits) and digits[k] == "1":
            k += 1
        if params and k < len(params):
            return [params[k]] + digits[k + (1 if k < len(digits) and digits[k] == "0" else 0):]
        return digits

    def fields(self, segs):
        return [s if KEEP_DASH.search(s) or s in dashed() else s.replace("-", "_") for s in segs]

    def as_place(self, var, place, env, goal):
        n = self.n
        root, spelled = env[var]
        place, root = self.settled(place), self.settled(root)
        if goal is not None:
            return "(goal.at.%s %s).%s" % (goal, spelled, self.place(place, False))
        if place == root:
            return spelled
        views = self.views
        if views is None:
            self.problems.append("again")
            views = {}
        view = 1 if n.new_place[root] in views else 0
        chain = spelled + ".before" * (n.up(place, root) + view)
        if n.new_place[place] not in views:
            return chain
        mine = views.get(n.new_place[root], {})
        typed = "; ".join("%s = %s" % (v, spelled + (".type_inv." + v if mine.get(v) == at else at)) for v, at in views[n.new_place[place]].items())
        return "(record { before = %s; type_inv = record {%s} })" % (chain, " " + typed + " " if typed else " ")

    def settled(self, place):
        """The nearest place above that is named after the source, where no helper cites what lies between."""
        n = self.n
        while n.parent[place] is not None and re.search(r"_(known|told|is)-|-unread$|^After-self-|items_fit", n.new_place[place]):
            if plain(n.step[place][0]) in self.cited.get(place, ()):
                break
            place = n.parent[place]
        return place

    def place(self, place, wants=True):
        place = self.settled(place)
        name = self.n.new_place[place]
        if wants:
            self.imports.add(name)
        return name

    def text(self, text, env, goal):
        """The text with its paths and calls of helpers turned. env: variable -> (place, spelling)."""
        # lets that name a place
        while True:
            m = None
            for m in re.finditer(r"\blet (" + WORD + r")(?: : tie\.[A-Z][^=]*)? = (" + WORD + r")((?:\.before)+) in\s*", text):
                if m.group(2) in env:
                    break
                m = None
            if m is None:
                break
            kind, what = self.goes(m.group(2), m.group(3)[1:].split("."), env, goal)
            if kind != "place":
                break
            env = dict(env)
            env["\0" + m.group(1)] = (what, env[m.group(2)][1])
            text = text[:m.start()] + text[m.end():]
            var, (place, spelled) = m.group(1), env.pop("\0" + m.group(1))
            root = m.group(2)
            depth = m.group(3)
            text = re.sub(r"(?<![^\s(){};,\[\]\\])" + re.escape(var) + r"(?=[\s().{};,\[\]]|$)", root + depth, text)
        # the value of an arm that a let names
        for m in list(re.finditer(r"\blet (" + WORD + r") = (" + WORD + r")((?:\." + WORD + r")+) in\s*", text)):
            segs = [x for x in m.group(3)[1:].split(".") if x != "before"]
            if m.group(2) not in env or not segs or segs[1:] not in ([], ["given"]):
                continue
            arms = [self.n.arms[q] for q in self.n.chain(env[m.group(2)][0]) if q < len(self.n.arms) and self.n.arms[q]]
            if any(plain(step) == plain(segs[0]) and path for arm in arms for _, step, path in arm[2]):
                text = text.replace(m.group(0), "", 1)
                text = re.sub(r"(?<![^\s(){};,\[\]\\])" + re.escape(m.group(1)) + r"(?=\.)", m.group(2) + m.group(3), text)
        # calls that a let names
        for m in re.finditer(r"\blet (" + WORD + r") = (" + WORD + r")((?:\." + WORD + r")+) in", text):
            if m.group(2) not in env:
                continue
            segs = m.group(3)[1:].split(".")
            if [x for x in segs if x != "before"][1:]:
                continue
            kind, what = self.goes(m.group(2), segs, env, goal)
            p = next((p for p in self.n.chain(env[m.group(2)][0]) if kind == "path" and self.n.step[p][1] == what[0]), None)
            if p is not None and len(what) == 1:
                text = re.sub(r"(?<![^\s(){};,\[\]])" + re.escape(m.group(1)) + r"\.new((?:\.[01])+)(?=[\s().;,}\]]|$)",
                              lambda k: m.group(1) + ".new." + ".".join(self.behind(p, k.group(1)[1:].split("."))), text)
        # places that the text itself binds
        env = dict(env)
        for b in BINDER.findall(text):
            for x in b[0].split():
                if plain(b[1]) in self.n.at:
                    env[x] = (self.n.at[plain(b[1])], x)
        out = []
        pos = 0
        path = re.compile(r"(?<![^\s(){};,\[\]\\←])(" + "|".join(re.escape(v) for v in env) + r")((?:\.(?:«[^»]*»|[^\s(){}.;,@\"«»\[\]\\]+))*)(?![^\s(){}.;,@\"«»\[\]\\])") if env else None
        if path:
            for m in path.finditer(text):
                var = m.group(1)
                segs = m.group(2)[1:].split(".") if m.group(2) else []
                out.append(text[pos:m.start()])
                pos = m.end()
                root, spelled = env[var]
                if not segs:
                    before = text[:m.start()].rstrip()
                    after = text[m.end():m.end() + 3]
                    if (after.startswith(" =") and before.endswith(("{", ";"))) or (after.startswith(" :") and before.endswith("(")) or before.endswith("λ"):
                        out.append(m.group(0))
                        continue
                kind, what = self.goes(var, segs, env, goal)
                if kind == "place" and self.want is not None and text.strip() == m.group(0):
                    what = self.want
                elif kind == "place":
                    h = re.search(r"(?:^|[\s(])(" + WORD + r") $", text[:m.start()])
                    if h and h.group(1) in self.helpers and self.helpers[h.group(1)] in self.n.chain(root):
                        what = self.helpers[h.group(1)]
                if kind == "path":
                    out.append(spelled + "." + ".".join(what))
                else:
                    out.append(self.as_place(var, what, env, goal))
            out.append(text[pos:])
            text = "".join(out)
        text = self.plain_fields(text)
        # of `!f(..)` today's test speaks of what f gave
        calls = {re.sub(r"-\d+$", "", p[2][1]) for p in self.places_called()}
        if calls:
            neg = r"(" + WORD + r"\.(?:if|loop)-not-(?:" + "|".join(re.escape(x) for x in calls) + r")(?:-\d+)?\.(?:true|false))(?=[\s(){};,\[\]]|$)"
            text = re.sub(r"\(not[-_](?:true|false) (?:_|" + WORD + r"(?:\." + WORD + r")*) " + neg + r"\)", lambda m: "\\" + m.group(1), text)
            text = re.sub(r"\bnot[-_](?:true|false) (?:_|" + WORD + r"(?:\." + WORD + r")*) " + neg, lambda m: "\\" + m.group(1), text)
            text = re.sub(r"(?<![\\\w.])" + neg, r"(ap not \1)", text)
            text = text.replace("\\", "")
        # a helper that gives a place
        for name, place in self.gives.items():
            pos = 0
            while True:
                m = re.compile(r"\(" + re.escape(name) + r"(?=\s)").search(text, pos)
                if not m:
                    break
                j = atoms_end(text, m.start())
                pos = m.end()
                after = re.compile(r"((?:\.(?:«[^»]*»|[^\s(){}.;,@\"«»\[\]\\]+))+)").match(text, j)
                if not after:
                    continue
                kind, what = self.goes("\0", after.group(1)[1:].split("."), {"\0": (place, "")}, goal)
                if kind == "path":
                    text = text[:j] + "." + ".".join(what) + text[after.end():]
        return text

    def places_called(self):
        return [p for p in self.n.places if p[3]]

    def plain_fields(self, text):
        """Arguments that have another name today, and names of the source that an older file spells with dashes."""
        aliases = re.findall(r"\blet (" + WORD + r") = (?:" + WORD + r"\.)*args in", text)
        for old, new in self.n.entry["args"]:
            a, b = old.replace(" ", "").strip("."), new.replace(" ", "").strip(".")
            text = re.sub(r"\." + re.escape(a) + r"(?=[\s().;,}\]]|$)", "." + b, text)
            if "." in a:
                one, two = a.split(".")[-1], b.split(".")[-1]
                if a.startswith("args."):
                    for x in aliases:
                        text = re.sub(r"(?<![^\s(){};,\[\]])" + re.escape(x) + r"\." + re.escape(one) + r"(?=[\s().;,}\]]|$)", x + "." + two, text)

        def one(m):
            w = m.group(1)
            u = w.replace("-", "_")
            return "." + u if w not in dashed() and u in of_source() else m.group(0)
        return re.sub(r"(?<=[^\s({\[,;])\.([a-z][A-Za-z0-9_]*(?:-[A-Za-z0-9_]+)+)(?=[\s().;,}\]]|$)", one, text)

    def types(self, text):
        """tie.X inv dec in a type."""
        def one(m):
            place = self.n.at.get(plain(m.group(1)))
            if place is None:
                raise Left("no place " + m.group(1))
            return self.place(place)
        return TIE.sub(one, text)

    def env_of(self, d, args):
        env = {}
        pos = 0
        sig = d["sig"]
        i = 0
        # walk the binders in order
        while True:
            m = re.compile(r"\s*(?:→\s*)?").match(sig, i)
            i = m.end()
            if i >= len(sig):
                break
            if sig[i] == "(":
                j = atoms(sig, i)
                b = BINDER.match(sig[i:j])
                inner = sig[i + 1:j - 1]
                names = inner.split(" : ")[0].split() if " : " in inner else None
                if names is None:
                    j = self.skip(sig, i)
                    pos += 1
                else:
                    for x in names:
                        if b and pos < len(args):
                            env[args[pos]] = (self.n.at[plain(b.group(2))], args[pos])
                        pos += 1
                i = j
            elif sig[i] == "{":
                i = atoms(sig, i)
            else:
                j = self.skip(sig, i)
                m = re.match(r"tie\.([A-Z][^\s(){}.;,]*)", sig[i:j])
                if m and pos < len(args) and plain(m.group(1)) in self.n.at:
                    env[args[pos]] = (self.n.at[plain(m.group(1))], args[pos])
                i = j
                pos += 1
            if not re.match(r"\s*(→|\()|\s*\{", sig[i:]):
                break
        return env

    def skip(self, sig, i):
        depth = 0
        while i < len(sig):
            if sig[i] in "({[":
                depth += 1
            elif sig[i] in ")}]":
                depth -= 1
            elif sig[i] == "→" and depth == 0:
                return i
            i += 1
        return i


def trivial(right):
    r = right.strip()
    return bool(re.fullmatch(r"\(*\s*(search rules|omega arith|tt|refl)(\s*,\s*(search rules|omega arith|tt|refl))*\s*,?\s*\)*", r)) or bool(
        re.fullmatch(r"record \{\s*(\w+ = (search rules|omega arith|tt);?\s*)*\}", r))


def invariant(d, names, crate):
    """An invariant or a measure in today's form: (name, text)."""
    m = re.match(r"(invariant|decreases)-?(.*)$", d["name"])
    kind, old = m.group(1), m.group(2)
    index = next((i for i, ((o, w), v) in enumerate(names.loops) if plain(o) == plain(old)), None)
    if index is None:
        raise Left("no loop " + d["name"])
    (o, new), live = names.loops[index]
    changed = names.changed[index]
    args, right = equations(d)[0]
    want = len(live) + sum(changed)
    if len(args) != want:
        raise Left("%s takes %d arguments, and %d are expected (%s)" % (d["name"], len(args), want, " ".join(live)))
    to = {}
    for j, v in enumerate(live):
        to[args[j]] = ("l.initial." if changed[j] else "l.") + v
    k = len(live)
    for j, v in enumerate(live):
        if changed[j]:
            to[args[k]] = "l." + v
            k += 1
    to.pop("_", None)
    return kind, new, rename(right, to), (args, right)


def rename(text, to):
    """The whole tokens of `to`, with what they are turned to; not those that a λ or a let binds again, nor fields."""
    if not to:
        return text
    pat = re.compile(r"(?<![^\s(){};,\[\]\\←])(" + "|".join(re.escape(v) for v in sorted(to, key=len, reverse=True)) + r")(?=[\s(){}.;,\[\]]|$)")

    def one(m):
        after = text[m.end():m.end() + 3]
        before = text[:m.start()].rstrip()
        if after.startswith(" = ") and (before.endswith("{") or before.endswith(";")):
            return m.group(0)
        return to[m.group(1)]
    return pat.sub(one, text)


def used(name, text):
    return re.search(r"(?<![^\s(){};,\[\]\\.←])" + re.escape(name) + r"(?=[\s(){}.;,\[\]]|$)", text) is not None


DASHED = set()


def dashed():
    """The words with a dash that specs/ and the lemma files have."""
    if not DASHED:
        DASHED.add("-")
        for base, _, files in os.walk("crates"):
            if "/out" in base or not re.search(r"/(specs|proofs)\b", base):
                continue
            for f in files:
                if f.endswith(".antt") and f not in ("Proof.antt", "Answers.antt", "Invariants.antt"):
                    DASHED.update(re.findall(r"(?m)^\s+(?:pub )?([^\s(){}.;,:]+-[^\s(){}.;,:]+) :", open(os.path.join(base, f), encoding="utf-8").read()))
    return DASHED


def needs_again(use):
    """A definition `needs` of the repository's own, which an earlier script took for the tactics' set."""
    m = re.match(r"use Rattle\.(\w+)\.specs\.([^{]+)\.\{(.*)\}", use, re.S)
    if m and re.search(r"\brules\b", m.group(3)):
        p = "crates/%s/specs/%s.antt" % (m.group(1), m.group(2).replace(".", "/"))
        if os.path.exists(p):
            text = open(p, encoding="utf-8").read()
            if not re.search(r"(?m)^(?:abbrev |pub |unfoldable )*rules :", text) and re.search(r"(?m)^(?:abbrev |pub |unfoldable )*needs :", text):
                return use.replace(m.group(3), re.sub(r"\brules\b", "needs", m.group(3)))
    return use


SOURCE = set()


def of_source():
    """The words of the source."""
    if not SOURCE:
        SOURCE.add("-")
        for base, _, files in os.walk("crates"):
            for f in files:
                if f.endswith(".rt"):
                    SOURCE.update(re.findall(r"\b\w+_\w+\b", open(os.path.join(base, f), encoding="utf-8").read()))
    return SOURCE


def views_of(crate, folder):
    """Which places have a record of their own in the generated View, with what the types say there."""
    p = "%s/Rattle-%s-proofs/%s/Lts/View.antt" % (kept("gen", crate), crate, folder)
    if not os.path.exists(os.path.dirname(os.path.dirname(p))):
        return None
    out = {}
    if not os.path.exists(p):
        return out
    text = open(p, encoding="utf-8").read()
    for m in re.finditer(r"pub record In-(\S+) : Type", text):
        t = re.search(r"^\s*typed-" + re.escape(m.group(1)) + r" =\s+λ c\. record \{(.*?)\}\s*$", text, re.M | re.S)
        fields = {}
        if t:
            for one in t.group(1).split(";"):
                if "=" in one:
                    a, b = one.split("=", 1)
                    fields[a.strip()] = b.strip()[1:]
        out[m.group(1)] = fields
    return out


def turn(crate, folder, path, entry):
    saved = "%s/%s/Proof.antt" % (kept("turned", crate), folder)
    source = os.path.join(path, "Proof.antt")
    text = open(source if os.path.exists(source) else saved, encoding="utf-8").read()
    os.makedirs(os.path.dirname(saved), exist_ok=True)
    open(saved, "w", encoding="utf-8").write(text)
    if ".Tie as tie" not in text:
        raise Left("no tie")
    names = Names(entry)
    module = "Rattle.%s.proofs.%s" % (crate, folder.replace("/", "."))
    head, uses, decls = blocks(opened(text))
    t = Turner(names, module, crate)
    t.views = views_of(crate, folder) if not os.path.exists(source) else None
    uses = [u for u in uses if ".Statement." not in u and ".Tie as tie" not in u and ".Statement as stated" not in u and "denote.Triple.Statement" not in u]
    uses = [needs_again(u) for u in uses]
    inv, ans, helpers = [], [], []
    loops = {}
    these = []
    said = []
    for d in decls:
        if "tie.close" in d["body"] or re.search(r"statement\b", d["sig"]):
            continue
        these.append(d)
    place_helpers = set()
    loop_decls = {}
    for d in these:
        if re.match(r"tie\.(invariant|decreases)", d["sig"].strip()):
            d["is"] = "loop"
        elif re.match(r"tie\.Need-", d["sig"].strip()):
            d["is"] = "need"
        else:
            d["is"] = "helper"
    for d in these:
        if d["is"] == "helper":
            g = re.search(r"→\s*tie\.([A-Z][^\s(){}.;,]*)[^→]*$", d["sig"].strip())
            if g and plain(g.group(1)) in names.at:
                t.gives[d["name"]] = names.at[plain(g.group(1))]
            b = BINDER.match(d["sig"].strip())
            bare = re.match(r"tie\.([A-Z][^\s(){}.;,]*)[^→]*→", d["sig"].strip())
            if bare and plain(bare.group(1)) in names.at:
                t.helpers[d["name"]] = names.at[plain(bare.group(1))]
            if b and len(b.group(1).split()) == 1 and plain(b.group(2)) in names.at:
                t.helpers[d["name"]] = names.at[plain(b.group(2))]
    # the steps that each helper cites at its own place
    for d in these:
        if d["is"] == "helper":
            for b in BINDER.findall(d["sig"]):
                place = names.at.get(plain(b[1]))
                words = {plain(w) for w in re.findall(r"(?<=\.)[^\s(){}.;,]+", d["sig"] + d["body"])}
                p = place
                while p is not None:
                    t.cited.setdefault(p, set()).update(words)
                    p = names.parent[p]
    # what the invariants cite
    for d in these:
        if d["is"] == "loop":
            d["turned"] = invariant(d, names, crate)
            loop_decls[d["name"]] = d
    of_inv = set()
    todo = [rename(d["turned"][3][1], {a: " " for a in d["turned"][3][0]}) for d in these if d["is"] == "loop"]
    while todo:
        it = todo.pop()
        for d in these:
            if d["is"] == "helper" and d["name"] not in of_inv and used(d["name"], it):
                of_inv.add(d["name"])
                todo.append(d["sig"] + d["body"])
    inv_text, ans_text = [], []
    for d in these:
        if d["is"] == "loop":
            kind, new, right, _ = d["turned"]
            c = "\n".join(d["comments"])
            inv_text.append((c + "\n" if c else "") + "abbrev pub %s-%s : goal.%s-%s\n%s-%s l =%s%s" % (
                kind, new, kind, new, kind, new, "" if right.startswith("\n") else " ", right))
            continue
        if d["is"] == "need":
            m = re.match(r"tie\.Need-([^\s(){}.;,]+)", d["sig"].strip())
            found = names.need(m.group(1))
            if found is None:
                said.append("dropped %s: no such goal" % m.group(1))
                continue
            index, new = found
            if new is None:
                continue
            eqs = equations(d)
            if len(eqs) != 1:
                raise Left("several equations for " + d["name"])
            args, right = eqs[0]
            d["goal"] = new
            args = [a for a in args if a != "κs"]
            if trivial(right) and not d["unfolding"]:
                continue
            place = t.n.at[plain(names.asked[index][0])]
            cvar = args[-1] if args else "c"
            # a generic function's arguments come first
            if not args:
                mm = re.match(r"λ (" + WORD + r")(?: κs)?\. ", right)
                if not mm:
                    raise Left("an answer with no argument: " + d["name"])
                cvar = mm.group(1)
                right = right[mm.end():]
                args = [cvar]
            if len(args) > 1 and plain(names.asked[index][0]):
                cvar = next((a for a in args if re.search(r"\b%s\." % re.escape(a), right)), args[0])
            body = expand(right, loop_decls, names)
            body = t.types(t.text(body, {cvar: (place, cvar)}, new))
            c = "\n".join(d["comments"])
            ans_text.append((c + "\n" if c else "") + "pub %s : goal.%s\n%s%s %s =%s%s" % (
                new, new, (d["unfolding"] + "\n") if d["unfolding"] else "", new, " ".join(args), "" if body.startswith("\n") else " ", body))
            continue
        # a helper
        c = "\n".join(d["comments"])
        eqs = equations(d)
        sig = d["sig"]
        lines = []
        env0 = {}
        bs = BINDER.findall(sig)
        senv = {}
        for b in bs:
            for x in b[0].split():
                senv[x] = (names.at[plain(b[1])] if plain(b[1]) in names.at else None, x)
        for x, (p, _) in senv.items():
            if p is None:
                raise Left("no place of " + x)
        newsig = sig
        if senv:
            masked = BINDER.sub(lambda m: "(\1" + m.group(1) + " : " + t.place(names.at[plain(m.group(2))]) + "\2)", sig)
            parts = re.split("(\\(\x01[^\x02]*\x02\\))", masked)
            newsig = "".join(p.replace("\1", "").replace("\2", "") if "\1" in p else t.text(p, senv, None) for p in parts)
        newsig = t.types(expand(newsig, loop_decls, names))
        for args, right in eqs:
            env = t.env_of(d, args)
            t.want = t.gives.get(d["name"])
            body = t.types(t.text(expand(right, loop_decls, names), env, None))
            t.want = None
            lines.append("%s%s =%s%s" % (d["name"], "".join(" " + a for a in args), "" if body.startswith("\n") else " ", body))
        one = (c + "\n" if c else "") + "%s%s : %s\n%s%s" % (d["mods"], d["name"], newsig, (d["unfolding"] + "\n") if d["unfolding"] else "", "\n".join(lines))
        if d["name"] in of_inv:
            if "pub" not in d["mods"]:
                one = one.replace("%s%s :" % (d["mods"], d["name"]), "%spub %s :" % (d["mods"], d["name"]), 1)
            inv_text.append(one)
        else:
            ans_text.append((d["name"], one))
    # helpers that nothing cites are dropped
    while True:
        keep = []
        gone = False
        for i, a in enumerate(ans_text):
            if isinstance(a, tuple):
                others = "\n".join(b[1] if isinstance(b, tuple) else b for j, b in enumerate(ans_text) if j != i)
                if not used(a[0], others):
                    gone = True
                    continue
            keep.append(a)
        ans_text = keep
        if not gone:
            break
    ans_text = [a[1] if isinstance(a, tuple) else a for a in ans_text]
    said += t.problems
    files = {}
    if inv_text:
        files["Invariants.antt"] = ("Given", inv_text, [])
    if ans_text:
        body = "\n".join(ans_text)
        need = sorted(x for x in t.imports if re.search(r"(?<![\w.-])" + re.escape(x) + r"(?![\w-])", body))
        also = [x for x in sorted(of_inv) if used(x, body)]
        files["Answers.antt"] = ("Goals", ans_text, (need, also))
    first = True
    for f in ("Answers.antt", "Invariants.antt"):
        if f not in files:
            continue
        mod, texts, more = files[f]
        body = "\n\n".join(texts)
        lines = []
        if first:
            lines += head
        first = False
        have = prune(uses, body)
        for word, home in (("ap", "mathlib.Core.Path"), ("not", "mathlib.Core.Bool")):
            if "(ap not " in body and not any(re.search(r"[{ ]" + word + r"[,}]", u) for u in have):
                have.append("use %s.{%s}" % (home, word))
        lines += have
        if more and more[1]:
            lines.append("use %s.Invariants.{%s}" % (module, ", ".join(more[1])))
        if re.search(r"(?<![\w.-])goal\.", body):
            lines.append("use %s.%s as goal" % (module, mod))
        if more and more[0]:
            lines.append("use %s.%s.{%s}" % (module, mod, ", ".join(more[0])))
        open(os.path.join(path, f), "w", encoding="utf-8").write("\n".join(lines) + "\n\n" + body + "\n")
    if os.path.exists(source):
        os.remove(source)
    if not os.listdir(path):
        os.rmdir(path)
    return said, len(inv_text), len(ans_text)


def prune(uses, body):
    """The use lines without the names that the text does not have."""
    out = []
    for u in uses:
        m = re.match(r"use ([^{]+)\.\{(.*)\}\s*$", u, re.S)
        if not m:
            out.append(u)
            continue
        names = [x.strip() for x in m.group(2).split(",") if x.strip()]
        stay = []
        for x in names:
            last = x.split(" as ")[-1]
            parts = [p for p in last.split("◌") if p]
            if "◌" in last:
                if last == "[]" or all(p in body for p in parts):
                    stay.append(x)
            elif re.search(r"(?<![^\s(){}.;,←\[\]])" + re.escape(last) + r"(?=[\s(){}.;,\[\]]|$)", body):
                stay.append(x)
        if stay:
            out.append("use %s.{%s}" % (m.group(1), ", ".join(stay)))
    rules = "use borrow.Author.Rules.{rules}"
    others = [u for u in out if u != rules and re.search(r"[{ ]rules[,}]", u)]
    if rules in out and others:
        if not re.search(r"(search|grind|omega|assumption) (rules\b|\([^()]*\brules\b)", body):
            out.remove(rules)
        else:
            out = [re.sub(r"\brules, |, rules\b(?!_)", "", u) if u in others else u for u in out]
    return out


def expand(text, loop_decls, names):
    """Calls of an old invariant with all its arguments, as the invariant's own text at them."""
    for name, d in loop_decls.items():
        while True:
            m = re.search(r"(?<![^\s(){};,\[\]\\])" + re.escape(name) + r"(?=\s)", text)
            if not m:
                break
            args, right = d["turned"][3]
            i = m.end()
            got = []
            for _ in args:
                while i < len(text) and text[i].isspace():
                    i += 1
                j = atoms(text, i)
                if j is None:
                    break
                got.append(text[i:j])
                i = j
            if len(got) != len(args):
                break
            to = dict(zip(args, got))
            to.pop("_", None)
            text = text[:m.start()] + "(" + rename(right.strip(), to) + ")" + text[i:]
        # left whole
    return text


def auto(crate):
    for root in ("lib.rt", "main.rt"):
        p = "crates/%s/src/%s" % (crate, root)
        if not os.path.exists(p):
            continue
        s = open(p, encoding="utf-8").read()
        if "#![tactic(" in s:
            continue
        lines = s.split("\n")
        i = 0
        while i < len(lines) and lines[i].startswith("//"):
            i += 1
        if i and lines[i].strip() and not lines[i].startswith(("ghost use", "use", "mod", "pub mod", "#!")):
            i = 0  # the comment belongs to the first item
        add = (["", "#![tactic(auto)]"] if i else ["#![tactic(auto)]"])
        if i < len(lines) and lines[i].strip():
            add.append("")
        lines[i:i] = add
        open(p, "w", encoding="utf-8").write("\n".join(lines))
        print("added #![tactic(auto)] to", p)


def main():
    crate, only = sys.argv[1], sys.argv[2:]
    os.makedirs(kept("turned", crate), exist_ok=True)
    folder = kept("names", crate)
    os.makedirs(os.path.dirname(folder), exist_ok=True)
    if not os.path.exists(folder + "/names.json"):
        subprocess.run(["rt", "check", "--generated", folder, "--old-names"], cwd="crates/" + crate, stdout=subprocess.DEVNULL, stderr=subprocess.DEVNULL)
    if not os.path.exists(folder + "/names.json"):
        sys.exit("no names.json of %s: its source does not read yet" % crate)
    auto(crate)
    d = json.load(open(folder + "/names.json", encoding="utf-8"))
    by = {k[len("Rattle-%s-proofs." % crate):-len(".Lts")].replace(".", "/"): v for k, v in d.items() if k.endswith(".Lts")}
    top = "crates/%s/proofs" % crate
    done = 0
    left = []
    again = "--again" in only
    only = [x for x in only if x != "--again"]
    listed = kept("turned", crate) + "/again"
    if again:
        subprocess.run(["rt", "check", "--generated", kept("gen", crate)], cwd="crates/" + crate, stdout=subprocess.DEVNULL, stderr=subprocess.DEVNULL)
        only = only or open(listed, encoding="utf-8").read().split()
    second = []
    for path, _, files in sorted(os.walk(top)):
        f = os.path.relpath(path, top)
        if again and f not in only:
            continue
        if not again and "Proof.antt" not in files:
            continue
        if only and f not in only:
            continue
        entry = by.get(f) or next((v for k, v in by.items() if plain(k) == plain(f)), None)
        if entry is None:
            left.append((f, "no names of it"))
            continue
        try:
            said, a, b = turn(crate, f, path, entry)
            done += 1
            if "again" in said:
                second.append(f)
            for s in dict.fromkeys(said):
                if s == "again":
                    s = "a helper calls another at a place above: run again with --again"
                print("%s: %s" % (f, s))
        except Left as e:
            left.append((f, str(e)))
    print("turned %d" % done)
    if not again:
        os.makedirs(os.path.dirname(listed), exist_ok=True)
        open(listed, "w", encoding="utf-8").write("\n".join(second))
    for f, why in left:
        print("left %s: %s" % (f, why))


main()

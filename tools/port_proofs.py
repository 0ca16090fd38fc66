#!/usr/bin/env python3
"""Turns the walks proofs/F/Proof.antt of an older Rattle into Invariants.antt and Answers.antt, by the names that
`rt check --generated DIR --old-names` writes to DIR/names.json.

usage, in a crate's folder: python3 ../../tools/port_proofs.py DIR/names.json
"""

import json
import os
import re
import sys

TOKEN = r"[^\s(){};,.«»λ:\"`\[\]]+"


def bare(name):
    return name.replace("_", "-")


def blocks(text):
    """The file's declarations: a list of (comment lines, head, lines)."""
    out, said, now = [], [], None
    for line in text.split("\n"):
        if line.startswith("--"):
            if now:
                out.append(now)
                now = None
            said.append(line)
        elif not line.strip():
            if now:
                now[1].append(line)
            elif said:
                said.append(line)
        elif line[0].isspace() or line.startswith(("unfolding ", "}", ")")):
            now[1].append(line)
        else:
            if now and said:
                out.append(now)
                now = None
            if now:
                out.append(now)
            now = [said, [line]]
            said = []
    if now:
        out.append(now)
    return [(c, [l for l in ls]) for c, ls in out]


def name_of(line):
    m = re.match(r"^(?:abbrev |pub |unfoldable )*(%s)" % TOKEN, line)
    return m.group(1) if m else None


class Names:
    def __init__(self, d):
        self.needs = {}
        for old, new in d["needs"]:
            self.needs.setdefault(bare(old), new)
        self.order = [new for _, new in d["needs"]]
        self.places, self.steps = {}, {}
        for (old, _, (so, sn), _, _), new in zip(d["places"], d["places_by_name"]):
            self.places.setdefault(bare(old), new)
            if so:
                self.steps.setdefault(bare(so), sn)
        self.loops = {}
        for (so, sn), variables in d["loops"]:
            self.loops[bare(so)] = (sn, variables)
            self.steps[bare(so)] = sn
            self.steps[bare(so) + "-test"] = sn + "-test"
        self.changed = d["changed"]
        self.params = {}
        for (_, _, (_, sn), callee, _) in d["places"]:
            if callee and callee in d["params"]:
                self.params[sn] = d["params"][callee]
        self.own = {}
        for (_, n), (_, at) in zip(d["needs"], d["asked_at"]):
            self.own.setdefault(n, at)
        self.stem = d["stem"]

    def step(self, k):
        """A step's old name as the file of names has it."""
        if k not in self.steps and k.endswith("-lem"):
            k = k[:-4]
        if k not in self.steps and k.lower() in self.steps:
            k = k.lower()
        m = re.fullmatch(r"fits(\d)", k)
        if m:
            k = "fits" if m.group(1) == "2" else "fits%d" % (int(m.group(1)) - 1)
        return k

    def place(self, k):
        m = re.fullmatch(r"After-fits(\d)", k)
        if m:
            k = "After-fits" if m.group(1) == "2" else "After-fits%d" % (int(m.group(1)) - 1)
        return k

    def need(self, tail):
        """The new name of a goal: its old name with or without the word before its kind."""
        t = bare(tail)
        for k in (t, re.sub(r"^(overflow|nonzero)-", "", t), re.sub(r"^slice-bounds-", "part-", t), re.sub(r"^array-read-", "element-copy-out-", t)):
            if k in self.needs:
                return self.needs[k]
        return None


def strip_args(text):
    """`tie.X a b` and `lts.X (..) a b`, as types, without their arguments."""
    out, i = "", 0
    for m in re.finditer(r"\b(tie|lts)\.([A-Z][^\s(){};,.]*)", text):
        if m.start() < i:
            continue
        out += text[i:m.start()] + "goal." + m.group(2)
        i = m.end()
        while True:
            n = re.match(r"[ \n]+(invariant-[\w-]+|decreases-[\w-]+|reads\.(?:Pre|Post))(?=[\s)]|$)", text[i:])
            if n:
                i += n.end()
                continue
            n = re.match(r"[ \n]+\((?:[\w-]+-reads|reads)\.(?:Asked|Learnt)(?:, (?:[\w-]+-reads|reads)\.(?:Asked|Learnt))*\)", text[i:])
            if n:
                i += n.end()
                continue
            break
    return out + text[i:]


def negated(step, way):
    """The fact of a test `!x` as it was: `not x ≡ true`, and not `x ≡ false`."""
    way = {"taken": "true", "left": "false"}.get(way, way)
    return "(not_from_%s _ %s.%s)" % ({"true": "false", "false": "true"}[way], step, way)


REF = r"[A-Za-z_][\w'₀-₉-]*(?:\.before)*"


def put(body, var, ref):
    return re.sub(r"(?<![\w.'-])%s(?![\w'-])" % re.escape(var), lambda m: ref, body)


def apply(text, name, var, body, paren):
    """Calls `name REF` in the text by the body."""
    def go(m):
        b = put(body, var, m.group(2))
        plain = re.fullmatch(REF, b)
        if m.group(1) == "(" and m.group(3) == ")":
            return b if plain else "(" + b + ")"
        return m.group(1) + (b if plain or not paren else "(" + b + ")") + m.group(3)

    for _ in range(6):
        new = re.sub(r"(\(|(?<=[=→×,] )|(?<=\n    )|(?<=in ))%s (%s)(\)|(?=[\s,;)]|$))" % (re.escape(name), REF), go, text)
        if new == text:
            return text
        text = new
    return text


def convert(path, d, crate, where):
    names = Names(d)
    text = open(path, encoding="utf-8").read()
    parts = blocks(text)
    uses = [ls for c, ls in parts if ls[0].startswith("use ")]
    lead = parts[0][0] if parts else []
    goal = f"Rattle.{crate}.proofs.{where}"
    defs, order = {}, []
    notes = []
    for c, ls in parts:
        if ls[0].startswith("use "):
            continue
        n = name_of(ls[0])
        if n is None:
            notes.append("what is " + ls[0])
            continue
        if n not in defs:
            defs[n] = [c, []]
            order.append(n)
        elif c:
            defs[n][0] += c
        defs[n][1] += ls
    raw = {n: "\n".join(ls).rstrip() for n, (c, ls) in defs.items()}
    # other names of places
    for n in list(raw):
        m = re.match(r"^abbrev (?:pub )?%s : Type 0\n%s =\s+((?:tie|lts)\.[A-Z].*)$" % (re.escape(n), re.escape(n)), raw[n], re.S)
        if m:
            del raw[n]
            for k in raw:
                raw[k] = put(raw[k], n, m.group(1))
    # helpers that only go back from one place to another
    back = {}
    for _ in range(5):
        for n in list(raw):
            m = re.match(r"^abbrev (?:pub )?%s :\s+(?:tie|lts)\.[A-Z][^\n]*(?:\n    [^\n]*)*\n%s (\w+) =\s+(%s)$" % (re.escape(n), re.escape(n), REF), raw[n])
            if m and re.search(r"→\s+(tie|lts)\.[A-Z]", raw[n]):
                back[n] = (m.group(1), m.group(2))
                del raw[n]
        for _ in range(4):
            for n, (var, body) in back.items():
                for k in raw:
                    raw[k] = apply(raw[k], n, var, body, False)
    old_words = {"inv": "invariant", "good": "well_formed", "kept": "auto", "last": "new"}
    raw = {n: re.sub(r"(\.[^\s(){};,.]+)\.(inv|good|kept|last)(?=[\s(){};,.])(?!\.(?:ensures|result|requires)\b)", lambda m: m.group(0) if m.group(1) == ".args" else m.group(1) + "." + old_words[m.group(2)], b + " ").rstrip() for n, b in raw.items()}
    helpers = {}
    for n in raw:
        m = re.match(r"^(?:abbrev )?(?:pub )?%s :\s+(?:\(\w+ : )?(?:tie|lts)\.([A-Z][^\s(){};,.]*)" % re.escape(n), raw[n])
        if m and not m.group(1).startswith("Need-") and names.place(bare(m.group(1))) in names.places:
            helpers[n] = names.places[names.place(bare(m.group(1)))]
    inv, ans = [], []
    inv_names = set()

    named = set()

    def fix(body, new=None, own=None, params=()):
        """Places, steps and goals by their new names. `new` is the name of the definition, `own` its place."""
        body = strip_args(body)
        chains = {}
        for v, e in re.findall(r"let ([\w'₀-₉-]+) = ([^\n]*?) in(?=\s|$)", body):
            if re.fullmatch(REF, e):
                chains[v] = chains.get(e.split(".")[0], e.split(".")[0])

        def ask(m):
            h, root = m.group(1), m.group(2).split(".")[0]
            root = chains.get(root, root)
            if h not in helpers or new is None:
                return m.group(0)
            named.add(helpers[h])
            if m.group(2) == root and helpers[h] == own:
                return m.group(0)
            return f"{h} (goal.at.{new} {root}).{helpers[h]}"

        if helpers:
            body = re.sub(r"(?<![\w.'-])(%s) (%s)(?![\w'.-])" % ("|".join(re.escape(h) for h in helpers), REF), ask, body)

        def place(m):
            k = names.place(bare(m.group(1)))
            if k in names.places:
                named.add(names.places[k])
                return names.places[k]
            if k.startswith("Need-") and names.need(k[5:]):
                return "goal." + names.need(k[5:])
            notes.append("no place " + k)
            return "goal." + m.group(1)

        body = re.sub(r"goal\.([A-Z][^\s(){};,.]*)", place, body)

        # places: the parameters of the definition, and what goes back from them
        roots = {re.match(r"\w*", x).group(0) for x in params}
        if not params and new is not None:
            for m in re.finditer(r"(?m)^[^\s:=]+ ([A-Za-z_]\w*)[^=\n]*=", body):
                roots.add(m.group(1))
        for w, q in re.findall(r"\((\w+) : ([A-Z][^\s(){};,.]*)\)", body):
            if q in named:
                roots.add(w)
        for v, e in re.findall(r"let ([\w'₀-₉-]+) = ([^\n]*?) in(?=\s|$)", body):
            if re.fullmatch(REF, e) and e.split(".")[0] in roots:
                roots.add(v)

        def step(m):
            root, back, k = m.group(1), m.group(2), bare(m.group(3))
            if not back and root not in roots:
                return m.group(0)
            k = names.step(k)
            if k in names.steps:
                return root + "." + names.steps[k]
            if k in ("args", "requires", "ranges", "pre", "well-formed"):
                return root + "." + m.group(3).replace("pre", "requires")
            return m.group(0)

        body = re.sub(r"((?<![\w.'₀-₉-])[A-Za-z_][\w'₀-₉-]*|\))((?:\.before)*)\.(?!before(?![\w-]))([^\s(){};,.\[\]]+)", step, body)
        # a step has its name at each place behind it
        for v in list(chains):
            if not re.search(r"(?<![\w.'₀-₉-])%s(?![\w'₀-₉.-])" % re.escape(v), re.sub(r"let %s = " % re.escape(v), "", body)):
                body = re.sub(r"([ ]*)let %s = %s in(\n|[ ])" % (re.escape(v), REF), lambda m: "" if m.group(2) == "\n" else m.group(1), body)
                body = re.sub(r"(?<![\w.'₀-₉-])%s(?:\.before)*\." % re.escape(v), chains[v] + ".", body)
        # what a call leaves, by the names of its parameters
        steps = {v: e.split(".")[-1] for v, e in re.findall(r"let ([\w'₀-₉-]+) = ([^\n ]*?) in(?=\s|$)", body)}

        def left(m):
            s = m.group(1).split(".")[-1]
            ps = names.params.get(s) or names.params.get(steps.get(s, ""))
            i = m.group(3).count(".1")
            if not ps or i >= len(ps):
                notes.append("no parameter for " + m.group(0))
                return m.group(0)
            return f"{m.group(1)}.{m.group(2)}.{ps[i]}"

        body = re.sub(r"([A-Za-z_][^\s(){};,]*)\.(auto|new)((?:\.1)*\.0)(?![\w])", left, body)
        body = re.sub(r"(\.(?:if|loop)-[^\s(){};,.\[\]]+)\.taken(?![\w-])", r"\1.true", body)
        body = re.sub(r"(\.(?:if|loop)-[^\s(){};,.\[\]]+)\.left(?![\w-])", r"\1.false", body)
        for v in re.findall(r"let ([\w'-]+) = [\w'.-]+\.if-not-[^\s(){};,.\[\]]+ in", body):
            body = re.sub(r"(?<![\w.'-])%s\.(true|false|taken|left)(?![\w-])" % re.escape(v), lambda m: negated(v, m.group(1)), body)
        body = re.sub(r"([A-Za-z_][\w'.₀-₉-]*\.if-not-[^\s(){};,.\[\]]+)\.(true|false)(?![\w-])", lambda m: negated(m.group(1), m.group(2)), body)
        body = re.sub(r"\(not-(?:true|false) _ \(not_from_(?:true|false) _ ([^\s()]+)\)\)", r"\1", body)
        body = re.sub(r"not-(?:true|false) _ \(not_from_(?:true|false) _ ([^\s()]+)\)", r"\1", body)
        for v in re.findall(r"let ([\w'-]+) = [\w'.-]+\.(?:if|loop)-[^\s(){};,.\[\]]+ in", body):
            body = re.sub(r"(?<![\w.'-])%s\.taken(?![\w-])" % re.escape(v), v + ".true", body)
            body = re.sub(r"(?<![\w.'-])%s\.left(?![\w-])" % re.escape(v), v + ".false", body)
        return body

    for n in order:
        if n not in raw:
            continue
        said = defs[n][0]
        body = raw[n]
        head = body.split("\n")[0]
        if re.search(r"(tie|lts)\.spec\b", body) or ": statement" in body or "statement M" in body or "{M : Type 1} → " in body:
            continue
        m = re.match(r"^abbrev (?:pub )?((invariant|decreases)-(loop[\w-]*)) : tie\.(invariant|decreases)-", head)
        if m:
            kind, lp = m.group(2), bare(m.group(3))
            if lp not in names.loops:
                notes.append("no loop " + lp)
                continue
            new, variables = names.loops[lp]
            at = list(names.loops).index(lp)
            changed = names.changed[at]
            rest = body.split("\n", 1)[1]
            q = re.match(r"^\S+((?:\s+[^\s=]+)*)\s*=\s*", rest)
            params = q.group(1).split()
            value = rest[q.end():]
            k = len(variables)
            table = {}
            for p, v, ch in zip(params[:k], variables, changed):
                table[p] = ("l.initial." + v) if ch else ("l." + v)
            for p, v in zip(params[k:], [v for v, ch in zip(variables, changed) if ch]):
                table[p] = "l." + v
            if len(params) != k + sum(changed):
                notes.append(f"{m.group(1)}: {len(params)} names for {k} and {sum(changed)}")
            table.pop("_", None)

            def sub(z):
                t = z.group(0)
                i = z.start()
                if t in table and not (i and value[i - 1] == ".") and not re.match(r"\s*=(?!\S)", value[z.end():]):
                    return table[t]
                return t

            value = re.sub(TOKEN, sub, value)
            inv.append((said, f"abbrev pub {kind}-{new} : goal.{kind}-{new}\n{kind}-{new} l ={' ' if not value.startswith(chr(10)) else ''}{value}"))
            inv_names.update(re.findall(TOKEN, value))
            continue
        m = re.match(r"^(?:pub )?(\S+) :\s*(tie|lts)\.Need-([^\s]+)", head)
        if not m:
            m2 = re.match(r"^(?:pub )?(\S+) :\s*\n?\s*(tie|lts)\.Need-([^\s]+)", body)
            m = m2
        if m:
            if re.search(r"=\s+search (rules|\(rules\))( depth \d+)?\s*$", body) and "unfolding" not in body:
                continue
            new = names.need(m.group(3))
            if new is None:
                notes.append("no goal for " + m.group(3))
                said = said + ["-- TODO no goal " + m.group(3)]
                new = m.group(3)
            rest = body[body.index("\n") + 1:] if "\n" in body else ""
            own = m.group(1)
            # lines between: `unfolding ..`
            lines = rest.split("\n")
            pre = []
            while lines and not lines[0].startswith(own + " ") and not re.match(re.escape(own) + r"\s*=", lines[0]):
                pre.append(lines.pop(0))
            rest = "\n".join(lines)
            q = re.match(re.escape(own) + r"((?:\s+[^\s=]+)*)\s*=", rest)
            if not q:
                notes.append("no body of " + own)
                continue
            params = [p for p in q.group(1).split() if p != "κs"]
            value = fix(rest[q.end():], new, names.own.get(new), params)
            if re.fullmatch(r"\s*search (rules|\(rules\))( depth \d+)?\s*", value) and not pre:
                continue
            ans.append(([s for s in said if not re.match(r"^-- src/", s)], f"pub {new} : goal.{new}\n" + ("\n".join(pre) + "\n" if pre else "") + f"{new} {' '.join(params)} ={value}", own))
            continue
        # a definition of the file's own
        ans.append((said, fix(body, helpers.get(n), helpers.get(n)), n))
    # definitions that invariants cite go beside them
    moved = []
    for a in list(ans):
        n = a[2]
        if n in inv_names and "goal." not in a[1] and not any(re.search(r"(?<![\w.'-])%s(?![\w'-])" % re.escape(q), a[1]) for q in named):
            moved.append(a)
            ans.remove(a)
    use_lines = []
    for ls in uses:
        u = " ".join(l.strip() for l in ls if l.strip())
        if re.search(r"\.(Statement|Tie|Reads|Lts)(\.\{| as )", u):
            continue
        use_lines.append(u)
    folder = os.path.dirname(path)
    if inv:
        out = [l for l in lead] + use_lines + [f"use {goal}.Given as goal", ""]
        for a in moved:
            b = a[1]
            b = re.sub(r"^(abbrev|unfoldable) (?!pub )", r"\1 pub ", b)
            if not re.match(r"^(abbrev pub|unfoldable pub|pub )", b):
                b = "pub " + b
            out += a[0] + [b, ""]
        for said, b in inv:
            out += said + [b, ""]
        open(os.path.join(folder, "Invariants.antt"), "w", encoding="utf-8").write("\n".join(out).rstrip() + "\n")
        lead = []
    if ans:
        used = "\n".join(a[1] for a in ans)
        nots = [w for w in ("not_from_true", "not_from_false") if re.search(r"(?<![\w-])%s(?![\w-])" % w, used) and not any(re.search(r"[{ ]%s[,}]" % w, u) for u in use_lines)]
        if nots:
            use_lines = use_lines + ["use Rattle.std.proofs.lemmas.Bool.{%s}" % ", ".join(nots)]
        extra = [f"use {goal}.Invariants.{{{', '.join(a[2] for a in moved)}}}"] if moved else []
        places = [f"use {goal}.Goals.{{{', '.join(sorted(named))}}}"] if named else []
        out = [l for l in lead] + use_lines + extra + [f"use {goal}.Goals as goal"] + places + [""]
        for said, b, _ in ans:
            out += said + [b, ""]
        open(os.path.join(folder, "Answers.antt"), "w", encoding="utf-8").write("\n".join(out).rstrip() + "\n")
    os.remove(path)
    return notes


def main():
    d = json.load(open(sys.argv[1], encoding="utf-8"))
    crate = os.path.basename(os.getcwd())
    for folder, dirs, files in os.walk("proofs"):
        if "Proof.antt" not in files:
            continue
        where = os.path.relpath(folder, "proofs").replace("/", ".")
        key = f"Rattle-{crate}-proofs.{where}.Lts"
        path = os.path.join(folder, "Proof.antt")
        if key not in d:
            print("no names:", path)
            continue
        if "tie.close" not in open(path, encoding="utf-8").read():
            print("by hand:", path)
            continue
        for n in convert(path, d[key], crate, where):
            print(f"{path}: {n}")


if __name__ == "__main__":
    main()

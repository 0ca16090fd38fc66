#!/usr/bin/env python3
"""Places in src/ that an older form of Rattle left: docs/DESIGN-PASS.md has the counts.

    python3 tools/design_places.py          the count of each rule
    python3 tools/design_places.py RULE     its places, one a line

A rule is a pattern: it finds places to look at, and says nothing of what should be done there."""
import re
import sys
from collections import defaultdict
from pathlib import Path

ROOT = Path(__file__).resolve().parent.parent
FUNCTION = re.compile(r"^(\s*)(?:pub(?:\(crate\))? )?(?:const )?(?:extern \"C\" )?fn (\w+)")


class Function:
    def __init__(self, path, line, name, comment, head, body):
        self.path, self.line, self.name = path, line, name
        self.comment, self.head, self.body = comment, head, body
        self.signature = re.split(r"\b(?:requires|ensures)\b", head)[0]
        self.contract = head[len(self.signature):]
        arrow = re.search(r"\) -> (.*)$", self.signature.strip(), re.S)
        self.result = arrow.group(1).strip() if arrow else "()"
        inside = re.search(r"\((.*)\)", self.signature, re.S)
        self.parameters = re.findall(r"(\w+): ((?:&(?:'\w+ )?(?:mut )?)?[\w\[\]:;<> ]+)", inside.group(1)) if inside else []

    def __str__(self):
        return f"{self.path}:{self.line} {self.name}"


def functions(path):
    lines = (ROOT / path).read_text().split("\n")
    i = 0
    while i < len(lines):
        m = FUNCTION.match(lines[i])
        if not m:
            i += 1
            continue
        indent = m.group(1)
        c = i
        while c and (lines[c - 1].strip().startswith("//") or lines[c - 1].strip().startswith("#[")):
            c -= 1
        comment = " ".join(x.strip().lstrip("/ ") for x in lines[c:i] if x.strip().startswith("//"))
        head = []
        j = i
        while not (lines[j] == indent + "{" or lines[j].rstrip().endswith("{") and not lines[j].strip().startswith(("requires", "ensures"))):
            head.append(lines[j])
            j += 1
        if lines[j] != indent + "{":
            head.append(lines[j].rstrip()[:-1])
        k = j
        while lines[k] != indent + "}" and not (k == j and lines[k].rstrip().endswith("}")):
            k += 1
        yield Function(path, i + 1, m.group(2), comment, "\n".join(head), "\n".join(lines[j + 1:k]))
        i = k + 1


FILES = sorted(str(p.relative_to(ROOT)) for p in ROOT.glob("crates/*/src/**/*.rt"))
ALL = [f for path in FILES for f in functions(path)]


def lines_with(pattern):
    rule = re.compile(pattern)
    for path in FILES:
        for n, text in enumerate((ROOT / path).read_text().split("\n"), 1):
            if rule.search(text) and not text.strip().startswith("//"):
                yield f"{path}:{n} {text.strip()}"


def having(test):
    return [str(f) for f in ALL if test(f)]


NUMBER = re.compile(r"^(u8|u16|u32|u64|usize)$")


def none_numbers(f):
    if not NUMBER.match(f.result):
        return False
    said = re.search(r"\b(0|3|4|40|256|32768|0x110000|1) (for|if|is|stands|where|says|tells|in)\b.*\b(none|no|not|unwritable|missing|error|there)\b", f.comment)
    return bool(said) or "result ≡ 0 → ⊥" in f.contract or "or e." in f.comment


def refusals(f):
    return f.result == "u8" and bool(re.search(r"refus|fault", f.name + " " + f.comment))


def one_or_zero(f):
    return bool(NUMBER.match(f.result)) and bool(re.search(r"^1 (for|if)\b|\b1, or 0\b|^0 (for|below)\b|^0 if\b", f.comment))


def codes():
    kinds = "mode rule stage step which base state flag".split()
    return having(lambda f: any(n in kinds and NUMBER.match(t.strip()) for n, t in f.parameters))


def shape(f):
    names = {}
    out = []
    text = f.signature[f.signature.index("fn ") + 3:] + "{" + f.body
    for t in re.findall(r"[A-Za-z_]\w*|\d\w*|\S", text):
        if re.match(r"^(let|mut|if|else|while|for|in|return|as|match|loop|continue|break|len)$", t):
            out.append(t)
        elif re.match(r"^\w", t):
            out.append(str(names.setdefault(t, len(names))))
        elif t != "*" or not out or out[-1] != "&":
            out.append(t)
    return tuple(out)


def twins():
    by_shape = defaultdict(list)
    for f in ALL:
        if len(shape(f)) >= 30:
            by_shape[shape(f)].append(f)
    groups = {frozenset(map(str, g)) for g in by_shape.values() if len(g) > 1}
    by_name = defaultdict(list)
    for f in ALL:
        if f.path != "crates/exports/src/lib.rt" and f.body.strip():
            by_name[f.name].append(f)
    for g in by_name.values():
        same = defaultdict(list)
        for f in g:
            same[re.sub(r"\W", "", f.body)].append(f)
        groups |= {frozenset(map(str, s)) for s in same.values() if len(s) > 1}
    stems = defaultdict(list)
    for f in ALL:
        stem = re.sub(r"_(short|long|filled|scalars|windows|two|three|four|first|second|by|each|looked|table|regular)$", "", f.name)
        if stem != f.name:
            stems[(f.path, stem)].append(f)
    groups |= {frozenset(map(str, s)) for s in stems.values() if len(s) > 1}
    return sorted(" ~ ".join(sorted(g)) for g in groups)


def conversions():
    def plain(f):
        body = f.body.strip()
        return bool(re.match(r"^\(?\w+ as \w+\)?$", body))
    return having(plain)


def byhand():
    """Copies, comparisons and tests of characters that std has."""
    def test(f):
        copies = re.search(r"(\w+)\[(?:\w+ \+ )?(\w)\] = (\w+)\[(?:\w+ \+ )?\2\];", f.body)
        compares = re.search(r"\w+\[\w+\](?:\))? != \w+\[\w+\]", f.body)
        return bool(copies or compares) or f.name in ("white", "fold", "decimal", "least", "range")
    return having(test)


def facts():
    seen = defaultdict(set)
    for f in ALL:
        for clause in re.findall(r"requires(?: \w+)? \{(.*?)\}\s*(?=requires|ensures|$)", f.contract, re.S):
            for part in re.split(r"\s×\s", re.sub(r"\s+", " ", clause)):
                part = part.strip().strip("()")
                part = re.sub(r"\b(chunk|bytes|scalars|table|cells|t1|room|slots|layout|words|high)\b", "_", part)
                if len(part) > 8:
                    seen[part].add(str(f))
    return sorted(f"{len(v)} {k}" for k, v in seen.items() if len(v) >= 3)


def together():
    pairs = [("t1", "t2"), ("state", "flag"), ("held", "chunk"), ("room", "place"), ("room", "at"), ("room", "o"), ("room", "written"), ("out", "at"),
             ("b0", "have"), ("table", "links"), ("chunk", "from"), ("chunk", "at"), ("bytes", "at"), ("text", "a"), ("low", "high"), ("first", "second")]
    out = []
    for a, b in pairs:
        fs = [f for f in ALL if {a, b} <= {n for n, _ in f.parameters} and "exports" not in f.path]
        if len(fs) >= 3:
            out.append(f"{len(fs)} {a}, {b}")
    return out


def lengths():
    return list(lines_with(r"^(pub )?const \w*STARTS\b")) + having(
        lambda f: re.search(r"length [\w.]+ ≡ (512|256|2048|0x10000|length)\b", f.contract) is not None) + list(lines_with(r"\[0u?\w*; 1\]"))


def switches():
    def test(f):
        tests = re.findall(r"if (?:\d+ < )?(\w+)(?: (?:==|<=|!=) \w+)? \{", f.body)
        return any(tests.count(v) >= 3 for v in ("encoding", "step", "kind", "stage"))
    return having(test)


def proof_lines(pattern, name="*.antt"):
    rule = re.compile(pattern)
    for path in sorted(ROOT.glob("crates/*/proofs/**/" + name)):
        for n, text in enumerate(path.read_text().split("\n"), 1):
            if rule.search(text):
                yield f"{path.relative_to(ROOT)}:{n}"


def coded_records():
    """Structs in which a number, by their comment, says that there is no value, or which kind it is."""
    for path in FILES:
        lines = (ROOT / path).read_text().split("\n")
        for n, text in enumerate(lines):
            if not re.match(r"^(pub )?struct \w+", text):
                continue
            c = n
            while lines[c - 1].startswith(("//", "#[")):
                c -= 1
            said = " ".join(lines[c:n])
            if re.search(r"\bor 0\b|\bsays?\b|\b0 where\b|0 that|unwritable|which was", said):
                yield f"{path}:{n + 1} {text.strip()}"


RULES = {
    "1-enums": lambda: list(lines_with(r"^\s*(pub(\(crate\))? )?enum ")),
    "1-records": lambda: list(coded_records()),
    "1-none": lambda: having(none_numbers),
    "1-refusals": lambda: having(refusals) + list(lines_with(r"^\s*(pub )?refusal: u8,")),
    "1-yes-no": lambda: having(one_or_zero),
    "1-codes": codes,
    "2-twins": twins,
    "3-loops": lambda: list(lines_with(r"^\s*(while|loop)\b")),
    "4-conversions": conversions,
    "4-by-hand": byhand,
    "5-facts": facts,
    "5-together": together,
    "6-lengths": lengths,
    "7-switches": switches,
    "8-long": lambda: list(proof_lines(r"^.{201,}$")),
    "8-chains": lambda: list(proof_lines(r"\bbefore\.before\b")),
    "8-answers": lambda: list(proof_lines(r"^(returns|loop|goal|search|if|let|[a-z][\w.-]*) c\b.* =", "Answers.antt")),
}

if __name__ == "__main__":
    if len(sys.argv) > 1:
        print("\n".join(RULES[sys.argv[1]]()))
    else:
        for name, rule in RULES.items():
            print(f"{len(list(rule())):4} {name}")

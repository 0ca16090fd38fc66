#!/usr/bin/env python3
"""Brings the repository's own names to the spelling of today's Rattle, after the kit's port.py has run, once, at the top.

Words (functions, lemmas, fields, labels) become snake case. A dash stays where it joins the name of a definition to more words, as in
`line_feeds-append`, where that name has two words or more or is a type; other dashes become `_`. Types and modules keep their camel
case, and the constructors of `Family` and `Writer` the spelling of the names of encodings. Plain structs and enums derive `Clone` and
`Copy`, as they were copied before. Must-fail edits of definitions are spelled as the definitions are. Names in backticks in docs/ and
README.md follow.

usage: python3 tools/port_names.py [--dry] [--table]
writes files in place (--dry: none) and prints names that fall together (--table: all that change)
"""

import collections
import os
import re
import sys

ROOT = os.path.dirname(os.path.dirname(os.path.abspath(__file__)))
TOKEN = re.compile(r"[^\s(){};,.«»λ:\"`]+")
# Names of encodings: the families of decoders, and the writers.
KEEP = {"utf-8", "euc-jp", "iso-2022-jp", "shift-jis", "euc-kr", "UTF-8", "single-byte", "windows-1252", "GB18030", "Big5", "EUC-JP", "ISO-2022-JP", "Shift-JIS", "EUC-KR", "Replacement", "UTF-16BE", "UTF-16LE", "x-user-defined"}
# A lemma that would have the name of a definition gets `_lem`; a field of a statement does not. A state of the decoder of ISO-2022-JP and a field of the variables of UTF-16
# have one name. The others had lost their dashes already.
CHOSEN = {"lead-byte": "lead_byte"}
# Names under which a file brings others in, and parameters.
OTHERS = {
    "isGBK": "is_gbk",
    "areScalars": "are_scalars",
    "columnIn": "column_in",
    "writerAccount": "writer_account",
    "sameAs": "same_as",
    "joinedPieces": "joined_pieces",
    "readingEnd": "reading_end",
    "joinedFeeds": "joined_feeds",
    "replacementNext": "replacement_next",
    "readerAt": "reader_at",
    "indexFits": "index_fits",
}
CHOSEN_IN = {
    "crates/demands/specs/Samples.antt": {"gb18030-fourth": "gb18030_fourth"},
    "crates/demands/proofs/Samples.antt": {"gb18030-fourth": "gb18030_fourth"},
    "crates/demands/proofs/Shifts.antt": {"so-far": "so_far"},
    "crates/encoder_spec/specs/Samples.antt": {"utf8-four": "utf8_four"},
    "crates/encoder_spec/proofs/Samples.antt": {"utf8-four": "utf8_four"},
    "crates/list_spec/specs/Samples.antt": {"first-line": "first_line"},
    "crates/list_spec/proofs/Samples.antt": {"first-line": "first_line"},
    "crates/replacements/proofs/Told.antt": {"so-far": "so_far"},
    "crates/replacements_spec/specs/Statements.antt": {"first-place": "first_place"},
    "crates/replacements_spec/proofs/Theorems.antt": {"first-place": "first_place"},
    "crates/reverse_index_spec/specs/Statements.antt": {"no-entry": "no_entry"},
    "crates/reverse_index_spec/proofs/Theorems.antt": {"no-entry": "no_entry"},
    "crates/runs/proofs/Running.antt": {"so-far": "so_far"},
    "crates/standard/specs/Encoders/Samples.antt": {"last-pair": "last_pair", "not-above": "not_above"},
    "crates/standard/proofs/EncoderSamples.antt": {"last-pair": "last_pair", "not-above": "not_above"},
    "crates/standard/specs/LineFeeds.antt": {"none-held": "none_held"},
    "crates/standard/specs/Widths.antt": {"so-far": "so_far"},
    "crates/standard/proofs/Widths.antt": {"so-far": "so_far"},
    "crates/demands/proofs/Theorems.antt": {"held_in": "held_in_lem"},
    "crates/encoder/proofs/Ones.antt": {"by_count": "by_count_lem"},
    "crates/reverse_index_spec/proofs/Lines.antt": {"no-entry": "no_entry_by"},
    "crates/pair_runs/proofs/Layouts.antt": {"row-in": "row_in_lem", "row_in": "row_in"},
    "crates/pair_runs/proofs/Pairing.antt": {"row-in": "row_in_lem", "row_in": "row_in"},
    "crates/sequences/proofs/Big5Leaves.antt": {"pair_row": "pair_row_lem"},
    "crates/standard/proofs/Layouts.antt": {"two_bytes": "two_bytes_lem"},
    "crates/standard/proofs/ReadsBack.antt": {"two_bytes": "two_bytes_lem"},
    "crates/standard/proofs/ReadsBackIso.antt": {"two_bytes": "two_bytes_lem"},
}
WORDS = ("abbrev", "pub", "unfoldable", "data", "record", "ruleset")


def walk(*ends):
    for folder, dirs, files in os.walk(os.path.join(ROOT, "crates")):
        dirs[:] = sorted(d for d in dirs if d != "out")
        for f in sorted(files):
            if f.endswith(ends):
                yield os.path.join(folder, f)


def read(path):
    with open(path, encoding="utf-8") as f:
        return f.read()


def is_walk(path):
    return os.path.basename(path) == "Proof.antt"


def declared(text, walked):
    """The names that a file of antt declares, and those of them that are definitions and types."""
    names, heads = set(), set()
    for line in text.split("\n"):
        m = re.match(r"^\s*((?:(?:%s) )*)([^\s(){};,.«»λ:\"`]+(?: [^\s(){};,.«»λ:\"`]+)*)(?: \{[^}]*\})*(?: \([^)]*\))*(?: :(?:\s|$)| where$)" % "|".join(WORDS), line)
        if not m or line.lstrip().startswith(("--", "use ", "let ", "in ", "elim ", "module ")):
            continue
        if walked and re.search(r": (tie|lts)\.[A-Za-z]", line) and "(c :" not in line:
            continue
        if "=" in line.split(" : ")[0]:
            continue
        these = m.group(2).split(" ")
        names.update(these)
        if "unfoldable" in m.group(1) or "abbrev" in m.group(1) or "data" in m.group(1) or "record" in m.group(1):
            heads.update(these)
    return names, heads


def snake(word):
    """A part between dashes in snake case."""
    if not re.search(r"[A-Z]", word):
        return word
    if re.fullmatch(r"[A-Z0-9]+", word):
        return word.lower()
    word = re.sub(r"([a-z0-9])([A-Z])", r"\1_\2", word)
    word = re.sub(r"([A-Z]+)([A-Z][a-z])", r"\1_\2", word)
    return word.lower()


def main():
    if any(w not in ("--dry", "--table") for w in sys.argv[1:]):
        print(__doc__)
        return 2
    if not any(is_walk(p) for p in walk(".antt")):
        print("port_names: no walk is left, so the names were turned before: nothing to do")
        return 2
    own, heads, foreign = set(), set(), set()
    for path in walk(".antt"):
        text = re.sub(r"(?m)(^|\s)--.*$", "", read(path))
        names, defs = declared(text, is_walk(path))
        own |= names
        if not is_walk(path):
            heads |= defs
        for m in re.finditer(r"(?m)^(?:pub )?use ([^\s{]+?)\.\{([^}]*)\}", text):
            if not re.match(r"Rattle\.(?!std|core)", m.group(1)):
                foreign.update(x.split(" as ")[-1].strip() for x in m.group(2).split(","))
    own = {n for n in own if n not in KEEP and n not in foreign and "◌" not in n and n not in WORDS}
    stems = {s for s in (snake(h.replace("-", "_")) for h in heads if h[:1].islower()) if "_" in s} | {h for h in heads if h[:1].isupper()}

    def turned(name):
        if name in CHOSEN:
            return CHOSEN[name]
        if name[:1].isdigit() or not re.search(r"-|[a-z0-9][A-Z]", name):
            return name
        if name[:1].isupper() and "-" not in name:
            return name
        parts = [p if p[:1].isupper() and p in heads else snake(p) for p in name.split("-")]
        for i in range(len(parts) - 1, 0, -1):
            front = "_".join(parts[:i])
            if front in stems and parts[i:] != ["spec"]:
                return front + "-" + "_".join(parts[i:])
        return "_".join(parts)

    table = {n: turned(n) for n in own}
    taken = {t for n, t in table.items() if "-" not in n} | foreign
    for n, t in table.items():
        if "-" in n and n not in CHOSEN and t in taken:
            table[n] = t + "_lem"
    table = {n: t for n, t in table.items() if n != t}
    table.update(OTHERS)

    def spell(text, here={}):
        """The text with the names of the table, but for what stands in strings."""
        return "".join(
            part if i % 2 else TOKEN.sub(lambda m: here.get(m.group(0)) or table.get(m.group(0), m.group(0)), part)
            for i, part in enumerate(re.split(r'("[^"\n]*")', text))
        )

    def spell_code(text, mark, here):
        out = []
        for line in text.split("\n"):
            m = re.search(r"(^|\s)%s.*$" % mark, line)
            code, said = (line[: m.start()], line[m.start():]) if m else (line, "")
            said = re.sub(r"`[^`]+`", lambda q: spell(q.group(0)), said)
            said = re.sub(r"\b[a-z]+[0-9]*[A-Z]\w*\b", lambda q: table.get(q.group(0), q.group(0)), said)
            out.append(spell(code, here) + said)
        return "\n".join(out)

    bad = 0
    for path in list(walk(".antt", ".rt")):
        text = read(path)
        here = CHOSEN_IN.get(os.path.relpath(path, ROOT), {})
        bare = re.sub(r'(?m)(^|\s)(--|//).*$|"[^"\n]*"', "", text)
        tokens = set(TOKEN.findall(bare))
        now = collections.defaultdict(set)
        for t in tokens:
            now[here.get(t) or table.get(t, t)].add(t)
        for new, olds in sorted(now.items()):
            if len(olds) > 1:
                print(f"falls together: {os.path.relpath(path, ROOT)}: {' and '.join(sorted(olds))} would be {new}")
                bad += 1
        new = spell_code(text, "--" if path.endswith(".antt") else "//", here)
        if path.endswith(".rt"):
            new = re.sub(r"#\[derive\(Drop\)\]", "#[derive(Clone, Copy)]", new)
        if new != text and "--dry" not in sys.argv:
            with open(path, "w", encoding="utf-8") as f:
                f.write(new)

    def spell_edit(line):
        line = line.replace("Rattle\u00b7", "Rattle.").replace("_then_else_", "◌then◌else◌").replace("getD ", "get_or ")
        line = line.replace("\u2032", "'")
        line = re.sub(r"\((\w+(?: \.\w+)+)\)(?=[\s)]|$)", lambda m: m.group(1).replace(" ", ""), line)
        line = re.sub(r"(?<=[\w)]) \.(?=[a-z])", ".", line)
        return re.sub(r"\b[a-z]+[0-9]*[A-Z]\w*\b", lambda m: snake(m.group(0)) if m.group(0) not in table else m.group(0), spell(line))

    for path in walk(".edit"):
        text = read(path)
        if "file: src/" in text and "Rattle" not in text and "ghost" not in text and "≡" not in text:
            continue
        new = "\n".join(l[:5] + spell_edit(l[5:]) if l.startswith(("old: ", "new: ")) else l for l in text.split("\n"))
        if new != text and "--dry" not in sys.argv:
            with open(path, "w", encoding="utf-8") as f:
                f.write(new)
    pages = [os.path.join(ROOT, "README.md")] + [os.path.join(ROOT, "docs", f) for f in sorted(os.listdir(os.path.join(ROOT, "docs"))) if f.endswith(".md")]
    for path in pages:
        text = read(path)
        new = re.sub(r"`[^`\n]+`", lambda q: spell(q.group(0)), text)
        if new != text and "--dry" not in sys.argv:
            with open(path, "w", encoding="utf-8") as f:
                f.write(new)
    print(f"{len(table)} names, {bad} places where names fall together")
    if "--table" in sys.argv:
        for n, t in sorted(table.items()):
            print(n, t)
    return 0


if __name__ == "__main__":
    raise SystemExit(main())

#!/usr/bin/env python3
"""Respells the repository's own antt names as the library spells them.

usage: python3 tools/respell.py           at the top of the repository: rewrites the files in place
       python3 tools/respell.py --check   writes nothing: lists the names that would clash

A part of a name is in snake case: `labelMost` becomes `label_most`, and a lemma keeps its hyphens. A record's field, a constructor
and a function of a specification have no hyphen. A second run changes nothing.
"""
import pathlib
import re
import sys

# Names, or parts of a lemma's name, whose plain new spelling another name of the same file has, or that say something else today.
CHOSEN = {
    "captionAt": "caption_from_row",
    "nameLength": "length_of_name",
    "aliasNumber": "number_of_alias",
    "firstsAt": "firsts_start",
    "inPlace": "is_in_place",
    "rowsFit": "all_rows_fit",
    "walkTurn": "walk_unless_kept",
    "treeFile": "file_of_tree",
    "at-root": "opened_at_root",
    "in-block": "opened_in_block",
    "so-far": "up_to_here",
    "getD": "get_or",
    "end_Before": "end_before",
    "is_Within": "is_within",
    "is_IsBody": "is_body",
}

TOKEN = re.compile(r"""[^\s(){}\[\],;.":`]+""")
WORD = re.compile(r"[\w'-]+")
HUMP = re.compile(r"(?:^|[-_])[a-z][a-z0-9]*[A-Z]")
TEXT = re.compile(r'"(?:\\.|[^"\\\n])*"')
BLOCK = re.compile(r"( *)(?:abbrev |pub )*(data|record) +[^\s{]+.*\bwhere\s*$|( *)(?:abbrev |pub )*(data|record) +[^\s{]+(?: |$)(?!.*[={])")
MEMBER = re.compile(r" +(?:pub )?([^\s(){}\[\],;.\":`]+) :(?: |$)")
FUNCTION = re.compile(r"(?:abbrev|unfoldable) (?:pub )?([^\s(){}\[\],;.\":`]+) :(?: |$)")
# what a Rust file is read as: comments, literals, words
RUST = re.compile(r"""(?P<note>//[^\n]*|/\*.*?\*/)|(?P<literal>b?r(?P<h>\#*)".*?"(?P=h)|b?"(?:\\.|[^"\\])*"|b?'(?:\\.[^']*|[^'\\])')|(?P<word>[\w'-]+)""", re.S)


def snake(name):
    return re.sub(r"(?<=[a-z0-9])([A-Z])", lambda m: "_" + m[1].lower(), name)


def parts(name):
    return "-".join(CHOSEN.get(p, snake(p) if p[:1].islower() else p) for p in name.split("-"))


def code(text):
    """The text without comments and strings."""
    return "\n".join(re.sub(r"(^|\s)--(\s.*|$)", "", TEXT.sub('""', l)) for l in text.split("\n"))


def hyphened(path, text):
    """The fields, constructors and functions of specifications that have a hyphen."""
    block = None
    for line in text.split("\n"):
        depth = len(line) - len(line.lstrip())
        if line.strip() and block is not None and depth <= block:
            block = None
        head = BLOCK.match(line)
        if head and block is None:
            block = depth
            continue
        member = MEMBER.match(line) if block is not None else FUNCTION.match(line) if "specs" in path.parts else None
        if member and "-" in member[1]:
            yield member[1]


def names(files):
    found = {}
    for path in files:
        text = code(path.read_text(encoding="utf-8"))
        for n in TOKEN.findall(text):
            if n in CHOSEN:
                found[n] = CHOSEN[n]
            elif HUMP.search(n):
                found[n] = parts(n)
        for n in hyphened(path, text):
            found[n] = CHOSEN.get(n, parts(n).replace("-", "_"))
    return found


def stem(word):
    """A word of prose without what grammar adds to it."""
    return re.sub(r"(?:'s|'|-)$", "", word)


def swap(text, table):
    def one(m):
        w = m[0]
        # what a call promised has the name of the called function, which is no name of ours
        if "-" in w and re.match(r"\.(?:ensures|requires|result)\b", text[m.end() :]):
            w = w if HUMP.search(w) else ""
        if w in table:
            return table[w]
        s = stem(w)
        return table[s] + w[len(s) :] if s in table else m[0]

    return WORD.sub(one, text)


def swap_antt(text, table):
    """All but the strings; a string ends on its line."""
    out, at = [], 0
    for m in TEXT.finditer(text):
        out += [swap(text[at : m.start()], table), m[0]]
        at = m.end()
    return "".join(out) + swap(text[at:], table)


def swap_rust(text, table, notes_only=False):
    def one(m):
        if m["literal"] or (m["word"] and notes_only):
            return m[0]
        return swap(m[0], table)

    return RUST.sub(one, text)


def main(check):
    top = pathlib.Path(".")
    antt = sorted(p for k in ("specs", "proofs") for p in top.glob(f"crates/*/{k}/**/*.antt"))
    rust = sorted(top.glob("crates/*/src/**/*.rt"))
    edits = sorted(top.glob("crates/*/must-fail/*.edit"))
    others = [top / "README.md", *top.glob("docs/*.md"), *top.glob("examples/*.md"), *top.glob("tools/*.py"), *top.glob("include/*.h")]
    others = sorted(p for p in others if p.name not in ("PORT.md", "respell.py"))
    table = names(antt)
    if check:
        return clashes(antt + rust, table)
    humps = {n: new for n, new in table.items() if HUMP.search(n)}
    # a document may have an older spelling of a name that the specifications spell well already
    declared = set()
    for p in antt:
        declared |= set(TOKEN.findall(code(p.read_text(encoding="utf-8"))))
    declared = {table.get(n, n) for n in declared}
    known = {}
    for p in [*others, *edits, *rust, *top.glob("rust/**/*.rs")]:
        for w in map(stem, WORD.findall(p.read_text(encoding="utf-8"))):
            if HUMP.search(w) and parts(w) in declared:
                known[w] = parts(w)
    n = 0
    for files, turn in (
        (antt, lambda t: swap_antt(t, known | table)),
        (rust + edits, lambda t: swap_rust(t, known | table)),
        # a hyphen is common in prose, so such a name is one only between backticks
        (others, lambda t: re.sub(r"`([\w'-]+)`", lambda m: f"`{table.get(m[1], m[1])}`", swap(t, known | humps))),
        (sorted(top.glob("rust/**/*.rs")), lambda t: swap_rust(t, known | humps, True)),
    ):
        for p in files:
            old = p.read_text(encoding="utf-8")
            new = turn(old)
            if new != old:
                p.write_text(new, encoding="utf-8")
                n += 1
    print(f"respell: {len(table)} names, {n} files changed")
    return 0


def clashes(files, table):
    """Says where a file with an old name has the new one already. A Rust function of the same name is none, nor what it promised."""
    bad = 0
    for p in files:
        text = p.read_text(encoding="utf-8")
        text = code(text) if p.suffix == ".antt" else re.sub(r"//.*", "", text)
        back = {}
        for w in set(WORD.findall(text)):
            if w in table:
                back.setdefault(table[w], []).append(w)
        for new, old in sorted(back.items()):
            free = re.compile(rf"(?<![\w'.#-]){re.escape(new)}(?![\w'(<.-])|\.{re.escape(new)}(?![\w'-])(?!\.(?:\w+\.)?(?:ensures|result|requires|if\d|\w+\.\{{|Tie|Statement))")
            hits = [i + 1 for i, l in enumerate(text.split("\n")) if free.search(l)]
            if len(old) > 1 or hits:
                print(f"{p}: {' '.join(old)} -> {new}, lines {hits[:5]}")
                bad += 1
    return int(bad > 0)


if __name__ == "__main__":
    raise SystemExit(main(sys.argv[1:] == ["--check"]))

#!/usr/bin/env python3
"""Writes the tables of worked conversions in crates/mitex_meaning/specs/Examples*.antt.

usage: tools/examples.py VECTORS

VECTORS is a folder of cases, each a folder with `rules.bin` and `tree.bin` (the files that a conversion takes), `stdin` (`t` or
`m`: Text, Math), `expected` (what the program writes) and `name` (what the case shows; a made document has none). Cases from
several folders are put together in one first. A case becomes one entry of a table; the tables go by the family of arms that the
cases show, and each is one statement that antt computes. Run `rt fmt` afterwards.
"""

import re
import struct
import sys
from pathlib import Path

SPECS = Path(__file__).resolve().parent.parent / "crates" / "mitex_meaning" / "specs"

KINDS = """TokenError ItemLR ClauseArgument ScopeRoot ItemText ItemBracket ItemParen ItemFormula ItemCurly ClauseLR
ItemAttachComponent ClauseCommandName ItemBegin ItemEnd TokenWord TokenLBrace TokenRBrace TokenDollar TokenBeginMath
TokenEndMath TokenComment ItemBlockComment TokenWhiteSpace TokenLineBreak TokenApostrophe TokenComma TokenSlash TokenCaret
TokenUnderscore TokenHash TokenAsterisk TokenAtSign TokenDitto TokenSemicolon TokenLParen TokenRParen TokenLBracket
TokenRBracket TokenTilde TokenAmpersand ItemNewLine TokenCommandSym ItemCmd ItemEnv ItemTypstCode""".split()

# the longest label in the cases, which the tables name
LABEL_MOST = 120

# words of a case's name, and how the tables say it
WORDS = [(str(LABEL_MOST + 1), "one byte more"), (str(LABEL_MOST), "the most bytes"), (" behind ", " after ")]

# the tables: a name, what it shows, and its cases
TABLES = [
    ("Hand", "the cases tried by hand that concern conversion.", ["hand-00..11", "hand-14..15", "hand-18"]),
    ("Tokens", "tokens, what is written unwalked, and the space flag.", ["trap-036..049", "trap-135..138"]),
    ("Groups", "formulas, curly groups, `\\left` and `\\right`, attachments.", ["trap-050..063", "trap-150..159"]),
    ("Commands", "commands by their rule.", ["trap-000..002", "trap-008..035", "trap-147..148"]),
    ("Labels", "labels written at once, held, replaced, written and dropped.", ["trap-064..079", "trap-112"]),
    ("Colors", "colours.", ["trap-113..125"]),
    ("Images", "images.", ["trap-126..134", "trap-146"]),
    ("Environments", "lists, environments for Math, normal environments and figures.",
     ["trap-003..007", "trap-080..085", "trap-099..106", "trap-108..111"]),
    ("Documents", "made documents, each with those of its rules that it names.",
     ["convert-000011", "convert-000069", "convert-000083", "convert-000167", "convert-000231", "convert-000256",
      "convert-000267", "convert-000294"]),
    ("Cells", "tables.", ["trap-086..098", "trap-107", "trap-149"]),
    ("Endings", "how tables end, with a cell still open or not.",
     ["table-01..03", "table-06..07", "table-11..12", "table-14..18", "table-21..28"]),
]


# ---- the files


def file_rows(data):
    start, count = struct.unpack("<II", data[-8:])
    return data[:start], [data[start + 8 * i : start + 8 * i + 8] for i in range(count)]


def read_rules(data):
    text, rows = file_rows(data)
    rules, at = [], 0
    for row in rows:
        name_len, alias_len, kind = struct.unpack("<HHB", row[:5])
        name, at, alias = text[at : at + name_len], at + name_len, None
        if alias_len != 65535:
            alias, at = text[at : at + alias_len], at + alias_len
        rules.append((name, kind, alias))
    return rules


def read_tree(data):
    """A token is (kind, bytes), a node (kind, list)."""
    text, rows = file_rows(data)
    at = 0

    def element(i):
        nonlocal at
        kind, is_token, number = rows[i][0], rows[i][1], struct.unpack("<I", rows[i][4:])[0]
        if is_token:
            at += number
            return (KINDS[kind - 1], text[at - number : at]), i + 1
        children, j = [], i + 1
        while j < i + 1 + number:
            child, j = element(j)
            children.append(child)
        return (KINDS[kind - 1], children), j

    return element(0)[0]


# ---- how they read


def readable(s):
    return all(32 <= b < 127 or b == 10 for b in s)


def string(s):
    return '"' + s.decode().replace("\\", "\\\\").replace('"', '\\"').replace("\n", "\\n") + '"'


def listed(items):
    return " ∷ ".join(items + ["[]"])


RUN = re.compile(rb"((?:[\x00-\x7f]|[\xc2-\xf4][\x80-\xbf]+?)(?![\x80-\xbf]))\1{19,}")


def count(n, size):
    """How often a part of so many bytes stands: a label that is as long as can be, or longer, is told by the most that can be held."""
    most = "label_most" if size == 1 else f"label_most / {size}"
    more = n - LABEL_MOST // size
    return str(n) if more < 0 else paren(most) if more == 0 else f"({more} + {most})"


def parts(s):
    """Bytes in parts: long runs of a character, text where it is ASCII, numbers elsewhere."""
    run = RUN.search(s)
    if run:
        unit = run[1]
        n = len(run[0]) // len(unit)
        return parts(s[: run.start()]) + [f"times {count(n, len(unit))} {paren(raw(unit))}"] + parts(s[run.end() :])
    pieces = [p for p in re.split(rb"([\x20-\x7e\n]+)", s) if p]
    return ["ascii " + string(p) if readable(p) else listed([str(b) for b in p]) for p in pieces]


def raw(s):
    *others, out = parts(s)
    for p in reversed(others):
        out = f"{p if p[0] in 'at' else paren(p)} ++ {paren(out)}"
    return out


def short(s):
    return readable(s) and not RUN.search(s)


def paren(s):
    return s if re.fullmatch(r'[A-Za-z_]+|\[\]|"[^"\\]*"', s) else f"({s})"


SHORT = {
    ("TokenWhiteSpace", b" "): "tok_space",
    ("TokenLineBreak", b"\n"): "tok_break",
    ("ItemNewLine", b"\\\\"): "tok_new_line",
    ("TokenComment", b"%"): "tok_comment",
    ("TokenAmpersand", b"&"): "tok_ampersand",
    ("TokenDollar", b"$"): "tok_dollar",
}
TOKENS = {"TokenWord": "tok_word", "ClauseCommandName": "tok_name", "TokenCommandSym": "tok_sym"}
GROUPS = {
    "ItemCurly": ("curly", ("TokenLBrace", b"{"), ("TokenRBrace", b"}")),
    "ItemBracket": ("bracket", ("TokenLBracket", b"["), ("TokenRBracket", b"]")),
}


def trees(children):
    return paren(listed([tree(c) for c in children]))


def env_of(children):
    """(name, arguments, body) of an environment in the usual form."""
    if len(children) < 2 or children[0][0] != "ItemBegin" or children[-1][0] != "ItemEnd":
        return None
    begin, end = children[0][1], children[-1][1]
    if len(end) != 1 or not begin or begin[0] != end[0] or begin[0][0] != "TokenCommandSym" or not readable(begin[0][1]):
        return None
    return begin[0][1], begin[1:], children[1:-1]


def in_ends(t):
    """A group with its usual ends."""
    kind, what = t
    return kind in GROUPS and len(what) >= 2 and (what[0], what[-1]) == GROUPS[kind][1:]


def tree(t):
    kind, what = t
    if isinstance(what, bytes):
        if t in SHORT:
            return SHORT[t]
        if not short(what):
            return f"token {kind} ({raw(what)})"
        return f"{TOKENS[kind]} {string(what)}" if kind in TOKENS else f"tok {kind} {string(what)}"
    if in_ends(t):
        return f"{GROUPS[kind][0]} {trees(what[1:-1])}"
    if kind == "ClauseArgument":
        for group, word in (("ItemCurly", "braced"), ("ItemBracket", "bracketed")):
            if len(what) == 1 and what[0][0] == group and in_ends(what[0]):
                return f"{word} {trees(what[0][1][1:-1])}"
        return f"arg {trees(what)}"
    if kind == "ItemCmd" and what and what[0][0] == "ClauseCommandName" and readable(what[0][1]):
        return f"cmd_node {string(what[0][1])} {trees(what[1:])}"
    if kind == "ItemEnv" and env_of(what):
        name, args, body = env_of(what)
        return f"env_node {string(name)} {trees(args)} {trees(body)}"
    return f"over {kind} {trees(what)}"


def rule(r):
    name, kind, alias = r
    if not readable(name) or not readable(alias or b""):
        return f"rule_by {paren(raw(name))} {kind} " + (f"(some {paren(raw(alias))})" if alias else "nothing")
    return f"rule_for {string(name)} {kind}" if alias is None else f"rule_as {string(name)} {kind} {string(alias)}"


def texts(t):
    """The texts of a tree's tokens."""
    return [t[1]] if isinstance(t[1], bytes) else [s for child in t[1] for s in texts(child)]


def named(rules, root):
    """The rules that a document names: by a command without its backslash, or by an environment without white space."""
    words = {w for s in texts(root) for w in (s[1:], s.decode().strip().encode())}
    return [r for r in rules if r[0] in words]


def rules_text(rules, root, usual, few):
    """The rules: a case's own stand before the usual ones; where these are not all there, only those that it names."""
    if rules == usual:
        return "usual"
    if rules == few:
        return "few_rules"
    own = [r for r in rules if r not in usual]
    names = {r[0] for r in own}
    if set(rules) == set(own) | {r for r in usual if r[0] not in names}:
        return paren(" ∷ ".join([rule(r) for r in own] + ["usual"]))
    return paren(listed([rule(r) for r in named(rules, root)]))


def answer(expected):
    m = re.fullmatch(rb"refused (\d+) at (\d+)\n", expected)
    if m:
        return f"refusal {int(m[1])} {int(m[2])}"
    if not short(expected):
        return f"text ({raw(expected)})"
    if len(string(expected)) <= MOST:
        return f"writes {string(expected)}"
    pieces = [f"ascii {string(piece)}" for piece in pieces_of(expected)]
    return f"text ({' ++ ('.join(pieces)}{')' * len(pieces)}"


def pieces_of(text):
    """A long text in pieces that end in a line feed, each as long as a line may be."""
    pieces = [b""]
    for line in text.splitlines(keepends=True):
        if len(string(pieces[-1] + line)) > WIDTH:
            pieces.append(b"")
        pieces[-1] += line
    return [piece for piece in pieces if piece]


# ---- the tables

WIDTH = 120
MOST = 180


def folded(line, width=MOST):
    """A term in parentheses: in lines where it is long, broken before each `∷` and `++` of its own, and so on within these."""
    if len(line) <= width or not line.startswith("("):
        return [line]
    pieces, depth, start, quoted, i = [], 0, 1, False, 1
    while i < len(line) - 1:
        c = line[i]
        if quoted:
            i += c == "\\"
            quoted = c != '"'
        elif c == '"':
            quoted = True
        elif c in "([":
            depth += 1
        elif c in ")]":
            depth -= 1
        elif depth == 0 and (c == "∷" or line.startswith("++", i)):
            pieces.append(line[start:i].strip())
            start = i
        i += 1
    pieces.append(line[start:-1].strip())
    if len(pieces) == 1:
        first, *others = opened(pieces[0])
        return ["(" + first] + others[:-1] + [others[-1] + ")"] if others else [line]
    if pieces[1:] == ["∷ []"] and len(line) <= MOST:
        return [line]
    if len(pieces) == 2 and pieces[1].startswith("++ ("):
        first, *others = folded(pieces[1][3:])
        rest = ["++ " + first] + others
        return ["(" + pieces[0]] + rest[:-1] + [rest[-1] + ")"]
    return ["("] + [more for piece in pieces for more in opened(piece)] + [")"]


def opened(piece):
    """A long piece: its last argument, in parentheses, is folded."""
    if len(piece) <= MOST or not piece.endswith(")"):
        return [piece]
    at = [0] + [m.start() + 1 for m in re.finditer(r" \(", piece)]
    for i in at[1:]:
        quotes = len(re.findall(r'(?<!\\)"', piece[:i]))
        inner = re.sub(r'"(\\.|[^"\\])*"', "", piece[i:])
        depths = [inner[: k + 1].count("(") - inner[: k + 1].count(")") for k in range(len(inner))]
        if quotes % 2 == 0 and 0 not in depths[:-1]:
            first, *others = folded(piece[i:])
            return [piece[:i] + first] + others
    return [piece]


def folders(vectors, spans):
    for span in spans:
        stem, numbers = span.split("-")
        first, _, last = numbers.partition("..")
        for n in range(int(first), int(last or first) + 1):
            yield vectors / f"{stem}-{n:0{len(first)}d}"


def case(folder, usual, few):
    mode = {b"t": "Text", b"m": "Math"}[(folder / "stdin").read_bytes()[:1]]
    root = read_tree((folder / "tree.bin").read_bytes())
    assert root[0] == "ScopeRoot"
    rules = read_rules((folder / "rules.bin").read_bytes())
    has_name = (folder / "name").exists()
    shows = (folder / "name").read_text().strip() if has_name else f"{len(root[1])} block" + "s" * (len(root[1]) > 1)
    for words, here in WORDS:
        shows = shows.replace(words, here)
    rules = rules_text(rules if has_name else named(rules, root), root, usual, few)
    parts = [f"example {rules} {mode}", trees(root[1]), f"({answer((folder / 'expected').read_bytes())})"]
    line = " ".join(parts)
    if len(line) <= WIDTH:
        return shows, [line]
    first = ["example " + (rest := folded(rules))[0]] + rest[1:]
    first[-1] += " " + mode
    return shows, first + folded(parts[1], WIDTH) + folded(parts[2])


# what a table may name: the module, and its names
NAMES = [
    ("Rattle.std.proofs.Math.Option.Option", ["none as nothing", "some"]),
    ("Rattle.text.specs.Ascii", ["ascii"]),
    ("Rattle.mitex_syntax.specs.Syntax", KINDS),
    ("Rattle.mitex_syntax.specs.Tree.Tree", ["token"]),
    ("Rattle.mitex_meaning.specs.Outcome", ["label_most"]),
    ("Rattle.mitex_meaning.specs.Examples", """Example example hold few_rules usual rule_for rule_as rule_by writes over tok
        tok_word tok_name tok_sym tok_space tok_break tok_new_line tok_comment tok_ampersand tok_dollar times curly bracket arg braced
        bracketed cmd_node env_node""".split()),
    ("Rattle.mitex_meaning.specs.Examples.Expected", ["text", "refusal"]),
    ("Rattle.mitex_meaning.specs.declared.LaTeXMode.TheVariants", ["Text", "Math"]),
]


def uses(body):
    code = re.sub(r'"(\\.|[^"\\])*"', "", re.sub(r"^ *--.*$", "", body, flags=re.M))
    words = set(re.findall(r"[A-Za-z_]+", code))
    lines = []
    for module, names in NAMES:
        used = [n for n in names if n.split()[-1] in words]
        while used:
            n = len(used)
            while len(line := f"use {module}.{{{', '.join(used[:n])}}}") > MOST:
                n -= 1
            lines.append(line)
            used = used[n:]
    return lines


def table(name, about, cases):
    one = name.lower().removesuffix("s")
    examples, law = f"{one}_examples", f"{one}-examples-hold"
    lines = [f"abbrev pub {examples} : List Example", f"{examples} ="]
    for i, (shows, case_lines) in enumerate(cases):
        lines += [f"    -- {shows}", "    " + ("∷ " if i else "") + case_lines[0]] + ["    " + more for more in case_lines[1:]]
    body = "\n".join(lines + ["    ∷ []", ""])
    body += "\n".join(["", f"pub {law} : hold {examples} ≡ true", "unfolding hold", f"{law} = refl", ""])
    code = re.sub(r'"(\\.|[^"\\])*"', "", re.sub(r"^ *--.*$", "", body, flags=re.M))
    prelude = ["◌≡◌", "refl", "true", "List", "[]", "◌∷◌"] + [f"◌{sign}◌" for sign in ("++", "+", "/") if f" {sign} " in code]
    head = ["-- Worked conversions: " + about, "use Rattle.std.specs.Prelude.{" + ", ".join(prelude) + "}"]
    return "\n".join(head + uses(body) + ["", body])


def main():
    vectors = Path(sys.argv[1])
    usual = read_rules((vectors / "trap-002" / "rules.bin").read_bytes())
    few = read_rules((vectors / "hand-00" / "rules.bin").read_bytes())
    for name, about, spans in TABLES:
        cases = [case(folder, usual, few) for folder in folders(vectors, spans)]
        (SPECS / f"Examples{name}.antt").write_text(table(name, about, cases))


main()

#!/usr/bin/env python3
"""Writes the files of examples/: for each document its LaTeX, its rule file and its tree file.

usage: tools/make_examples.py

The parser is not part of this repository, so the trees are written here as it would give them: a token is (kind, text), a node
is (kind, [children]). `document.tex` is the LaTeX that a tree stands for.
"""

import struct
from pathlib import Path

EXAMPLES = Path(__file__).resolve().parent.parent / "examples"

KINDS = """TokenError ItemLR ClauseArgument ScopeRoot ItemText ItemBracket ItemParen ItemFormula ItemCurly ClauseLR
ItemAttachComponent ClauseCommandName ItemBegin ItemEnd TokenWord TokenLBrace TokenRBrace TokenDollar TokenBeginMath
TokenEndMath TokenComment ItemBlockComment TokenWhiteSpace TokenLineBreak TokenApostrophe TokenComma TokenSlash TokenCaret
TokenUnderscore TokenHash TokenAsterisk TokenAtSign TokenDitto TokenSemicolon TokenLParen TokenRParen TokenLBracket
TokenRBracket TokenTilde TokenAmpersand ItemNewLine TokenCommandSym ItemCmd ItemEnv ItemTypstCode""".split()

# classes of rules: any command that takes no more than its arguments, and a table
ANY_COMMAND, TABLE = 2, 8


def rule_file(rules):
    """The rule file of a list of (name, alias or None, class)."""
    text, rows = b"", b""
    for name, alias, kind in sorted(rules):
        size = 65535 if alias is None else len(alias)
        rows += struct.pack("<HHBBBB", len(name), size, kind, 0, 0, 0)
        text += name + (alias or b"")
    return text + rows + struct.pack("<II", len(text), len(rules))


def tree_file(tree):
    """The tree file of a tree."""
    texts, rows = [], []

    def walk(element):
        kind, inside = element
        number = KINDS.index(kind) + 1
        if isinstance(inside, bytes):
            rows.append(struct.pack("<BBHI", number, 1, 0, len(inside)))
            texts.append(inside)
            return
        at = len(rows)
        rows.append(b"")
        for child in inside:
            walk(child)
        rows[at] = struct.pack("<BBHI", number, 0, 0, len(rows) - at - 1)

    walk(tree)
    text = b"".join(texts)
    return text + b"".join(rows) + struct.pack("<II", len(text), len(rows))


# ---- pieces of documents


def words(text):
    """Words and the white space between them."""
    parts = []
    for i, word in enumerate(text.split(b" ")):
        if i:
            parts.append(("TokenWhiteSpace", b" "))
        parts.append(("TokenWord", word))
    return ("ItemText", parts)


def curly(*inside):
    return ("ItemCurly", [("TokenLBrace", b"{"), *inside, ("TokenRBrace", b"}")])


def command(name, *arguments):
    return ("ItemCmd", [("ClauseCommandName", name), *(("ClauseArgument", [a]) for a in arguments)])


def formula(*inside):
    return ("ItemFormula", [("TokenDollar", b"$"), *inside, ("TokenDollar", b"$")])


def word(text):
    return ("TokenWord", text)


LINE = ("TokenLineBreak", b"\n")
CELL = ("TokenAmpersand", b"&")
ROW = ("ItemNewLine", b"\\\\")


def table(columns, *cells):
    name = ("TokenCommandSym", b"tabular")
    begin = ("ItemBegin", [name, ("ClauseArgument", [curly(word(columns))])])
    return ("ItemEnv", [begin, *cells, ("ItemEnd", [name])])


RULES = [(b"tabular", b"table", TABLE), (b"textbf", None, ANY_COMMAND), (b"label", None, ANY_COMMAND)]

# a heading, a formula, a label that waits for its table, and the table
PAPER = [
    command(b"\\textbf", curly(words(b"Measured values"))),
    LINE,
    words(b"The mean of"),
    ("TokenWhiteSpace", b" "),
    formula(("ItemAttachComponent", [word(b"x"), ("TokenCaret", b"^"), word(b"2")])),
    LINE,
    formula(curly(command(b"\\label", curly(word(b"tab:mean"))))),
    LINE,
    table(b"|l|c|", word(b"run"), CELL, word(b"mean"), ROW, word(b"1"), CELL, word(b"4.2"), ROW),
]

LATEX = r"""\textbf{Measured values}
The mean of $x^2$
%s
\begin{tabular}{|l|c|}run&mean\\1&4.2\\\end{tabular}
"""

# the second one is the first with the label's block edited away
DOCUMENTS = {
    "paper": (PAPER, LATEX % r"${\label{tab:mean}}$"),
    "paper-edited": ([*PAPER[:6], word(b"see"), *PAPER[7:]], LATEX % "see"),
}


def main():
    for name, (blocks, latex) in DOCUMENTS.items():
        folder = EXAMPLES / name
        folder.mkdir(parents=True, exist_ok=True)
        tree = ("ScopeRoot", blocks)
        (folder / "rules.bin").write_bytes(rule_file(RULES))
        (folder / "tree.bin").write_bytes(tree_file(tree))
        (folder / "document.tex").write_text(latex)
        print(f"{name}: {len(blocks)} blocks")


if __name__ == "__main__":
    main()

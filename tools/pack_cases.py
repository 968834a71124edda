#!/usr/bin/env python3
"""Packs cases for the program `cases`: writes its standard input, crates/cases/stdin.

usage: tools/pack_cases.py VECTORS ...

VECTORS are folders of cases. A conversion has `rules.bin` and `tree.bin` (one that is missing counts as empty), `stdin` (its first byte
names the mode) and `expected` (what the program writes). A run of changes has `rules.bin`, `script.txt` and, for each call i, `tree-i.bin`
and both whole buffers after it, `text-i.bin` and `ledger-i.bin`; they start as `text-before.bin` and `ledger-before.bin` where the
script has a conversion, else as `text-0.bin` and `ledger-0.bin`. A list of a writer's steps has `steps.txt` and, where it finishes, the
file, `file.bin`, or its hash, `file.sha256`. What is packed is the file that this program builds of the accepted steps, which must be that
file or have that hash.

What is written is a row of cases: a length (4 bytes, the lowest first) and so many bytes. A case is a row of parts: a tag (1 byte), a
length (4 bytes) and so many bytes.

    1        the case's name
    2, 3     the rule file; the tree file
    4        how long the text buffer and the ledger are (4 bytes each); both are filled with one byte, and so is what is due in them
    5, 6     the text buffer, or the ledger, begins with these bytes, and so does what is due in it
    7, 8     what is due in the text buffer, or in the ledger, begins with these bytes
    9        a call and its answer, numbers (4 bytes each): 0 convert, 1 edit, 2 insertion, 3 removal or 4 several blocks replaced; mode;
             block or position, and kept length (8 bytes each); refusal (0: accepted); its row, or the text's length; growth, as two
             numbers of which the second is taken from the first; count of blocks (in a conversion all, in a change those converted
             again); bytes at the front of the ledger that the case does not name
    10       the numbers (8 bytes each) of the blocks that calls 4 after it replace together; a list longer than the program has room for
             is not packed
    11       a step and its answer, on a writer whose buffer is the text buffer and whose state is zeros at first: 0 open, 1 token, 2 close
             or 3 finish; kind; refusal (0: accepted); a zero; the length that a finish gives, 0 in a refusal (4 bytes); the token's
             text, spelt
    12       the file that a finish is due to leave, spelt

Bytes are spelt as how often the first stands there before another comes (4 bytes), and the bytes from the last of these on.

A name that a case of an earlier folder has too stands after its folder's.

After a call both buffers must be as is due, whole. The vectors do not name the ledger of a conversion. So each that is accepted is
followed by edits of its first and last block to the tree that is there: these must accept the ledger, convert one block again, and
change nothing.
"""

import hashlib
import re
import struct
import sys
from pathlib import Path

PACKED = Path(__file__).resolve().parent.parent / "crates" / "cases" / "stdin"

NAME, RULES, TREE, SIZES, TEXT, LEDGER, TEXT_DUE, LEDGER_DUE, CALL, BLOCKS, STEP, FILE = range(1, 13)
CONVERT, EDIT, INSERT, REMOVE, REPLACE = range(5)
KINDS = {"convert": CONVERT, "edit": EDIT, "insert": INSERT, "remove": REMOVE, "replace": REPLACE}
BUFFER = 65536
ROW_SIZE = 128
BUFFER_MOST = 65536 + 513 * ROW_SIZE
LIST_MOST = 1024
STEPS = {"open": 0, "token": 1, "close": 2, "finish": 3}
STEP_LINE = re.compile(r"(?:(open) (\d+)|(token) (\d+) (\S+)|(close)|(finish)) = (\d+)(?: (\d+))?(?: x(\d+))?")


def part(tag, data):
    return struct.pack("<BI", tag, len(data)) + data


def numbers(*given):
    return struct.pack("<%dI" % len(given), *given)


def call(kind, mode, block, kept, answer, free=0):
    number, first, growth, count = answer
    asked = numbers(kind, mode) + struct.pack("<QQ", block, kept)
    return part(CALL, asked + numbers(number, first, max(growth, 0), max(-growth, 0), count, free))


def blocks_of(case, words):
    """The list of a replacement: numbers with commas between them, or `none`."""
    listed = [] if words == "none" else [int(n) for n in words.split(",")]
    if len(listed) > LIST_MOST:
        sys.exit(f"{case.name}: a list of {len(listed)} numbers, more than {LIST_MOST}")
    return part(BLOCKS, struct.pack("<%dQ" % len(listed), *listed))


def read(case, name):
    return (case / name).read_bytes() if (case / name).exists() else b""


def block_count(tree):
    """The root's direct children, in a tree file that was accepted."""
    start, rows = struct.unpack("<II", tree[-8:])
    i, count = 1, 0
    while i < rows:
        node, under = tree[start + 8 * i + 1] == 0, struct.unpack_from("<I", tree, start + 8 * i + 4)[0]
        i, count = i + 1 + (under if node else 0), count + 1
    return count


def mode_of(request):
    return {b"t": 0, b"m": 1}.get(request[:1], 2)


def conversion(case):
    tree, expected, mode = read(case, "tree.bin"), read(case, "expected"), mode_of(read(case, "stdin"))
    parts = [part(RULES, read(case, "rules.bin")), part(TREE, tree), part(SIZES, numbers(BUFFER, BUFFER))]
    words = expected.split()
    if expected.startswith(b"refused ") and expected.endswith(b"\n") and len(words) == 4:
        return parts + [call(CONVERT, mode, 0, 0, (int(words[1]), int(words[3]), 0, 0))]
    blocks, size = block_count(tree), len(expected)
    parts += [part(TEXT_DUE, expected), call(CONVERT, mode, 0, 0, (0, size, 0, blocks), ROW_SIZE * blocks)]
    return parts + [call(EDIT, mode, block, size, (0, size, 0, 1)) for block in sorted({0, blocks - 1}) if blocks]


def changes(case):
    lines = [line.split() for line in (case / "script.txt").read_text().splitlines()]
    mode, calls = int(lines[0][1]), lines[1:]
    start = "before" if calls[0][0] == "convert" else "0"
    due = {name: read(case, f"{name}-{start}.bin") for name in ("text", "ledger")}
    parts = [part(RULES, read(case, "rules.bin")), part(SIZES, numbers(len(due["text"]), len(due["ledger"])))]
    parts += [part(TEXT, due["text"]), part(LEDGER, due["ledger"])]
    for words in calls:
        kind, i, said = words[0], words[1], words[words.index("refused" if "refused" in words else "ok"):]
        parts.append(part(TREE, read(case, f"tree-{i}.bin")))
        for tag, name in ((TEXT_DUE, "text"), (LEDGER_DUE, "ledger")):
            data = read(case, f"{name}-{i}.bin")
            if data != due[name]:
                parts.append(part(tag, data[: 1 + max(j for j, byte in enumerate(data) if byte != due[name][j])]))
                due[name] = data
        given = [int(n) for n in said[1:]]
        if said[0] == "refused":
            answer = (given[0], given[1], 0, 0)
        else:
            answer = (0, given[0], 0, given[1]) if kind == "convert" else (0, given[0], given[1], given[2])
        block, kept = (0, 0) if kind == "convert" else (words[3], int(words[5]))
        if kind == "replace":
            parts.append(blocks_of(case, block))
            block = 0
        parts.append(call(KINDS[kind], mode, int(block), kept, answer))
    return parts


def spelt(data):
    times = len(data) - len(data.lstrip(data[:1]))
    return numbers(times) + data[max(times - 1, 0):]


def text_of(word):
    """The text of a token: hexadecimal, or a byte so often, parts joined by +; - is empty."""
    parts = [p.split("*") for p in word.split("+")] if word != "-" else []
    return b"".join(bytes.fromhex(p[0]) * int(p[1] if len(p) > 1 else 1) for p in parts)


def steps_of(case):
    """The length of the buffer and the steps: what, kind, text, refusal, length, and how many times."""
    first, *lines = (case / "steps.txt").read_text().splitlines()
    steps = []
    for line in lines:
        found = STEP_LINE.fullmatch(line)
        if not found or bool(found[7]) != bool(found[9]):
            sys.exit(f"{case.name}: no step: {line}")
        what, kind = found[1] or found[3] or found[6] or found[7], int(found[2] or found[4] or 0)
        steps.append((what, kind, text_of(found[5] or "-"), int(found[8]), int(found[9] or 0), int(found[10] or 1)))
    return int(first.removeprefix("buffer ")), steps


def file_of(steps):
    """The tree file that accepted steps spell, the finish left out."""
    text, rows, opened = b"", [], []
    for what, kind, data in steps:
        if what == "close":
            row = opened.pop()
            rows[row][2] = len(rows) - row - 1
        else:
            if what == "open":
                opened.append(len(rows))
            rows.append([kind, int(what == "token"), len(data)])
            text += data
    return text + b"".join(struct.pack("<BBHI", kind, mark, 0, n) for kind, mark, n in rows) + numbers(len(text), len(rows))


def finished(case, steps):
    """The file that is due, where a finish is accepted."""
    accepted = [(what, kind, data) for what, kind, data, number, _, times in steps for _ in range(times) if number == 0]
    if not accepted or accepted[-1][0] != "finish":
        return []
    file = file_of(accepted[:-1])
    if file != read(case, "file.bin") and hashlib.sha256(file).hexdigest() != read(case, "file.sha256").decode().strip():
        sys.exit(f"{case.name}: the file is not that of the accepted steps")
    return [part(FILE, spelt(file))]


def writing(case):
    size, steps = steps_of(case)
    if max([size] + [len(data) for _, _, data, *_ in steps]) > BUFFER_MOST:
        sys.exit(f"{case.name}: more than {BUFFER_MOST} bytes")
    parts = [part(SIZES, numbers(size, 0))] + finished(case, steps)
    for what, kind, data, number, length, times in steps:
        parts += [part(STEP, bytes([STEPS[what], kind, number, 0]) + numbers(length) + spelt(data))] * times
    return parts


def parts_of(case):
    if (case / "steps.txt").exists():
        return writing(case)
    return changes(case) if (case / "script.txt").exists() else conversion(case)


def main():
    if len(sys.argv) < 2:
        sys.exit(__doc__)
    packed, names = [], set()
    for case in (case for folder in sys.argv[1:] for case in sorted(Path(folder).iterdir())):
        if case.is_dir():
            name = f"{case.parent.name}/{case.name}" if case.name in names else case.name
            names.add(name)
            data = part(NAME, name.encode()) + b"".join(parts_of(case))
            packed.append(numbers(len(data)) + data)
    PACKED.write_bytes(b"".join(packed))
    print(f"{len(packed)} cases, {PACKED.stat().st_size} bytes")


if __name__ == "__main__":
    main()

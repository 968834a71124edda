#!/usr/bin/env python3
"""Runs the built programs over a folder of vectors and compares what they write, byte for byte.

    tools/run_vectors.py FOLDER [--programs target/bin]

A conversion is a folder with `stdin` and `expected`, and `rules.bin` and `tree.bin` (one that is missing is a missing file): `program`
is run in a copy of it. A run of changes is a folder with `script.txt`, `rules.bin` and, for call i, `tree-i.bin` and both whole buffers
after it, `text-i.bin` and `ledger-i.bin`; they start as `text-before.bin` and `ledger-before.bin` where the script begins with a
conversion, else as `text-0.bin` and `ledger-0.bin`. Each edit is made by `edit_program` on the buffers as the call before left them. No
program makes the other calls of a run, which are conversions, insertions, removals and several blocks replaced together: the buffers
after one are those of the vector.

The last line is `N cases, M calls, F failed`; the exit status is 0 where none failed.
"""

import argparse
import pathlib
import shutil
import subprocess
import sys
import tempfile


def ran(program, folder, request):
    """What the program writes, given these bytes on standard input."""
    done = subprocess.run([program], cwd=folder, input=request, stdout=subprocess.PIPE, timeout=600)
    return done.stdout if done.returncode == 0 else b"ended with status %d" % done.returncode


def conversion_fails(program, case, folder):
    for name in ("rules.bin", "tree.bin"):
        if (case / name).exists():
            shutil.copyfile(case / name, folder / name)
    got = ran(program, folder, (case / "stdin").read_bytes())
    return [] if got == (case / "expected").read_bytes() else ["writes something else"]


def calls_of(case):
    """The mode, and each call of the script as a list of words."""
    lines = [line.split() for line in (case / "script.txt").read_text().splitlines()]
    return int(lines[0][1]), lines[1:]


def edit_expected(case, words):
    """What the program must write: a line, and both buffers. Words: edit I block B kept K (ok LENGTH GROWTH COUNT | refused N ROW)."""
    line = "refused {} at {}\n".format(*words[7:9]) if words[6] == "refused" else "ok {} {} {}\n".format(*words[7:10])
    return line.encode() + b"".join((case / f"{name}-{words[1]}.bin").read_bytes() for name in ("text", "ledger"))


def take_buffers(case, call, folder):
    """Both buffers as the vector has them after a call."""
    for name in ("text", "ledger"):
        shutil.copyfile(case / f"{name}-{call}.bin", folder / f"{name}.bin")


def edits_fail(program, case, folder):
    mode, calls = calls_of(case)
    letter = {0: "t", 1: "m"}.get(mode, "?")
    shutil.copyfile(case / "rules.bin", folder / "rules.bin")
    take_buffers(case, 0, folder)
    failures = []
    for words in calls:
        if words[0] != "edit":
            take_buffers(case, words[1], folder)
            continue
        shutil.copyfile(case / f"tree-{words[1]}.bin", folder / "tree.bin")
        got = ran(program, folder, f"{letter} {words[3]} {words[5]}\n".encode())
        if got != edit_expected(case, words):
            failures.append(f"call {words[1]} writes something else")
        sizes = [(folder / f"{name}.bin").stat().st_size for name in ("text", "ledger")]
        bytes_left = got[len(got) - sum(sizes):]
        (folder / "text.bin").write_bytes(bytes_left[: sizes[0]])
        (folder / "ledger.bin").write_bytes(bytes_left[sizes[0]:])
    return failures


def main():
    parser = argparse.ArgumentParser(description=__doc__, formatter_class=argparse.RawDescriptionHelpFormatter)
    parser.add_argument("folder", type=pathlib.Path)
    parser.add_argument("--programs", type=pathlib.Path, default=pathlib.Path(__file__).resolve().parent.parent / "target" / "bin")
    words = parser.parse_args()
    programs = words.programs.resolve()
    cases = calls = failed = 0
    for case in sorted(words.folder.iterdir()):
        if not case.is_dir():
            continue
        with tempfile.TemporaryDirectory() as folder:
            if (case / "script.txt").exists():
                calls += sum(w[0] == "edit" for w in calls_of(case)[1])
                failures = edits_fail(programs / "edit_program", case, pathlib.Path(folder))
            else:
                calls += 1
                failures = conversion_fails(programs / "program", case, pathlib.Path(folder))
        cases += 1
        failed += len(failures)
        for failure in failures:
            print(f"{case.name}: {failure}")
    print(f"{cases} cases, {calls} calls, {failed} failed")
    return 1 if failed else 0


if __name__ == "__main__":
    sys.exit(main())

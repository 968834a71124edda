#!/usr/bin/env bash
# Proves and builds what is named, or all where nothing is: `zaldrume`, the static library target/staticlib/libzaldrume.a, and the
# programs program, edit_program, cases and tree_cases, each target/bin/NAME.
set -eu
cd "$(dirname "$0")/.."
[ $# -gt 0 ] || set -- zaldrume program edit_program cases tree_cases
mkdir -p target/staticlib target/bin
for name in "$@"; do
    if [ "$name" = zaldrume ]; then
        (cd crates/zaldrume && rt lib)
        cp crates/zaldrume/out/libzaldrume.a target/staticlib/
    else
        # what is built is run once too, on no input: what it says of that, and how it ends, is not wanted
        rm -f "crates/$name/out/$name"
        (cd "crates/$name" && rt run >/dev/null </dev/null) || true
        cp "crates/$name/out/$name" target/bin/
    fi
done

#!/usr/bin/env bash
# Builds the original converter beside the static library, in target/original, and runs it there: rust/original/main.rs says what for.
#   tools/original.sh CONVERTER SYNTAX SPEC CRATES compare CASES SEED
#   tools/original.sh CONVERTER SYNTAX SPEC CRATES speed SEED
# CONVERTER, SYNTAX and SPEC are the original's crates/mitex/src/converter.rs, crates/mitex-parser/src/syntax.rs and
# crates/mitex-spec/src/lib.rs; CRATES is a folder with the sources of rowan, countme, hashbrown, rustc-hash and text-size, each in a
# folder NAME-VERSION, as a distribution's packages of Rust sources install them. Nothing of theirs is kept in this repository.
# The library is that of the folder ZALDRUME_LIB, else target/staticlib's, which is built where it is missing.
set -eu
if [ $# -lt 6 ]; then
    sed -n '2,8s/^# \{0,1\}//p' "$0" >&2
    exit 2
fi
converter=$(realpath "$1") syntax=$(realpath "$2") spec=$(realpath "$3") crates=$(realpath "$4")
shift 4
if [ -n "${ZALDRUME_LIB:-}" ]; then ZALDRUME_LIB=$(realpath "$ZALDRUME_LIB"); fi
cd "$(dirname "$0")/.."
[ -n "${ZALDRUME_LIB:-}" ] || [ -f target/staticlib/libzaldrume.a ] || tools/build.sh zaldrume
to=target/original
rm -rf "$to/src" "$to/crates"
mkdir -p "$to/src" "$to/crates"

# a crate's sources, and a manifest without what is optional
take() { # NAME EDITION LINES...
    local name=$1 edition=$2
    shift 2
    cp -r "$crates/$name"-[0-9]* "$to/crates/$name"
    printf '%s\n' '[package]' "name = \"$name\"" 'version = "0.0.0"' "edition = \"$edition\"" "$@" >"$to/crates/$name/Cargo.toml"
}
take countme 2018 '[features]' 'enable = []'
take hashbrown 2021 '[features]' 'inline-more = []' 'raw = []'
take rustc-hash 2015 '[features]' 'default = ["std"]' 'std = []'
take text-size 2018
take rowan 2021 '[dependencies]' 'countme = { path = "../countme" }' 'rustc-hash = { path = "../rustc-hash" }' \
    'text-size = { path = "../text-size" }' 'hashbrown = { path = "../hashbrown", features = ["inline-more"] }'

# the original's files: without the parts that need its lexer and its packed rules, and with a way in
cat "$converter" rust/original/run.rs | sed 's/^\(pub \)\{0,1\}use mitex_/\1use crate::mitex_/' >"$to/src/converter.rs"
sed '/^use mitex_lexer/d; /^impl From<Token> for SyntaxKind/,/^}/d' "$syntax" >"$to/src/syntax.rs"
sed '/^\/\/!/d; /^pub mod preludes;/d; /^pub mod query;/d; /^mod stream;/d; /^pub use query::/d' "$spec" >"$to/src/mitex_spec.rs"
cp rust/original/main.rs rust/original/expected.rs "$to/src/"
cat >"$to/Cargo.toml" <<'TOML'
[package]
name = "original"
version = "0.1.0"
edition = "2021"
[dependencies]
rowan = { path = "crates/rowan" }
rustc-hash = { path = "crates/rustc-hash" }
zaldrume = { path = "../../rust" }
zaldrume-reference = { path = "../../rust/reference" }
[workspace]
TOML
cd "$to"
RUSTFLAGS=-Awarnings cargo build --quiet --release --offline
exec target/release/original "$@"

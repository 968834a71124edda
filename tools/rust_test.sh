#!/usr/bin/env bash
# Proves and builds the static library, then tests the Rust package with it. Words go to `cargo test`.
#   ZALDRUME_CASES    how many cases each comparison makes (1,000 where it is not set)
#   ZALDRUME_SEED     the seed of the first case (1)
#   ZALDRUME_VECTORS  folders of vectors, with colons between (skipped where it is not set)
set -eu
cd "$(dirname "$0")/.."
tools/build.sh zaldrume
cd rust
exec cargo test --offline --workspace "$@"

#!/bin/sh
# The benchmark: builds the archive and the program, and prints nanoseconds and ratios.
#
#     bench/run.sh [ROUNDS]
#
# The archive is for x86-64. On another machine STRUNDEVI_LIB names the folder of a library that it can link (tools/native makes one).
set -eu
cd "$(dirname "$0")/.."
[ -n "${STRUNDEVI_LIB:-}" ] || tools/archive > /dev/null 2>&1 || { echo "tools/archive failed"; exit 1; }
cargo build --quiet --release --offline --package bench --manifest-path rust/Cargo.toml
exec rust/target/release/bench "$@"

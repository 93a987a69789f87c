#!/usr/bin/env bash
# Runs the independent program of tests/ against the static libraries, which are there already.
#
#     scripts/trials.sh KIND [WORDS]..       tests/README.md says which
set -eu -o pipefail
root=$(cd "$(dirname "$0")/.." && pwd)
(
    cd "$root/tests"
    CARGO_TARGET_DIR=../target/trials SAZAMKHRI_LIB="$root/target/staticlib" cargo build --release --quiet --offline
)
exec "$root/target/trials/release/trials" "$@"

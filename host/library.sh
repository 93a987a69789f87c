#!/usr/bin/env bash
# Gives the host's library the name that C programs link with: target/lib/libsazamkhri.a.
# The library itself comes first: scripts/build.py host.
set -eu -o pipefail
cd "$(dirname "$0")/.."
made=target/staticlib/libhost.a
lib=target/lib/libsazamkhri.a
[ -f "$made" ] || { echo "no $made: run 'make host' first" >&2; exit 1; }
cmp -s "$made" "$lib" && exit 0
mkdir -p target/lib
cp "$made" "$lib.new"
mv -f "$lib.new" "$lib"

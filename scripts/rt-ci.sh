#!/usr/bin/env bash
# The gate's proofs: `rt ci` at the top of the checkout, as it stands there. It refuses files that are not laid out, proves
# every crate from nothing, tries every must-fail edit and runs every program; of crates whose files, and those below, are
# what an earlier `rt ci` on this machine passed, only the programs run anew. An edit that no longer fits its file shows
# nothing, and `rt ci` only mentions it, as bad: here each one is a failure. The last line is 'N passed, M failed'.
set -u -o pipefail
cd "$(dirname "$0")/.." || exit 1
said=$(mktemp) || exit 1
trap 'rm -f "$said"' EXIT
rt ci 2>&1 | tee "$said"
status=${PIPESTATUS[0]}
[ "$status" -eq 0 ] || exit "$status"

line=$(grep '^rt: ok' "$said")
last=$(tail -n 1 "$said")
if [ -z "$line" ]; then
    printf "no line 'rt: ok', so nothing is known of the must-fail edits\n%s\n" "$last"
    exit 1
fi
if [[ $line =~ ,\ ([0-9]+)\ bad(\;|$) ]] && [ "${BASH_REMATCH[1]}" -gt 0 ]; then
    bad=${BASH_REMATCH[1]}
    printf '%s: must-fail edits that are bad, as told above\n' "$bad"
    printf '%s, %d failed\n' "${last%,*}" "$bad"
    exit 1
fi

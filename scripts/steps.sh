# Steps of a gate, to be sourced: each runs whatever failed before it, its output is kept in a file, and `tally` ends in
# the line 'N passed, M failed'. A step that prints such a line itself counts as it says, any other as one.
set -u -o pipefail
step_logs=$(mktemp -d) || exit 1
step_number=0 passed=0 failed=0
failures=()

# step NAME COMMAND..
step() {
    local name=$1 start=$SECONDS log status before=$failed
    shift
    step_number=$((step_number + 1))
    log="$step_logs/$(printf '%02d' "$step_number")-$(tr -cs 'A-Za-z0-9' '-' <<<"$name" | sed 's/-*$//').log"
    printf '\n== %s\n' "$name"
    if [ $# -gt 0 ]; then
        "$@" 2>&1 | tee "$log"
        status=${PIPESTATUS[0]}
    else
        echo "no command" | tee "$log"
        status=1
    fi
    count "$log" "$status"
    if [ "$failed" -eq "$before" ]; then
        printf '== %s: passed (%d s)\n' "$name" $((SECONDS - start))
    else
        printf '== %s: FAILED (%d s)\n' "$name" $((SECONDS - start))
        failures+=("$name")
    fi
}

# count LOG STATUS: what the last line says, or else one. Nothing at all, and a bad status, are at least one failure.
count() {
    local ok=1 bad=0
    if [[ $(tail -n 1 "$1") =~ ^([0-9]+)\ passed,\ ([0-9]+)\ failed$ ]]; then
        ok=$((10#${BASH_REMATCH[1]})) bad=$((10#${BASH_REMATCH[2]}))
    elif [ "$2" -ne 0 ]; then
        ok=0
    fi
    if [ "$bad" -eq 0 ] && { [ "$2" -ne 0 ] || [ "$ok" -eq 0 ]; }; then bad=1; fi
    passed=$((passed + ok)) failed=$((failed + bad))
}

# tally FOLDER: puts the logs there and says what passed. Its status is 0 if nothing failed and something passed.
tally() {
    mkdir -p "$1"
    rm -f "$1"/[0-9][0-9]-*.log
    cp "$step_logs"/*.log "$1"/ 2>/dev/null
    rm -rf "$step_logs"
    printf '\n'
    if [ ${#failures[@]} -gt 0 ]; then printf 'failed: %s\n' "${failures[@]}"; fi
    printf '%d passed, %d failed\n' "$passed" "$failed"
    [ "$failed" -eq 0 ] && [ "$passed" -gt 0 ]
}

#!/usr/bin/env bash
# The whole gate: every crate laid out and proved with its must-fail edits and programs (scripts/rt-ci.sh), the documents,
# then the programs in Rust, C and Python against what was built from the proved crates.
# Whatever fails, the rest still runs; the last line counts what passed and what failed. Logs: target/gate/.
cd "$(dirname "$0")/.." || exit 1
. scripts/steps.sh || exit 1

oracle() {
    (cd tests && CARGO_TARGET_DIR=../target/trials cargo test --release --quiet --offline --no-default-features)
}

step "layout, proofs, must-fail edits and programs (rt ci)" scripts/rt-ci.sh
step "promises name what exists" python3 scripts/check-promises.py --finished
step "public functions have contracts and one answer" python3 scripts/public-functions.py
step "what is read fits the page" python3 scripts/check-page.py
step "the reading list has all that the demands rest on" python3 scripts/check-reading.py
step "figures and names agree wherever they are told" python3 scripts/check-figures.py
step "the checks notice damage" python3 scripts/try-checks.py
step "program and libraries" scripts/build.py program host probe
step "the independent program agrees with the paper's examples" oracle
step "join against all pairs" scripts/trials.sh join
step "the user's law: a second code for every type" scripts/trials.sh doubled
step "reader and writer against the independent ones" scripts/trials.sh sheets
step "cells of the heat map against the independent ones" scripts/trials.sh cell
step "listing and host call against the independent ones" scripts/trials.sh host
step "program against the independent listing" scripts/trials.sh program "$PWD/target/bin/sazamkhri"
step "stored sheets give stored listings" scripts/check-examples.sh target/bin/sazamkhri examples examples/refused
step "the lesson and the pages beside it print what they say" python3 scripts/check-lesson.py
step "host program in C, plain and under the sanitizers" host/test.sh
step "the host's checks notice mistakes" host/try.sh
for test in tests/scripts/test_*.py; do
    step "$test" python3 scripts/run-tests.py "$test"
done

tally target/gate

#!/usr/bin/env bash
# Everything that the C programmer is promised, tried: the calls at their borders and the program that lists, plain and
# under the sanitizers; the library as a file; README's lines; and that it installs. The picture's program is built
# here, and tests/scripts/test_heat_map.py tries it. host/try.sh sees these checks fail.
set -eu -o pipefail
cd "$(dirname "$0")/.."
env -u PROGRAMS -u KINDS host/build.sh
for kind in "" .san; do
    target/host/check$kind
    host/check-program.sh target/host/list_sheet$kind
done
host/check-archive.sh
host/check-install.sh

#!/usr/bin/env bash
# Builds the C programs of host/ over libsazamkhri.a, plain and with the sanitizers, into target/host.
# The library itself comes first: scripts/build.py host.
# PROGRAMS and KINDS say which are built, if not all: list_sheet heat_map check, and plain san.
set -eu -o pipefail
cd "$(dirname "$0")/.."
to=target/host
CC=${CC:-cc}
host/library.sh
mkdir -p "$to"
# -z lazy: the first call then looks memset up, which takes stack too, and host/check.c measures that.
flags="-std=c99 -O2 -pthread -Wall -Wextra -Wpedantic -Werror -Wl,-z,lazy"
sanitizers="-g -fsanitize=address,undefined -fno-sanitize-recover=all"

# build NAME KIND: one program. The flags, and CC with flags of its own, are split into words.
build() {
    local more='' end=''
    [ "$2" = plain ] || { more=$sanitizers; end=.san; }
    # shellcheck disable=SC2086
    $CC $flags $more -Ihost "host/$1.c" -Ltarget/lib -lsazamkhri -o "$to/$1$end"
}

programs=${PROGRAMS:-list_sheet heat_map check}
for name in $programs; do
    for kind in ${KINDS:-plain san}; do
        build "$name" "$kind"
    done
done
echo "built in $to: $programs (${KINDS:-plain san})"

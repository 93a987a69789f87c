#!/usr/bin/env bash
# Installs what a C programmer needs, or removes it again: the header, the library, and the file for pkg-config.
#
#     [PREFIX=/usr/local] [DESTDIR=] host/install.sh [--remove]
#
# PREFIX is where the files will be used, DESTDIR a folder in which that place is built first, for packagers. Both
# are absolute. The library comes first: scripts/build.py host.
set -eu -o pipefail
# PREFIX is text to be taken apart byte by byte, and the files are for everybody.
export LC_ALL=C
umask 022
here=$(dirname -- "$(realpath -- "$0")")
prefix=${PREFIX-/usr/local}
destdir=${DESTDIR-}

# stop WORDS: nothing has been installed.
stop() {
    printf 'install: %s\n' "$1" >&2
    exit 2
}

# Refuses what cannot be meant, and what pkg-config has no way to write.
look() {
    [[ $prefix == /* ]] || stop "PREFIX is '$prefix': give the whole path, from / on, such as PREFIX=\"\$HOME/.local\""
    [[ -z $destdir || $destdir == /* ]] || stop "DESTDIR is '$destdir': give the whole path, from / on"
    [[ $prefix != *[[:cntrl:]]* ]] || stop "PREFIX has a line end or a tab in it: choose another folder"
    # shellcheck disable=SC2016
    [[ $prefix != *'${'* ]] || stop "PREFIX has '\${' in it, which pkg-config cannot write: choose another folder"
    [[ $prefix != *' ' ]] || stop "PREFIX ends in a space, which pkg-config cannot write: choose another folder"
}

# The version stands in the header, and nowhere else.
version() {
    sed -n 's/^#define SAZAMKHRI_VERSION "\(.*\)"$/\1/p' "$here/sazamkhri.h"
}

# What pkg-config would take for a quote, a variable or a remark gets a backslash in front.
escaped() {
    printf '%s' "$1" | sed 's/[\\"$`#]/\\&/g'
}

pkg_config_file() {
    local number text
    number=$(version)
    [ -n "$number" ] || stop "no SAZAMKHRI_VERSION in $here/sazamkhri.h"
    text=$(cat "$here/sazamkhri.pc.in")
    text=${text//@VERSION@/"$number"}
    printf '%s\n' "${text//@PREFIX@/"$(escaped "$prefix")"}"
}

# put TO: puts what comes in there, whole or not at all.
put() {
    mkdir -p -- "$(dirname -- "$1")"
    new=$1.new.$$
    cat > "$new"
    chmod 644 -- "$new"
    mv -f -T -- "$new" "$1"
    new=
    printf 'installed %s\n' "$1"
}

install_all() {
    local text
    "$here/library.sh"
    text=$(pkg_config_file)
    put "$root/include/sazamkhri.h" < "$here/sazamkhri.h"
    put "$root/lib/libsazamkhri.a" < "$here/../target/lib/libsazamkhri.a"
    put "$root/lib/pkgconfig/sazamkhri.pc" <<< "$text"
}

remove_all() {
    local file
    for file in include/sazamkhri.h lib/libsazamkhri.a lib/pkgconfig/sazamkhri.pc; do
        [ -e "$root/$file" ] || { printf 'not there: %s\n' "$root/$file"; continue; }
        rm -f -- "$root/$file"
        printf 'removed %s\n' "$root/$file"
    done
}

new=
trap '[ -z "$new" ] || rm -f -- "$new"' EXIT
look
while [[ $prefix == */ ]]; do prefix=${prefix%/}; done
root=$destdir$prefix
case "$*" in
'') install_all ;;
--remove) remove_all ;;
*) stop "usage: [PREFIX=/usr/local] [DESTDIR=] host/install.sh [--remove]" ;;
esac

#!/usr/bin/env bash
# Checks what README says to C programmers: its own lines, typed in a folder elsewhere, install the library, compile
# README's own programs against the installed files alone, and run them. As C99, C++11 and C++17, and below folders with
# the names that people have. Then: which files are installed, with which modes, and that they can be removed.
#
#     host/check-install.sh [PART..]
#
# The parts are c99, cxx11, cxx17, homes, modes, staged, removed and refusals; `removed` needs the two before it.
# Whatever is wrong is told, and then the exit status is 1.
set -eu -o pipefail
cd "$(dirname "$0")/.."
root=$PWD
place=$(mktemp -d)
trap 'rm -rf "$place"' EXIT
strict="-Wall -Wextra -Wpedantic -Werror"
files="include/sazamkhri.h lib/libsazamkhri.a lib/pkgconfig/sazamkhri.pc"
wrong=0 compiled=0

# problem WORDS: remembers what is wrong.
problem() {
    echo "$1"
    wrong=$((wrong + 1))
}

# block LANGUAGE PATTERN: the one block of README's section for C that has the pattern in it.
block() {
    awk -v language="$1" -v pattern="$2" '
        /^## / { here = $0 == "## From C" }
        here && /^```/ {
            if (inside && text ~ pattern) { printf "%s", text; n++ }
            inside = $0 == "```" language
            text = ""
            next
        }
        { text = text $0 "\n" }
        END { if (n != 1) { print "README: " n + 0 " blocks with " pattern > "/dev/stderr"; exit 1 } }
    ' README.md
}

# whole COMMAND: the command with its whole path, so that it can stand behind another of its name.
whole() {
    local words
    read -r -a words <<< "$1"
    words[0]=$(command -v "${words[0]}") || { echo "no $1 here, which this check needs" >&2; exit 1; }
    echo "${words[*]}"
}

# command_for NAME TEXT: a command that README's lines find before all others.
command_for() {
    mkdir -p "$place/bin"
    printf '#!/bin/sh\n%s\n' "$2" > "$place/bin/$1"
    chmod +x "$place/bin/$1"
}

# typed HOME LINES: types the lines in a folder elsewhere, with that home and no other settings.
typed() {
    (cd "$place/elsewhere" && env -i HOME="$1" PATH="$place/bin:$PATH" ROOT="$root" sh -e -c "$2" 2> "$place/err")
}

# listed WHAT HOME LINES: README's lines compile its first program, and print the stored listing.
listed() {
    rm -f "$place/elsewhere/my_program"
    typed "$2" "$3" > "$place/out" || problem "$1: $(head -n 5 "$place/err")"
    cmp -s "$place/out" examples/three.listing || problem "$1: another listing"
    compiled=$((compiled + 1))
}

# told_cell WHAT HOME LINES: the same lines compile its second program, which prints what README says.
told_cell() {
    rm -f "$place/elsewhere/my_cell"
    typed "$2" "${3//my_program/my_cell}" > "$place/out" || problem "$1: $(head -n 5 "$place/err")"
    [ "$(cat "$place/out")" = "$cell" ] || problem "$1: '$(cat "$place/out")' in the cell, not '$cell'"
    compiled=$((compiled + 1))
}

# In the folder where the lines are typed there are README's programs and a sheet, and nothing of the project else.
# `make install` hands its PREFIX to install.sh. Another PREFIX than one below the home is not tried: it might be real.
prepare() {
    mkdir "$place/elsewhere"
    block c 'int main.*sazamkhri_listing' > "$place/elsewhere/my_program.c"
    block c 'int main.*sazamkhri_cell' > "$place/elsewhere/my_cell.c"
    # shellcheck disable=SC2016
    cell=$(sed -n 's/^This program, `my_cell.c`, .* It prints `\([^`]*\)`.*/\1/p' README.md)
    [ -n "$cell" ] || problem "README does not say what my_cell.c prints"
    cp examples/three.sheet "$place/elsewhere/my.sheet"
    # shellcheck disable=SC2016
    command_for make '[ "$*" = "install PREFIX=$HOME/.local" ] || { echo "make $*: not tried" >&2; exit 2; }
PREFIX="$HOME/.local" exec "$ROOT/host/install.sh"'
    cc=$(whole "${CC:-cc}")
    cxx=$(whole "${CXX:-c++}")
    whole pkg-config > /dev/null
    install=$(block sh 'make install')
    plain=$(block sh '-lsazamkhri')
    packaged=$(block sh '\ncc .*pkg-config')
    evaluated=$(block sh '\neval .*pkg-config')
    typed "$place/home" "$install" > "$place/out" || problem "make install: $(cat "$place/err")"
}

# as LANGUAGE COMPILER: all three ways to compile, with a compiler that takes nothing but this language.
as() {
    command_for cc "exec $2 \"\$@\""
    listed "plain flags, $1" "$place/home" "$plain"
    listed "pkg-config, $1" "$place/home" "$packaged"
    listed "eval, $1" "$place/home" "$evaluated"
    told_cell "plain flags, $1" "$place/home" "$plain"
}

c99() {
    as "C99" "$cc -std=c99 $strict"
    refusals_told
    declaration sazamkhri_listing
    declaration sazamkhri_cell
}

cxx11() { as "C++11" "$cxx -std=c++11 $strict -x c++"; }
cxx17() { as "C++17" "$cxx -std=c++17 $strict -x c++"; }

# refused SHEET: README's program says the number of the refusal, and ends with 1.
refused() {
    local number status=0
    number=$(sed -n 's/^refused=\([0-9]*\) [0-9]*$/\1/p' "$1.listing")
    "$place/elsewhere/my_program" < "$1.sheet" > "$place/out" 2> "$place/err" || status=$?
    [ "$status" -eq 1 ] || problem "README's program: status $status for a refused sheet"
    [ ! -s "$place/out" ] || problem "README's program prints a refusal on standard output"
    [ "$(cat "$place/err")" = "refused: $number" ] || problem "README's program says: $(cat "$place/err")"
}

refusals_told() {
    local sheet
    for sheet in examples/refused/*.sheet; do
        refused "${sheet%.sheet}"
    done
}

# declaration NAME: README's declaration is that of the header: C takes a function twice, if it is the same.
declaration() {
    { echo '#include <sazamkhri.h>'; block c "^uint64_t $1"; } > "$place/elsewhere/twice.c"
    # shellcheck disable=SC2016
    typed "$place/home" 'cc -c twice.c -I"$HOME/.local/include" -o twice.o' ||
        problem "declaration of $1: $(cat "$place/err")"
}

# Homes with the names that people have. pkg-config prints $ and brackets as they are: there, plain flags only.
homes() {
    local name
    command_for cc "exec $cc -std=c99 $strict \"\$@\""
    # shellcheck disable=SC2016
    for name in "two  words" "l'âge \"du\" bronze" "მარიამი" 'back\slash#1' 'a$b (c)'; do
        typed "$place/$name" "$install" > "$place/out" || problem "$name: make install: $(cat "$place/err")"
        listed "$name: plain flags" "$place/$name" "$plain"
        case $name in
        *'$'*) ;;
        *) listed "$name: eval" "$place/$name" "$evaluated" ;;
        esac
    done
}

# tree FOLDER: the files below it, each with its mode.
tree() {
    mkdir -p "$1"
    (cd "$1" && find . ! -type d -printf '%m %P\n' | sort -k 2)
}

# Three files that all may read, also if whoever installs keeps new files to themselves; and over old ones.
modes() {
    local want="644 ${files// /$'\n'644 }" twice
    for twice in first again; do
        (umask 077 && PREFIX="$place/modes" host/install.sh > "$place/out")
        [ "$(tree "$place/modes")" = "$want" ] || problem "$twice, files and modes: $(tree "$place/modes")"
    done
    [ -z "$(find "$place/modes" -type d ! -perm 755)" ] || problem "folders that not all may read"
    cmp -s host/sazamkhri.h "$place/modes/include/sazamkhri.h" || problem "another header"
    cmp -s target/staticlib/libhost.a "$place/modes/lib/libsazamkhri.a" || problem "another library"
}

# The file for pkg-config tells the version, and of PREFIX alone, wherever it was built.
# Both folders are temporary, so that an installer that takes one for the other does no harm.
staged() {
    local used="$place/used" packages="$place/a stage$place/used/lib/pkgconfig" say
    DESTDIR="$place/a stage" PREFIX="$used/" host/install.sh > "$place/out"
    [ ! -e "$used" ] || problem "DESTDIR: installed in PREFIX itself"
    [ "$(tree "$place/a stage" | wc -l)" -eq 3 ] || problem "DESTDIR: not three files: $(tree "$place/a stage")"
    say=$(PKG_CONFIG_LIBDIR=$packages pkg-config --cflags --libs sazamkhri 2>&1) || say="no: $say"
    [ "${say% }" = "-I$used/include -L$used/lib -lsazamkhri" ] || problem "DESTDIR: pkg-config says $say"
    say=$(PKG_CONFIG_LIBDIR=$packages pkg-config --modversion sazamkhri 2>&1) || say="no: $say"
    grep -q -x "#define SAZAMKHRI_VERSION \"$say\"" host/sazamkhri.h || problem "version of pkg-config: $say"
}

# What is removed is what was installed, and no file of others.
removed() {
    echo mine > "$place/modes/lib/libother.a"
    PREFIX="$place/modes" host/install.sh --remove > "$place/out"
    [ "$(find "$place/modes" ! -type d -printf '%P\n')" = lib/libother.a ] || problem "left: $(tree "$place/modes")"
    PREFIX="$place/modes" host/install.sh --remove > "$place/out" || problem "nothing to remove: status $?"
    DESTDIR="$place/a stage" PREFIX="$place/used" host/install.sh --remove > "$place/out"
    [ -z "$(tree "$place/a stage")" ] || problem "left below DESTDIR: $(tree "$place/a stage")"
}

# refuses WHAT STATUS VARIABLE..: nothing is installed, and a message says why. What would be installed all the same
# goes into the temporary folder, by DESTDIR or by the folder that the command is given in.
refuses() {
    local what=$1 want=$2 got=0
    shift 2
    (cd "$place" && env "$@" "$root/host/install.sh" > "$place/out" 2> "$place/err") || got=$?
    [ "$got" -eq "$want" ] || problem "$what: status $got, not $want"
    [ -s "$place/err" ] || problem "$what: no message"
    [ ! -s "$place/out" ] || problem "$what: $(cat "$place/out")"
}

refusals() {
    local before
    before=$(tree "$place")
    echo file > "$place/elsewhere/file"
    refuses "a relative PREFIX" 2 DESTDIR="$place/stage" PREFIX=near
    refuses "an empty PREFIX" 2 DESTDIR="$place/stage" PREFIX=
    refuses "a relative DESTDIR" 2 DESTDIR=near PREFIX="$place/far"
    refuses "a line end in PREFIX" 2 PREFIX="$place/two"$'\n'lines
    refuses "a variable in PREFIX" 2 PREFIX="$place/\${prefix}"
    refuses "a space at PREFIX's end" 2 PREFIX="$place/end "
    refuses "a file for a folder" 1 PREFIX="$place/elsewhere/file"
    rm "$place/elsewhere/file"
    [ "$(tree "$place" | grep -v -x '... \(out\|err\)')" = "$(grep -v -x '... \(out\|err\)' <<< "$before")" ] ||
        problem "a refused install left files"
}

prepare
[ $# -gt 0 ] || set -- c99 cxx11 cxx17 homes modes staged removed refusals
for part in "$@"; do
    "$part"
done
[ "$wrong" -eq 0 ] || { echo "install: $wrong wrong"; exit 1; }
echo "README's lines compiled README's programs $compiled times from the installed files; installed and removed as said"

#!/usr/bin/env bash
# Checks what the header says of the library as a file: what it needs and gives, for which machine, and that it links
# into programs and shared objects of every kind.
#
#     host/check-archive.sh [ARCHIVE]
#
# Whatever is wrong is told, and then the exit status is 1.
set -eu -o pipefail
export LC_ALL=C
archive=$(realpath -- "${1:-"$(dirname "$0")/../target/lib/libsazamkhri.a"}")
cd "$(dirname "$0")/.."
CC=${CC:-cc}
place=$(mktemp -d)
trap 'rm -rf "$place"' EXIT
wrong=0

# same WHAT GOT WANTED: remembers a difference.
same() {
    [ "$2" = "$3" ] || { echo "$1: '$2', not '$3'"; wrong=$((wrong + 1)); }
}

# fields NAME: what the head of each object in the archive says under that name.
fields() {
    readelf -h "$archive" | sed -n "s/^ *$1: *//p" | sort -u
}

# sections: name, size and flags of each section that is part of a running program. No flags: -.
sections() {
    readelf -SW "$archive" | sed -n 's/^ *\[ *[0-9]*\] //p' |
        awk '$2 != "NULL" { print $1, $5, ($7 ~ /^[A-Za-z]+$/ ? $7 : "-") }'
}

symbols() {
    nm --undefined-only "$archive" | awk 'NF == 2 { print $2 }' | sort -u > "$place/needs"
    nm --extern-only --defined-only "$archive" | awk 'NF == 3 { print $2, $3 }' > "$place/gives"
    same "symbols it needs" "$(cat "$place/needs")" memset
    same "symbols it gives" "$(sort "$place/gives")" "T sazamkhri_cell"$'\n'"T sazamkhri_listing"
}

machine() {
    same "class" "$(fields Class)" ELF64
    same "machine" "$(fields Machine)" "Advanced Micro Devices X86-64"
    same "type" "$(fields Type)" "REL (Relocatable file)"
    same "byte order" "$(fields Data)" "2's complement, little endian"
}

# No instruction of the families that came after the first x86-64 processors, SSE3 and later.
instructions() {
    local newer='v.*|popcnt|[lt]zcnt|andn|bextr|bls.*|bzhi|mulx|pdep|pext|rorx|s[ah][lr]x|ad[co]x|movbe|crc32.?'
    newer+='|h(add|sub)p.|addsubp.|mov(d|sh|sl)dup|lddqu|pshufb|palignr|pabs.|psign.|ph(add|sub).*|pmaddubsw|pmulhrsw'
    newer+='|pmulld|pmuldq|p?blend.*|round..|dpp.|ptest|pmov[sz]x.*|pm(in|ax)(s[bd]|u[wd])'
    newer+='|p(ins|ext)r[bdq]|pcmp.*(q|str.)|(insert|extract)ps|packusdw|mpsadbw|movntdqa|phminposuw|fisttp.*'
    objdump -d "$archive" | awk -F '\t' 'NF > 2 { split($3, word, " "); print word[1] }' | sort -u > "$place/code"
    same "a call and a return in the code" "$(grep -c -x -E 'call|ret' "$place/code")" 2
    same "newer instructions" "$(awk -v newer="^($newer)\$" '$1 ~ newer' "$place/code")" ""
}

# No data that could be written, no tables beside the code, and no wish for a stack that can be executed.
data() {
    same "sections that can be written" "$(sections | awk '$3 ~ /W/ && $2 !~ /^0+$/ { print $1 }')" ""
    same "tables and marks" "$(sections | awk '$1 ~ /^\.(eh_frame|debug_|note\.gnu\.property)/ { print $1 }')" ""
    same "the note on the stack" "$(sections | awk '$1 == ".note.GNU-stack" { print $3 }')" "-"
}

# stack_of FILE: the flags of its stack.
stack_of() {
    readelf -lW "$1" | awk '$1 == "GNU_STACK" { print $7 }'
}

# program NAME FLAG..: a program that is linked so lists a sheet, and its stack cannot be executed.
program() {
    local name=$1
    shift
    $CC -std=c99 -O2 -Ihost "$@" host/list_sheet.c "$archive" -o "$place/$name" 2> "$place/err" ||
        same "linked as $name" "$(head -n 3 "$place/err")" ""
    same "what the linker says of $name" "$(cat "$place/err")" ""
    "$place/$name" examples/three.sheet | cmp - examples/three.listing || same "the listing of $name" wrong right
    same "stack of $name" "$(stack_of "$place/$name")" RW
}

# Not every machine has the C library as an archive.
static_program() {
    echo 'int main(void) { return 0; }' > "$place/empty.c"
    if $CC -static "$place/empty.c" -o "$place/empty" 2> "$place/err"; then
        program static -static
    else
        echo "a static program: not tried, since there is no static C library here"
    fi
}

# A shared object that has the calls in it, and a program that loads it: it prints a listing if a cell is right.
shared_object() {
    cat > "$place/load.c" <<'END'
#include <dlfcn.h>
#include <stdint.h>
#include <stdio.h>
int main(int argc, char **argv) {
    static uint8_t text[2048];
    static const char sheet[] = "k=1\ncontexts=3\nc=2 3 4 5\nc=1 2 3 4 5\nc=1 2 3 4\n";
    static const uint16_t list[] = {0, 1, 4, 5, 2};
    double value = 0.0;
    void *object = argc == 2 ? dlopen(argv[1], RTLD_NOW) : NULL;
    uint64_t (*listing)(const uint8_t *, size_t, uint8_t *, size_t);
    uint64_t (*cell)(uint16_t, const uint16_t *, size_t, size_t, uint16_t, uint16_t, double *);
    if (object == NULL) { fprintf(stderr, "%s\n", dlerror()); return 2; }
    *(void **)&listing = dlsym(object, "sazamkhri_listing");
    *(void **)&cell = dlsym(object, "sazamkhri_cell");
    uint64_t told = cell(3, list, sizeof list / sizeof *list, 1, 1, 0, &value);
    if (told != 1 || value != 0.8) { fprintf(stderr, "another cell\n"); return 3; }
    return fwrite(text, 1, listing((const uint8_t *)sheet, sizeof sheet - 1, text, sizeof text), stdout) == 0;
}
END
    $CC -shared -fPIC -Wl,-z,text,-z,defs -Wl,--whole-archive "$archive" -Wl,--no-whole-archive -o "$place/all.so" \
        2> "$place/err" || same "linked as a shared object" "$(head -n 3 "$place/err")" ""
    same "what the linker says of a shared object" "$(cat "$place/err")" ""
    $CC -O2 "$place/load.c" -ldl -o "$place/load"
    "$place/load" "$place/all.so" | cmp - examples/three.listing || same "the listing of a shared object" wrong right
    same "stack of a shared object" "$(stack_of "$place/all.so")" RW
}

symbols
machine
instructions
data
program pie -fPIE -pie -Wl,-z,text
program no-pie -fno-pie -no-pie
static_program
shared_object
[ "$wrong" -eq 0 ] || { echo "$archive: $wrong wrong"; exit 1; }
echo "$(basename "$archive"): memset alone, two calls, x86-64, no data, and it links everywhere"

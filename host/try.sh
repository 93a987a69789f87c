#!/usr/bin/env bash
# Tries the checks of the C programmer's side on mistakes: those of host/test.sh (the calls, the program that lists, the
# library as a file, README's lines, the installer), and tests/scripts/test_heat_map.py, which tries the picture's
# program. Each mistake is planted in a copy, and the check must notice, and say what.
#
#     host/try.sh [GROUP..]
#
# A group is one of the functions called .._mistakes, or as_they_are. Without names all are tried, as many at a time as
# there are processors. Exits with 1 if a mistake goes unnoticed, or if a check refuses the copy as it is. The library
# comes first: scripts/build.py host.
set -eu -o pipefail
cd "$(dirname "$0")/.."
# A second function of one name would take the place of the first, without a word.
twice=$(sed -n -E 's/^ *(function +)?([A-Za-z0-9_]+) *\(\).*/\2/p' host/try.sh | sort | uniq -d)
[ -z "$twice" ] || { echo "host/try.sh: defined twice: $twice"; exit 1; }
host/library.sh
CC=${CC:-cc}
copy=$(mktemp -d)
trap 'rm -rf "$copy"' EXIT
tried=0 wrong=0
export KINDS=plain LC_ALL=C

# The part of the project that the checks look at, as it is. There, nothing is to be proved: the library lies ready.
fresh() {
    rm -rf "${copy:?}"/*
    mkdir -p "$copy/target/staticlib" "$copy/docs" "$copy/tests/scripts"
    cp -r host examples scripts README.md Makefile "$copy"
    cp docs/LESSON.md "$copy/docs"
    cp tests/scripts/test_heat_map.py "$copy/tests/scripts"
    cp target/staticlib/libhost.a "$copy/target/staticlib"
    printf '#!/bin/sh\n' > "$copy/scripts/build.py"
    ln -s "$PWD/crates" "$copy/crates"
}

# The checks, each on the copy.
programs() { PROGRAMS=list_sheet "$copy/host/build.sh" && "$copy/host/check-program.sh"; }
calls() { PROGRAMS=check "$copy/host/build.sh" && "$copy/target/host/check"; }
archives() { "$copy/host/library.sh" && "$copy/host/check-archive.sh"; }
installs() { "$copy/host/check-install.sh" "$@"; }
pictures() { PROGRAMS=heat_map "$copy/host/build.sh" && python3 "$copy/tests/scripts/test_heat_map.py" "$@"; }

# as_it_is CHECK..: the check passes the copy without a mistake.
as_it_is() {
    fresh
    "$@" > "$copy/said" 2>&1 || { echo "$*: refuses the copy as it is"; cat "$copy/said"; wrong=$((wrong + 1)); }
}

# noticed MISTAKE WORDS CHECK..: the check fails, and says these words (an extended pattern).
noticed() {
    local mistake=$1 words=$2
    shift 2
    tried=$((tried + 1))
    if ("$@") > "$copy/said" 2>&1; then
        echo "$mistake: not noticed"
        wrong=$((wrong + 1))
    elif ! grep -q -E -e "$words" "$copy/said"; then
        echo "$mistake: noticed, but not by '$words':"
        tail -n 5 "$copy/said"
        wrong=$((wrong + 1))
    fi
}

# plant FILE EDIT MISTAKE WORDS CHECK..: one edit in one file of the copy.
plant() {
    local file=$1 edit=$2
    shift 2
    fresh
    sed -i -E -e "$edit" "$copy/$file"
    ! cmp -s "$file" "$copy/$file" || { echo "$1: nothing was planted"; wrong=$((wrong + 1)); }
    noticed "$@"
}

# library CALL MISTAKE CODE FLAGS WORDS CHECK..: another library. For one of the calls, `listing` or `cell`, it has the
# code, which makes the true call and one mistake more.
library() {
    local call=$1 mistake=$2 code=$3 flags=$4 words=$5
    shift 5
    fresh
    (
        cd "$copy/target/staticlib"
        ar x libhost.a host.o
        objcopy --redefine-sym "sazamkhri_$call=true_$call" --localize-hidden host.o
        printf '%s\n' '#include "sazamkhri.h"' '#define WORDS SAZAMKHRI_ENTRY_WORDS' \
            '#define TRUE __attribute__((visibility("hidden"))) uint64_t' \
            'TRUE true_listing(const uint8_t *, size_t, uint8_t *, size_t);' \
            'TRUE true_cell(uint16_t, const uint16_t *, size_t, size_t, uint16_t, uint16_t, double *);' \
            "$code" > wrong.c
        # shellcheck disable=SC2086
        $CC -O1 -fPIC -fno-asynchronous-unwind-tables -fcf-protection=none $flags -I"$copy/host" -c wrong.c -o wrong.o
        ld -r wrong.o host.o -o both.o 2> warnings
        objcopy --localize-symbol "true_$call" both.o
        rm -f libhost.a
        ar rcs libhost.a both.o
    )
    noticed "$mistake" "$words" "$@"
}

# with STATEMENTS: the code of a listing that does the statements behind the true one.
with() {
    printf '%s\n' \
        "uint64_t sazamkhri_listing(const uint8_t *sheet, size_t sheet_len, uint8_t *text, size_t text_len) {" \
        "uint64_t value = true_listing(sheet, sheet_len, text, text_len);" "$1" "return value; }"
}

# cell_with STATEMENTS: the code of a cell that does the statements behind the true one. `before` is what stood in
# *value, and `held` how many whole entries the list has. `again` is the true call once more, for some entries from one
# of the list on, and for two contexts.
cell_with() {
    printf '%s\n' \
        "#define held (list_len / WORDS)" "#define again(from, many, a, b) \\" \
        "    true_cell(contexts, list + WORDS * (from), WORDS * (many), many, a, b, value)" \
        "uint64_t sazamkhri_cell(uint16_t contexts, const uint16_t *list, size_t list_len, size_t entries," \
        "uint16_t first, uint16_t second, double *value) { double before = *value;" \
        "uint64_t told = true_cell(contexts, list, list_len, entries, first, second, value);" "$1" "return told; }"
}

# Where the mistakes are, and which check they are for.
in_list_sheet() { plant host/list_sheet.c "$@" programs; }
in_sheet_file() { plant host/sheet_file.h "$@" programs; }
in_check() { plant host/check.c "$@" calls; }
in_header() { plant host/sazamkhri.h "$@" calls; }
in_call() { library listing "$1" "$(with "$2")" "" "$3" calls; }
in_cell() { library cell "$1" "$(cell_with "$2")" "" "$3" calls; }
in_archive() { library listing "$1" "$(with "$2")${5-}" "$3" "$4" archives; }
in_readme() { plant README.md "$1" "README: $2" "$3" installs c99; }
in_heat_map() { plant host/heat_map.c "$1" "$2" "$3" pictures "${@:4}"; }
in_picture_of() { plant "$1" "$2" "$3" "$4" pictures "${@:5}"; }
in_make_heat() { plant Makefile "$2" "make heat: $3" "$4" pictures "Make.$1"; }

list_sheet_mistakes() {
    in_sheet_file 's/return REFUSED;/return DONE;/' "status 0 for a refusal" "status 0, not 1"
    in_list_sheet 's/return DONE;/return REFUSED;/' "status 1 for a listing" "status 1, not 0"
    in_sheet_file 's/= 2 \}/= 1 }/' "status 1 for a fault" "missing file: status 1, not 2"
    in_list_sheet 's/#include "sheet_file.h"/&\n#include <stdlib.h>/; s/return DONE;/abort();/' \
        "prints and aborts" "status 134, not 0"
    in_list_sheet 's/\|\| fflush/|| putchar(0) != 0 &/' "a byte more" "another listing"
    in_list_sheet 's/\(size_t\)value,/(size_t)value - 1,/; s/\(size_t\)value \|\|/(size_t)value - 1 ||/' \
        "a byte less" "another listing"
    in_sheet_file 's/fprintf\(stderr, "refused/fprintf(stdout, "refused/' "words on standard output" "prints on out"
    in_list_sheet 's/return DONE;/{ fputs("listed", stderr); & }/' "words beside a listing" "prints on err"
    in_sheet_file 's/fprintf\(stderr, "refused/fprintf(fopen("\/dev\/null", "w"), "refused/' \
        "no words" "not the words of refusal"
    in_sheet_file 's/(CODE_)TOO_LARGE/\1X/; s/CODE_NOT_RISING/CODE_TOO_LARGE/; s/CODE_X/CODE_NOT_RISING/' \
        "the words of another refusal" "not the words of refusal 4"
    in_list_sheet 's/ \|\| fflush\(stdout\) != 0//' "no look at the full disk" "full disk: status 0, not 2"
    in_sheet_file 's/ferror\(from\)/0/' "no look at what was read" "a folder: status 1, not 2"
    in_sheet_file 's/LIMIT \+ 1\]/LIMIT]/' "a long sheet cut off" "not the words of refusal 11"
    in_sheet_file 's/argc > 2/argc > 3/' "two arguments taken" "two arguments: status 1, not 2"
    in_sheet_file 's/<stdio.h>/<unistd.h>\n#include &/; s/fread\(.*from\)/argc > 1 ? & : (size_t)read(0, sheet, 999)/' \
        "a slow pipe read in part" "three.sheet through a pipe: status 1, not 0"
}

check_mistakes() {
    in_check 's/met=2.npair=0 1 4 5/met=3\\npair=0 1 4 5/' "another listing expected" "paper's sheet .*WRONG"
    in_check 's/(npair=0 1 4 5) 2/\1 3/' "another first shared code expected" "paper's sheet .*WRONG"
    in_check 's/(pair=%u %u %u %u) %u(.*), FIRST_CODE .*/\1\2);/' "lines of four numbers expected" \
        "16 codes, 64 pairs listed .*WRONG"
    in_check 's/1000012, ""/1000011, ""/' "another refusal expected" "in a byte less .*WRONG"
    in_check 's/ROOM, 27,/ROOM, 28,/' "another length expected" "no contexts .*WRONG"
    in_check 's/met > 2048/met > 2000/' "a smaller trail expected" "64 contexts that all meet.*WRONG"
    in_check 's/MEASURED = 30/MEASURED = 29/' "less stack said to be measured" "the most of all calls.*WRONG"
    in_check 's/MEASURED = 30/MEASURED = 31/' "more stack said to be measured" "the most of all calls.*WRONG"
    in_check 's/ends_with_room\(&most, most.bytes - ALIGNED/ends_with_room(\&most, most.bytes + ALIGNED/' \
        "a guard that is not reached" "with less is ended .*WRONG"
    in_check 's/with_room\(&most, SAZAMKHRI_STACK/with_room(\&most, 24 * 1024/' \
        "too small a thread" "Segmentation fault"
    in_check 's/with_room\(&most, SAZAMKHRI_CELL_STACK/with_room(\&most, 0/' \
        "too small a thread for a cell" "Segmentation fault"
    in_check 's/0x3FEFAEE41E6A7498/0x3FEFAEE41E6A7499/' "another last bit expected" "100 codes shared of 101 .*WRONG"
    in_check 's/CELL_MEASURED = [0-9]+/CELL_MEASURED = 16/' "less stack for a cell said to be measured" \
        "the most of all cells .*WRONG"
    in_check '/^static void \*call_cell/,/^}/s/told == /told != /' "another answer expected where stack is measured" \
        "the most of all cells .*WRONG"
    in_check 's/_MM_ROUND_UP, 0x6/_MM_ROUND_UP, 0x5/' "another way to round expected" "rounded up .*WRONG"
    in_header 's/(SAZAMKHRI_STACK) 49152/\1 30000/' "too little stack promised" "16 codes.* 30[0-9]* WRONG"
    in_header 's/(CELL_STACK) 1024/\1 16/' "too little stack for a cell promised" "Segmentation fault"
    in_header 's/(NOT_RISING =) 5/\1 15/' "a wrong number in the header" "a code twice .*WRONG"
    in_header 's/(NO_SUCH_CONTEXT =) 13/\1 14/' "a wrong number for a cell" "there are no contexts .*WRONG"
    in_header 's/(LIST_BROKEN =) 17/\1 16/' "a wrong number for a list" "an entry too many .*WRONG"
    in_header 's/(BLANK UINT64_C.)0/\12/' "another blank cell" "a context against itself .*WRONG"
    in_header 's/(VALUE UINT64_C.)1/\12/' "another cell with a value" "a listed pair .*WRONG"
    in_header 's/(ENTRY_WORDS) 5/\1 4/' "an entry of four words in the header" "a listed pair .*WRONG"
    in_header 's/(ENTRY_WORDS) 5/\1 6/' "a longer entry in the header" "an entry too many by a word .*WRONG"
    in_header 's/(PAIRS_LIMIT) 64/\1 65/' "more pairs in the header" "64 pairs listed .*WRONG"
    in_header 's/(PATCH) 0/\1 1/' "two versions" "version .*WRONG"
    in_header 's/(SHEET_LIMIT) 24576/\1 24577/' "another limit in the header" "a sheet of 24,576 bytes: not to be had"
}

call_mistakes() {
    in_call "a byte written behind the buffer" 'text[text_len] = 0;' "Segmentation fault"
    in_call "a byte written before the buffer" 'text[-1] = 0;' "Segmentation fault"
    in_call "a byte read behind the sheet" 'value += ((volatile const uint8_t *)sheet)[sheet_len] & 0;' \
        "Segmentation fault"
    in_call "a byte of the sheet written" 'if (sheet_len) ((uint8_t *)sheet)[0] = (uint8_t)107;' "Segmentation fault"
    in_call "no zero behind a listing" 'if (text_len) text[text_len - 1] = 1;' "no contexts .*WRONG"
    in_call "another refusal" 'value += value == 1000008;' "65 contexts that all meet .*WRONG"
    in_call "another first shared code" 'if (value > 40 && value < 1000000) text[value - 2] ^= 1;' \
        "the paper's sheet .*WRONG"
    in_call "a line of four numbers" 'if (value == 42) { value = 40; text[39] = 10; text[40] = text[41] = 0; }' \
        "the paper's sheet .*WRONG"
    in_call "60,000 bytes of stack" 'volatile char much[60000]; much[0] = 0; much[59999] = 0;' " 9[0-9]{4} WRONG"
    library listing "a length that threads share" \
        "$(with 'static volatile uint64_t last; last = value; sched_yield(); value = last;')" "-include sched.h" \
        "four threads, two sheets .*WRONG" calls
}

# taken CONDITION NAME: a list of one entry that is refused by right, and taken if the condition holds.
taken() {
    in_cell "taken: $2" "if (told == 1000017 && entries == 1 && list_len == WORDS && $1) told = 0;" "$2 .*WRONG"
}

# refused_by CONDITION NAME: a cell that is refused if the fifth word of the first entry is so.
refused_by() {
    in_cell "refused: $2" "if (told == 1 && list[WORDS - 1] $1) { told = 1000017; *value = 0.0; }" "$2.* WRONG"
}

# What a careless builder could do in a cell. First around it: beside its buffers, and with what calls share.
cell_mistakes() {
    in_cell "a double written behind the value" 'value[1] = 0.0;' "Segmentation fault"
    in_cell "a double written before the value" 'value[-1] = 0.0;' "Segmentation fault"
    in_cell "a word read behind the list" 'told += ((volatile const uint16_t *)list)[list_len] & 0;' \
        "Segmentation fault"
    in_cell "an entry too many read" 'if (told < 2) told += ((volatile const uint16_t *)list)[WORDS * entries] & 0;' \
        "Segmentation fault"
    in_cell "a word of the list written" 'if (list_len) ((volatile uint16_t *)list)[0] = list[0];' "Segmentation fault"
    library cell "a value that threads share" \
        "$(cell_with 'static volatile double last; last = *value; sched_yield(); *value = last;')" "-include sched.h" \
        "four threads, the same lists .*WRONG" calls
    in_cell "the way to round left changed" '__builtin_ia32_ldmxcsr(0x7F80);' "rounded to nearest.* WRONG"
    in_cell "2,000 bytes of stack" 'volatile char much[2000]; much[0] = 0; much[1999] = 0;' \
        "the most of all cells .*WRONG"
}

# In its answer.
cell_answer_mistakes() {
    in_cell "the value kept for a refusal" 'if (told > 1) *value = before;' "there are no contexts .*WRONG"
    in_cell "the value kept for a blank cell" 'if (told == 0) *value = before;' "a context against itself .*WRONG"
    in_cell "a blank cell with -0.0" 'if (told == 0) *value = -0.0;' "a context against itself .*WRONG"
    in_cell "a blank cell with -0.0 on one map" 'if (told == 0 && contexts == 112) *value = -0.0;' \
        "112 contexts, two of them with over 48 codes .*WRONG"
    in_cell "-0.0 where a long list is refused" 'if (told == 1000017 && entries == 65534) *value = -0.0;' \
        "entries, if it is wrong .*WRONG"
    in_cell "a value rounded twice" '*value = (float)*value;' "1 code shared of 3 .*WRONG"
    in_cell "the value the other way up" 'if (told == 1) *value = 1 / *value;' "a listed pair .*WRONG"
    in_cell "one order alone" 'if (told == 1 && first > second) { told = 0; *value = 0.0; }' "a listed pair .*WRONG"
    in_cell "the later of two entries" \
        'for (size_t i = told == 1 ? entries : 0; i-- && again(i, 1, first, second) != 1;);' \
        "the earlier of two entries .*WRONG"
    in_cell "a context alike to itself" 'if (told == 0 && first == second) { told = 1; *value = 1.0; }' \
        "a context against itself .*WRONG"
    in_cell "256 contexts at most" 'if (contexts > 256) { told = 1000017; *value = 0.0; }' "257 contexts.* WRONG"
    in_cell "64 entries at most" 'if (entries > 64) told = told == 1 ? 0 : told;' "the last of 65,534 entries .*WRONG"
}

# In its checks, and in their order.
cell_check_mistakes() {
    local words
    in_cell "the count before the contexts" 'if (entries > held) told = 1000017;' \
        "no such context, and too many entries .*WRONG"
    in_cell "the entries before the contexts" \
        'if (told == 1000013 && contexts && entries <= held && again(0, entries, 0, 0) > 1) told = 1000017;' \
        "no such context, and a wrong entry .*WRONG"
    in_cell "a count that overflows" \
        'if (told == 1000017 && entries > held && WORDS * entries <= list_len) told = 0;' \
        "words are 4 in 64 bits .*WRONG"
    for words in 1 2 3 4 9; do
        in_cell "a count that is $words in 64 bits" \
            "if (told == 1000017 && entries > held && WORDS * entries == $words) told = 0;" \
            "words are $words in 64 bits .*WRONG"
    done
    in_cell "a count of bytes that overflows" \
        'if (told == 1000017 && entries > held && 2 * WORDS * entries <= 2 * list_len) told = 0;' \
        "bytes are 0 in 64 bits .*WRONG"
    in_cell "a part of an entry counted" \
        'if (told == 1000017 && list_len % WORDS && entries == held + 1) told = 0;' \
        "an entry too many by a word .*WRONG"
    in_cell "no look behind the pair" \
        'for (size_t i = 1; told == 1000017 && i < entries && entries <= held; i++)
         told = again(0, i, first, second) == 1 ? 1 : told;' "a wrong entry behind the pair .*WRONG"
    in_cell "no look at the entries for a context against itself" \
        'if (first == second && first < contexts && entries <= held) told = 0;' \
        "a wrong entry, a context against itself .*WRONG"
    in_cell "a wrong entry far behind" 'if (told == 1000017 && entries == 65534) told = 1;' \
        "entries, if it is wrong .*WRONG"
    taken 'list[0] == list[1]' "an entry of one context"
    taken 'list[0] > list[1]' "an entry whose contexts fall"
    taken 'list[1] >= contexts' "an entry with no such context"
    taken 'list[2] == 0' "an entry with nothing shared"
    taken 'list[2] > list[3]' "an entry with more shared than in either"
}

# In the words of an entry: there are five, and the fifth is not looked at.
cell_word_mistakes() {
    in_cell "entries of four words" \
        'static uint16_t wide[WORDS * 65536];
         for (size_t i = 0; entries <= list_len / 4 && i < 4 * entries; i++) wide[i / 4 * WORDS + i % 4] = list[i];
         if (told != 1000013 && entries <= list_len / 4)
         told = true_cell(contexts, wide, WORDS * entries, entries, first, second, value);' \
        "the second pair listed .*WRONG"
    in_cell "four words counted for an entry" \
        'if (told == 1000017 && entries > held && entries <= list_len / 4) told = 0;' "an entry of four words .*WRONG"
    in_cell "six words counted for an entry" \
        'if (told < 2 && entries > list_len / 6) { told = 1000017; *value = 0.0; }' "a listed pair .*WRONG"
    refused_by '== 0' "a first shared code of 0"
    refused_by '> 4095' "a fifth word that is no code"
    refused_by '== 65535' "a fifth word of 65,535"
    refused_by '== 40000' "all of these, with every fifth word"
    in_cell "the smaller of two first shared codes counts" \
        'if (told == 1 && entries == 2 && list[2 * WORDS - 1] < list[WORDS - 1] && again(1, 1, first, second) != 1)
         again(0, 1, first, second);' "the earlier of two entries .*WRONG"
}

archive_mistakes() {
    in_archive "a symbol too many" "" "" "symbols it gives" "int other(void) { return 1; }"
    in_archive "another function needed" 'if (value == 7) abort();' "-include stdlib.h" "symbols it needs"
    in_archive "data" 'static volatile uint64_t calls; calls++;' "" "sections that can be written"
    in_archive "code for newer processors" 'value += text_len == 3 ? __builtin_popcountll(value) : 0;' "-mpopcnt" \
        "newer instructions: 'popcnt'"
    in_archive "code for one place" \
        'static const char at[] = "at"; text += value == 3 ? (uintptr_t)at : 0; value += text == 0;' "-fno-pic" \
        "linked as pie|linked as a shared object"
    library cell "a call too few" "" "" "symbols it gives" archives
    library cell "another cell in a shared object" "$(cell_with '*value += 1;')" "" "another cell" archives
    library cell "division for newer processors" "$(cell_with 'if (told == 7) *value /= before;')" -mavx \
        "newer instructions: 'vdivsd" archives
    in_archive "a table for debuggers" "" "-fasynchronous-unwind-tables" "tables and marks: '.eh_frame'"
    in_archive "a stack to execute" "" "-Wa,--execstack" "the note on the stack"
}

# shellcheck disable=SC2016
readme_mistakes() {
    in_readme 's/^make install PREFIX=.*/make install/' "no PREFIX" "make install: .*not tried"
    in_readme 's/-lsazamkhri/-lsazamkri/' "another library" "README: 0 blocks with -lsazamkhri"
    in_readme 's/\.local\/include"/.local\/inc"/' "another folder" "plain flags, C99: "
    in_readme 's/\(pkg-config --cflags --libs/(pkg-config --libs/' "no flags" "pkg-config, C99: "
    in_readme 's/listing\(sheet, length, text, sizeof text\)/listing(sheet, length, text)/' \
        "an argument too few" "plain flags, C99: "
    in_readme 's/fwrite\(text, 1, told/fwrite(text, 1, told - 1/' "a byte less" "C99: another listing"
    in_readme 's/^uint64_t sazam/uint32_t sazam/' "another type" "README: 0 blocks"
    in_readme 's/size_t text_len\);/int text_len);/' "another argument" "declaration of sazamkhri_listing: "
    in_readme 's/uint16_t second, double/size_t second, double/' "another context" "declaration of sazamkhri_cell: "
    in_readme 's/ENTRY_WORDS, 1, 1, 0, &value/ENTRY_WORDS, 1, 1, \&value/' "an argument too few for a cell" \
        "plain flags, C99: .*my_cell"
    in_readme 's/\{0, 1, 4, 5, 2\};/{0, 1, 3, 5, 2};/' "another entry" "'0.6' in the cell, not '0.8'"
    in_readme 's/(list, SAZAMKHRI_ENTRY_WORDS), 1/\1 - 1, 1/' "four words lent" "'refused: 17' in the cell, not '0.8'"
    in_readme 's/It prints `0.8`/It prints `0.7`/' "another cell told" "'0.8' in the cell, not '0.7'"
}

# What these install goes into the temporary folder of the check, whatever they do wrong.
# shellcheck disable=SC2016
install_mistakes() {
    plant host/install.sh 's/chmod 644/chmod 600/' "a file for the owner alone" "files and modes" installs modes
    plant host/install.sh '/^umask/d' "folders for the owner alone" "folders that not all may read" installs modes
    plant host/install.sh 's/ lib\/libsazamkhri.a lib/ lib/' "a file left" "left: " installs modes staged removed
    plant host/install.sh 's/rm -f -- "\$root\/\$file"/& "$root\/lib\/libother.a"/' \
        "a file of others removed" "left: " installs modes staged removed
    plant host/install.sh 's/^root=.*/root=$prefix/' "DESTDIR not seen" "installed in PREFIX itself" installs staged
    plant host/install.sh 's/escaped "\$prefix"/echo "$prefix"/' "no backslashes" "eval: " installs homes
    plant host/install.sh '/PREFIX is/d' "a relative PREFIX taken" "a relative PREFIX: status" installs refusals
    plant host/sazamkhri.pc.in 's/-I"(.*)"/-I\1/' "no quotes" "two  words: eval" installs homes
    plant host/sazamkhri.pc.in 's/@VERSION@/0.9/' "another version" "version of pkg-config: 0.9" installs staged
}

painted_cell_mistakes() {
    local coloured="cells that are coloured" tests=Pictures.test_cells
    in_heat_map 's/(answer == SAZAMKHRI_VALUE)\)/\1 \&\& row < column)/' "cells one way round" "$coloured" $tests
    in_heat_map 's/TOP \+ cell->row \*/TOP + (cell->row + 1) */' "rows off by one" "$coloured" $tests
    in_heat_map 's/LEFT \+ cell->column \*/LEFT + (cell->column - 1) */' "columns off by one" "$coloured" $tests
    in_heat_map 's/TOP \+ cell->row/TOP + cell->column/; s/LEFT \+ cell->column/LEFT + cell->row/' \
        "rows for columns" "a tooltip" $tests
    in_heat_map 's/(answer == SAZAMKHRI_VALUE)\)/\1 || row == column)/' "the diagonal coloured" "$coloured" $tests
    in_heat_map 's/pair < map->pairs;/pair + 1 < map->pairs;/' "the last pair left out" "status 2" $tests
    in_heat_map 's/digits < 17/digits < 3/' "values of three digits" "a tooltip" $tests
    in_heat_map 's/int digits = 0;/int digits = 16;/' "values of 17 digits" "a tooltip" $tests
    in_heat_map 's/PAIRS = SAZAMKHRI_PAIRS_LIMIT/PAIRS = 63/' "no room for 64 pairs" "status 2" $tests
    in_heat_map 's/CONTEXTS = 256/CONTEXTS = 255/' "no room for 256 contexts" "256 contexts: status 2" $tests
}

# In the numbers of a line, which are an entry's words. `pass` is what passes over the rest of a line.
line_mistakes() {
    local tests=Pictures.test_cells pass
    pass='s/^ *return well && letters/while (listing->at < listing->end \&\& *listing->at != 10) listing->at++;\n&/'
    in_picture_of host/sazamkhri.h 's/(ENTRY_WORDS) 5/\1 4/' "an entry of four words in the header" "status 2" $tests
    in_heat_map 's/word < WORDS;/word < WORDS - 1;/' "four numbers of a line read" "status 2" $tests
    in_heat_map 's/word < WORDS;/word < WORDS + 1;/' "six numbers of a line read" "status 2" $tests
    in_heat_map 's/list \+ WORDS \* pair/list + (WORDS - 1) * pair/' "entries that overlap" "status 2" $tests
    in_heat_map "s/word < WORDS;/word < WORDS - 1;/; $pass" "a fifth number passed over" \
        "cells that are asked for" StandIns.test_every_cell_is_asked_for_once
    in_heat_map "$pass" "a sixth number passed over" "pair=0 1 1 2 7 7" \
        StandIns.test_listings_that_never_are
}

colour_mistakes() {
    in_heat_map 's/place = value \*/place = (1 - value) */' "the ramp turned round" "is lighter than" \
        Pictures.test_colours
    in_heat_map 's/\{29, 92, 160\}/{99, 160, 210}/' "a ramp that rises" "is lighter than" \
        StandIns.test_every_answer_is_painted_at_its_place
    in_heat_map 's/\{187, 211, 234\}/{240, 245, 250}/' "a ramp from white on" "nearly white" Pictures.test_colours
    in_heat_map 's/fill\(cell->value\)/fill(0.5)/' "one colour for all" "is not darker than" Pictures.test_colours
    in_heat_map 's/fill\(value\);/fill(value * 0.9);/' "another ramp in the scale" "the swatch of" \
        Pictures.test_scale
    in_heat_map 's/0\.6, 0\.4/0.6, 0.5/' "another scale" "the scale" Pictures.test_scale
    in_heat_map 's/#202020/#202021/' "another ink" "the stored picture" Pictures.test_the_stored_picture
}

picture_mistakes() {
    in_heat_map '/void paint_rows/,/^}/s/context = 0/context = plan->step/' "no number 0" \
        "numbers along the left edge" Pictures.test_numbers_along_both_edges
    in_heat_map '/void paint_columns/,/^}/s/TOP - 8, context\)/TOP - 8, context + 1)/' "numbers from 1" \
        "numbers along the upper edge" Pictures.test_numbers_along_both_edges
    in_heat_map '/void paint_columns/,/^}/s/context \+ 0\.5/context + 1.0/' "numbers at the cells' ends" \
        "the number above column" Pictures.test_numbers_along_both_edges
    in_heat_map 's/100 \? 32 : 24/100 ? 12 : 12/' "numbers that touch" "numbers that touch" \
        Pictures.test_numbers_along_both_edges
    in_heat_map 's/line = 1; line < plan/line = 2; line < plan/' "a line left out" "the grid" Pictures.test_grid
    in_heat_map 's/ pointer-events=..none..//' "a grid that takes the pointer" "a grid over the tooltips" \
        Pictures.test_what_lies_on_what
    in_heat_map '/^    paint_cells\(map/d; s/^    paint_grid\(&plan\);/&\n    paint_cells(map, \&plan);/' \
        "cells over the grid" "another order" Pictures.test_what_lies_on_what
    in_heat_map 's/ \+ GAP \+ SCALE_WIDTH\)/)/' "a scale cut off" "test_nothing_is_cut_off" \
        Pictures.test_nothing_is_cut_off
    in_heat_map 's/pairs = map->pairs;/pairs = map->pairs + 1u;/' "a pair too many in words" "Pairs listed" \
        Pictures.test_for_those_who_listen
    in_heat_map 's/<\/svg>.n/<\/svg>/' "no line end" "the last line" Pictures.test_form
    in_heat_map 's/printf\("<\/svg>.n"\)/(void)0/' "no well-formed XML" "ParseError" Pictures.test_form
}

answer_mistakes() {
    local tests=StandIns.test_an_odd_answer_is_never_painted
    in_heat_map 's/answer != SAZAMKHRI_VALUE\)/answer > 2000000)/' "a refused cell left blank" \
        "Tuples differ: \(0, " $tests
    in_heat_map '/^static int ask\(/,/^}/s/return 0;/return 1;/' "a refused cell told, and painted" \
        "Tuples differ: \(0, " $tests
    in_heat_map 's/answer >= SAZAMKHRI_REFUSED/answer > 1/' "another answer told as a refusal" \
        "which no cell has" $tests
    in_heat_map 's/answer >= SAZAMKHRI_REFUSED/answer > SAZAMKHRI_REFUSED/' "a refusal told as another answer" \
        "is refused" $tests
    in_heat_map 's/if \(!ask\(map/if (cell % (map->contexts + 1) != 0 \&\& !ask(map/' "the diagonal not asked for" \
        "cells that are asked for" StandIns.test_every_cell_is_asked_for_once
    in_heat_map 's/return well && listing.*/return well;/' "more behind a listing" "AssertionError" \
        StandIns.test_listings_that_never_are
    in_heat_map 's/(text->at > first) && sum <= UINT16_MAX/\1/' "large numbers taken" "AssertionError" \
        StandIns.test_listings_that_never_are
    in_heat_map 's/text->at < text->end && //' "a number read past the end" "AddressSanitizer" \
        StandIns.test_listings_that_never_are
    in_heat_map 's/\(size_t\)\(text->end - text->at\) < length \|\| //' "letters read past the end" "AddressSanitizer" \
        StandIns.test_listings_that_never_are
    in_heat_map 's/sheet\.at < sheet\.end && //' "a sheet read past its end" "AddressSanitizer" \
        StandIns.test_listings_that_never_are
    in_heat_map 's/"\\ncontexts=/"contexts=/' "contexts from within a line" "a cell with the size" \
        StandIns.test_listings_that_never_are
    in_heat_map 's/ && map->contexts <= CONTEXTS//' "more contexts than fit" "AssertionError" \
        StandIns.test_listings_that_never_are
    in_heat_map 's/cells\[CONTEXTS \* CONTEXTS\]/cells[2 * PAIRS]/' "room for the cells of a listing alone" \
        "AddressSanitizer" StandIns.test_the_largest_square_in_one_colour
    in_heat_map 's/return DONE;/return REFUSED;/' "status 1 for a picture" "status 1" Pictures.test_form
    in_heat_map 's/return (refused\(.*)/\1 return DONE;/' "status 0 for a refusal" "a refused sheet" \
        Streams.test_refused_sheets
    in_heat_map 's/^    printf\("<desc>/    printf("<!-- %u -->\\n", (unsigned)map->list[WORDS - 1]);\n&/' \
        "the first shared code in the picture" "another picture" \
        StandIns.test_the_picture_does_not_show_the_first_shared_code
    in_heat_map 's/ferror\(stdout\) \|\| fflush\(stdout\) != 0/0/' "no look at the full disk" "a fault" \
        Streams.test_cannot_be_written
}

# in_sheet_of EDIT MISTAKE WORDS TEST: what all example programs have in common, for a test of the picture's streams.
in_sheet_of() { in_picture_of host/sheet_file.h "$1" "$2" "$3" "Streams.$4"; }

stream_mistakes() {
    in_sheet_of 's/LIMIT \+ 1\]/LIMIT]/' "a long sheet cut off" "over 24,576 bytes.* not found in 'refused \(9\)" \
        test_odd_sheets
    in_sheet_of 's/argc > 2/argc > 3/' "two arguments taken" "a fault" test_cannot_be_read
    in_sheet_of 's/ferror\(from\)/0/' "no look at what was read" "a fault" test_cannot_be_read
    in_sheet_of 's/argc == 2 \?/argc == 2 \&\& strcmp(argv[1], "-") != 0 ?/' "a file called - not read" " : -$" \
        test_names_that_files_have
    in_sheet_of 's/<stdio.h>/<unistd.h>\n#include &/; s/fread\(.*from\)/argc > 1 ? & : (size_t)read(0, sheet, 9999)/' \
        "a slow pipe read in part" "Tuples differ: \(1, " test_file_input_and_slow_pipe
    in_heat_map 's/<stdlib.h>/<unistd.h>\n#include &/; s/printf\("<desc>/printf("<!-- %d -->", getpid());\n&/' \
        "other bytes in every run" "test_every_run" Pictures.test_every_run_gives_the_same_bytes
}

# What the lesson says of its pictures, and the sheets that the tests make.
told_mistakes() {
    local lesson=docs/LESSON.md sheet=examples/cemetery.sheet said="what the lesson says"
    in_picture_of $lesson 's/, 20 coloured/, 21 coloured/' "another count in the lesson" "$said" Lesson
    in_picture_of $lesson 's/other 45 stay/other 44 stay/' "another rest in the lesson" "$said" Lesson
    in_picture_of $lesson 's/missing: 7 and 10/missing: 7 and 11/' "another pair in the lesson" "$said" Lesson
    in_picture_of $lesson 's/^for 9\. And/for 8. And/' "another dark cell in the lesson" "$said" Lesson
    in_picture_of $lesson 's/0\.6666666666666666/0.6666666666666667/' "another value in the lesson" "$said" Lesson
    in_picture_of $lesson 's/^(contexts 5 and 8: 0\.128).*/\1/' "another tooltip in the lesson" "$said" Lesson
    in_picture_of $sheet 's/^k=10$/k=9/' "another k in the lesson's sheet" "$said" Lesson
    in_picture_of $sheet '3s/ [0-9]+$//' "another grave in the lesson's sheet" "$said" Lesson
    in_picture_of tests/scripts/test_heat_map.py 's/"one context":/"no contexts":/' "a sheet too few" \
        "25 != 26" Pictures.test_enough_pictures
}

# shellcheck disable=SC2016
make_heat_mistakes() {
    in_make_heat test_no_sheet '/^heat:/,/^$/{/Which sheet/d}' "no words where no sheet is named" "what is said"
    in_make_heat test_no_sheet '/^heat:/,/^$/{/scripts\/list.py/d}' "no words for a missing sheet" "what is said"
    in_make_heat test_the_picture_and_nothing_else 's/\[ "\$\$SHEET" = - \] \|\| set --/set --/' "no standard input" \
        " : make heat$"
    in_make_heat test_the_picture_and_nothing_else 's/(host\/build.sh) > \/dev\/null/\1/' "words before the picture" \
        " : make heat$"
    in_make_heat test_names_that_shells_and_make_could_misread 's/heat_map "\$\$@"/heat_map $$@/' \
        "names cut at spaces" "two words"
    in_make_heat test_refused '/^heat:/,/^$/{s/-ne 1 \]/-ne 3 ]/}' "no word of make list" "what is said"
    in_make_heat test_help 's/^#: make heat/# make heat/' "no line in the help" "test_help"
}

as_they_are() {
    as_it_is programs
    as_it_is calls
    as_it_is archives
    as_it_is installs
    as_it_is pictures
}

# groups: all that can be tried, by name.
groups() { declare -F | sed -n -E 's/^declare -f (as_they_are|.*_mistakes)$/\1/p'; }

# some GROUP..: tries these, and says how it went.
some() {
    local group
    for group in "$@"; do
        groups | grep -q -x -e "$group" || { echo "$group: no group of mistakes"; exit 2; }
        "$group"
    done
    echo "$*: $tried tried, $wrong problems"
    [ "$wrong" -eq 0 ]
}

# all: tries every group by itself, several at a time, and adds up. A group that does not come to its end is a problem.
all() {
    local group last
    # shellcheck disable=SC2016
    groups | xargs -P "$(nproc)" -I GROUP sh -c 'host/try.sh GROUP > "$0/GROUP" 2>&1 || true' "$copy"
    for group in $(groups); do
        cat "$copy/$group"
        last=$(tail -n 1 "$copy/$group")
        [[ $last =~ ^$group:\ ([0-9]+)\ tried,\ ([0-9]+)\ problems$ ]] || { wrong=$((wrong + 1)); continue; }
        tried=$((tried + BASH_REMATCH[1])) wrong=$((wrong + BASH_REMATCH[2]))
    done
    echo "mistakes in C and around it: $tried tried, $wrong problems"
    [ "$wrong" -eq 0 ] && [ "$tried" -gt 0 ]
}

if [ $# -gt 0 ]; then some "$@"; else all; fi

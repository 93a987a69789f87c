#!/usr/bin/env bash
# Each stored sheet gives its stored listing, byte for byte, and no listing is without a sheet.
#
#     scripts/check-examples.sh PROGRAM FOLDER..
set -u -o pipefail
program=$1
shift
wrong=0 tried=0
for folder in "$@"; do
    for listing in "$folder"/*.listing; do
        [ -f "${listing%.listing}.sheet" ] || { echo "$listing: there is no sheet to it"; wrong=$((wrong + 1)); }
    done
    for sheet in "$folder"/*.sheet; do
        tried=$((tried + 1))
        "$program" < "$sheet" | cmp - "${sheet%.sheet}.listing" || { echo "$sheet: not as stored"; wrong=$((wrong + 1)); }
    done
done
echo "stored sheets: $tried tried, $wrong problems"
[ "$wrong" -eq 0 ] && [ "$tried" -gt 0 ]

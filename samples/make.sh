#!/bin/sh
# Makes each sample's sheet: from its table by the program paper, from its lists of references by the program slip, and what paper refuses to make by
# hand.
set -eu
cd "$(dirname "$0")"
trap 'rm -f new' EXIT

# keep FILE: what is read becomes the file, once it has been read in full.
keep() { cat >new && mv new "$1"; }

full() {
    echo "# The largest side, 64; row i and column j cost i*j"
    i=0
    while [ "$i" -lt 64 ]; do
        j=0 row=
        while [ "$j" -lt 64 ]; do row="$row $((i * j))" j=$((j + 1)); done
        echo "${row# }"
        i=$((i + 1))
    done
}
full | keep full.table

for table in *.table; do
    (cd ../rust && cargo run --offline --quiet -p paper -- sheet) <"$table" >new
    mv new "${table%.table}.sheet"
done

# The scores are the archive's: `tools/build face` first, or its directory in BRISTLEFROST_LIB.
(cd ../rust && cargo run --offline --quiet -p bristlefrost -- score ../samples/look-alikes.firsts ../samples/look-alikes.seconds) |
    keep look-alikes.sheet

# A trailer is the distance (4 bytes), the side (2), the edition (2) and MTCH.
{ head -c -6 one.sheet; printf '\004\000MTCH'; } | keep edition-4.sheet
{ head -c 16900 /dev/zero; printf '\004\102\000\000\101\000\001\000MTCH'; } | keep side-65.sheet
{ head -c -12 one.sheet; printf '\005\000\000\000'; tail -c 8 one.sheet; } | keep distance-one-off.sheet
tail -c 47 n8.sheet | keep cut-off.sheet
{ printf '# One guest\n'; tail -c 16 one.sheet; } | keep line-end.sheet
{ head -c -20 ends.sheet; printf '\001\312\232\073'; tail -c 16 ends.sheet; } | keep over-k.sheet
# In edition 3 the number of rows (2 bytes) stands before the trailer.
{ head -c -14 edition-3.sheet; printf '\005'; tail -c 13 edition-3.sheet; } | keep more-rows.sheet
{ printf '\000'; tail -c 12 edition-3.sheet; } | keep no-rows.sheet
# In edition 2 the costs stand before 8 bytes for each row.
{ head -c -44 edition-2.sheet; printf '\101\102\017\000'; tail -c 40 edition-2.sheet; } | keep over-barred.sheet
{ head -c -20 edition-2.sheet; printf '\004'; tail -c 19 edition-2.sheet; } | keep bars-past-side.sheet

#!/bin/sh
# Tries the comparison itself: the stand-in archive passes, and each of its wrong forms is found by the part of the comparison that
# wrong.txt names beside it.
set -eu
cd "$(dirname "$0")/.."
target=$(realpath -m "${CARGO_TARGET_DIR:-target}")/standin
cargo build --offline --quiet -p standin-archive --release --target-dir "$target"
BRISTLEFROST_LIB=$target/release cargo build --offline --quiet -p differential --features archive --target-dir "$target"

# compare FORM [PART]: the comparison, or this part of it, with the stand-in in this form; what it prints goes to a file of the form's own.
compare() { STANDIN_WRONG=$1 "$target/debug/differential" ${2:+"$2"} --large 0 >"$target/$1.out"; }

compare "" || { cat "$target/.out"; echo "the stand-in itself was refused"; exit 1; }
echo "the stand-in passes"
while read -r form part; do
    if compare "$form" "$part" || ! grep -q '^differential: FAILED' "$target/$form.out"; then
        cat "$target/$form.out"
        echo "not found: $form"
        exit 1
    fi
    echo "found: $form"
done <standin-archive/wrong.txt
[ "$(wc -l <standin-archive/wrong.txt)" -ge 47 ]

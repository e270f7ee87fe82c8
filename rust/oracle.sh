#!/bin/sh
# Writes the fixed list of the crate's answers, oracle.txt, from the crate's source.
#
#     oracle.sh           writes it
#     oracle.sh source    fails where the source is not the one that the list's head names by its sha256
set -eu
here=$(realpath "$(dirname "$0")")
LAPJV_SRC=$(realpath -m "${LAPJV_SRC:-$here/../../shared/docs/src/src/lib.rs}")
export LAPJV_SRC
cd "$here"
[ -f "$LAPJV_SRC" ] || { echo "oracle.sh: the crate's source is not at LAPJV_SRC ($LAPJV_SRC)" >&2; exit 1; }
first="# Answers of lapjv 0.3.0, src/lib.rs on f64, of sha256 $(sha256sum <"$LAPJV_SRC" | cut -d' ' -f1),"
case ${1:-} in
"") ;;
source)
    [ "$first" = "$(head -n 1 oracle.txt)" ] || { echo "oracle.sh: oracle.txt is from another source than LAPJV_SRC ($LAPJV_SRC)" >&2; exit 1; }
    echo "oracle.sh: the source is the one that oracle.txt names"
    exit
    ;;
*) echo "oracle.sh [source]" >&2; exit 2 ;;
esac
trap 'rm -f oracle.new' EXIT
{
    echo "$first"
    echo "# written by oracle.sh: the nights of slips.md, then others from seed 1. v on side 1 is document 01's, not the crate's."
    echo "# The row prices are cost minus v."
    echo "# side;costs in row order;columns by row;rows by column;v;row prices;total;six counts"
    cargo run --offline --quiet --bin list -- write slips.md 1
} >oracle.new
mv oracle.new oracle.txt

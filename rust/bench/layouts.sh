#!/bin/sh
# Runs the benchmark in five layouts of its code and writes the middle of each figure: layouts.sh [the benchmark's own settings]
set -eu
cd "$(dirname "$0")/.."
runs=$(mktemp -d)
trap 'rm -rf "$runs"' EXIT
for shift in 0 16 32 48 1040; do
    BENCH_SHIFT=$shift cargo run --offline --quiet --release -p bench -- "$@" >"$runs/$shift" || { cat "$runs/$shift"; exit 1; }
    echo "layout $shift is measured" >&2
done
awk -F ' *[|] *' '
    # The middle of the figures that the runs give for one field of one line.
    function middle(line, field,    run, k, least, figures) {
        for (run = 1; run <= runs; run++) figures[run] = part[run, line, field]
        for (k = 0; k <= int(runs / 2); k++) {
            least = 0
            for (run = 1; run <= runs; run++)
                if (figures[run] != "" && (!least || figures[run] + 0 < figures[least] + 0)) least = run
            last = figures[least]
            figures[least] = ""
        }
        return last
    }
    FNR == 1 { runs++ }
    { text[FNR] = $0; fields[FNR] = NF; lines = FNR }
    { for (k = 1; k <= NF; k++) part[runs, FNR, k] = $k }
    END {
        for (line = 1; line <= lines; line++) {
            if (text[line] !~ /[|].*[0-9][.][0-9]/) { print text[line]; continue }
            out = "|"
            for (k = 2; k < fields[line]; k++)
                out = out " " (part[1, line, k] ~ /^[0-9]+[.]?[0-9]*$/ ? middle(line, k) : part[1, line, k]) " |"
            print out
        }
    }' "$runs"/*

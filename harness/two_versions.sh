#!/usr/bin/env bash
# Times two versions of the library beside each other: harness/two_versions.sh BEFORE.a AFTER.a LOTS PASSES [WORDS]
# A loop's speed changes with where the linker puts it, so each archive is linked eight times with the pieces of code in
# another order (the same eight orders for both), and the binaries run in turn. It prints for each workload, orders in turn,
# the walk in µs, the median over the eight (least to most), and how much slower AFTER is, as a part of the Rust's time.
set -euo pipefail
before=$(realpath "$1")
after=$(realpath "$2")
lots=$3
passes=$4
words=${5:-} # only the workloads whose name has these words
cd "$(dirname "$0")"
library=../crates/lot_search/out/liblot_search.a
bin=$(mktemp -d)
cp "$library" "$bin/kept.a"
# the harness links what stands in crates/lot_search/out: it stands there again afterwards, whatever happens
trap 'cp "$bin/kept.a" "$library"; rm -rf "$bin"' EXIT

for version in before after; do
    cp "${!version}" "$library"
    for seed in 1 2 3 4 5 6 7 8; do
        cargo rustc --quiet --release --offline --bin bench -- -C "link-arg=-Wl,--shuffle-sections=.text*=$seed"
        cp target/release/bench "$bin/$version-$seed"
    done
done
# no two binaries are the same, or there is nothing to compare
[[ $(sha256sum "$bin"/*-? | cut -d ' ' -f 1 | sort -u | wc -l) == 16 ]] || { echo "some binaries are the same" >&2; exit 1; }

for ((pass = 1; pass <= passes; pass++)); do
    for seed in 1 2 3 4 5 6 7 8; do
        for version in before after; do
            "$bin/$version-$seed" "$lots" "$words" | awk -v version=$version -v seed=$seed '
                match($0, / in turn /) {
                    name = substr($0, 1, RSTART); sub(/ +$/, "", name)
                    split(substr($0, RSTART + RLENGTH), times, " ")
                    print name "\t" version "\t" seed "\t" times[5] "\t" times[7] }'
        done
    done
done | tee "${ROWS:-/dev/null}" | awk -F '\t' '
    function median(text,   values, number, i, j, value) {
        number = split(text, values, " ")
        for (i = 2; i <= number; i++) {
            value = values[i] + 0
            for (j = i - 1; j >= 1 && values[j] + 0 > value; j--) values[j + 1] = values[j]
            values[j + 1] = value
        }
        least = values[1] + 0; most = values[number] + 0
        return (values[int((number + 1) / 2)] + values[int(number / 2) + 1]) / 2
    }
    !($1 in seen) { seen[$1] = 1; names[++rows] = $1 }
    { walk[$1, $2, $3] = walk[$1, $2, $3] " " $4; rust[$1, $2, $3] = rust[$1, $2, $3] " " $5 }
    END {
        printf "%-20s %28s %28s %10s %10s\n", "workload", "before", "after", "Rust", "slower by"
        for (row = 1; row <= rows; row++) {
            name = names[row]; all = ""; column[1] = "before"; column[2] = "after"
            for (c = 1; c <= 2; c++) {
                walks = ""
                for (seed = 1; seed <= 8; seed++) {
                    walks = walks " " median(walk[name, column[c], seed])
                    all = all " " median(rust[name, column[c], seed])
                }
                of[c] = median(walks); text[c] = sprintf("%.1f (%.1f to %.1f)", of[c], least, most)
            }
            printf "%-20s %28s %28s %10.1f %+10.3f\n", name, text[1], text[2], median(all), (of[2] - of[1]) / median(all)
        }
    }'

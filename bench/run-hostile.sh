#!/usr/bin/env bash
# Compares a program that plays scenarios with bench/site.rs, call by call, over hostile lives of a pool.
# usage: bench/run-hostile.sh [SEEDS [CALLS [PROGRAM...]]]   (the program reads a scenario from standard input; `crates/register_pool/out/register_pool play` by default)
cd "$(dirname "$0")/.." || exit 1
seeds=${1:-40}
calls=${2:-3000}
program=("${@:3}")
[ ${#program[@]} -gt 0 ] || program=(crates/register_pool/out/register_pool play)
mkdir -p target
rustc --edition 2024 -C opt-level=3 bench/site.rs -o target/site_rust || exit 1

dir=$(mktemp -d)
trap 'rm -rf "$dir"' EXIT
failed=0
for ((seed = 0; seed < seeds; seed++)); do
    target/site_rust gen "$seed" "$calls" >"$dir/scenario" 2>/dev/null
    target/site_rust answer <"$dir/scenario" >"$dir/expected" 2>>"$dir/counts"
    "${program[@]}" <"$dir/scenario" | grep '^call ' >"$dir/found"
    if ! cmp -s "$dir/expected" "$dir/found"; then
        echo "seed $seed: the first call that is answered otherwise:"
        diff "$dir/expected" "$dir/found" | head -4 | cut -c1-200
        failed=1
    fi
done
echo "calls by their outcome:"
awk '{ n = $NF; sub(/ [0-9]+$/, ""); count[$0] += n } END { for (k in count) print "  " k, count[k] }' "$dir/counts" | sort
[ $failed = 0 ] && echo "$seeds lives of $calls calls: all answers alike"
exit $failed

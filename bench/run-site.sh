#!/usr/bin/env bash
# Times the proved site against bench/site.rs: both are built, and run in turn. Prints calls per second and proved / Rust, each by the best of the runs.
# usage: bench/run-site.sh [RUNS [CALLS]]
cd "$(dirname "$0")/.." || exit 1
runs=${1:-20}
calls=${2:-50000}
mkdir -p target
rustc --edition 2024 -C opt-level=3 bench/site.rs -o target/site_rust || exit 1
(cd crates/bench_site && rt run >/dev/null) >&2 || exit 1
proved=crates/bench_site/out/bench_site

if ! cmp <("$proved" 2>/dev/null) <(target/site_rust bench 2>/dev/null); then
    echo "the two implementations do not reply alike" >&2
    exit 1
fi
times=$(mktemp)
trap 'rm -f "$times"' EXIT
for ((i = 0; i < runs; i++)); do
    "$proved" "$calls" 2>&1 >/dev/null | sed 's/^/proved /' >>"$times"
    target/site_rust bench "$calls" 2>&1 >/dev/null | sed 's/^/rust /' >>"$times"
done
# side f F NAME calls N nanoseconds T sum S
awk '
    { case_ = "f = " $3 " " $4; ns = $8 / $6; k = $1 SUBSEP case_ }
    !(case_ in seen) { seen[case_] = 1; order[++n] = case_ }
    !(k in best) || ns < best[k] { best[k] = ns }
    k in sum && sum[k] != $10 { print "sums differ: " $0; bad = 1 }
    { sum[k] = $10 }
    END {
        printf "%-16s %14s %14s %8s\n", "", "proved, /s", "Rust, /s", "ratio"
        for (i = 1; i <= n; i++) {
            c = order[i]; p = best["proved", c]; r = best["rust", c]
            if (sum["proved", c] != sum["rust", c]) { print "sums differ: " c; bad = 1 }
            printf "%-16s %14d %14d %8.2f\n", c, 1e9 / p, 1e9 / r, r / p
        }
        exit bad
    }' "$times"

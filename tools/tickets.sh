#!/usr/bin/env bash
# Shows that a program which forgets a ticket, spends one twice or makes one up is refused, each for that reason, and that one which
# spends its ticket once is proved. The programs are the texts in tools/tickets/; the first line of each says what the check must say.
# It works in a scratch folder, over the libraries as they stand here; what was proved of them on this machine is not proved again.
set -u
cd "$(dirname "$0")/.." || exit 1
here=$PWD
scratch=$(mktemp -d)
trap 'rm -rf "$scratch"' EXIT
libraries='record sha256 notary message finder office'

mkdir -p "$scratch/crates"
for name in $libraries; do
    grep "^$name:" crates.txt >>"$scratch/crates.txt"
    cp -r "crates/$name" "$scratch/crates/$name"
done
echo 'tickets: record notary message office' >>"$scratch/crates.txt"
mkdir -p "$scratch/crates/tickets/src"

passed=0 failed=0
for text in "$here"/tools/tickets/*.txt; do
    name=$(basename "$text" .txt)
    cp "$text" "$scratch/crates/tickets/src/lib.rt"
    said=$(cd "$scratch/crates/tickets" && rt check 2>&1)
    status=$?
    case $(head -n 1 "$text") in
    '// proved') [ $status -eq 0 ] && as_told=1 || as_told=0 ;;
    '// refused: '*)
        words=$(head -n 1 "$text" | sed 's|^// refused: ||')
        if [ $status -ne 0 ] && printf '%s\n' "$said" | grep -q -F -- "$words"; then as_told=1; else as_told=0; fi
        ;;
    *) as_told=0 ;;
    esac
    if [ $as_told -eq 1 ]; then
        echo "$name: $(head -n 1 "$text" | cut -c4-)"
        passed=$((passed + 1))
    else
        echo "$name: NOT AS TOLD"
        printf '%s\n' "$said" | tail -n 20
        failed=$((failed + 1))
    fi
    [ -n "${SHOW:-}" ] && printf '%s\n' "$said"
done
echo "$passed as told, $failed not"
[ $failed -eq 0 ]

#!/usr/bin/env bash
# Starts a program of this repository, in the folder that it is started from, and builds it first where it is not built yet.
# usage: tools/start.sh CRATE [ARGUMENT...]
crate=$(cd "$(dirname "$0")/.." && pwd)/crates/$1 || exit 1
name=$1
shift
if [ ! -x "$crate/out/$name" ]; then
    echo "Building $name: every function is proved first, which takes some minutes." >&2
    (cd "$crate" && rt run -- help </dev/null >/dev/null) || exit 1
fi
exec "$crate/out/$name" "$@"

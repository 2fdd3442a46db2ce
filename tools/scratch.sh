# Sourced by the benchmarks: `scratch NAME CRATE` makes a copy of the crates with what the checks here kept, in a folder that is gone when the
# script ends, adds an empty program NAME above CRATE and all below it, and goes there.
scratch() {
    top=$(cd "$(dirname "$0")/.." && pwd)
    work=$(mktemp -d)
    trap 'rm -rf "$work"' EXIT
    (cd "$top" && tar cf - crates crates.txt) | tar xf - -C "$work"
    cd "$work"
    rt new "crates/$1" start_io > /dev/null
    rm -rf "crates/$1"/{specs,proofs,stdin,stdout} "crates/$1"/src/*
    mkdir -p "crates/$1/specs" "crates/$1/proofs"
    echo "$1: $2 $(sed -n "s/^$2: //p" crates.txt | sed 's/ thiserror//') anyhow" >> crates.txt
}

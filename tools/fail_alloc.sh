#!/usr/bin/env bash
# tools/fail_alloc.sh [N..]: runs examples/and with its Nth allocation refused, one N after the other, and looks at what comes of it. Want of memory is
# told with status 7 and `refused 6 Memory`, or with 7 and no line where the program's own words or its desk find none, or as a fault of the place whose
# file the desk opens; or the run is done, since what was refused wasn't needed. A waveform's file is untouched after 7, and whole after 0.
#
# Without words the built program is run with the C library's allocations counted and refused by a library that is loaded before it (that needs a C
# compiler): all N, up to the last allocation. With words the toolchain refuses them, in the program as its source stands and without a proof, by
# `rt try --fail-alloc N`: a minute and more for each N. The built program is that of `tools/example.sh`, or the one that CYCLESIM names.
set -eu
top=$(cd "$(dirname "$0")/.." && pwd)
work=$(mktemp -d)
trap 'rm -rf "$work"' EXIT
example=$top/examples/and
count=0
failures=0

# A run's status, and its line if it has one, by kinds
declare -A kinds

# looks at the run number N that ended with this status, its line in printed and its waveform in s1.vcd
judge() {
    local n=$1 status=$2 line wave wrong=
    line=$(cat "$work/printed")
    wave=other
    cmp -s "$work/s1.vcd" "$example/s1.expected.vcd" && wave=whole
    [ "$(cat "$work/s1.vcd" 2> /dev/null)" = stale ] && wave=untouched
    [ -e "$work/s1.vcd" ] && [ ! -s "$work/s1.vcd" ] && wave=empty
    case "$status $line $wave" in
        "0 $(cat "$example/report") whole") ;;
        "7 refused 6 Memory untouched" | "7  untouched") ;;
        "5 refused 4 ReadFault place=1 untouched" | "5 refused 4 ReadFault place=1000 untouched") ;;
        "6 refused 5 WriteFault place=2000 untouched" | "6 refused 5 WriteFault place=2000 empty") ;;
        *) wrong=1 ;;
    esac
    count=$((count + 1))
    kinds["status $status, ${line:-no line}, the waveform $wave"]=$((${kinds["status $status, ${line:-no line}, the waveform $wave"]:-0} + 1))
    [ -z "$wrong" ] || { failures=$((failures + 1)); echo "FAILED: allocation $n: status $status, '$line', the waveform $wave"; }
}

fresh() {
    cp "$example/and.v" "$example/s1" "$work"
    echo stale > "$work/s1.vcd"
}

if [ $# -gt 0 ]; then
    for n in "$@"; do
        fresh
        # (rt prints what the program prints, and then its own lines, which tell the status)
        (cd "$top/crates/cyclesim" && rt try --fail-alloc "$n" -- run --top top --clock clk "$work/and.v" "$work/s1") > "$work/log" 2>&1 || true
        grep -E '^(ok|refused) ' "$work/log" > "$work/printed" || true
        status=$(sed -n 's/.*run=ended status=\([0-9]*\).*/\1/p' "$work/log" | tail -1)
        [ -n "$status" ] || { cat "$work/log" >&2; exit 1; }
        judge "$n" "$status"
        echo "allocation $n: status $status, $(cat "$work/printed")"
    done
else
    program=${CYCLESIM:-$top/crates/cyclesim/out/cyclesim}
    [ -x "$program" ] || { echo "no program at $program: tools/example.sh builds it, or name one by CYCLESIM" >&2; exit 2; }
    cat > "$work/refuse.c" <<'C'
#include <errno.h>
#include <fcntl.h>
#include <stdlib.h>
#include <unistd.h>
extern void *__libc_malloc(size_t), *__libc_calloc(size_t, size_t), *__libc_realloc(void *, size_t), *__libc_memalign(size_t, size_t);
static long count, wanted = -1;
/* whether this allocation is the one to be refused, which is noted in a file */
static int refused(void) {
    if (wanted < 0) wanted = getenv("REFUSE_ALLOCATION") ? atol(getenv("REFUSE_ALLOCATION")) : 0;
    if (++count != wanted) return 0;
    int file = open(getenv("REFUSE_NOTE"), O_CREAT | O_WRONLY, 0600);
    if (file >= 0) close(file);
    errno = ENOMEM;
    return 1;
}
void *malloc(size_t n) { return refused() ? 0 : __libc_malloc(n); }
void *calloc(size_t n, size_t size) { return refused() ? 0 : __libc_calloc(n, size); }
void *realloc(void *old, size_t n) { return refused() ? 0 : __libc_realloc(old, n); }
void *aligned_alloc(size_t align, size_t n) { return refused() ? 0 : __libc_memalign(align, n); }
void *memalign(size_t align, size_t n) { return refused() ? 0 : __libc_memalign(align, n); }
int posix_memalign(void **to, size_t align, size_t n) { if (refused()) return ENOMEM; *to = __libc_memalign(align, n); return *to ? 0 : ENOMEM; }
C
    cc -shared -fPIC -O1 -o "$work/refuse.so" "$work/refuse.c"
    cd "$work"
    n=0
    while :; do
        n=$((n + 1))
        fresh
        rm -f note
        status=0
        REFUSE_ALLOCATION=$n REFUSE_NOTE=$work/note LD_PRELOAD=$work/refuse.so "$program" run --top top --clock clk and.v s1 > printed 2> errors || status=$?
        [ -e note ] || break
        [ ! -s errors ] || { failures=$((failures + 1)); echo "FAILED: allocation $n: on the standard error: $(head -1 errors)"; }
        judge "$n" "$status"
    done
fi
echo "$count runs, each with one allocation refused:"
for kind in "${!kinds[@]}"; do echo "  ${kinds[$kind]} with $kind"; done | sort -rn
echo "$failures failures"
[ "$failures" = 0 ]

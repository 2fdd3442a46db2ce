#!/usr/bin/env bash
# tools/fuzz.sh [TEXTS [STIMULI [SEED]]]: runs the built program on texts that are changed at random, 10,000 designs and 2,000 stimuli where it isn't
# said otherwise, and looks whether each run ends in time, with a status of its table, one line and nothing else, and with the files as its line says
# (docs/running.md). Run number i of each kind is made from the seed SEED + i alone, so a failure with the seed S comes again by `tools/fuzz.sh 1 0 S`,
# or `tools/fuzz.sh 0 1 S` for a stimulus. Values are compared with nothing. The program is that of `tools/example.sh`, or the one that CYCLESIM names.
set -eu
top=$(cd "$(dirname "$0")/.." && pwd)
program=${CYCLESIM:-$top/crates/cyclesim/out/cyclesim}
[ -x "$program" ] || { echo "no program at $program: tools/example.sh builds it, or name one by CYCLESIM" >&2; exit 2; }
exec python3 -B "$top/tools/fuzz.py" "$program" "$top/examples" "${1:-10000}" "${2:-2000}" "${3:-1}"

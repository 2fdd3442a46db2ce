#!/usr/bin/env bash
# Compares the waveforms that the event queue gives in so many orders of its steps with the one of a run.
#
#     orders.sh [OPTIONS] DESIGN STIM COUNT
#
# OPTIONS are those of `run`, DESIGN and STIM the paths of a design and of one stimulus: `cyclesim run` runs it once, and `cyclesim queue`
# in the orders 0 to COUNT - 1. The last line says how many orders there were and how many gave another waveform. The status is 0 where
# none did, 1 where one did, and 2 where nothing can be compared. The program is that of `tools/example.sh`, or the one that CYCLESIM names.
set -u
top=$(cd "$(dirname "$0")/.." && pwd)
program=${CYCLESIM:-$top/crates/cyclesim/out/cyclesim}
[ -x "$program" ] || { echo "no program at $program: tools/example.sh builds it, or name one by CYCLESIM" >&2; exit 2; }
[ $# -ge 3 ] || { sed -n '4p' "$0" | sed 's/^# *//' >&2; exit 2; }
count=${*: -1}
stimulus=${*: -2:1}
design=${*: -3:1}
options=("${@:1:$#-3}")
case $count in
    '' | *[!0-9]*) echo "COUNT is a number: $count" >&2; exit 2 ;;
esac
work=$(mktemp -d)
trap 'rm -rf "$work"' EXIT
cp -- "$design" "$work/design" && cp -- "$stimulus" "$work/stimulus" || exit 2
cd "$work" || exit 2
answer=$("$program" run "${options[@]}" -- design stimulus) || { echo "run: $answer" >&2; exit 2; }
differing=0
for ((order = 0; order < count; order++)); do
    answer=$("$program" queue --order "$order" "${options[@]}" -- design stimulus) || { echo "order $order: $answer" >&2; exit 2; }
    if ! cmp -s stimulus.vcd stimulus.queue.vcd; then
        differing=$((differing + 1))
        echo "order $order gives another waveform"
    fi
done
echo "$count orders, $differing of them with another waveform"
[ "$differing" -eq 0 ]

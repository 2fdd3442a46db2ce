#!/usr/bin/env bash
# How many steps a second the event queue takes (`cyclesim queue`), and how long `cyclesim run` has for the same.
#
#     bench_queue.sh [VECTORS]
#
# The design is a chain of N registers, a block for each, for N of 10, 100, 1,000 and 10,000; the stimulus has VECTORS vectors at N = 1,000
# (500 where none are given), and at the others so many that there are as many steps. A run of it has exactly N + 8 V + 2 N V - 1 steps: a
# start of each block; where the clock falls a beginning of the slot (but in the first), an activation and two updates of inputs; where it
# rises a beginning, two activations, an update of the clock, a run of each block and its update. The program is that of
# `tools/example.sh`, or the one that CYCLESIM names. It is no part of the gate.
set -eu
top=$(cd "$(dirname "$0")/.." && pwd)
program=${CYCLESIM:-$top/crates/cyclesim/out/cyclesim}
[ -x "$program" ] || { echo "no program at $program: tools/example.sh builds it, or name one by CYCLESIM" >&2; exit 2; }
vectors=${1:-500}
work=$(mktemp -d)
trap 'rm -rf "$work"' EXIT
cd "$work"

# the seconds of processor that a command takes
seconds() { { TIMEFORMAT='%U %S'; time "$@" > report; } 2>&1 | awk '{ print $1 + $2 }'; }

echo '| registers | vectors | steps | queue, s | steps a second | run, s |'
echo '|---|---|---|---|---|---|'
for n in 10 100 1000 10000; do
    v=$((vectors * 1000 / n))
    {
        printf 'module top(input clk, input d, output reg r%d);\n' "$((n - 1))"
        for ((i = 0; i < n - 1; i++)); do echo "reg r$i;"; done
        echo 'always @(posedge clk) r0 <= d;'
        for ((i = 1; i < n; i++)); do echo "always @(posedge clk) r$i <= r$((i - 1));"; done
        echo endmodule
    } > d.v
    { echo 'inputs d'; for ((k = 0; k < v; k++)); do echo $((k % 3 == 0)); done; } > s0
    steps=$((n + 8 * v + 2 * n * v - 1))
    queue=$(seconds "$program" queue --order 1 --top top --clock clk d.v s0)
    run=$(seconds "$program" run --top top --clock clk d.v s0)
    cmp -s s0.vcd s0.queue.vcd || { echo 'the waveforms differ' >&2; exit 1; }
    awk -v n="$n" -v v="$v" -v s="$steps" -v q="$queue" -v r="$run" \
        'BEGIN { rate = q + 0 == 0 ? 0 : s / q; printf "| %d | %d | %d | %.2f | %d | %.2f |\n", n, v, s, q, rate, r }'
done

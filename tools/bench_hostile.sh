#!/usr/bin/env bash
# tools/bench_hostile.sh [WORD..]: runs the built program on texts that a hostile hand would write, one family for each structure that a text can blow
# up, each at three sizes n, 2n and 4n or as the limits allow. A line is a run: the user's processor time, the peak of memory, the exponent of the
# time from the size before to this one (1 is linear), and the answer. A design's run ends before its first round, since its stimulus has no vector: an
# accepted one is `refused 73 NoVector`. What is promised until then is 10 s of one processor and 2 GB; what breaks it is marked `OVER`, what grows
# faster than n log n `STEEP`. Words choose the families whose names have one of them; `memory` is the peak at 64 lanes of 1,000 and of 100,000
# vectors, `stack` the stack that texts of the greatest depth need. The program is that of `tools/example.sh`, or the one that CYCLESIM names. It is no part of the gate.
set -eu
top=$(cd "$(dirname "$0")/.." && pwd)
program=${CYCLESIM:-$top/crates/cyclesim/out/cyclesim}
[ -x "$program" ] || { echo "no program at $program: tools/example.sh builds it, or name one by CYCLESIM" >&2; exit 2; }
exec python3 -B "$top/tools/bench_hostile.py" "$program" "$top/examples" "$@"

#!/usr/bin/env bash
# A first look: runs the program on each folder of examples/ as its source stands, compares the report lines and the waveforms with the expected
# ones byte by byte, and draws the queue's. It takes about two minutes and 2 GB of memory, and needs nothing built. Nothing is proved by it:
# `tools/example.sh` does the same with the proved program.
set -eu
top=$(cd "$(dirname "$0")/.." && pwd)
work=$(mktemp -d)
trap 'rm -rf "$work"' EXIT
cp -r "$top"/examples/*/ "$work"
mkdir "$work/cases"
for folder in "$top"/examples/*/; do
    example=$(basename "$folder")
    read -r _ words < "$folder/command"
    # (the words of these commands have no blanks in them)
    for word in $words; do
        [ ! -f "$work/$example/$word" ] || word=$work/$example/$word
        echo "$word"
    done > "$work/cases/$example.args"
    touch "$work/cases/$example"
    cp "$folder/report" "$work/cases/$example.stdout"
done
echo 'compiling, without proof ..' >&2
(cd "$top/crates/cyclesim" && rt try --cases "$work/cases")

waves=0
for wave in "$work"/*/*.expected.vcd; do
    cmp "${wave%.expected.vcd}.vcd" "$wave"
    waves=$((waves + 1))
done
echo "> $(cat "$top/examples/fifo/command")"
cat "$top/examples/fifo/report"
python3 -B "$top/tools/wave_picture.py" --to 110 "$work/fifo/overflow.vcd" clk push pop in count full overflow out
echo "reports and $waves waveforms as expected, proved=no"

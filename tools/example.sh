#!/usr/bin/env bash
# Proves and builds the program where it stands, runs it on each folder of examples/, and compares the report and the waveforms with the
# expected ones. It draws the queue's, and says where the program is. Its first run takes long, since all below is proved first; what was
# proved is kept in the folders out/. `tools/try.sh` does the same in two minutes, without a proof.
set -eu
top=$(cd "$(dirname "$0")/.." && pwd)
work=$(mktemp -d)
trap 'rm -rf "$work"' EXIT
cd "$top"
program=$top/crates/cyclesim/out/cyclesim

# The libraries below the program, lowest first: so each is built over what is built, and the quick pass over all sources is left out, which takes
# 10 GB of memory.
libraries() {
    awk -F: '{ sub(/#.*/, "") } NF > 1 { sub(/ .*/, "", $1); below[$1] = $2 }
        function add(name,    n, i, names) {
            if (name in seen || !(name in below)) return
            seen[name] = 1
            n = split(below[name], names, " ")
            for (i = 1; i <= n; i++) add(names[i])
            if (name != "cyclesim") print name
        }
        END { add("cyclesim") }' crates.txt
}

count=$(libraries | wc -l)
number=0
for library in $(libraries); do
    number=$((number + 1))
    echo "proving and building $library, $number of $count .." >&2
    (cd "crates/$library" && rt lib > "$work/log" 2>&1) || { tail -40 "$work/log" >&2; exit 1; }
done
echo 'proving and building the program ..' >&2
# (without words the program ends with Usage)
(cd crates/cyclesim && rt run > "$work/log" 2>&1) || grep -q '^refused 1 Usage' "$work/log" || { tail -40 "$work/log" >&2; exit 1; }

cp -r examples/*/ "$work"
waves=0
for folder in examples/*/; do
    cd "$work/$(basename "$folder")"
    read -r _ words < command
    # (the words of these commands have no blanks in them; a stimulus that is refused ends the program with 4)
    "$program" $words > printed || true
    cmp printed report
    for wave in *.expected.vcd; do
        [ -e "$wave" ] || continue
        cmp "${wave%.expected.vcd}.vcd" "$wave"
        waves=$((waves + 1))
    done
    cd "$top"
done
cd "$work/fifo"
echo "> $(cat command)"
cat printed
python3 -B "$top/tools/wave_picture.py" --to 110 overflow.vcd clk push pop in count full overflow out
echo "reports and $waves waveforms as expected"
echo "the program is $program"

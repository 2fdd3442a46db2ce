#!/usr/bin/env python3
"""Compares what waveform viewers read of VCD files with what stands in them, in every signal and at every time.

    viewers.py FILE ..

The readers are GTKWave's own, in a virtual display (Debian's packages gtkwave, xvfb and xauth), and that of `vcd2fst`,
whose FST files other viewers open too; `fst2vcd` tells what it read. A line for each file and reader says how many
signals both have, and how many of them differ. The status is 0 where none differs or is missing, else 1; 2 where
a reader isn't installed or can't read the file.
"""

import os
import re
import subprocess
import sys
import tempfile

from waves import fail, load, words_of

# All signals, a trace for each and in the same order, in binary; and then the value of each trace at each time.
SCRIPT = """
set names {}
for {set i 0} {$i < [gtkwave::getNumFacs]} {incr i} {
  lappend names [gtkwave::getFacName $i]
  puts "signal [gtkwave::getFacName $i]"
}
gtkwave::addSignalsFromList $names
gtkwave::/Edit/Highlight_All
gtkwave::/Edit/Data_Format/Binary
foreach time {TIMES} {
  gtkwave::setMarker $time
  for {set i 0} {$i < [gtkwave::getTotalNumTraces]} {incr i} {
    puts "value $time $i [gtkwave::getTraceNameFromIndex $i] [gtkwave::getTraceValueAtMarkerFromIndex $i]"
  }
}
exit
"""


def printed(words):
    """What a command prints."""
    try:
        ran = subprocess.run(words, stdin=subprocess.DEVNULL, stdout=subprocess.PIPE, stderr=subprocess.DEVNULL, text=True)
    except FileNotFoundError:
        fail(f"{words[0]} isn't installed")
    return ran.stdout


def changes(pairs):
    """Times and values without those that change nothing."""
    kept = []
    for time, value in pairs:
        if kept and kept[-1][0] == time:
            kept.pop()
        if not kept or kept[-1][1] != value:
            kept.append((time, value))
    return kept


def of_file(path):
    """The values of each signal of a VCD file, by its path."""
    return {s.path: changes(zip(s.times, s.values)) for s in load(path).signals}


def by_vcd2fst(path, room):
    """The same as `vcd2fst` reads it."""
    printed(["vcd2fst", path, f"{room}/fst"])
    with open(f"{room}/vcd", "w", encoding="ascii") as file:
        file.write(printed(["fst2vcd", f"{room}/fst"]))
    return of_file(f"{room}/vcd")


def by_gtkwave(path, room):
    """The same as GTKWave shows it."""
    with open(f"{room}/tcl", "w", encoding="ascii") as file:
        file.write(SCRIPT.replace("TIMES", " ".join(str(time) for time in load(path).times)))
    said = printed(["xvfb-run", "-a", "gtkwave", "-S", f"{room}/tcl", path])
    names = re.findall(r"^signal (\S+)$", said, re.M) or fail(f"GTKWave shows nothing of {path}")
    found = {name: [] for name in names}
    for time, trace, leaf, digits in re.findall(r"^value (\d+) (\d+) (\S+) (\S+)$", said, re.M):
        if names[int(trace)].endswith("." + leaf):
            found[names[int(trace)]].append((int(time), digits))
    return {re.sub(r"\[-?\d+:-?\d+\]$", "", name): changes(pairs) for name, pairs in found.items()}


def main():
    words = words_of(__doc__)
    words.add_argument("files", nargs="+", metavar="FILE")
    differ = False
    for path in words.parse_args().files:
        wanted = of_file(path)
        for reader, read in (("vcd2fst", by_vcd2fst), ("gtkwave", by_gtkwave)):
            with tempfile.TemporaryDirectory() as room:
                found = read(os.path.abspath(path), room)
            both = [name for name in wanted if name in found]
            wrong = [name for name in both if wanted[name] != found[name]]
            alone = len(wanted) - len(both)
            print(f"{path}: {reader} has {len(both)} of {len(wanted)} signals, {len(wrong)} differ" + (f", first {wrong[0]}" if wrong else ""))
            differ = differ or bool(wrong or alone)
    sys.exit(1 if differ else 0)


if __name__ == "__main__":
    main()

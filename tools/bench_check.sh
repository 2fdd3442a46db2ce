#!/usr/bin/env bash
# Prints how long checks take (`cyclesim check`), in 64 and in 256 lanes of N vectors each (1,000 and 10,000, or the arguments):
#   bench      the design of `cyclesim bench` (crates/vs_bench): sixteen stages of 32 bits
#   gates      300 gates of one bit, of which each drives the next
#   processor  examples/processor
# What the stimuli want is what a run gave, so no lane misses anything; eight stimuli are made for each design, and lane i has that of i mod 8. Of the
# processor time it shows what `cyclesim run` takes with the same stimuli beside it. Where Icarus Verilog or Verilator is installed (Debian's packages
# iverilog and verilator), a testbench with the same comparison is run by them, once for each of the eight stimuli, without $dumpvars and without traces,
# and a lane counts what its stimulus took. Of each time it is the least of three. It is no part of the gate. It runs the program that `tools/example.sh`
# built, or the one of the path in CYCLESIM.
set -eu
top=$(cd "$(dirname "$0")/.." && pwd)
program=${CYCLESIM:-$top/crates/cyclesim/out/cyclesim}
[ -x "$program" ] || { echo "there is no $program: run tools/example.sh first" >&2; exit 1; }
[ $# -gt 0 ] || set -- 1000 10000
work=$(mktemp -d)
trap 'rm -rf "$work"' EXIT
cd "$work"
PYTHONPATH="$top/tools" python3 - "$top" "$program" "$@" <<'SHOW'
import os, re, shutil, subprocess, sys
import waves

top, program, counts = sys.argv[1], sys.argv[2], [int(word) for word in sys.argv[3:]]
SORTS = 8

def write(name, text):
    open(name, "w").write(text)

def spent(words):
    """What a command prints, and the processor time of its own and of the system for it."""
    child = subprocess.Popen(words, stdin=subprocess.DEVNULL, stdout=subprocess.PIPE, text=True)
    out = child.stdout.read()
    usage = os.wait4(child.pid, 0)[2]
    return out, usage.ru_utime + usage.ru_stime

def least(words):
    """The same of three times, with the least time."""
    times = [spent(words) for _ in range(3)]
    return times[0][0], min(time for _, time in times)

def designs():
    """The text of each design, its inputs and its outputs, each a name and a length."""
    text = open(top + "/crates/vs_bench/specs/Texts.antt").read()
    yield "bench", re.search(r'^design = codes "(.*)"$', text, re.M).group(1).replace("\\n", "\n"), [("rst", 1), ("a", 32)], [("y", 32)]
    gates = "".join("wire g%d = %sg%d %s %s;\n" % (n, "~" if n % 3 == 0 else "", n - 1, "^|&"[n % 3], "ab"[n % 2]) for n in range(1, 300))
    yield "gates", "module top(input clk, input a, input b, output y);\nwire g0 = ~a;\n" + gates + "assign y = g299;\nendmodule\n", [("a", 1), ("b", 1)], [("y", 1)]
    yield "processor", open(top + "/examples/processor/processor.v").read(), [("rst", 1), ("in", 8)], [("out", 8), ("shown", 1)]

def digits(inputs, sort, vectors):
    """The digits of each vector: the first input of a design with a reset is 1 in the first two."""
    state = sort + 1
    for k in range(vectors):
        state = (state * 6364136223846793005 + 1442695040888963407) % 2**64
        bits = format(state >> 16, "048b")
        fields, used = [], 0
        for name, length in inputs:
            fields.append(str(int(k < 2)) if name == "rst" else bits[used:used + length])
            used += length
        yield fields

def wanted(design, inputs, outputs, sort, vectors):
    """What the outputs have just before each rise of the clock, by a run."""
    rows = list(digits(inputs, sort, vectors))
    write("plain", "\n".join(["inputs " + " ".join(name for name, _ in inputs)] + [" ".join(row) for row in rows]) + "\n")
    subprocess.run([program, "run", "--top", "top", "--clock", "clk", design + ".v", "plain"], check=True, stdout=subprocess.DEVNULL)
    scope = waves.load("plain.vcd").scope("top")
    signals = [scope.signal(name) for name, _ in outputs]
    os.remove("plain.vcd")
    return [(row, [signal.at(10 * k) for signal in signals]) for k, row in enumerate(rows)]

def testbench(design, inputs, outputs, vectors):
    """A testbench that drives the inputs by the lines of a file, and compares the outputs with what stands there before each rise."""
    width = sum(n for _, n in inputs + outputs)
    write(design + "_tb.v", """module %s_tb;
reg clk; %s %s %s
top top(%s);
reg [%d:0] lines [0:%d];
reg [1023:0] file; integer k, missed;
initial begin
  k = $value$plusargs("in=%%s", file); $readmemb(file, lines); missed = 0;
  for (k = 0; k <= %d; k = k + 1) begin clk = 0; {%s, %s} = lines[k]; #5; if (%s) missed = missed + 1; clk = 1; #5; end
  $display("missed=%%0d", missed); $finish;
end
endmodule
""" % (design, " ".join("reg [%d:0] %s;" % (n - 1, port) for port, n in inputs), " ".join("wire [%d:0] %s;" % (n - 1, port) for port, n in outputs),
       " ".join("reg [%d:0] want_%s;" % (n - 1, port) for port, n in outputs),
       ", ".join([".clk(clk)"] + [".%s(%s)" % (port, port) for port, _ in inputs + outputs]), width - 1, vectors - 1, vectors - 1,
       ", ".join(port for port, _ in inputs), ", ".join("want_" + port for port, _ in outputs), " || ".join("%s !== want_%s" % (port, port) for port, _ in outputs)))

def others(design):
    """The testbench as each other simulator runs it."""
    tb = design + "_tb"
    if shutil.which("iverilog"):
        subprocess.run(["iverilog", "-pRECURSIVE_MOD_LIMIT=20", "-o", design + ".icarus", tb + ".v", design + ".v"], check=True)
        yield "Icarus Verilog", ["vvp", design + ".icarus"]
    if shutil.which("verilator"):
        shutil.rmtree("verilated", ignore_errors=True)
        words = ["verilator", "--binary", "--timing", "-O3", "--x-assign", "fast", "-Wno-fatal", "--top-module", tb, "--Mdir", "verilated", "-o", "verilator"]
        if subprocess.run(words + [tb + ".v", design + ".v"], stdout=subprocess.DEVNULL, stderr=subprocess.DEVNULL).returncode == 0:
            yield "Verilator", ["verilated/verilator"]

for design, text, inputs, outputs in designs():
    write(design + ".v", text)
    for vectors in counts:
        header = "inputs " + " ".join(name for name, _ in inputs) + " -> " + " ".join(name for name, _ in outputs)
        for sort in range(SORTS):
            rows = wanted(design, inputs, outputs, sort, vectors)
            write("sort%d" % sort, "\n".join([header] + [" ".join(row) + " -> " + " ".join(values) for row, values in rows]) + "\n")
            write("sort%d.bits" % sort, "\n".join("_".join(row + values) for row, values in rows) + "\n")
        for lane in range(256):
            shutil.copyfile("sort%d" % (lane % SORTS), "s%d" % lane)
        size = sum(os.path.getsize("s%d" % lane) for lane in range(256)) / 1e6
        testbench(design, inputs, outputs, vectors)
        peers = [(name, sum(least(command + ["+in=sort%d.bits" % sort])[1] for sort in range(SORTS)) / SORTS) for name, command in others(design)]
        for lanes in (64, 256):
            stimuli = ["s%d" % lane for lane in range(lanes)]
            words = ["--top", "top", "--clock", "clk", design + ".v"] + stimuli
            out, checked = least([program, "check"] + words)
            _, run = least([program, "run"] + words)
            for lane in range(lanes):
                os.remove("s%d.vcd" % lane)
            print("%s, %d lanes, %d vectors each: %s" % (design, lanes, vectors, out.strip().split("\n")[-1]))
            print("  check %.3f s of processor, %.0f MB of stimuli a second; run %.3f s" % (checked, size * lanes / 256 / checked, run))
            for name, each in peers:
                print("  %s in %d runs: %.3f s, %.1f times the time of the check" % (name, lanes, each * lanes, each * lanes / checked))
SHOW

#!/usr/bin/env bash
# Prints the speed of compiled designs: nanoseconds of processor time for each plane operation at 64, 128 and 256 lanes, the plane operations of the
# first fall of the clock, of a later fall and of a rise beside the size of the design, and how long the compilation takes and how much memory what
# is compiled needs; for designs of logic, of sums, of products by constants and by variables, of cases, and for one whose size is near the limit. It
# is no part of the gate. It proves all that it stands on first, from what the checks here kept.
set -eu
. "$(dirname "$0")/scratch.sh"
scratch bench_engine vs_setup
cat > crates/bench_engine/src/main.rt <<'MAIN'
//! Times a compiled design, whose text stands on standard input. With the word `accept` it is accepted alone.
#![tactic(auto)]

ghost use Rattle.std.specs.Prelude.{◌≡◌, ◌<◌, ◌≤◌, length};

use anyhow::Result;
use std::alloc::{AllocError, Global};
use std::env;
use std::io::Read;
use std::marker::Brand;
use std::rt::CpuClock;
use std::sync::ledger::{Blank, Ledger};
use vs_accept::{AcceptError, MAX_BYTES, accept};
use vs_engine::Engine;
use vs_four::Bit4;
use vs_plane::{Lanes, Pair, Steps, Word, Words};
use vs_setup::{engine_of, load};

/// How many rounds are timed.
const ROUNDS: u32 = 200;

/// A pair for each bit of the inputs: 1 and 0 in turn.
fn pairs<W: Word>(alloc: Global, count: usize, first: bool) -> Result<Vec<Pair<W>>, AllocError> {
    let mut pairs = Vec::new(alloc);
    let mut one = first;
    for _ in 0..count {
        let bit = if one { Bit4::One } else { Bit4::Zero };
        pairs.push(Pair::of_bit(bit))?;
        one = !one;
    }
    Ok(pairs)
}

/// A fall and a rise of the clock.
fn round<W: Lanes, L: Ledger>(
    engine: &mut Engine<W>,
    inputs: &[Pair<W>],
    steps: &mut Steps<L>,
) {
    if inputs.len() == engine.compiled().inputs().len() {
        engine.fall(inputs, steps);
        engine.rise(steps);
    }
}

/// Times the rounds of an engine.
fn time<W: Lanes, L: Ledger>(
    rt: &(impl CpuClock + Print + Alloc<A = Global>),
    engine: &mut Engine<W>,
    blank: Blank,
) -> Result<()>
    requires name { blank.name ≡ L.name }
    requires parts { blank.parts ≡ L.parts }
    requires some { 0 < blank.parts }
{
    let mut steps: Steps<L> = Steps::new(blank);
    let count = engine.compiled().inputs().len();
    let even = pairs(rt.alloc(), count, true)?;
    let odd = pairs(rt.alloc(), count, false)?;
    let (first, rise) = engine.stores();
    round(engine, &even, &mut steps);
    let fall = engine.later_stores();
    let start = rt.thread_cpu_time()?;
    for _ in 0..ROUNDS {
        round(engine, &odd, &mut steps);
        round(engine, &even, &mut steps);
    }
    let spent = rt.thread_cpu_time()?.saturating_sub(start).as_nanos();
    println!(rt; "lanes={} first={first} fall={fall} rise={rise} rounds={} ns={spent}", W::LANES, 2 * ROUNDS)?;
    Ok(())
}

/// The engine of a text.
fn loaded<W: Lanes>(alloc: Global, text: &[u8]) -> Result<Engine<W>, AcceptError>
    requires { length text.now ≤ 4194304 }
{
    let loaded = load(alloc, text, b"top", Some(b"clk"), false)?;
    let engine = engine_of(alloc, &loaded.accepted)?;
    Ok(engine)
}

/// Loads a design, and times its rounds over these lanes.
fn times<W: Lanes>(
    rt: &(impl CpuClock + Print + Alloc<A = Global>),
    text: &[u8],
) -> Result<()>
    requires { length text.now ≤ 4194304 }
{
    if let Ok(mut engine) = loaded::<W>(rt.alloc(), text) {
        time::<W, Brand>(rt, &mut engine, Blank::new(1))?;
    }
    Ok(())
}

fn main(rt: HostRuntime) -> Result<()> {
    let alloc = rt.alloc();
    let words = env::args(&rt)?.count();
    let mut text = Vec::new(alloc);
    rt.reader().read_to_end(&mut text)?;
    if text.len() > MAX_BYTES {
        return Ok(());
    }
    let start = rt.thread_cpu_time()?;
    let size = match accept(alloc, &text, b"top", Some(b"clk")) {
        Ok(accepted) => accepted.typed().size(),
        Err(_) => 0,
    };
    let accepted = rt.thread_cpu_time()?;
    println!(rt; "size={size} accept={}", accepted.saturating_sub(start).as_millis())?;
    if words > 1 {
        return Ok(());
    }
    let _ = loaded::<Words<1>>(alloc, &text);
    let ready = rt.thread_cpu_time()?;
    println!(rt; "load={}", ready.saturating_sub(accepted).as_millis())?;
    times::<Words<1>>(&rt, &text)?;
    times::<Words<2>>(&rt, &text)?;
    times::<Words<4>>(&rt, &text)
}
MAIN
mkdir -p crates/bench_engine/proofs/{loaded,times}
cat > crates/bench_engine/proofs/loaded/Answers.antt <<'PROOF'
use Rattle.bench_engine.proofs.loaded.Goals as goal

pub engine_of-requires : goal.engine_of-requires
engine_of-requires g c =
    let l = c.in_ok-loaded.ensures.loaded in
    record {
      accepted = record { name = _; accepted = l.accepted.accepted; clock = l.lent.clock_is };
      footprints = l.lent.footprints_are;
      resets = l.lent.resets_are;
      order = l.lent.in_order;
    }
PROOF
cat > crates/bench_engine/proofs/times/Invariants.antt <<'PROOF'
use Rattle.bench_engine.proofs.times.Given as goal

abbrev pub ghosts-time : goal.ghosts-time
ghosts-time g a = record { name = a.blank.name; parts = a.blank.parts }
PROOF
mkdir "$work/texts"

# N lines of assigns over 32-bit wires, each by an expression in a and b, of which @ is the line's own number
lines() {
    awk -v n="$1" -v e="$2" 'BEGIN {
        print "module top(input clk, input [31:0] a, input [31:0] b, output reg [31:0] q);"
        for (i = 0; i < n; i++) { x = e; gsub("@", sprintf("%.0f", i * 2654435 % 4294967296), x); print "wire [31:0] w" i " = " x ";" }
        printf "always @(posedge clk) q <= "; for (i = 0; i < n && i < 100; i++) printf "%sw%d", (i ? " ^ " : ""), i; print ";"
        print "endmodule"
    }'
}

# N blocks with a case over 8 bits of 32 arms each
cases() {
    awk -v n="$1" 'BEGIN {
        print "module top(input clk, input [7:0] a, input [31:0] b, output reg [31:0] q);"
        for (k = 0; k < n; k++) {
            print "reg [31:0] r" k "; always @* case (a)"
            for (i = 0; i < 32; i++) print "8'"'"'d" i * 7 + k % 7 ": r" k " = b ^ 32'"'"'d" i * 12345 ";"
            print "default: r" k " = 32'"'"'d0; endcase"
        }
        print "always @(posedge clk) q <= r0; endmodule"
    }'
}

lines 2000 "a & b ^ 32'd@ | ~a" > texts/1_logic.v
lines 2000 "a + b + 32'd@" > texts/2_sums.v
lines 200 "a * 32'd@" > texts/3_products_by_constants.v
lines 200 "a * (b ^ 32'd@)" > texts/4_products.v
cases 100 > texts/5_cases.v
lines 4000 "a * b ^ 32'd@" > texts/6_near_the_limit.v

cd crates/bench_engine
rt run -- accept < ../../texts/1_logic.v > "$work/log" 2>&1 || { cat "$work/log" >&2; exit 1; }
program=$PWD/out/bench_engine
for text in ../../texts/*.v; do
    python3 - "$program" "$text" <<'SHOW'
import os, re, resource, subprocess, sys
program, text = sys.argv[1:]
def run(*words):
    child = subprocess.Popen([program, *words], stdin=open(text, "rb"), stdout=subprocess.PIPE, text=True)
    out = child.stdout.read()
    usage = os.wait4(child.pid, 0)[2]
    return out, usage.ru_maxrss * 1024
alone, before = run("accept")
out, after = run()
told = dict(re.findall(r"(\w+)=(\d+)", out.split("lanes=")[0]))
size, accept, load = (int(told.get(name, 0)) for name in ("size", "accept", "load"))
print("%s: size %d, accepted in %d ms, compiled in %d ms" % (os.path.basename(text)[2:-2], size, accept, load - accept))
for line in out.split("\n"):
    it = {name: int(value) for name, value in re.findall(r"(\w+)=(\d+)", line)}
    if "lanes" in it:
        stores = it["rounds"] * (it["fall"] + it["rise"])
        shape = "%d plane operations in the first fall, %d in a fall, %d in a rise" % (it["first"], it["fall"], it["rise"])
        print("  %d lanes: %.2f ns a plane operation (%s)" % (it["lanes"], it["ns"] / max(stores, 1), shape))
        count = it["first"] + it["fall"] + it["rise"]
print("  %.1f bytes of memory a plane operation of the size, at 256 lanes and with the text" % ((after - before) / max(size, 1)))
SHOW
done

#!/usr/bin/env bash
# Prints how fast stimuli are read: texts of 100,000 lines of random digits, in memory, for 1 input of 64 bits, 2 of 32, 4 of 8, 12 and 2 of 1 bit, and
# then for as many outputs of that length besides, of which digits are wanted, the last time for 2 inputs and 1 output of 1 bit, in millions of bytes a
# second of the processor's time. `mixed` is a number that each digit changes. It is no part of the gate. It proves and builds what it runs first, from
# what `rt check` kept here.
set -eu
. "$(dirname "$0")/scratch.sh"
scratch bench_stim vs_stim
cat > crates/bench_stim/src/main.rt <<'MAIN'
//! Times the reading of stimuli that stand in memory.
#![tactic(auto)]

ghost use Rattle.std.specs.Prelude.{◌≡◌, ◌≤◌, All, IsTrue, IfOk};
ghost use Rattle.vs_desk.specs.Desk.{IsAttached};
ghost use Rattle.vs_desk.specs.declared.desk.Way.TheVariants.{Read};
ghost use Rattle.vs_desk.specs.Places.{stimulus_place};
ghost use Rattle.vs_stim.specs.Header.{IsInput, IsOutput};

use anyhow::Result;
use std::alloc::{AllocError, Global};
use std::rt::CpuClock;
use vs_desk::{Desk, MemoryDesk};
use vs_four::Bits;
use vs_stim::{Input, Name, Output, Ports, Stimulus, Wanted};

/// How many lines each text has behind its header.
const LINES: u32 = 100000;

/// The name of input n.
fn name(alloc: Global, n: u32) -> Result<Vec<u8>, AllocError> {
    Ok(vec![in alloc; b'a', b'a' + (n % 26) as u8]?)
}

/// So many inputs of this length. The first is a reset input.
fn inputs(alloc: Global, count: u32, length: u32) -> Result<Vec<Input>, AllocError>
    requires some { 1 ≤ length }
    requires at_most_64 { length ≤ 64 }
    ensures { IfOk result (λ v. All IsInput v.items) }
{
    let mut all = Vec::new(alloc);
    for n in 0..count {
        all.push(Input {
            name: Name::of(name(alloc, n)?),
            length,
            reset: n == 0,
        })?;
    }
    Ok(all)
}

/// So many outputs of this length, of the names of inputs.
fn outputs(alloc: Global, count: u32, length: u32) -> Result<Vec<Output>, AllocError>
    requires some { 1 ≤ length }
    requires at_most_64 { length ≤ 64 }
    ensures { IfOk result (λ v. All IsOutput v.items) }
{
    let mut all = Vec::new(alloc);
    for n in 0..count {
        all.push(Output {
            name: Name::of(name(alloc, n)?),
            length,
        })?;
    }
    Ok(all)
}

/// Adds the names of so many ports.
fn add_names(alloc: Global, out: &mut Vec<u8>, count: u32) -> Result<(), AllocError> {
    for n in 0..count {
        out.push(b' ')?;
        out.extend_from_slice(&name(alloc, n)?)?;
    }
    Ok(())
}

/// Adds random fields for so many ports, a space between two, and answers the next state.
fn add_fields(out: &mut Vec<u8>, state: u64, count: u32, length: u32) -> Result<u64, AllocError> {
    let mut state = state;
    for n in 0..count {
        if n > 0 {
            out.push(b' ')?;
        }
        state = state
            .wrapping_mul(6364136223846793005)
            .wrapping_add(1442695040888963407);
        for k in 0..length {
            out.push(b'0' + (((state ^ (state >> 31)) >> (k % 64)) & 1) as u8)?;
        }
    }
    Ok(state)
}

/// A stimulus of random digits for so many inputs, and for so many outputs that are wanted to have some.
fn text(alloc: Global, count: u32, length: u32, wanted: u32) -> Result<Vec<u8>, AllocError> {
    let mut out = Vec::new(alloc);
    out.extend_from_slice(b"inputs")?;
    add_names(alloc, &mut out, count)?;
    if wanted > 0 {
        out.extend_from_slice(b" ->")?;
        add_names(alloc, &mut out, wanted)?;
    }
    let mut state: u64 = 1;
    for _ in 0..LINES {
        out.push(b'\n')?;
        state = add_fields(&mut out, state, count, length)?;
        if wanted > 0 {
            out.extend_from_slice(b" -> ")?;
            state = add_fields(&mut out, state, wanted, length)?;
        }
    }
    Ok(out)
}

/// A number that each digit of these values changes.
fn mixed(values: &[Bits]) -> u64 {
    let mut all: u64 = 0;
    for v in values {
        let (value, unknown) = v.planes();
        all = all.wrapping_mul(31).wrapping_add(value ^ unknown);
    }
    all
}

/// A number that each wanted digit changes.
fn mixed_wanted(values: &[Wanted]) -> u64 {
    let mut all: u64 = 0;
    for v in values {
        let (value, unknown, any) = v.planes();
        all = all.wrapping_mul(31).wrapping_add(value ^ unknown ^ any);
    }
    all
}

/// Reads the vectors, and answers how many there were and what they are mixed to.
fn read_all<D: Desk>(desk: &mut D, stimulus: &mut Stimulus) -> (u64, u64)
    requires live { IsTrue stimulus.old.live }
    requires attached { IsAttached (D.told desk.old).register (stimulus_place stimulus.old.lane) Read }
{
    let mut count: u64 = 0;
    let mut all: u64 = 0;
    for _ in 0..LINES {
        match stimulus.next(desk) {
            Ok(true) => {
                count = count.wrapping_add(1);
                all = all.wrapping_mul(7).wrapping_add(mixed(stimulus.vector()));
                all = all.wrapping_mul(7).wrapping_add(mixed_wanted(stimulus.wanted()));
            }
            _ => return (count, all),
        }
    }
    (count, all)
}

/// Times the reading of a text for so many inputs of this length, and for so many outputs that are wanted to have some digits.
fn time(rt: &(impl CpuClock + Print + Alloc<A = Global>), count: u32, length: u32, wanted: u32) -> Result<()>
    requires some { 1 ≤ length }
    requires at_most_64 { length ≤ 64 }
{
    let alloc = rt.alloc();
    let text = text(alloc, count, length, wanted)?;
    let ports = Ports::of(
        inputs(alloc, count, length)?,
        outputs(alloc, wanted, length)?,
        false,
    );
    let size = text.len();
    let mut desk = MemoryDesk::new(alloc, 4096);
    desk.add_file(String::from_str(alloc, "s")?, text)?;
    let start = rt.thread_cpu_time()?;
    if let Ok(mut stimulus) = Stimulus::begin(
        alloc,
        &mut desk,
        0,
        String::from_str(alloc, "s")?,
        &ports,
    ) {
        let (vectors, all) = read_all(&mut desk, &mut stimulus);
        let spent = rt.thread_cpu_time()?.saturating_sub(start).as_micros();
        println!(rt;
            "inputs={count} length={length} wanted={wanted} vectors={vectors} bytes={size} microseconds={spent} mixed={all}"
        )?;
    }
    Ok(())
}

fn main(rt: HostRuntime) -> Result<()> {
    time(&rt, 1, 64, 0)?;
    time(&rt, 2, 32, 0)?;
    time(&rt, 4, 8, 0)?;
    time(&rt, 12, 1, 0)?;
    time(&rt, 2, 1, 0)?;
    time(&rt, 1, 64, 1)?;
    time(&rt, 2, 32, 2)?;
    time(&rt, 4, 8, 4)?;
    time(&rt, 12, 1, 12)?;
    time(&rt, 2, 1, 1)?;
    Ok(())
}
MAIN
mkdir -p crates/bench_stim/proofs/inputs crates/bench_stim/proofs/outputs crates/bench_stim/proofs/read_all
cat > crates/bench_stim/proofs/inputs/Invariants.antt <<'PROOF'
use Rattle.std.proofs.Common.{All}
use Rattle.vs_stim.specs.Header.{IsInput}
use Rattle.bench_stim.proofs.inputs.Given as goal

abbrev pub invariant-loop-n : goal.invariant-loop-n
invariant-loop-n l = All IsInput l.all.items
PROOF
cat > crates/bench_stim/proofs/outputs/Invariants.antt <<'PROOF'
use Rattle.std.proofs.Common.{All}
use Rattle.vs_stim.specs.Header.{IsOutput}
use Rattle.bench_stim.proofs.outputs.Given as goal

abbrev pub invariant-loop-n : goal.invariant-loop-n
invariant-loop-n l = All IsOutput l.all.items
PROOF
cat > crates/bench_stim/proofs/read_all/Invariants.antt <<'PROOF'
use Rattle.std.proofs.Common.{IsTrue}
use Rattle.vs_desk.specs.Desk.{IsAttached}
use Rattle.vs_desk.specs.declared.desk.Way.TheVariants.{Read}
use Rattle.vs_desk.specs.Places.{stimulus_place}
use Rattle.bench_stim.proofs.read_all.Given as goal

abbrev pub invariant-loop : goal.invariant-loop
invariant-loop g l =
    record {
      live : IsTrue l.stimulus.live;
      attached : IsAttached (g.D.Desk.told l.desk).register (stimulus_place l.stimulus.lane) Read;
    }
PROOF
echo 'proving and building ..' >&2
(cd crates/bench_stim && rt run) > log 2>&1 || { tail -20 log >&2; exit 1; }
crates/bench_stim/out/bench_stim | while read -r line; do
    bytes=${line#*bytes=} microseconds=${line#*microseconds=}
    echo "$line: $((${bytes%% *} / ${microseconds%% *})) MB a second"
done

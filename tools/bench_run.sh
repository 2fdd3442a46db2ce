#!/usr/bin/env bash
# Prints how long runs take, with N vectors (1000, or the first argument) in each lane, the waveforms written to files:
#   bench   the design and the stimuli of `cyclesim bench` (crates/vs_bench), in 64 and in 256 lanes;
#   rounds  a word of 64 bits through 16 modules one behind the other, each with 16 modules that look four bits up, in 64 lanes;
#   gates   300 gates of one bit that all change in every clock period, in 64 lanes;
#   still   3,000 signals of one bit of which 1 in 100 changes, in 64 lanes;
#   gate    one gate of one bit that changes in every clock period, with 100 times as many vectors, in 64 lanes;
#   memory  a memory of 1,024 words of 64 bits with one port to write and four to read, in 64 lanes.
# The first two are run with `--share` too.
# Of the processor time it shows what goes to accept and to compile the design, to settle it, to find what changed in each slot (scan), to read
# the stimuli (those of a run whose design has the inputs alone) and to put the text into files (the time of the system); the rest is to write the
# text. Where Icarus Verilog or Verilator is installed (Debian's packages iverilog and verilator), it runs the first two designs and the last on the
# same stimuli by them, one lane after the other. At the end it prints what `tools/bench_check.sh` does, of checks. It is no part of the gate. It proves
# and builds what it runs first, from what `rt check` kept here.
set -eu
vectors=${1:-1000}
. "$(dirname "$0")/scratch.sh"
scratch bench_phases vs_setup
cat > crates/bench_phases/src/main.rt <<'MAIN'
//! Times the parts of a run, for a design on standard input and so many rounds, the first word: to accept it, to compile it, and to settle it, in
//! 64, 128 and 256 lanes; and in 64 lanes to settle it and to note what changed in each slot, where the bits of its inputs change from the second
//! word on up to the third.
#![tactic(auto)]

ghost use Rattle.std.specs.Prelude.{◌≡◌, ◌+◌, ◌*◌, ◌<◌, ◌≤◌, ◌^◌, length, map, false, All, IfOk, OnOk};
ghost use Rattle.vs_desk.specs.Desk.{no_register};
ghost use Rattle.vs_desk.specs.MemoryDesk as memory;
ghost use Rattle.vs_design.specs.Expressions.{signal_length};
ghost use Rattle.vs_design.specs.Footprints.{shown_signals};
ghost use Rattle.vs_flat.specs.DesignOf.{design_of};
ghost use Rattle.vs_flat.specs.Lawful.{IsLawful};
ghost use Rattle.vs_program.specs.declared.compiled.Span.{Span};
ghost use Rattle.vs_waves.specs.Laws.{AreBefore};
ghost use Rattle.vs_waves.specs.Puts.{AreWritable};
ghost use Rattle.vs_waves.specs.Wave.{IsNewWave};

use anyhow::Result;
use std::alloc::{AllocError, Global};
use std::env;
use std::io::Read;
use std::marker::Brand;
use std::rt::CpuClock;
use std::sync::ledger::{Blank, Ledger};
use vs_accept::{AcceptError, Accepted, MAX_BYTES, accept};
use vs_desk::{MemoryDesk, attach_law};
use vs_engine::Engine;
use vs_flat::Flat;
use vs_four::Bit4;
use vs_plane::{Lanes, Pair, Steps, Word, Words};
use vs_setup::{Loaded, engine_of, load};
use vs_waves::{LaneFault, Waves, attach, rounds_law};

/// A pair for each bit of an engine's inputs.
fn inputs_of<W: Word>(alloc: Global, engine: &Engine<W>) -> Result<Vec<Pair<W>>, AllocError>
    ensures { IfOk result (λ pairs. length pairs.items ≡ length engine.now.program.inputs) }
{
    let count = engine.compiled().inputs().len();
    vec![in alloc; Pair::of_bit(Bit4::One); count]
}

/// So many rounds without waves.
fn settle<W: Lanes, L: Ledger>(
    engine: &mut Engine<W>,
    inputs: &[Pair<W>],
    rounds: u32,
    steps: &mut Steps<L>,
)
    requires { length inputs.now ≡ length engine.old.program.inputs }
{
    for _ in 0..rounds {
        engine.fall(inputs, steps);
        engine.rise(steps);
    }
}

/// The processor time, in microseconds, of so many rounds without waves.
fn time<W: Lanes, L: Ledger>(
    rt: &(impl CpuClock + Alloc<A = Global>),
    engine: &mut Engine<W>,
    rounds: u32,
    blank: Blank,
) -> Result<u128>
    requires name { blank.name ≡ L.name }
    requires parts { blank.parts ≡ L.parts }
    requires some { 0 < blank.parts }
{
    let inputs = inputs_of(rt.alloc(), engine)?;
    let mut steps: Steps<L> = Steps::new(blank);
    let start = rt.thread_cpu_time()?;
    settle(engine, &inputs, rounds, &mut steps);
    Ok(rt.thread_cpu_time()?.saturating_sub(start).as_micros())
}

/// Times the loading, and so many rounds without waves.
fn times<W: Lanes>(
    rt: &(impl CpuClock + Print + Alloc<A = Global>),
    text: &[u8],
    rounds: u32,
) -> Result<()>
    requires { length text.now ≤ 4194304 }
{
    let start = rt.thread_cpu_time()?;
    if let Ok(mut loaded) = loaded::<W>(rt.alloc(), text) {
        let load = rt.thread_cpu_time()?.saturating_sub(start).as_micros();
        let settle = time::<W, Brand>(rt, &mut loaded.engine, rounds, Blank::new(1))?;
        println!(rt; "lanes={} load={load} settle={settle}", W::LANES)?;
    }
    Ok(())
}

/// Other bits of these inputs in each of 64 lanes, and 0 of the others.
fn stir(pairs: &mut [Pair<Words<1>>], seed: u64, from: usize, to: usize) -> u64
    ensures { length pairs.new ≡ length pairs.old }
{
    let mut state = seed;
    for n in 0..pairs.len() {
        state = state
            .wrapping_mul(6364136223846793005)
            .wrapping_add(1442695040888963407);
        let bits = if from <= n && n < to { state ^ (state >> 29) } else { 0 };
        pairs[n] = Pair {
            value: Words::none().with_sixty_four(0, bits),
            unknown: Words::none(),
        };
    }
    state
}

/// A design, and an engine of it.
#[derive(Drop)]
struct Ready<W: Lanes> {
    accepted: Accepted,
    engine: Engine<W>,
}

/// The design of a text, and an engine of it.
fn loaded<W: Lanes>(alloc: Global, text: &[u8]) -> Result<Ready<W>, AcceptError>
    requires { length text.now ≤ 4194304 }
    ensures { IfOk result (λ l. map (λ (s : Span). s.length) l.engine.program.signals ≡ map signal_length (shown_signals (design_of l.accepted.flat))) }
{
    let loaded = load(alloc, text, b"top", Some(b"clk"), false)?;
    let engine = engine_of(alloc, &loaded.accepted)?;
    let Loaded { accepted, .. } = loaded;
    Ok(Ready { accepted, engine })
}

/// One round of all lanes.
fn run_round<W: Lanes, L: Ledger>(
    engine: &mut Engine<W>,
    waves: &mut Waves<W>,
    round: u64,
    live: &[bool],
    inputs: &[Pair<W>],
    steps: &mut Steps<L>,
    desk: &mut MemoryDesk,
) -> Result<(), LaneFault>
    requires inputs { length inputs.now ≡ length engine.old.program.inputs }
    requires flags { length live.now ≡ length waves.old }
    requires lanes { length waves.old ≤ W.LANES }
    requires few { length waves.old ≤ 64 }
    requires time { (2 * round + 2) * 5 < 2 ^ 64 }
    requires waves { AreBefore 5 engine.old.program.signals waves.old }
    requires writable { AreWritable (memory.register desk.old) (length waves.old) }
    ensures program { engine.new.program ≡ engine.old.program }
    ensures count { OnOk result (length waves.new ≡ length waves.old) }
    ensures waves { OnOk result (AreBefore 5 engine.old.program.signals waves.new) }
    ensures same { OnOk result (memory.register desk.new ≡ memory.register desk.old) }
{
    rounds_law();
    engine.fall(inputs, steps);
    waves.begin(engine, live, round);
    engine.rise(steps);
    waves.put(engine, live, round, desk)
}

/// So many rounds, in the first of which the inputs are as they are. No lane is live, so nothing is written.
fn run_rounds<L: Ledger>(
    engine: &mut Engine<Words<1>>,
    waves: &mut Waves<Words<1>>,
    rounds: u32,
    inputs: &mut [Pair<Words<1>>],
    from: usize,
    to: usize,
    steps: &mut Steps<L>,
    desk: &mut MemoryDesk,
) -> Result<(), LaneFault>
    requires inputs { length inputs.old ≡ length engine.old.program.inputs }
    requires few { length waves.old ≡ 64 }
    requires waves { AreBefore 5 engine.old.program.signals waves.old }
    requires writable { AreWritable (memory.register desk.old) 64 }
{
    let mut state = 1;
    for round in 0..rounds {
        if round > 0 {
            state = stir(inputs, state, from, to);
        }
        run_round(engine, waves, round as u64, &[false; 64], inputs, steps, desk)?;
    }
    Ok(())
}

/// Waves of 64 lanes at their places, of which nothing was put.
fn new_waves(alloc: Global, flat: &Flat, desk: &mut MemoryDesk) -> Result<Waves<Words<1>>>
    requires lawful { IsLawful flat.now }
    requires free { memory.register desk.old ≡ no_register }
    ensures count { IfOk result (λ waves. length waves ≡ 64) }
    ensures new { IfOk result (λ waves. All (IsNewWave false (design_of flat.now) 5) waves) }
    ensures writable { OnOk result (AreWritable (memory.register desk.new) 64) }
{
    attach_law();
    let mut paths = Vec::new(alloc);
    for lane in 0..64u32 {
        paths.push(format!(in alloc; "{lane}")?)?;
    }
    attach(desk, paths)?;
    Ok(Waves::new(alloc, flat, 5, 64, false)?)
}

/// The processor time, in microseconds, of so many rounds with these waves.
fn measure<L: Ledger>(
    rt: &(impl CpuClock + Alloc<A = Global>),
    engine: &mut Engine<Words<1>>,
    waves: &mut Waves<Words<1>>,
    words: [u32; 3],
    desk: &mut MemoryDesk,
    blank: Blank,
) -> Result<u128>
    requires name { blank.name ≡ L.name }
    requires parts { blank.parts ≡ L.parts }
    requires some { 0 < blank.parts }
    requires count { length waves.old ≡ 64 }
    requires waves { AreBefore 5 engine.old.program.signals waves.old }
    requires writable { AreWritable (memory.register desk.old) 64 }
{
    let [rounds, from, to] = words;
    let mut inputs = inputs_of(rt.alloc(), engine)?;
    let mut steps: Steps<L> = Steps::new(blank);
    let start = rt.thread_cpu_time()?;
    let _ = run_rounds(engine, waves, rounds, &mut inputs, from as usize, to as usize, &mut steps, desk);
    Ok(rt.thread_cpu_time()?.saturating_sub(start).as_micros())
}

/// Times so many rounds with the waves of 64 lanes of a design.
fn time_waves<L: Ledger>(
    rt: &(impl CpuClock + Print + Alloc<A = Global>),
    loaded: &mut Ready<Words<1>>,
    words: [u32; 3],
    blank: Blank,
) -> Result<()>
    requires name { blank.name ≡ L.name }
    requires parts { blank.parts ≡ L.parts }
    requires some { 0 < blank.parts }
    requires lengths { map (λ (s : Span). s.length) loaded.old.engine.program.signals ≡ map signal_length (shown_signals (design_of loaded.old.accepted.flat)) }
{
    rounds_law();
    let mut desk = MemoryDesk::new(rt.alloc(), 65_536);
    let mut waves = new_waves(rt.alloc(), loaded.accepted.typed().flat(), &mut desk)?;
    let spent = measure::<L>(rt, &mut loaded.engine, &mut waves, words, &mut desk, blank)?;
    println!(rt; "scan={spent}")?;
    Ok(())
}

/// Loads a design, and times its rounds with waves.
fn times_waves(
    rt: &(impl CpuClock + Print + Alloc<A = Global>),
    text: &[u8],
    words: [u32; 3],
) -> Result<()>
    requires { length text.now ≤ 4194304 }
{
    if let Ok(mut loaded) = loaded::<Words<1>>(rt.alloc(), text) {
        time_waves::<Brand>(rt, &mut loaded, words, Blank::new(1))?;
    }
    Ok(())
}

/// A number, or 0.
fn number(word: &String) -> u32 {
    word.parse::<u32>().unwrap_or(0)
}

fn main(rt: HostRuntime) -> Result<()> {
    let alloc = rt.alloc();
    let words: Vec<String> = env::args(&rt)?.collect(alloc)?;
    let [rounds, from, to] = match words.as_slice() {
        [_, rounds, from, to] => [number(rounds), number(from), number(to)],
        _ => [0; 3],
    };
    let mut text = Vec::new(alloc);
    rt.reader().read_to_end(&mut text)?;
    if text.len() > MAX_BYTES {
        return Ok(());
    }
    let start = rt.thread_cpu_time()?;
    let _ = accept(alloc, &text, b"top", Some(b"clk"));
    let accepted = rt.thread_cpu_time()?;
    println!(rt; "accept={}", accepted.saturating_sub(start).as_micros())?;
    times::<Words<1>>(&rt, &text, rounds)?;
    times::<Words<2>>(&rt, &text, rounds)?;
    times::<Words<4>>(&rt, &text, rounds)?;
    times_waves(&rt, &text, [rounds, from, to])
}
MAIN
mkdir -p crates/bench_phases/proofs/loaded
cat > crates/bench_phases/proofs/loaded/Answers.antt <<'PROOF'
use Rattle.vs_flat.specs.DesignOf.{design_of}
use Rattle.vs_program.proofs.Lengths.{lengths_of_spans}
use Rattle.bench_phases.proofs.loaded.Goals as goal

pub engine_of-requires : goal.engine_of-requires
engine_of-requires g c =
    let l = c.in_ok-loaded.ensures.loaded in
    record {
      accepted = record { name = _; accepted = l.accepted.accepted; clock = l.lent.clock_is };
      footprints = l.lent.footprints_are;
      resets = l.lent.resets_are;
      order = l.lent.in_order;
    }

pub returns : goal.returns
returns g c = lengths_of_spans (design_of c.in_ok-loaded.loaded.accepted.flat) _ _ c.in_ok-engine.ensures.program
PROOF
mkdir -p crates/bench_phases/proofs/run_round
cat > crates/bench_phases/proofs/run_round/Answers.antt <<'PROOF'
use Rattle.std.proofs.Common.{◌≡◌, ℕ, zero, suc, List, [], ◌∷◌, ◌+◌, ◌*◌, ◌^◌, ◌<◌, Bool, length, refl, sym, ap, ◌∙◌, subst, add-one, arith}
use Rattle.std.specs.Prelude.{slice_get, Some, true}
use Rattle.std.proofs.lemmas.Option.{slice_get_within}
use Rattle.std.proofs.lemmas.Result.{on_ok_weaker}
use Rattle.vs_program.specs.Program.{Program}
use Rattle.vs_engine.specs.Lanes.{Running, state}
use Rattle.vs_waves.specs.Wave.{Wave}
use Rattle.vs_waves.specs.Rounds.{CanBegin, CanPut, EachGoesOn, begun, after_put, lane_values, values_in}
use Rattle.vs_waves.specs.Laws.{IsBefore, Follows, RoundsFollow}
use Rattle.bench_phases.proofs.run_round.Goals as goal

same_element : {X : Type 0} (xs : List X) (i : ℕ) (x y : X) → slice_get xs i ≡ Some x → slice_get xs i ≡ Some y → x ≡ y
same_element xs i x y p q = cc

-- within a list there is an element
element : {X : Type 0} (xs : List X) (i : ℕ) → i < length xs → (x : X) × (slice_get xs i ≡ Some x)
element [] i h = absurd (omega arith)
element (x ∷ xs) zero h = (x, refl)
element (x ∷ xs) (suc i) h = element xs i (omega arith)

-- what a round of one lane needs and leaves, by the engine before it and at the ends of its two slots
record Round {W : Type 0} (lane : W → ℕ → Bool) (start fallen risen : Running W) (round i : ℕ) (l : Bool) (w : Wave) : Type 0 where
  begins : CanBegin round (lane_values lane fallen i) w
  puts : CanPut round l (lane_values lane risen i) (begun round l (lane_values lane fallen i) w)
  next : IsBefore 5 start.program.signals (after_put l (lane_values lane risen i) (begun round l (lane_values lane fallen i) w))

round_of : {W : Type 0} (lane : W → ℕ → Bool) (start fallen risen : Running W) (round i : ℕ) (l : Bool) (w : Wave) → RoundsFollow → fallen.program ≡ start.program → risen.program ≡ start.program
    → IsBefore 5 start.program.signals w → (2 * round + 2) * 5 < 2 ^ 64 → Round lane start fallen risen round i l w
round_of lane start fallen risen round i l w law falls rises before time =
    let f : Follows round 5 start.program.signals l (state lane fallen i) (state lane risen i) w = law round 5 start.program.signals l (state lane fallen i) (state lane risen i) w before time in
    let fall : values_in (state lane fallen i) start.program.signals ≡ lane_values lane fallen i = ap (λ (p : Program). values_in (state lane fallen i) p.signals) (sym falls) in
    let rise : values_in (state lane risen i) start.program.signals ≡ lane_values lane risen i = ap (λ (p : Program). values_in (state lane risen i) p.signals) (sym rises) in
    record {
      begins = subst (λ now. CanBegin round now w) fall f.begins;
      puts = subst (λ now. CanPut round l (lane_values lane risen i) (begun round l now w)) fall (subst (λ now. CanPut round l now (begun round l (values_in (state lane fallen i) start.program.signals) w)) rise f.puts);
      next = subst (λ now. IsBefore 5 start.program.signals (after_put l (lane_values lane risen i) (begun round l now w))) fall
          (subst (λ now. IsBefore 5 start.program.signals (after_put l now (begun round l (values_in (state lane fallen i) start.program.signals) w))) rise f.next);
    }

pub begin-requires-clause-ready : goal.begin-requires-clause-ready
begin-requires-clause-ready g c = λ i w q.
    (round_of g.W.Word.lane c.args.engine.now c.fall.new.self c.fall.new.self c.args.round i true w c.rounds_law.ensures.follow c.fall.ensures.program c.fall.ensures.program (c.requires.waves.each i w q) c.requires.time).begins

pub put-requires-clause-ready : goal.put-requires-clause-ready
put-requires-clause-ready g c = λ i l w p q.
    let found = element c.args.waves.now i (omega (arith, c.begin.ensures.count, slice_get_within c.begin.new.self i w q)) in
    let step = round_of g.W.Word.lane c.args.engine.now c.fall.new.self c.rise.new.self c.args.round i l found.0 c.rounds_law.ensures.follow c.fall.ensures.program (c.rise.ensures.program ∙ c.fall.ensures.program)
    (c.requires.waves.each i found.0 found.1) c.requires.time in
    subst (λ (v : Wave). CanPut c.args.round l (lane_values g.W.Word.lane c.rise.new.self i) v) (same_element c.begin.new.self i _ w (c.begin.ensures.each i l found.0 p found.1) q) step.puts

pub returns-clause-waves : goal.returns-clause-waves
returns-clause-waves g c = on_ok_weaker c.put.result (λ after. record { each = λ i w q. next_of after i w q }) c.put.ensures.waves where
  next_of : EachGoesOn (λ (i : ℕ) (l : Bool) (w : Wave). after_put l (lane_values g.W.Word.lane c.rise.new.self i) w) c.args.live.now c.begin.new.self c.put.new.self
      → (i : ℕ) (w : Wave) → slice_get c.put.new.self i ≡ Some w → IsBefore 5 c.args.engine.now.program.signals w
  next_of after i w q =
      let long : i < length c.args.waves.now = omega (arith, after.count, c.begin.ensures.count, slice_get_within c.put.new.self i w q) in
      let flag = element c.args.live.now i (omega (arith, c.requires.flags)) in
      let found = element c.args.waves.now i long in
      let step = round_of g.W.Word.lane c.args.engine.now c.fall.new.self c.rise.new.self c.args.round i flag.0 found.0 c.rounds_law.ensures.follow c.fall.ensures.program (c.rise.ensures.program ∙ c.fall.ensures.program)
      (c.requires.waves.each i found.0 found.1) c.requires.time in
      let now = c.begin.ensures.each i flag.0 found.0 flag.1 found.1 in
      subst (λ (v : Wave). IsBefore 5 c.args.engine.now.program.signals v) (same_element c.put.new.self i _ w (after.each i flag.0 _ flag.1 now) q) step.next
PROOF
for function in run_rounds new_waves time_waves settle times times_waves; do mkdir -p crates/bench_phases/proofs/$function; done
cat > crates/bench_phases/proofs/run_rounds/Invariants.antt <<'PROOF'
use Rattle.std.proofs.Common.{◌≡◌, length}
use Rattle.vs_desk.specs.MemoryDesk as memory
use Rattle.vs_waves.specs.Laws.{AreBefore}
use Rattle.bench_phases.proofs.run_rounds.Given as goal

abbrev pub invariant-loop-round : goal.invariant-loop-round
invariant-loop-round g l = record {
  program : l.engine.program ≡ l.initial.engine.program;
  inputs : length l.inputs ≡ length l.initial.inputs;
  count : length l.waves ≡ length l.initial.waves;
  waves : AreBefore 5 l.initial.engine.program.signals l.waves;
  same : memory.register l.desk ≡ memory.register l.initial.desk;
}
PROOF
cat > crates/bench_phases/proofs/new_waves/Invariants.antt <<'PROOF'
use Rattle.std.proofs.Common.{◌≡◌}
use Rattle.std.specs.Prelude.{vec_len}
use Rattle.bench_phases.proofs.new_waves.Given as goal

abbrev pub invariant-loop-lane : goal.invariant-loop-lane
invariant-loop-lane l = vec_len l.paths ≡ l.lane-counter
PROOF
cat > crates/bench_phases/proofs/new_waves/Answers.antt <<'PROOF'
use Rattle.std.proofs.Common.{◌≡◌, ◌∙◌, ◌<◌, ℕ, List, String, Global, length, refl, sym, subst, arith}
use Rattle.std.specs.Prelude.{map, string_bytes, Option}
use Rattle.std.specs.Option.{IsSomeAnd}
use Rattle.std.proofs.lemmas.List.{length-map}
use Rattle.vs_desk.specs.declared.desk.Way.TheVariants.{Write}
use Rattle.vs_desk.specs.Desk.{Attachment, Register, IsAttached, IsWritable}
use Rattle.vs_desk.specs.MemoryDesk as memory
use Rattle.vs_desk.specs.Places.{with_places}
use Rattle.vs_waves.specs.Puts.{AreWritable, wave_place}
use Rattle.bench_phases.proofs.new_waves.Goals as goal

pub returns-clause-writable : goal.returns-clause-writable
returns-clause-writable c = λ i h _.
    let items : List (String Global) = c.loop-lane.paths.items in
    let P : Option Attachment → Type 0 = λ o. IsSomeAnd o (λ a. a.way ≡ Write) in
    let long : i < length (map (string_bytes {Z = Global}) items) = omega (arith, h, length-map items (string_bytes {Z = Global}), c.loop-lane.invariant, c.loop-lane.paths.ok.0) in
    subst (λ (r : Register). IsAttached r (wave_place i) Write) (sym c.in_ok-attach.ensures.attached)
    (subst P (sym (c.attach_law.ensures.each (memory.register c.args.desk.now) 2000 Write (map (string_bytes {Z = Global}) items) i long)) refl)
PROOF
cat > crates/bench_phases/proofs/time_waves/Answers.antt <<'PROOF'
use Rattle.std.proofs.Common.{◌≡◌, ◌∙◌, ℕ, List, length, map, sym, ap, subst}
use Rattle.std.specs.Prelude.{slice_get, Some, All, false}
use Rattle.std.proofs.lemmas.List.Elements.{All-get_or}
use Rattle.std.proofs.lemmas.Option.{slice_get_within, get_or_from_slice_get}
use Rattle.vs_design.specs.Expressions.{signal_length}
use Rattle.vs_design.specs.Footprints.{shown_signals}
use Rattle.vs_flat.specs.Arena.{Arena}
use Rattle.vs_flat.specs.DesignOf.{design_of}
use Rattle.vs_flat.specs.Lawful.{IsLawful}
use Rattle.vs_waves.specs.Wave.{IsNewWave}
use Rattle.bench_phases.proofs.time_waves.Goals as goal

All-at : {X : Type 0} (P : X → Type 0) (xs : List X) (i : ℕ) (x : X) → slice_get xs i ≡ Some x → All P xs → P x
All-at P xs i x e all = subst P (get_or_from_slice_get xs i x x e) (All-get_or P xs i x (slice_get_within xs i x e) all)

pub new_waves-requires-clause-lawful : goal.new_waves-requires-clause-lawful
new_waves-requires-clause-lawful g c = subst IsLawful (sym c.flat.ensures.same) c.flat.ensures.lawful

pub measure-requires-clause-waves : goal.measure-requires-clause-waves
measure-requires-clause-waves g c =
    let signals = c.requires.lengths ∙ ap (λ (f : Arena). map signal_length (shown_signals (design_of f))) (sym (c.flat.ensures.same ∙ c.typed.ensures)) in
    record {
      each = λ i w q. c.rounds_law.ensures.first false (design_of c.flat.result.now) 5 c.args.loaded.now.engine.program.signals w signals
          (All-at (IsNewWave false (design_of c.flat.result.now) 5) c.in_ok-waves.waves i w q c.in_ok-waves.ensures.new);
    }
PROOF
cat > crates/bench_phases/proofs/settle/Invariants.antt <<'PROOF'
use Rattle.std.proofs.Common.{◌≡◌}
use Rattle.bench_phases.proofs.settle.Given as goal

abbrev pub invariant-loop : goal.invariant-loop
invariant-loop g l = l.engine.program ≡ l.initial.engine.program
PROOF
cat > crates/bench_phases/proofs/times/Invariants.antt <<'PROOF'
use Rattle.bench_phases.proofs.times.Given as goal

abbrev pub ghosts-time : goal.ghosts-time
ghosts-time g a = record { name = a.blank.name; parts = a.blank.parts }
PROOF
cat > crates/bench_phases/proofs/times_waves/Invariants.antt <<'PROOF'
use Rattle.bench_phases.proofs.times_waves.Given as goal

abbrev pub ghosts-time_waves : goal.ghosts-time_waves
ghosts-time_waves g a = record { name = a.blank.name; parts = a.blank.parts }
PROOF
mkdir files
python3 - files "$vectors" <<'FILES'
import re, sys
folder, vectors = sys.argv[1], int(sys.argv[2])

def write(name, text):
    open("%s/%s" % (folder, name), "w").write(text)

text = open("crates/vs_bench/specs/Texts.antt").read()
write("bench.v", re.search(r'^design = codes "(.*)"$', text, re.M).group(1).replace("\\n", "\n"))
for lane in range(256):
    state, lines = lane + 1, []
    for k in range(vectors):
        state = (state * 6364136223846793005 + 1442695040888963407) % 2**64
        lines.append("%d %s" % (k == 0, format(state >> 32, "032b")))
    write("bench%d" % lane, "\n".join(["inputs rst a"] + lines) + "\n")
    write("bench%d.bits" % lane, "\n".join(line.replace(" ", "_") for line in lines) + "\n")
    write("rounds%d" % lane, "\n".join(["inputs a"] + [line.split()[1] * 2 for line in lines]) + "\n")
    write("rounds%d.bits" % lane, "\n".join(line.split()[1] * 2 for line in lines) + "\n")
    flips = [str((k + lane) % 2) for k in range(vectors)]
    write("gates%d" % lane, "\n".join(["inputs a"] + flips) + "\n")
    write("gate%d" % lane, "\n".join(["inputs a"] + flips * 100) + "\n")
    write("still%d" % lane, "\n".join(["inputs a b"] + [flip + " 0" for flip in flips]) + "\n")
    lines = []
    for k in range(vectors):
        state = (state * 6364136223846793005 + 1442695040888963407) % 2**64
        lines.append(" ".join([str(k % 2), format(state >> 54, "010b"), format(state, "064b")] + [format((state >> shift) % 1024, "010b") for shift in (14, 24, 34, 44)]))
    write("memory%d" % lane, "\n".join(["inputs w to d a b c e"] + lines) + "\n")
    write("memory%d.bits" % lane, "\n".join(line.replace(" ", "_") for line in lines) + "\n")
write("gate.v", "module top(input clk, input a, output y);\nassign y = ~a;\nendmodule\n")
write("gates.v", "module top(input clk, input a);\n" + "".join("wire g%d = ~a;\n" % n for n in range(300)) + "endmodule\n")
write("still.v", "module top(input clk, input a, input b);\n" + "".join("wire s%d = ~%s;\n" % (n, "a" if n % 100 == 0 else "b") for n in range(3000)) + "endmodule\n")
rows = " ".join("%d: y = %d;" % row for row in enumerate([12, 5, 6, 11, 9, 0, 10, 13, 3, 14, 15, 8, 4, 7, 1, 2]))
write("rounds.v", """module look(input [3:0] a, output reg [3:0] y);
always @* case (a) %s default: y = 4'bx; endcase
endmodule
module round(input clk, input [63:0] a, output reg [63:0] y);
wire [63:0] s;
genvar i;
generate for (i = 0; i < 16; i = i + 1) begin : part look l(a[4 * i +: 4], s[4 * i +: 4]); end endgenerate
always @(posedge clk) y <= {s[16:0], s[63:17]} ^ {s[46:0], s[63:47]};
endmodule
module top(input clk, input [63:0] a, output [63:0] y);
wire [63:0] %s;
%sassign y = w16;
endmodule
""" % (rows, ", ".join("w%d" % n for n in range(17)),
       "assign w0 = a;\n" + "".join("round r%d(clk, w%d, w%d);\n" % (n, n, n + 1) for n in range(16))))
write("memory.v", """module top(input clk, input w, input [9:0] to, input [63:0] d, input [9:0] a, b, c, e, output [63:0] p, q, r, s);
reg [63:0] m [0:1023];
always @(posedge clk) if (w) m[to] <= d;
assign p = m[a], q = m[b], r = m[c], s = m[e];
endmodule
""")

def testbench(name, inputs, outputs):
    """A testbench that drives the inputs, each a name and a length, by the lines of a file."""
    names = [port for port, _ in inputs]
    write(name + "_tb.v", """module %s_tb;
reg clk; %s
%s
top top(clk, %s);
reg [%d:0] lines [0:%d];
reg [1023:0] file; integer k;
initial begin
  k = $value$plusargs("in=%%s", file); $readmemb(file, lines);
  k = $value$plusargs("out=%%s", file); $dumpfile(file); $dumpvars(0, top);
  for (k = 0; k <= %d; k = k + 1) begin clk = 0; {%s} = lines[k]; #5; clk = 1; #5; end
  $finish;
end
endmodule
""" % (name, " ".join("reg [%d:0] %s;" % (n - 1, port) for port, n in inputs), " ".join("wire [%d:0] %s;" % (n - 1, port) for port, n in outputs),
       ", ".join(names + [port for port, _ in outputs]), sum(n for _, n in inputs) - 1, vectors - 1, vectors - 1, ", ".join(names)))

testbench("bench", [("rst", 1), ("a", 32)], [("y", 32)])
testbench("rounds", [("a", 64)], [("y", 64)])
testbench("memory", [("w", 1), ("to", 10), ("d", 64), ("a", 10), ("b", 10), ("c", 10), ("e", 10)], [("p", 64), ("q", 64), ("r", 64), ("s", 64)])
FILES
echo 'proving and building ..' >&2
(cd crates/bench_phases && rt run -- 1 0 1 < ../../files/bench.v) > log 2>&1 || { tail -20 log >&2; exit 1; }
(cd crates/cyclesim && cp data/* . && rt run -- run --top top --clock clk and.v s1) > log 2>&1 || { tail -20 log >&2; exit 1; }
cd files
for design in bench rounds memory; do
    if command -v iverilog > log; then iverilog -pRECURSIVE_MOD_LIMIT=20 -o $design.icarus ${design}_tb.v $design.v; fi
    if command -v verilator > log; then
        verilator --binary --timing --trace -O3 --x-assign fast -Wno-fatal --top-module ${design}_tb --Mdir $design.verilated -o verilator ${design}_tb.v $design.v > log 2>&1 || tail -5 log >&2
    fi
done
python3 - "$work/crates" "$vectors" <<'SHOW'
import glob, os, re, subprocess, sys
crates, vectors = sys.argv[1], int(sys.argv[2])

def spent(words, text=None):
    """What a command prints, the processor time of its own and of the system for it, and the most memory that it had."""
    child = subprocess.Popen(words, stdin=open(text, "rb") if text else subprocess.DEVNULL, stdout=subprocess.PIPE, text=True)
    out = child.stdout.read()
    usage = os.wait4(child.pid, 0)[2]
    return out, usage.ru_utime, usage.ru_stime, usage.ru_maxrss * 1024

def written():
    """How many bytes the waveforms have; they are gone then."""
    names = glob.glob("*.vcd")
    count = sum(os.path.getsize(name) for name in names)
    for name in names:
        os.remove(name)
    return count

# The inputs of each design, and which of their bits change.
inputs = {"rounds": ("input [63:0] a", 0, 64), "memory": ("input w, input [9:0] to, input [63:0] d, input [9:0] a, b, c, e", 0, 115), "bench": ("input rst, input [31:0] a", 1, 33), "gates": ("input a", 0, 1), "gate": ("input a", 0, 1), "still": ("input a, input b", 0, 1)}

def simulated(design, name, lanes, options=()):
    words = [crates + "/cyclesim/out/cyclesim", "run", "--top", "top", "--clock", "clk", *options, design]
    return spent(words + ["%s%d" % (name, lane) for lane in range(lanes)])

def run(name, lanes, vectors=vectors):
    """Runs the design in so many lanes, and shows what it took."""
    report, own, system, memory = simulated(name + ".v", name, lanes)
    size = written() / 1e6
    print("%s, %d lanes, %d vectors each: %s" % (name, lanes, vectors, report.strip()))
    print("  %.3f s, %.1f MB of VCD, %.0f MB a second, %.0f MB of memory" % (own + system, size, size / (own + system), memory / 1e6))
    if lanes > 64:
        return own + system, memory, 0
    ports, first, end = inputs[name]
    out = spent([crates + "/bench_phases/out/bench_phases", str(vectors), str(first), str(end)], name + ".v")[0]
    told = {what: int(number) / 1e6 for what, number in re.findall(r"(\w+)=(\d+)", re.sub(r"lanes=(128|256) .*", "", out))}
    scan = told["scan"] - told["settle"]
    open("ports.v", "w").write("module top(input clk, %s);\nendmodule\n" % ports)
    stimuli = simulated("ports.v", name, lanes)[1]
    written()
    text = own - told["load"] - told["settle"] - scan - stimuli
    parts = (told["accept"], told["load"] - told["accept"], told["settle"], scan, stimuli, text, system)
    print("  accept %.3f, compile %.3f, settle %.3f, scan %.3f, stimuli %.3f, text %.3f, files %.3f" % parts)
    return own + system, memory, scan

def shared(name, lanes):
    """The same with `--share`, as a part of what it took without."""
    report, own, system, _ = simulated(name + ".v", name, lanes, ["--share"])
    size = written() / 1e6
    print("%s with --share, %d lanes: %.3f s, %.1f MB of VCD: %.2f of the time without" % (name, lanes, own + system, size, (own + system) / times[name]))

times = {"bench": run("bench", 64)[0]}
shared("bench", 64)
run("bench", 256)
times["rounds"] = run("rounds", 64)[0]
shared("rounds", 64)
run("gates", 64)
run("gate", 64, 100 * vectors)
_, less, scan = run("still", 64)
_, more, _ = run("still", 256)
print("an unchanged signal: %.3f ns a lane and slot; %.0f bytes of memory a signal and lane" % (scan * 1e9 / (2 * vectors * 64 * 3000), (more - less) / (192 * 3003)))
times["memory"] = run("memory", 64)[0]
for design, own_time in times.items():
    for name, command in (("Icarus Verilog", ["vvp", design + ".icarus"]), ("Verilator", [design + ".verilated/verilator"])):
        if not os.path.exists(command[-1]):
            continue
        seconds = 0
        for lane in range(64):
            _, own, system, _ = spent(command + ["+in=%s%d.bits" % (design, lane), "+out=%s%d.vcd" % (design, lane)])
            seconds += own + system
        print("%s, %s in 64 runs one after the other: %.3f s, %.1f MB of VCD: %.2f times the time of 64 lanes" % (name, design, seconds, written() / 1e6, seconds / own_time))
SHOW
CYCLESIM="$work/crates/cyclesim/out/cyclesim" "$top/tools/bench_check.sh"

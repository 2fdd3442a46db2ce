#!/usr/bin/env bash
# Prints how many millions of stores a second each kernel makes in the built program, at 1, 8, 32 and 64 bits and slots of 1, 2 and 4 words.
# A kernel whose value is one bit makes one store a call, so there the rate is that of whole calls. Amounts and bases have 6 bits, conditions
# 1. The time is the processor's, so that other work on the machine counts for little. It is no part of the gate. It proves and builds in a
# copy, which begins with what the checks here kept.
#
# A further kernel is a line of LOGIC, ARITH or SELECT in the program below.
set -eu
. "$(dirname "$0")/scratch.sh"
scratch bench_kernels vs_code
cd crates/bench_kernels
for function in main rate slots time; do mkdir -p "proofs/$function"; done

cat > src/main.rt <<'END'
//! Times the kernels.
#![tactic(auto)]

ghost use Rattle.std.specs.Prelude.{◌≡◌, ℕ, ◌+◌, ◌*◌, ◌<◌, ◌≤◌, length, slice_index, IfOk, All, []};
ghost use Rattle.vs_plane.specs.Kernels.{AreTargets, IsArgument};

use anyhow::Result;
use std::alloc::{AllocError, Global};
use std::marker::Brand;
use std::sync::ledger::{Blank, Ledger};
use std::time::CpuClock;
use vs_four::{Bit4, Range};
use vs_kern_arith as arith;
use vs_kern_logic as logic;
use vs_kern_select as select;
use vs_plane::{PlaneFile, Steps, Word, Words};

// How many slots a measurement stores or reads, and how many measurements the best is taken of.
const WORK: u64 = 300_000;

const TRIES: u32 = 5;

const LOGIC: [logic::Kernel; 21] = [
    logic::Kernel::Copy,
    logic::Kernel::Not,
    logic::Kernel::And,
    logic::Kernel::Or,
    logic::Kernel::Xor,
    logic::Kernel::Xnor,
    logic::Kernel::ReduceAnd,
    logic::Kernel::ReduceNand,
    logic::Kernel::ReduceOr,
    logic::Kernel::ReduceNor,
    logic::Kernel::ReduceXor,
    logic::Kernel::ReduceXnor,
    logic::Kernel::LogicalNot,
    logic::Kernel::LogicalAnd,
    logic::Kernel::LogicalOr,
    logic::Kernel::Equal,
    logic::Kernel::NotEqual,
    logic::Kernel::CaseEqual,
    logic::Kernel::CaseNotEqual,
    logic::Kernel::MatchesZ,
    logic::Kernel::MatchesX,
];

const ARITH: [arith::Kernel; 6] = [
    arith::Kernel::Add,
    arith::Kernel::Sub,
    arith::Kernel::Neg,
    arith::Kernel::Mul,
    arith::Kernel::Less(false),
    arith::Kernel::Less(true),
];

// A kernel of vs_kern_select. A select takes so many bits at most, and a write changes one.
#[derive(Clone, Copy, Debug)]
enum Select {
    ShiftLeft,
    ShiftRight,
    ShiftArith,
    Part(u32),
    Write,
    Choose,
    Branch,
}

const SELECT: [Select; 8] = [
    Select::ShiftLeft,
    Select::ShiftRight,
    Select::ShiftArith,
    Select::Part(1),
    Select::Part(8),
    Select::Write,
    Select::Choose,
    Select::Branch,
];

// What is timed.
#[derive(Clone, Copy)]
enum Body {
    Logic(logic::Kernel),
    Arith(arith::Kernel),
    Select(Select),
}

impl Body {
    fn label(self, alloc: Global) -> Result<String, AllocError> {
        match self {
            Body::Logic(kernel) => format!(in alloc; "{kernel:?}"),
            Body::Arith(kernel) => format!(in alloc; "{kernel:?}"),
            Body::Select(kernel) => format!(in alloc; "{kernel:?}"),
        }
    }

    // How many bits the second argument has, where the first is a vector of this width.
    fn second_length(self, width: u32) -> u32
        requires some { 1 ≤ width }
        requires most { width ≤ 64 }
        ensures some { 1 ≤ result }
        ensures most { result ≤ 64 }
    {
        match self {
            Body::Select(Select::Choose | Select::Branch) => width,
            Body::Select(_) => 6,
            _ => width,
        }
    }

    // How many bits the value has.
    fn value_length(self, width: u32) -> u32
        requires some { 1 ≤ width }
        ensures some { 1 ≤ result }
        ensures most { result ≤ width }
    {
        match self {
            Body::Logic(kernel) if !kernel.gives_vector() => 1,
            Body::Arith(kernel) if !kernel.gives_vector() => 1,
            Body::Select(Select::Part(most)) => most.max(1).min(width),
            _ => width,
        }
    }

    // How many stores a call makes on vectors of this width.
    fn stores(self, width: u32) -> u64
        requires some { 1 ≤ width }
        requires most { width ≤ 64 }
    {
        let length = u64::from(self.value_length(width));
        match self {
            Body::Arith(arith::Kernel::Mul) => length + length * (length + 1) / 2,
            Body::Select(Select::ShiftLeft | Select::ShiftRight | Select::ShiftArith) => {
                length * (1 + moves(width))
            }
            _ => length,
        }
    }
}

// How many of the distances 1, 2, 4, 8, 16 and 32, by each of which a shift moves a vector, are below its width.
fn moves(width: u32) -> u64
    ensures { result ≤ 6 }
{
    match width {
        0..=1 => 0,
        2 => 1,
        3..=4 => 2,
        5..=8 => 3,
        9..=16 => 4,
        17..=32 => 5,
        _ => 6,
    }
}

// Runs a kernel of vs_kern_logic.
fn run_logic<W: Word, L: Ledger>(
    kernel: logic::Kernel,
    file: &mut PlaneFile<W>,
    a: &[u32],
    b: &[u32],
    to: &[u32],
    steps: &mut Steps<L>,
) -> bool
    requires some { 1 ≤ length a.now }
    requires targets { AreTargets (length file.old) to.now [] }
    requires a { IsArgument (length file.old) a.now to.now [] }
    requires b { IsArgument (length file.old) b.now to.now [] }
    requires same_length { length b.now ≡ length a.now }
    ensures { length file.new ≡ length file.old }
{
    let vector = to.len() == a.len();
    let bit = to.len() == 1;
    match kernel {
        logic::Kernel::Copy | logic::Kernel::Not if vector => {
            logic::run_one(kernel, file, a, to, &[], steps)
        }
        logic::Kernel::And | logic::Kernel::Or | logic::Kernel::Xor | logic::Kernel::Xnor
            if vector => { logic::run_two(kernel, file, a, b, to, &[], steps) }
        logic::Kernel::ReduceAnd
        | logic::Kernel::ReduceNand
        | logic::Kernel::ReduceOr
        | logic::Kernel::ReduceNor
        | logic::Kernel::ReduceXor
        | logic::Kernel::ReduceXnor
        | logic::Kernel::LogicalNot
            if bit => { logic::run_one(kernel, file, a, to, &[], steps) }
        logic::Kernel::LogicalAnd
        | logic::Kernel::LogicalOr
        | logic::Kernel::Equal
        | logic::Kernel::NotEqual
        | logic::Kernel::CaseEqual
        | logic::Kernel::CaseNotEqual
        | logic::Kernel::MatchesZ
        | logic::Kernel::MatchesX
            if bit => { logic::run_two(kernel, file, a, b, to, &[], steps) }
        _ => return false,
    }
    true
}

// Runs a kernel of vs_kern_arith.
fn run_arith<W: Word, L: Ledger>(
    kernel: arith::Kernel,
    file: &mut PlaneFile<W>,
    a: &[u32],
    b: &[u32],
    to: &[u32],
    scratch: &[u32],
    steps: &mut Steps<L>,
) -> bool
    requires some { 1 ≤ length a.now }
    requires targets { AreTargets (length file.old) to.now scratch.now }
    requires a { IsArgument (length file.old) a.now to.now scratch.now }
    requires b { IsArgument (length file.old) b.now to.now scratch.now }
    requires same_length { length b.now ≡ length a.now }
    requires scratch_length { 2 * length a.now ≤ length scratch.now }
    ensures { length file.new ≡ length file.old }
{
    let vector = to.len() == a.len();
    match kernel {
        arith::Kernel::Neg if vector => arith::run_one(kernel, file, a, to, scratch, steps),
        arith::Kernel::Add | arith::Kernel::Sub | arith::Kernel::Mul if vector => {
            arith::run_two(kernel, file, a, b, to, scratch, steps)
        }
        arith::Kernel::Add | arith::Kernel::Sub | arith::Kernel::Mul | arith::Kernel::Neg => {
            return false;
        }
        _ if to.len() == 1 => arith::run_two(kernel, file, a, b, to, scratch, steps),
        _ => return false,
    }
    true
}

// Runs a kernel of vs_kern_select.
fn run_select<W: Word, L: Ledger>(
    kernel: Select,
    file: &mut PlaneFile<W>,
    a: &[u32],
    b: &[u32],
    c: &[u32],
    to: &[u32],
    steps: &mut Steps<L>,
) -> bool
    requires some { 1 ≤ length a.now }
    requires most { length a.now ≤ 64 }
    requires targets { AreTargets (length file.old) to.now [] }
    requires a { IsArgument (length file.old) a.now to.now [] }
    requires b { IsArgument (length file.old) b.now to.now [] }
    requires c { IsArgument (length file.old) c.now to.now [] }
    ensures { length file.new ≡ length file.old }
{
    let vector = to.len() == a.len();
    let choice = vector && b.len() == a.len();
    let left = a.len() as u32 - 1;
    let range = Range { left, right: 0 };
    match kernel {
        Select::ShiftLeft if vector => select::shift_left(file, a, b, to, &[], steps),
        Select::ShiftRight if vector => select::shift_right(file, a, b, to, &[], steps),
        Select::ShiftArith if vector => select::shift_arith(file, a, b, to, &[], steps),
        Select::Part(_) => select::select(file, a, b, range, false, true, to, &[], steps),
        Select::Write if vector => {
            select::write(file, a, b, c, range, false, true, to, &[], steps)
        }
        Select::Choose if choice => select::choose(file, c, a, b, to, &[], steps),
        Select::Branch if choice => select::branch(file, c, a, b, to, &[], steps),
        _ => return false,
    }
    true
}

// Runs a body, and says whether there is one.
fn run<W: Word, L: Ledger>(
    body: Body,
    file: &mut PlaneFile<W>,
    a: &[u32],
    b: &[u32],
    c: &[u32],
    to: &[u32],
    scratch: &[u32],
    steps: &mut Steps<L>,
) -> bool
    requires some { 1 ≤ length a.now }
    requires most { length a.now ≤ 64 }
    requires targets { AreTargets (length file.old) to.now scratch.now }
    requires a { IsArgument (length file.old) a.now to.now scratch.now }
    requires b { IsArgument (length file.old) b.now to.now scratch.now }
    requires targets_alone { AreTargets (length file.old) to.now [] }
    requires a_alone { IsArgument (length file.old) a.now to.now [] }
    requires b_alone { IsArgument (length file.old) b.now to.now [] }
    requires c_alone { IsArgument (length file.old) c.now to.now [] }
    requires scratch_length { 2 * length a.now ≤ length scratch.now }
    ensures { length file.new ≡ length file.old }
{
    let same = b.len() == a.len();
    match body {
        Body::Logic(kernel) if same => run_logic(kernel, file, a, b, to, steps),
        Body::Arith(kernel) if same => run_arith(kernel, file, a, b, to, scratch, steps),
        Body::Select(kernel) => run_select(kernel, file, a, b, c, to, steps),
        _ => false,
    }
}

// The nanoseconds of the processor that so many calls take, or none where there is no such body. The slots lie one after the other.
fn time<W: Word, L: Ledger>(
    rt: &impl CpuClock,
    body: Body,
    calls: u64,
    file: &mut PlaneFile<W>,
    a: &[u32],
    b: &[u32],
    c: &[u32],
    to: &[u32],
    scratch: &[u32],
    steps: &mut Steps<L>,
) -> Result<Option<u64>>
    requires some { 1 ≤ length a.now }
    requires most { length a.now ≤ 64 }
    requires scratch_length { length scratch.now ≡ 2 * length a.now }
    requires slots { length file.old ≡ length a.now + length b.now + length c.now + length to.now + length scratch.now }
    requires a_each { (k : ℕ) → k < length a.now → slice_index a.now k ≡ 0 + k }
    requires b_each { (k : ℕ) → k < length b.now → slice_index b.now k ≡ length a.now + k }
    requires c_each { (k : ℕ) → k < length c.now → slice_index c.now k ≡ length a.now + length b.now + k }
    requires to_each { (k : ℕ) → k < length to.now → slice_index to.now k ≡ length a.now + length b.now + length c.now + k }
    requires scratch_each { (k : ℕ) → k < length scratch.now → slice_index scratch.now k ≡ length a.now + length b.now + length c.now + length to.now + k }
    ensures { length file.new ≡ length file.old }
{
    let mut runs = true;
    let start = rt.thread_cpu_time()?;
    'calls: for _ in 0..calls {
        runs = run(body, file, a, b, c, to, scratch, steps);
    }
    let spent = rt.thread_cpu_time()?.saturating_sub(start).as_nanos();
    if runs {
        Ok(Some(u64::try_from(spent).unwrap_or(u64::MAX)))
    } else {
        Ok(None)
    }
}

// `count` slots from `first` on.
fn slots(alloc: Global, first: u32, count: u32) -> Result<Vec<u32>, AllocError>
    requires { first + count < 1000 }
    ensures long { IfOk result (λ v. length v.items ≡ count) }
    ensures each { IfOk result (λ v. (k : ℕ) → k < count → slice_index v.items k ≡ first + k) }
{
    let mut slots = Vec::new(alloc);
    for k in 0..count {
        slots.push(first + k)?;
    }
    Ok(slots)
}

// The bit of a slot in every lane.
fn pattern(place: usize) -> Bit4 {
    match place % 3 {
        0 => Bit4::One,
        _ => Bit4::Zero,
    }
}

// How many millions of stores a second a body makes on vectors of this width, or none where there is no such body.
fn rate<W: Word, L: Ledger>(
    rt: &impl CpuClock,
    alloc: Global,
    body: Body,
    width: u32,
    steps: &mut Steps<L>,
) -> Result<Option<u64>>
    requires some { 1 ≤ width }
    requires most { width ≤ 64 }
{
    let second = body.second_length(width);
    let value = body.value_length(width);
    let given = width + second + 1;
    let all = given + value + 2 * width;
    let a = slots(alloc, 0, width)?;
    let b = slots(alloc, width, second)?;
    let c = slots(alloc, width + second, 1)?;
    let to = slots(alloc, given, value)?;
    let scratch = slots(alloc, given + value, 2 * width)?;
    let mut initial = vec![in alloc; Bit4::Zero; all as usize]?;
    for (place, bit) in initial.iter_mut().enumerate() {
        *bit = pattern(place);
    }
    let mut file: PlaneFile<W> = PlaneFile::new(alloc, &initial)?;
    let stores = body.stores(width);
    let calls = WORK / u64::from(width).max(stores) + 1;
    let mut best = None;
    'tries: for _ in 0..TRIES {
        let spent = time(
            rt, body, calls, &mut file, &a, &b, &c, &to, &scratch, steps,
        )?;
        best = match (best, spent) {
            (Some(least), Some(next)) if least < next => Some(least),
            (_, spent) => spent,
        };
    }
    Ok(best.map(|spent| calls.saturating_mul(stores).saturating_mul(1000) / spent.max(1)))
}

// A line for a kernel: the rates at each width.
fn line<W: Word, L: Ledger>(
    rt: &(impl CpuClock + Print),
    alloc: Global,
    words: u32,
    body: Body,
    steps: &mut Steps<L>,
) -> Result<()> {
    let label = body.label(alloc)?;
    print!(rt; "{words} {label:<14}")?;
    for width in [1, 8, 32, 64] {
        let rate = rate::<W, L>(rt, alloc, body, width, steps)?.unwrap_or(0);
        print!(rt; "{rate:>8}")?;
    }
    println!(rt; "")?;
    Ok(())
}

// All kernels, on slots of so many words.
fn bench<W: Word, L: Ledger>(
    rt: &(impl CpuClock + Print),
    alloc: Global,
    words: u32,
    blank: Blank,
) -> Result<()>
    requires name { blank.name ≡ L.name }
    requires parts { blank.parts ≡ L.parts }
    requires some { 0 < blank.parts }
{
    let mut steps: Steps<L> = Steps::new(blank);
    for kernel in LOGIC {
        line::<W, L>(rt, alloc, words, Body::Logic(kernel), &mut steps)?;
    }
    for kernel in ARITH {
        line::<W, L>(rt, alloc, words, Body::Arith(kernel), &mut steps)?;
    }
    for kernel in SELECT {
        line::<W, L>(rt, alloc, words, Body::Select(kernel), &mut steps)?;
    }
    Ok(())
}

fn main(rt: HostRuntime) -> Result<()> {
    println!(rt; "K kernel           1 bit  8 bits 32 bits 64 bits")?;
    bench::<Words<1>, Brand>(&rt, rt.alloc(), 1, Blank::new(1))?;
    bench::<Words<2>, Brand>(&rt, rt.alloc(), 2, Blank::new(1))?;
    bench::<Words<4>, Brand>(&rt, rt.alloc(), 4, Blank::new(1))
}
END

# The slots of a call lie one after the other.
cat > proofs/Runs.antt <<'END'
-- Slots that lie one after the other.
use Rattle.std.proofs.Common.{◌≡◌, ℕ, ◌+◌, ◌<◌, ◌≤◌, List, [], length, get_or, arith}
use Rattle.std.specs.Prelude.{All}
use Rattle.std.proofs.lemmas.List.{get_or_default}
use Rattle.vs_plane.specs.Kernels.{AreDifferent, AreApart, AreTargets, IsArgument}

abbrev pub IsRun : List ℕ → ℕ → Type 0
IsRun xs from = (k : ℕ) → k < length xs → get_or xs k 0 ≡ from + k

pub run_none : (from : ℕ) → IsRun [] from
run_none from k h = absurd (let e : ⊥ = omega arith in e)

run_below : (n : ℕ) (xs : List ℕ) (from : ℕ) → IsRun xs from → from + length xs ≤ n → All (λ s. s < n) xs
run_below n xs from run most = λ k d h. omega (arith, h, most, get_or_default xs k d 0 h, run k h)

run_differ : (xs : List ℕ) (from : ℕ) → IsRun xs from → AreDifferent xs
run_differ xs from run = record { place = λ j k hj hk e. omega (arith, run j hj, run k hk, e) }

runs_before : (xs ys : List ℕ) (p q : ℕ) → IsRun xs p → IsRun ys q → p + length xs ≤ q → AreApart xs ys
runs_before xs ys p q run next before = record { differ = λ j k hj hk e. omega (arith, hj, before, run j hj, next k hk, e) }

pub run_targets : (n : ℕ) (to scratch : List ℕ) (p q : ℕ) → IsRun to p → IsRun scratch q → p + length to ≤ q → q + length scratch ≤ n → AreTargets n to scratch
run_targets n to scratch p q run next before most = record {
  to_below = run_below n to p run (omega (arith, before, most));
  scratch_below = run_below n scratch q next most;
  to_differ = run_differ to p run;
  scratch_differ = run_differ scratch q next;
  both_apart = runs_before to scratch p q run next before;
}

pub run_argument : (n : ℕ) (arg to scratch : List ℕ) (o p q : ℕ) → IsRun arg o → IsRun to p → IsRun scratch q → o + length arg ≤ p → p + length to ≤ q → q + length scratch ≤ n → IsArgument n arg to scratch
run_argument n arg to scratch o p q first run next early before most = record {
  below = run_below n arg o first (omega (arith, early, before, most));
  to_apart = runs_before arg to o p first run early;
  scratch_apart = runs_before arg scratch o q first next (omega (arith, early, before));
}
END
echo 'pub mod Runs' > proofs/Lib.antt
cat > proofs/slots/Invariants.antt <<'END'
use Rattle.std.proofs.Common.{◌≡◌, ℕ, ◌+◌, ◌<◌, length, get_or}
use Rattle.bench_kernels.proofs.slots.Given as goal

abbrev pub invariant-loop-k : goal.invariant-loop-k
invariant-loop-k l = record {
  long : length l.slots.items ≡ l.k;
  each : (j : ℕ) → j < l.k → get_or l.slots.items j 0 ≡ l.first + j;
}
END
cat > proofs/time/Invariants.antt <<'END'
use Rattle.std.proofs.Common.{◌≡◌, length}
use Rattle.bench_kernels.proofs.time.Given as goal

abbrev pub invariant-calls : goal.invariant-calls
invariant-calls g l = length l.file ≡ length l.initial.file
END
cat > proofs/time/Answers.antt <<'END'
use Rattle.std.proofs.Common.{◌+◌, [], length, arith}
use Rattle.bench_kernels.proofs.Runs.{run_none, run_targets, run_argument}
use Rattle.bench_kernels.proofs.time.Goals as goal

pub run-runs-requires-clause-targets : goal.run-runs-requires-clause-targets
run-runs-requires-clause-targets g c =
    let w = length c.args.a.now in
    let p = w + length c.args.b.now in
    let q = p + length c.args.c.now in
    let r = q + length c.args.to.now in
    run_targets (length c.calls.file) c.args.to.now c.args.scratch.now q r c.requires.to_each c.requires.scratch_each (omega arith) (omega arith)

pub run-runs-requires-clause-a : goal.run-runs-requires-clause-a
run-runs-requires-clause-a g c =
    let w = length c.args.a.now in
    let p = w + length c.args.b.now in
    let q = p + length c.args.c.now in
    let r = q + length c.args.to.now in
    run_argument (length c.calls.file) c.args.a.now c.args.to.now c.args.scratch.now 0 q r c.requires.a_each c.requires.to_each c.requires.scratch_each (omega arith) (omega arith) (omega arith)

pub run-runs-requires-clause-b : goal.run-runs-requires-clause-b
run-runs-requires-clause-b g c =
    let w = length c.args.a.now in
    let p = w + length c.args.b.now in
    let q = p + length c.args.c.now in
    let r = q + length c.args.to.now in
    run_argument (length c.calls.file) c.args.b.now c.args.to.now c.args.scratch.now w q r c.requires.b_each c.requires.to_each c.requires.scratch_each (omega arith) (omega arith) (omega arith)

pub run-runs-requires-clause-targets_alone : goal.run-runs-requires-clause-targets_alone
run-runs-requires-clause-targets_alone g c =
    let w = length c.args.a.now in
    let p = w + length c.args.b.now in
    let q = p + length c.args.c.now in
    let r = q + length c.args.to.now in
    run_targets (length c.calls.file) c.args.to.now [] q r c.requires.to_each (run_none r) (omega arith) (omega arith)

pub run-runs-requires-clause-a_alone : goal.run-runs-requires-clause-a_alone
run-runs-requires-clause-a_alone g c =
    let w = length c.args.a.now in
    let p = w + length c.args.b.now in
    let q = p + length c.args.c.now in
    let r = q + length c.args.to.now in
    run_argument (length c.calls.file) c.args.a.now c.args.to.now [] 0 q r c.requires.a_each c.requires.to_each (run_none r) (omega arith) (omega arith) (omega arith)

pub run-runs-requires-clause-b_alone : goal.run-runs-requires-clause-b_alone
run-runs-requires-clause-b_alone g c =
    let w = length c.args.a.now in
    let p = w + length c.args.b.now in
    let q = p + length c.args.c.now in
    let r = q + length c.args.to.now in
    run_argument (length c.calls.file) c.args.b.now c.args.to.now [] w q r c.requires.b_each c.requires.to_each (run_none r) (omega arith) (omega arith) (omega arith)

pub run-runs-requires-clause-c_alone : goal.run-runs-requires-clause-c_alone
run-runs-requires-clause-c_alone g c =
    let w = length c.args.a.now in
    let p = w + length c.args.b.now in
    let q = p + length c.args.c.now in
    let r = q + length c.args.to.now in
    run_argument (length c.calls.file) c.args.c.now c.args.to.now [] p q r c.requires.c_each c.requires.to_each (run_none r) (omega arith) (omega arith) (omega arith)
END
cat > proofs/rate/Invariants.antt <<'END'
use Rattle.std.proofs.Common.{◌≡◌, length}
use Rattle.bench_kernels.proofs.rate.Given as goal

abbrev pub invariant-tries : goal.invariant-tries
invariant-tries g l = length l.file ≡ l.all
END
cat > proofs/main/Invariants.antt <<'END'
use Rattle.bench_kernels.proofs.main.Given as goal

abbrev pub ghosts-bench : goal.ghosts-bench
ghosts-bench a = record { name = a.blank.name; parts = a.blank.parts }

abbrev pub ghosts-bench-2 : goal.ghosts-bench-2
ghosts-bench-2 a = record { name = a.blank.name; parts = a.blank.parts }

abbrev pub ghosts-bench-3 : goal.ghosts-bench-3
ghosts-bench-3 a = record { name = a.blank.name; parts = a.blank.parts }
END

echo 'proving and building ..' >&2
rt run > "$work/log" 2>&1 || { tail -20 "$work/log" >&2; exit 1; }
sed -n '/^K kernel /,$p' "$work/log"

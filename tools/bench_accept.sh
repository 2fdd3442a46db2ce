#!/usr/bin/env bash
# The benchmark that `bench_elab.sh` and `bench_checks.sh` share: `bench_accept.sh FOLDER` accepts each design FOLDER/*.v, with the top `top` and the
# clock `clk`, and prints its processor time. It is no part of the gate.
set -eu
texts=$(cd "$1" && pwd)
. "$(dirname "$0")/scratch.sh"
scratch bench_accept vs_accept
cat > crates/bench_accept/src/main.rt <<'MAIN'
//! Times the acceptance of a design, which stands on standard input: from text to flat design, and the whole.
#![tactic(auto)]

use std::alloc::Global;
use std::io::Read;
use std::rt::CpuClock;
use vs_accept::accept;
use vs_elab::flatten;
use vs_grammar::laws::shaped_law;
use vs_lexer::{MAX_BYTES, lex, tokens_law};
use vs_parser::parse;
use vs_pre::{kept_law, preprocess};

/// How many processes the flat design of a text has; 0 where it has none.
fn processes(alloc: Global, text: &[u8]) -> u32 {
    if text.len() > MAX_BYTES {
        return 0;
    }
    tokens_law();
    kept_law();
    shaped_law();
    let Ok(written) = lex(alloc, text) else {
        return 0;
    };
    let Ok(tokens) = preprocess(alloc, text, written) else {
        return 0;
    };
    let Ok(source) = parse(alloc, text, &tokens) else {
        return 0;
    };
    match flatten(alloc, &source, b"top") {
        Ok(flat) => flat.process_count(),
        Err(_) => 0,
    }
}

fn main(rt: HostRuntime) -> anyhow::Result<()> {
    let alloc = rt.alloc();
    let mut text = Vec::new(alloc);
    rt.reader().read_to_end(&mut text)?;
    if text.len() > MAX_BYTES {
        return Ok(());
    }
    let start = rt.thread_cpu_time()?;
    let count = processes(alloc, &text);
    let flat = rt.thread_cpu_time()?;
    let answer = match accept(alloc, &text, b"top", Some(b"clk")) {
        Ok(_) => "accepted",
        Err(_) => "refused",
    };
    let end = rt.thread_cpu_time()?;
    let first = flat.saturating_sub(start).as_millis();
    let whole = end.saturating_sub(flat).as_millis();
    let checks = whole.saturating_sub(first);
    println!(rt; "{} bytes, {count} processes, {answer}: {first} ms from text to flat design, {checks} ms for the rules", text.len())?;
    Ok(())
}
MAIN
cd crates/bench_accept
for text in "$texts"/*.v; do
    printf '%s: ' "$(basename "$text" .v)"
    rt run < "$text" 2> "$work/log" | grep processes || { cat "$work/log" >&2; exit 1; }
done

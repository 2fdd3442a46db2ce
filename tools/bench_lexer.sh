#!/usr/bin/env bash
# Prints how long the built lexer takes for a text of 4 MiB. It is no part of the gate.
set -eu
top=$(cd "$(dirname "$0")/.." && pwd)
work=$(mktemp -d)
trap 'rm -rf "$work"' EXIT
mkdir "$work/crates"
cp -r "$top/crates/vs_four" "$top/crates/vs_lexer" "$work/crates/"
printf 'vs_four:\nvs_lexer: vs_four thiserror\n' > "$work/crates.txt"
cd "$work"
rt new crates/bench_lexer start_io > /dev/null
rm -rf crates/bench_lexer/{specs,proofs,stdin,stdout} crates/bench_lexer/src/*
mkdir -p crates/bench_lexer/specs crates/bench_lexer/proofs
echo 'bench_lexer: vs_lexer anyhow' >> crates.txt
cat > crates/bench_lexer/src/main.rt <<'MAIN'
//! Times the lexer.
#![tactic(auto)]

use std::time::Instant;
use vs_lexer::{MAX_BYTES, lex};

fn main(rt: HostRuntime) -> anyhow::Result<()> {
    let line = b"assign next_value = {state[3:0], 4'b10xz} + (count << 2) & ~mask; // a comment that is about as long as comments mostly are\n";
    let mut text = Vec::with_capacity(rt.alloc(), MAX_BYTES)?;
    for _ in 0..32_000 {
        text.extend_from_slice(line)?;
    }
    if text.len() <= MAX_BYTES {
        let start = Instant::now(&rt)?;
        let tokens = match lex(rt.alloc(), &text) {
            Ok(tokens) => tokens.len(),
            Err(_) => 0,
        };
        let spent = start.elapsed(&rt)?.as_micros();
        println!(rt; "{} bytes, {tokens} tokens, {spent} microseconds", text.len())?;
    }
    Ok(())
}
MAIN
cd crates/bench_lexer
rt run 2> "$work/log" | grep microseconds || { cat "$work/log" >&2; exit 1; }

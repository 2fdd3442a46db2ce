#!/usr/bin/env bash
# Prints the processor time of the rules of a design, for designs at their limits, each at half its size and at all of it. It is no part of the gate.
set -eu
here=$(cd "$(dirname "$0")" && pwd)
texts=$(mktemp -d)
trap 'rm -rf "$texts"' EXIT

# a chain of assigns, in the order of the text or against it
chain() {
    awk -v n="$1" -v back="$2" 'BEGIN {
        printf "module top(input clk, input a); wire w0"; for (i = 1; i < n; i++) printf ", w%d", i; print ";"
        if (!back) print "assign w0 = a;"
        if (back) for (i = n - 1; i > 0; i--) print "assign w" i " = w" (i - 1) ";"
        else for (i = 1; i < n; i++) print "assign w" i " = w" (i - 1) ";"
        if (back) print "assign w0 = a;"
        print "endmodule"
    }'
}

# a block with a case over 64 bits
cases() {
    awk -v n="$1" 'BEGIN {
        print "module top(input clk, input [63:0] a, output reg [63:0] y); always @* case (a)"
        for (i = 0; i < n; i++) print "64'"'"'d" i * 12345 ": y = a + 64'"'"'d" i ";"
        print "default: y = 64'"'"'d0; endcase endmodule"
    }'
}

# signals of 64 bits
bits() {
    awk -v n="$1" 'BEGIN {
        print "module top(input clk, input [63:0] a);"
        for (i = 0; i < n - 2; i++) print "wire [63:0] w" i ";"
        print "assign w0 = a;"
        for (i = 1; i < n - 2; i++) print "assign w" i " = w" (i - 1) ";"
        print "endmodule"
    }'
}

# blocks that each wait on 1,024 bits
blocks() {
    awk -v n="$1" 'BEGIN {
        printf "module top(input clk, input a"; for (i = 0; i < 16; i++) printf ", input [63:0] w%d", i; print ");"
        for (k = 0; k < n; k++) {
            printf "reg r%d; always @* r%d = a", k, k; for (i = 0; i < 16; i++) printf " ^ ^w%d", i; print ";"
        }
        print "endmodule"
    }'
}

chain 32768 0 > "$texts/1_chain_half.v"
chain 65536 0 > "$texts/1_chain.v"
chain 32768 1 > "$texts/2_chain_reversed_half.v"
chain 65536 1 > "$texts/2_chain_reversed.v"
cases 2000 > "$texts/3_case_half.v"
cases 4000 > "$texts/3_case.v"
bits 8192 > "$texts/4_bits_half.v"
bits 16384 > "$texts/4_bits.v"
blocks 500 > "$texts/5_blocks_half.v"
blocks 1000 > "$texts/5_blocks.v"
"$here/bench_accept.sh" "$texts"

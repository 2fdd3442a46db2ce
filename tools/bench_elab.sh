#!/usr/bin/env bash
# Prints the processor time from a text to its flat design, for four kinds of texts, each at half its size and at all of it. It is no part of the gate.
set -eu
here=$(cd "$(dirname "$0")" && pwd)
texts=$(mktemp -d)
trap 'rm -rf "$texts"' EXIT

# instances of a module with 100 signals
instances() {
    awk -v n="$1" 'BEGIN {
        printf "module leaf; wire w0"; for (i = 1; i < 100; i++) printf ", w%d", i; print "; endmodule"
        print "module top(input clk); genvar i; for (i = 0; i < " n "; i = i + 1) begin leaf u(); end endmodule"
    }'
}

# a loop with 15 assigns a turn
turns() {
    awk -v n="$1" 'BEGIN {
        print "module top(input clk, input a); genvar i; for (i = 0; i < " n "; i = i + 1) begin wire [14:0] w;"
        for (i = 0; i < 15; i++) print "assign w[" i "] = a ^ i[" i "];"
        print "end endmodule"
    }'
}

# assigns of about 100 bytes, each to a wire of its own
assigns() {
    awk -v n="$1" 'BEGIN {
        print "module top(input clk, input [7:0] operand_a, input [7:0] operand_b);"
        for (i = 0; i < n; i++) print "wire [7:0] stage_" i ";"
        print "assign stage_0 = operand_a;"
        for (i = 1; i < n; i++) print "assign stage_" i " = (stage_" (i - 1) " & operand_a | operand_b & ~operand_a) ^ (stage_" (i - 1) " >> 2) - 8'"'"'d" (i % 256) ";"
        print "endmodule"
    }'
}

# a chain of parameters
parameters() {
    awk -v n="$1" 'BEGIN {
        print "module top(input clk); localparam p0 = 1;"
        for (i = 1; i < n; i++) print "localparam p" i " = p" (i - 1) " + 1;"
        print "endmodule"
    }'
}

instances 2047 > "$texts/1_instances_half.v"
instances 4095 > "$texts/1_instances.v"
turns 2048 > "$texts/2_turns_half.v"
turns 4096 > "$texts/2_turns.v"
assigns 15000 > "$texts/3_assigns_half.v"
assigns 30000 > "$texts/3_assigns.v"
parameters 5000 > "$texts/4_parameters_half.v"
parameters 10000 > "$texts/4_parameters.v"
"$here/bench_accept.sh" "$texts"

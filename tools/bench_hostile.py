"""python3 bench_hostile.py PROGRAM EXAMPLES [WORD..]: see bench_hostile.sh."""
import math, os, resource, subprocess, sys, tempfile

SECONDS, MEMORY = 10, 2 * 1024 * 1024      # what is promised until the first round; memory in KB
STOP = 30                                  # seconds of processor time after which a run is stopped
SPACE = 4 << 30                            # bytes of memory behind which it finds none
HEAD = "module top(input clk, input a, output y); "
GATE = "module top(input clk, input a, output y); assign y = a; endmodule\n"


def expression(e):
    return HEAD + "assign y = " + e + "; endmodule\n"


def block(s):
    return "module top(input clk, input a, output reg y); always @* " + s + " endmodule\n"


def many(n, line, between="", mark="@"):
    """n lines, in each its number in place of the mark"""
    return between.join(line.replace(mark, str(i)) for i in range(n))


def blocks(n, line):
    """the same of lines with blocks, whose number stands for a $"""
    return many(n, line, mark="$")


def chain(n, order):
    """n assigns, each of the one before, in the order of the text that is given."""
    lines = ["assign w%d = %s; " % (i, "w%d" % (i - 1) if i else "a") for i in order(n)]
    return HEAD + "wire " + many(n, "w@", ", ") + "; " + "".join(lines) + "assign y = w%d; endmodule\n" % (n - 1)


def loops(outer, inner, body, more=""):
    return (HEAD + more + "assign y = a; genvar i, j; for (i = 0; i < %d; i = i + 1) begin : o for (j = 0; j < %d; j = j + 1) %s end endmodule\n"
            % (outer, inner, body))


def instances(n, module, use):
    """n instances of a module, in loops of at most 4,095 turns."""
    return module + HEAD + "assign y = a; genvar i; for (i = 0; i < %d; i = i + 1) begin : g %s end endmodule\n" % (n, use)


# Names whose hashes have these low bits 0 in the table of names, whose hasher has no secret (vs_scope/src/maps.rt); a C compiler makes them.
SIEVE = r"""
#include <stdint.h>
#include <stdio.h>
#include <stdlib.h>
static uint64_t fold(uint64_t a, uint64_t b) { unsigned __int128 p = (unsigned __int128) a * b; return (uint64_t) p ^ (uint64_t) (p >> 64); }
static uint64_t step(uint64_t state, uint64_t byte) { return fold(state ^ (byte * 0x10101), 0x9e3779b97f4a7c15ull ^ 2); }
int main(int argc, char **argv) {
    const char *signs = "abcdefghijklmnopqrstuvwxyzABCDEFGHIJKLMNOPQRSTUVWXYZ0123456789_";
    int left = atoi(argv[1]), bits = atoi(argv[2]);
    uint64_t start = step(fold(0x243f6a8885a308d3ull ^ 9, 0x9e3779b97f4a7c15ull ^ 16), 'n');
    for (uint64_t i = 0; left > 0; i++) {
        char name[10] = "n";
        uint64_t state = start, rest = i;
        for (int k = 1; k < 9; k++) { name[k] = signs[rest % 63]; rest /= 63; state = step(state, name[k]); }
        if ((((uint32_t) (state ^ state >> 32)) & ((1u << bits) - 1)) == 0) { puts(name); left--; }
    }
}
"""


def collide(n):
    """A design of n wires whose names begin to be looked for at one place of a table; those of any table where there is no C compiler."""
    with tempfile.TemporaryDirectory() as folder:
        open(folder + "/sieve.c", "w").write(SIEVE)
        try:
            subprocess.run(["cc", "-O2", "-o", "sieve", "sieve.c"], cwd=folder, check=True)
        except OSError:
            return HEAD + "wire " + many(n, "n@", ", ") + "; assign y = a; endmodule\n"
        names = subprocess.run([folder + "/sieve", str(n), "13"], stdout=subprocess.PIPE, text=True).stdout.split()
    return HEAD + "wire " + ", ".join(names) + "; assign y = a; endmodule\n"


def inputs(n):
    return "module top(input clk, input " + many(n, "a@", ", ") + "); endmodule\n"


def header(n):
    return "inputs " + many(n, "a@", " ") + "\n"


K = 1024
M = 1024 * 1024
# name: sizes, and the text of a size; or the design and the stimulus of a size. A stimulus that isn't given is the header of the input `a`.
FAMILIES = {
    # the text and its tokens
    "blanks": ((M, 2 * M, 4 * M), lambda n: " " * n),
    "a comment": ((M, 2 * M, 4 * M - 200), lambda n: "/*" + "*" * n + "*/" + GATE),
    "an open comment": ((M, 2 * M, 4 * M - 2), lambda n: "/*" + "*" * n),
    "open comments in one another": ((M // 2, M, 2 * M - 1), lambda n: "/*" * n),
    "line comments": ((M // 4, M // 2, M), lambda n: "//\n" * n + GATE),
    "a line of assigns": ((16000, 32000, 64000), lambda n: HEAD + "wire " + many(n, "w@", ",") + "; assign y = a; " + many(n, "assign w@ = a & ~a; ") + "endmodule"),
    "semicolons": ((M // 4, M // 2, M), lambda n: ";" * n),
    "a name": ((M // 2, M, 2 * M - 200), lambda n: HEAD + "wire " + "n" * n + "; assign y = " + "n" * n + "; assign " + "n" * 10 + "=a; endmodule\n"),
    "a name, used": ((M // 4, M // 2, M - 100), lambda n: HEAD + "wire N = a; wire p = N; assign y = N; endmodule\n".replace("N", "n" * n)),
    "names that collide": ((5000, 10000, 20000), collide),
    "zeros of a number": ((M, 2 * M, 4 * M - 200), lambda n: expression("a & 1'b" + "0" * n + "1")),
    "digits of a decimal number": ((M, 2 * M, 4 * M - 200), lambda n: expression("a & 64'd" + "9" * n)),
    "numbers": ((100000, 200000, 400000), lambda n: HEAD + "localparam p = {" + many(n, "1'b1", ",") + "}; assign y = a; endmodule\n"),
    "strings": ((M // 4, M // 2, M), lambda n: '""' * n),
    "directives": ((50000, 100000, 200000), lambda n: "`timescale 1ns/1ps\n" * n + GATE),
    # the tree
    "brackets": ((M // 4, M // 2, M - 20), lambda n: expression("(" * n)),
    "brackets, closed": ((M // 8, M // 4, M // 2 - 20), lambda n: expression("(" * n + "a" + ")" * n)),
    "concatenations": ((M // 4, M // 2, M - 20), lambda n: expression("{" * n)),
    "unary operators": ((M // 4, M // 2, M - 30), lambda n: expression("~" * n + "a")),
    "a sum": ((M // 8, M // 4, M // 2 - 30), lambda n: expression("a" + "+a" * n)),
    "choices": ((M // 16, M // 8, M // 4 - 30), lambda n: expression("a?a:" * n + "a")),
    "selects": ((M // 16, M // 8, M // 4 - 30), lambda n: expression("a[" * n + "0" + "]" * n)),
    "parts of a concatenation": ((M // 8, M // 4, M // 2 - 30), lambda n: expression("{a" + ",a" * n + "}")),
    "begin": ((M // 8, M // 4, 600000), lambda n: block("begin " * n)),
    "if": ((M // 16, M // 8, M // 4 - 20), lambda n: block("if(a)" * n + "y=a;")),
    "if, else if": ((M // 32, M // 16, 110000), lambda n: block("if(a)y=a;else " * n + "y=a;")),
    "case in case": ((M // 32, M // 16, M // 8 - 20), lambda n: block("case(a)0:" * n)),
    "generate blocks": ((M // 16, M // 8, M // 4 - 30), lambda n: HEAD + "if(1)" * n + "assign y=a; endmodule"),
    "expressions of depth 200": ((500, 1000, 2000), lambda n: HEAD + "wire " + many(n, "w@ = " + "~" * 200 + "a", ", ") + "; assign y = a; endmodule\n"),
    "events": ((M // 8, M // 4, M // 2 - 30), lambda n: "module top(input clk, input a, output reg y); always @(a" + ",a" * n + ") y = a; endmodule\n"),
    # names, modules and parameters
    "modules": ((40000, 80000, 160000), lambda n: many(n, "module m@;endmodule\n") + GATE),
    "modules of one name": ((40000, 80000, 160000), lambda n: "module m;endmodule\n" * n + GATE),
    "parameters": ((60000, 120000, 240000), lambda n: HEAD + "parameter " + many(n, "p@=0", ",") + "; assign y = a; endmodule\n"),
    "parameters, each of the one before": ((50000, 100000, 170000), lambda n: HEAD + "localparam p0=0;localparam " + ",".join("p%d=p%d" % (i + 1, i) for i in range(n)) + "; assign y = a; endmodule\n"),
    "parameters, each of the next": ((50000, 100000, 170000), lambda n: HEAD + "localparam " + ",".join("p%d=p%d" % (i, i + 1) for i in range(n)) + "; assign y = a; endmodule\n"),
    "overrides by name": ((20000, 40000, 75000), lambda n: "module m #(parameter " + many(n, "p@=0", ",") + ")(); endmodule " + HEAD + "assign y = a; m #(" + many(n, ".p@(1)", ",") + ") u(); endmodule\n"),
    "overrides of one name": ((20000, 40000, 75000), lambda n: "module m #(parameter p=0)(); endmodule " + HEAD + "assign y = a; m #(" + many(n, ".p(1)", ",") + ") u(); endmodule\n"),
    "genvars": ((100000, 200000, 400000), lambda n: HEAD + "genvar " + many(n, "g@", ",") + "; assign y = a; endmodule\n"),
    "signals": ((60000, 120000, 240000), lambda n: HEAD + "wire " + many(n, "w@", ",") + "; assign y = a; endmodule\n"),
    "signals of one name": ((100000, 200000, 400000), lambda n: HEAD + "wire " + many(n, "w", ",") + "; assign y = a; endmodule\n"),
    "named blocks": ((30000, 60000, 120000), lambda n: HEAD + "assign y = a; " + many(n, "if (1) begin : b@ end ") + "endmodule\n"),
    "blocks without names": ((40000, 80000, 160000), lambda n: HEAD + "assign y = a; " + many(n, "if (1) begin end ") + "endmodule\n"),
    "blocks not taken": ((40000, 80000, 160000), lambda n: HEAD + "assign y = a; " + many(n, "if (0) begin end ") + "endmodule\n"),
    "names like those of blocks": ((20000, 40000, 80000), lambda n: HEAD + "assign y = a; wire " + many(n, "genblk@", ",") + "; " + many(n, "if (1) begin end ") + "endmodule\n"),
    "ports by name": ((10000, 20000, 40000), lambda n: "module m(input " + many(n, "p@", ",") + "); endmodule " + HEAD + "assign y = a; m u(" + many(n, ".p@(a)", ",") + "); endmodule\n"),
    "ports by name, backwards": ((10000, 20000, 40000), lambda n: "module m(input " + many(n, "p@", ",") + "); endmodule " + HEAD + "assign y = a; m u(" + ",".join(".p%d(a)" % i for i in reversed(range(n))) + "); endmodule\n"),
    "ports of one name": ((20000, 40000, 80000), lambda n: "module m(input p); endmodule " + HEAD + "assign y = a; m u(" + many(n, ".p(a)", ",") + "); endmodule\n"),
    "ports declared inside": ((20000, 40000, 80000), lambda n: "module m(" + many(n, "p@", ",") + "); " + many(n, "input p@;") + "endmodule " + HEAD + "assign y = a; m u(); endmodule\n"),
    # instances and generate loops
    "instances": ((1000, 2000, 4095), lambda n: instances(n, "module m(); endmodule ", "m u();")),
    "instances of a module of 1,000 parameters": ((1000, 2000, 4095), lambda n: instances(n, "module m(); localparam " + many(1000, "p@=@", ",") + "; endmodule ", "m u();")),
    "instances of a module of 30,000 parameters": ((25, 50, 100), lambda n: instances(n, "module m(); localparam " + many(30000, "p@=@", ",") + "; endmodule ", "m u();")),
    "instances of a module of 10,000 blocks that aren't taken": ((50, 100, 200), lambda n: instances(n, "module m(); " + many(10000, "if (0) ; ") + "endmodule ", "m u();")),
    "instances of a module of 256 signals": ((1000, 2000, 4095), lambda n: instances(n, "module m(); wire " + many(255, "w@", ",") + "; endmodule ", "m u();")),
    "loops, empty": ((64, 128, 256), lambda n: loops(n, 4095, ";")),
    "loops of blocks": ((64, 128, 256), lambda n: loops(n, 4095, "begin : b end")),
    "loops of a parameter": ((64, 128, 256), lambda n: loops(n, 4095, "begin : b localparam p = i; end")),
    "loops of 100 parameters": ((8, 16, 32), lambda n: loops(n, 4095, "begin : b localparam " + many(100, "p@=@", ",") + "; end")),
    "loops of blocks of a long name": ((M // 32, M // 16, M // 8), lambda n: HEAD + "assign y = a; genvar i; for (i = 0; i < 4095; i = i + 1) begin : " + "n" * n + " end endmodule\n"),
    "loops of a wire of a long name": ((M // 32, M // 16, M // 8), lambda n: HEAD + "assign y = a; genvar i; for (i = 0; i < 4095; i = i + 1) begin : b wire " + "n" * n + "; end endmodule\n"),
    "instances of a long name": ((M // 32, M // 16, M // 8), lambda n: instances(4095, "module m(); endmodule ", "m " + "n" * n + "();")),
    "loops of 10,000 blocks that aren't taken": ((128, 256, 512), lambda n: HEAD + "assign y = a; genvar i; for (i = 0; i < %d; i = i + 1) begin : o " % n + many(10000, "if (0) ; ") + "end endmodule\n"),
    "loops of a case of 10,000 items": ((128, 256, 512), lambda n: HEAD + "assign y = a; genvar i; for (i = 0; i < %d; i = i + 1) case (-1) " % n + many(10000, "@", ",") + ": ; default: ; endcase endmodule\n"),
    "loops of values far apart": ((1000, 2000, 4000), lambda n: HEAD + "assign y = a; genvar i; for (i = 0; i < %d; i = i + 500000) ; endmodule\n" % (n * 500000)),
    "loops of 240 wires of 1 bit": ((1024, 2048, 4095), lambda n: HEAD + "assign y = a; genvar i; for (i = 0; i < %d; i = i + 1) begin : b wire " % n + many(240, "w@", ",") + "; end endmodule\n"),
    "a constant of depth 200 in a loop": ((1024, 2048, 4095), lambda n: HEAD + "assign y = a; genvar i; for (i = 0; i < %d; i = i + 1) begin : b localparam p = " % n + "1+" * 199 + "1; end endmodule\n"),
    # processes and rules
    "assigns that read one net": ((16383, 32767, 65534), lambda n: HEAD + "wire w = a; assign y = w; wire " + many(n - 1, "w@ = w", ", ") + "; endmodule\n"),
    "a chain of assigns, forward": ((16383, 32767, 65534), lambda n: chain(n, range)),
    "a chain of assigns, backward": ((16383, 32767, 65534), lambda n: chain(n, lambda m: reversed(range(m)))),
    "a chain of assigns, mixed": ((16383, 32767, 65534), lambda n: chain(n, lambda m: sorted(range(m), key=lambda i: i * 40503 % 65536))),
    "a cycle of assigns": ((16383, 32767, 65534), lambda n: HEAD + "wire " + many(n, "w@", ",") + "; assign y = a; " + "".join("assign w%d = w%d; " % (i, (i + 1) % n) for i in range(n)) + "endmodule\n"),
    "assigns that join all before": ((1000, 2000, 4000), lambda n: HEAD + "wire [63:0] " + many(n, "w@", ",") + "; assign w0 = a; assign y = w%d[0]; " % (n - 1) + "".join("assign w%d = w%d | w%d; " % (i, i - 1, i // 2) for i in range(1, n)) + "endmodule\n"),
    "sleeping blocks": ((8000, 16000, 30000), lambda n: "module top(input clk, input a); reg " + many(n, "q@,s@", ",") + "; " + blocks(n, "always @(posedge clk) q$ <= a; always @* s$ = q$; ") + "endmodule\n"),
    "a chain of sleeping blocks": ((16000, 32000, 65000), lambda n: "module top(input clk, input a); reg q, " + many(n, "s@", ",") + "; always @(posedge clk) q <= a; " + "".join("always @* s%d = %s; " % (i, "s%d" % (i - 1) if i else "q") for i in range(n)) + "endmodule\n"),
    "blocks that read one register": ((16000, 32000, 65000), lambda n: "module top(input clk, input a); reg q, " + many(n, "s@", ",") + "; always @(posedge clk) q <= a; " + blocks(n, "always @* s$ = q; ") + "endmodule\n"),
    "blocks of a loop that wait on 65,536 bits": ((128, 256, 512), lambda n: "module top(input clk, input a); wire [63:0] " + many(1024, "w@", ",") + "; genvar i; for (i = 0; i < %d; i = i + 1) begin : b reg s; always @(" % n + many(1024, "w@", ",") + ") s = w0[0]; end endmodule\n"),
    "a block of all bits": ((4000, 8000, 16000), lambda n: "module top(input clk, input a); reg [63:0] " + many(n, "s@", ",") + "; always @* begin " + many(n, "s@ = a; ") + "end endmodule\n"),
    "a block that writes and reads in turn": ((10000, 20000, 40000), lambda n: "module top(input clk, input a); reg " + many(n, "s@", ",") + "; always @* begin s0 = a; " + "".join("s%d = ~s%d; " % (i, i - 1) for i in range(1, n)) + "end endmodule\n"),
    "a block that writes one bit again": ((40000, 80000, 160000), lambda n: block("begin " + "y = a; " * n + "end")),
    "ifs behind one another": ((10000, 20000, 40000), lambda n: block("begin y = a; " + "if (a) y = ~y; " * n + "end")),
    "ifs behind one another, over many bits": ((5000, 10000, 20000), lambda n: "module top(input clk, input a); reg " + many(n, "s@", ",") + "; always @* begin " + many(n, "s@ = a; ") + many(n, "if (a) s@ = 1; ") + "end endmodule\n"),
    "a case of many items": ((50000, 100000, 200000), lambda n: block("case (a) " + many(n, "@", ",") + ": y = 0; default: y = a; endcase")),
    "a case of many arms": ((20000, 40000, 80000), lambda n: block("case (a) " + many(n, "@: y = 0; ") + "default: y = a; endcase")),
    "a case of many arms, over many bits": ((1000, 2000, 4000), lambda n: "module top(input clk, input a); reg " + many(n, "s@", ",") + "; always @* begin " + many(n, "s@ = a; ") + "case (a) " + many(n, "@: s@ = 0; ") + "endcase end endmodule\n"),
    "a case of arms that write many bits": ((120, 240, 480), lambda n: "module top(input clk, input a); reg " + many(n, "s@", ",") + "; always @* case (a) " + "".join("%d: begin %s end " % (i, many(n, "s@ = a; ")) for i in range(n)) + "default: begin " + many(n, "s@ = 0; ") + "end endcase endmodule\n"),
    "writes by a variable index": ((1000, 2000, 4000), lambda n: "module top(input clk, input a); reg [63:0] s; always @(posedge clk) begin " + "s[{a, a, a, a, a, a}] <= a; " * n + "end endmodule\n"),
    "registers": ((16000, 32000, 64000), lambda n: "module top(input clk, input a); reg " + many(n, "q@", ",") + "; " + blocks(n, "always @(posedge clk) q$ <= a; ") + "endmodule\n"),
    "a block of registers": ((40000, 80000, 160000), lambda n: "module top(input clk, input a); reg " + many(n, "q@", ",") + "; always @(posedge clk) begin " + many(n, "q@<=a;") + "end endmodule\n"),
    "resets": ((10000, 20000, 40000), lambda n: "module top(input clk, input a); reg " + many(n, "q@", ",") + "; " + blocks(n, "always @(posedge clk or posedge a) if (a) q$ <= 0; else q$ <= 1; ") + "endmodule\n"),
    "products": ((250, 500, 1016), lambda n: "module top(input clk, input [63:0] a); wire [63:0] " + many(n, "w@ = a * ~a", ",") + "; endmodule\n"),
    "variable selects": ((1000, 2000, 4000), lambda n: "module top(input clk, input [63:0] a); wire " + many(n, "w@ = a[a[5:0]]", ",") + "; endmodule\n"),
    "sums": ((16000, 32000, 64000), lambda n: "module top(input clk, input [63:0] a); wire [15:0] " + many(n, "w@ = a + 1", ",") + "; endmodule\n"),
    # memories
    "memories of one bit": ((40000, 80000, 160000), lambda n: HEAD + "assign y = a; reg " + many(n, "m@[0:0]", ",") + "; endmodule\n"),
    "memories of 65,536 bits": ((4, 8, 15), lambda n: HEAD + "assign y = a; reg [63:0] " + many(n, "m@ [0:1023]", ", ") + "; endmodule\n"),
    "memories of more bits than a design has": ((16000, 32000, 64000), lambda n: HEAD + "assign y = a; reg [63:0] " + many(n, "m@ [0:1023]", ", ") + "; endmodule\n"),
    "reads of a memory of 65,536 bits": ((30, 60, 120), lambda n: HEAD + "assign y = a; reg [63:0] m [0:1023]; wire " + many(n, "w@ = m[a]", ", ") + "; endmodule\n"),
    "reads of one word of a memory of 65,536 bits": ((1000, 2000, 4000), lambda n: HEAD + "assign y = a; reg [63:0] m [0:1023]; wire " + many(n, "w@ = m[7]", ", ") + "; endmodule\n"),
    "blocks that read one word of a memory of 65,536 bits": ((500, 1000, 2000), lambda n: HEAD + "assign y = a; reg [63:0] m [0:1023]; reg " + many(n, "s@", ", ") + "; " + blocks(n, "always @* s$ = m[7]; ") + "endmodule\n"),
    "writes of each word of a memory": ((250, 500, 1000), lambda n: HEAD + "assign y = a; reg [63:0] m [0:1023]; always @(posedge clk) begin " + many(n, "m[@] <= a; ") + "end endmodule\n"),
    "writes by a variable address": ((30, 60, 120), lambda n: HEAD + "assign y = a; reg [63:0] m [0:1023]; always @(posedge clk) begin " + "m[a] <= a; " * n + "end endmodule\n"),
    "ifs that write a memory": ((250, 500, 1000), lambda n: HEAD + "assign y = a; reg [63:0] m [0:1023]; always @(posedge clk) begin " + many(n, "if (a) m[@] <= a; ") + "end endmodule\n"),
    # stimuli
    "inputs, with their header": ((2500, 5000, 10000), lambda n: (inputs(n), header(n))),
    "256 lanes of a design of many inputs": ((1250, 2500, 5000), lambda n: (inputs(n), [header(n)] * 256)),
    "a header of 21,000 times the last of many inputs": ((50000, 100000, 200000), lambda n: (inputs(n).replace("); endmodule", ", zz); endmodule"), "inputs" + " zz" * 21000 + "\n")),
    "256 lanes of a design of many signals": ((10000, 20000, 40000), lambda n: (HEAD + "assign y = a; wire " + many(n, "w@", ",") + "; endmodule\n", ["inputs a\n"] * 256)),
    "256 lanes of a design of many bits": ((4000, 8000, 16370), lambda n: ("module top(input clk, input a); wire [63:0] " + many(n, "w@ = {64{a}}", ",") + "; endmodule\n", ["inputs a\n"] * 256)),
    "256 lanes of the largest designs": ((250, 500, 1016), lambda n: ("module top(input clk, input [63:0] a); wire [63:0] " + many(n, "w@ = a * ~a", ",") + "; endmodule\n", ["inputs a\n"] * 256)),
    "inputs, with a header that lacks the last": ((2500, 5000, 10000), lambda n: (inputs(n), header(n - 1))),
    "a header of one name": ((8000, 16000, 32000), lambda n: (GATE, "inputs" + " a" * n + "\n")),
    "comments of 65,536 bytes": ((64, 128, 256), lambda n: (GATE, "inputs a\n" + ("#" * 65536 + "\n") * n)),
    "lines of blanks": ((64, 128, 256), lambda n: (GATE, "inputs a\n" + (" " * 65536 + "\n") * n)),
    "empty lines": ((4 * M, 8 * M, 16 * M), lambda n: (GATE, "\n" * n + "inputs a\n")),
    "a line that is too long": ((4 * M, 8 * M, 16 * M), lambda n: (GATE, "inputs a\n" + "0" * n)),
    # rounds, with their waveforms
    "rounds: vectors of 1,024 inputs": ((2000, 4000, 8000), lambda n: (inputs(1024), header(1024) + ("0 " * 1024 + "\n" + "1 " * 1024 + "\n") * (n // 2))),
    "rounds: vectors of one input": ((100000, 200000, 400000), lambda n: (GATE, "inputs a\n" + "0\n1\n" * (n // 2))),
    "rounds: one vector of the largest design": ((250, 500, 1016), lambda n: ("module top(input clk, input [63:0] a); wire [63:0] " + many(n, "w@ = a * ~a", ",") + "; endmodule\n", "inputs a\n" + "01" * 32 + "\n")),
    "rounds: one vector of 1,048,000 bits": ((4000, 8000, 16370), lambda n: ("module top(input clk, input a); wire [63:0] " + many(n, "w@ = {64{a}}", ",") + "; endmodule\n", "inputs a\n1\n")),
    "rounds: a name in each of 256 waveforms": ((M // 4, M // 2, M), lambda n: (HEAD + "wire " + "n" * n + "; assign y = a; endmodule\n", ["inputs a\n1\n"] * 256)),
}


def limit():
    resource.setrlimit(resource.RLIMIT_CPU, (STOP, STOP + 1))
    resource.setrlimit(resource.RLIMIT_AS, (SPACE, SPACE))
    resource.setrlimit(resource.RLIMIT_CORE, (0, 0))


def run(program, design, stimuli):
    """Runs it: the answer, the status, seconds, memory in KB, and the bytes of the waveforms."""
    with tempfile.TemporaryDirectory() as folder, tempfile.TemporaryFile() as out:
        names = ["s%d" % i for i in range(len(stimuli))]
        for name, text in zip(["d.v"] + names, [design] + stimuli):
            open(os.path.join(folder, name), "w").write(text)
        child = subprocess.Popen([program, "run", "--top", "top", "--clock", "clk", "d.v"] + names, cwd=folder, stdout=out, preexec_fn=limit)
        _, code, usage = os.wait4(child.pid, 0)
        child.returncode = 0
        out.seek(0)
        answer = out.read().decode("latin-1").strip()
        waves = sum(os.path.getsize(os.path.join(folder, n + ".vcd")) for n in names if os.path.exists(os.path.join(folder, n + ".vcd")))
        return answer or "stopped by signal %d" % (code & 127), code >> 8, usage.ru_utime, usage.ru_maxrss, waves


def bench(program, name, sizes, make):
    before = None
    for n in sizes:
        made = make(n)
        design, stimulus = made if isinstance(made, tuple) else (made, "inputs a\n")
        assert len(design) <= 4 * M, (name, n, len(design))
        answer, _, seconds, memory, waves = run(program, design, stimulus if isinstance(stimulus, list) else [stimulus])
        grows = math.log(seconds / before[1]) / math.log(n / before[0]) if before and before[1] > 0.05 and seconds > 0.2 else None
        marks = (" OVER" if seconds > SECONDS or memory > MEMORY or answer == "refused 6 Memory" else "") + (" STEEP" if grows is not None and grows > 1.3 else "")
        print("%-58s %9d  %7d bytes %7.2f s %6.0f MB  %4s%s  %s%s"
              % (name, n, len(design), seconds, memory / 1024, "" if grows is None else "%.1f" % grows, marks, answer[:60],
                 "  waveforms %d bytes" % waves if waves else ""), flush=True)
        before = n, seconds


def peaks(program, folder):
    """The peak of memory at 64 lanes."""
    import random
    fifo = open(os.path.join(folder, "fifo", "fifo.v")).read()
    for name, design, heading, digits in (("one assign", GATE, "inputs a", [1]), ("the queue of examples/fifo", fifo, "inputs rst_n push pop in", [1, 1, 1, 8])):
        for vectors in (1000, 100000):
            r = random.Random(1)
            first = " ".join("0" * d for d in digits)
            text = heading + "\n" + first + "\n" + "".join(" ".join(format(r.getrandbits(d), "0%db" % d) for d in digits) + "\n" for _ in range(vectors - 1))
            answer, _, seconds, memory, waves = run(program, design, [text] * 64)
            print("memory: 64 lanes of %d vectors of %s: %.1f MB, %.2f s, %d bytes of waveforms: %s" % (vectors, name, memory / 1024, seconds, waves, answer[:60]), flush=True)


# texts of depth 200, by what is in what
DEEP = {
    "brackets": expression("(" * 200 + "a" + ")" * 200),
    "concatenations": expression("{" * 200 + "a" + "}" * 200),
    "operators": expression("~" * 200 + "a"),
    "choices": expression("a?a:" * 200 + "a"),
    "calls": expression("$signed(" * 200 + "a" + ")" * 200),
    "cases": block("case (a) default: " * 199 + "y = a; " + "endcase " * 199),
    "statements": block("begin " * 199 + "y = a; " + "end " * 199),
    "generate blocks": HEAD + "if (1) begin " * 199 + "assign y = a; " + "end " * 199 + "endmodule\n",
    "brackets, one too deep": expression("(" * 201 + "a" + ")" * 201),
}


def stacks(program):
    """The least stack with which each of these texts ends, found by halving."""
    def ends(design, kilobytes):
        with tempfile.TemporaryDirectory() as folder:
            for name, text in (("d.v", design), ("s", "inputs a\n1\n")):
                open(os.path.join(folder, name), "w").write(text)
            def small():
                resource.setrlimit(resource.RLIMIT_CORE, (0, 0))
                resource.setrlimit(resource.RLIMIT_STACK, (kilobytes * 1024, kilobytes * 1024))
            words = [program, "run", "--top", "top", "--clock", "clk", "d.v", "s"]
            return subprocess.run(words, cwd=folder, stdout=subprocess.DEVNULL, preexec_fn=small).returncode >= 0
    for name, design in DEEP.items():
        low, high = 64, 8192
        while high - low > 64:
            middle = (low + high) // 2
            low, high = (low, middle) if ends(design, middle) else (middle, high)
        print("stack: %s: %d KB%s" % (name, high, "" if ends(design, 8192) else " OVER"), flush=True)


def main():
    program, folder, words = os.path.abspath(sys.argv[1]), sys.argv[2], sys.argv[3:]
    for name, (sizes, make) in FAMILIES.items():
        if not words or any(w in name for w in words):
            bench(program, name, sizes, make)
    if not words or "memory" in words:
        peaks(program, folder)
    if not words or "stack" in words:
        stacks(program)


main()

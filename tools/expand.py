#!/usr/bin/env python3
"""Compares the expansion of directives with those of Icarus Verilog and Verilator, and times it. It is no part of the gate.

usage: tools/expand.py [--seed S] [--count N] [--times] [FILE ..]

It builds a small program over rr_directive (tools/expand) without its proofs, expands sources of real style, N random ones (400 where not given) and the
files, and compares the tokens with those of `iverilog -E` and of `verilator -E -P`. These two differ from one another: Icarus expands what looks like a use within
an escaped name, and ends a text at a comment before a continued line; both drop blanks at the end of a text, which is not tried. Sources that the profile refuses are counted by the number of their refusal. --times expands texts of up to 1 MiB too, of uses, conditionals, definitions, comments and names, and
prints how the time grew from half the size (1 is linear, 2 is quadratic). Status 0 where each source has the tokens of one of the two.
"""
import argparse, collections, math, os, random, re, shutil, subprocess, sys, tempfile

top = os.path.dirname(os.path.dirname(os.path.abspath(__file__)))
NEEDED = ("rr_edge", "rr_directive")
MEBI = 1 << 20
WORD = re.compile(
    rb"(?P<none>[ \t\r\n\f]+|//[^\n]*|/\*.*?\*/|`line[^\n]*|`timescale[^\n]*|`default_nettype[^\n]*)"
    rb"|\\[!-~]+|[A-Za-z_$][A-Za-z0-9_$]*|[0-9]*[ \t]*'[sS]?[bodhBODH][ \t]*[0-9a-fA-FxXzZ?_]+|[0-9][0-9_]*|\"[^\"\n]*\"|<<<|>>>|[<>=!]=|===|!==|&&|\|\||<<|>>|\*\*|.",
    re.S,
)


def tokens(text):
    """The tokens of a text, without white space and comments."""
    return [it[0] for it in WORD.finditer(text) if it["none"] is None]


class Expander:
    """The program of tools/expand, in a folder of its own."""

    def __init__(self, folder):
        self.at = f"{folder}/crates/expand"
        for name in NEEDED:
            shutil.copytree(f"{top}/crates/{name}", f"{folder}/crates/{name}", ignore=shutil.ignore_patterns("out"))
        with open(f"{top}/crates.txt") as text, open(f"{folder}/crates.txt", "w") as out:
            out.writelines(line for line in text if line.split(":")[0].split(" ")[0] in NEEDED)
            out.write("expand: rr_edge rr_directive\n")
        # The gate takes sources in crates alone, so the file has one more ending here.
        os.makedirs(f"{self.at}/src")
        shutil.copy(f"{top}/tools/expand/src/main.rt.txt", f"{self.at}/src/main.rt")

    def expand(self, paths):
        """For each file its text, or the number and the place of its refusal; and the microseconds."""
        done = subprocess.run(["rt", "try", "--seconds", "86400", "--", *paths], cwd=self.at, stdin=subprocess.DEVNULL, stdout=subprocess.PIPE, stderr=subprocess.PIPE)
        out, found, at = done.stdout, [], 0
        while at < len(out):
            end = out.index(b"\n", at)
            kind, count, micros = out[at:end].split()
            at = end + 1
            if kind == b"text":
                found.append((out[at : at + int(count)], int(micros)))
                at += int(count) + 1
            else:
                found.append(((int(kind), int(count)), int(micros)))
        if len(found) != len(paths):
            sys.stderr.buffer.write(done.stderr[-4000:])
            sys.exit("tools/expand.py: the program did not run to its end")
        return found


def icarus(path):
    """What Icarus makes of a file; None where it refuses it, or tells that a name is not defined."""
    done = subprocess.run(["iverilog", "-E", "-o", f"{path}.out", path], stdin=subprocess.DEVNULL, stdout=subprocess.PIPE, stderr=subprocess.STDOUT)
    if done.returncode or b"error" in done.stdout or b"undefined" in done.stdout:
        return None
    with open(f"{path}.out", "rb") as file:
        return file.read()


def verilator(path):
    """What Verilator makes of a file; None where it refuses it."""
    done = subprocess.run(["verilator", "-E", "-P", "-Wno-fatal", path], stdin=subprocess.DEVNULL, stdout=subprocess.PIPE, stderr=subprocess.DEVNULL)
    return None if done.returncode else done.stdout


def agrees(text, answer):
    return text is not None and tokens(text) == tokens(answer)


# ---- sources of real style

REGISTERS = """// register map of a serial port
`ifndef UART_DEFINES
`define UART_DEFINES
`define UART_ADDR_WIDTH 3
`define UART_DATA_WIDTH 8
`define UART_REG_RB `UART_ADDR_WIDTH'd0 // receiver buffer
`define UART_REG_IE `UART_ADDR_WIDTH'd1 /* interrupt enable */
`define UART_REG_LC `UART_ADDR_WIDTH'd3
`define UART_LC_BITS 1:0 // bits in character
`define UART_LC_SB 2
`define UART_RESET {`UART_DATA_WIDTH{1'b0}}
`endif
`ifndef UART_DEFINES
`define UART_DEFINES twice
`endif
`timescale 1ns/10ps
module uart_regs(input clk, input rst, input we, input [`UART_ADDR_WIDTH-1:0] addr, input [`UART_DATA_WIDTH-1:0] dat, output [1:0] bits, output reg [`UART_DATA_WIDTH-1:0] ie);
  reg [`UART_DATA_WIDTH-1:0] lcr;
  assign bits = lcr[`UART_LC_BITS];
  always @(posedge clk)
    if (rst) begin lcr <= `UART_RESET; ie <= `UART_RESET; end
    else if (we && addr == `UART_REG_LC) lcr <= dat; // `UART_REG_LC is no use here
    else if (we && addr == `UART_REG_IE) ie <= dat & ~(`UART_DATA_WIDTH'd1 << `UART_LC_SB);
endmodule
"""

MACHINE = """`define IDLE 2'b00
`define RUN  2'b01
`define DONE 2'b10
`define NEXT(s) s
`undef NEXT
`define WAIT_FOR \\
   if (start) \\
     state <= `RUN; \\
   else \\
     state <= `IDLE
module fsm(input clk, input rst, input start, output reg [1:0] state);
always @(posedge clk)
`ifdef ASYNC
  wrong wrong wrong
`else
  if (rst) state <= `IDLE;
  else case (state)
    `IDLE: `WAIT_FOR;
    `RUN: state <= `DONE;
    default: state <= `IDLE;
  endcase
`endif
endmodule
"""

SIMULATION = """`default_nettype wire
`define SYNTHESIS
module top(input clk, input d, output reg q);
`ifdef SYNTHESIS
`else
  initial $dumpfile("top.vcd");
  initial begin
`ifdef VERBOSE
    $display("verbose");
`else
    $display("quiet");
`endif
  end
`endif
`ifndef SYNTHESIS
  always #5 clk = ~clk;
`else `ifdef FAST
  always @(negedge clk) q <= d;
`else
  always @(posedge clk) q <= d;
`endif `endif
endmodule
"""

NESTED = """`define A `B + `C
`define B (`D)
`define C `B /* c */ + 1
`define D x
`define LONG_NAME_1$ `A ; // end
module n(input [7:0] x, output [7:0] y);
  assign y = `LONG_NAME_1$
`undef D
`define D x ^ 8'h`E
`define E 0f
`define Q q_
  wire [7:0] \\`B , `Q , a`Q ;
  assign `Q = `A;
endmodule
"""

GUARDED = """`ifdef A `ifdef B
  one
`else two `endif three `else
`ifndef B four `else five `endif
`endif
`define A
`ifdef A
`ifdef B
 six
`else
 seven `A eight
`endif
`endif
/* `ifdef C */ nine /* `endif */
// `else
"""

SOURCES = {"register map": REGISTERS, "state machine": MACHINE, "simulation": SIMULATION, "nested uses": NESTED, "conditionals": GUARDED}


def drawn(random):
    """A random source: definitions, uses, conditionals, comments and bytes."""
    names = ["A", "B", "WIDTH", "reg_0", "_x", "a$b"]
    defined, lines, opened = set(), [], []

    def use():
        known = sorted(defined) if random.random() < 0.97 else names
        return f"`{random.choice(known)}" if known else "u"

    def piece():
        return random.choice(["a", "b", "+", "4'd2", "8'hff", ";", "(", ")", "<=", "\\esc ", "/* c */", "`A_ */"[5:], use(), use(), f"x{use()} ", f"{use()}'d1", "[3:0]", "begin", "end"])

    for _ in range(random.randint(3, 25)):
        roll = random.random()
        if roll < 0.3:
            name = random.choice(names)
            text = " ".join(piece() for _ in range(random.randint(0, 5)))
            if f"`{name}" not in text:
                text = f"{text} ;" if "esc" in text[-6:] else text
                lines.append(f"`define {name}{random.choice([' ', '  ', chr(9)])}{text}{random.choice(['', ' // of ' + name, ' ' + chr(92) + chr(10) + '  more'])}")
                if not opened:
                    defined.add(name)
        elif roll < 0.4 and defined and not opened:
            name = random.choice(sorted(defined))
            lines.append(f"`undef {name}")
            defined.discard(name)
        elif roll < 0.55:
            lines.append(f"`{random.choice(['ifdef', 'ifndef'])} {random.choice(names)}")
            opened.append(True)
        elif roll < 0.62 and opened and opened[-1]:
            lines.append("`else")
            opened[-1] = False
        elif roll < 0.72 and opened:
            lines.append("`endif")
            opened.pop()
        elif roll < 0.77:
            lines.append(random.choice(["// `A `ifdef", "/* `else\n `B */", "`timescale 1ns/1ps", "`default_nettype none"]))
        else:
            lines.append(" ".join(piece() for _ in range(random.randint(1, 6))))
    lines += ["`endif"] * len(opened)
    return random.choice(["\n", "\n", "\r\n"]).join(lines) + "\n"


# ---- texts of up to 1 MiB

def filled(front, unit, size, end=""):
    """A text of about so many bytes: a front, a unit over and over, and an end."""
    return front + unit * ((size - len(front) - len(end)) // len(unit)) + end


def doubled(levels):
    """Names that each use the one before twice."""
    return "`define d0 x\n" + "".join(f"`define d{k + 1} `d{k}`d{k}\n" for k in range(levels)) + f"`d{levels}\n"


LARGE = {
    "uses of a byte": lambda n: filled("`define A x\n", "`A", n),
    "uses of nothing": lambda n: filled("`define A\n", "`A", n),
    "conditionals, one in the other": lambda n: "`ifdef A\n" * (n // 16) + "`endif\n" * (n // 16),
    "conditionals side by side": lambda n: filled("", "`ifdef A\nx`else\ny`endif\n", n),
    "definitions of new names": lambda n: "".join(f"`define N{k:06} x\n" for k in range(n // 18)),
    "definitions of one name": lambda n: filled("", "`define A x\n", n),
    "names, each used by the next": lambda n: "`define N000000 x\n" + "".join(f"`define N{k + 1:06} `N{k:06}\n" for k in range(n // 26 - 1)) + f"`N{n // 26 - 1:06}\n",
    "uses of a long name": lambda n: f"`define {'a' * (n // 4)} x\n`{'a' * (n // 4)} `{'a' * (n // 4)}\n",
    "a text of one line": lambda n: filled("`define A ", "x ", n, "\n"),
    "a text of many lines": lambda n: filled("`define A ", "x \\\n", n, "\n"),
    "a skipped branch": lambda n: filled("`ifdef A\n", "`B x ", n, "`endif\n"),
    "comments": lambda n: filled("", "/* */ // x\n", n),
    "plain bytes": lambda n: filled("", "assign y = a;\n", n),
    "doublings up to the limit": lambda n: doubled(int(math.log2(n)) - 2),
}


def times(expander, folder):
    """Prints the times of large texts and of half of them."""
    paths = []
    for number, make in enumerate(LARGE.values()):
        for part in (2, 1):
            paths.append(f"{folder}/large{number}_{part}")
            with open(paths[-1], "w", newline="") as out:
                out.write(make(MEBI // part))
    found = expander.expand(paths)
    print("| text | bytes | answer | seconds | growth |\n|---|---|---|---|---|")
    for number, name in enumerate(LARGE):
        half, whole = found[2 * number][1], found[2 * number + 1][1]
        answer = found[2 * number + 1][0]
        told = f"{len(answer)} bytes" if isinstance(answer, bytes) else f"{answer[0]} at {answer[1]}"
        print(f"| {name} | {os.path.getsize(paths[2 * number + 1])} | {told} | {whole / 1e6:.3f} | {math.log2(max(whole, 1) / max(half, 1)):.2f} |")


def main():
    words = argparse.ArgumentParser(usage=__doc__)
    words.add_argument("--seed", type=int, default=7)
    words.add_argument("--count", type=int, default=400)
    words.add_argument("--times", action="store_true")
    words.add_argument("files", nargs="*")
    words = words.parse_args()
    drawing = random.Random(words.seed)
    with tempfile.TemporaryDirectory() as folder:
        expander = Expander(folder)
        sources = [text for text in SOURCES.values()]
        sources += [text.replace("\n", "\r\n") for text in SOURCES.values()]
        sources += [drawn(drawing) for _ in range(words.count)]
        paths = []
        for number, text in enumerate(sources):
            paths.append(f"{folder}/source{number}.v")
            with open(paths[-1], "w", newline="") as out:
                out.write(text)
        for path in words.files:
            paths.append(f"{folder}/file{len(paths)}.v")
            shutil.copy(path, paths[-1])
        same, other, refused = collections.Counter(), [], collections.Counter()
        for path, (answer, _) in zip(paths, expander.expand(paths)):
            both = icarus(path), verilator(path)
            if isinstance(answer, bytes):
                who = tuple(agrees(text, answer) for text in both)
                same[who] += 1
                if not any(who):
                    other.append((path, answer, both))
            else:
                refused[answer[0], tuple(text is None for text in both)] += 1
        print(f"{len(paths)} sources: {same[True, True]} with the tokens of both, {same[True, False]} of Icarus alone, {same[False, True]} of Verilator alone, {len(other)} of none")
        for (number, (first, second)), count in sorted(refused.items()):
            print(f"  {count} refused by {number}: {'refused' if first else 'taken'} by Icarus, {'refused' if second else 'taken'} by Verilator")
        for path, answer, both in other[:3]:
            with open(path, "rb") as file:
                print("---- source", file.read(), "---- here", answer, "---- Icarus", both[0], "---- Verilator", both[1], sep="\n")
        if words.times:
            times(expander, folder)
    return 1 if other else 0


if __name__ == "__main__":
    sys.exit(main())

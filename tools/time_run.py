#!/usr/bin/env python3
"""Times `run` beside Icarus Verilog on the same designs and tables, and prints a table. It is no part of the gate.

usage: tools/time_run.py [PROGRAM]

PROGRAM is crates/rtl_repair/out/rtl_repair where it is not given. For each design a table of inputs is made; `run` prints the table of its run, and a test bench
of Icarus reads the same inputs and prints the same table, once for each row before the clock edge. The two outputs have to be equal from the row after the reset on. Times are of the
processor, in user mode, the best of three turns each; `iverilog`, which compiles the design and the bench, is told apart.
"""
import os, random, shutil, subprocess, sys, tempfile

from program import built

top = os.path.dirname(os.path.dirname(os.path.abspath(__file__)))
program = os.path.abspath(sys.argv[1]) if len(sys.argv) > 1 else built()
ROWS = 65_536
TURNS = 3


def pipeline(count):
    """Registers of 32 bits behind one another, each with an adder before it."""
    lines = ["module m(input clk, input rst, input [31:0] a, input [31:0] b, output [31:0] y, output [7:0] z);"]
    for k in range(count):
        before = "w0" if k == 0 else f"r{k - 1} + w{k}"
        lines += [f"  reg [31:0] r{k};", f"  wire [31:0] w{k};", f"  assign w{k} = (a ^ {{b[15:0], b[31:16]}}) + 32'd{k};", "  always @(posedge clk)", f"    if (rst) r{k} <= 32'd0;", f"    else r{k} <= {before};"]
    return "\n".join([*lines, f"  assign y = r{count - 1};", f"  assign z = r{count // 2}[7:0];", "endmodule", ""])


def inputs():
    """Each design with its inputs, after the reset, and its outputs, by name and width."""
    yield "32 registers of 32 bits", pipeline(32), "m", "rst", 1, [("a", 32), ("b", 32)], ["y", "z"]
    for name, module, ports, outputs in (("transmitter", "tx", [("start", 1), ("data", 8)], ["line", "busy"]),):
        with open(f"{top}/examples/{name}/design.v") as text:
            yield name, text.read(), module, "rst_n", 0, ports, outputs


def bench(module, reset, ports, outputs):
    """A test bench that reads a memory of each input and prints a row for each cycle."""
    names = [reset, *[it for it, _ in ports]]
    widths = dict([(reset, 1), *ports])
    lines = ["module bench;", "  reg clk = 0;", "  integer file, row;"]
    lines += [f"  reg [{widths[it] - 1}:0] {it}, rows_{it} [0:{ROWS - 1}];" for it in names]
    lines += [f"  wire [127:0] out_{it};" for it in outputs]
    lines += [f"  {module} dut(.clk(clk), {', '.join(f'.{it}({it})' for it in names)}, {', '.join(f'.{it}(out_{it})' for it in outputs)});"]
    lines += ["  initial begin", '    file = $fopen("bench.csv");', f'    $fdisplay(file, "{",".join([*names, *outputs])}");']
    lines += [f'    $readmemh("{it}.hex", rows_{it});' for it in names]
    lines += [f"    for (row = 0; row < {ROWS}; row = row + 1) begin", *[f"      {it} = rows_{it}[row];" for it in names]]
    shown = ", ".join([*names, *[f"out_{it}" for it in outputs]])
    lines += [f'      #1 $fdisplay(file, "{",".join(["%0d"] * (len(names) + len(outputs)))}", {shown});', "      clk = 1; #1 clk = 0;", "    end", "    $finish;", "  end", "endmodule", ""]
    return "\n".join(lines)


def write(folder, name, text):
    with open(f"{folder}/{name}", "w") as out:
        out.write(text)


def seconds(words, folder, out=None):
    with open(f"{folder}/{out or 'log'}", "wb") as file:
        child = subprocess.Popen(words, cwd=folder, stdout=file, stderr=subprocess.DEVNULL)
        _, _, used = os.wait4(child.pid, 0)
    return used.ru_utime


def line(name, design, module, reset, active, ports, outputs):
    draw = random.Random(1)
    rows = [[active if at == 0 else 1 - active, *[draw.getrandbits(width) for _, width in ports]] for at in range(ROWS)]
    names = [reset, *[it for it, _ in ports]]
    with tempfile.TemporaryDirectory() as room:
        write(room, "d.v", design)
        write(room, "bench.v", bench(module, reset, ports, outputs))
        write(room, "t.csv", "\n".join([",".join(names), *[",".join(map(str, it)) for it in rows]]) + "\n")
        for at, column in enumerate(names):
            write(room, f"{column}.hex", "\n".join(f"{it[at]:x}" for it in rows) + "\n")
        ours = min(seconds([program, "run", "d.v", "t.csv"], room, "run.csv") for _ in range(TURNS))
        made = seconds(["iverilog", "-o", "bench.vvp", "d.v", "bench.v"], room)
        peer = min(seconds(["vvp", "-n", "bench.vvp"], room) for _ in range(TURNS))
        with open(f"{room}/run.csv") as one, open(f"{room}/bench.csv") as other:
            ours_text, peer_text = one.read().splitlines(), other.read().splitlines()
        # (by name, since a design's port order may be another; before the first edge registers are unknown there)
        places = [peer_text[0].split(",").index(it) for it in ours_text[0].split(",")]
        equal = sum(a == ",".join(b.split(",")[at] for at in places) for a, b in zip(ours_text[2:], peer_text[2:]))
        print(f"| `run`, {name}, {ROWS} rows | {ours:.2f} s | {peer:.2f} s (`vvp`), {made:.2f} s (`iverilog`) | {ours / peer:.2f} | {equal} of {len(ours_text) - 2} rows equal |", flush=True)


def main():
    if not shutil.which("vvp"):
        sys.exit("Icarus Verilog is not installed")
    print("| what | rtl_repair | Icarus | times `vvp` | rows |\n|---|---|---|---|---|")
    for one in inputs():
        line(*one)


if __name__ == "__main__":
    main()

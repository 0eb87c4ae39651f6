#!/usr/bin/env python3
"""Times whole repairs with a built program, and prints a table. It is no part of the gate.

usage: tools/time_repair.py [PROGRAM]

PROGRAM is crates/rtl_repair/out/rtl_repair where it is not given, which `rt run` and `rt ci` build. Each line is one repair: the
examples, two counters with a fault each at 20 to 2,000 rows, and eight counters of 16 bits at the limit of work. It has the time with
1 and with 4 members, the most memory, the gates of the certificate's circuit, the clauses of its formula, the lines of its proof, the time of
`check`, and that of `minisat` on the same formula, where it is installed.
"""
import os, shutil, subprocess, sys, tempfile, time

from program import built

top = os.path.dirname(os.path.dirname(os.path.abspath(__file__)))
program = os.path.abspath(sys.argv[1]) if len(sys.argv) > 1 else built()


def timed(words, folder):
    """The status, the seconds and the mebibytes of a command."""
    begun = time.monotonic()
    child = subprocess.Popen(words, cwd=folder, stdout=subprocess.DEVNULL, stderr=subprocess.DEVNULL)
    _, status, used = os.wait4(child.pid, 0)
    return os.waitstatus_to_exitcode(status), time.monotonic() - begun, used.ru_maxrss // 1024


def counter(name, width, step):
    return f"  always @(posedge clk) if (rst) {name} <= {width}'d0; else {name} <= {name} + {width}'d{step};\n"


def counters(count, width, rows, faulty):
    """A design of counters, of which the first ones count by 3, and its table, where each counts by 1."""
    names = [f"q{i}" for i in range(count)]
    design = f"module m(input clk, input rst, {', '.join(f'output reg [{width - 1}:0] {it}' for it in names)});\n"
    design += "".join(counter(it, width, 3 if i < faulty else 1) for i, it in enumerate(names)) + "endmodule\n"
    lines = [f"rst,{','.join(names)}", f"1,{','.join('0' for _ in names)}"]
    lines += [f"0,{','.join(str(row % (1 << width)) for _ in names)}" for row in range(rows - 1)]
    return design, "\n".join(lines) + "\n"


def inputs():
    for name in sorted(os.listdir(f"{top}/examples")):
        folder = f"{top}/examples/{name}"
        if os.path.exists(f"{folder}/table.csv"):
            yield name, open(f"{folder}/design.v").read(), open(f"{folder}/table.csv").read()
    for rows in (20, 200, 2000):
        yield f"two counters, {rows} rows", *counters(2, 4, rows, 2)
    # (8 counters of 16 bits, the clock and the reset are 130 bits)
    yield "eight counters of 16 bits, 2,016 rows", *counters(8, 16, 2016, 2)


def line(name, design, table):
    with tempfile.TemporaryDirectory() as room:
        for file, text in (("d.v", design), ("t.csv", table)):
            with open(f"{room}/{file}", "w") as out:
                out.write(text)
        one = timed([program, "repair", "d.v", "t.csv", "c", "--members", "1"], room)
        four = timed([program, "repair", "d.v", "t.csv", "c"], room)
        rest = ["", "", "", "", ""]
        if os.path.exists(f"{room}/c.cnf"):
            gates = open(f"{room}/c.aag").readline().split()[5]
            clauses = open(f"{room}/c.cnf").readline().split()[3]
            steps = sum(1 for _ in open(f"{room}/c.lrat"))
            check = timed([program, "check", "c.aag", "c.lrat"], room)
            peer = ""
            if shutil.which("minisat"):
                status, seconds, _ = timed(["timeout", "60", "minisat", "-verb=0", "c.cnf"], room)
                peer = "above 60" if status == 124 else f"{seconds:.2f}"
            rest = [gates, clauses, str(steps), f"{check[1]:.2f}", peer]
        print(f"| {name} | {four[0]} | {one[1]:.2f} | {four[1]:.2f} | {four[2]} | {' | '.join(rest)} |", flush=True)


if __name__ == "__main__":
    print("| input | status | 1 member, s | 4 members, s | MiB | gates | clauses | lines | check, s | minisat, s |")
    print("|---|---|---|---|---|---|---|---|---|---|")
    for one in inputs():
        line(*one)

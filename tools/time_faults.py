#!/usr/bin/env python3
"""Times whole repairs of designs with several faults and sparse tables, beside `minisat` and `cadical`, and prints a table. It is no part of the gate.

usage: tools/time_faults.py [PROGRAM ..]

PROGRAM is crates/rtl_repair/out/rtl_repair where none is given, which `rt run` and `rt ci` build; of several, as two states of the code, each makes
every repair. A design is made faulty in its first 2 to 6 places. `run` of the first program gives the outputs of the design without
faults for random inputs, of which 100, 60 or 30 % of the cells are kept as known. Then each program repairs it with its default budget, within LIMIT seconds. Each line has
the design, its faults and known cells, and of each program the status, the least number of changes or the bound that was left open, the seconds on all processors, and those of the other solvers on
the formula of its certificate (which asks for one change less), with what the repair took in times of theirs: all of its questions, with their making, beside one of them. The inputs are the same in each run.
"""
import os, random, re, shutil, subprocess, sys, tempfile

from program import built

top = os.path.dirname(os.path.dirname(os.path.abspath(__file__)))
LIMIT = 120
PEERS = (("minisat", ["minisat", "-verb=0"]), ("cadical", ["cadical", "-q"]))

TRANSMITTER = """module tx(input clk, input rst, input start, input [7:0] data, output reg line, output busy, output reg odd);
  reg [1:0] state;
  reg [7:0] sh;
  reg [3:0] n;
  assign busy = state != 2'd0;
  always @(posedge clk)
    if (rst) begin
      state <= 2'd0; line <= 1'd1; sh <= 8'd0; n <= 4'd0; odd <= 1'd0;
    end else case (state)
      2'd0: if (start) begin
        state <= 2'd1; line <= 1'd0; sh <= data; n <= 4'd0; odd <= 1'd0;
      end
      2'd1: begin
        line <= sh[0]; odd <= odd ^ sh[0]; sh <= sh >> 1; n <= n + 4'd1;
        if (n == 4'd7) state <= 2'd2;
      end
      2'd2: begin line <= odd; state <= 2'd3; end
      default: begin line <= 1'd1; state <= 2'd0; end
    endcase
endmodule
"""
TRANSMITTER_FAULTS = [
    ("n == 4'd7", "n == 4'd9"),
    ("n + 4'd1", "n + 4'd3"),
    ("state <= 2'd1; line <= 1'd0", "state <= 2'd1; line <= 1'd1"),
    ("sh >> 1", "sh >> 2"),
    ("default: begin line <= 1'd1", "default: begin line <= 1'd0"),
    ("sh <= data; n <= 4'd0; odd <= 1'd0", "sh <= data; n <= 4'd1; odd <= 1'd0"),
]

QUEUE = """module queue(input clk, input rst, input push, input pop, input [7:0] data, output [7:0] front, output full, output empty, output reg [7:0] sum);
  reg [7:0] a, b, c, d;
  reg [2:0] head, tail;
  wire [2:0] level;
  assign level = head - tail;
  assign empty = level == 3'd0;
  assign full = level == 3'd4;
  assign front = (tail & 3'd3) == 3'd0 ? a : (tail & 3'd3) == 3'd1 ? b : (tail & 3'd3) == 3'd2 ? c : d;
  always @(posedge clk)
    if (rst) begin
      a <= 8'd0; b <= 8'd0; c <= 8'd0; d <= 8'd0;
      head <= 3'd0; tail <= 3'd0; sum <= 8'd0;
    end else begin
      if (push && !full) begin
        head <= head + 3'd1;
        case (head & 3'd3)
          3'd0: a <= data;
          3'd1: b <= data;
          3'd2: c <= data;
          default: d <= data ^ 8'd90;
        endcase
      end
      if (pop && !empty) begin
        tail <= tail + 3'd1;
        sum <= (sum << 1) + front + 8'd17;
      end
    end
endmodule
"""
QUEUE_FAULTS = [
    ("level == 3'd4", "level == 3'd3"),
    ("front + 8'd17", "front + 8'd19"),
    ("data ^ 8'd90", "data ^ 8'd91"),
    ("sum << 1", "sum << 2"),
    ("tail + 3'd1", "tail + 3'd3"),
    ("(tail & 3'd3) == 3'd1 ? b", "(tail & 3'd2) == 3'd1 ? b"),
]

UNIT = """module unit(input clk, input rst, input [2:0] op, input [7:0] a, input [7:0] b, output reg [7:0] y, output reg zero, output reg [7:0] total);
  reg [7:0] r;
  always @*
    case (op)
      3'd0: r = a + b;
      3'd1: r = a - b;
      3'd2: r = (a & b) + 8'd3;
      3'd3: r = (a ^ b) + 8'd21;
      3'd4: r = a << 1;
      3'd5: r = (b >> 2) ^ 8'd129;
      default: r = a | 8'd64;
    endcase
  always @(posedge clk)
    if (rst) begin
      y <= 8'd0; zero <= 1'd0; total <= 8'd5;
    end else begin
      y <= r; zero <= r == 8'd0; total <= total + r + 8'd1;
    end
endmodule
"""
UNIT_FAULTS = [
    ("(a ^ b) + 8'd21", "(a ^ b) + 8'd20"),
    ("(a & b) + 8'd3", "(a & b) + 8'd11"),
    ("a << 1", "a << 2"),
    ("(b >> 2) ^ 8'd129", "(b >> 2) ^ 8'd1"),
    ("total + r + 8'd1", "total + r + 8'd2"),
    ("a | 8'd64", "a | 8'd32"),
]

DESIGNS = (
    ("transmitter", TRANSMITTER, TRANSMITTER_FAULTS, [("start", 1), ("data", 8)], 40),
    ("queue", QUEUE, QUEUE_FAULTS, [("push", 1), ("pop", 1), ("data", 8)], 48),
    ("unit", UNIT, UNIT_FAULTS, [("op", 3), ("a", 8), ("b", 8)], 40),
)


def write(folder, name, text):
    with open(f"{folder}/{name}", "w") as out:
        out.write(text)


def faulty(design, faults):
    for right, wrong in faults:
        if design.count(right) != 1:
            sys.exit(f"{right} stands {design.count(right)} times")
        design = design.replace(right, wrong)
    return design


def table(program, room, design, inputs, rows, known, draw):
    """The table of the design without faults, with so many of a hundred cells known."""
    names = ["rst", *[it for it, _ in inputs]]
    lines = [[1 if at == 0 else 0, *[draw.getrandbits(width) for _, width in inputs]] for at in range(rows)]
    write(room, "good.v", design)
    write(room, "in.csv", "\n".join([",".join(names), *[",".join(map(str, it)) for it in lines]]) + "\n")
    told = subprocess.run([program, "run", "good.v", "in.csv"], cwd=room, capture_output=True, text=True, check=True).stdout.splitlines()
    cells = [it.split(",") for it in told]
    given = {at for at, name in enumerate(cells[0]) if name in names}
    # (before the first edge the registers are 0, which the design need not have promised)
    for line in cells[1:]:
        for at in range(len(line)):
            if at not in given and draw.randrange(100) >= known:
                line[at] = "x"
    return "\n".join(map(",".join, cells)) + "\n"


def seconds(words, folder):
    """The status of a command, its seconds on all processors, and what it told; None as the status where it did not end in time."""
    with open(f"{folder}/told", "w+") as told:
        child = subprocess.Popen(["timeout", str(LIMIT), *words], cwd=folder, stdin=subprocess.DEVNULL, stdout=subprocess.DEVNULL, stderr=told)
        _, status, used = os.wait4(child.pid, 0)
        told.seek(0)
        code = os.waitstatus_to_exitcode(status)
        return None if code == 124 else code, used.ru_utime + used.ru_stime, told.read()


def peers(room, ours):
    """What other solvers take for the formula of the certificate, and the repair in times of that."""
    found = []
    for name, words in PEERS:
        if not shutil.which(name) or not os.path.exists(f"{room}/c.cnf"):
            found += ["", ""]
            continue
        status, took, _ = seconds([*words, "c.cnf"], room)
        found += [f"above {LIMIT}", ""] if status is None else [f"{took:.2f}", f"{ours / max(took, 0.005):.1f}"]
    return found


def repair(program, room):
    for name in ("c.aag", "c.cnf", "c.lrat"):
        if os.path.exists(f"{room}/{name}"):
            os.remove(f"{room}/{name}")
    status, took, notes = seconds([program, "repair", "d.v", "t.csv", "c"], room)
    if status is None:
        return ["-", "", f"above {LIMIT}", "", *peers(room, took)]
    told = re.match(r"repaired (\d+)|budget spent \d+ (bound \d+)|(\w[^\n]*)", notes)
    what = next((it for it in told.groups() if it), "") if told else ""
    lines = str(sum(1 for _ in open(f"{room}/c.lrat"))) if os.path.exists(f"{room}/c.lrat") else ""
    return [str(status), what, f"{took:.2f}", lines, *peers(room, took)]


def main():
    programs = [os.path.abspath(it) for it in sys.argv[1:]] or [built()]
    print("| design | faults | known, % | program | status | changes | s | lines | minisat, s | times minisat | cadical, s | times cadical |")
    print("|---|---|---|---|---|---|---|---|---|---|---|---|")
    for name, design, faults, inputs, rows in DESIGNS:
        for count in range(2, 7):
            for known in (100, 60, 30):
                with tempfile.TemporaryDirectory() as room:
                    draw = random.Random(f"{name} {count} {known}")
                    write(room, "t.csv", table(programs[0], room, design, inputs, rows, known, draw))
                    write(room, "d.v", faulty(design, faults[:count]))
                    for at, program in enumerate(programs):
                        told = repair(program, room)
                        print(f"| {name} | {count} | {known} | {at + 1} | {' | '.join(told)} |", flush=True)


if __name__ == "__main__":
    main()

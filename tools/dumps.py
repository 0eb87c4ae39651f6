#!/usr/bin/env python3
"""Makes value change dumps with the simulators that the machine has, and compares what the program reads in them with the tables of
the same runs. It is no part of the gate, and nothing of it is proved.

usage: tools/dumps.py [PROGRAM] [--only WORD] [--keep FOLDER]

PROGRAM is crates/rtl_repair/out/rtl_repair where it is not given. Each case is a design with a test bench, which writes the dump and, by
lines that are printed before each clock edge, the table of the same run. `run` has to print the same for both, and `repair` to say
`unchanged` of the dump and of the table; of the design with a fault it has to report the same for both. Where a tool writes no table, it
is made from the dump by the reader at the end of this file, which shares nothing with the program. Icarus Verilog, Verilator, Yosys and
GTKWave's converters are taken where they are on the PATH, and said to be absent where they are not. Last come dumps of 16 MiB, with the seconds
and the mebibytes that `run` takes. --keep leaves the files in a folder. The status is 0 where all is as it should be.
"""
import argparse, os, shutil, subprocess, sys, tempfile

top = os.path.dirname(os.path.dirname(os.path.abspath(__file__)))
sys.path.insert(0, f"{top}/tools")
from limits import timed  # noqa: E402

from program import built

COUNTER = """module counter(input clk, input rst, output reg [3:0] q);
  always @(posedge clk)
    if (rst) q <= 4'd0;
    else q <= q + 4'd1;
endmodule
"""
FALLING = COUNTER.replace("posedge", "negedge")
ADDER = """module adder(input [7:0] a, input [7:0] b, output [8:0] sum, output carry);
  assign sum = a + b;
  assign carry = sum[8];
endmodule
"""

# The bench of a counter: what stands at its head, how the counter is connected, what is dumped, the clock before and behind an edge.
BENCH = """module bench;
  reg clk = {before}, rst;
  wire [3:0] q;
  integer file;
{head}
  {dut}
  initial begin
    $dumpfile("wave.vcd");
    {dumped}
  end
  task row;
    begin
      #1 $fdisplay(file, "%0d,%0d", rst, q);
      clk = ~clk; {also} #1 clk = ~clk;
    end
  endtask
  initial begin
    file = $fopen("table.csv");
    $fdisplay(file, "rst,q");
    rst = 1; row;
    rst = 0; repeat (9) row;
    rst = 1; row;
    rst = 0; repeat (20) row;
    $finish;
  end
endmodule
"""
PLAIN = "counter dut(.clk(clk), .rst(rst), .q(q));"

# Variables of every kind beside the ports, blocks with names, and escaped names.
MANY = """  reg [7:0] mem [0:3];
  real level;
  event tick;
  integer n;
  time stamp;
  parameter WIDTH = 4;
  wire \\odd-name+ = rst;
  initial begin : named
    reg [2:0] inner;
    integer j;
    inner = 3'd5; j = 1; level = 0.25; mem[0] = 0; mem[1] = 8'bz; n = 3;
    #3 inner = 3'bx1z;
    fork : both
      #1 n = -1;
      #2 stamp = $time;
    join
  end
"""
ALSO = "level = level + 0.5; -> tick; mem[0] = mem[0] + 1;"

# So many variables that their identifiers have every first character, and some have two.
CROWD = "".join(f"  reg [{it % 7}:0] v{it} = {it};\n" for it in range(240))

# The scope of the bench has the ports' names, but not their widths, and one more has the inputs alone.
OTHERS = """module stage(input clk, input rst);
endmodule
""", """  wire wide_clk = clk;
  stage first(.clk(clk), .rst(rst));
  wire [7:0] count;
  assign count = q;
"""


def bench(before=0, head="", dut=PLAIN, dumped="$dumpvars(1, bench.dut);", also=""):
    return BENCH.format(before=before, head=head, dut=dut, dumped=dumped, also=also)


INNER = bench(dut="counter dut(.clk(c), .rst(r), .q(o));", dumped="$dumpvars(0, bench);").replace("reg clk", "reg c").replace("clk = ~clk", "c = ~c").replace(", rst;", ", r;").replace("rst = ", "r = ").replace("[3:0] q;", "[3:0] o;").replace("rst, q);\n", "r, o);\n")

# A run without a clock: a moment for each row, with the values after it.
SUMS = """module bench;
  reg [7:0] a, b;
  wire [8:0] sum;
  wire carry;
  integer file, i;
  adder dut(.a(a), .b(b), .sum(sum), .carry(carry));
  initial begin
    $dumpfile("wave.vcd");
    $dumpvars(1, bench.dut);
    file = $fopen("table.csv");
    $fdisplay(file, "a,b,sum,carry");
    for (i = 0; i < 40; i = i + 1) begin
      a = i * 37; b = i * 91 + 5;
      #1 $fdisplay(file, "%0d,%0d,%0d,%0d", a, b, sum, carry);
    end
    // The dump tells the end of the simulation as a moment more.
    $fdisplay(file, "%0d,%0d,%0d,%0d", a, b, sum, carry);
    $finish;
  end
endmodule
"""

# (name, design, other modules, bench)
BENCHES = [
    ("the design's scope alone", COUNTER, "", bench()),
    ("all scopes, the bench's first", COUNTER, "", bench(dumped="$dumpvars;")),
    ("all scopes, other names in the bench", COUNTER, "", INNER),
    ("variables of every kind", COUNTER, "", bench(head=MANY, dumped="$dumpvars;", also=ALSO)),
    ("words of an array, the scope opened again", COUNTER, "", bench(head=MANY, dumped="$dumpvars; $dumpvars(0, bench.mem[0], bench.mem[1]);", also=ALSO)),
    ("many identifiers", COUNTER, "", bench(head=CROWD, dumped="$dumpvars;")),
    ("a scope with the inputs alone before", COUNTER, OTHERS[0], bench(head=OTHERS[1], dumped="$dumpvars(1, bench.first); $dumpvars(1, bench.dut);")),
    ("a falling clock", FALLING, "", bench(before=1)),
    ("no clock", ADDER, "", SUMS),
    ("$dumpall in between", COUNTER, "", bench(also="if (rst) $dumpall;")),
    ("a dump in the middle of a moment", COUNTER, "", bench(also="$dumpflush;")),
]


def call(words, folder):
    done = subprocess.run(words, cwd=folder, stdout=subprocess.PIPE, stderr=subprocess.STDOUT, text=True)
    if done.returncode:
        raise RuntimeError(f"{words[0]}: {done.stdout[-400:]}")
    return done.stdout


def write(path, content):
    with open(path, "w", encoding="utf-8", newline="") as file:
        file.write(content)


def read(path):
    with open(path, encoding="utf-8", newline="") as file:
        return file.read()


def sources(folder, design, others, text):
    write(f"{folder}/design.v", design)
    write(f"{folder}/others.v", others + text)


def icarus(folder, design, others, text):
    sources(folder, design, others, text)
    call(["iverilog", "-o", "bench.vvp", "design.v", "others.v"], folder)
    call(["vvp", "-n", "bench.vvp"], folder)


def converted(folder, design, others, text):
    """The dump by way of GTKWave's FST."""
    icarus(folder, design, others, text)
    call(["vvp", "-n", "bench.vvp", "-fst"], folder)
    os.rename(f"{folder}/wave.vcd", f"{folder}/wave.fst")
    call(["fst2vcd", "-f", "wave.fst", "-o", "wave.vcd"], folder)


def verilator(folder, design, others, text):
    sources(folder, design, others, text)
    call(["verilator", "--binary", "--timing", "--trace", "-Wno-fatal", "--top-module", "bench", "others.v", "design.v"], folder)
    call(["./obj_dir/Vbench"], folder)


def yosys(folder, design, others, text):
    """Yosys drives the clock and the reset itself, and no bench."""
    write(f"{folder}/design.v", design)
    call(["yosys", "-q", "-p", "read_verilog design.v; proc; sim -clock clk -reset rst -rstlen 2 -n 20 -vcd wave.vcd"], folder)


# What a tool needs, and the cases for it.
TOOLS = [
    ("Icarus Verilog", ["iverilog", "vvp"], icarus, BENCHES),
    ("Icarus Verilog by way of FST", ["iverilog", "vvp", "fst2vcd"], converted, BENCHES[:4]),
    ("Verilator", ["verilator"], verilator, [BENCHES[0], BENCHES[1], BENCHES[7]]),
    ("Yosys", ["yosys"], yosys, [("its own clock and reset", COUNTER, "", "")]),
]


def answer(program, folder, *words):
    done = subprocess.run([program, *words], cwd=folder, capture_output=True, text=True)
    return done.returncode, done.stdout, done.stderr


def judge(program, folder, design):
    """What differs between the dump and the table in a folder."""
    wrong = []

    def check(what, found, due):
        if found != due:
            wrong.append(f"{what}: {str(found)[:300]} in place of {str(due)[:300]}")

    if not os.path.exists(f"{folder}/table.csv"):
        write(f"{folder}/table.csv", table_of(read(f"{folder}/wave.vcd"), ["clk", "rst", "q"], "clk"))
    run = {it: answer(program, folder, "run", "design.v", it) for it in ("wave.vcd", "table.csv")}
    check("run", run["wave.vcd"], run["table.csv"])
    check("the status of run", run["table.csv"][0], 0)
    check("repair by the dump", answer(program, folder, "repair", "design.v", "wave.vcd", "cert"), (0, design, "unchanged\n"))
    check("repair by the table", answer(program, folder, "repair", "design.v", "table.csv", "cert"), (0, design, "unchanged\n"))
    faulty = design.replace("4'd1", "4'd2").replace("a + b", "a - b")
    write(f"{folder}/faulty.v", faulty)
    found = {it: answer(program, folder, "repair", "faulty.v", it, "cert") for it in ("wave.vcd", "table.csv")}
    check("repair of a fault", found["wave.vcd"], found["table.csv"])
    check("a fault", found["wave.vcd"][2] == "unchanged\n", False)
    return wrong


# ---- dumps of 16 MiB

LARGE = 16 * 1024 * 1024
HEAD = '$scope module tb $end\n$var wire 1 ! clk $end\n$var wire 1 " rst $end\n$var wire 4 # q [3:0] $end\n$var wire 64 $ data $end\n$upscope $end\n$enddefinitions $end\n'


def long_dump(changes):
    """A dump of 16 MiB with so many changes of another variable in each half cycle, and at most 65,000 cycles."""
    pieces, size, at = [HEAD, '#0\n0!\n1"\nbx #\n'], 0, 0
    while at < 130_000:
        at += 1
        text = f"#{at}\n{at % 2}!\n" + f"b{at:b} $\n" * changes
        if at == 2:
            text += '0"\n'
        size += len(text)
        if size > LARGE - 400:
            break
        pieces.append(text)
    return "".join(pieces)


def large(program, folder):
    wrong = []
    write(f"{folder}/design.v", COUNTER)
    many = "".join(f"$var wire 1 v{it} n{it} $end\n" for it in range(600_000))
    cases = {
        "few changes in a cycle": (long_dump(5), 0),
        "many changes in a cycle": (long_dump(2000), 0),
        "many declarations": (HEAD.replace("$upscope $end\n", many[: LARGE - 400].rsplit("\n", 1)[0] + "\n$upscope $end\n"), 0),
        "a text without white space": ("x" * LARGE, 3),
        "a comment without its end": ("$comment " + "x " * (LARGE // 2 - 8), 3),
    }
    for name, (text, due) in cases.items():
        write(f"{folder}/wave.vcd", text)
        status, out, err, seconds, mebi = timed([program, "run", "design.v", "wave.vcd"], folder, 60)
        print(f"{name}: {len(text)} bytes, status {status}, {seconds:.2f} s, {mebi:.0f} MiB {err.decode().strip()}", flush=True)
        if status != due:
            wrong.append(f"{name}: status {status} in place of {due}")
    return wrong


# ---- another reader of dumps

def table_of(dump, names, clock):
    """The table of a dump of one scope with these names for its ports, before each rising edge of the clock."""
    words, at, place, ids = dump.split(), 0, [], {}
    while words[at] != "$enddefinitions":
        end = words.index("$end", at)
        if words[at] == "$scope":
            place.append(words[at + 2])
        elif words[at] == "$upscope":
            place.pop()
        elif words[at] == "$var":
            ids.setdefault(words[at + 4].lstrip("\\"), words[at + 3])
        at = end + 1
    values, before, rows = {}, None, []
    told = lambda state, name: state.get(ids[name], "x")

    def moment():
        nonlocal before
        now = dict(values)
        if before is not None and told(before, clock) == "0" and told(now, clock) == "1":
            rows.append([told(before, it) for it in names if it != clock])
        before = now

    begun, at = False, words.index("$end", at) + 1
    while at < len(words):
        word = words[at]
        if word[0] == "#":
            if begun:
                moment()
            begun = True
        elif word[0] in "bB":
            at += 1
            values[words[at]] = word[1:].lower().replace("z", "x")
        elif word[0] in "rRs":
            at += 1
        elif word[0] != "$":
            values[word[1:]] = word[0].lower().replace("z", "x")
        at += 1
    moment()
    return "\n".join([",".join(it for it in names if it != clock)] + [",".join("0b" + it for it in row) for row in rows]) + "\n"


def main():
    words = argparse.ArgumentParser(usage="tools/dumps.py [PROGRAM] [--only WORD] [--keep FOLDER]")
    words.add_argument("program", nargs="?")
    words.add_argument("--only", default="")
    words.add_argument("--keep")
    told = words.parse_args()
    program = os.path.abspath(told.program) if told.program else built()
    room = told.keep or tempfile.mkdtemp()
    passed = failed = 0

    def end(name, wrong):
        nonlocal passed, failed
        passed, failed = passed + (not wrong), failed + bool(wrong)
        for it in wrong:
            print(f"{name}: {it}", flush=True)

    for tool, needed, make, cases in TOOLS:
        absent = [it for it in needed if not shutil.which(it)]
        if absent:
            print(f"{tool}: not here ({', '.join(absent)})")
            continue
        for number, (name, design, others, text) in enumerate(cases):
            if told.only not in f"{tool}: {name}":
                continue
            folder = f"{room}/{make.__name__}{number}"
            os.makedirs(folder, exist_ok=True)
            try:
                make(folder, design, others, text)
                end(f"{tool}: {name}", judge(program, folder, design))
            except RuntimeError as error:
                end(f"{tool}: {name}", [str(error)])
    if told.only in "16 MiB":
        folder = f"{room}/large"
        os.makedirs(folder, exist_ok=True)
        end("16 MiB", large(program, folder))
    if not told.keep:
        shutil.rmtree(room)
    print(f"{passed} as they should be, {failed} not")
    return 1 if failed else 0


if __name__ == "__main__":
    sys.exit(main())

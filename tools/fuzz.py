#!/usr/bin/env python3
"""Runs the program on mutated and on random inputs, and looks for what may never come. It is no part of the gate.

usage: tools/fuzz.py [PROGRAM] [COUNT] [SEED]

PROGRAM is crates/rtl_repair/out/rtl_repair where it is not given, COUNT 1,000 inputs, SEED 1. An input is a design and a table, or a circuit
and a proof: those of examples/ and of their repairs with bytes or tokens changed, left out, doubled or exchanged, or a random design of the profile,
with starting values and macros or without, with a table of its own run in which some cells are changed. Looked for are: an end by a signal, more than LONGEST seconds of processor time, a status
outside of 0 to 6, a text on standard error that is none of the documented forms, something on standard output where the status
is 3, 5 or 6, or 2 and nothing was found, a repair of status 0 or 2 whose source `run` does not confirm on the table, a certificate of status 0 or 1 that `check` and tools/verdicts.py do not
accept or of status 2 that they refuse, a verdict of `check` that is another than that of tools/verdicts.py, and one of `accepted` on a circuit whose outputs some input makes true.
Each finding is printed and kept in a folder; the last lines count, and the status is 0 where there is none.
"""
import os, random, re, resource, subprocess, sys, tempfile

top = os.path.dirname(os.path.dirname(os.path.abspath(__file__)))
sys.path.insert(0, f"{top}/tools")
from cells import misses  # noqa: E402
from endings import fault_of  # noqa: E402
from expressions import INFIXES, SHIFTS, cast, concatenation, conditional, infix, one_of, prefix, replication  # noqa: E402
from verdicts import is_refuted, read_circuit, verdict  # noqa: E402
from program import built

LONGEST = 20
program = os.path.abspath(sys.argv[1]) if len(sys.argv) > 1 else built()
count = int(sys.argv[2]) if len(sys.argv) > 2 else 1000
draw = random.Random(int(sys.argv[3]) if len(sys.argv) > 3 else 1)

def run(folder, *words):
    """The status (-24 after so many seconds of processor time), the standard output and the standard error of the program."""
    limit = lambda: resource.setrlimit(resource.RLIMIT_CPU, (LONGEST, LONGEST + 1))
    try:
        done = subprocess.run([program, *words], cwd=folder, capture_output=True, timeout=60 * LONGEST, preexec_fn=limit)
    except subprocess.TimeoutExpired:
        return None, b"", b""
    return done.returncode, done.stdout, done.stderr


TOKEN = re.compile(rb"[A-Za-z_]\w*|\d+|\s+|.", re.S)
WORDS = [b"begin", b"end", b"if", b"else", b"case", b"endcase", b"<=", b"=", b"(", b")", b"[", b"]", b"{", b"}", b"4'd2", b"1'bx", b"@", b"*", b";", b"#", b"~", b"q", b"clk", b"128'h0",
         b"default", b":", b"?", b"signed", b"reg", b"wire", b"assign", b"always", b"posedge", b"module", b"endmodule", b"parameter", b"+:", b"**", b"/", b"\\x ", b"\n", b","]
NUMBERS = [b"0", b"1", b"2", b"3", b"7", b"-1", b"-", b"d", b"\n", b" ", b"4611686018427387904", b"9" * 30, b"00", b"x", b"\r\n", b"aag", b"c"]
CELLS = [b"x", b"", b"0b1x", b"0x", b"0xf", b"9" * 40, b"-1", b",", b"\n", b"\"", b"0b", b"16", b" ", b"\r", b"1_0", b"time", b"q"]


KINDS = [re.compile(it) for it in (rb"[A-Za-z_]\w*", rb"\d+", rb"[-+*&|^<>]", rb"[~!]")]


def alike(data):
    """One token in the place of another of its kind, so that the text may still be a good one."""
    parts = TOKEN.findall(data)
    for _ in range(draw.choice((1, 1, 2, 3))):
        kind = draw.choice(KINDS)
        places = [at for at, it in enumerate(parts) if kind.fullmatch(it)]
        if places:
            parts[draw.choice(places)] = parts[draw.choice(places)] if draw.random() < 0.7 else {1: b"1", 2: b"+", 3: b"~"}.get(KINDS.index(kind), b"q")
    return b"".join(parts)


def mutated(data, words):
    """Bytes or tokens changed, left out, doubled or exchanged, or the text cut."""
    if draw.random() < 0.05:
        return data[: draw.randrange(len(data) + 1)]
    if draw.random() < 0.5:
        return alike(data)
    if draw.random() < 0.4:
        parts = [bytes([it]) for it in data]
        new = lambda: bytes([draw.randrange(256)])
    else:
        parts = TOKEN.findall(data)
        new = lambda: draw.choice(words)
    for _ in range(draw.choice((1, 1, 1, 2, 5))):
        if not parts:
            break
        at, other = draw.randrange(len(parts)), draw.randrange(len(parts))
        kind = draw.randrange(5)
        if kind == 0:
            parts[at] = new()
        elif kind == 1:
            del parts[at]
        elif kind == 2:
            parts.insert(at, parts[other])
        elif kind == 3:
            parts[at], parts[other] = parts[other], parts[at]
        else:
            parts.insert(at, new())
    return b"".join(parts)


# What the expressions of a random design read: two inputs, two registers and words of a memory.
SEEN = ("a", "b", "q", "r", "mem[a]", "mem[b + 1]")


def expression(depth, names=SEEN):
    if depth == 0 or draw.random() < 0.25:
        return draw.choice((*names, *names, f"4'd{draw.randrange(16)}", f"{draw.randrange(20)}", f"4'sb{draw.randrange(16):b}", "a[1]", "b[2:1]", "a[b +: 2]", "a[3 -: 2]", "b[a]", "K"))
    inner = lambda: expression(depth - 1, names)
    part = lambda: draw.choice((*names, "2'd1", "a[0]"))
    plain = lambda: infix(draw, inner, [*INFIXES, *SHIFTS, "==="])
    divided = lambda: f"({inner()} {draw.choice('+-')} (K {draw.choice('/ % **'.split())} 2))"
    forms = (lambda form=form: form(draw, inner) for form in (prefix, conditional, cast))
    return one_of(draw, plain, plain, divided, inner, *forms, lambda: concatenation(draw, part), lambda: replication(draw, part))


def head(name, around):
    """The head of a loop of few turns, or of none, whose first value may be the name of a loop around."""
    first = draw.choice(("0", "1", "3", "K", *around))
    return draw.choice((f"({name} = {first}; {name} < {draw.randrange(5)}; {name} = {name} + {draw.choice('112')})", f"({name} = {first}; {name} >= 0; {name} = {name} - {draw.choice('12')})"))


def statement(depth, target="<=", around=()):
    """A statement in the loops of these names, of which each is that of its depth."""
    names = (*SEEN, *around, *around, *[f"mem[{name}]" for name in around])
    if depth == 0 or draw.random() < 0.35:
        places = (it for name in around for it in (f"q[{name}]", f"r[{name} + 1]", f"mem[{name}]"))
        left = draw.choice(("q", "r", "q", "r", "q[1:0]", "r[a]", "{q[0], r[0]}", "q[a +: 2]", "mem[a]", "mem[q]", "mem[3]", "{r[1], mem[b]}", *places))
        return f"{left} {target} {expression(2, names)};"
    inner = lambda: statement(depth - 1, target, around)
    form = draw.randrange(7)
    if form <= 1:
        return f"if ({expression(1, names)}) {inner()} else {inner()}"
    if form == 2:
        return f"if ({expression(1, names)}) {inner()}"
    if form == 3:
        return f"begin {inner()} {inner()} end"
    if form == 4:
        return f"for {head(f'i{depth}', around)} {statement(depth - 1, target, (*around, f'i{depth}'))}"
    word = draw.choice(("case", "casez", "casex"))
    labels = [f"4'b{''.join(draw.choice('01' if word == 'case' else '01?') for _ in range(4))}" for _ in range(2)]
    return f"{word} ({expression(1, names)}) {labels[0]}: {inner()} {labels[1]}, 4'd{draw.randrange(16)}: {inner()} default: {inner()} endcase"


def constant():
    """A constant of any width and sign, narrower or wider than what it is assigned to."""
    return draw.choice((f"4'd{draw.randrange(16)}", f"{draw.randrange(40)}", f"-{draw.randrange(1, 9)}", f"3'sb{draw.randrange(8):b}", f"4'd{draw.randrange(16)} + 4'd{draw.randrange(16)}", f"8'd{draw.randrange(256)} >> 1"))


def start():
    """The starting value of a declaration, or none."""
    return draw.choice(("", "", f" = {constant()}"))


def initial():
    """An `initial` item, or none."""
    assignments = lambda: "".join(f" {draw.choice(('q', 'r', 't', 'mem[2]', 'mem[K - 1]'))} = {constant()};" for _ in range(draw.randrange(1, 4)))
    return draw.choice(("", "", f"  initial {draw.choice('qr')} = {constant()};\n", f"  initial begin{assignments()} end\n", f"  initial for (i1 = {draw.randrange(4)}; i1 < 6; i1 = i1 + 1) mem[i1] = i1 + {constant()};\n"))


def bounds():
    """The bounds of a memory's indices."""
    return draw.choice(("[0:3]", "[0:7]", "[2:5]", "[K:0]", "[1:1]", "[3:15]"))


def with_macros(text):
    """The text with a macro in place of some literals, and with some drivers behind a conditional."""
    values = set()

    def named(found):
        if draw.random() < 0.6:
            return found[0]
        values.add(found[1])
        return f"`V{found[1]}"

    text = re.sub(r"4'd(\d+)", named, text)
    text = re.sub(r"  assign .*\n", lambda found: f"`ifdef SIMULATED\n  absent\n`else\n{found[0]}`endif\n" if draw.random() < 0.3 else found[0], text)
    return "".join(f"`define V{it} 4'd{it}\n" for it in sorted(values)) + text


def random_design():
    """A design of one clock with a combinational block, a driver, an instance and a clocked block, with starting values, loops, a memory and macros or without."""
    text = plain_design()
    return with_macros(text) if draw.random() < 0.3 else text


def plain_design():
    inner = ("module n #(parameter W = 4)(input [W-1:0] i, output [W-1:0] o);\n"
             f"  assign o = i {draw.choice('+ - ^ &'.split())} 4'd{draw.randrange(16)};\nendmodule\n")
    comb = draw.choice((f"  always @* t = {expression(2)};\n", f"  always @* begin t = 4'd{draw.randrange(16)}; if ({expression(1)}) t = {expression(1)}; end\n",
                        f"  always @(a or b or q) case ({draw.choice('abq')}) 4'd1: t = {expression(1)}; default: t = {expression(1)}; endcase\n"))
    clocked = draw.choice(("posedge clk", "posedge clk or negedge rst", "negedge clk"))
    return (inner + f"module m(input clk, input rst, input [3:0] a, input signed [3:0] b, output reg [3:0] q{start()}, output [3:0] y, output [3:0] z);\n  localparam K = 5;\n  integer i1, i2, i3;\n  reg [3:0] r{start()};\n  reg [3:0] t{start()};\n  reg {draw.choice(('[3:0]', 'signed [3:0]', ''))} mem {bounds()};\n{initial()}"
            f"  wire [3:0] w;\n  n {draw.choice(('', '#(.W(4)) ', '#(3) '))}u0(.i({draw.choice(('a', 'q', 'r', '{a[1:0], q[1:0]}'))}), .o(w));\n"
            f"  assign y = {expression(3, ('a', 'b', 'q', 'r', 'w', 't', 'mem[t]'))};\n  assign z = {expression(2, ('t', 'w', 'q'))};\n" + comb
            + f"  always @({clocked})\n    if ({draw.choice(('rst', '!rst'))}) begin q <= 4'd{draw.randrange(16)}; r <= 4'd{draw.randrange(16)}; end\n    else {statement(3)}\nendmodule\n")


def random_input(folder):
    """A random design, and a table of its run in which up to two cells are changed; or none where the run is refused."""
    rows = ["rst,a,b"] + [f"{int(i == 0)},{draw.randrange(16)},{draw.randrange(16)}" for i in range(draw.randrange(1, 9))]
    with open(f"{folder}/d.v", "w") as file:
        file.write(random_design())
    with open(f"{folder}/t.csv", "w") as file:
        file.write("\n".join(rows) + "\n")
    status, out, notes = run(folder, "run", "d.v", "t.csv")
    if status != 0:
        return status, out, notes
    lines = [line.split(",") for line in out.decode().splitlines()]
    for _ in range(draw.randrange(3)):
        row, column = draw.randrange(1, len(lines)), draw.randrange(3, len(lines[0]))
        lines[row][column] = draw.choice(("x", str(draw.randrange(16)), f"0b{draw.choice('01x')}{draw.choice('01x')}"))
    with open(f"{folder}/t.csv", "w") as file:
        file.write("".join(",".join(line) + "\n" for line in lines))
    return status, out, notes


def read(folder, name):
    with open(f"{folder}/{name}", "rb") as file:
        return file.read()


def judge_check(folder):
    """What is wrong with the check of c.aag and c.lrat, and what it ended with."""
    ended = run(folder, "check", "c.aag", "c.lrat")
    circuit, proof = read(folder, "c.aag"), read(folder, "c.lrat")
    if fault_of(*ended):
        return fault_of(*ended), ended
    if len(circuit) + len(proof) < 300_000 and verdict(circuit, proof) != ended:
        return f"check {ended} in place of {verdict(circuit, proof)}", ended
    if ended[0] == 0 and len(circuit) < 20_000 and read_circuit(circuit)[0] <= 8 and not is_refuted(circuit):
        return "accepted, and some input makes every output true", ended
    return None, ended


def judge_repair(folder):
    """What is wrong with the repair of d.v by t.csv, and its status."""
    words = ("repair", "d.v", "t.csv", "c", "--budget", str(draw.choice((1, 20, 500))), "--members", str(draw.randrange(1, 5)))
    status, out, notes = run(folder, *words)
    fault = fault_of(status, out, notes)
    if fault or status > 2:
        return fault, status
    names = [it for it in ("c.aag", "c.cnf", "c.lrat") if os.path.exists(f"{folder}/{it}")]
    if len(names) != (0 if notes == b"unchanged\n" else 3):
        return f"the files {names} at status {status}", status
    if names:
        fault, ended = judge_check(folder)
        due = (1, b"no empty clause\n", b"") if status == 2 else (0, b"accepted\n", b"")
        if fault or ended != due:
            return fault or f"check: {ended} at status {status}", status
    if status == 2 and (b"\nfound " in notes) != bool(out):
        return "a source and no `found`, or `found` and no source", status
    if status == 0 or out:
        if not names and out != read(folder, "d.v"):
            return "another source, unchanged", status
        with open(f"{folder}/r.v", "wb") as file:
            file.write(out)
        again = run(folder, "run", "r.v", "t.csv")
        table = read(folder, "t.csv").decode("utf-8", "replace")
        if again[0] != 0 or misses(table, again[1].decode()):
            return f"run of what was printed: {again[0]} {again[2][:100]!r}", status
    return None, status


def files(folder, *texts):
    for name, data in texts:
        with open(f"{folder}/{name}", "wb") as out:
            out.write(data)


def one(folder, examples, certificates):
    """What is wrong with one input, its status, and of which kind it is."""
    kind = draw.random()
    if kind < 0.35:
        ended = random_input(folder)
        if fault_of(*ended) or ended[0] != 0:
            return fault_of(*ended), ended[0], "run of a random design"
        return *judge_repair(folder), "repair of a random design"
    which = draw.randrange(3)
    if kind < 0.75:
        design, table = draw.choice(examples)
        files(folder, ("d.v", mutated(design, WORDS) if which != 1 else design), ("t.csv", mutated(table, CELLS) if which != 0 else table))
        command = draw.choice(("run", "sites", "lint", "repair", "repair"))
        if command == "repair":
            return *judge_repair(folder), command
        ended = run(folder, command, "d.v", *(["t.csv"] if command == "run" else []))
        return fault_of(*ended), ended[0], command
    circuit, proof = draw.choice(certificates)
    files(folder, ("c.aag", mutated(circuit, NUMBERS) if which != 1 else circuit), ("c.lrat", mutated(proof, NUMBERS) if which != 0 else proof))
    fault, ended = judge_check(folder)
    return fault, ended[0], "check"


def bases(room):
    """The designs and tables of examples/, and small certificates: that of examples/, and those of repairs."""
    examples, certificates = [], [tuple(read(f"{top}/examples/certificate", f"never.{it}") for it in ("aag", "lrat"))]
    for name in sorted(os.listdir(f"{top}/examples")):
        folder = f"{top}/examples/{name}"
        if not os.path.exists(f"{folder}/table.csv"):
            continue
        examples.append((read(folder, "design.v"), read(folder, "table.csv")))
        run(folder, "repair", "design.v", "table.csv", f"{room}/{name}")
        certificates.append(tuple(read(room, f"{name}.{it}") for it in ("aag", "lrat")))
    certificates.append((b"aag 1 1 0 2 0\n2\n2\n3\n", b"3 1 0 1 0\n4 d 1 0\n5 0 1 2 0\n"))
    return examples, [it for it in certificates if len(it[0]) < 100_000]


def main():
    counts, findings = {}, 0
    with tempfile.TemporaryDirectory() as room:
        examples, certificates = bases(room)
    for number in range(count):
        with tempfile.TemporaryDirectory() as folder:
            fault, status, kind = one(folder, examples, certificates)
            counts.setdefault(kind, {}).setdefault(status, 0)
            counts[kind][status] += 1
            if fault:
                findings += 1
                kept = tempfile.mkdtemp(prefix="fuzz-")
                subprocess.run(["cp", "-r", f"{folder}/.", kept])
                print(f"input {number}: {fault} (kept in {kept})", flush=True)
    for kind, statuses in sorted(counts.items()):
        print(f"{kind}: {sum(statuses.values())}, by status", ", ".join(f"{status}: {many}" for status, many in sorted(statuses.items(), key=str)))
    print(f"{count - findings} passed, {findings} failed")
    return 1 if findings else 0


if __name__ == "__main__":
    sys.exit(main())

#!/usr/bin/env python3
"""Compares runs of random designs with starting values, loops and memories with runs of Icarus Verilog, row by row. It is no part of the gate, and nothing of it is proved.

usage: tools/starts.py [PROGRAM] [--count N] [--seed N] [--unproved]

PROGRAM is crates/rtl_repair/out/rtl_repair where it is not given, N 500 designs and seed 1. With --unproved the program is compiled once without
its proofs, as by tools/preview, and run on all designs. A design has a module with up to three instances of another, which give its parameters
other values. Variables get starting values in the header, by `output reg` and `reg` among the items, by `initial` items, by two of these and
by none; the values are constant expressions of every operator, wider and narrower than the variable. Some variables are registers, some are
those of combinational blocks, whole or in part, and some are never assigned. All are outputs or drive one, so each row tells all values. Loops
stand in blocks of both kinds and in `initial` items, up and down, within one another and without a turn; each variable has two integers of its
own for them, since in Icarus a block that waits for an integer would run again where another block counts by it. Memories of one to nine words, in
either direction and from several lowest indices on, have words by `initial` items, by blocks of both kinds and by none, and are read and written by
indices of every kind, also outside of them; an output tells all words.

Icarus reads the same text but for three things: a variable or a word without a starting value gets 0, for that is the value of the two states that the program has,
each combinational block also waits for a signal of the bench, as `always @*` runs at no event of time 0, and where an index may be outside of a memory the text
asks for that, since Icarus reads x there and the program 0. The program has to print the bench's table, byte for byte. Each finding is printed and kept in a folder; the last line counts, and the status is 0 where there is none.
"""
import argparse, os, random, re, shutil, subprocess, sys, tempfile

from expressions import INFIXES, SHIFTS, cast, concatenation, conditional, infix, one_of, prefix, replication
from program import built

top = os.path.dirname(os.path.dirname(os.path.abspath(__file__)))
ROWS = 12
INPUTS = (("a", "[3:0]"), ("b", "signed [3:0]"), ("e", ""))
draw = random.Random()


# ---- expressions

def literal():
    width = draw.choice((1, 2, 3, 4, 4, 5, 8, 13))
    value = draw.randrange(1 << width)
    sign = draw.choice(("", "", "s"))
    return draw.choice((f"{width}'{sign}d{value}", f"{width}'{sign}b{value:b}", f"{width}'{sign}h{value:x}", f"{draw.randrange(9)}"))


def sized(names):
    """A part of a concatenation, which has at most 128 bits: no wide variable."""
    return draw.choice((f"4'd{draw.randrange(16)}", f"3'sb{draw.randrange(8):b}", *[it for it in names if not it.startswith("wide")]))


def expression(depth, names, is_constant):
    """An expression over names; where it is constant, also with the operators that take constants alone."""
    if depth == 0 or draw.random() < 0.2:
        return draw.choice((literal(), literal(), *names, *names))
    inner = lambda: expression(depth - 1, names, is_constant)
    part = lambda: sized(names)
    plain = lambda: infix(draw, inner, [*INFIXES, "+", "-"])
    shifted = lambda: f"({inner()} {draw.choice(SHIFTS)} {draw.randrange(5)})"
    divided = lambda: draw.choice((f"({inner()} / 4'd{draw.randrange(1, 16)})", f"({inner()} % {draw.randrange(1, 9)})", f"({inner()} ** {draw.randrange(4)})"))
    forms = [plain, plain, shifted, *(lambda form=form: form(draw, inner) for form in (prefix, conditional, cast)), *(lambda form=form: form(draw, part) for form in (concatenation, replication))]
    return one_of(draw, *forms, *([divided] if is_constant else []))


# ---- memories in texts

# What an index reads of a memory, as the texts of a design have it until they are written out.
READ = re.compile(r"⟪(\w+)\|([^⟪⟫]*)⟫")


def read(memory, index):
    return f"⟪{memory}|{index}⟫"


def by_name(names, index):
    """The memories among some names, read by an index."""
    return [read(it, index) for it in sorted({found[1] for found in map(READ.fullmatch, names) if found})]


# ---- variables

class Named:
    """What has two integers of its own for loops."""

    def loop(self, seen, body):
        """A loop over a statement that is made for the names that may stand in it, or two within one another."""
        name, inner = self.counters
        heads = lambda it, first: draw.choice((f"({it} = {first}; {it} < {draw.randrange(5)}; {it} = {it} + {draw.choice('12')})", f"({it} = {first}; {it} < W; {it} = {it} + 1)",
                                               f"({it} = {draw.choice(('3', 'W'))}; {it} >= 0; {it} = {it} - {draw.choice('12')})"))
        if draw.random() < 0.7:
            return f"for {heads(name, draw.choice(('0', '1', 'P')))} {body((*seen, name, name, *by_name(seen, name)), name)}"
        return f"for {heads(name, '0')} for {heads(inner, draw.choice(('0', name)))} {body((*seen, name, inner, *by_name(seen, inner)), draw.choice((name, inner)))}"


class Variable(Named):
    """A variable: its type, where it is declared, who assigns it, its starting value and those by `initial`."""

    def __init__(self, at, role, is_plain, constants):
        self.kind = draw.choice(("", "[3:0]", "[3:0]", "[0:3]", "[7:0]", "[W-1:0]", "signed [4:0]", "signed", "[39:0]", "[100:0]", "integer"))
        self.name, self.role = ("wide" if self.kind == "[100:0]" else "v") + str(at), role
        self.place = draw.choice(("inner", "inner", "header", "again" if is_plain else "header")) if self.kind != "integer" else "inner"
        value = lambda: expression(draw.randrange(4), constants, True)
        form = draw.choice(("value", "value", "value", "initial", "initial", "both", "none"))
        self.start = value() if form in ("value", "both") and self.kind != "integer" else None
        self.counters = (f"k{self.name}", f"n{self.name}")
        self.initials = [self.started(value, constants) for _ in range(draw.choice((1, 1, 2)))] if form in ("initial", "both") else []

    def started(self, value, constants):
        """The text of an `initial` assignment, or of a loop over one that has a turn."""
        if draw.random() < 0.7:
            return f"{self.name} = {value()};"
        name = self.counters[0]
        head = draw.choice((f"{name} = 0; {name} < W; {name} = {name} + 1", f"{name} = 3; {name} > 0; {name} = {name} - {draw.choice('12')}"))
        return f"for ({head}) {self.name} = {expression(draw.randrange(4), (*constants, name), True)};"

    def width(self, of_w):
        """The number of bits, where that is the value of the parameter W."""
        if self.kind == "integer":
            return 32
        found = re.search(r"\[(.*):(.*)\]", self.kind.replace("W-1", str(of_w - 1)))
        return abs(int(found[1]) - int(found[2])) + 1 if found else 1

    def declared(self, is_zeroed):
        """The name with the starting value."""
        zero = "0" if is_zeroed and not self.initials else None
        value = self.start or zero
        return self.name + (f" = {value}" if value else "")

    def has_parts(self):
        return self.kind in ("[3:0]", "[7:0]", "[39:0]", "signed [4:0]")


class Memory(Named):
    """A memory: the type of its words, the bounds of its indices, who assigns them, and what `initial` items set."""

    # Of each type of a word, the width of ten words, and the word 0.
    TYPES = {"": (10, "1'b0"), "[3:0]": (40, "4'd0"), "[0:3]": (40, "4'd0"), "signed [4:0]": (50, "5'sd0"), "[W-1:0]": (None, "{W{1'b0}}")}

    def __init__(self, at):
        self.name, self.role = f"m{at}", draw.choice(("clocked", "clocked", "combinational", "kept"))
        self.kind = draw.choice(list(self.TYPES))
        self.low, self.high = draw.choice((("0", "3"), ("0", "W-1"), ("1", "W"), ("2", "6"), ("0", "0"), ("7", "8")))
        self.bounds = draw.choice((f"[{self.low}:{self.high}]", f"[{self.low}:{self.high}]", f"[{self.high}:{self.low}]"))
        self.counters = (f"k{self.name}", f"n{self.name}")
        self.initials = [self.started() for _ in range(draw.randrange(4))] if self.role != "combinational" else []

    def started(self):
        """The text of an `initial` assignment to a word, within or outside, or of a loop over one."""
        name, value = self.counters[0], lambda *more: expression(draw.randrange(3), ("P", "K", "W", *more), True)
        if draw.random() < 0.5:
            return f"{self.name}[{draw.choice(('0', '1', '2', '3', '5', '8', 'W', 'W - 1', 'P'))}] = {value()};"
        head = draw.choice((f"{name} = 0; {name} < W; {name} = {name} + 1", f"{name} = {self.low}; {name} <= {self.high}; {name} = {name} + {draw.choice('112')}", f"{name} = 9; {name} >= 0; {name} = {name} - 1"))
        return f"for ({head}) {self.name}[{draw.choice((name, name, f'{name} + 1'))}] = {value(name, name)};"

    def index(self, names=()):
        """An index that has one width and one sign wherever it stands: a name, a select, a concatenation, a number or the name of a loop."""
        counters = [it for it in names if it[0] in "kn"]
        return draw.choice(("a", "a", "b", "e", "a[2:0]", "{e, a[1:0]}", "{a[1:0], e}", "{e, b}", str(draw.randrange(10)), "W", *counters, *counters, *[f"{it} {draw.choice('+-')} 1" for it in counters]))

    def reads(self):
        return [read(self.name, self.index()) for _ in range(2)]

    def declared(self):
        return f"reg {typed(self.kind)}{self.name} {self.bounds}"

    def shown(self):
        """The type of the output that tells the words of the indices 0 to 9, of which some may be none."""
        width = self.TYPES[self.kind][0]
        return f"[{width - 1}:0]" if width else "[10*W-1:0]"

    def width(self, of_w):
        return self.TYPES[self.kind][0] or 10 * of_w

    def told(self):
        return f"assign {self.name}_o = {{{', '.join(read(self.name, str(9 - it)) for it in range(10))}}};"

    def written(self, found, is_zeroed):
        """What reads a word, as the program or as Icarus reads it."""
        word = f"{self.name}[{found}]"
        return f"(({found}) >= {self.low} && ({found}) <= {self.high} ? {word} : {self.TYPES[self.kind][1]})" if is_zeroed else word

    def zeroed(self):
        name = self.counters[0]
        return f"initial for ({name} = {self.low}; {name} <= {self.high}; {name} = {name} + 1) {self.name}[{name}] = 0;"

    def clocked(self, seen):
        """A statement of a clocked block that writes words."""
        value = lambda: expression(draw.randrange(3), seen, False)
        form = draw.randrange(5)
        if form == 0:
            return f"{self.name}[{self.index()}] <= {value()};"
        if form == 1:
            return f"if ({value()}) {self.name}[{self.index()}] <= {value()}; else {self.name}[{self.index()}] <= {value()};"
        if form == 2:
            return f"case ({value()}) 4'd1: {self.name}[{self.index()}] <= {value()}; 4'd2, 4'd3: ; default: {self.name}[{self.index()}] <= {value()}; endcase"
        if form == 3:
            return self.loop(seen, lambda names, name: f"if ({expression(1, names, False)}) {self.name}[{self.index((name,))}] <= {expression(draw.randrange(3), names, False)};")
        return f"if ({value()}) {self.name}[{self.index()}] <= {value()};"

    def combinational(self, seen):
        """The statements of a combinational block, which first writes each word."""
        name = self.counters[0]
        own = (*seen, *self.reads())
        value = lambda names: expression(draw.randrange(3), names, False)
        texts = [f"for ({name} = {self.low}; {name} <= {self.high}; {name} = {name} + 1) {self.name}[{name}] = {value((*seen, name, *by_name(seen, name)))};"]
        texts += [draw.choice((f"{self.name}[{self.index()}] = {value(own)};", f"if ({value(own)}) {self.name}[{self.index()}] = {value(own)};")) for _ in range(draw.randrange(3))]
        return " ".join(texts)


def typed(kind):
    return f"{kind} " if kind else ""


def initial_items(named):
    """The `initial` items of a module, in their order."""
    pairs = [(it, value) for it in named for value in it.initials]
    draw.shuffle(pairs)
    items = []
    while pairs:
        count = draw.randrange(1, 4)
        some, pairs = pairs[:count], pairs[count:]
        texts = [text for _, text in some]
        if len(texts) > 1 or draw.random() < 0.3:
            cut = draw.randrange(len(texts) + 1)
            inner = f"begin {' '.join(texts[cut:])} end" if draw.random() < 0.3 else " ".join(texts[cut:])
            texts = ["begin", *texts[:cut], draw.choice(("", ";")), inner, "end"]
        items.append("initial " + " ".join(it for it in texts if it))
    return items


# ---- blocks

def clocked_statement(it, seen):
    if isinstance(it, Memory):
        return it.clocked(seen)
    value = lambda: expression(draw.randrange(3), seen, False)
    form = draw.randrange(7)
    if form == 0:
        return f"{it.name} <= {value()};"
    if form == 6:
        target = lambda name: f"{it.name}[{name}]" if it.has_parts() and draw.random() < 0.5 else it.name
        return it.loop(seen, lambda names, name: f"if ({expression(1, names, False)}) {target(name)} <= {expression(draw.randrange(3), names, False)};")
    if form == 1:
        return f"if ({value()}) {it.name} <= {value()};"
    if form == 2:
        return f"if ({value()}) {it.name} <= {it.name} + 4'd1; else {it.name} <= {value()};"
    if form == 3 and it.has_parts():
        return f"{it.name}[{draw.choice(('0', '2:1', '3', '1 +: 2'))}] <= {value()};"
    labels = [draw.randrange(16) for _ in range(3)]
    arms = " ".join(f"4'd{label}: {it.name} <= {value()};" for label in labels)
    return f"case ({it.name}) {arms} {draw.choice(('', f'default: {it.name} <= {value()};'))} endcase"


def combinational_body(it, seen):
    if isinstance(it, Memory):
        return it.combinational(seen)
    value = lambda: expression(draw.randrange(3), seen, False)
    if draw.random() < 0.3:
        target = lambda name: draw.choice((f"{it.name}[{name}]", f"{it.name}[{name} +: 2]")) if it.has_parts() and draw.random() < 0.5 else it.name
        return f"{it.name} = {value()}; " + it.loop((*seen, it.name), lambda names, name: f"{target(name)} = {expression(draw.randrange(3), names, False)};")
    if it.has_parts() and draw.random() < 0.4:
        return f"{it.name}[{draw.choice(('1', '2:1', '0 +: 3'))}] = {value()};"
    return f"{it.name} = {value()}; if ({value()}) {it.name} = {value()};"


def names_of(it):
    """What reads a variable, or words of a memory."""
    return it.reads() if isinstance(it, Memory) else [it.name]


def blocks(named, edge):
    """The `always` blocks of a module, each with whether it is combinational."""
    clocked = [it for it in named if it.role == "clocked"]
    fixed = [name for it in named if it.role != "combinational" for name in names_of(it)]
    found, cut = [], draw.randrange(len(clocked) + 1)
    for some in (clocked[:cut], clocked[cut:]):
        if some:
            texts = " ".join(clocked_statement(it, ("a", "b", "e", *[name for o in named for name in names_of(o)])) for it in some)
            found.append((f"always @({edge} clk) begin {texts} end", False))
    seen = ["a", "b", "e", *fixed]
    for it in named:
        if it.role == "combinational":
            found.append((combinational_body(it, seen), True))
            seen.extend(names_of(it))
    return found


# ---- modules

class Module:
    """A module: its variables, and its items but for the declarations, in their order."""

    def __init__(self, name, edge, instances):
        self.name, self.is_plain = name, draw.random() < 0.4
        self.defaults = (draw.choice(("3", "-2", "4'sd9", "8'd200")), draw.randrange(1, 9))
        # Without a clocked block there is no clock.
        roles = ["clocked"] + [draw.choice(("clocked", "clocked", "combinational", "kept")) for _ in range(draw.randrange(6))]
        self.variables = [Variable(at, role, self.is_plain, ("P", "K", "W")) for at, role in enumerate(roles)]
        self.memories = [Memory(at) for at in range(draw.choice((0, 0, 1, 1, 2)))]
        self.instances = instances
        named = self.variables + self.memories
        draw.shuffle(named)
        texts = [(it, False) for it in initial_items(named)]
        others = blocks(named, edge) + [(f"assign {it.name}_o = {it.name};", False) for it in self.variables if it.place == "inner"]
        others += [(it.told(), False) for it in self.memories] + [(text, False) for text, _ in instances]
        for it in others:
            texts.insert(draw.randrange(len(texts) + 1), it)
        self.items = texts

    def outputs(self):
        """Each output port: its name, its type, and its variable, if it is one."""
        own = [(it.name, it.kind, it) if it.place != "inner" else (f"{it.name}_o", "[31:0]" if it.kind == "integer" else it.kind.replace("signed", "").strip(), None) for it in self.variables]
        own += [(f"{it.name}_o", it.shown(), None) for it in self.memories]
        return own + [port for _, ports in self.instances for port in ports]

    def ports(self, is_zeroed):
        """The text up to the first item, with the port declarations."""
        head = f"module {self.name} #(parameter P = {self.defaults[0]}, parameter W = {self.defaults[1]})("
        inputs = [f"input {typed(kind)}{name}" for name, kind in (("clk", ""), *INPUTS)]
        if not self.is_plain:
            outputs = [f"output reg {typed(kind)}{it.declared(is_zeroed)}" if it else f"output {typed(kind)}{name}" for name, kind, it in self.outputs()]
            return head + ", ".join(inputs + outputs) + ");\n"
        names = ["clk", *[name for name, _ in INPUTS], *[name for name, _, _ in self.outputs()]]
        lines = [f"  {it};\n" for it in inputs]
        for name, kind, it in self.outputs():
            again = it and it.place == "again"
            lines.append(f"  output reg {typed(kind)}{it.declared(is_zeroed)};\n" if it and not again else f"  output {typed(kind)}{name};\n")
            lines.extend([f"  reg {typed(kind)}{it.declared(is_zeroed)};\n"] if again else [])
        return head + ", ".join(names) + ");\n" + "".join(lines)

    def text(self, is_zeroed):
        """The module, as the program or as Icarus reads it."""
        lines = [self.ports(is_zeroed), "  localparam K = P + 3;\n"]
        for it in self.variables:
            if it.place == "inner":
                lines.append(f"  {'integer' if it.kind == 'integer' else 'reg ' + it.kind} {it.declared(is_zeroed)};\n")
            lines.append(f"  integer {', '.join(it.counters)};\n")
        for it in self.memories:
            lines.append(f"  {it.declared()};\n  integer {', '.join(it.counters)};\n" + (f"  {it.zeroed()}\n" if is_zeroed else ""))
        for text, is_combinational in self.items:
            wait = "if (bench.tick) ; " if is_zeroed else ""
            lines.append(f"  always @* begin {wait}{text} end\n" if is_combinational else f"  {text}\n")
        named = {it.name: it for it in self.memories}
        return READ.sub(lambda found: named[found[1]].written(found[2], is_zeroed), "".join(lines)) + "endmodule\n"


def instance(inner, at):
    """The text of an instance of a module, and the ports of the outer one for its outputs."""
    p, w = draw.choice(("5", "-1", "4'sd12", "6'd33")), draw.randrange(1, 9)
    form = draw.randrange(4)
    settings = ("", f"#({p}) ", f"#(.P({p}), .W({w})) ", f"#(.W({w})) ")[form]
    of_w = w if form >= 2 else inner.defaults[1]
    ports, pairs = [], [f".{name}({name})" for name in ("clk", *[name for name, _ in INPUTS])]
    for (name, _, _), it in zip(inner.outputs(), inner.variables + inner.memories):
        width = it.width(of_w)
        ports.append((f"u{at}_{name}", f"[{width - 1}:0]" if width > 1 else "", None))
        pairs.append(f".{name}(u{at}_{name})")
    return f"n {settings}u{at}({', '.join(pairs)});", ports


def random_design():
    """The modules of a design, the inner one first, and the edge of its clock."""
    edge = draw.choice(("posedge", "posedge", "negedge"))
    inner = Module("n", edge, [])
    return [inner, Module("m", edge, [instance(inner, at) for at in range(draw.randrange(4))])], edge


# ---- runs

def random_table():
    """Rows of inputs."""
    return [(draw.randrange(16), draw.randrange(16), draw.randrange(2)) for _ in range(ROWS)]


def table_text(rows):
    return "".join(",".join(str(it) for it in row) + "\n" for row in [("a", "b", "e"), *rows])


def bench(outer, edge, rows):
    """A bench that prints the table of a run: the values before each clock edge."""
    outputs = outer.outputs()
    width = {it.name if it.place != "inner" else f"{it.name}_o": it.width(outer.defaults[1]) for it in outer.variables}
    width |= {f"{it.name}_o": it.width(outer.defaults[1]) for it in outer.memories}
    wires = "".join(f"  wire [{width[name] - 1}:0] {name};\n" if name in width else f"  wire {typed(kind)}{name};\n" for name, kind, _ in outputs)
    ports = ["clk", *[name for name, _ in INPUTS], *[name for name, _, _ in outputs]]
    shown = [name for name in ports if name != "clk"]
    before = 0 if edge == "posedge" else 1
    lines = [f"    a = {a}; b = {b}; e = {e}; tick = 1;\n    #1 $display(\"{','.join(['%0d'] * len(shown))}\", {', '.join('{' + it + '}' for it in shown)});\n    clk = {1 - before}; #1 clk = {before}; #1 ;\n" for a, b, e in rows]
    return (f"module bench;\n  reg clk = {before}, tick = 0, e;\n  reg [3:0] a, b;\n{wires}  m dut({', '.join(f'.{it}({it})' for it in ports)});\n"
            f"  initial begin\n    $display(\"{','.join(shown)}\");\n    #1 ;\n{''.join(lines)}    $finish;\n  end\nendmodule\n")


def icarus(folder, modules, edge, rows):
    """The table that Icarus makes of a design."""
    with open(f"{folder}/bench.v", "w") as file:
        file.write("".join(it.text(True) for it in modules) + bench(modules[-1], edge, rows))
    for words in (["iverilog", "-g2005", "-gstrict-expr-width", "-s", "bench", "-o", "bench.vvp", "bench.v"], ["vvp", "-n", "bench.vvp"]):
        done = subprocess.run(words, cwd=folder, capture_output=True, text=True)
        if done.returncode:
            raise RuntimeError(f"{words[0]}: {done.stdout[-200:]}{done.stderr[-400:]}")
    return done.stdout


def made(folder, count):
    """Designs in a folder, each in a file beside the table that is due, and the table of their inputs."""
    rows, room = random_table(), tempfile.mkdtemp()
    for number in range(count):
        modules, edge = random_design()
        with open(f"{folder}/d{number}.v", "w") as file:
            file.write("".join(it.text(False) for it in modules))
        with open(f"{folder}/d{number}.v.stdout", "w") as file:
            file.write(icarus(room, modules, edge, rows))
    shutil.rmtree(room)
    return table_text(rows)


def unproved(folder, table):
    """The runs of the program without its proofs, which prints its own findings."""
    call = ["rt", "try", "--seconds", "60", "--data", f"t.csv={table}", "--cases", folder, "--", "run", "{}", "t.csv"]
    return subprocess.run(call, cwd=f"{top}/crates/rtl_repair").returncode


def main():
    words = argparse.ArgumentParser(usage="tools/starts.py [PROGRAM] [--count N] [--seed N] [--unproved]")
    words.add_argument("program", nargs="?")
    words.add_argument("--count", type=int, default=500)
    words.add_argument("--seed", type=int, default=1)
    words.add_argument("--unproved", action="store_true")
    told = words.parse_args()
    absent = [it for it in ("iverilog", "vvp") if not shutil.which(it)]
    if absent:
        print(f"absent: {', '.join(absent)}")
        return 1
    draw.seed(told.seed)
    folder, room, failed = tempfile.mkdtemp(prefix="starts-"), tempfile.mkdtemp(prefix="starts-table-"), 0
    with open(f"{room}/t.csv", "w") as file:
        file.write(made(folder, told.count))
    if told.unproved:
        return unproved(folder, f"{room}/t.csv")
    program = os.path.abspath(told.program) if told.program else built()
    for number in range(told.count):
        with open(f"{folder}/d{number}.v.stdout") as file:
            due = file.read()
        done = subprocess.run([program, "run", f"d{number}.v", f"{room}/t.csv"], cwd=folder, capture_output=True, text=True)
        if (done.returncode, done.stdout, done.stderr) != (0, due, ""):
            failed += 1
            print(f"design {number}: status {done.returncode} {done.stderr.strip()} (kept as {folder}/d{number}.v)", flush=True)
    if not failed:
        shutil.rmtree(folder)
        shutil.rmtree(room)
    print(f"{told.count - failed} passed, {failed} failed")
    return 1 if failed else 0


if __name__ == "__main__":
    sys.exit(main())

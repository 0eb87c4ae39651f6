#!/usr/bin/env python3
"""Runs the program on inputs at and beyond its limits, and prints what each takes. It is no part of the gate.

usage: tools/limits.py [PROGRAM] [--seconds S] [--only WORD] [--quiet] [--large]

PROGRAM is crates/rtl_repair/out/rtl_repair where it is not given. Each line is one input: the command, the status, what stands on standard
error, the seconds of processor time, the mebibytes, and how the time grew from half the input, where that is told (1 is linear, 2 is quadratic). An input fails where it takes more
than S seconds of processor time (10 where not given; repairs, which search in four threads, six times as many), where it ends by a signal, or where status and text are not those that are due.
Last come a circuit and a proof, cut at each byte and with each byte changed, whose verdicts are those of tools/verdicts.py.
--only takes the inputs whose name has the word, --quiet prints those alone that take long, grow or fail; --large adds circuits and proofs up to 2^28 and 2^30
bytes and repairs at the limit of work, which want some minutes and 12 GiB.
"""
import argparse, math, os, resource, signal, subprocess, sys, tempfile, time

top = os.path.dirname(os.path.dirname(os.path.abspath(__file__)))
sys.path.insert(0, f"{top}/tools")
from endings import fault_of  # noqa: E402
from verdicts import verdict  # noqa: E402

from program import built

MEBI = 1 << 20


def peak(pid):
    """The most kibibytes that a running process has held so far. (What the system tells at its end counts what its parent held.)"""
    try:
        with open(f"/proc/{pid}/status") as file:
            return next((int(line.split()[1]) for line in file if line.startswith("VmHWM")), 0)
    except OSError:
        return 0


def timed(words, folder, seconds):
    """The status, the two outputs, the seconds of processor time and the mebibytes of a command; status None where it was ended after more."""
    with open(f"{folder}/out", "wb") as out, open(f"{folder}/err", "wb") as err:
        begun, most = time.monotonic(), 0
        limit = lambda: resource.setrlimit(resource.RLIMIT_CPU, (int(seconds) + 1, int(seconds) + 2))
        child = subprocess.Popen(words, cwd=folder, stdin=subprocess.DEVNULL, stdout=out, stderr=err, preexec_fn=limit)
        while True:
            most = max(most, peak(child.pid))
            pid, status, used = os.wait4(child.pid, os.WNOHANG)
            if pid:
                break
            time.sleep(0.001 if time.monotonic() - begun < 1 else 0.01)
        child.returncode = status = os.waitstatus_to_exitcode(status)
    read = lambda name: open(f"{folder}/{name}", "rb").read(MEBI)
    taken = used.ru_utime + used.ru_stime
    return None if -status in (signal.SIGXCPU, signal.SIGKILL) else status, read("out"), read("err"), taken, most / 1024


# Designs. Each is a function of a size, so that the growth of the time can be seen.

def module(items, ports="input a, output y"):
    return f"module m({ports});\n{items}\nendmodule\n"


def nested(before, inner, after):
    """An expression or statement of so many levels."""
    return lambda n: before * n + inner + after * n


def comb(text):
    return lambda n: module(f"always @* {text(n)}", "input a, output reg y")


def clocked(text):
    return lambda n: module(f"always @(posedge clk) {text(n)}", "input clk, input a, output reg y")


# Expressions and statements within one another: the design, and how many levels one of them is.
EXPRESSIONS = {
    "brackets": ("(", ")", 1),
    "negations": ("~", "", 1),
    "logical not": ("!", "", 1),
    "sums to the right": ("(a + ", ")", 2),
    "sums to the left": ("(", " + a)", 2),
    "comparisons to the right": ("(a == ", ")", 2),
    "comparisons to the left": ("(", " < a)", 2),
    "logical and": ("(a && ", ")", 2),
    "logical or": ("(", " || a)", 2),
    "shifts by shifts": ("(a << ", ")", 2),
    "shifts of shifts": ("(", " >>> a)", 2),
    "choices by choices": ("(", " ? a : ~a)", 2),
    "choices in choices": ("(a ? ~a : ", ")", 2),
    "concatenations": ("{", "}", 1),
    "replications": ("{1{", "}}", 1),
    "reductions": ("&(", ")", 2),
    "casts": ("$signed(", ")", 1),
    "selects": ("v[", "]", 1),
    "indexed parts": ("v[", "+:1]", 1),
}
ONE, WORD = "1'b1", "wire [1:0] v = {a, a};"
DEPTH = {name: (lambda n, it=it: module(f"{WORD} assign y = {nested(it[0], 'a', it[1])(n // it[2])};")) for name, it in EXPRESSIONS.items()}
DEPTH |= {
    "constant powers": lambda n: module(f"assign y = {nested('(1 ** ', '1', ')')(n // 2)};"),
    "bounds within bounds": lambda n: module(f"localparam [1:0] P = 0; assign y = {nested('P[', '0', ':0]')(n)};"),
    "bases within bases": lambda n: module(f"localparam [1:0] P = 1; assign y = {nested('P[0 +: ', '1', ']')(n)};"),
    "counts within counts": lambda n: module(f"assign y = {nested('{', ONE, '{' + ONE + '}}')(n)};"),
    "bounds of parts": lambda n: module(f"{WORD} assign y = v[{nested('(0 + ', '0', ')')(n // 2)}:0];"),
    "if": comb(nested("if (a) ", "y = 1'b0;", " else y = 1'b1;")),
    "else if": comb(nested("if (a) y = 1'b0; else ", "y = 1'b1;", "")),
    "if without else": clocked(nested("if (a) ", "y <= a;", "")),
    "begin": comb(nested("begin ", "y = a;", " end")),
    "case": comb(lambda n: nested("case (a) 1'b0: y = 1'b0; default: ", "y = 1'b1;", " endcase")(n // 2)),
    "loops": lambda n: module("integer " + ",".join(f"i{k}" for k in range(n)) + ";always @* " + "".join(f"for(i{k}=0;i{k}<0;i{k}=i{k}+1)" for k in range(n)) + "y=a;", "input a, output reg y"),
    "begin, if and case": comb(lambda n: nested("begin if (a) case (a) default: ", "y = a;", " endcase else y = a; end")(n // 4)),
    "targets": comb(lambda n: nested("{", "y", "}")(n) + " = a;"),
}


def many(name):
    """A source of about so many bytes of expressions of 480 levels each."""
    before, after, levels = EXPRESSIONS[name]
    text = nested(before, "a", after)(480 // levels)
    return lambda size: module(WORD + "".join(f"wire z{i} = {text};" for i in range(max(1, size // (len(text) + 12)))) + "assign y = a;")


def chain(levels, fan=1):
    """Levels of modules, each with an instance of the next, and the top with so many of the second."""
    text = "module m1(input a, output y); assign y = ~a; endmodule\n"
    for level in range(2, levels + 1):
        text += f"module m{level}(input a, output y); m{level - 1} u(.a(a), .y(y)); endmodule\n"
    return text


def instances(count):
    """A top with one instance fewer than that, one behind the other."""
    wires = "".join(f"wire w{i};" for i in range(1, count))
    calls = "".join(f"n u{i}(.a({'a' if i == 1 else f'w{i - 1}'}), .y(w{i}));\n" for i in range(1, count))
    return f"module n(input a, output y); assign y = ~a; endmodule\nmodule m(input a, output y); {wires}\n{calls}assign y = w{count - 1};\nendmodule\n"


def wide_instances(named):
    def design(count):
        ports = [f"p{i}" for i in range(250)]
        inner = f"module n({', '.join('input ' + it for it in ports)}); endmodule\n"
        joined = ", ".join(f".{it}(a)" for it in reversed(ports)) if named else ", ".join("a" for _ in ports)
        calls = "".join(f"n u{i}({joined});\n" for i in range(count - 1))
        return inner + f"module m(input a, output y); assign y = a;\n{calls}endmodule\n"

    return design


def overridden(count):
    """Instances with parameters that are overridden by name."""
    inner = "module n #(" + ", ".join(f"parameter P{i} = {i}" for i in range(60)) + ")(input a); endmodule\n"
    calls = "".join("n #(" + ", ".join(f".P{i}({i})" for i in reversed(range(60))) + f") u{k}(a);\n" for k in range(count - 1))
    return inner + f"module m(input a, output y); assign y = a;\n{calls}endmodule\n"


def bits(width):
    """Wires of that width up to 65,536 bits, the two ports included."""
    def design(total):
        wires = ["a", "y"]
        text, left, number = "", total - 2, 0
        while left:
            part = min(width, left)
            text += f"wire [{part - 1}:0] w{number};" if part > 1 else f"wire w{number};"
            left, number = left - part, number + 1
        return module(text + "assign y = a;")

    return design


def wires_in_a_row(order):
    def design(count):
        names = list(range(1, count + 1))
        if order == "backward":
            names.reverse()
        declared = "wire " + ",".join(f"w{i}" for i in range(count + 1)) + ";"
        return module(declared + "assign w0=a;assign y=w%d;" % count + "".join(f"assign w{i}=w{i - 1};" for i in names))

    return design


def loop(count):
    declared = "wire " + ",".join(f"w{i}" for i in range(count)) + ";"
    return module(declared + "assign y=a;" + "".join(f"assign w{i}=~w{(i + 1) % count};" for i in range(count)))


def ripple(count):
    """Words of 128 bits, each driven bit by bit by the word before."""
    return module("".join(f"wire [127:0] v{i};" for i in range(count)) + "assign v0=128'd5;assign y=a;" + "".join(f"assign v{i}[{k}]=v{i - 1}[{k}]^a;" for i in range(1, count) for k in range(128)))


def words_in_a_row(count):
    """Wide wires, each driven by the whole of the one before."""
    return module("".join(f"wire [127:0] v{i};" for i in range(count)) + "assign v0={128{a}};assign y=^v%d;" % (count - 1) + "".join(f"assign v{i}=v{i - 1};" for i in range(1, count)))


def wide_wiring(count):
    """A driver whose right side is a concatenation of so many single bits, for each of some words."""
    return module("".join(f"wire [127:0] v{i};" for i in range(count)) + "assign v0={128{a}};assign y=^v%d;" % (count - 1)
                  + "".join(f"assign v{i}={{{','.join(f'v{i - 1}[{k}]' for k in range(128))}}};" for i in range(1, count)))


def wide_words(count):
    return module("".join(f"wire [127:0] v{i};" for i in range(count)) + "assign v0={128{a}};assign y=^v%d;" % (count - 1) + "".join(f"assign v{i}=v{i - 1}+128'd1;" for i in range(1, count)))


def blocks(count):
    return module("reg " + ",".join(f"r{i}" for i in range(count)) + ";assign y=r%d;" % (count - 1) + "".join(f"always @* r{i}={'a' if i == 0 else f'r{i - 1}'};" for i in range(count)))


def one_block(before, each, after):
    def design(count):
        return module("reg " + ",".join(f"r{i}" for i in range(count)) + ";assign y=r0;always @(posedge clk) begin " + before + "".join(each(i) for i in range(count)) + after + " end", "input clk, input a, output y")

    return design


def comb_block(each):
    def design(count):
        return module("reg " + ",".join(f"r{i}" for i in range(count)) + ";assign y=r0;always @* begin " + "".join(f"r{i}=a;" for i in range(count)) + "".join(each(i, count) for i in range(count)) + " end")

    return design


def turns(body):
    """A loop of so many turns."""
    return lambda count: module(f"integer i,j;always @* begin y=a;for(i=0;i<{count};i=i+1){body} end", "input a, output reg y")


def loops(count):
    """Loops behind one another, of one turn each."""
    return module("integer i;always @* begin y=a;" + "for(i=0;i<1;i=i+1)y=y^a;" * count + " end", "input a, output reg y")


def words(count):
    """Memories of 256 words of a bit."""
    return module("reg " + ",".join(f"r{i} [0:255]" for i in range(count)) + ";assign y=a;")


def memory(text):
    """A memory of 256 words, of which the width and what writes and reads it stand in a text."""
    return lambda count: module(text(count), "input clk, input [7:0] i, output y")


def writes_of_words(width):
    return memory(lambda count: f"reg [{width - 1}:0] q [0:255];assign y=q[0];always @(posedge clk) begin " + "q[i]<=~q[i];" * count + " end")


def reads_of_words(count):
    return memory(lambda count: "reg [7:0] q [0:255];always @(posedge clk) q[i]<=~q[i];" + "".join(f"wire [7:0] w{k}=q[{f'w{k - 1}' if k else 'i'}];" for k in range(count)) + f"assign y=w{count - 1};")(count)


def moved_words(count):
    """A loop that moves so many words by one."""
    return memory(lambda n: f"reg [7:0] q [0:255];integer k;assign y=q[{n - 1}];always @(posedge clk) begin q[0]<=i;for(k=1;k<{n};k=k+1)q[k]<=q[k-1];end")(count)


def latches(count):
    """Ifs in sequence, each of which assigns one variable on one path; the last keeps none."""
    return module("reg " + ",".join(f"r{i}" for i in range(count)) + ";assign y=r0;always @* begin " + "".join(f"if (a) r{i}=a; else r{i}=~a;" for i in range(count)) + " end")


def filled(before, each, after=" endmodule\n"):
    """A source of so many bytes at the most: one text again and again between two others."""
    return lambda size: before + each * ((size - len(before) - len(after)) // len(each)) + after


def kept_names(count):
    return module("reg " + ",".join(f"r{i}" for i in range(count)) + ";assign y=a;always @* if (a) begin " + "".join(f"r{i}<=a;" for i in range(count)) + " end")


# Sources for `lint`: what is between `begin` and `end` of a combinational block, and sources of many blocks.
KEEPING = {name: filled("module m(input a, input e, input [6:0] i, output reg y); reg z, w; reg [127:0] v; reg t [0:1]; integer k; always @* begin ", each, " w=a; v=a; end endmodule\n") for name, each in {
    "assignments to one name": "y<=a;",
    "ifs": "if(e)y<=y;",
    "loops": "for(k=0;k<1;k=k+1)if(e)y<=y;",
    "words": "t[0]=a;t[1]=y;y<=t[i];",
    "alternatives": "if(z)y=w;else z=y;",
    "alternatives within one another": "if(z)y=w;else " * 400 + "z=y;",
    "ifs within one another": "if(z)" * 400 + "y=w;" + "else z=y;" * 400,
    "arms": "case(z)w:y=z;a:z<=y;endcase ",
    "early reads of a long word": "y=v" + "^v" * 400 + ";",
    "early reads of its bits": "v[i]=v[i];",
    "targets in braces": "if(e){y,z,w,v[3:0]}<=v;",
}.items()}
CALLS = "module m(input a, output y); assign y=a; " + "".join(f"n u{i}(a);" for i in range(255))
KEEPING |= {
    "blocks": filled("module m(input a, output reg y);", "always @*if(a)y<=y;"),
    "blocks that keep a long word": filled("module m(input a, output reg [127:0] y);", "always @*if(a)y<=a;"),
    "a name of 2,000 letters": filled(f"module m(input a, output y); assign y=a; reg {'q' * 2000}; always @* begin ", f"if(a){'q' * 2000}<=a;", " end endmodule\n"),
}


def arms(count):
    return module("always @* case (a) " + "".join(f"32'd{i}: y=1'b0;" for i in range(count)) + "default: y=1'b1; endcase", "input [31:0] a, output reg y")


def labels(count):
    return module("always @* case (a) " + ",".join(f"32'd{i}" for i in range(count)) + ": y=1'b0; default: y=1'b1; endcase", "input [31:0] a, output reg y")


def updates(count):
    return module("always @(posedge clk) begin " + "q[i] <= ~q[i];" * count + " end assign y=q[0];", "input clk, input [6:0] i, output y").replace(");\n", ");reg [127:0] q;\n", 1)


def header(count):
    """Names in the port brackets that the items declare."""
    names = [f"p{i}" for i in range(count)]
    return f"module m({','.join(names)});" + "".join(f"input {it};" for it in reversed(names)) + "endmodule\n"


def parameters(count):
    return module("localparam p0=1;" + "".join(f"localparam p{i}=p{i - 1}+1;" for i in range(1, count)) + "assign y=a;")


def modules(count):
    return "".join(f"module m{i};endmodule " for i in range(count))


def unused(count):
    """Modules that instantiate one another, none of which is the top's."""
    return "".join(f"module m{i}(input a);m{max(i - 1, 0)} u(a);endmodule " for i in range(1, count)) + "module m0(input a);endmodule module top(input a, output y);assign y=a;endmodule "


NAMES = [f"g{i}" for i in range(70)]


def guards(count):
    """Conditions, each a site, with names enough for all guards."""
    ports = ", ".join(f"input {it}" for it in NAMES)
    return module("always @(posedge clk) begin " + "".join(f"if (g{i % 70}) y<=g{(i + 1) % 70};" for i in range(count)) + " end", f"input clk, {ports}, output reg y")


def guard_table(count):
    return ",".join(NAMES) + ",y\n" + "".join(",".join(str((row * 7 + i * i) % 3 % 2) for i in range(70)) + f",{row % 2}\n" for row in range(3))


# Sources of one token over and over.

TOKENS = [
    '(', ')', '[', ']', '{', '}', ',', ';', ':', '.', '#', '#(', '@', '@*', '@(', '?', '=', '+', '-', '*', '/ ', '%', '!', '~', '&', '|', '^', '<',
    '>', '** ', '==', '!==', '<=', '>>>', '&&', '~&', '+:', 'a ', 'a,', 'a=', 'a?', 'a:', 'a[', '(a', '{a,', 'a.', '\\a ', '$a ', '$signed(', '1 ',
    "1'b1 ", "1'b1?", "8'hff,", "32'd4294967295 ", "'", "1'", '/*', '*/', '//', '//\n', '(*', '(* *)', '*)', '`resetall\n', '`a ', 'module ',
    'module m;', 'module m;endmodule ', 'module m(', 'endmodule ', 'begin ', 'end ', 'if ', 'if(a)', 'if(a) begin ', 'else ', 'case ', 'case(a)',
    'endcase ', 'default: ', 'always ', 'always @* ', 'assign ', 'assign a=', 'wire ', 'wire a;', 'reg a,', 'reg a [0:1];', 'a [0:1],', 'input ', 'input a,', 'posedge a ', 'or ',
    'parameter ', 'parameter a=', 'function ', 'for ', 'for(a=a;a;a=a)', 'generate ', 'initial ', '\n', ' ', '\t', '\x00', '"', 'ÿ', '_', '9', '0', 'x',
]
HEADS = {
    "": "",
    "in brackets of ports: ": "module m(",
    "as items: ": "module m(input a, output y);",
    "in an expression: ": "module m(input a, output y); assign y = ",
    "in a block: ": "module m(input a, output reg y); always @* ",
}


def repeated(head, token):
    return lambda size: (head + token * (size // len(token)))[:size]


# Tables.

WIRE = module("assign y = a;")
PASS = module("assign y = a;", "input [1:0] a, output [1:0] y")


def rows(row, head="a,y\n"):
    return lambda n: head + row * n


LONG_TABLES = {
    "of columns without a name": rows(",", ""),
    "of columns that are unknown": rows("b,", ""),
    "of empty lines": rows("\n", ""),
    "of empty lines behind the header": rows("\n"),
    "of carriage returns": rows("\r"),
    "of commas": rows(","),
    "of quotes": rows('"'),
    "of pairs of quotes": rows('"",'),
    "of one quoted field": rows("a", 'a\n"'),
    "of digits": rows("9", "a\n"),
    "of hexadecimal digits": rows("f", "a\n0x"),
    "of binary zeros": rows("0", "a\n0b"),
    "of underscores": rows("0_", "a\n0b"),
    "of x": rows("x", "a\n0b"),
    "of blanks": rows(" ", "a\n"),
    "of NUL bytes": rows("\0", "a\n"),
    "of the byte FF": rows("\xff", "a\n"),
}


def columns(count):
    """A design with so many inputs, and a table of one row in which they stand in another order."""
    names = [f"p{i}" for i in range(count)]
    design = f"module m({','.join('input ' + it for it in names)},output y);assign y=p0;endmodule\n"
    return design, ",".join([*reversed(names), "y"]) + "\n" + ",".join(["1"] * (count + 1)) + "\n"


# Directives.

def filled(front, unit, end=""):
    """A text of so many bytes at most: a front, a unit over and over, and an end."""
    return lambda n: front + unit * ((n - len(front) - len(end)) // len(unit)) + end


def doubled(levels):
    """Names of which each uses the one before twice, and a use of the last: 2^levels bytes, and twice as many uses less one."""
    return "`define D0 x\n" + "".join(f"`define D{k + 1} `D{k}`D{k}\n" for k in range(levels)) + f"`D{levels}\n"


def numbered(n):
    """Definitions of many names, of which each uses the one before, and a use of the last."""
    count = n // 26 - 1
    return "`define N000000 x\n" + "".join(f"`define N{k + 1:06} `N{k:06}\n" for k in range(count)) + f"`N{count:06}\n"


def just(blanks):
    """1,023 uses that give 1,023 bytes each, a definition and its line end, and so many blanks, before a use of a name that is not defined."""
    return f"`define A {'x' * 1023}\n{'`A' * 1023}{' ' * blanks}`U\n"


EXPANDED = "refused 16 TooMany expanded 1048577\n"
DIRECTIVES = {
    "uses": (filled("`define A x\n", "`A"), None),
    "uses of nothing": (filled("`define A\n", "`A"), None),
    "conditionals within one another": (lambda n: "`ifdef A\n" * (n // 16) + "`endif\n" * (n // 16), None),
    "conditionals behind one another": (filled("", "`ifdef A\nx`else\ny`endif\n"), None),
    "definitions of new names": (lambda n: "".join(f"`define N{k:06} x\n" for k in range(n // 18)), None),
    "definitions of one name": (filled("", "`define A x\n"), None),
    "names, each used by the next": (numbered, None),
    "uses of a long name": (lambda n: f"`define {'a' * (n // 4)} x\n`{'a' * (n // 4)} `{'a' * (n // 4)}\n", None),
    "a text of one line": (filled("`define A ", "x ", "\n"), None),
    "a text of many lines": (filled("`define A ", "x \\\n", "\n"), None),
    "a branch that is not taken": (filled("`ifdef A\n", "`B x ", "`endif\n"), None),
    "more uses than the limit": (lambda n: doubled(20), EXPANDED),
    "an opening without its end before that": (lambda n: "`ifndef A\n" + doubled(20), "refused 39 BadDirective at 0\n"),
    "an opening without its end behind that": (lambda n: doubled(20) + "`ifndef A\n", EXPANDED),
    "no name at the limit": (lambda n: just(1021), "refused 38 UnknownMacro at 4101\n"),
    "no name beyond the limit": (lambda n: just(1022), EXPANDED),
}

# Designs of many sites of which none, or one, can be changed in the file.
KEPT = {
    "a literal in a macro, used over and over": (filled("`define L 1'b1\nmodule m(input clk,output reg y);always @(posedge clk) begin ", "y<=`L;", " end endmodule\n"), ""),
    "conditions that end in a use": (filled("`define A a\nmodule m(input clk,input a,output reg y);always @(posedge clk) begin ", "if(`A)y<=a;", " end endmodule\n"), None),
    "statements that end in a use": (filled("`define E ;\nmodule m(input clk,input a,output reg y);always @(posedge clk) begin ", "y<=a`E ", " end endmodule\n"), None),
}

SITES, LINT, RUN, REPAIR, CHECK = ("sites", "d.v"), ("lint", "d.v"), ("run", "d.v", "t.csv"), ("repair", "d.v", "t.csv", "c"), ("check", "c.aag", "c.lrat")
TABLE = "a,y\n0,0\n1,1\n1,0\n"


def inputs():
    """Each input: a name, the words, the files by name, as texts or functions of a size, the sizes, and what is due: statuses, or a status with its notes at the last size."""
    for name, design in DEPTH.items():
        for words in (SITES, RUN, REPAIR):
            yield f"{words[0]}: {name}, nested", words, {"d.v": design, "t.csv": TABLE}, (122, 244, 488), (0, 1)
        yield f"sites: {name}, nested too deep", SITES, {"d.v": design}, (20000, 40000), (3,)
    for name in EXPRESSIONS:
        for words in (SITES, RUN, REPAIR):
            yield f"{words[0]}: 1 MB of {name}, nested", words, {"d.v": many(name), "t.csv": TABLE}, (250000, 500000, 1000000), (0, 1) if words is RUN else (0, 1, 3)
    for name, (design, sizes, *table) in {
        "instances": (instances, (64, 128, 256)),
        "ports by name": (wide_instances(True), (64, 128, 256)),
        "ports by position": (wide_instances(False), (64, 128, 256)),
        "overrides": (overridden, (64, 128, 256)),
        "levels": (chain, (4, 8, 16)),
        "bits of wide wires": (bits(128), (16384, 32768, 65536)),
        "bits of single wires": (bits(1), (16384, 32768, 65536)),
        "wires forward": (wires_in_a_row("forward"), (9000, 18000, 36000)),
        "wires backward": (wires_in_a_row("backward"), (9000, 18000, 36000)),
        "bit by bit": (ripple, (64, 128, 256)),
        "words in a row": (words_in_a_row, (127, 255, 510)),
        "wiring of bits": (wide_wiring, (127, 255, 510)),
        "sums of words": (wide_words, (31, 63, 127)),
        "blocks": (blocks, (8000, 16000, 32000)),
        "statements of a block": (one_block("", lambda i: f"r{i}<=a;", ""), (10000, 20000, 40000), "a,y\n0,0\n1,1\n1,0\n"),
        "ifs of a block": (one_block("", lambda i: f"if(a) r{i}<=a;", ""), (8000, 16000, 32000)),
        "one variable again and again": (comb_block(lambda i, n: "r0=r0^a;"), (8000, 16000, 32000)),
        "variables in a row": (comb_block(lambda i, n: f"r{i}=r{max(i - 1, 0)};"), (8000, 16000, 32000)),
        "ifs of a combinational block": (latches, (5000, 10000, 20000)),
        "turns of a loop": (turns("y=y^a;"), (16384, 32768, 65536)),
        "turns of a loop, and as many tokens as may be": (turns("y=y^a^a^a^a^a^a;"), (16384, 32768, 65536)),
        "turns of a loop in a loop": (turns("for(j=0;j<1;j=j+1)y=y^a;"), (8192, 16384, 32768)),
        "loops": (loops, (8000, 16000, 32000)),
        "words": (words, (63, 127, 255)),
        "writes of words of a bit by index": (writes_of_words(1), (250, 500, 1000), "i,y\n0,0\n1,0\n0,1\n"),
        "writes of words of 128 bits by index": (writes_of_words(128), (2, 4, 8), "i,y\n0,0\n1,0\n0,1\n"),
        "reads of words by words": (reads_of_words, (16, 32, 64), "i,y\n0,0\n1,0\n0,1\n"),
        "moved words": (moved_words, (64, 128, 256), "i,y\n0,0\n1,0\n0,1\n"),
        "arms": (arms, (8000, 16000, 32000)),
        "labels": (labels, (16000, 32000, 64000)),
        "updates by index": (updates, (2000, 4000, 8000), "i,y\n0,0\n1,0\n0,1\n"),
        "conditions": (guards, (250, 500, 1000), guard_table),
        "parameters": (parameters, (8000, 16000, 32000)),
    }.items():
        for words in (SITES, RUN, REPAIR):
            due = (0,) if words is RUN else (0, 1, 2, 3)
            yield f"{words[0]}: {name}", words, {"d.v": design, "t.csv": table[0] if table else TABLE}, sizes, due
    for name, (design, size, due) in {
        "one instance too many": (instances, 257, "refused 16 TooMany instances 257\n"),
        "one level too many": (chain, 17, "refused 16 TooMany depth 17\n"),
        "one bit too many": (bits(128), 65537, "refused 16 TooMany flatbits 65537\n"),
        "one turn of a loop too many": (turns(";"), 65537, "refused 16 TooMany turns 65537\n"),
        "turns of a loop without an end": (lambda n: turns(";")(n).replace("i=i+1", "i=i"), 1, "refused 16 TooMany turns 65537\n"),
        "one token of a loop's turns too many": (turns("begin" + ";" * 15 + "end"), 65536, "refused 16 TooMany unfolded 1048577\n"),
        "one word of a memory too many": (lambda n: module(f"reg r [0:{n - 1}];assign y=a;"), 257, "refused 16 TooMany words 257\n"),
        "one bit of words too many": (lambda n: module(f"reg [127:0] r [0:255],s [0:{n - 1}];assign y=a;"), 256, "refused 16 TooMany flatbits 65538\n"),
        "a loop": (loop, 30000, None),
        "modules": (modules, 43000, None),
        "modules that nothing uses": (unused, 20000, None),
        "names of ports": (header, 50000, None),
        "a name of 1 MiB": (lambda n: "a" * n, MEBI, None),
        "a number of 1 MiB": (lambda n: module("assign y=1'b" + "0" * (n - 100) + ";"), MEBI, None),
        "a decimal of 1 MiB": (lambda n: module("assign y=" + "9" * (n - 100) + ";"), MEBI, None),
        "a comment of 1 MiB": (lambda n: WIRE + "//" + "*" * (n - 100), MEBI, None),
        "a block comment of 1 MiB": (lambda n: "/*" + "*" * (n - 100) + "/" + WIRE, MEBI, None),
        "one byte above 1 MiB": (lambda n: " " * n, MEBI + 1, "refused 16 TooMany bytes 1048577\n"),
    }.items():
        yield f"sites: {name}", SITES, {"d.v": design}, (size // 4, size // 2, size) if due is None else (size,), (0, 3) if due is None else (3, due)
    for name, design in KEEPING.items():
        yield f"lint: 1 MiB of {name}", LINT, {"d.v": design}, (MEBI // 4, MEBI // 2, MEBI), (0,)
    called = filled("module n(input a); reg y; always @* begin ", "if(a)y<=y;", " end endmodule\n" + CALLS + " endmodule\n")
    yield "lint: a block in each of 255 instances", LINT, {"d.v": called}, (MEBI // 64, MEBI // 32, MEBI // 16), (0,)
    yield "lint: names that are kept", LINT, {"d.v": kept_names}, (15000, 30000, 60000), (0,)
    for head, before in HEADS.items():
        for token in TOKENS:
            yield f"sites: 1 MiB {head}{token!r}", SITES, {"d.v": repeated(before, token)}, (MEBI // 4, MEBI // 2, MEBI), (0, 3)
    for words in (RUN, REPAIR):
        yield f"{words[0]}: rows that match", words, {"d.v": PASS, "t.csv": rows("1,1\n")}, (16384, 32768, 65536), (0, "unchanged\n" if words is REPAIR else "")
        yield f"{words[0]}: one row too many", words, {"d.v": PASS, "t.csv": rows("1,1\n")}, (65537,), (3, "refused 16 TooMany rows 65537\n")
        yield f"{words[0]}: columns", words, {"d.v": lambda n: columns(n)[0], "t.csv": lambda n: columns(n)[1]}, (5000, 10000, 20000), (0, 1)
        yield f"{words[0]}: work", words, {"d.v": module("assign y = a;", "input [2:0] a, output [1:0] y"), "t.csv": rows("1,1\n")}, (65536,), (3, "refused 16 TooMany work 327680\n") if words is REPAIR else (0, "")
        for name, text in LONG_TABLES.items():
            last = 16 * MEBI // max(1, len(text(1)) - len(text(0))) - 8
            yield f"{words[0]}: 16 MiB {name}", words, {"d.v": WIRE, "t.csv": text}, (last // 4, last // 2, last), (0, 3)
        yield f"{words[0]}: 16 MiB and a byte", words, {"d.v": WIRE, "t.csv": lambda n: " " * n}, (16 * MEBI + 1,), (3, "refused 16 TooMany bytes 16777217\n")
        yield f"{words[0]}: a cell of 30 digits", words, {"d.v": WIRE, "t.csv": "a,y\n" + "9" * 30 + ",1\n"}, (1,), (3, "refused 32 CellTooLarge row 1 column 0\n")
    for name, (design, due) in DIRECTIVES.items():
        yield f"run: directives, {name}", RUN, {"d.v": design, "t.csv": TABLE}, (MEBI // 4, MEBI // 2, MEBI) if due is None else (1,), (3,) if due is None else (3, due)
    for name, (design, due) in KEPT.items():
        yield f"sites: {name}", SITES, {"d.v": design}, (MEBI // 16, MEBI // 8, MEBI // 4), (0, 3) if due is None else (0, due)
    UNSAT, EMPTY = "aag 1 1 0 2 0\n2\n2\n3\n", "3 0 1 2 0\n"
    for name, (circuit, proof, sizes, due) in {
        "a million empty lines for a circuit": (rows("\n", ""), EMPTY, (250000, 500000, 1000000), (3, "refused 34 BadCircuit line 1\n")),
        "a million empty lines behind a circuit": (rows("\n", UNSAT), EMPTY, (250000, 500000, 1000000), (3, "refused 34 BadCircuit line 5\n")),
        "a million empty lines of a comment": (rows("\n", UNSAT + "c\n"), EMPTY, (250000, 500000, 1000000), (0, "")),
        "a million empty lines for a proof": (UNSAT, rows("\n", ""), (250000, 500000, 1000000), (3, "refused 35 BadProof line 1\n")),
        "a million empty lines behind a proof": (UNSAT, rows("\n", EMPTY), (250000, 500000, 1000000), (3, "refused 35 BadProof line 2\n")),
        "30 digits in a header": (f"aag {'9' * 30} {'9' * 30} 0 0 0\n", EMPTY, (1,), (3, "refused 34 BadCircuit line 1\n")),
        "19 digits in a header": ("aag 1152921504606846976 1152921504606846976 0 0 0\n", EMPTY, (1,), (3, "refused 34 BadCircuit line 2\n")),
        "many outputs in a header": ("aag 0 0 0 4611686018427387903 0\n", EMPTY, (1,), (3, "refused 34 BadCircuit line 2\n")),
        "many gates in a header": ("aag 4611686018427387903 1 0 0 4611686018427387902\n2\n", EMPTY, (1,), (3, "refused 34 BadCircuit line 3\n")),
        "30 digits in an output": (f"aag 1 1 0 1 0\n2\n{'9' * 30}\n", EMPTY, (1,), (3, "refused 34 BadCircuit line 3\n")),
        "30 digits for an id": (UNSAT, f"{'9' * 30} 0 1 2 0\n", (1,), (3, "refused 35 BadProof line 1\n")),
        "30 digits in a clause": (UNSAT, f"3 {'9' * 30} 0 1 2 0\n", (1,), (3, "refused 35 BadProof line 1\n")),
        "30 digits for a hint": (UNSAT, f"3 0 {'9' * 30} 0\n", (1,), (3, "refused 35 BadProof line 1\n")),
        "a hint of 19 digits": (UNSAT, "3 0 4611686018427387903 0\n", (1,), (1, "")),
        "digits without an end": (UNSAT, rows("9", ""), (4 * MEBI, 8 * MEBI, 16 * MEBI), (3, "refused 35 BadProof line 1\n")),
        "a clause with many literals": (lambda n: f"aag {n} {n} 0 1 0\n" + "".join(f"{2 * i}\n" for i in range(1, n + 1)) + "2\n", lambda n: "2 " + " ".join(str(i) for i in range(2, n + 1)) + " 0 1 0\n", (50000, 100000, 200000), (1, "")),
        "a clause with one literal many times": (UNSAT, lambda n: "3 " + "1 " * n + "0 2 0\n", (250000, 500000, 1000000), (1, "")),
        "a line with many hints": (UNSAT, lambda n: "3 0 " + "1 " * n + "2 0\n", (250000, 500000, 1000000), (1, "")),
        "lines with many hints": (UNSAT, lambda n: "".join(f"{3 + i} 1 0 " + "".join(f"{3 + k} " for k in range(max(0, i - 200), i)) + "1 0\n" for i in range(n)) + f"{3 + n} 0 1 2 0\n", (5000, 10000, 20000), (0, "")),
        "deletions": (UNSAT, lambda n: "3 d 1 0\n" * n + "4 0 1 2 0\n", (250000, 500000, 1000000), (0, "")),
        "a deletion of many": (UNSAT, lambda n: "3 d " + "1 " * n + "0\n4 0 1 2 0\n", (250000, 500000, 1000000), (0, "")),
        "gates": (lambda n: f"aag {n + 1} 1 0 2 {n}\n2\n2\n3\n" + "".join(f"{2 * i + 4} {2 * i + 2} 2\n" for i in range(n)), lambda n: f"{3 * n + 3} 0 {3 * n + 1} {3 * n + 2} 0\n", (100000, 200000, 400000), (0, "")),
        "outputs": (lambda n: f"aag 1 1 0 {n} 0\n2\n" + "2\n" * (n - 1) + "3\n", lambda n: f"{n + 1} 0 1 {n} 0\n", (250000, 500000, 1000000), (0, "")),
    }.items():
        yield f"check: {name}", CHECK, {"c.aag": circuit, "c.lrat": proof}, sizes, due


def large():
    """Files at the limits of `check`, and repairs at the limit of work."""
    unsat = "aag 1 1 0 2 0\n2\n2\n3\n"
    yield "check: a circuit of so many bytes", CHECK, {"c.aag": big_circuit, "c.lrat": "x"}, (1 << 26, 1 << 27, 1 << 28), (3, "refused 35 BadProof line 1\n")
    yield "check: a proof of so many bytes in short lines", CHECK, {"c.aag": unsat, "c.lrat": big_proof}, (1 << 26, 1 << 27, 1 << 28), (1, "")
    yield "check: a proof of so many bytes in one line", CHECK, {"c.aag": unsat, "c.lrat": lambda n: b"3 0 " + b"1 " * ((n - 8) // 2) + b"2 0\n"}, (1 << 28, 1 << 29, 1 << 30), (1, "")
    for members in (1, 4, 8):
        yield f"repair: the limit of work, {members} members", (*REPAIR, "--members", str(members)), {"d.v": eight_counters, "t.csv": eight_tables}, (504, 1008, 2016), (0,)


def big_circuit(size):
    """A chain of gates, and a comment up to the size."""
    count = (size - 60) // 26
    text = f"aag {count + 1} 1 0 1 {count}\n2\n2\n".encode() + b"".join(b"%d %d 2\n" % (2 * i + 4, 2 * i + 2) for i in range(count))
    return text + b"c\n" + b"x" * (size - len(text) - 2)


def big_proof(size):
    """Lines that follow at once, and no empty clause."""
    return b"".join(b"%d 1 0 1 0\n" % it for it in range(3, size // 18))


def eight_counters(rows):
    count = lambda i: f"  always @(posedge clk) if (rst) q{i} <= 16'd0; else q{i} <= q{i} + 16'd{3 if i < 2 else 1};\n"
    return f"module m(input clk, input rst, {', '.join(f'output reg [15:0] q{i}' for i in range(8))});\n" + "".join(map(count, range(8))) + "endmodule\n"


def eight_tables(rows):
    lines = ["rst," + ",".join(f"q{i}" for i in range(8)), "1" + ",0" * 8]
    return "\n".join(lines + ["0" + f",{row}" * 8 for row in range(rows - 1)]) + "\n"


def one(program, name, words, files, sizes, due, seconds):
    """Runs an input at each of its sizes, and gives its line of the table and what is wrong with it."""
    times, wrong = [], []
    for size in sizes:
        with tempfile.TemporaryDirectory() as folder:
            for file, text in files.items():
                with open(f"{folder}/{file}", "wb") as out:
                    whole = text if isinstance(text, str) else text(size)
                    out.write(whole if isinstance(whole, bytes) else whole.encode("latin-1"))
            status, out, notes, taken, memory = timed([program, *words], folder, seconds)
        times.append(taken)
        if status is None:
            wrong.append(f"more than {seconds} s at size {size}")
            break
        fault = fault_of(status, out, notes)
        if fault:
            wrong.append(f"{fault} at size {size}")
    if not wrong:
        if isinstance(due[-1], str):
            if (status, notes.decode("utf-8", "replace")) != due:
                wrong.append(f"status {status} with {notes[:80]!r} in place of {due}")
        elif status not in due:
            wrong.append(f"status {status} with {notes[:80]!r} in place of one of {due}")
    growth = ""
    if len(times) > 1 and times[-1] > 0.1 and times[-2] > 0.01:
        growth = f"{math.log(times[-1] / times[-2]) / math.log(sizes[len(times) - 1] / sizes[len(times) - 2]):.1f}"
    told = notes.decode("utf-8", "replace").strip().splitlines()
    return (name, size, status, told[0][:60] if told else "", times[-1], memory, growth), wrong


def changed(text):
    """The text cut at each byte, and with each byte left out, changed or preceded by another."""
    for at in range(len(text) + 1):
        yield text[:at]
    for at in range(len(text)):
        for it in (b"", b"0", b"1", b"2", b"9", b"-", b" ", b"\n", b"d", b"a", b"c", b"\0", b"\xff", b"\r"):
            yield text[:at] + it + text[at + 1 :]
            yield text[:at] + it + text[at:]


def mutants(program):
    """How many circuits and proofs were checked, and those whose verdict is another than is due."""
    read = lambda name: open(f"{top}/examples/certificate/never.{name}", "rb").read()
    bases = [(read("aag"), read("lrat")), (b"aag 1 1 0 2 0\n2\n2\n3\n", b"3 1 0 1 0\n4 d 1 0\n5 0 1 2 0\n")]
    count, wrong = 0, []
    with tempfile.TemporaryDirectory() as folder:
        for circuit, proof in bases:
            for pair in [(it, proof) for it in changed(circuit)] + [(circuit, it) for it in changed(proof)]:
                for name, text in zip(("c.aag", "c.lrat"), pair):
                    with open(f"{folder}/{name}", "wb") as out:
                        out.write(text)
                status, out, notes, _, _ = timed([program, *CHECK], folder, 10)
                count += 1
                if (status, out, notes) != verdict(*pair):
                    wrong.append(f"{pair} has {(status, out, notes)} in place of {verdict(*pair)}")
    return count, wrong


def main():
    words = argparse.ArgumentParser()
    words.add_argument("program", nargs="?")
    words.add_argument("--seconds", type=float, default=10)
    words.add_argument("--only", default="")
    words.add_argument("--large", action="store_true")
    words.add_argument("--quiet", action="store_true", help="prints slow, growing and failing inputs alone")
    asked = words.parse_args()
    program = os.path.abspath(asked.program) if asked.program else built()
    print("| input | size | status | standard error | seconds | MiB | growth |")
    print("|---|---|---|---|---|---|---|")
    passed = failed = 0
    slowest, most = 0.0, 0.0
    chosen = [(it, asked.seconds * (6 if it[1][0] == "repair" else 1)) for it in inputs()] + [(it, 600) for it in large() if asked.large]
    for given, seconds in chosen:
        if asked.only not in given[0]:
            continue
        line, wrong = one(program, *given, seconds)
        slowest, most = max(slowest, line[4]), max(most, line[5])
        passed, failed = passed + (not wrong), failed + bool(wrong)
        is_news = wrong or line[4] > 1 or (line[6] and float(line[6]) > 1.4)
        if is_news or not asked.quiet:
            print("| " + " | ".join([line[0].replace("|", "\\|"), str(line[1]), str(line[2]), line[3], f"{line[4]:.2f}", f"{line[5]:.0f}", line[6]]) + " |", flush=True)
        for it in wrong:
            print(f"FAILED {line[0]}: {it}", flush=True)
    if asked.only in "check: cut and changed":
        count, wrong = mutants(program)
        passed, failed = passed + count - len(wrong), failed + len(wrong)
        print(f"| check: cut and changed | {count} | | | | | |")
        for it in wrong:
            print(f"FAILED check: cut and changed: {it}", flush=True)
    print(f"{passed} passed, {failed} failed; the longest took {slowest:.2f} s, the largest {most:.0f} MiB")
    return 1 if failed else 0


if __name__ == "__main__":
    sys.exit(main())

#!/usr/bin/env python3
"""Runs `lint` on random designs, and compares what it prints with what a second reading of its rule makes of them. It is no part of the gate.

usage: tools/lint_fuzz.py [PROGRAM] [COUNT] [SEED]

PROGRAM is crates/rtl_repair/out/rtl_repair where it is not given, COUNT 1,000 designs, SEED 1. A design has one to three modules, of which one may have
instances with parameters and one none, with combinational blocks of nested `if` and `case`, targets of every kind, `=` and `<=`, and comments, directives and macros
between and in the place of their tokens. This script makes the design as a tree, so it knows without the program which bits each block keeps in each
instance, and which byte each change stands at. Looked for are: an ending of no documented form; another output or refusal than is due, byte for byte; what was printed
and is not printed once more as it is; 18 or 20 of `run` on what was printed; a design that `run` accepts and `lint` changes, and one that
`run` refuses with 18 or 20 and `lint` leaves. A third of the designs are tried a second time with tokens changed, left out, doubled or exchanged: then all but the exact output.
Each finding is printed and kept in a folder; the last lines count, and the status is 0 where there is none.
"""
import re, subprocess, sys, tempfile

import fuzz
from endings import fault_of

draw = fuzz.draw
DEFINITIONS = "`define ONE 1'b1\n`define NONE\n`define LATER <=\n`define END end\n`define STOP ;\n`define STAR @*\n`define CLOSE )\n"
GAPS = [" "] * 12 + ["\n    ", "\t", " /* y <= 1; */ ", " // end\n  ", " `NONE ", " `ifdef OTHER begin y <= `else `endif ", "\r\n", "/**/"]
TABLE = b"clk,a,b,i,e\n0,1,2,1,0\n0,9,15,3,1\n"
# The refusals of `run` that `lint` does not ask for.
OTHERS = (17, 19, 21, 22, 23, *range(26, 33))
REFERENCE = re.compile(r"(\\v! |\bv\d+\b)(?: ?\[([^\]]*)\])?")


class Printed:
    """The text of a design in the making, and the changes that are due, each with its place, the number of bytes that it replaces and its new text. A place in a macro's text is below 0."""

    def __init__(self, has_macros):
        self.text, self.last, self.changes, self.has_macros = DEFINITIONS, None, [], has_macros

    def put(self, token, use=None):
        """A token behind a gap, now and then as the use of a macro, and where it stands."""
        self.text += draw.choice(GAPS)
        at = len(self.text)
        is_hidden = use and self.has_macros and draw.random() < 0.1
        self.text += f"`{use} " if is_hidden else token
        self.last = (at, len(self.text) - is_hidden, is_hidden) if is_hidden else (at, len(self.text), False)
        return at

    def change(self, place, length, new, is_hidden):
        self.changes.append((place, length, new, is_hidden))

    def behind(self, new):
        """A change behind the last token."""
        at, end, is_hidden = self.last
        self.change(at if is_hidden else end, 0, new, is_hidden)

    def mended(self):
        """The ending that is due."""
        for place, _, _, is_hidden in self.changes:
            if is_hidden:
                return 3, b"", f"refused 43 FromMacro at {place}\n".encode()
        out, at = "", 0
        for place, length, new, _ in self.changes:
            out, at = out + self.text[at:place] + new, place + length
        return 0, (out + self.text[at:]).encode(), b""


def constant(text, values):
    """The value of a constant, or None."""
    plain = re.sub(r"\d+'d", "", text)
    words = re.findall(r"[A-Za-z_]\w*", plain)
    return eval(plain, {}, values) if all(it in values for it in words) and re.fullmatch(r"[\w+\- ]+", plain) else None


def bits(name, select, ranges, values):
    """The bits of a name with or without a select, and whether they are known."""
    left, right = (constant(it, values) for it in ranges[name])
    whole = set(range(min(left, right), max(left, right) + 1))
    if select is None:
        return {(name, it) for it in whole}, True
    base, mark, count = (it.strip() for it in re.fullmatch(r"(.*?)(?:(\+:|-:|:)(.*))?", select).groups(""))
    first = constant(base, values)
    if first is None:
        return {(name, it) for it in whole}, False
    second = {"": first, ":": count, "+:": f"{first} + {count} - 1", "-:": f"{first} - {count} + 1"}[mark]
    second = second if mark == "" else constant(second, values)
    return {(name, it) for it in whole if min(first, second) <= it <= max(first, second)}, True


class Kept:
    """Which bits of a body are kept in an instance: those that it may write, and reads before they are assigned or leaves without a value on some path."""

    def __init__(self, body, ranges, values):
        self.ranges, self.values, self.early, self.written = ranges, values, set(), set()
        done = self.after(body, set())
        self.names = {name for name, _ in self.written & (self.early | (self.written - done))}

    def read(self, text, done):
        for name, select in REFERENCE.findall(text):
            self.early |= bits(name, select or None, self.ranges, self.values)[0] - done
            self.read(select, done)

    def assign(self, target, done):
        new = set(done)
        for name, select in REFERENCE.findall(target):
            self.read(select, done)
            some, is_known = bits(name, select or None, self.ranges, self.values)
            self.written |= some
            new |= some if is_known else set()
        return new

    def after(self, body, done):
        """The bits that are assigned on each path through a body, which begins with these."""
        kind = body[0]
        if kind == "assign":
            self.read(body[3], done)
            return self.assign(body[1], done)
        if kind == "block":
            for it in body[2]:
                done = self.after(it, done)
            return done
        if kind == "if":
            self.read(body[1], done)
            return self.after(body[2], done) & (self.after(body[3], done) if body[3] else done)
        if kind == "case":
            for it in [body[2]] + [label for labels, _ in body[3] for label in labels]:
                self.read(it, done)
            ends = [self.after(it, done) for _, it in body[3]] + ([] if any(not labels for labels, _ in body[3]) else [done])
            return set.intersection(*ends)
        return done


def assignments(body):
    """The assignments of a body, in the order of the text."""
    inner = {"block": lambda: body[2], "if": lambda: [it for it in body[2:] if it], "case": lambda: [it for _, it in body[3]]}.get(body[0], lambda: [])
    return [body] if body[0] == "assign" else [found for it in inner() for found in assignments(it)]


def targets(body):
    """The names that a body assigns, each once, in the order of the text."""
    return list(dict.fromkeys(name for it in assignments(body) for name, _ in REFERENCE.findall(it[1])))


def ends_open(body):
    """Whether an `else` behind a statement would be taken for its own."""
    return body[0] == "if" and (body[3] is None or ends_open(body[3]))


def select(index):
    return draw.choice(("0", "1", "P", "P + 1", "2'd1", "K - 4", "7", index, index, "1:0", "P + 1:P", "0 +: 2", "P +: 2", "3 -: 2", f"{index} +: 2", f"{index} -: 2"))


def target(names):
    part = lambda: (lambda it: it if draw.random() < 0.6 or names[it] else f"{it}[{select(draw.choice('ai'))}]")(draw.choice(list(names)))
    return part() if draw.random() < 0.85 else "{" + ", ".join(part() for _ in range(draw.randrange(1, 4))) + "}"


def expression(names, depth):
    atoms = ["a", "b", "e", "`ONE"] + [draw.choice((it, it, f"{it}[{select('i')}]")) if not alone else it for it, alone in names.items()]
    return fuzz.expression(depth, tuple(atoms))


def statement(depth, mine, seen, later):
    """A statement that assigns some names, by `<=` as often as is told, and reads these and others."""
    inner = lambda: statement(depth - 1, mine, seen, later)
    form = draw.randrange(10) if depth else 0
    if form <= 2:
        return ("assign", target(mine), draw.random() < later, expression(seen, draw.randrange(3)))
    if form <= 5:
        return ("block", draw.choice(("", "", "", "label", "\\l! ")), [inner() for _ in range(draw.randrange(5))])
    if form <= 7:
        yes, no = inner(), draw.choice((None, inner()))
        return ("if", expression(seen, 1), ("block", "", [yes]) if no and ends_open(yes) else yes, no)
    if form == 8:
        word = draw.choice(("case", "casez", "casex"))
        labels = lambda: [draw.choice((f"4'd{draw.randrange(16)}", "K", "a", "4'b1?0?" if word != "case" else "`ONE", *seen)) for _ in range(draw.choice((1, 1, 2)))]
        arms = [(labels(), inner()) for _ in range(draw.randrange(1, 4))]
        if draw.random() < 0.6:
            arms.insert(draw.randrange(len(arms) + 1), ([], inner()))
        return ("case", word, expression(seen, 1), arms)
    return ("null",)


def put_body(out, body, is_mended):
    """Puts a statement; a `<=` that assigns is changed where the body is."""
    kind = body[0]
    if kind == "assign":
        out.put(body[1])
        at = out.put("<=" if body[2] else "=", "LATER" if body[2] else None)
        if body[2] and is_mended:
            out.change(at, 2, " = ", out.last[2])
        out.put(body[3])
        out.put(";", "STOP")
    elif kind == "block":
        out.put("begin")
        out.text += f" : {body[1]} " if body[1] else ""
        for it in body[2]:
            put_body(out, it, is_mended)
        out.put("end", "END")
    elif kind == "if":
        out.put(f"if ({body[1]})")
        put_body(out, body[2], is_mended)
        if body[3]:
            out.put("else")
            put_body(out, body[3], is_mended)
    elif kind == "case":
        out.put(f"{body[1]} ({body[2]})")
        for labels, it in body[3]:
            out.put(", ".join(labels) + " :" if labels else draw.choice(("default", "default :")))
            put_body(out, it, is_mended)
        out.put("endcase")
    else:
        out.put(";", "STOP")


def put_always(out, body, ranges, instances):
    """Puts a combinational block of a module with some instances, and gives the names that it keeps."""
    out.put("always")
    if draw.random() < 0.6:
        out.put(draw.choice(("@*", "@*", "@(*)", "@ ( * )")), "STAR")
    else:
        out.put(draw.choice(("@(a or b", "@(a, i, e", "@ (e")))
        out.put(")", "CLOSE")
    kept = set().union(*[Kept(body, ranges, it).names for it in instances])
    names = [it for it in targets(body) if it in kept]
    if names:
        out.behind(" begin " + "".join(f"{it.strip()} = 0 ; " for it in names))
    put_body(out, body, bool(instances))
    if names:
        out.behind(" end ")
    return names


def put_module(out, name, instances, items):
    """Puts a module; `instances` are the values of its parameters where it is instantiated. The answer tells whether it has either fault."""
    count = draw.randrange(1, 4)
    variables = [f"v{it}" for it in range(draw.randrange(count, 8))] + (["\\v! "] if draw.random() < 0.3 else [])
    kinds = [draw.choice((None, "[3:0]", "[3:0]", "[0:3]", "[5:2]", "[W - 1:0]", "signed [7:0]", "integer")) for _ in variables]
    ranges = {it: ("31", "0") if kind == "integer" else ("0", "0") if kind is None else tuple(re.findall(r"\[(.*):(.*)\]", kind)[0]) for it, kind in zip(variables, kinds)}
    out.text += f"\nmodule {name} #(parameter P = 0, parameter W = 4)(input clk, input [3:0] a, input signed [3:0] b, input [1:0] i, input e, output [3:0] y);\n  localparam K = 5;\n"
    out.text += "".join(f"  integer {it};\n" if kind == "integer" else f"  reg {kind or ''} {it};\n" for it, kind in zip(variables, kinds)) + items
    alone = {it: kind in (None, "[0:3]") for it, kind in zip(variables, kinds)}
    later, early, is_bad = draw.choice((0, 0, 0.05, 0.5)), draw.random() < 0.3, False
    for number in range(count):
        mine = {it: alone[it] for it in variables[number::count]}
        if draw.random() < 0.05:
            mine[variables[0]] = alone[variables[0]]
        seen = {it: alone[it] for at, it in enumerate(variables) if at % count < number or (early and it in mine)}
        if number == count - 1 and draw.random() < 0.3:
            out.text += f"\n  always @(posedge clk) {next(iter(mine))} <= a;\n"
            continue
        body = statement(draw.randrange(6), mine, seen, later)
        if draw.random() < 0.5:
            body = ("block", "", [("assign", it, draw.random() < later, "4'd2") for it in mine] + [body])
        names = put_always(out, body, ranges, instances)
        is_bad = is_bad or bool(names) or (bool(instances) and any(it[2] for it in assignments(body)))
    out.text += f"\n  assign y = {variables[0]};\nendmodule\n"
    return is_bad


def random_design():
    """A design with the ending of `lint` that is due, and whether it has either fault."""
    out = Printed(draw.random() < 0.3)
    defaults = {"P": 0, "W": 4, "K": 5}
    inner = [{**defaults, **draw.choice(({}, {"P": draw.randrange(6)}, {"P": draw.randrange(3), "W": draw.randrange(1, 9)}))} for _ in range(draw.randrange(4))]
    items = "".join(f"  n #(.P({it['P']}), .W({it['W']})) u{at}(.clk(clk), .a(a), .b(b), .i(i), .e(e));\n" for at, it in enumerate(inner))
    is_bad = put_module(out, "n", inner, "")
    if draw.random() < 0.3:
        put_module(out, "spare", [], "")
    is_bad = put_module(out, "m", [defaults], items) or is_bad
    return out, is_bad


def number_of(ended):
    """The number of a refusal, or 0."""
    return int(ended[2].split()[1]) if ended[0] == 3 else 0


def judged(folder, design, due, is_bad):
    """What is wrong with `lint` on a design, and the refusal or status; `due` and `is_bad` are None where they are not known."""
    fuzz.files(folder, ("d.v", design), ("t.csv", TABLE))
    ended, before = fuzz.run(folder, "lint", "d.v"), fuzz.run(folder, "run", "d.v", "t.csv")
    number = number_of(ended)
    if fault_of(*ended) or (due and ended != due):
        return fault_of(*ended) or f"{ended} in place of {due}", number
    if ended[0] != 0:
        return (None if number == 43 or ended == before else f"`lint` ends with {ended[2]!r}, `run` with {before[2]!r}"), number
    is_changed = ended[1] != design
    if is_bad is not None and is_bad != is_changed:
        return "changed without a fault, or left with one", 0
    if before[0] == 0 and is_changed:
        return "`run` accepts it, and `lint` changes it", 0
    if number_of(before) in (18, 20) and not is_changed:
        return f"`run` tells {before[2]!r}, and `lint` leaves it", 0
    if number_of(before) not in (0, 18, 20, *OTHERS):
        return f"`run` tells {before[2]!r}, and `lint` does not", 0
    fuzz.files(folder, ("l.v", ended[1]))
    again, after = fuzz.run(folder, "lint", "l.v"), fuzz.run(folder, "run", "l.v", "t.csv")
    if again != ended:
        return f"what was printed ends with {again}", 0
    if number_of(after) in (18, 20) or (after[0] != 0 and number_of(after) not in OTHERS):
        return f"`run` of what was printed tells {after[2]!r}", 0
    return None, 0


def main():
    counts, findings = {}, 0
    for number in range(fuzz.count):
        out, is_bad = random_design()
        design = out.text.encode()
        tries = [("random", design, out.mended(), is_bad)]
        if draw.random() < 0.33:
            tries.append(("changed", fuzz.mutated(design, fuzz.WORDS), None, None))
        for kind, text, due, bad in tries:
            with tempfile.TemporaryDirectory() as folder:
                fault, refused = judged(folder, text, due, bad)
                what = (kind, "failed" if fault else f"refused {refused}" if refused else "mended" if bad else "left" if bad is not None else "status 0")
                counts[what] = counts.get(what, 0) + 1
                if fault:
                    findings += 1
                    kept = tempfile.mkdtemp(prefix="lint-fuzz-")
                    subprocess.run(["cp", "-r", f"{folder}/.", kept])
                    print(f"design {number}, {kind}: {fault} (kept in {kept})", flush=True)
    print(", ".join(f"{kind} {what}: {many}" for (kind, what), many in sorted(counts.items())))
    print(f"{sum(counts.values()) - findings} passed, {findings} failed")
    return 1 if findings else 0


if __name__ == "__main__":
    sys.exit(main())

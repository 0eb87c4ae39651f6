#!/usr/bin/env python3
"""Times the free search and that of one member on four circuits, beside `minisat` and `cadical` on the same formulas, and prints a table. It is no part of the gate.

usage: tools/time_search.py ROOM PROGRAM [CHECKOUT ..]

PROGRAM is a built `rtl_repair`, which makes two of the circuits. For each CHECKOUT of this repository (this one where none is given) the crates
are copied into a folder of ROOM, the program of tools/search is added to them and built by `rt run`, which proves what the search stands on; what a folder
of ROOM has is not built again. So two states of the code are timed in one run, by turns. The circuits: that products of 8 bits commute; the question of a
certificate for two counters of 4 bits with a fault each in 2,000 rows; the one of eight counters of 16 bits at the limit of work; and a chain of a million gates,
whose formula is held and propagated. Times are of the processor, in user mode, from formula to answer; the best of three turns is told.
"""
import os, re, shutil, subprocess, sys, time

top = os.path.dirname(os.path.dirname(os.path.abspath(__file__)))
sys.path.insert(0, f"{top}/tools")
from time_repair import counters  # noqa: E402

LINE = "search: rr_edge rr_cnf rr_circuit rr_tseitin rr_derive rr_watch rr_solver rr_free\n"
TURNS = 3


def built(checkout, room):
    """The program of tools/search over the crates of a checkout."""
    folder = f"{room}/{os.path.basename(os.path.abspath(checkout))}"
    if not os.path.isfile(f"{folder}/crates/search/out/search"):
        shutil.copytree(f"{checkout}/crates", f"{folder}/crates", dirs_exist_ok=True)
        shutil.copy(f"{checkout}/HANDLES", folder)
        with open(f"{checkout}/crates.txt") as text, open(f"{folder}/crates.txt", "w") as out:
            out.write(text.read() + LINE)
        for below, _, names in os.walk(f"{top}/tools/search"):
            to = below.replace(f"{top}/tools/search", f"{folder}/crates/search")
            os.makedirs(to, exist_ok=True)
            for name in names:
                # The gate takes sources in crates alone, so they have one more ending here.
                shutil.copy(f"{below}/{name}", f"{to}/{name.removesuffix('.txt')}")
        with open(f"{folder}/log", "w") as log:
            subprocess.run(["rt", "run"], cwd=f"{folder}/crates/search", stdin=subprocess.DEVNULL, stdout=log, stderr=log, check=False)
    return f"{folder}/crates/search/out/search"


class Builder:
    """A circuit of AND gates whose equal gates are shared; wires are literals of AIGER."""

    def __init__(self, inputs):
        self.inputs, self.gates = inputs, {}

    def land(self, a, b):
        a, b = max(a, b), min(a, b)
        if b < 2:
            return a if b else 0
        if a ^ b < 2:
            return 0 if a ^ b else a
        return self.gates.setdefault((a, b), 2 * (self.inputs + len(self.gates) + 1))

    def lor(self, a, b):
        return self.land(a ^ 1, b ^ 1) ^ 1

    def lxor(self, a, b):
        return self.land(self.land(a, b) ^ 1, self.lor(a, b))

    def product(self, x, y):
        """The lowest bits of x * y, by rows of full adders."""
        total = [0] * len(x)
        for place, bit in enumerate(y):
            carry = 0
            for at in range(place, len(x)):
                a, b = total[at], self.land(x[at - place], bit)
                half = self.lxor(a, b)
                total[at], carry = self.lxor(half, carry), self.lor(self.land(a, b), self.land(half, carry))
        return total

    def write(self, name, output):
        with open(name, "w") as out:
            out.write(f"aag {self.inputs + len(self.gates)} {self.inputs} 0 1 {len(self.gates)}\n")
            out.writelines(f"{2 * at}\n" for at in range(1, self.inputs + 1))
            out.write(f"{output}\n")
            out.writelines(f"{gate} {a} {b}\n" for (a, b), gate in self.gates.items())


def products(name, width):
    """That x * y and y * x differ."""
    b = Builder(2 * width)
    x, y = [[2 * (at + 1) for at in range(low, low + width)] for low in (0, width)]
    same = 1
    for one, other in zip(b.product(x, y), b.product(y, x)):
        same = b.land(same, b.lxor(one, other) ^ 1)
    b.write(name, same ^ 1)


def chain(name, count):
    b = Builder(3)
    last = 6
    for at in range(count):
        last = b.land(last, 2 + 2 * (at % 2))
    b.write(name, last)


def question(program, room, name, design, table):
    """The circuit of a certificate."""
    for file, text in (("d.v", design), ("t.csv", table)):
        with open(f"{room}/{file}", "w") as out:
            out.write(text)
    subprocess.run([program, "repair", "d.v", "t.csv", name], cwd=room, stdout=subprocess.DEVNULL, stderr=subprocess.DEVNULL)


def dimacs(circuit, name):
    """The formula of a circuit, as the certificate has it."""
    with open(circuit) as text:
        lines = text.read().split("\n")
    count, inputs, _, outputs, gates = map(int, lines[0].split()[1:])
    number = lambda wire: (wire // 2) * (-1 if wire % 2 else 1)
    clauses = []
    for line in lines[1 + inputs + outputs : 1 + inputs + outputs + gates]:
        gate, left, right = map(int, line.split())
        clauses += [f"{-number(gate)} {number(left)} 0", f"{-number(gate)} {number(right)} 0", f"{number(gate)} {-number(left)} {-number(right)} 0"]
    clauses += [f"{number(int(it))} 0" for it in lines[1 + inputs : 1 + inputs + outputs] if int(it) != 1]
    with open(name, "w") as out:
        out.write(f"p cnf {count} {len(clauses)}\n" + "\n".join(clauses) + "\n")


def peak(pid):
    """The most kibibytes that a running process has held so far. (What the system tells at its end counts what its parent held.)"""
    try:
        with open(f"/proc/{pid}/status") as file:
            return next((int(line.split()[1]) for line in file if line.startswith("VmHWM")), 0)
    except OSError:
        return 0


def ran(words):
    """What a command printed, its user seconds and its mebibytes."""
    child = subprocess.Popen(words, stdout=subprocess.PIPE, stderr=subprocess.DEVNULL)
    most, ended = 0, 0
    while not ended:
        most = max(most, peak(child.pid))
        ended, _, used = os.wait4(child.pid, os.WNOHANG)
        time.sleep(0.002)
    return child.stdout.read().decode(), used.ru_utime, most // 1024


def peers(cnf):
    """Seconds and conflicts of other solvers."""
    found = []
    for name, words, conflicts in (("minisat", ["minisat", cnf], r"^conflicts\s*:\s*(\d+)"), ("cadical", ["cadical", "-n", cnf], r"^c conflicts:\s*(\d+)")):
        if shutil.which(name):
            text, seconds, _ = ran(["timeout", "120", *words])
            count = re.search(conflicts, text, re.M)
            found.append(f"{name} {seconds:.2f} s, {count[1] if count else 'above 120 s and so without'} conflicts")
    return "; ".join(found)


def main():
    room, program = os.path.abspath(sys.argv[1]), os.path.abspath(sys.argv[2])
    os.makedirs(room, exist_ok=True)
    checkouts = sys.argv[3:] or [top]
    programs = [(os.path.basename(os.path.abspath(it)), built(it, room)) for it in checkouts]
    products(f"{room}/product.aag", 8)
    chain(f"{room}/chain.aag", 1_000_000)
    question(program, room, "two", *counters(2, 4, 2000, 2))
    question(program, room, "limit", *counters(8, 16, 2016, 2))
    print("| circuit | code | answer | user seconds | MiB | | others |\n|---|---|---|---|---|---|---|")
    for circuit, words in [*((it, [way, "1000000"]) for it in ("product", "two", "limit") for way in ("free", "ask")), ("chain", ["spread"])]:
        dimacs(f"{room}/{circuit}.aag", f"{room}/{circuit}.cnf")
        told = peers(f"{room}/{circuit}.cnf")
        best = {}
        for _ in range(TURNS):
            for name, made in programs:
                text, _, memory = ran([made, words[0], f"{room}/{circuit}.aag", *words[1:]])
                steps = [(step, int(count), int(micros) / 1e6) for step, count, micros in map(str.split, text.splitlines()) if step != "formula"]
                seconds = sum(it[2] for it in steps)
                if steps and (name not in best or seconds < best[name][0]):
                    best[name] = seconds, memory, steps
        for name, (seconds, memory, steps) in best.items():
            rate = "; ".join(f"{step} {count}: {took:.3f} s, {count / max(took, 1e-6):,.0f} a second" for step, count, took in steps)
            print(f"| {circuit}, {words[0]} | {name} | {steps[-1][0]} {steps[-1][1]} | {seconds:.3f} | {memory} | {rate} | {told} |", flush=True)


if __name__ == "__main__":
    main()

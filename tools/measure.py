#!/usr/bin/env python3
"""Measures rtl_repair, and prints a table of times and memory. It is no part of the gate.

usage: tools/measure.py [FOLDER]

It copies the crates into FOLDER (a new temporary folder, where none is given), adds the program of
tools/measure to them, builds it and rtl_repair by `rt run`, makes the inputs, and runs both on them. The first
time in a folder every crate is proved, which takes as long as the first build of the program. What it
compares with is Python on the same machine in the same run.
"""

import csv
import io
import os
import resource
import shutil
import subprocess
import sys
import tempfile
import time

TOP = os.path.dirname(os.path.dirname(os.path.abspath(__file__)))
MEASURED = (
    "measure: rr_syntax rr_edge rr_lex rr_parse rr_cnf rr_circuit rr_arith rr_bits rr_tseitin"
    " rr_derive rr_check rr_watch rr_solver bumpalo\n"
)
GATES = 250_000
ROWS = 65_536


def build(folder):
    """Copies the crates and builds both programs."""
    crates = f"{folder}/crates"
    if not os.path.isdir(crates):
        shutil.copytree(f"{TOP}/crates", crates)
    shutil.copy(f"{TOP}/HANDLES", folder)
    with open(f"{TOP}/crates.txt") as text, open(f"{folder}/crates.txt", "w") as out:
        out.write(text.read() + MEASURED)
    for below, _, names in os.walk(f"{TOP}/tools/measure"):
        to = below.replace(f"{TOP}/tools/measure", f"{crates}/measure")
        os.makedirs(to, exist_ok=True)
        for name in names:
            # The gate takes sources in crates alone, so they have one more ending here.
            shutil.copy(f"{below}/{name}", f"{to}/{name.removesuffix('.txt')}")
    for program in ("measure", "rtl_repair"):
        with open(f"{folder}/{program}.log", "w") as log:
            subprocess.run(["rt", "run"], cwd=f"{crates}/{program}", stdin=subprocess.DEVNULL, stdout=log, stderr=log)
    return f"{crates}/measure/out/measure", f"{crates}/rtl_repair/out/rtl_repair"


def run(words, out=None):
    """Runs a program, and answers what it printed, its seconds and its greatest memory in MiB."""
    start = time.perf_counter()
    with subprocess.Popen(words, stdout=out or subprocess.PIPE) as process:
        text = process.stdout.read() if process.stdout else b""
        _, status, usage = os.wait4(process.pid, 0)
        process.returncode = os.waitstatus_to_exitcode(status)
    return text.decode(), time.perf_counter() - start, usage.ru_maxrss / 1024


def steps(text):
    """The steps that the measuring program printed: name to count and seconds."""
    return {name: (int(count), int(micros) / 1e6) for name, count, micros in map(str.split, text.splitlines())}


def row(what, seconds, memory, ratio):
    print(f"| {what} | {seconds:.3f} s | {memory:.0f} MiB | {ratio} |")


def certificate(folder):
    """A chain of gates, and a proof of 20 MB over its formula: each addition follows eight gates down the chain."""
    with open(f"{folder}/chain.aag", "w") as out:
        out.write(f"aag {GATES + 2} 2 0 2 {GATES}\n2\n4\n{2 * (GATES + 2)}\n3\n6 4 2\n")
        out.writelines(f"{2 * (v + 2)} {2 * (v + 1)} 2\n" for v in range(2, GATES + 1))
    clauses = 3 * GATES + 2
    with open(f"{folder}/chain.lrat", "w") as out:
        number = clauses
        for gate in range(9, GATES + 1):
            number += 1
            hints = " ".join(str(3 * (gate - k - 1) + 1) for k in range(8))
            out.write(f"{number} {-(gate + 2)} {gate - 6} 0 {hints} 0\n")
        out.write(f"{number + 1} 0 {clauses - 1} {3 * GATES - 1} {clauses} 0\n")
    return f"{folder}/chain.aag", f"{folder}/chain.lrat"


def design(folder):
    """A design of 200 lines, and a table of 4 MB for it."""
    lines = ["module m(input clk, input rst, input [31:0] a, input [31:0] b, output [31:0] y, output [7:0] z);"]
    for k in range(32):
        lines += [
            f"  reg [31:0] r{k};",
            f"  wire [31:0] w{k};",
            f"  assign w{k} = (a ^ {{b[15:0], b[31:16]}}) + 32'd{k};",
            "  always @(posedge clk)",
            f"    if (rst) r{k} <= 32'd0;",
            f"    else r{k} <= {'w0' if k == 0 else f'r{k - 1} + w{k}'};",
        ]
    lines += ["  assign y = r31;", "  assign z = r15[7:0];", "endmodule", ""]
    with open(f"{folder}/design.v", "w") as out:
        out.write("\n".join(lines))
    with open(f"{folder}/table.csv", "w") as out:
        out.write("rst,a,b,y,z\n")
        state = 1
        for k in range(ROWS):
            state = (1103515245 * state + 12345) % 2**31
            out.write(f"{1 if k == 0 else 0},{2**31 + state},{2**32 - 1 - state},0b{'x' * 32},x\n")
    return f"{folder}/design.v", f"{folder}/table.csv"


def python_table(name):
    """Reads and writes a table in Python."""
    start = time.perf_counter()
    with open(name, newline="") as text:
        rows = [[int(cell) for cell in row[:3]] for row in list(csv.reader(text))[1:]]
    csv.writer(io.StringIO()).writerows(rows)
    return time.perf_counter() - start


def python_numbers(name):
    """Reads the numbers of a text in Python."""
    start = time.perf_counter()
    with open(name) as text:
        for line in text:
            list(map(int, line.split()))
    return time.perf_counter() - start


def main():
    folder = sys.argv[1] if len(sys.argv) > 1 else tempfile.mkdtemp(prefix="rtl_repair_measure.")
    os.makedirs(folder, exist_ok=True)
    measure, program = build(folder)
    print("| what | time | memory of the run | against |\n|---|---|---|---|")

    text, _, memory = run([measure, "texts", "1048576"])
    found = steps(text)
    tokens, lexed = found["lex"]
    row(f"lexing 1 MiB, {tokens} tokens", lexed, memory, f"{1 / lexed:.0f} MiB a second")
    row("parsing these tokens", found["parse"][1], memory, f"{found['parse'][1] / lexed:.1f} times the lexing")

    circuit, proof = certificate(folder)
    size = os.path.getsize(proof) / 1e6
    python = python_numbers(proof)
    for workers in ("1", "4"):
        text, _, memory = run([measure, "check", circuit, proof, workers])
        found = steps(text)
        if workers == "1":
            row(f"reading a circuit of {GATES} gates", found["read-circuit"][1], memory, "")
            row("making its formula", found["formula"][1], memory, "")
            read = found["read-proof"][1]
            row(f"reading a proof of {size:.0f} MB", read, memory, f"{python / read:.0f} times as fast as Python reads its numbers")
        row(f"checking it with {workers} workers", found["check-proof"][1], memory, "")
    text, seconds, memory = run([program, "check", circuit, proof])
    row(f"`check` on both files: {text.strip()}", seconds, memory, "")

    source, table = design(folder)
    size = os.path.getsize(table) / 1e6
    with open(f"{folder}/printed.csv", "wb") as out:
        _, seconds, memory = run([program, "run", source, table], out)
    python = python_table(table)
    row(f"`run` on {ROWS} rows, {size:.1f} MB", seconds, memory, f"{seconds / python:.0f} times as long as Python reads and writes the table; memory {memory / size:.0f} times its bytes")

    text, _, memory = run([measure, "gates", "5860"])
    found = steps(text)
    row(f"building {found['gates'][0]} gates with sharing", found["gates"][1], memory, "")
    row(f"their formula of {found['formula'][0]} clauses", found["formula"][1], memory, "")

    text, _, memory = run([measure, "chain", "1000000"])
    found = steps(text)
    row(f"holding {found['watch'][0]} clauses for propagation", found["watch"][1], memory, "")
    literals, seconds = found["propagate"]
    row(f"propagating {literals} literals down a chain", seconds, memory, f"{literals / seconds / 1e6:.0f} million literals a second")

    text, _, memory = run([measure, "search", "8", "20000"])
    lines, seconds = steps(text)["search"]
    row(f"search: that 8-bit products commute, {lines} conflicts", seconds, memory, f"{lines / seconds:.0f} conflicts a second")


main()

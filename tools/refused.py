#!/usr/bin/env python3
"""Runs the program with one allocation refused, for each allocation that it makes, and says what came. It is no part of the gate.

usage: tools/refused.py [PROGRAM] [--each] [--step N] [--only WORD]

PROGRAM is crates/rtl_repair/out/rtl_repair where it is not given. For each command below the Nth call of malloc or realloc is refused, N from 1 until a run
meets none, by a library that is put before the C library (LD_PRELOAD; it wants `cc` and the GNU C library). So the program is the one that is shipped, over real files. Each run has to end with status 5,
`out of memory` and nothing printed, or with its own answer; and of the three files of the certificate the first ones are whole and the others are
as they were. --each prints a line for each N, --step N tries each Nth alone. The last line counts; the status is 0 where all is so.

It is no test of the gate, since tests take the one allocator that there is; `rt try --fail-alloc 1..` refuses allocations too, of the program before any proof.
"""
import argparse, os, subprocess, sys, tempfile

from program import built

top = os.path.dirname(os.path.dirname(os.path.abspath(__file__)))

LIBRARY = r"""
#include <errno.h>
#include <fcntl.h>
#include <stdatomic.h>
#include <stddef.h>
#include <stdlib.h>
#include <unistd.h>
extern void *__libc_malloc(size_t);
extern void *__libc_realloc(void *, size_t);
static atomic_long calls;
static long due = -1;
static const char *told;
__attribute__((constructor)) static void begin(void) {
    const char *number = getenv("REFUSED_CALL");
    told = getenv("REFUSED_TOLD");
    if (number) { atomic_store(&calls, 0); due = atol(number); }
}
static int is_refused(void) {
    if (due < 0 || atomic_fetch_add(&calls, 1) + 1 != due) return 0;
    int file = open(told, O_WRONLY | O_CREAT, 0600);
    if (file >= 0) close(file);
    errno = ENOMEM;
    return 1;
}
void *malloc(size_t size) { return is_refused() ? NULL : __libc_malloc(size); }
void *realloc(void *old, size_t size) { return is_refused() ? NULL : __libc_realloc(old, size); }
"""

COUNTER = """module counter(input clk, input rst, output reg [3:0] q);
  always @(posedge clk)
    if (rst) q <= 4'd0;
    else q <= q + 4'd2;
endmodule
"""
SWAP = "module m(input clk, input ld, output reg a, output reg b); always @(posedge clk) if (ld) begin a <= 1'b1; b <= 1'b0; end else begin a <= b; b <= a; end endmodule\n"
ONES = "module m(input [1:0] a, output reg [1:0] y); integer i; always @* begin y = 2'd0; for (i = 0; i < 2; i = i + 1) if (a[i]) y = y + 2'd2; end endmodule\n"
BANK = "module m(input clk, input we, input a, input [1:0] d, output [1:0] y); reg [1:0] r [0:1]; initial r[1] = 2'd3; assign y = r[a]; always @(posedge clk) if (!we) r[a] <= d; endmodule\n"
KEPT = "module m(input i, output y); reg r [0:1]; assign y = r[0]; always @* r[i] <= 1'b1; endmodule\n"
CIRCUIT = "aag 1 1 0 2 0\n2\n2\n3\n"
REPAIR, RUN, SITES, CHECK, MAKE, LINT = "repair d.v t.csv c", "run d.v t.csv", "sites d.v", "check c.aag c.lrat", "make 0 c", "lint d.v"
CERTIFICATE = ("c.aag", "c.cnf", "c.lrat")

# Each command, with its files.
COMMANDS = {
    "repair of a counter": (REPAIR, {"d.v": COUNTER, "t.csv": "rst,q\n1,0\n0,0\n0,1\n0,2\n0,3\n"}),
    "repair of a counter, one member": (REPAIR + " --members 1", {"d.v": COUNTER, "t.csv": "rst,q\n1,0\n0,0\n0,1\n0,2\n0,3\n"}),
    "repair without an answer": (REPAIR, {"d.v": "module m(input a, output y); assign y = a; endmodule\n", "t.csv": "a,y\n0,0\n0,1\n"}),
    "run of a swap": (RUN, {"d.v": SWAP, "t.csv": "ld\n1\n0\n0\n"}),
    "run of a loop": (RUN, {"d.v": ONES, "t.csv": "a\n0\n3\n"}),
    "repair of a loop": (REPAIR, {"d.v": ONES, "t.csv": "a,y\n0,0\n1,1\n3,2\n"}),
    "run of a memory": (RUN, {"d.v": BANK, "t.csv": "we,a,d\n0,1,2\n1,1,1\n"}),
    "repair of a memory": (REPAIR, {"d.v": BANK, "t.csv": "we,a,d,y\n1,0,2,0\n0,0,1,2\n0,1,1,3\n0,0,0,2\n"}),
    "lint of a memory that is kept": (LINT, {"d.v": KEPT}),
    "sites of a counter": (SITES, {"d.v": COUNTER}),
    "lint of a latch": (LINT, {"d.v": "module m(input e, input a, output reg y); always @* if (e) y <= a; endmodule\n"}),
    "check that accepts": (CHECK, {"c.aag": CIRCUIT, "c.lrat": "3 0 1 2 0\n"}),
    "check of a line cut short": (CHECK, {"c.aag": CIRCUIT, "c.lrat": "3 0 1 2\n"}),
    "check of a bad addition": (CHECK, {"c.aag": CIRCUIT, "c.lrat": "3 1 0 1 0\n4 0 1 0\n5 0 2 0\n"}),
    "check without an empty clause": (CHECK, {"c.aag": CIRCUIT, "c.lrat": "3 1 0 1 0\n"}),
    "check of a RAT line": (CHECK, {"c.aag": CIRCUIT, "c.lrat": "3 0 -1 2 0\n"}),
    "usage": ("repair d.v", {}),
}


def run(program, line, files, number, library):
    """How a run ends with the call of this number refused (none for 0), whether it was met, and the certificate that it leaves."""
    with tempfile.TemporaryDirectory() as folder:
        for name, text in files.items():
            with open(f"{folder}/{name}", "w") as file:
                file.write(text)
        given = dict(os.environ)
        if number:
            given.update(LD_PRELOAD=library, REFUSED_CALL=str(number), REFUSED_TOLD=f"{folder}/told")
        done = subprocess.run([program, *line.split()], cwd=folder, capture_output=True, timeout=60, env=given)
        held = {}
        for name in CERTIFICATE:
            if name not in files and os.path.exists(f"{folder}/{name}"):
                with open(f"{folder}/{name}", "rb") as file:
                    held[name] = file.read()
        for name, text in files.items():
            with open(f"{folder}/{name}") as file:
                if file.read() != text:
                    held["changed"] = name
        others = set(os.listdir(folder)) - set(files) - set(CERTIFICATE) - {"told"}
        if others:
            held["others"] = sorted(others)
        return (done.returncode, done.stdout, done.stderr), os.path.exists(f"{folder}/told"), held


def wrong_with(ended, held, own, whole):
    """What may not come of such a run, or None."""
    fronts = [dict(list(whole.items())[:count]) for count in range(len(whole) + 1)]
    if held not in fronts:
        return f"the files {sorted(held)} are no whole files of a front of the names"
    if ended == own:
        return None if held == whole else f"its own answer with the files {sorted(held)}"
    if ended != (5, b"", b"out of memory\n"):
        return f"status {ended[0]}, output {ended[1][:80]!r}, standard error {ended[2][:80]!r}"
    return None


def main():
    words = argparse.ArgumentParser()
    words.add_argument("program", nargs="?")
    words.add_argument("--each", action="store_true")
    words.add_argument("--step", type=int, default=1)
    words.add_argument("--only", default="")
    asked = words.parse_args()
    program = os.path.abspath(asked.program) if asked.program else built()
    passed = failed = 0
    with tempfile.TemporaryDirectory() as room:
        with open(f"{room}/refused.c", "w") as file:
            file.write(LIBRARY)
        library = f"{room}/refused.so"
        subprocess.run(["cc", "-O1", "-shared", "-fPIC", "-o", library, f"{room}/refused.c"], check=True)
        for name, (line, files) in COMMANDS.items():
            if asked.only not in name:
                continue
            own, _, whole = run(program, line, files, 0, library)
            number, tried, memory, answers, bad = 1, 0, 0, 0, 0
            while True:
                ended, is_met, held = run(program, line, files, number, library)
                wrong = wrong_with(ended, held, own, whole)
                if wrong:
                    bad += 1
                    print(f"FAILED {name}, allocation {number}: {wrong}", flush=True)
                if not is_met:
                    break
                tried, memory, answers = tried + 1, memory + (ended[0] == 5), answers + (ended == own)
                if asked.each:
                    print(f"{name}, allocation {number}: status {ended[0]}, {len(held)} files", flush=True)
                number += asked.step
            print(f"{name} (status {own[0]}): {tried} allocations refused, {memory} ended with status 5, {answers} with its own answer, {bad} failed", flush=True)
            passed, failed = passed + tried - bad, failed + bad
    print(f"{passed} passed, {failed} failed")
    return 1 if failed else 0


if __name__ == "__main__":
    sys.exit(main())

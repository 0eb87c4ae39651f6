#!/usr/bin/env python3
"""Runs every command that the pages show on the designs of examples/, and compares what is printed with the files beside them.
It is no part of the gate, and nothing of it is proved.

usage: tools/examples.py [PROGRAM]

PROGRAM is ./rtl_repair where it is not given. For each folder of examples/ with a design and a table: `run` prints run.csv,
`sites` prints sites.txt, `lint` prints design.v, `repair` prints repaired.v and reports report.txt, `check` accepts the certificate, and the repaired
source, run again, gives each known cell of the table. tools/misses.py and tools/waves.py find the design's misses and none of the repaired one's.
Where a dump wave.vcd stands beside the table, `run` and `repair` print the same for it.
The last line counts; the status is 0 where all is as it should be.
"""
import os, subprocess, sys, tempfile
from xml.dom import minidom

from cells import misses

top = os.path.dirname(os.path.dirname(os.path.abspath(__file__)))
program = os.path.abspath(sys.argv[1]) if len(sys.argv) > 1 else f"{top}/rtl_repair"


def run(folder, *words):
    """The status, the standard output and the standard error of the program on these words."""
    done = subprocess.run([program, *words], cwd=folder, capture_output=True, text=True)
    return done.returncode, done.stdout, done.stderr


def text(path):
    with open(path, encoding="utf-8", newline="") as file:
        return file.read()


def judge(folder):
    """What is not as it should be in a folder of examples."""
    wrong = []

    def check(what, found, due):
        if found != due:
            wrong.append(f"{what}: {found!r} in place of {due!r}")

    check("run", run(folder, "run", "design.v", "table.csv"), (0, text(f"{folder}/run.csv"), ""))
    check("sites", run(folder, "sites", "design.v"), (0, text(f"{folder}/sites.txt"), ""))
    check("lint", run(folder, "lint", "design.v"), (0, text(f"{folder}/design.v"), ""))
    if os.path.exists(f"{folder}/wave.vcd"):
        check("run on the dump", run(folder, "run", "design.v", "wave.vcd"), (0, text(f"{folder}/run.csv"), ""))
        with tempfile.TemporaryDirectory() as room:
            repaired = run(folder, "repair", "design.v", "wave.vcd", f"{room}/cert")
            check("repair by the dump", repaired, (0, text(f"{folder}/repaired.v"), text(f"{folder}/report.txt")))
    with tempfile.TemporaryDirectory() as room:
        cert = f"{room}/cert"
        repaired = run(folder, "repair", "design.v", "table.csv", cert)
        check("repair", repaired, (0, text(f"{folder}/repaired.v"), text(f"{folder}/report.txt")))
        check("check", run(folder, "check", f"{cert}.aag", f"{cert}.lrat"), (0, "accepted\n", ""))
        with open(f"{room}/repaired.v", "w", encoding="utf-8", newline="") as file:
            file.write(repaired[1])
        again = run(folder, "run", f"{room}/repaired.v", "table.csv")
        check("the repaired design", (again[0], misses(text(f"{folder}/table.csv"), again[1])), (0, []))
        due = misses(text(f"{folder}/table.csv"), text(f"{folder}/run.csv"))
        check("misses.py", told(folder, "design.v"), ([it.split()[1:] for it in due], 1 if due else 0))
        check("misses.py on the repaired design", told(folder, f"{room}/repaired.v"), ([], 0))
        drawn = tool("waves.py", folder, "design.v", f"{room}/waves")[0]
        parsed = minidom.parse(f"{room}/waves.svg").documentElement.tagName if os.path.exists(f"{room}/waves.svg") else None
        check("waves.py", (drawn, parsed, os.path.exists(f"{room}/waves.vcd")), (1 if due else 0, "svg", True))
    return wrong


def tool(name, folder, design, *words):
    """The status and the standard output of a tool on a design and the folder's table."""
    call = [sys.executable, f"{top}/tools/{name}", design, "table.csv", *words, "--program", program]
    done = subprocess.run(call, cwd=folder, stdout=subprocess.PIPE, text=True)
    return done.returncode, done.stdout


def told(folder, design):
    """The rows and ports that misses.py tells, and its status."""
    status, lines = tool("misses.py", folder, design, "--all")
    return [it.split()[1:3] for it in lines.splitlines() if it.startswith("row ")], status


def main():
    # (without words the program only writes its usage; before that it is built, which tells its progress)
    subprocess.run([program], stdout=subprocess.DEVNULL)
    passed = failed = 0
    for name in sorted(os.listdir(f"{top}/examples")):
        folder = f"{top}/examples/{name}"
        if not os.path.exists(f"{folder}/table.csv"):
            continue
        wrong = judge(folder)
        for line in wrong:
            print(f"{name}: {line}")
        passed, failed = passed + (not wrong), failed + bool(wrong)
    print(f"{passed} passed, {failed} failed")
    return 1 if failed else 0


sys.exit(main())

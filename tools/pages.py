#!/usr/bin/env python3
"""Runs every command line of the pages, and compares what is printed with what the page says. It is no part of the gate.

usage: tools/pages.py [PROGRAM]

In README.md and docs/*.md a line of a block that begins with `$ ` is a command; the lines up to the next one are what it prints, standard output and
then standard error. Each page has a folder of its own with examples/, tools/ and rtl_repair, which is PROGRAM where that is given. A line whose
command the machine does not have is told as skipped. The last line counts; the status is 0 where all is as the pages say.
"""
import os, re, shutil, subprocess, sys, tempfile

top = os.path.dirname(os.path.dirname(os.path.abspath(__file__)))
program = os.path.abspath(sys.argv[1]) if len(sys.argv) > 1 else f"{top}/rtl_repair"


def commands(page):
    """The command lines of a page with what each is to print; a `\\` at the end of a line goes on in the next."""
    for block in re.findall(r"(?ms)^```(?:\w*)\n(.*?)^```$", page):
        if block.startswith("$ "):
            for part in re.split(r"(?m)^\$ ", block.replace("\\\n", ""))[1:]:
                line, _, due = part.partition("\n")
                yield line, due


def lacks(line):
    """The first command of a line that the machine does not have."""
    used = [part.split()[0] for part in re.split(r"&&|\||;", line) if part.split()]
    return next((it for it in used if "/" not in it and "=" not in it and not shutil.which(it) and it not in ("cd", "ulimit")), None)


def judged(name):
    """How many lines of a page passed, failed and were skipped."""
    with open(f"{top}/{name}", encoding="utf-8") as file:
        lines = list(commands(file.read()))
    counts = [0, 0, 0]
    with tempfile.TemporaryDirectory() as room:
        for it in ("examples", "tools"):
            shutil.copytree(f"{top}/{it}", f"{room}/{it}", ignore=shutil.ignore_patterns("__pycache__"))
        with open(f"{room}/rtl_repair", "w") as file:
            file.write(f'#!/bin/sh\nexec {program} "$@"\n')
        os.chmod(f"{room}/rtl_repair", 0o755)
        for line, due in lines:
            missing = lacks(line)
            if missing:
                print(f"{name}: skipped, no {missing}: {line}")
                counts[2] += 1
                continue
            done = subprocess.run(["sh", "-c", line], cwd=room, capture_output=True, text=True, stdin=subprocess.DEVNULL)
            found = done.stdout + done.stderr
            counts[found != due] += 1
            if found != due:
                print(f"{name}: {line}: {found!r} in place of {due!r}")
    return counts


def main():
    # (without words the program only writes its usage; before that it is built, which tells its progress)
    subprocess.run([program], stdout=subprocess.DEVNULL)
    pages = ["README.md", *sorted(f"docs/{it}" for it in os.listdir(f"{top}/docs") if it.endswith(".md"))]
    passed, failed, skipped = map(sum, zip(*[judged(it) for it in pages]))
    print(f"{passed} passed, {failed} failed, {skipped} skipped")
    return 1 if failed else 0


if __name__ == "__main__":
    sys.exit(main())

#!/usr/bin/env python3
"""Measures what the merge gate costs, and prints a table of processor minutes by crate. It is no part of the gate.

usage: tools/gate_cost.py

It is started beside `rt ci`, before it or while it runs, and prints its table when no `rt ci` runs any more, or at an
interrupt. Until then it looks at the processes of the machine twice a second, and adds up the processor time of each check
that an `rt ci` started: that of a crate's own proof, of its tests, of the second proof of the crate that its must-fail edits
start from where there are several, and of the edits. What a check takes after the last look at it is not counted, nor
are the runs of tests and programs. Crates that an earlier run kept are not proved again, so they are missing: `rt ci
--anew` measures all.
"""

import os
import signal
import sys
import time

TOP = os.path.dirname(os.path.dirname(os.path.abspath(__file__)))
TICKS = os.sysconf("SC_CLK_TCK")
KINDS = ("proof", "tests", "start", "edits")
BETWEEN = 0.5
# Between two checks of a run there are moments without any, and a run that was started beside this may not have begun.
PATIENCE = 30


class Process:
    """A process as /proc shows it."""

    def __init__(self, number):
        with open(f"/proc/{number}/cmdline", errors="replace") as text:
            self.words = text.read().split("\0")[:-1]
        with open(f"/proc/{number}/stat") as text:
            fields = text.read().rpartition(")")[2].split()
        self.above, self.start = int(fields[1]), fields[19]
        self.seconds = (int(fields[11]) + int(fields[12])) / TICKS

    def is_gate(self):
        return any(os.path.basename(one) == "rt" and other == "ci" for one, other in zip(self.words, self.words[1:]))

    def is_check(self):
        return os.path.basename(self.words[0]) == "rattle" and "--crate-name" in self.words if self.words else False


def processes():
    """The processes of the machine by their numbers."""
    found = {}
    for number in map(int, filter(str.isdigit, os.listdir("/proc"))):
        try:
            found[number] = Process(number)
        except (OSError, IndexError):
            # It ended meanwhile.
            pass
    return found


def is_below_a_gate(number, found):
    while number in found:
        if found[number].is_gate():
            return True
        number = found[number].above
    return False


def kind_of(number, words):
    """What a check is for. The gate tries edits on copies of a crate, in folders of their own, over what is in a folder `seed`."""
    if os.path.basename(os.readlink(f"/proc/{number}/cwd")).startswith("rt-edit-"):
        return "start" if any(word.endswith("/seed") for word in words) else "edits"
    return "tests" if "--test" in words else "proof"


def look(checks):
    """Notes how much processor time each check has taken, and answers whether any gate runs."""
    found = processes()
    for number, process in found.items():
        if process.is_check() and is_below_a_gate(number, found):
            try:
                kind = kind_of(number, process.words)
            except OSError:
                continue
            crate = process.words[process.words.index("--crate-name") + 1]
            checks[number, process.start] = (crate, kind, process.seconds)
    return any(process.is_gate() for process in found.values())


def watch():
    """The checks of the gates that run, until none has run for a while: crate, kind and seconds of each."""
    checks, last = {}, time.monotonic()
    signal.signal(signal.SIGTERM, signal.default_int_handler)
    try:
        while time.monotonic() - last < PATIENCE:
            if look(checks):
                last = time.monotonic()
            time.sleep(BETWEEN)
    except KeyboardInterrupt:
        pass
    return checks.values()


def by_crate(checks):
    """The minutes of each crate, by kind."""
    minutes = {}
    for crate, kind, seconds in checks:
        row = minutes.setdefault(crate, dict.fromkeys(KINDS, 0))
        row[kind] += seconds / 60
    return minutes


def below():
    """The crates that each crate stands on, in the order of crates.txt, where a crate stands above those that use it."""
    crates = {}
    with open(f"{TOP}/crates.txt") as text:
        for line in text:
            name, colon, names = line.partition("#")[0].partition(":")
            if colon:
                crates[name.split()[0]] = [it for it in names.split() if it in crates]
    return crates


def longest_chain(minutes):
    """The minutes and the crates of the chain whose proofs take longest, lowest crate first."""
    chains = {}
    for crate, crates in below().items():
        before, names = max((chains[it] for it in crates), default=(0, []))
        chains[crate] = (before + minutes.get(crate, {}).get("proof", 0), [*names, crate])
    return max(chains.values())


def main():
    minutes = by_crate(watch())
    if not minutes:
        print("no check of a gate ran", file=sys.stderr)
        return 1
    print(f"| crate | {' | '.join(KINDS)} | all |\n|---|{'---|' * len(KINDS)}---|")
    for crate, row in sorted(minutes.items(), key=lambda it: -sum(it[1].values())):
        show(f"`{crate}`", row)
    show("all", {kind: sum(row[kind] for row in minutes.values()) for kind in KINDS})
    longest, crates = longest_chain(minutes)
    print(f"\nThe longest chain of proofs takes {longest:.1f} minutes: {' '.join(f'`{it}`' for it in crates)}.")
    return 0


def show(name, row):
    print(f"| {name} | {' | '.join(f'{row[kind]:.1f}' for kind in KINDS)} | {sum(row.values()):.1f} |")


if __name__ == "__main__":
    sys.exit(main())

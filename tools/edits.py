#!/usr/bin/env python3
"""Tries the must-fail edits that stand outside the gate, and prints what became of each. It is no part of the gate.

usage: tools/edits.py NAME..

For each crate NAME it copies crates.txt, HANDLES and crates/ (with what earlier checks kept in out/) into a temporary folder, puts
the edits of tools/edits/NAME, which turn code, and of tools/definitions/NAME, which turn a definition that a law of the crate is about, beside
those of crates/NAME/must-fail, and calls `rt must-fail NAME`: the prover must refuse each. The first time the crates below NAME are proved
too. The status is 0 where all were refused.
"""
import os, shutil, subprocess, sys, tempfile

top = os.path.dirname(os.path.dirname(os.path.abspath(__file__)))
KINDS = ("edits", "definitions")


def tried(name):
    """Whether all edits of a crate are refused."""
    with tempfile.TemporaryDirectory(prefix="edits-") as room:
        for it in ("crates.txt", "HANDLES"):
            shutil.copy(f"{top}/{it}", room)
        shutil.copytree(f"{top}/crates", f"{room}/crates")
        for kind in KINDS:
            if os.path.isdir(f"{top}/tools/{kind}/{name}"):
                shutil.copytree(f"{top}/tools/{kind}/{name}", f"{room}/crates/{name}/must-fail", dirs_exist_ok=True)
        return subprocess.run(["rt", "must-fail", name], cwd=room).returncode == 0


names = sys.argv[1:]
known = sorted({it for kind in KINDS for it in os.listdir(f"{top}/tools/{kind}")})
if not names or not set(names) <= set(known):
    sys.exit(f"usage: tools/edits.py NAME..   where NAME is one of {' '.join(known)}")
sys.exit(0 if all([tried(it) for it in names]) else 1)

#!/usr/bin/env python3
"""Lists the definitions that contracts cite, as they stand in the sources: by crate and file, each with the comment above it.

usage: tools/words.py [WORD]

With WORD those alone whose name, file or comment has it, in any case. A definition stands once, in the `specs/` of the lowest crate that speaks of it.
"""
import os, re, signal, sys

top = os.path.dirname(os.path.dirname(os.path.abspath(__file__)))
NAMED = re.compile(r"(?:abbrev |unfoldable )?pub (?:abbrev |record |data )?([\w◌]+)")


def definitions(path):
    """The public names of a file of definitions, each with the comment lines before it."""
    said = []
    with open(path, encoding="utf-8") as file:
        for line in file:
            if line.startswith("--"):
                said.append(line.lstrip("- ").strip())
                continue
            found = NAMED.match(line)
            # (indented lines are fields and cases of a definition)
            if found and found[1] != "mod" and not line.startswith(" "):
                yield found[1], " ".join(said)
            said = []


def main(words):
    wanted = words[0].lower() if words else ""
    for crate in sorted(os.listdir(f"{top}/crates")):
        folder = f"{top}/crates/{crate}/specs"
        for name in sorted(os.listdir(folder)) if os.path.isdir(folder) else []:
            if name != "Lib.antt" and name.endswith(".antt"):
                for word, said in definitions(f"{folder}/{name}"):
                    if wanted in f"{word} {name} {said}".lower():
                        print(f"{crate}/{name[:-5]}.{word}" + (f"  -- {said}" if said else ""))


if __name__ == "__main__":
    signal.signal(signal.SIGPIPE, signal.SIG_DFL)
    main(sys.argv[1:])

#!/usr/bin/env python3
"""Checks a certificate without the program: that the formula is that of the circuit, and that the proof refutes it.

usage: tools/lrat_check.py NAME

It reads NAME.aag, NAME.cnf and NAME.lrat by the rules of docs/CERTIFICATE.md, shares nothing with the crates, and is short enough to be read. It is no
part of the gate. The status is 0 where it prints `accepted`.
"""
import sys


def lines(path):
    with open(path, encoding="ascii") as file:
        return [line.split() for line in file]


def formula_of(circuit):
    """The clauses of a circuit: three for each gate, then its outputs."""
    header = circuit[0]
    inputs, outputs, gates = int(header[2]), int(header[4]), int(header[5])
    literal = lambda word: (int(word) // 2) * (-1 if int(word) % 2 else 1)
    clauses = []
    for left, first, second in circuit[1 + inputs + outputs : 1 + inputs + outputs + gates]:
        a, b, c = literal(left), literal(first), literal(second)
        clauses += [[-a, b], [-a, c], [a, -b, -c]]
    for (word,) in circuit[1 + inputs : 1 + inputs + outputs]:
        if word != "1":
            clauses.append([] if word == "0" else [literal(word)])
    return clauses


def passes(clause, hints, known):
    """The hint check: the clause's literals are false, and each hint has one literal left, until one has none."""
    false = set(clause)
    if any(-it in false for it in false):
        return False
    for hint in hints:
        left = {it for it in known.get(hint, ()) if it not in false} if hint in known else None
        if left is None or len(left) > 1:
            return False
        if not left:
            return True
        (it,) = left
        if -it in false:
            return False
        false.add(-it)
    return False


def main(name):
    formula = lines(f"{name}.cnf")
    clauses = [[int(it) for it in line[:-1]] for line in formula[1:]]
    if sorted(map(sorted, clauses)) != sorted(map(sorted, formula_of(lines(f"{name}.aag")))):
        return "the formula is not that of the circuit"
    known, is_refuted = dict(enumerate(clauses, 1)), False
    for number, line in enumerate(lines(f"{name}.lrat"), 1):
        if line[1] == "d":
            continue
        words = list(map(int, line))
        end = words.index(0, 1)
        clause, hints = words[1:end], words[end + 1 : -1]
        if words[0] in known or not passes(clause, hints, known):
            return f"line {number} does not follow"
        known[words[0]] = clause
        is_refuted = is_refuted or not clause
    return "accepted" if is_refuted else "no empty clause"


if __name__ == "__main__":
    verdict = main(sys.argv[1])
    print(verdict)
    sys.exit(verdict != "accepted")

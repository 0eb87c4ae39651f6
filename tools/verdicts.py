"""What `check` has to say of a circuit and a proof, by the rules of docs/CERTIFICATE.md. It shares nothing with the crates."""
import itertools, re

from lrat_check import passes

NUMBER = re.compile(rb"0|[1-9][0-9]*")
MOST = 1 << 62


class Bad(Exception):
    """A text that is refused: its number, and its line."""


def lines_of(text):
    """The lines that end in LF, and what follows the last of them."""
    parts = text.split(b"\n")
    return parts[:-1], parts[-1]


def numbers(line, count):
    """So many numbers with single blanks between, or None."""
    words = line.split(b" ")
    if len(words) != count or not all(NUMBER.fullmatch(it) for it in words):
        return None
    return [int(it) if len(it) < 30 else MOST for it in words]


def read_circuit(text):
    """The inputs, the outputs and the gates of a circuit."""
    lines, rest = lines_of(text)
    at = 0

    def due(count):
        nonlocal at
        at += 1
        found = numbers(lines[at - 1], count) if at <= len(lines) else None
        if found is None:
            raise Bad(34, at)
        return found

    at = 1
    head = lines[0] if lines else b""
    words = numbers(head[4:], 5) if head.startswith(b"aag ") else None
    if words is None:
        raise Bad(34, 1)
    most, inputs, latches, outputs, gates = words
    if latches or most != inputs + gates or most >= MOST or outputs >= MOST:
        raise Bad(34, 1)
    for number in range(1, inputs + 1):
        if due(1) != [2 * number]:
            raise Bad(34, at)
    wires = []
    for _ in range(outputs):
        (wire,) = due(1)
        if wire > 2 * most + 1:
            raise Bad(34, at)
        wires.append(wire)
    ands = []
    for number in range(gates):
        left, first, second = due(3)
        if left != 2 * (inputs + number + 1) or not (2 <= first < left and 2 <= second < left):
            raise Bad(34, at)
        ands.append((left, first, second))
    after = (lines[at:] + [rest])[0]
    if (at < len(lines) or rest) and after[:1] not in (b"i", b"o", b"c"):
        raise Bad(34, at + 1)
    return inputs, wires, ands


def formula_of(inputs, wires, ands):
    """The number of variables, and the clauses."""
    literal = lambda wire: -(wire // 2) if wire % 2 else wire // 2
    clauses = []
    for left, first, second in ands:
        a, b, c = literal(left), literal(first), literal(second)
        clauses += [[-a, b], [-a, c], [a, -b, -c]]
    clauses += [[] if wire == 0 else [literal(wire)] for wire in wires if wire != 1]
    return inputs + len(ands), clauses


SIGNED = rb"-?[1-9][0-9]*"
ADDITION = re.compile(rb"([1-9][0-9]*) ((?:%s )*)0 ((?:%s )*)0" % (SIGNED, SIGNED))
DELETION = re.compile(rb"([1-9][0-9]*) d ((?:[1-9][0-9]* )*)0")


def read_proof(text, variables, count):
    """The additions of a proof over so many variables and clauses."""
    lines, rest = lines_of(text)
    additions, last = [], count
    small = lambda words: all(len(it) < 21 and abs(int(it)) < MOST for it in words)
    for number, line in enumerate(lines, 1):
        deletion = DELETION.fullmatch(line)
        if deletion:
            if not small([deletion[1], *deletion[2].split()]):
                raise Bad(35, number)
            continue
        found = ADDITION.fullmatch(line)
        if not found or not small([found[1], *found[2].split(), *found[3].split()]):
            raise Bad(35, number)
        clause, hints = [int(it) for it in found[2].split()], [int(it) for it in found[3].split()]
        if any(it < 0 for it in hints):
            raise Bad(36, number)
        if int(found[1]) <= last or any(abs(it) > variables or -it in clause for it in clause):
            raise Bad(35, number)
        last = int(found[1])
        additions.append((last, clause, hints))
    if rest:
        raise Bad(35, len(lines) + 1)
    return additions


def verdict(circuit, proof):
    """The status, the standard output and the standard error."""
    try:
        variables, clauses = formula_of(*read_circuit(circuit))
        additions = read_proof(proof, variables, len(clauses))
    except Bad as bad:
        number, line = bad.args
        name = {34: "BadCircuit", 35: "BadProof", 36: "RatLine"}[number]
        return 3, b"", f"refused {number} {name} line {line}\n".encode()
    known = dict(enumerate(clauses, 1))
    for number, (it, clause, hints) in enumerate(additions, 1):
        if not passes(clause, hints, known):
            return 1, f"refused addition {number}\n".encode(), b""
        known[it] = clause
    if any(not clause for _, clause, _ in additions):
        return 0, b"accepted\n", b""
    return 1, b"no empty clause\n", b""


def is_refuted(circuit):
    """Whether no input makes every output of a circuit of few inputs true, by trying all."""
    inputs, wires, ands = read_circuit(circuit)
    for values in itertools.product((False, True), repeat=inputs):
        held = [False, *values]
        value = lambda wire: held[wire // 2] != bool(wire % 2)
        for _, first, second in ands:
            held.append(value(first) and value(second))
        if all(value(wire) for wire in wires):
            return False
    return True

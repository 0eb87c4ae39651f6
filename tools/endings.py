"""How the program may end: its statuses, and the texts on standard error that belong to each."""
import re

NUMBER = r"(0|[1-9]\d*)"
NAMES = ("BadByte BadNumber OpenComment Directive Unsupported Syntax NoTop UnknownModule SelfInstance NameTwice UnknownName BadRange NotConstant PortMismatch TooWide TooMany TwoDrivers WrongAssign Race "
         "Latch Loop ClockUse TwoClocks BadTarget WildLabel NoHeader UnknownColumn ColumnTwice MissingInput RowLength BadCell CellTooLarge NotUtf8 BadCircuit BadProof RatLine").split()
NUMBERED = {**dict(enumerate(NAMES, 1)), 37: "BadLoop", 38: "UnknownMacro", 39: "BadDirective", 40: "MacroLoop", 41: "BadVcd", 42: "NoScope", 43: "FromMacro"}
LIMITS = "bytes rows sites instances depth flatbits turns unfolded words work expanded".split()


def place(number):
    """The form of the place of a refusal."""
    if number == 16:
        return rf" ({'|'.join(LIMITS)}) {NUMBER}"
    if number == 7:
        return " at 0"
    if number <= 25 or number in (37, 38, 39, 40, 43):
        return f" at {NUMBER}"
    if number == 26:
        return " row 0"
    if number in (27, 28):
        return f" row 0 column {NUMBER}"
    if number == 29:
        return r" input [!-~]+"
    if number == 30:
        return f" row {NUMBER}"
    if number in (31, 32):
        return f" row {NUMBER} column {NUMBER}"
    return "" if number in (33, 42) else f" line {NUMBER}"


GUARD = r"(!\(E\)|\(E\) (&&|\|\|) !?[!-~]+)"
LITERAL = r"\d+'s?h[0-9a-f]+"
OVERWRITE = rf"if \((1'h1|!?[!-~]+)\) [!-~]+ <?= {LITERAL};"
CHANGE = rf"site {NUMBER} (literal {NUMBER} {LITERAL}|guard {NUMBER} {GUARD}|overwrite {NUMBER} {OVERWRITE})\n"
FORMS = {
    0: rf"|unchanged\n|repaired {NUMBER}\n({CHANGE})+proposals {NUMBER}\n",
    1: rf"|no repair\nsites {NUMBER}\n",
    2: rf"budget spent {NUMBER} bound {NUMBER}\n(found {NUMBER}\n({CHANGE})+)?",
    3: "|".join(rf"refused {number} {name}{place(number)}\n" for number, name in NUMBERED.items()),
    4: r"|(absent [^\n]+|fault (read|write) [^\n]+|fault out)\n",
    5: r"out of memory\n",
    6: r"usage: rtl_repair repair DESIGN TABLE CERT, run DESIGN TABLE, sites DESIGN, check CIRCUIT PROOF, make SEED CERT, lint DESIGN\n",
}
FORMS = {status: re.compile(form) for status, form in FORMS.items()}
FOUND = re.compile(rb"budget spent \d+ bound (\d+)\n(?:found (\d+)\n)?")


def fault_of(status, out, notes):
    """What may not come of an ending with these bytes on standard output and standard error, or None."""
    if status not in FORMS:
        return f"status {status} with {notes[-200:]!r}"
    if not FORMS[status].fullmatch(notes.decode("utf-8", "replace")):
        return f"standard error {notes[:200]!r} at status {status}"
    if status in (3, 5, 6) and out:
        return f"output at status {status}"
    if status == 2:
        bound, found = FOUND.match(notes).groups()
        if found and (int(found) != int(bound) + 1 or notes.count(b"\nsite ") != int(found)):
            return f"standard error {notes[:200]!r} at status 2"
        if out and not found:
            return "output at status 2, and nothing found"
    return None

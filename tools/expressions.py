"""Expressions drawn at random, form by form, for the tools that make designs. It is no part of the gate.

Each function draws from the given `draw`, a random.Random, and asks `inner` for an operand, or `part` for a part of a concatenation.
"""

INFIXES = "+ - * & | ^ ~^ == != < <= > >= && ||".split()
SHIFTS = "<< >> <<< >>>".split()
PREFIXES = "~ - + ! & | ^ ~& ~| ~^".split()


def infix(draw, inner, operators=INFIXES):
    return f"({inner()} {draw.choice(operators)} {inner()})"


def prefix(draw, inner):
    return f"{draw.choice(PREFIXES)}({inner()})"


def conditional(draw, inner):
    return f"({inner()} ? {inner()} : {inner()})"


def cast(draw, inner):
    return f"${draw.choice(('signed', 'unsigned'))}({inner()})"


def concatenation(draw, part, most=3):
    return "{" + ", ".join(part() for _ in range(draw.randrange(1, most + 1))) + "}"


def replication(draw, part):
    return f"{{{draw.randrange(1, 4)}{{{part()}}}}}"


def one_of(draw, *forms):
    """What one of these forms gives, each as likely as the others."""
    return draw.choice(forms)()

#!/usr/bin/env python3
"""Blanks what a cycle has no meaning for, so that the profile takes a source of every day, and puts it back into the repaired source.

usage: tools/plain.py DESIGN                    prints the design with these bytes as blanks, so that every other byte keeps its place:
                                                delays of nets, of continuous assignments and behind `<=`; tasks that only print ($display,
                                                $write, $strobe, $monitor and their kin), also in `initial` items, and these whole where
                                                they do nothing else; `specify` blocks; attributes that hold comment marks
       tools/plain.py --back DESIGN REPAIRED    prints the repaired source of what the first call printed, with the blanked bytes as they were

What cannot be blanked without a change of what a cycle does is told on standard error with its line, and nothing is printed (status 1): a delay
before a statement or behind `=` in an `always` (what is read after it is read later).
"""
import re, sys

TOKEN = re.compile(
    r"""(?P<blank>[ \t\r\n\f]+|//[^\n]*|/\*.*?\*/)|(?P<attribute>\(\*(?![ \t\r\n]*\))(?:"(?:\\.|[^"\\])*"|.)*?\*\))|(?P<string>"(?:\\.|[^"\\\n])*")
    |(?P<directive>`(?:timescale|default_nettype|resetall|celldefine|endcelldefine|include|define|undef|ifn?def)\b[^\n]*|`\w+)|(?P<name>[A-Za-z_$][\w$]*|\\[!-~]+)|(?P<number>\d[\d_]*(?:\.\d+)?(?:[a-z]+\b)?(?:\s*'[sS]?[bodhBODH]\s*[\da-fA-FxXzZ?_]+)?|'[sS]?[bodhBODH]\s*[\da-fA-FxXzZ?_]+)
    |(?P<mark>===|!==|<<<|>>>|\*\*|==|!=|<=|>=|<<|>>|&&|\|\||~&|~\||~\^|\^~|\+:|-:|.)""",
    re.S | re.X,
)
PRINTS = re.compile(r"\$f?(display|write|strobe|monitor)[bho]?$|\$(monitoron|monitoroff|dumpfile|dumpvars|dumpon|dumpoff|timeformat|info|warning|error)$")
NETS = {"wire", "tri", "assign", "signed", "wand", "wor", "]"}


class Refused(Exception):
    """What cannot be blanked, and its place."""


class Source:
    """A text with its tokens, and which of its bytes are to be blanks."""

    def __init__(self, text):
        self.text, self.cuts = text, []
        self.tokens = [it for it in TOKEN.finditer(text) if it.lastgroup != "blank"]
        self.words = [it[0] if it.lastgroup != "string" else '""' for it in self.tokens]

    def cut(self, first, last):
        """Blanks the tokens from the first to the last, with what stands between them."""
        self.cuts.append((self.tokens[first].start(), self.tokens[last].end()))

    def refuse(self, at, why):
        raise Refused(f"line {self.text.count(chr(10), 0, self.tokens[at].start()) + 1}: {why}")

    def after(self, at):
        """The place behind a parenthesis that opens at a place, and what stands in it."""
        depth = 0
        while at < len(self.words):
            depth += (self.words[at] == "(") - (self.words[at] == ")")
            at += 1
            if not depth:
                return at
        self.refuse(at - 1, "a parenthesis without its end")

    def to(self, at, word):
        """The place of the next token that is this word."""
        while at < len(self.words) and self.words[at] != word:
            at += 1
        return at if at < len(self.words) else self.refuse(at - 1, f"no {word} behind this")

    def statement(self, at):
        """The place behind the statement that begins at a place: of an `initial` item, where only plain forms are followed."""
        if self.words[at] == "for":
            return self.statement(self.after(at + 1))
        if self.words[at] != "begin":
            return self.to(at, ";") + 1
        depth = 0
        while True:
            depth += (self.words[at] in ("begin", "case", "fork")) - (self.words[at] in ("end", "endcase", "join"))
            at += 1
            if not depth:
                return at
            if at == len(self.words):
                self.refuse(at - 1, "no end of a block")


def blank_initial(source, at):
    """Blanks what an `initial` item prints, and the whole item where it sets nothing."""
    end = source.statement(at + 1)
    prints, sets, place = [], False, at + 1
    while place < end:
        if source.words[place] == "for":
            place = source.after(place + 1)
            continue
        if PRINTS.match(source.words[place]):
            # (its `;` stays, as it may be all of a loop's body)
            stop = source.to(place, ";")
            prints.append((place, stop - 1))
            place = stop
        sets = sets or source.words[place] in ("=", "<=")
        place += 1
    for first, last in prints if sets else [(at, end - 1)]:
        source.cut(first, last)
    return end


def blank_delay(source, at, is_statement):
    """Blanks the delay whose `#` stands at a place, where a cycle means the same without it."""
    end = source.after(at + 1) if source.words[at + 1] == "(" else at + 2
    before = source.words[at - 1]
    if before not in ("<=", *NETS) and (is_statement or before != "="):
        source.refuse(at, "a delay before a statement or behind `=`: what is read after it is read later")
    source.cut(at, end - 1)
    return end


def plain(text):
    """The places of a text that are to be blanks."""
    source = Source(text)
    at, is_always = 0, False
    for number, token in enumerate(source.tokens):
        if token.lastgroup == "attribute" and re.search(r"//|/\*|[\"\\`]", token[0]):
            source.cut(number, number)
    while at < len(source.words):
        word, before = source.words[at], source.words[at - 1] if at else ";"
        if word == "initial":
            at = blank_initial(source, at)
        elif word == "specify":
            end = source.to(at, "endspecify")
            source.cut(at, end)
            at = end + 1
        elif word == "#" and at + 1 < len(source.words) and not is_parameters(source, at):
            at = blank_delay(source, at, is_always)
        elif PRINTS.match(word) and is_always:
            end = source.to(at, ";")
            source.cut(at, end - 1)
            at = end + 1
        else:
            is_always = word == "always" or is_always and word not in ("assign", "wire", "endmodule", "reg", "initial", "module")
            at += 1
    return source.cuts


def is_parameters(source, at):
    """Whether a `#` begins the parameters of a module or of an instance: a parenthesis that is followed by a name or another parenthesis."""
    if source.words[at + 1] != "(" or source.tokens[at - 1].lastgroup != "name" or source.words[at - 1] in NETS | {"begin", "else", "always", "end"}:
        return False
    return True


def blanked(text, cuts):
    """A text with these places as blanks; ends of lines stay."""
    for start, end in cuts:
        text = text[:start] + re.sub(r"[^\n\r]", " ", text[start:end]) + text[end:]
    return text


NEW = re.compile(r" (?:\)|\(|!|&&|\|\||begin|end|if|<=|=|;|\\[!-~]+|[A-Za-z_][\w$]*|\d+'s?h[0-9a-f]+)(?= )")
LITERAL = re.compile(r" \d+'s?h[0-9a-f]+ ")


def parts(text):
    """A plain text as pairs: the white space and comments before a token, and whether that is a literal, with the token; the last pair has none."""
    last = 0
    for token in TOKEN.finditer(text):
        if token.lastgroup not in ("blank", "attribute", "directive"):
            yield text[last : token.start()], token.lastgroup == "number", token[0]
            last = token.end()
    yield text[last:], False, ""


def put_back(design, repaired):
    """The repaired source with the blanked bytes: its other bytes are the plain source's, in order, but for literals and runs of new tokens."""
    cuts = plain(design)
    pieces = list(parts(blanked(design, cuts)))
    # A state: how many pieces are met, and the place in the repaired source behind them. Where two ways lead on, the one with fewer new tokens.
    way, open_states = {(0, 0): None}, [(0, 0)]
    while open_states:
        met, at = state = open_states.pop()
        if met == len(pieces) and at == len(repaired):
            return "".join(told(design, repaired, pieces, way, state))
        if met == len(pieces):
            continue
        space, is_number, token = pieces[met]
        ends, run = [], at
        while True:
            start = run + 1 if run > at else at
            if repaired.startswith(space, start):
                behind = start + len(space)
                literal = LITERAL.match(repaired, behind) if is_number else None
                ends += [(literal.end(), start)] if literal else []
                ends += [(behind + len(token), start)] if repaired.startswith(token, behind) else []
            new = NEW.match(repaired, run) if at else None
            if not new:
                break
            run = new.end()
        for behind, start in reversed(ends):
            if (met + 1, behind) not in way:
                way[met + 1, behind] = (state, start)
                open_states.append((met + 1, behind))
    raise Refused("the second text is no repaired source of the first")


def told(design, repaired, pieces, way, state):
    """The parts of the repaired source, the white space of each piece as the design has it."""
    steps, place = [], [0]
    for space, _, token in pieces:
        place.append(place[-1] + len(space) + len(token))
    while way[state]:
        before, start = way[state]
        steps.append((before, start, state[1]))
        state = before
    for (met, at), start, end in reversed(steps):
        space = len(pieces[met][0])
        yield repaired[at:start] + design[place[met] : place[met] + space] + repaired[start + space : end]


def read(path):
    with open(path, encoding="latin-1", newline="") as file:
        return file.read()


def main(words):
    if len(words) not in (1, 3) or len(words) == 3 and words[0] != "--back":
        sys.exit("usage: tools/plain.py DESIGN, or tools/plain.py --back DESIGN REPAIRED")
    try:
        design = read(words[-1] if len(words) == 1 else words[1])
        made = blanked(design, plain(design)) if len(words) == 1 else put_back(design, read(words[2]))
    except Refused as refused:
        sys.exit(f"tools/plain.py: {refused}")
    sys.stdout.buffer.write(made.encode("latin-1"))


if __name__ == "__main__":
    main(sys.argv[1:])

"""What do the hosts that are measured say to other generators? Reads the plain form of this folder's hosts, and no other."""
import re

ITEM = r"(terminal|ignore)\s+(\w+)\s+/((?:[^/\\]|\\.)*)/;"
PRODUCTION = r"concrete\s+(\w+)\s*:\s*(\w+)\s*::=([^{]*)\{"


class Host:
    """Terminals and what is ignored, as pairs of a name and an expression, the start, and productions: a name, a left and a right side."""

    def __init__(self, *texts):
        text = "\n".join(texts)
        items = re.findall(ITEM, text)
        self.terminals = [(name, expression) for sort, name, expression in items if sort == "terminal"]
        self.ignored = [(name, expression) for sort, name, expression in items if sort == "ignore"]
        self.start = re.search(r"\bstart\s+(\w+);", text)[1]
        self.productions = [(name, left, re.findall(r":\s*(\w+)", right)) for name, left, right in re.findall(PRODUCTION, text)]

    def names(self):
        """The names of the terminals."""
        return [name for name, _ in self.terminals]

    def alternatives(self):
        """The productions by their left sides, that of the start first."""
        by_left = {self.start: []}
        for name, left, right in self.productions:
            by_left.setdefault(left, []).append((name, right))
        return by_left


def token_host(text, name):
    """The text of a host whose texts are lists of the tokens of another, in any order."""
    host = Host(text)
    out = [f"format 1; host {name};"] + [f"{sort} {it} /{expression}/;" for sort, it, expression in re.findall(ITEM, text)]
    out += re.findall(r"prefer\s+\w+\s+over\s+\w+;", text) + ["nonterminal List; nonterminal Token; start List;"]
    out += ["concrete none : List ::= { }", "concrete more : List ::= l : List t : Token { }"]
    out += [f"concrete t{at} : Token ::= t : {it} {{ }}" for at, it in enumerate(host.names())]
    return "\n".join(out) + "\n"


def pieces(expression):
    """The pieces of an expression in order: pairs of 'sign' and a sign of expressions, 'byte' and a byte, or 'set' and the text of one."""
    at = 0
    while at < len(expression):
        found = re.compile(r"\[(?:[^\]\\]|\\.)*\]|\\x[0-9a-fA-F]{2}|\\.|.", re.S).match(expression, at)
        piece, at = found[0], found.end()
        if piece[0] == "[":
            yield "set", piece
        elif piece[0] == "\\":
            yield "byte", byte_of(piece)
        elif piece in "()|*+?.":
            yield "sign", piece
        else:
            yield "byte", piece


def byte_of(escape):
    """The character that an escape stands for."""
    if escape[1] == "x":
        return chr(int(escape[2:], 16))
    return {"n": "\n", "t": "\t", "r": "\r"}.get(escape[1], escape[1])


def members(text):
    """What stands in the brackets of a set: whether it is negated, and pairs of a first and a last character."""
    inner = text[1:-1]
    negated = inner.startswith("^")
    chars = [byte_of(it) if it[0] == "\\" else it for it in re.findall(r"\\x[0-9a-fA-F]{2}|\\.|.", inner[negated:], re.S)]
    dashes = [it == "-" for it in re.findall(r"\\x[0-9a-fA-F]{2}|\\.|.", inner[negated:], re.S)]
    ranges, at = [], 0
    while at < len(chars):
        if at + 2 < len(chars) and dashes[at + 1]:
            ranges.append((chars[at], chars[at + 2]))
            at += 3
        else:
            ranges.append((chars[at], chars[at]))
            at += 1
    return negated, ranges

#!/usr/bin/env python3
"""Prints a text that is made by number: the same for the same words, and of at most BYTES bytes, never above 1,048,576.

usage: bench/texts.py KIND BYTES [SEED] > FILE

KIND is json, jsonflat or jsondeep, c89, c89flat or c89deep, or list.
"""
import random
import sys

LIMIT = 1048576
WORDS = """index count total node left right parent value key buffer size length offset state table item name next prev head tail limit
width height color price user group order status date flag cursor token symbol""".split()
OPERATORS = "+ - * / % << >> < > <= >= == != & | ^ && ||".split()


class Maker:
    """What a text is made with: random numbers that begin with a seed, and a size."""

    def __init__(self, size, seed):
        self.random, self.size = random.Random(seed), min(size, LIMIT)

    def pick(self, choices):
        return choices[self.random.randrange(len(choices))]

    def happens(self, share):
        return self.random.random() < share

    def some(self, low, high, make, between=""):
        """From low to high - 1 of what is made, joined."""
        return between.join(make() for _ in range(self.random.randrange(low, high)))

    def units(self, head, unit, tail, between=""):
        """Whole units by number, as long as they fit."""
        out, size, at = [head], len(head) + len(tail), 0
        while True:
            one = unit(at)
            if size + len(one) + len(between) > self.size:
                return "".join([*out, tail])
            if at:
                out.append(between)
                size += len(between)
            out.append(one)
            size, at = size + len(one), at + 1


class Json(Maker):
    """Lists of objects."""

    def string(self):
        return '"' + self.some(1, 4, lambda: self.pick(WORDS), "_") + ("\\n\\u00e9" if self.happens(0.05) else "") + '"'

    def value(self, depth):
        share = self.random.random()
        if depth < 5 and share < 0.22:
            return "{" + self.some(0, 6, lambda: f"{self.string()}: {self.value(depth + 1)}", ", ") + "}"
        if depth < 5 and share < 0.40:
            return "[" + self.some(0, 7, lambda: self.value(depth + 1), ", ") + "]"
        if share < 0.65:
            return self.string()
        if share < 0.90:
            return self.pick(["%d", "-%d", "%d.25", "%de3", "%d.5E-2"]) % self.random.randrange(100000)
        return self.pick(["true", "false", "null"])

    def text(self):
        return self.units("[\n", lambda i: f'  {{"id": {i}, "name": {self.string()}, "data": {self.value(1)}}}', "\n]\n", ",\n")


class C(Maker):
    """Declarations and functions of C."""

    def name(self):
        return self.pick(WORDS) + (str(self.random.randrange(30)) if self.happens(0.4) else "")

    def type(self):
        return self.pick(["int", "char *", "unsigned long", "struct node *", "double", "const char *"])

    def primary(self):
        share = self.random.random()
        if share < 0.6:
            return self.name()
        if share < 0.85:
            return str(self.random.randrange(1000))
        if share < 0.9:
            return f"0x{self.random.randrange(65536):x}UL"
        if share < 0.93:
            return f"{self.random.randrange(100)}.5e3f"
        return r"'\n'" if share < 0.96 else rf'"{self.name()} %d\n"'

    def expression(self, depth):
        share = self.random.random()
        if depth <= 0 or share < 0.35:
            return self.primary()
        if share < 0.65:
            return f"{self.expression(depth - 1)} {self.pick(OPERATORS)} {self.expression(depth - 1)}"
        if share < 0.72:
            return f"({self.expression(depth - 1)})"
        if share < 0.80:
            return f"{self.name()}({self.some(0, 4, lambda: self.expression(depth - 1), ', ')})"
        if share < 0.87:
            return f"{self.name()}[{self.expression(depth - 1)}]"
        if share < 0.92:
            return self.name() + self.pick(["->", "."]) + self.name()
        if share < 0.95:
            return self.pick(["!", "-", "*", "&", "~"]) + self.name()
        if share < 0.97:
            return f"sizeof(struct {self.name()} *)"
        if share < 0.99:
            return f"(unsigned char){self.name()}"
        return f"({self.name()} ? {self.expression(depth - 1)} : {self.expression(depth - 1)})"

    def assignment(self):
        left = self.pick([self.name(), f"{self.name()}->{self.name()}", f"{self.name()}[{self.name()}]"])
        return f"{left} {self.pick(['=', '=', '=', '+=', '-=', '|=', '<<='])} {self.expression(3)}"

    def conditional(self, depth, indent, tabs):
        out = f"{tabs}if ({self.expression(2)})\n{self.statement(depth - 1, indent + 1)}"
        return f"{out}{tabs}else\n{self.statement(depth - 1, indent + 1)}" if self.happens(0.4) else out

    def switch(self, indent, tabs):
        cases = "".join(f"{tabs}case {k}:\n{self.statement(0, indent + 1)}{tabs}\tbreak;\n" for k in range(3))
        return f"{cases}{tabs}default:\n{tabs}\tbreak;\n{tabs}}}\n"

    def statement(self, depth, indent):
        share, tabs = self.random.random(), "\t" * indent
        if depth <= 0 or share < 0.45:
            return tabs + (self.assignment() if self.happens(0.8) else f"{self.name()}++") + ";\n"
        if share < 0.58:
            return self.conditional(depth, indent, tabs)
        if share < 0.68:
            head = f"{tabs}for ({self.assignment()}; {self.expression(2)}; {self.name()}++) {{\n"
            return f"{head}{self.body(depth - 1, indent + 1)}{tabs}}}\n"
        if share < 0.74:
            return f"{tabs}while ({self.expression(2)}) {{\n{self.body(depth - 1, indent + 1)}{tabs}}}\n"
        if share < 0.78:
            return f"{tabs}do {{\n{self.body(depth - 1, indent + 1)}{tabs}}} while ({self.expression(2)});\n"
        if share < 0.82:
            return f"{tabs}switch ({self.name()}) {{\n{self.switch(indent, tabs)}"
        if share < 0.88:
            return f"{tabs}return {self.expression(2)};\n"
        if share < 0.92:
            return f"{tabs}/* {self.name()} of the {self.name()} */\n{self.statement(0, indent)}"
        return f"{tabs}{self.name()}({self.expression(2)}, {self.expression(2)});\n"

    def body(self, depth, indent):
        return self.some(1, 6, lambda: self.statement(depth, indent))

    def unit(self, i):
        share = self.random.random()
        if share < 0.15:
            head = f"struct {self.name()}_{i} {{\n"
            return head + "".join(f"\t{self.type()} {self.name()};\n" for _ in range(4)) + "\tunsigned flag : 3;\n};\n\n"
        if share < 0.25:
            return f"static {self.type()} {self.name()}_{i}[] = {{ {', '.join(self.expression(1) for _ in range(6))} }};\n"
        if share < 0.3:
            return f"enum {self.name()}_{i} {{ A{i}, B{i} = 4, C{i} }};\n"
        if share < 0.35:
            return f"#define X{i} 1\nextern int {self.name()}(int, char *, ...);\n"
        head = f"static {self.type()} f{i}({self.type()} a, {self.type()} b)\n{{\n\t{self.type()} {self.name()} = {self.expression(2)};\n"
        return f"{head}\tint i, j;\n{self.body(4, 1)}{self.body(4, 1)}}}\n\n"

    def text(self):
        return self.units("/* made by texts.py */\n", self.unit, "\n")


def text(kind, size, seed=1):
    """The text of a kind."""
    size = min(size, LIMIT)
    if kind in ("json", "c89"):
        return {"json": Json, "c89": C}[kind](size, seed).text()
    if kind == "jsonflat":
        return "[" + ",".join(["123"] * ((size - 3) // 4)) + "]\n"
    if kind == "jsondeep":
        return "[" * ((size - 2) // 2) + "1" + "]" * ((size - 2) // 2)
    if kind == "c89flat":
        return "int f(void){" + "x=1;" * ((size - 14) // 4) + "}\n"
    if kind == "c89deep":
        return "int x=" + "(" * ((size - 16) // 2) + "1" + ")" * ((size - 16) // 2) + ";\n"
    return "1 " * (size // 2)


if __name__ == "__main__":
    sys.stdout.write(text(sys.argv[1], int(sys.argv[2]), *map(int, sys.argv[3:4])))

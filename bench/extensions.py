#!/usr/bin/env python3
"""Writes extensions of C by number, each with a marker, a terminal that matches all but one letter, and ten productions.

usage: bench/extensions.py FOLDER N

FOLDER gets c89x.spec, the host of c89.py with an extensible nonterminal, and e0.spec to e(N-1).spec.
"""
import os
import sys

import c89


def host():
    """The text of the host."""
    return c89.spec("c89x", "extensible Primary;\n")


def spec(k):
    """The text of the extension of a number. No text is one of two markers, and ten productions are those of a text in brackets."""
    letter = "abcdefghijklmnopqrstuvwxyz"[k % 26]
    out = [f"format 1; extension e{k} for c89x; marking Mark /m{k}!/;"]
    out += [rf"terminal Begin /<{k}:/; terminal Finish /:{k}>/; terminal Raw /[^ \t\n\r\x0b\x0c#\/<:{letter}]+/;"]
    out += [f"nonterminal Raw{i};" for i in range(9)]
    out += ['concrete b : Primary ::= m : Mark o : Begin x : Raw0 c : Finish { forwards to pr1("x"); }']
    out += [f"concrete p{i} : Raw{i} ::= x : Raw{i + 1} {{ }}" for i in range(8)] + ["concrete p8 : Raw8 ::= r : Raw { }"]
    return "\n".join(out) + "\n"


def write(folder, count):
    """Writes the host and so many extensions, and returns their paths, the host first."""
    os.makedirs(folder, exist_ok=True)
    paths = [f"{folder}/c89x.spec"] + [f"{folder}/e{k}.spec" for k in range(count)]
    for path, text in zip(paths, [host()] + [spec(k) for k in range(count)]):
        with open(path, "w", encoding="utf-8") as it:
            it.write(text)
    return paths


if __name__ == "__main__":
    write(sys.argv[1], int(sys.argv[2]))

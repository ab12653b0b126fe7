#!/usr/bin/env python3
"""Prints a host whose nonterminals are declared against the order in which they become productive, so that rounds over all take n / 2.

usage: bench/chains.py N > SPEC

X0 to Xn, Xi ::= X(i-1) c, Xi ::= X(i+1) b, declared from the last down.
"""
import sys


def spec(count):
    """The text of the host."""
    down = range(count, 0, -1)
    out = ["format 1; host chains;", r"ignore Space /[ \n]+/;", "terminal T /t/; terminal B /b/; terminal C /c/;"]
    out += [f"nonterminal X{i};" for i in down] + [f"start X{count};"]
    for i in down:
        if i > 1:
            out.append(f"concrete d{i} : X{i} ::= x : X{i - 1} c : C {{ }}")
        if i < count:
            out.append(f"concrete u{i} : X{i} ::= x : X{i + 1} b : B {{ }}")
    return "\n".join(out) + "\nconcrete t : X1 ::= t : T { }\n"


if __name__ == "__main__":
    print(spec(int(sys.argv[1])), end="")

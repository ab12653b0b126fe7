#!/usr/bin/env python3
"""Prints a host of expression levels, each with so many left-recursive binary operators, and of so many kinds of statements.

usage: bench/operators.py LEVELS OPERATORS STATEMENTS > SPEC

15 10 500 has 669 productions, 40 10 1200 has 1,644, 1 200 60 has 265: LEVELS * (OPERATORS + 1) + STATEMENTS + 4.
"""
import sys


def spec(levels, operators, statements):
    """The text of the host."""
    below = [f"L{i}" for i in range(levels + 1)]
    out = ["format 1; host operators;", r"ignore Space /[ \n]+/;", "terminal Num /[0-9]+/; terminal End /;/;"]
    out += [r"terminal Open /\(/; terminal Close /\)/;"]
    out += [f"terminal O{i}_{j} /%{i}_{j}%/;" for i in range(levels) for j in range(operators)]
    out += [f"terminal K{k} /k{k}:/;" for k in range(statements)]
    out += [f"nonterminal {it};" for it in ["Text", "Statement", *below]] + ["start Text;", "syn size : int;"]
    out += [f"occurs size on {it};" for it in ["Text", "Statement", *below]]
    out += ["concrete one : Text ::= s : Statement { top.size = s.size; }"]
    out += ["concrete more : Text ::= t : Text s : Statement { top.size = @add(t.size, s.size); }"]
    out += [f"concrete s{k} : Statement ::= k : K{k} e : L0 z : End {{ top.size = e.size; }}" for k in range(statements)]
    for i in range(levels):
        out.append(f"concrete up{i} : L{i} ::= e : L{i + 1} {{ top.size = e.size; }}")
        for j in range(operators):
            out.append(f"concrete o{i}_{j} : L{i} ::= a : L{i} o : O{i}_{j} b : L{i + 1} {{ top.size = @add(a.size, b.size); }}")
    out += [f"concrete num : L{levels} ::= n : Num {{ top.size = 1; }}"]
    out += [f"concrete open : L{levels} ::= o : Open e : L0 c : Close {{ top.size = e.size; }}"]
    return "\n".join(out) + "\n"


if __name__ == "__main__":
    print(spec(*map(int, sys.argv[1:4])), end="")

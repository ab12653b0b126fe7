#!/usr/bin/env python3
"""Makes specifications that the rules accept and that may cost more than they should, runs the program on each, and prints what it took.

usage: bench/hostile.py [NAME..] [--program PATH] [--seconds N] [--memory MB]

NAMEs: groups, attributes, both, options, scanner, stars, long, keywords, levels, first, envelope, prefixes; all of them where none is
named. A row has the size of the files, the exit status, seconds of processor and the greatest memory. A run is ended after 60 seconds of
processor or at 8,000 MB, unless said otherwise, and is then marked. The files are made in a temporary folder. The default program is the
proved one.
"""
import argparse
import os
import resource
import subprocess
import tempfile

import operators

ROOT = os.path.dirname(os.path.dirname(os.path.realpath(__file__)))
HOST = 'format 1; host h; terminal Z /z/; nonterminal S; start S; extensible S; concrete z : S ::= z : Z { }\n'


def groups():
    """An expression whose deterministic automaton has two to the power of its groups states, beside a letter."""
    host = HOST + "terminal Many /[xy]*x" + "[xy]" * 28 + "/; concrete many : S ::= m : Many { }\n"
    return ["check"], {"h.spec": host}


def attributes(inherited=0):
    """Many attributes on one nonterminal, and many productions that forward."""
    synthesized = 3000 - 2 * inherited
    out = [HOST.replace("start S", "nonterminal E; start S")]
    out += [f"inh i{k} : int; occurs i{k} on E;" for k in range(inherited)]
    needs = " needs { " + ", ".join(f"i{k}" for k in range(4)) + " }" if inherited else ""
    out += [f"syn a{k} : int; occurs a{k} on E{needs};" for k in range(synthesized)]
    out += ["abstract q : E ::= { " + " ".join(f"top.a{k} = {k};" for k in range(synthesized)) + " }"]
    out += [f"abstract p{k} : E ::= {{ forwards to q(); }}" for k in range(2000)]
    return ["check"], {"h.spec": "\n".join(out) + "\n"}


def options():
    """An expression of many options in a row."""
    return ["check"], {"h.spec": HOST + "terminal Row /" + "a?" * 20000 + "b/; concrete row : S ::= r : Row { }\n"}


def scanner():
    """A text, and a host with an expression of many options in a row, over 26 letters."""
    row = "".join(f"{chr(97 + k % 26)}?" for k in range(5000))
    host = HOST + f"terminal Row /{row}!/; concrete row : S ::= r : Row {{ }}\n"
    return ["tree", "--text", "t.txt"], {"t.txt": "abcabc!", "h.spec": host}


def stars():
    """Two terminals, each of a thousand branches under a thousand stars."""
    branches = "|".join(f"{k % 10}{k // 10 % 10}{k // 100}c" for k in range(1000))
    body = "(" * 1000 + branches + ")*" * 1000
    host = HOST + f"terminal P /{body}p/; terminal Q /{body}q/; concrete p : S ::= x : P {{ }} concrete q : S ::= x : Q {{ }}\n"
    return ["check"], {"h.spec": host}


def marked(name, markers):
    """An extension with these markers, each of which stands for z."""
    out = [f"format 1; extension {name} for h;"]
    for k, marker in enumerate(markers):
        out.append(f"marking M{k} /{marker}/; concrete p{k} : S ::= m : M{k} {{ forwards to z(\"z\"); }}")
    return "\n".join(out) + "\n"


def long():
    """Two extensions with a marker each, whose texts differ in the last byte."""
    return ["compose"], {"h.spec": HOST, **{f"{e}.spec": marked(e, ["m" * 100000 + e]) for e in ("a", "b")}}


def keywords():
    """Many extensions with many keywords as markers, all with one first letter."""
    return ["compose"], {"h.spec": HOST, **{f"e{e}.spec": marked(f"e{e}", [f"k{e}_{k}_" for k in range(60)]) for e in range(64)}}


def levels():
    """Many extensions on a host with a level of 300 operators."""
    host = operators.spec(1, 300, 25).replace("start Text;", "start Text; extensible L1;")
    files = {"h.spec": host}
    for e in range(64):
        files[f"e{e}.spec"] = (f"format 1; extension e{e} for operators; marking M /m{e}!/; "
                               'concrete p : L1 ::= m : M { forwards to num("1"); }\n')
    return ["compose"], files


def first():
    """Many nonterminals, each of which begins with the one before it and with the one after it."""
    count = 2000
    out = ["format 1; host h; terminal Up /u/; terminal Down /d/; nonterminal A0; start A0;"]
    out += [f"nonterminal A{k};" for k in range(1, count)]
    out += [f"concrete d{k} : A{k} ::= a : A{k - 1} d : Down {{ }}" for k in reversed(range(1, count))]
    out += [f"concrete u{k} : A{k} ::= a : A{k + 1} u : Up {{ }}" for k in range(count - 1)]
    out += [f"terminal T{k} /t{k};/; concrete t{k} : A{k} ::= t : T{k} {{ }}" for k in range(count)]
    return ["check"], {"h.spec": "\n".join(out) + "\n"}


def envelope():
    """An extension with a new kernel of the host's items, at which many empty productions end, each before a terminal of its own."""
    count = 2000
    out = ["format 1; host h; terminal X /x/; terminal Y /y/; terminal Q /q/; nonterminal Z; start Z; nonterminal S; nonterminal T;",
           "nonterminal N; extensible N; concrete n : Z ::= n : N { } concrete q : N ::= q : Q { } concrete s : Z ::= s : S { }",
           "concrete y : Z ::= x : X y : Y { } concrete t : S ::= x : X t : T { }"]
    for k in range(count):
        out += [f"nonterminal A{k}; terminal T{k} /t{k};/; concrete a{k} : A{k} ::= {{ }} concrete t{k} : T ::= a : A{k} t : T{k} {{ }}"]
    marked = 'format 1; extension e for h; marking M /m/; concrete p : N ::= m : M s : S { forwards to q("q"); }\n'
    return ["certify"], {"h.spec": "\n".join(out) + "\n", "e.spec": marked}


def prefixes():
    """Many extensions with many prefix operators, each before all of them."""
    files = {"h.spec": HOST}
    for e in range(64):
        out = [f"format 1; extension e{e} for h;"]
        out += [f"marking M{k} /m{e}_{k}_/; concrete p{k} : S ::= m : M{k} s : S {{ forwards to z(\"z\"); }}" for k in range(30)]
        files[f"e{e}.spec"] = "\n".join(out) + "\n"
    return ["compose"], files


CASES = {"groups": groups, "attributes": attributes, "both": lambda: attributes(1000), "options": options, "scanner": scanner,
         "stars": stars, "long": long, "keywords": keywords, "levels": levels, "first": first,
         "envelope": envelope, "prefixes": prefixes}


def run(name, arguments):
    """Makes a case, runs it, and prints its row."""
    words, files = CASES[name]()
    with tempfile.TemporaryDirectory() as folder:
        for file, text in files.items():
            with open(os.path.join(folder, file), "w", encoding="utf-8") as it:
                it.write(text)

        def limit():
            resource.setrlimit(resource.RLIMIT_CPU, (arguments.seconds, arguments.seconds))
            resource.setrlimit(resource.RLIMIT_AS, (arguments.memory << 20, arguments.memory << 20))

        specs = [file for file in files if file.endswith(".spec")]
        child = subprocess.Popen([arguments.program, *words, *specs], cwd=folder, stdout=subprocess.PIPE, preexec_fn=limit)
        line = child.stdout.read().decode(errors="replace").split("\n")[0]
        _, status, used = os.wait4(child.pid, 0)
    ended = f"ended by {-os.waitstatus_to_exitcode(status)}" if os.WIFSIGNALED(status) else f"status {os.WEXITSTATUS(status)}"
    size = sum(len(text) for text in files.values())
    print(f"{name:12}{size:10,} bytes  {ended:12} {used.ru_utime + used.ru_stime:8.2f} s {used.ru_maxrss / 1024:8.0f} MB  {line[:60]}", flush=True)


def main():
    parser = argparse.ArgumentParser(description=__doc__, formatter_class=argparse.RawDescriptionHelpFormatter)
    parser.add_argument("names", nargs="*", choices=[[], *CASES], metavar="NAME")
    parser.add_argument("--program", default=f"{ROOT}/crates/workbench/out/workbench")
    parser.add_argument("--seconds", type=int, default=60)
    parser.add_argument("--memory", type=int, default=8000)
    arguments = parser.parse_args()
    for name in arguments.names or CASES:
        run(name, arguments)


main()

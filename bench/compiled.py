#!/usr/bin/env python3
"""Prints a program in C that evaluates an attribute as a compiler of a host's equations would: recursive functions, and a memo in each node.

usage: bench/compiled.py SPEC ATTRIBUTE > PROGRAM.c

The program reads a tree as `tree --text` prints it, which isn't measured, and prints the value, how many instances were needed, the
nanoseconds of its fastest run, and the bytes of a node with its memo, in all. It takes hosts of this folder's plain form, whose equations
are of numbers, truth values and lexemes.
"""
import re
import sys

HEAD = r"""
#include <pthread.h>
#include <stdio.h>
#include <stdlib.h>
#include <string.h>
#include <time.h>
struct text { long size; const char *bytes; };
union word { long n; struct tree *tree; struct text *text; };
struct tree { struct tree *parent; unsigned short production, place; unsigned known; union word w[]; };
static void fault(void) { puts("fault"); exit(1); }
static inline long add(long x, long y) { long z; if (__builtin_add_overflow(x, y, &z)) fault(); return z; }
static inline long sub(long x, long y) { long z; if (__builtin_sub_overflow(x, y, &z)) fault(); return z; }
static inline long mul(long x, long y) { long z; if (__builtin_mul_overflow(x, y, &z)) fault(); return z; }
"""

# reading goes by a stack of its own, since trees are deep; evaluation has a large one
TAIL = r"""
static char *at, *room, *end; static long nodes, bytes;
static void *made(size_t size) {
    bytes += size;
    if (size > (size_t)(end - room)) { room = malloc(1 << 20); end = room + (1 << 20); }
    void *it = room; room += size; return it;
}
static struct text *leaf(void) {
    struct text *it = made(sizeof *it); char *to = ++at; it->bytes = to;
    for (; *at != '"'; at++) {
        if (*at != '\\') { *to++ = *at; continue; }
        at++;
        if (*at == 'n') *to++ = '\n';
        else if (*at == 'x') { char two[3] = { at[1], at[2], 0 }; *to++ = strtol(two, 0, 16); at += 2; }
        else *to++ = *at;
    }
    at++; it->size = to - it->bytes; return it;
}
static int production(void) {
    char *begin = at; while (*at != '(') at++;
    for (int k = 0; k < COUNT; k++) if (strlen(names[k]) == (size_t)(at - begin) && !memcmp(names[k], begin, at - begin)) return k;
    exit(4);
}
static struct tree *read_tree(void) {
    struct tree *top = 0, *whole = 0;
    for (;;) {
        while (*at == ' ' || *at == ',') at++;
        if (*at == ')') { at++; whole = top; top = top->parent; if (!top) return whole; continue; }
        if (*at == '"') { top->w[KINDS + top->known++].text = leaf(); continue; }
        int p = production(); at++;
        struct tree *it = made(sizeof *it + (KINDS + arity[p]) * sizeof(union word));
        nodes++; it->parent = top; it->production = p; it->known = 0; it->place = 0;
        if (top) { it->place = top->known; top->w[KINDS + top->known++].tree = it; }
        top = it;
    }
}
static struct tree **all; static long listed;
static void list(struct tree *root) {
    all = malloc(nodes * sizeof *all); all[listed++] = root;
    for (long k = 0; k < listed; k++)
        for (int c = 0; c < arity[all[k]->production]; c++)
            if (is_tree[all[k]->production][c]) all[listed++] = all[k]->w[KINDS + c].tree;
}
static double now(void) { struct timespec t; clock_gettime(CLOCK_THREAD_CPUTIME_ID, &t); return t.tv_sec * 1e9 + t.tv_nsec; }
static void *run(void *root) {
    double least = 1e18; long value = 0, count = 0;
    for (int turn = 0; turn < 7; turn++) {
        for (long k = 0; k < listed; k++) all[k]->known = 0;
        double begin = now(); value = ASKED(root); double took = now() - begin; if (took < least) least = took;
    }
    for (long k = 0; k < listed; k++) count += __builtin_popcount(all[k]->known);
    printf("value = %ld\ninstances %ld\nns %.0f\nan instance %.2f\nbytes %ld\nnodes %ld\n", value, count, least, least / count, bytes, nodes);
    return 0;
}
int main(int count, char **words) {
    FILE *file = fopen(words[1], "rb"); fseek(file, 0, SEEK_END); long size = ftell(file); rewind(file);
    at = malloc(size + 1); at[fread(at, 1, size, file)] = 0;
    struct tree *root = read_tree(); list(root);
    pthread_attr_t large; pthread_t it; pthread_attr_init(&large); pthread_attr_setstacksize(&large, 4L << 30);
    return pthread_create(&it, &large, run, root) || pthread_join(it, 0);
}
"""
TOKEN = re.compile(r"\s*(\d+|@?\w+|[().,=;]|\"(?:[^\"\\]|\\.)*\")")
BINARY = {"eq": "==", "less": "<", "and": "&", "or": "|"}


class Host:
    """Attributes with their directions, and productions: a name, a left side, children (label, sort) and equations by target."""

    def __init__(self, text):
        text = re.sub(r"(?m)//.*$", "", text)
        self.attributes = [name for _, name in re.findall(r"\b(syn|inh)\s+(\w+)\s*:", text)]
        self.inherited = set(re.findall(r"\binh\s+(\w+)\s*:", text))
        self.nonterminals = set(re.findall(r"\bnonterminal\s+(\w+)\s*;", text))
        self.productions = []
        for name, left, right, body in re.findall(r"\bconcrete\s+(\w+)\s*:\s*(\w+)\s*::=([^{]*)\{([^}]*)\}", text):
            children = re.findall(r"(\w+)\s*:\s*(\w+)", right)
            self.productions.append((name, left, children, equations(body)))


def equations(body):
    """The equations of a body: pairs of the label and attribute that are defined, with the tokens of what defines them."""
    found = {}
    for one in filter(str.strip, body.split(";")):
        target, _, source = one.partition("=")
        found[tuple(target.strip().split("."))] = TOKEN.findall(source)
    return found


class Written:
    """An expression in C, read from its tokens. `it` is the node whose production it is of."""

    def __init__(self, host, children, tokens):
        self.host, self.places, self.sorts = host, {label: k for k, (label, _) in enumerate(children)}, dict(children)
        self.tokens, self.at = tokens, 0

    def take(self):
        self.at += 1
        return self.tokens[self.at - 1]

    def expression(self):
        word = self.take()
        if word.isdigit():
            return f"{word}L"
        if word in ("true", "false"):
            return str(int(word == "true"))
        if word == "if":
            condition = self.expression()
            self.take()
            holds = self.expression()
            self.take()
            return f"({condition} ? {holds} : {self.expression()})"
        if word[0] == "@":
            return self.call(word[1:])
        assert self.take() == "."
        attribute = self.take()
        if word == "top":
            return f"a_{attribute}(it)"
        child = f"it->w[KINDS + {self.places[word]}]"
        return f"{child}.text" if attribute == "lexeme" else f"a_{attribute}({child}.tree)"

    def call(self, name):
        self.take()
        parts = []
        while self.tokens[self.at] != ")":
            if self.tokens[self.at] == ",":
                self.take()
            parts.append(self.expression())
        self.take()
        if name == "length":
            return f"{parts[0]}->size"
        if name in BINARY:
            return f"({parts[0]} {BINARY[name]} {parts[1]})"
        return f"{name}({', '.join(parts)})"


def synthesized(host, attribute):
    """The cases of a synthesized attribute, by the production of its node."""
    for number, (_, _, children, given) in enumerate(host.productions):
        if ("top", attribute) in given:
            yield f"case {number}: r = {Written(host, children, given['top', attribute]).expression()}; break;"


def inherited(host, attribute):
    """The cases of an inherited one, by the production of the node above and the child's place. Where there is no equation, it is handed on."""
    for number, (_, _, children, given) in enumerate(host.productions):
        for place, (label, _) in enumerate(children):
            if (label, attribute) in given:
                yield f"case {number * 64 + place}: r = {Written(host, children, given[label, attribute]).expression()}; break;"
    yield f"default: r = a_{attribute}(it);"


def program(text, asked):
    """The program for an attribute of the start."""
    host = Host(text)
    names = ", ".join(f'"{name}"' for name, _, _, _ in host.productions)
    arities = ", ".join(str(len(children)) for _, _, children, _ in host.productions)
    most = max(len(children) for _, _, children, _ in host.productions) or 1
    trees = ", ".join("{" + (", ".join(str(int(sort in host.nonterminals)) for _, sort in children) or "0") + "}"
                      for _, _, children, _ in host.productions)
    out = [HEAD, f"enum {{ COUNT = {len(host.productions)}, KINDS = {len(host.attributes)} }};", f"static const char *names[] = {{ {names} }};",
           f"static const int arity[] = {{ {arities} }};", f"static const char is_tree[][{most}] = {{ {trees} }};"]
    out += [f"static long a_{it}(struct tree *it);" for it in host.attributes]
    for number, it in enumerate(host.attributes):
        down = it in host.inherited
        on = "it->production * 64 + of->place" if down else "it->production"
        out += [f"static long a_{it}(struct tree *of) {{", f"    if (of->known & {1 << number}u) return of->w[{number}].n;",
                f"    long r = 0; struct tree *it = of{'->parent' if down else ''};", f"    switch ({on}) {{"]
        out += ["        " + line for line in (inherited if down else synthesized)(host, it)]
        out += ["    }", f"    of->w[{number}].n = r; of->known |= {1 << number}u; return r;", "}"]
    return "\n".join([*out, f"#define ASKED a_{asked}", TAIL])


if __name__ == "__main__":
    with open(sys.argv[1], encoding="latin-1") as spec:
        print(program(spec.read(), sys.argv[2]))

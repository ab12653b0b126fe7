"""How would other generators do the same? bison and byacc with flex, menhir with ocamllex: each from a host of this folder, in plain use.

Their programs read a file and print its tree as `tree --text` does. A generator that isn't installed is left out.
"""
import os
import shutil
import subprocess

import hosts

# trees in blocks of memory that are never given back, whose leaves are places of the text
TREES = r"""
#include <stdio.h>
#include <stdlib.h>
struct tree { const char *name; size_t count; struct tree *children[]; };
#define YYSTYPE struct tree *
int yylex(void);
void yyerror(const char *why) { (void)why; }
void scan_all(char *bytes, size_t size);
static struct tree *whole;
static char *room, *end;
static inline struct tree *made(const char *name, size_t count) {
    size_t size = sizeof(struct tree) + count * sizeof(struct tree *);
    if (size > (size_t)(end - room)) { room = malloc(1 << 16); if (!room) exit(11); end = room + (1 << 16); }
    struct tree *it = (struct tree *)room; room += size; it->name = name; it->count = count; return it;
}
struct tree *leaf(char *text, size_t size) {
    struct tree *it = made(0, 1); it->count = size; it->children[0] = (struct tree *)text; return it;
}
"""

# the loop that prints them, with a stack of its own, since lists are deep
PRINTING = r"""
static void text(const char *bytes, size_t size) {
    putchar_unlocked('"');
    for (size_t i = 0; i < size; i++) {
        unsigned char c = bytes[i];
        if (c == '"' || c == '\\') { putchar_unlocked('\\'); putchar_unlocked(c); }
        else if (c == '\n') fputs("\\n", stdout);
        else if (c >= ' ' && c <= '~') putchar_unlocked(c);
        else printf("\\x%02x", c);
    }
    putchar_unlocked('"');
}
struct place { struct tree *it; size_t next; };
static void print(struct tree *root) {
    size_t most = 1024, n = 1;
    struct place *stack = malloc(most * sizeof *stack);
    stack[0] = (struct place){ root, 0 };
    while (n) {
        struct place *top = stack + n - 1; struct tree *it = top->it;
        if (!top->next) { fputs(it->name, stdout); putchar_unlocked('('); }
        if (top->next == it->count) { putchar_unlocked(')'); n--; continue; }
        if (top->next) fputs(", ", stdout);
        struct tree *child = it->children[top->next++];
        if (!child->name) { text((char *)child->children[0], child->count); continue; }
        if (n == most) { most *= 2; stack = realloc(stack, most * sizeof *stack); }
        stack[n++] = (struct place){ child, 0 };
    }
    putchar_unlocked('\n');
}
int main(int count, char **words) {
    FILE *file = count > 1 ? fopen(words[1], "rb") : 0;
    if (!file) return 9;
    char *bytes = malloc((1 << 20) + 2);
    size_t size = fread(bytes, 1, 1 << 20, file);
    bytes[size] = bytes[size + 1] = 0;
    scan_all(bytes, size + 2);
    if (yyparse()) return 5;
    print(whole);
    return 0;
}
"""

TREES_ML = r"""
type t = Leaf of string | Node of string * t array
let text s =
  print_char '"';
  String.iter (fun c -> match c with
    | '"' | '\\' -> print_char '\\'; print_char c
    | '\n' -> print_string "\\n"
    | ' ' .. '~' -> print_char c
    | _ -> Printf.printf "\\x%02x" (Char.code c)) s;
  print_char '"'
type piece = Tree of t | Sign of string
let rec print_all = function
  | [] -> ()
  | Sign s :: rest -> print_string s; print_all rest
  | Tree (Leaf s) :: rest -> text s; print_all rest
  | Tree (Node (name, children)) :: rest ->
    let left = ref (Sign ")" :: rest) in
    for k = Array.length children - 1 downto 0 do
      left := Tree children.(k) :: !left;
      if k > 0 then left := Sign ", " :: !left
    done;
    print_string name; print_char '('; print_all !left
let print root = print_all [Tree root]
"""

MAIN_ML = r"""
let () =
  let file = open_in_bin Sys.argv.(1) in
  let text = really_input_string file (in_channel_length file) in
  match Parser.whole Lexer.token (Lexing.from_string ~with_positions:false text) with
  | tree -> Tree.print tree; print_char '\n'
  | exception (Parser.Error | Failure _) -> exit 5
"""


def yacc(host):
    """The grammar for bison and byacc."""
    is_terminal = set(host.names())
    out = ["%{", TREES, "%}", *(f"%token T_{name}" for name in host.names()), "%start whole", "%%"]
    out.append(f"whole: N_{host.start} {{ whole = $1; }};")
    for left, rights in host.alternatives().items():
        out.append(f"N_{left}:")
        for at, (name, right) in enumerate(rights):
            row = " ".join(f"T_{it}" if it in is_terminal else f"N_{it}" for it in right)
            sets = " ".join(f"t->children[{k}] = ${k + 1};" for k in range(len(right)))
            out.append(f"  {'|' if at else ' '} {row} {{ struct tree *t = made(\"{name}\", {len(right)}); {sets} $$ = t; }}")
        out.append(";")
    return "\n".join([*out, "%%", PRINTING])


def written(expression, char, between):
    """An expression with its bytes by `char`, and `between` between its pieces and those of its sets."""
    out = []
    for sort, piece in hosts.pieces(expression):
        if sort == "set":
            negated, ranges = hosts.members(piece)
            out.append("[" + "^" * negated + between.join(char(a) if a == b else f"{char(a)}-{char(b)}" for a, b in ranges) + "]")
        else:
            out.append(char(piece) if sort == "byte" else piece)
    return between.join(out)


def flex_pattern(expression):
    """An expression as flex writes it."""
    return written(expression, lambda c: c if c.isalnum() else f"\\x{ord(c):02x}", "")


def flex(host):
    """The scanner for flex."""
    out = ["%{", "#define YYSTYPE struct tree *", '#include "parser.h"', "extern YYSTYPE yylval;"]
    out += ["struct tree *leaf(char *text, size_t size);", "%}", "%option noyywrap nounput noinput 8bit", "%%"]
    out += [f"{flex_pattern(expression)} ;" for _, expression in host.ignored]
    out += [f"{flex_pattern(expression)} {{ yylval = leaf(yytext, yyleng); return T_{name}; }}" for name, expression in host.terminals]
    out += [".|\\n { return 1; }", "%%", "void scan_all(char *bytes, size_t size) { yy_scan_buffer(bytes, size); }"]
    return "\n".join(out) + "\n"


def menhir(host):
    """The grammar for menhir."""
    is_terminal = set(host.names())
    out = [*(f"%token <string> T_{name}" for name in host.names()), "%token END", "%start <Tree.t> whole"]
    out += [f"%type <Tree.t> n_{left}" for left in host.alternatives()] + ["%%", f"whole: t = n_{host.start} END {{ t }}"]
    for left, rights in host.alternatives().items():
        out.append(f"n_{left}:")
        for name, right in rights:
            row = " ".join(f"x{k} = {'T_' if it in is_terminal else 'n_'}{it}" for k, it in enumerate(right))
            children = "; ".join(f"Tree.Leaf x{k}" if it in is_terminal else f"x{k}" for k, it in enumerate(right))
            out.append(f'  | {row} {{ Tree.Node ("{name}", [| {children} |]) }}')
    return "\n".join(out) + "\n"


def ocamllex(host):
    """The scanner for ocamllex."""
    def pattern(expression):
        return written(expression, lambda c: f"'\\{ord(c):03d}'", " ")

    out = ["{ open Parser }", "rule token = parse"] + [f"  | {pattern(expression)} {{ token lexbuf }}" for _, expression in host.ignored]
    out += [f"  | {pattern(expression)} {{ T_{name} (Lexing.lexeme lexbuf) }}" for name, expression in host.terminals]
    return "\n".join([*out, "  | eof { END }", ""])


class Rival:
    """A generator with its scanner: the files that it reads, how it is run on them, and how its program is built."""

    def __init__(self, name, needs, files, generate, build):
        self.name, self.needs, self.files, self.generate, self.build = name, needs, files, generate, build
        self.folder = needs[0]

    def is_installed(self):
        return all(shutil.which(it) for it in self.needs)

    def lay(self, folder, host):
        """Writes its files for a host into a folder, and returns the commands that generate there."""
        os.makedirs(folder, exist_ok=True)
        for name, text in self.files.items():
            with open(f"{folder}/{name}", "w", encoding="latin-1") as it:
                it.write(text(host) if callable(text) else text)
        return self.generate

    def program(self, folder, host):
        """Generates and builds the program, and returns its path, or nothing where that fails."""
        for command in [*self.lay(folder, host), *self.build]:
            if subprocess.run(command, cwd=folder, stdout=subprocess.DEVNULL, stderr=subprocess.DEVNULL, check=False).returncode:
                return None
        return f"{folder}/program"


C_BUILD = [["gcc", "-O2", "-w", "-o", "program", "parser.c", "lexer.c"]]
RIVALS = [
    Rival("bison, flex", ["bison", "flex", "gcc"], {"parser.y": yacc, "lexer.l": flex},
          [["bison", "-d", "-o", "parser.c", "parser.y"], ["flex", "-o", "lexer.c", "lexer.l"]], C_BUILD),
    Rival("byacc, flex", ["byacc", "flex", "gcc"], {"parser.y": yacc, "lexer.l": flex},
          [["byacc", "-d", "-o", "parser.c", "parser.y"], ["flex", "-o", "lexer.c", "lexer.l"]], C_BUILD),
    Rival("menhir, ocamllex", ["menhir", "ocamllex", "ocamlopt"],
          {"parser.mly": menhir, "lexer.mll": ocamllex, "tree.ml": TREES_ML, "main.ml": MAIN_ML},
          [["menhir", "parser.mly"], ["ocamllex", "-q", "lexer.mll"]],
          [["ocamlopt", "-c", "tree.ml"], ["ocamlopt", "-c", "parser.mli"],
           ["ocamlopt", "-O3", "-w", "-a", "-o", "program", "tree.ml", "parser.ml", "lexer.ml", "main.ml"]]),
]

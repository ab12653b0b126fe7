#!/usr/bin/env python3
"""Prints the specification of ANSI C without names of types: 218 productions, 83 terminals, and two attributes over the tree.

usage: bench/c89.py > SPEC

A line of GRAMMAR is a nonterminal, the word that its productions are numbered under, and their right sides.
"""

GRAMMAR = """
Unit unit = TransUnit
TransUnit tu = ExtDecl | TransUnit ExtDecl
ExtDecl xd = FunDef | Decl
FunDef fun = DeclSpecs Declarator Compound | DeclSpecs Declarator DeclList Compound
Decl dec = DeclSpecs Semi | DeclSpecs InitList Semi
DeclList dl = Decl | DeclList Decl
DeclSpecs ds = Storage | Storage DeclSpecs | TypeSpec | TypeSpec DeclSpecs | TypeQual | TypeQual DeclSpecs
Storage sc = auto | register | static | extern | typedef
TypeSpec ts = void | char | short | int | long | float | double | signed | unsigned | StructSpec | EnumSpec
TypeQual tq = const | volatile
StructSpec su = StructOrUnion Id Bro StructDecls Brc | StructOrUnion Bro StructDecls Brc | StructOrUnion Id
StructOrUnion so = struct | union
StructDecls sds = StructDecl | StructDecls StructDecl
StructDecl sd = SpecQuals StructDeclrs Semi
SpecQuals sq = TypeSpec | TypeSpec SpecQuals | TypeQual | TypeQual SpecQuals
StructDeclrs sdr = StructDeclr | StructDeclrs Comma StructDeclr
StructDeclr sdc = Declarator | Colon CondExpr | Declarator Colon CondExpr
InitList il = InitDeclr | InitList Comma InitDeclr
InitDeclr id = Declarator | Declarator Eq Init
EnumSpec en = enum Bro Enums Brc | enum Id Bro Enums Brc | enum Id
Enums ens = Enumr | Enums Comma Enumr
Enumr er = Id | Id Eq CondExpr
Declarator dr = Pointer DirectDeclr | DirectDeclr
DirectDeclr dd = Id | Open Declarator Close | DirectDeclr Sqo CondExpr Sqc | DirectDeclr Sqo Sqc
    | DirectDeclr Open ParamTypes Close | DirectDeclr Open Ids Close | DirectDeclr Open Close
Pointer pt = Star | Star Quals | Star Pointer | Star Quals Pointer
Quals ql = TypeQual | Quals TypeQual
ParamTypes pts = Params | Params Comma Ellipsis
Params ps = Param | Params Comma Param
Param pa = DeclSpecs Declarator | DeclSpecs AbsDeclr | DeclSpecs
Ids ids = Id | Ids Comma Id
TypeName tn = SpecQuals | SpecQuals AbsDeclr
AbsDeclr ad = Pointer | DirectAbs | Pointer DirectAbs
DirectAbs da = Open AbsDeclr Close | Sqo Sqc | Sqo CondExpr Sqc | DirectAbs Sqo Sqc | DirectAbs Sqo CondExpr Sqc
    | Open Close | Open ParamTypes Close | DirectAbs Open Close | DirectAbs Open ParamTypes Close
Init in = AssignExpr | Bro Inits Brc | Bro Inits Comma Brc
Inits ins = Init | Inits Comma Init
Stmt sm = Matched | Unmatched
Matched ma = Id Colon Matched | case CondExpr Colon Matched | default Colon Matched | ExprStmt | Compound
    | if Open Expr Close Matched else Matched | switch Open Expr Close Matched | while Open Expr Close Matched
    | do Stmt while Open Expr Close Semi | for Open ExprStmt ExprStmt Close Matched
    | for Open ExprStmt ExprStmt Expr Close Matched | goto Id Semi | continue Semi | break Semi | return Semi
    | return Expr Semi
Unmatched um = Id Colon Unmatched | case CondExpr Colon Unmatched | default Colon Unmatched | if Open Expr Close Stmt
    | if Open Expr Close Matched else Unmatched | switch Open Expr Close Unmatched | while Open Expr Close Unmatched
    | for Open ExprStmt ExprStmt Close Unmatched | for Open ExprStmt ExprStmt Expr Close Unmatched
ExprStmt es = Semi | Expr Semi
Compound cs = Bro Brc | Bro Stmts Brc | Bro DeclList Brc | Bro DeclList Stmts Brc
Stmts sts = Stmt | Stmts Stmt
Expr ex = AssignExpr | Expr Comma AssignExpr
AssignExpr ae = CondExpr | Unary AssignOp AssignExpr
AssignOp ao = Eq | StarEq | SlashEq | PercentEq | PlusEq | MinusEq | ShlEq | ShrEq | AmpEq | CaretEq | BarEq
CondExpr ce = OrExpr | OrExpr Quest Expr Colon CondExpr
OrExpr oe = AndExpr | OrExpr OrOr AndExpr
AndExpr an = BitOr | AndExpr AndAnd BitOr
BitOr bo = BitXor | BitOr Bar BitXor
BitXor bx = BitAnd | BitXor Caret BitAnd
BitAnd ba = Equality | BitAnd Amp Equality
Equality eq = Relation | Equality EqEq Relation | Equality Ne Relation
Relation re = Shift | Relation Lt Shift | Relation Gt Shift | Relation Le Shift | Relation Ge Shift
Shift sh = Additive | Shift Shl Additive | Shift Shr Additive
Additive at = Multive | Additive Plus Multive | Additive Minus Multive
Multive mu = Cast | Multive Star Cast | Multive Slash Cast | Multive Percent Cast
Cast ca = Unary | Open TypeName Close Cast
Unary un = Postfix | Inc Unary | Dec Unary | UnaryOp Cast | sizeof Unary | sizeof Open TypeName Close
UnaryOp uo = Amp | Star | Plus | Minus | Tilde | Bang
Postfix po = Primary | Postfix Sqo Expr Sqc | Postfix Open Close | Postfix Open Args Close | Postfix Dot Id
    | Postfix Arrow Id | Postfix Inc | Postfix Dec
Args ar = AssignExpr | Args Comma AssignExpr
Primary pr = Id | IntLit | FloatLit | CharLit | Strings | Open Expr Close
Strings st = StringLit | Strings StringLit
"""

WORDS = """auto register static extern typedef void char short int long float double signed unsigned const volatile struct union enum
case default if else switch while do for goto continue break return sizeof""".split()

PATTERNS = {
    "Id": "[A-Za-z_][A-Za-z0-9_]*",
    "IntLit": "(0[xX][0-9a-fA-F]+|[0-9]+)[uUlL]*",
    "FloatLit": r"([0-9]+\.[0-9]*([eE][+\-]?[0-9]+)?|\.[0-9]+([eE][+\-]?[0-9]+)?|[0-9]+[eE][+\-]?[0-9]+)[fFlL]?",
    "CharLit": r"'([^'\\\n]|\\[^\n])+'",
    "StringLit": r'"([^"\\\n]|\\[^\n])*"',
}

SIGNS = dict(it.rsplit(" ", 1) for it in """Semi ;|Bro {|Brc }|Comma ,|Colon :|Eq =|Open (|Close )|Sqo [|Sqc ]|Star *|Ellipsis ...|StarEq *=
SlashEq /=|PercentEq %=|PlusEq +=|MinusEq -=|ShlEq <<=|ShrEq >>=|AmpEq &=|CaretEq ^=|Quest ?|AndAnd &&|Caret ^|Amp &|EqEq ==|Ne !=|Lt <
Gt >
Le <=|Ge >=|Shl <<|Shr >>|Plus +|Minus -|Slash /|Percent %|Inc ++|Dec --|Tilde ~|Bang !|Dot .|Arrow ->""".replace("\n", "|").split("|"))
SIGNS |= {"BarEq": "|=", "OrOr": "||", "Bar": "|"}

IGNORED = [("Space", r"[ \t\n\r\x0b\x0c]+"), ("Comment", r"\/\*([^*]|\*+[^*\/])*\*+\/"), ("Line", r"#[^\n]*")]


def lines():
    """The lines of the grammar: a nonterminal, the word of its productions, and their right sides as lists."""
    for line in GRAMMAR.strip().replace("\n    |", " |").split("\n"):
        head, rights = line.split(" = ")
        left, word = head.split()
        yield left, word, [right.split() for right in rights.split(" | ")]


def total(parts):
    """The expression for the sum of parts, from the left."""
    result = parts[0] if parts else "0"
    for part in parts[1:]:
        result = f"@add({result}, {part})"
    return result


def production(name, left, right, nonterminals):
    """A production with its equations: depth is handed down, one more within braces, and weight is summed."""
    inner = "@add(top.depth, 1)" if left == "Compound" else "0" if left == "Unit" else "top.depth"
    equations, parts = [], []
    for at, symbol in enumerate(right, 1):
        if symbol in nonterminals:
            equations.append(f"x{at}.depth = {inner};")
            parts.append(f"x{at}.weight")
        elif symbol in ("IntLit", "StringLit"):
            parts.append(f"@length(x{at}.lexeme)")
    if left == "Primary" and right[0] in ("Id", "IntLit", "FloatLit", "CharLit"):
        parts.insert(0, "top.depth")
    children = " ".join(f"x{at} : {'K_' + symbol if symbol in WORDS else symbol}" for at, symbol in enumerate(right, 1))
    return f"concrete {name} : {left} ::= {children} {{ {' '.join(equations)} top.weight = {total(parts)}; }}"


def spec(name="c89", last=""):
    """The text of the host under a name, with further items at its end."""
    grammar = list(lines())
    nonterminals = [left for left, _, _ in grammar]
    out = [f"format 1; host {name};"] + [f"ignore {it} /{pattern}/;" for it, pattern in IGNORED]
    out += [f"terminal K_{word} /{word}/;" for word in WORDS]
    out += [f"terminal {it} /{pattern}/;" for it, pattern in PATTERNS.items()]
    out += [f"terminal {it} /{''.join(chr(92) + c for c in sign)}/;" for it, sign in SIGNS.items()]
    out += [f"prefer K_{word} over Id;" for word in WORDS]
    out += [f"nonterminal {it};" for it in nonterminals] + ["start Unit;", "inh depth : int; syn weight : int; occurs weight on Unit;"]
    out += [f"occurs depth on {it}; occurs weight on {it} needs {{ depth }};" for it in nonterminals[1:]]
    for left, word, rights in grammar:
        out += [production(f"{word}{at}", left, right, nonterminals) for at, right in enumerate(rights, 1)]
    return "\n".join(out) + "\n" + last


if __name__ == "__main__":
    print(spec(), end="")

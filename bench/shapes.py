"""Hosts whose attributes go in one shape over the tree, each with a text: a chain, and trees of so many levels."""

HEAD = "format 1; host {}; nonterminal N; nonterminal S; start S; terminal A /a/; terminal B /b/; terminal Open /\\(/; terminal Close /\\)/;"


def chain(count):
    """An attribute that is handed on from child to child."""
    spec = [HEAD.format("chain"), "syn v : int; occurs v on N; occurs v on S;", "concrete s : S ::= n : N { top.v = n.v; }",
            "concrete one : N ::= b : B { top.v = 1; }", "concrete more : N ::= a : A n : N { top.v = n.v; }"]
    return "\n".join(spec) + "\n", "a" * count + "b"


def total(parts):
    """The sum of the parts, as an expression."""
    whole = parts[0]
    for part in parts[1:]:
        whole = f"@add({whole}, {part})"
    return whole


def tree(levels, up, down=0):
    """So many attributes that add up the tree, and so many that count its levels from the root."""
    rising, falling = [f"u{k}" for k in range(up)], [f"d{k}" for k in range(down)]
    needs = f" needs {{ {', '.join(falling)} }}" if falling else ""
    spec = [HEAD.format("tree")] + [f"syn {it} : int; occurs {it} on N{needs};" for it in rising]
    spec += [f"inh {it} : int; occurs {it} on N;" for it in falling] + ["syn v : int; occurs v on S;"]
    first = "".join(f"n.{it} = 1; " for it in falling)
    leaf = total([f"top.{it}" for it in falling] or ["1"])
    below = "".join(f"{side}.{it} = @add(top.{it}, 1); " for it in falling for side in "lr")
    sums = "".join(f"top.{it} = @add(l.{it}, r.{it}); " for it in rising)
    spec += [f"concrete s : S ::= n : N {{ {first}top.v = {total([f'n.{it}' for it in rising])}; }}",
             f"concrete leaf : N ::= a : A {{ {''.join(f'top.{it} = {leaf}; ' for it in rising)}}}",
             f"concrete node : N ::= o : Open l : N r : N c : Close {{ {below}{sums}}}"]
    text = "a"
    for _ in range(levels - 1):
        text = f"({text}{text})"
    return "\n".join(spec) + "\n", text

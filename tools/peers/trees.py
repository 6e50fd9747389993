"""Trees of expressions, statements and modules, as tuples: what lists build, and what dumps are read as.

Expressions:

    ("name", n)  ("number", signed, bits)  ("fill", "1")  ("unary", sign, e)  ("binary", sign, l, r)
    ("ternary", c, a, b)  ("index", e, i)  ("slice", e, high, low)  ("part", e, start, width)
    ("concat", e ..)  ("replicate", n, e ..)  ("call", f, e ..)  ("cast", width, e)  ("type", word, e)
    ("signed", e)  ("unsigned", e)

`bits` are characters `0`, `1`, `x` and `z`, as many as the number is wide. A number that a list builds has one element
more, a `Literal`, which `plain` takes away. A negative literal is a sign before a number, as each tool reads it;
`signed'(e)` and `$signed(e)` are the same node.

Statements: ("=", l, r)  ("<=", l, r)  ("assign", l, r)  ("if", c, then, otherwise or None)
("case", word, is unique, selector, arms), an arm being (label or None, body). Bodies are tuples of statements.
("for", name, start, end, body)

A type is (signed, high or None, dimensions). Members of modules and loops, beside "assign" and "if":

    ("declare", word, name, type)  ("localparam", name, type or None, value)  ("always", word, events, body)
    ("function", name, type, inputs, locals, body), both of (word, name, type)
    ("loop", name, start, end, label or None, members)  ("instance", module, name, parameters, connections)

A module is ("module", name, parameters, ports, members), a port (direction, name, type), an event (edge, e).
"""
from collections import namedtuple

UNARY = {
    "~": ("MakeBitwiseNot", "MakeNot"), "-": ("MakeNegate",), "!": ("MakeLogicalNot",),
    "&": ("MakeAndReduce",), "|": ("MakeOrReduce",), "^": ("MakeXorReduce",),
}
BINARY = {
    "+": ("MakeAdd",), "-": ("MakeSub",), "*": ("MakeMul",), "/": ("MakeDiv",), "%": ("MakeMod",), "**": ("MakePower",),
    "&": ("MakeBitwiseAnd",), "|": ("MakeBitwiseOr",), "^": ("MakeBitwiseXor",),
    "<<": ("MakeShll",), ">>>": ("MakeShra",), ">>": ("MakeShrl",),
    "!=": ("MakeNe",), "!==": ("MakeCaseNe", "MakeNeX"), "==": ("MakeEq",), "===": ("MakeCaseEq", "MakeEqX"),
    ">=": ("MakeGe",), ">": ("MakeGt",), "<=": ("MakeLe",), "<": ("MakeLt",),
    "&&": ("MakeLogicalAnd",), "||": ("MakeLogicalOr",),
}
BIT = (False, None, ())

# How a number that a list builds is written by hand, and the call with its arguments that builds it.
Literal = namedtuple("Literal", "text call arguments")


def name(word):
    return ("name", word)


def bits_of(width, value):
    return format(value % (1 << width), f"0{width}b")


def integer(value):
    """The number that a plain decimal one is read as: 32 bits and a sign."""
    return ("number", True, bits_of(32, value))


def plain(tree):
    """The tree without literals, which dumps don't have."""
    if not isinstance(tree, tuple) or isinstance(tree, Literal):
        return tree
    if tree[:1] == ("number",):
        return tree[:3]
    return tuple(map(plain, tree))


def vector(width, signed=False, dimensions=()):
    """The type of so many bits, in an array of these dimensions; a single bit has no sign."""
    high = None if width == 1 else integer(width - 1)
    return (signed and width > 1, high, tuple(map(integer, dimensions)))


def coarse(tree):
    """The tree without what Verilator's dump doesn't tell: reg from logic, and the kind of a case."""
    if not isinstance(tree, tuple):
        return tree
    if tree[:1] == ("case",):
        tree = ("case", "case", False, *tree[3:])
    if tree[:1] in (("reg",), ("logic",)):
        tree = ("var", *tree[1:])
    if tree[:2] in (("declare", "reg"), ("declare", "logic")):
        tree = ("declare", "var", *tree[2:])
    return tuple(map(coarse, tree))


def size(tree):
    """How many operators, selects, lists and casts an expression has."""
    if not isinstance(tree, tuple):
        return 0
    return (tree[:1] not in (("name",), ("number",), ("fill",))) + sum(map(size, tree[1:]))


def pairs(tree):
    """Each operator of an expression with the place and the operator of an operand."""
    if tree[0] in ("name", "number", "fill"):
        return
    for place, part in enumerate(tree[1:]):
        if isinstance(part, tuple) and part:
            yield label(tree), place, label(part)
            yield from pairs(part)


def label(tree):
    """What kind of node it is: an operator by its sign, another by its name."""
    return tree[:2] if tree[0] in ("unary", "binary") else tree[:1]


def difference(built, read):
    """The smallest part in which two trees differ, as both have it."""
    both = isinstance(built, tuple) and isinstance(read, tuple) and len(built) == len(read)
    if both:
        apart = [(a, b) for a, b in zip(built, read) if a != b]
        if len(apart) == 1:
            return difference(*apart[0])
    return built, read

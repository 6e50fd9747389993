"""Random expressions over all operators, selects, lists and casts, as trees.

Odd ones have also what some tool refuses: casts to types, and digits `?` outside labels.
"""
from trees import BINARY, UNARY, Literal, bits_of, integer, name, vector

FORMATS = {"Binary": "b", "Hex": "h", "UnsignedDecimal": "d", "SignedDecimal": "sd"}
# The inputs of each module that is made, and its parameters.
INPUTS = {
    "a": vector(8), "b": vector(8, True), "c": vector(1), "d": vector(16), "e": vector(5, True), "f": vector(33),
}
PARAMETERS = {"P": 3, "Q": 1}
COUNTS = (1, 2, 3)


class Random:
    """Makes expressions from a source of random numbers, over the names of some vectors and single bits."""

    fills = ("0", "1", "x")

    def __init__(self, source, vectors, others, is_odd=False):
        self.source = source
        self.is_odd = is_odd
        self.vectors = dict(vectors)
        self.others = list(others)
        self.places = []  # names of loops, which have no width of their own
        self.functions = {}
        self.arrays = {}

    def of(self, *words):
        return self.source.choice(words)

    def expression(self, count, sized=False):
        """An expression of about so many operators; a sized one has a width of its own, as lists want it."""
        if count <= 0:
            return self.leaf(sized)
        kind = self.source.choices(
            ["binary", "unary", "ternary", "concat", "replicate", "select", "cast", "signed", "call", "type"],
            [48, 20, 9, 6, 5, 12, 5, 4, 3, 5 * self.is_odd])[0]
        return getattr(self, kind)(count - 1, sized)

    def share(self, count, parts):
        """So many numbers whose sum is the count."""
        cuts = sorted(self.source.randint(0, count) for _ in range(parts - 1))
        return [b - a for a, b in zip([0, *cuts], [*cuts, count])]

    def parts(self, count, parts, sized):
        return [self.expression(it, sized) for it in self.share(count, parts)]

    def binary(self, count, sized):
        return ("binary", self.of(*BINARY), *self.parts(count, 2, sized))

    def unary(self, count, sized):
        return ("unary", self.of(*UNARY), self.expression(count, sized))

    def ternary(self, count, sized):
        return ("ternary", *self.parts(count, 3, sized))

    def concat(self, count, sized):
        return ("concat", *self.parts(count, self.of(1, 2, 2, 3), True))

    def replicate(self, count, sized):
        times = name("P") if self.source.random() < 0.2 else integer(self.of(*COUNTS))
        if self.source.random() < 0.2:
            times = ("binary", "+", times, integer(1))
        return ("replicate", times, *self.parts(count, self.of(1, 1, 2), True))

    def cast(self, count, sized):
        width = self.of(
            integer(self.of(1, 4, 8, 20)), integer(self.of(2, 9)), name("P"), ("binary", "+", name("P"), integer(1)),
            self.number(8, self.of(3, 7), "Hex"))
        return ("cast", width, self.expression(count, sized))

    def signed(self, count, sized):
        inner = self.expression(count, sized)
        if self.is_odd and self.source.random() < 0.5:
            inner = ("cast", integer(self.of(2, 6, 12)), inner)
        return (self.of("signed", "signed", "unsigned"), inner)

    def type(self, count, sized):
        return ("type", self.of("logic", "int", "integer"), self.expression(count, sized))

    def call(self, count, sized):
        if not self.functions or self.source.random() < 0.2:
            return ("call", "$clog2", self.of(name("P"), integer(9)))
        called = self.of(*self.functions)
        return ("call", called, *self.parts(count, self.functions[called], sized))

    def select(self, count, sized):
        """A bit or some bits of a vector, at fixed places or at one that is computed."""
        if self.arrays and self.source.random() < 0.3:
            return ("index", name(self.of(*self.arrays)), self.expression(count))
        taken = self.of(*self.vectors)
        width = int(self.vectors[taken][1][2], 2) + 1
        kind = self.source.randrange(5)
        if kind == 0:
            return ("index", name(taken), self.expression(count))
        if kind == 1:
            return ("index", name(taken), integer(self.source.randrange(width)))
        if kind == 2:
            return ("part", name(taken), self.expression(count), integer(self.source.randint(1, width - 1)))
        if kind == 3:
            return ("slice", name(taken), self.of(name("P"), ("binary", "+", name("P"), name("Q"))), name("Q"))
        high = self.source.randrange(width)
        return ("slice", name(taken), integer(high), integer(self.source.randint(0, high)))

    def leaf(self, sized):
        kind = self.source.randrange(10)
        if kind < 6:
            return name(self.of(*self.vectors, *self.others, *([] if sized else self.places)))
        if kind < 8 or sized:
            width = self.of(1, 4, 8, 13)
            return self.number(width, self.source.randrange(1 << width), self.of(*FORMATS, "Text", *["Pattern"] * self.is_odd))
        return self.unsized(self.of("decimal", "negative", "fill", "UnsizedBinary", "UnsizedDecimal", "UnsizedHex"))

    def number(self, width, value, form):
        """A number of so many bits; a negative one is a sign before a number."""
        if form == "Text":
            return self.string()
        if form == "Pattern":
            return self.pattern(width)
        negative = form == "SignedDecimal" and value >> (width - 1)
        magnitude = (1 << width) - value if negative else value
        text = f"{width}'{FORMATS[form]}{format(magnitude, {'b': 'b', 'h': 'x'}.get(FORMATS[form], 'd'))}"
        spelled = f"bits[{width}]:{value}"
        literal = Literal(text, "after a sign" if negative else "MakeLiteral", (spelled, form))
        number = ("number", form == "SignedDecimal", bits_of(width, magnitude), literal)
        return ("unary", "-", number) if negative else number

    def pattern(self, width):
        digits = "".join(self.of("0", "1", "1", "?") for _ in range(width))
        literal = Literal(f"{width}'b{digits}", "MakeBinaryPattern", (digits,))
        return ("number", False, digits.replace("?", "z"), literal)

    def string(self):
        text = "".join(self.of("a", "Z", "0", "~") for _ in range(self.of(1, 2)))
        digits = "".join(bits_of(8, ord(it)) for it in text)
        return ("number", False, digits, Literal(f'"{text}"', "MakeStringLiteral", (text,)))

    def unsized(self, form):
        """A number without a width of its own."""
        if form == "fill":
            return ("fill", self.of(*self.fills))
        value = self.source.randrange(40)
        if form == "decimal":
            return integer(value)
        if form == "negative":
            return ("unary", "-", (*integer(value + 1), Literal(str(value + 1), "after a sign", (-1 - value,))))
        text = {"UnsizedBinary": f"'b{value:b}", "UnsizedDecimal": str(value), "UnsizedHex": f"'h{value:x}"}[form]
        literal = Literal(text, "MakeLiteral", (f"bits[32]:{value}", form))
        return ("number", form == "UnsizedDecimal", bits_of(32, value), literal)


def expression_module(source, title, is_odd=False):
    """A module that assigns an expression to an output."""
    vectors = {it: kind for it, kind in INPUTS.items() if kind[1]}
    tree = Random(source, vectors, ["c", *PARAMETERS], is_odd).expression(source.randint(1, 12))
    ports = [("input", it, kind) for it, kind in INPUTS.items()] + [("output", "y", vector(40))]
    parameters = tuple((it, integer(value)) for it, value in PARAMETERS.items())
    return ("module", title, parameters, tuple(ports), (("assign", name("y"), tree),))

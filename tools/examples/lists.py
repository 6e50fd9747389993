"""Writes lists of calls for `vast_replay` (docs/use/LISTS.md has the form); only Python's standard library.

    design = List()
    counter = design.AddModule("counter")
    clk = design.AddInput(counter, "clk", design.MakeScalarType())
    print(design)

A call is a method by its name in lists, a helper's without its sign. It answers a handle, which later calls may take:
the number of the call. Texts are `str`, numbers `int`, truths `bool`, lists and groups `list`, words such as `Hex`
`Word("Hex")`; an optional argument is `None` or `Some(x)`.
"""
import json

HELPERS = {
    "AddRegisters", "BitwiseOrReduce", "BitwiseOrReduceArrayElements", "LogicalAndReduce", "LogicalOrReduce",
}


class Handle:
    """What a call answered: its number in the list."""

    def __init__(self, number):
        self.number = number


class Word:
    """A variant's word, as `Hex` or `Logic`."""

    def __init__(self, word):
        self.word = word


class Some:
    """An optional argument that is there."""

    def __init__(self, value):
        self.value = value


def written(value):
    """An argument as it stands in a list."""
    if isinstance(value, bool):
        return "true" if value else "false"
    if isinstance(value, (int, str)):
        return json.dumps(value, ensure_ascii=False)
    if isinstance(value, Handle):
        return str(value.number)
    if isinstance(value, Word):
        return value.word
    if isinstance(value, Some):
        return f"+ {written(value.value)}"
    if value is None:
        return "-"
    return " ".join(["[", *map(written, value), "]"])


class List:
    """A list in the making, and what is often made of several calls."""

    def __init__(self, dialect="systemverilog"):
        self.lines = [dialect]
        self.count = 0

    def __str__(self):
        return "\n".join(self.lines)

    def __getattr__(self, call):
        """The call of this name."""
        if not call[:1].isupper():
            raise AttributeError(call)

        def add(*arguments):
            name = f"!{call}" if call in HELPERS else call
            self.lines.append(" ".join([name, *map(written, arguments)]))
            self.count += 1
            return Handle(self.count - 1)

        return add

    def comment(self, text):
        """A comment of the list, which is not in what it makes."""
        self.lines.append(f"# {text}")

    def bits(self, width):
        """The type of so many bits."""
        return self.MakeScalarType() if width == 1 else self.MakeBitVectorType(width, False)

    def literal(self, width, value):
        """A number of so many bits."""
        return self.MakeLiteral(f"bits[{width}]:{value}", Word("UnsignedDecimal" if value < 10 else "Hex"))

    def plain(self, value):
        """A number without a width."""
        return self.MakeUnsizedDecimalLiteral(value)

    def assign(self, module, left, right):
        """`assign left = right;` as the module's next member."""
        self.AddMemberContinuousAssignment(module, self.MakeContinuousAssignment(left, right))

    def clocked(self, module, clk):
        """The block of an `always_ff @ (posedge clk)`, the module's next member."""
        return self.StatementBlock(self.AddAlwaysFf(module, [self.MakePosEdge(clk)]))

    def call(self, block, name, arguments):
        """The statement `name(arguments);` as the block's next."""
        self.BlockAddTaskCall(block, self.MakeFunctionCall(name, arguments))

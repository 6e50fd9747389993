"""Writes the list of calls that builds a tree; where several calls build the same node, a random one of them."""
import os
import sys

HERE = os.path.dirname(os.path.abspath(__file__))
sys.path.insert(0, f"{os.path.dirname(HERE)}/examples")
from lists import List, Some, Word  # noqa: E402, the folder beside this one
from trees import BINARY, UNARY  # noqa: E402

TYPES = {"logic": ("MakeScalarType",), "int": ("MakeIntType", True), "integer": ("MakeIntegerType", True)}


class Writer:
    """The list of one module in the making, and the handles of the names that it has."""

    def __init__(self, source):
        self.source = source
        self.list = List()
        self.names = {}

    def call(self, name, *arguments):
        return getattr(self.list, name)(*arguments)

    def value(self, number):
        """What a tree of a number says."""
        return int(number[2], 2)

    def some(self, share=0.5):
        return self.source.random() < share

    def expression(self, tree):
        """The handle of the expression."""
        kind, *parts = tree
        return getattr(self, f"make_{kind}")(*parts)

    def all(self, trees):
        return [self.expression(it) for it in trees]

    def make_name(self, name):
        return self.names[name]

    def make_number(self, signed, bits, literal=None):
        if literal is None:
            return self.call("MakeUnsizedDecimalLiteral", int(bits, 2))
        if literal.call == "MakeLiteral":
            text, form = literal.arguments
            return self.call("MakeLiteral", text, Word(form))
        return self.call(literal.call, *literal.arguments)

    def make_fill(self, digit):
        return self.call({"0": "MakeUnsizedZeroLiteral", "1": "MakeUnsizedOneLiteral", "x": "MakeUnsizedXLiteral"}[digit])

    def make_unary(self, sign, operand):
        """An operator; or a literal that is written after a sign."""
        if operand[0] == "number" and len(operand) == 4 and operand[3].call == "after a sign":
            return self.negative(*operand[3].arguments)
        return self.call(self.source.choice(UNARY[sign]), self.expression(operand))

    def negative(self, value, form=None):
        """The literal that is written after a sign."""
        if form is None:
            return self.call("MakeUnsizedDecimalLiteral", value)
        return self.call("MakeLiteral", value, Word(form))

    def make_binary(self, sign, left, right):
        return self.call(self.source.choice(BINARY[sign]), self.expression(left), self.expression(right))

    def make_ternary(self, condition, then, otherwise):
        return self.call("MakeTernary", *self.all([condition, then, otherwise]))

    def make_index(self, subject, index):
        given = self.expression(subject)
        if index[0] == "number" and len(index) == 3 and self.some():
            return self.call("MakeIndex", given, self.value(index))
        return self.call("MakeIndexExpr", given, self.expression(index))

    def make_slice(self, subject, high, low):
        given = self.expression(subject)
        if high[0] == low[0] == "number" and self.some():
            return self.call("MakeSlice", given, self.value(high), self.value(low))
        return self.call("MakeSliceExpr", given, self.expression(high), self.expression(low))

    def make_part(self, subject, start, width):
        return self.call("MakeIndexedPartSelect", self.expression(subject), self.expression(start), self.value(width))

    def make_concat(self, *elements):
        return self.call("MakeConcat", self.all(elements))

    def make_replicate(self, times, *elements):
        if times[0] == "number" and self.some():
            return self.call("MakeReplicatedConcatI64", self.value(times), self.all(elements))
        return self.call("MakeReplicatedConcat", self.expression(times), self.all(elements))

    def make_call(self, name, *arguments):
        return self.call("MakeFunctionCall", name, self.all(arguments))

    def make_cast(self, width, value):
        return self.call("MakeWidthCast", self.expression(width), self.expression(value))

    def make_type(self, word, value):
        return self.call("MakeTypeCast", self.call(*TYPES[word]), self.expression(value))

    def make_signed(self, value):
        return self.sign(True, value)

    def make_unsigned(self, value):
        return self.sign(False, value)

    def sign(self, signed, value):
        """By the system's function; or by the cast to a type of so many bits, written as two casts."""
        if value[0] == "cast" and value[1][0] == "number" and len(value[1]) == 3 and self.value(value[1]) > 1:
            kind = self.call("MakeBitVectorType", self.value(value[1]), signed)
            return self.call("MakeTypeCast", kind, self.expression(value[2]))
        return self.call("MakeFunctionCall", "$signed" if signed else "$unsigned", [self.expression(value)])

    def type(self, data_type):
        """The handle of a type."""
        signed, high, dimensions = data_type
        if high is None:
            made = self.call("MakeScalarType")
        elif high[0] == "number":
            made = self.call("MakeBitVectorType", self.value(high) + 1, signed)
        else:
            made = self.call("MakeBitVectorTypeExpr", self.expression(high[2]), signed)
        return self.call("MakeUnpackedArrayType", made, [self.value(it) for it in dimensions]) if dimensions else made

    def optional(self, value):
        return None if value is None else Some(value)

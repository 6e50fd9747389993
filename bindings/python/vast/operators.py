"""Python's operators on expressions."""
# The class here is the base of one of kinds.py, which is what its `self` is.
# mypy: disable-error-code=arg-type
from __future__ import annotations

from typing import TYPE_CHECKING, Union

from .handle import Handle

if TYPE_CHECKING:
    from .kinds import Expr, Index, Operand, Slice


class Operators(Handle):
    """Python's operators on what may stand as an expression; on either side an `int` is a decimal literal.

    `a == b` compares handles; Verilog's is `a.eq(b)`, and `a.ne(b)`, `a.logical_and(b)`, `a.logical_or(b)`,
    `a.logical_not()`, `a.shra(b)` are what has no operator in Python. `a[3]` and `a[7:0]` select by numbers, or by
    expressions, both bounds included; `a.part(start, width)` is `a[start +: width]`.
    """

    __slots__ = ()
    __iter__ = None
    __contains__ = None

    def _printed(self) -> str:
        return self.file.emit_expression(self)

    def __bool__(self) -> bool:
        raise TypeError(
            "an expression is neither true nor false in Python: write a.logical_and(b), a.logical_or(b),"
            " a.logical_not(), a.eq(b) for &&, ||, !, =="
        )

    def __add__(self, other: Operand) -> Expr:
        return self.file.make_add(self, other)

    def __radd__(self, other: Operand) -> Expr:
        return self.file.make_add(other, self)

    def __sub__(self, other: Operand) -> Expr:
        return self.file.make_sub(self, other)

    def __rsub__(self, other: Operand) -> Expr:
        return self.file.make_sub(other, self)

    def __mul__(self, other: Operand) -> Expr:
        return self.file.make_mul(self, other)

    def __rmul__(self, other: Operand) -> Expr:
        return self.file.make_mul(other, self)

    def __truediv__(self, other: Operand) -> Expr:
        return self.file.make_div(self, other)

    def __rtruediv__(self, other: Operand) -> Expr:
        return self.file.make_div(other, self)

    def __mod__(self, other: Operand) -> Expr:
        return self.file.make_mod(self, other)

    def __rmod__(self, other: Operand) -> Expr:
        return self.file.make_mod(other, self)

    def __pow__(self, other: Operand) -> Expr:
        return self.file.make_power(self, other)

    def __rpow__(self, other: Operand) -> Expr:
        return self.file.make_power(other, self)

    def __and__(self, other: Operand) -> Expr:
        return self.file.make_bitwise_and(self, other)

    def __rand__(self, other: Operand) -> Expr:
        return self.file.make_bitwise_and(other, self)

    def __or__(self, other: Operand) -> Expr:
        return self.file.make_bitwise_or(self, other)

    def __ror__(self, other: Operand) -> Expr:
        return self.file.make_bitwise_or(other, self)

    def __xor__(self, other: Operand) -> Expr:
        return self.file.make_bitwise_xor(self, other)

    def __rxor__(self, other: Operand) -> Expr:
        return self.file.make_bitwise_xor(other, self)

    def __lshift__(self, other: Operand) -> Expr:
        return self.file.make_shll(self, other)

    def __rlshift__(self, other: Operand) -> Expr:
        return self.file.make_shll(other, self)

    def __rshift__(self, other: Operand) -> Expr:
        return self.file.make_shrl(self, other)

    def __rrshift__(self, other: Operand) -> Expr:
        return self.file.make_shrl(other, self)

    def __lt__(self, other: Operand) -> Expr:
        return self.file.make_lt(self, other)

    def __le__(self, other: Operand) -> Expr:
        return self.file.make_le(self, other)

    def __gt__(self, other: Operand) -> Expr:
        return self.file.make_gt(self, other)

    def __ge__(self, other: Operand) -> Expr:
        return self.file.make_ge(self, other)

    def __invert__(self) -> Expr:
        return self.file.make_bitwise_not(self)

    def __neg__(self) -> Expr:
        return self.file.make_negate(self)

    def __getitem__(self, key: Union[Operand, slice]) -> Union[Index, Slice]:
        return self.file.select(self, key)

    def part(self, start: Operand, width: int) -> Expr:
        """`a[start +: width]`, of so many bits or elements."""
        return self.file.make_indexed_part_select(self.file.selectable(self), start, width)

    @property
    def posedge(self) -> Expr:
        """`posedge a`."""
        return self.file.make_pos_edge(self)

    @property
    def negedge(self) -> Expr:
        """`negedge a`."""
        return self.file.make_neg_edge(self)

"""Each call that makes an expression or a type, with the text that the layout gives it."""
import re

from sessions import FileTest, over_each
from vast import Expression, LiteralFormat

UNARY = {
    "make_not": "~a",
    "make_bitwise_not": "~a",
    "make_negate": "-a",
    "make_logical_not": "!a",
    "make_and_reduce": "&a",
    "make_or_reduce": "|a",
    "make_xor_reduce": "^a",
    "make_pos_edge": "posedge a",
    "make_neg_edge": "negedge a",
}
BINARY = {
    "make_add": "+",
    "make_sub": "-",
    "make_mul": "*",
    "make_div": "/",
    "make_mod": "%",
    "make_power": "**",
    "make_bitwise_and": "&",
    "make_bitwise_or": "|",
    "make_bitwise_xor": "^",
    "make_shll": "<<",
    "make_shra": ">>>",
    "make_shrl": ">>",
    "make_ne": "!=",
    "make_case_ne": "!==",
    "make_eq": "==",
    "make_case_eq": "===",
    "make_ge": ">=",
    "make_gt": ">",
    "make_le": "<=",
    "make_lt": "<",
    "make_logical_and": "&&",
    "make_logical_or": "||",
    "make_ne_x": "!==",
    "make_eq_x": "===",
}


def named(file):
    """Names `a`, `b`, `c` of eight bits."""
    module = file.add_module("m")
    byte = file.make_bit_vector_type(8)
    return [file.add_input(module, name, byte) for name in "abc"]


class Operators(FileTest):
    """One, two and three operands."""

    @over_each()
    def test_unary(self, file):
        a, _, _ = named(file)
        for method, text in UNARY.items():
            self.assert_expression(getattr(file, method)(a), text)

    @over_each()
    def test_binary(self, file):
        a, b, _ = named(file)
        for method, sign in BINARY.items():
            self.assert_expression(getattr(file, method)(a, b), f"a {sign} b")

    @over_each()
    def test_ternary(self, file):
        a, b, c = named(file)
        self.assert_expression(file.make_ternary(a, b, c), "a ? b : c")
        self.assert_expression(a.ternary(b, c).ternary(b, c), "(a ? b : c) ? b : c")

    @over_each()
    def test_parentheses(self, file):
        a, b, c = named(file)
        self.assert_expression(a - (b - c), "a - (b - c)")
        self.assert_expression((a - b) - c, "a - b - c")
        self.assert_expression(a.or_reduce().logical_or(a.and_reduce()), "(|a) || (&a)")
        self.assert_expression((a + b).indexable_expression().index(1), "(a + b)[1]")


class Others(FileTest):
    """Literals, selects, lists and casts."""

    @over_each()
    def test_literals(self, file):
        literal = file.make_literal
        self.assert_expression(literal("bits[8]:42", LiteralFormat.HEX), "8'h2a")
        self.assert_expression(literal("bits[9]:0b11", LiteralFormat.BINARY), "9'b0_0000_0011")
        self.assert_expression(literal("bits[8]:0x80", LiteralFormat.SIGNED_DECIMAL), "-8'sd128")
        self.assert_expression(literal("bits[96]:42", "UnsignedDecimal"), "96'd42")
        self.assert_expression(literal("bits[8]:-1", LiteralFormat.UNSIZED_DECIMAL), "255")
        self.assert_expression(literal("bits[80]:0x10000", LiteralFormat.UNSIZED_HEX), "'h1_0000")
        self.assert_expression(literal("bits[8]:5", LiteralFormat.UNSIZED_BINARY), "'b101")
        self.assert_expression(file.bits(8, 1), "8'd1")
        self.assert_expression(file.make_binary_pattern("1??0"), "4'b1??0")
        self.assert_expression(file.make_unsized_decimal_literal(-3), "-3")
        self.assert_expression(file.make_unsized_one_literal(), "'1")
        self.assert_expression(file.make_unsized_zero_literal(), "'0")
        self.assert_expression(file.make_unsized_x_literal(), "'X")
        self.assert_expression(file.make_name("shadow"), "shadow")

    @over_each()
    def test_strings(self, file):
        """Each escape of a list's text comes through, and is printed as Verilog has it."""
        text = 'a"b\\\n\x01é\x7f\r\t\b\f/'
        self.assert_expression(
            file.make_string_literal(text), '"a\\"b\\\\\\n\\001é\\177\\r\\t\\010\\014/"'
        )
        self.assert_expression(file.make_string_literal("\U0001f600"), '"\U0001f600"')

    @over_each()
    def test_selects(self, file):
        a, b, _ = named(file)
        self.assert_expression(file.make_slice(a, 7, 4), "a[7:4]")
        self.assert_expression(file.make_index(a, 2147483647), "a[2147483647]")
        self.assert_expression(file.make_index(a, 2147483648), "a[64'h0000_0000_8000_0000]")
        self.assert_expression(file.make_slice_expr(a, b, 0), "a[b:0]")
        self.assert_expression(file.make_index_expr(a, b), "a[b]")
        self.assert_expression(file.make_indexed_part_select(a, b, 4), "a[b +: 4]")
        self.assert_expression(file.make_index(file.make_indexable_expression(a + b), 0), "(a + b)[0]")
        self.assert_expression(file.make_member(a + b, "f"), "(a + b).f")
        self.assert_expression(a.member("f").member("g")[3], "a.f.g[3]")

    @over_each()
    def test_lists(self, file):
        a, b, _ = named(file)
        self.assert_expression(file.make_function_call("$signed", [a]), "$signed(a)")
        self.assert_expression(file.make_concat([a, b]), "{a, b}")
        self.assert_expression(file.make_concat([]), "{}")
        self.assert_expression(file.make_replicated_concat(a, [b]), "{a{b}}")
        self.assert_expression(file.make_replicated_concat_i64(3, [a, b]), "{3{a, b}}")
        self.assert_expression(file.make_array_assignment_pattern([a, 1]), "'{a, 1}")
        self.assert_expression(file.make_macro_ref("M"), "`M")
        self.assert_expression(file.make_macro_ref_with_args("M", [a, b]), "`M(a, b)")

    @over_each()
    def test_casts(self, file):
        a, _, _ = named(file)
        width = file.make_literal("bits[8]:8", LiteralFormat.HEX)
        self.assert_expression(file.make_width_cast(width, a), "(8'h08)'(a)")
        self.assert_expression(file.make_width_cast(8, a), "8'(a)")
        self.assert_expression(file.make_type_cast(file.make_integer_type(True), a), "integer'(a)")

    @over_each()
    def test_reductions(self, file):
        a, b, c = named(file)
        self.assert_expression(file.logical_or_reduce([a, b, c]), "a || b || c")
        self.assert_expression(file.logical_or_reduce([a, b], invert=True), "!(a || b)")
        self.assert_expression(file.logical_or_reduce([]), "1'h0")
        self.assert_expression(file.logical_and_reduce([a, b, c]), "a && b && c")
        self.assert_expression(file.logical_and_reduce([], invert=True), "1'h0")
        self.assert_expression(file.bitwise_or_reduce([a, b, c]), "a | b | c")
        self.assert_expression(file.bitwise_or_reduce([]), "'0")

    @over_each()
    def test_reduction_of_elements(self, file):
        module = file.add_module("m")
        elements = file.add_wire(module, "elements", file.make_bit_vector_type(4).packed(2, 3))
        self.assert_expression(
            file.bitwise_or_reduce_array_elements(elements[1], [3]),
            "elements[1][0] | elements[1][1] | elements[1][2]",
        )

    @over_each()
    def test_answers_of_helpers_are_handles(self, file):
        a, b, _ = named(file)
        self.assert_expression(~file.logical_or_reduce([a, b]) + file.bitwise_or_reduce([a]), "~(a || b) + a")


class Types(FileTest):
    """Types, by declarations and questions."""

    @over_each()
    def test_types(self, file):
        module = file.add_module("m")
        width = file.add_parameter_port(module, "W", 4)
        verilog = file.file_type.value == "verilog"
        rows = {
            "wire s": file.make_scalar_type(),
            "wire [7:0] u": file.make_bit_vector_type(8),
            "wire signed [7:0] i": file.make_bit_vector_type(8, signed=True),
            "wire [W - 1:0] w": file.make_bit_vector_type_expr(width, False),
            "wire n": file.make_integer_type(True),
            "wire unsigned k": file.make_int_type(),
            "wire [1:0][2:0][7:0] p": file.make_packed_array_type(8, [2, 3]),
            f"wire [7:0] q{'[0:1]' if verilog else '[2]'}": file.make_unpacked_array_type(8, [2]),
            "wire [W - 1:0][7:0] r": file.make_packed_array_type_expr(8, [width]),
            f"wire [7:0] v{'[0:W - 1]' if verilog else '[W]'}": file.make_unpacked_array_type_expr(8, [width]),
            "wire T e": file.make_extern_type("T"),
            "wire p::T x": file.make_extern_package_type("p", "T"),
        }
        for row, kind in rows.items():
            file.add_wire(module, re.search(r"(\w+)(\[[^\]]*\])?$", row)[1], kind)
        self.assert_file(
            file,
            "module m #(",
            "  parameter W = 4",
            ");",
            *[f"  {row};" for row in rows],
            "endmodule",
        )

    @over_each()
    def test_questions(self, file):
        module = file.add_module("m")
        name = file.add_parameter_port(module, "W", 4)
        byte = file.make_bit_vector_type(8, signed=True)
        wide = name.bit_vector_type_expr()
        array = byte.packed(3)
        self.assertEqual(file.type_width_expr(byte), "8")
        self.assertIsNone(file.type_width_expr(file.make_scalar_type()))
        self.assertIs(file.type_is_signed(array), True)
        self.assertIs(file.type_is_signed(wide), False)
        self.assertEqual(file.type_width_as_int64(array), 8)
        self.assertEqual(file.type_flat_bit_count_as_int64(array), 24)
        self.assertIs(file.type_can_be_packed(array), True)
        self.assertIs(file.type_can_be_packed(byte.unpacked(2)), False)
        self.assertIs(file.type_can_be_cast(byte), True)
        self.assertIs(file.type_can_be_cast(array), False)
        self.assertIs(file.width_is_usable(name), True)
        self.assertIs(file.width_is_usable(file.make_unsized_decimal_literal(0)), False)
        self.assertIsInstance(name, Expression)

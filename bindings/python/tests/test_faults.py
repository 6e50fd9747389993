"""Each refusal by its name, and each condition; after each the file is as it was."""
from sessions import FileTest, over_each
from vast import Condition, File, LiteralFormat, Refused, RegisterDefinition, VastFault

TWICE = "FAILED_PRECONDITION: Attempted to declare {} with name '{}' multiple times in {}. Already defined: [{}]"
EVENT = (
    "Unsupported expression type passed to sensitivity list for {} at index {}."
    " Only posedge, negedge, or logic-reference expressions are supported."
)


class Refusals(FileTest):
    """`Refused`, with the words of the original."""

    def refuses(self, file, words, call, *arguments):
        """The call is refused by these words."""
        self.assert_fault(Refused, file, call, *arguments, words=words)

    @over_each()
    def test_names_of_modules(self, file):
        module = file.add_module("duplicates")
        module.input("z")
        module.wire("a")
        module.wire("middle")
        calls = {"reg": file.add_reg, "logic": file.add_logic, "variable": file.add_variable}
        for kind, call in {**calls, "function": file.add_function}.items():
            words = TWICE.format(kind, "a", "the same module", "a, middle, z")
            self.refuses(file, words, call, module, "a", 1)

    @over_each()
    def test_names_of_functions(self, file):
        function = file.add_module("m").function("f", 1)
        function.input("a")
        calls = {
            "input": (file.function_add_input, file.function_add_logic_input),
            "reg": (file.function_add_reg,),
            "logic": (file.function_add_logic,),
        }
        for kind, methods in calls.items():
            for method in methods:
                words = TWICE.format(kind, "a", "function 'f'", "a, f")
                self.refuses(file, words, method, function, "a", 1)

    @over_each()
    def test_unpacked_result(self, file):
        module = file.add_module("m")
        result = file.make_bit_vector_type(8).unpacked(2)
        self.refuses(
            file,
            "FAILED_PRECONDITION: function result type must not be an anonymous unpacked array; use a named typedef",
            file.add_function,
            module,
            "f",
            result,
        )

    @over_each()
    def test_events(self, file):
        module = file.add_module("m")
        a = module.wire("a")
        loop = module.loop("i", 0, 2)
        calls = {
            "always_ff": ((file.add_always_ff, module), (file.generate_add_always_ff, loop)),
            "always @": ((file.add_always_at, module), (file.generate_add_always_at, loop)),
        }
        for kind, methods in calls.items():
            for method, owner in methods:
                self.refuses(file, EVENT.format(kind, 1), method, owner, [a.posedge, a + a])

    @over_each("verilog")
    def test_unique_in_verilog(self, file):
        block = file.statement_block(file.add_module("m").always_comb())
        case = block.case(1)
        self.refuses(file, "unique case requires SystemVerilog", file.case_set_unique, case, True)

    @over_each()
    def test_registers(self, file):
        module = file.add_module("m")
        clk, r = module.wire("clk"), module.reg("r")
        self.refuses(
            file,
            "reset signal is required when a register has a reset value",
            file.add_registers,
            clk,
            None,
            [RegisterDefinition(r, r, 1)],
            module,
        )

    @over_each()
    def test_reduction_of_elements(self, file):
        module = file.add_module("m")
        elements = module.wire("elements", file.make_bit_vector_type(4).packed(2, 3))
        rows = {
            (): "packed-array reduction requires at least one dimension",
            (2, 0): "packed-array dimensions must be greater than zero",
            (2, 4): "packed-array dimensions do not match expression type: expected [2, 3], got [2, 4]",
        }
        for dimensions, words in rows.items():
            self.refuses(file, words, file.bitwise_or_reduce_array_elements, elements, dimensions)
        large = module.wire("large", file.make_scalar_type().packed(2**63 - 1, 3))
        self.refuses(
            file,
            "packed-array element count exceeds usize",
            file.bitwise_or_reduce_array_elements,
            large,
            [2**63 - 1, 3],
        )

    @over_each()
    def test_literals(self, file):
        hexadecimal = LiteralFormat.HEX
        rows = {
            "bits[8]": "expected a typed bits literal, got `bits[8]`",
            "bits[]:1": "invalid bit width in literal `bits[]:1`",
            "bits[18446744073709551616]:0": "invalid bit width `18446744073709551616`: number too large to fit in"
            " target type",
            "bits[0]:0": "literal bit width must be greater than zero",
            "bits[1048577]:0": "literal bit width 1048577 exceeds maximum supported width 1048576",
            "bits[8]:0x": "invalid digits in literal `bits[8]:0x`",
            "bits[8]:-257": "literal `bits[8]:-257` does not fit in 8 bits",
            f"bits[128]:{2**128}": f"literal `bits[128]:{2**128}` has a magnitude of 2^128 or more",
            "bits[129]:-1": "literal `bits[129]:-1` has a value of 2^128 or more",
        }
        for text, words in rows.items():
            self.refuses(file, words, file.make_literal, text, hexadecimal)
        limits = (
            (LiteralFormat.UNSIZED_DECIMAL, "bits[32]:2147483648", "decimal literal magnitude 2147483648", 2147483647),
            (LiteralFormat.UNSIZED_BINARY, "bits[33]:-1", "binary literal magnitude 8589934591", 4294967295),
            (LiteralFormat.UNSIZED_HEX, "bits[33]:-1", "hexadecimal literal magnitude 8589934591", 4294967295),
        )
        for form, text, words, most in limits:
            self.refuses(file, f"unsized {words} exceeds maximum {most}", file.make_literal, text, form)
        self.refuses(
            file,
            "binary patterns require 1 to 1048576 MSB-first 0, 1, or ? digits",
            file.make_binary_pattern,
            "2",
        )

    @over_each()
    def test_widths(self, file):
        module = file.add_module("m")
        wide = module.parameter("W", 1).bit_vector_type_expr()
        self.refuses(file, "Width is not a literal: W", wide.width_as_int64)
        self.refuses(file, "Width is not a literal: W", wide.flat_bit_count_as_int64)
        other = file.make_extern_package_type("p", "T")
        self.refuses(file, "data type does not have a declared bit-vector width", other.width_as_int64)
        self.refuses(file, "external type `p::T` has no known bit width", other.flat_bit_count_as_int64)
        large = file.make_scalar_type().packed(2**63 - 1, 3)
        self.refuses(file, "array bit count exceeds i64", large.flat_bit_count_as_int64)

    @over_each()
    def test_texts(self, file):
        """A refused text names what is refused, and other calls go on."""
        module = file.add_module("m")
        scalar = module.wire("s")
        index = "a scalar signal can only be indexed with zero"
        self.refuses(file, index, scalar[1].emit_expression)
        self.refuses(file, "a scalar signal can only be sliced at [0:0]", scalar[1:0].emit_expression)
        module.assign(scalar, scalar[1])
        with self.assertRaises(Refused) as raised:
            file.emit()
        self.assertIn(index, raised.exception.words)
        self.assertEqual(module.name(), "m")


class Conditions(FileTest):
    """`Condition`, where the original panics."""

    def asks(self, file, call, *arguments):
        """The call has a condition that these don't meet."""
        self.assert_fault(Condition, file, call, *arguments)

    @over_each()
    def test_taken_names(self, file):
        module = file.add_module("m")
        file.add_input(module, "a", 1)
        for method in (
            file.add_input,
            file.add_output,
            file.add_inout,
            file.add_logic_input,
            file.add_logic_output,
            file.add_wire,
        ):
            self.asks(file, method, module, "a", 1)

    @over_each()
    def test_widths(self, file):
        self.asks(file, file.make_bit_vector_type, 0)
        self.asks(file, file.make_bit_vector_type, -1)
        self.asks(file, file.make_bit_vector_type_expr, 0)
        array = file.make_bit_vector_type(8).unpacked(2)
        self.asks(file, file.make_packed_array_type, array, [2])
        self.asks(file, file.make_packed_array_type, file.make_integer_type(), [2])
        for method in (file.make_packed_array_type, file.make_unpacked_array_type):
            self.asks(file, method, 8, [])
            self.asks(file, method, 8, [2, 0])
        self.asks(file, file.make_type_cast, array, 1)

    @over_each()
    def test_selects(self, file):
        a = file.add_module("m").wire("a", 8)
        self.asks(file, file.make_slice, a, -1, 0)
        self.asks(file, file.make_slice, a, 0, -1)
        self.asks(file, file.make_index, a, -1)
        self.asks(file, file.make_indexed_part_select, a, 0, 0)
        self.asks(file, file.make_function_call, "", [a])

    @over_each()
    def test_members(self, file):
        module = file.add_module("m")
        self.asks(file, file.hoist_module_declarations, module, 1)
        conditional = file.add_conditional(module, 1)
        file.conditional_add_else(conditional)
        self.asks(file, file.conditional_add_else, conditional)
        self.asks(file, file.conditional_add_else_if, conditional, 1)
        self.asks(file, file.make_instantiation, "a", "b", ["P"], [], [], [])
        self.asks(file, file.make_instantiation, "a", "b", [], [], ["p"], [])
        self.asks(file, file.add_enum_typedef, module, "t", 1, ["A"], [])
        self.asks(file, file.add_file_enum_typedef, "t", 1, [], [None])

    @over_each()
    def test_handles_of_other_files(self, file):
        with File(file.file_type, session=file._session.__class__(*self.other(file))) as other:
            a = other.add_module("m").wire("a", 8)
            module = file.add_module("m")
            self.asks(file, file.make_not, a)
            self.asks(file, file.make_index, a, 0)
            self.asks(file, file.add_wire, module, "b", other.make_scalar_type())
            self.asks(file, file.add_wire, other.add_module("n"), "b", 1)
            self.asks(file, file.make_concat, [a])

    @staticmethod
    def other(file):
        """What a session of the same kind is made of."""
        return file._session.name, file.file_type.value

    @over_each()
    def test_faults_go_on(self, file):
        """After a fault the numbers of handles are right, with calls that wait on both sides of it."""
        module = file.add_module("m")
        a = module.reg("a", 8)
        before = a + 1
        with self.assertRaises(VastFault):
            module.reg("a", 8)
        with self.assertRaises(Condition):
            a[-1]
        after = before * 2
        module.assign(a, after)
        self.assert_file(file, "module m;", "  reg [7:0] a;", "  assign a = (a + 1) * 2;", "endmodule")
        self.assert_expression(before, "a + 1")

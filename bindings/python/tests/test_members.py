"""Each call that makes an item, a member or a statement, with the text that the layout gives it."""
from sessions import FileTest, over_each
from vast import DataKind, ModulePortDirection, Port, Refused, RegisterDefinition, Reset


class Items(FileTest):
    """Items of the file, ports, declarations and parameters."""

    @over_each()
    def test_items(self, file):
        file.add_include("a.vh")
        file.add_comment_text("first")
        file.add_blank_line(file.make_blank_line())
        file.add_module("m")
        self.assert_file(file, '`include "a.vh"', "// first", "", "module m;", "", "endmodule")

    @over_each()
    def test_imports(self, file):
        file.add_file_import("p")
        file.add_import(file.add_module("m"), "q")
        self.assert_file(file, "import p::*;", "module m;", "  import q::*;", "endmodule")

    @over_each()
    def test_types_declared_by_name(self, file):
        bit = file.make_scalar_type()
        state = file.add_file_enum_typedef("state_t", 2, ["IDLE", "BUSY"], [0, None])
        fields = [file.make_def("valid", DataKind.LOGIC, bit), file.make_def("at", DataKind.USER, state)]
        file.add_file_struct_typedef("word_t", fields)
        module = file.add_module("m")
        module.add_enum_typedef("way_t", bit, ["UP", "DOWN"], [None, 0])
        module.add_struct_typedef("bit_t", fields[:1])
        self.assert_file(
            file,
            "typedef enum logic [1:0] {",
            "  IDLE = 0,",
            "  BUSY",
            "} state_t;",
            "typedef struct packed {",
            "  logic valid;",
            "  state_t at;",
            "} word_t;",
            "module m;",
            "  typedef enum logic {",
            "    UP,",
            "    DOWN = 0",
            "  } way_t;",
            "  typedef struct packed {",
            "    logic valid;",
            "  } bit_t;",
            "endmodule",
        )

    @over_each()
    def test_variables(self, file):
        module = file.add_module("m")
        state = file.make_extern_type("state_t")
        file.add_variable(module, "s", state)
        module.variable("w", file.make_extern_package_type("p", "word_t"))
        with self.assertRaises(Refused):
            file.add_variable(module, "s", state)
        self.assert_file(file, "module m;", "  state_t s;", "  p::word_t w;", "endmodule")

    @over_each()
    def test_ports(self, file):
        module = file.add_module("m")
        byte = file.make_bit_vector_type(8)
        file.add_input(module, "a", byte)
        file.add_output(module, "b", byte)
        file.add_inout(module, "c", byte)
        file.add_logic_input(module, "d", byte)
        signal = file.add_logic_output(module, "e", file.make_bit_vector_type(4, True))
        self.assert_file(
            file,
            "module m(",
            "  input wire [7:0] a,",
            "  output wire [7:0] b,",
            "  inout wire [7:0] c,",
            "  input logic [7:0] d,",
            "  output logic signed [3:0] e",
            ");",
            "",
            "endmodule",
        )
        inputs = [Port(name, ModulePortDirection.INPUT, 8, False, name) for name in "ad"]
        outputs = [
            Port("b", ModulePortDirection.OUTPUT, 8, False, "b"),
            Port("e", ModulePortDirection.OUTPUT, 4, True, "e"),
        ]
        inout = Port("c", ModulePortDirection.IN_OUT, 8, False, "c")
        self.assertEqual(file.module_input_ports(module), inputs)
        self.assertEqual(file.module_output_ports(module), outputs)
        self.assertEqual(module.ports(), [inputs[0], outputs[0], inout, inputs[1], outputs[1]])
        self.assertEqual(file.module_name(module), "m")
        self.assertEqual(file.logic_ref_name(signal), "e")
        self.assertIs(file.name_is_free(module, "a"), False)
        self.assertIs(file.name_is_free(module, "z"), True)
        self.assertIs(file.file_is_plain(), True)
        self.assertIs(file.is_system_verilog_keyword("logic"), True)
        self.assertIs(file.is_system_verilog_keyword("Logic"), False)

    @over_each()
    def test_ports_of_strange_names(self, file):
        module = file.add_module("two words")
        names = ["a Input 1 false a", "b\nc", "d e", 'q"\\']
        for name in names:
            file.add_input(module, name, 1)
        self.assertEqual([port.name for port in module.ports()], names)
        self.assertEqual(module.name(), "two words")

    @over_each()
    def test_declarations(self, file):
        module = file.add_module("m")
        byte = file.make_bit_vector_type(8)
        file.add_parameter_port(module, "P", 1)
        file.add_typed_parameter_port(module, "Q", byte, 2)
        file.add_wire(module, "a", byte)
        file.add_reg(module, "b", byte)
        file.add_logic(module, "c", byte)
        definition = file.make_def("S", DataKind.LOGIC, byte)
        file.add_parameter(module, "R", 3)
        file.add_parameter_with_def(module, definition, 4)
        file.add_localparam(module, "T", 5)
        file.add_int_localparam(module, "U", 6)
        file.add_typed_localparam(module, file.make_def("V", "Int", file.make_int_type(True)), 7)
        self.assertEqual(file.module_member_count(module), 8)
        self.assert_file(
            file,
            "module m #(",
            "  parameter P = 1,",
            "  parameter logic [7:0] Q = 2",
            ");",
            "  wire [7:0] a;",
            "  reg [7:0] b;",
            "  logic [7:0] c;",
            "  parameter R = 3;",
            "  parameter logic [7:0] S = 4;",
            "  localparam T = 5;",
            "  localparam int U = 6;",
            "  localparam int V = 7;",
            "endmodule",
        )

    @over_each()
    def test_hoisting(self, file):
        module = file.add_module("h")
        a = file.add_wire(module, "a", 1)
        module.assign(a, 0)
        start = module.member_count()
        file.add_wire(module, "b", 1)
        file.add_member_comment(module, file.make_comment("note"))
        file.add_reg(module, "c", 1)
        file.hoist_module_declarations(module, start)
        self.assert_file(
            file,
            "module h;",
            "  wire a;",
            "  assign a = 0;",
            "  wire b;",
            "  reg c;",
            "  // note",
            "endmodule",
        )


class Members(FileTest):
    """Members of modules and of loops."""

    @over_each()
    def test_parts(self, file):
        module = file.add_module("m")
        x = file.add_wire(module, "x", 1)
        file.add_member_continuous_assignment(module, file.make_continuous_assignment(x, 1))
        file.add_member_blank_line(module, file.make_blank_line())
        file.add_member_comment(module, file.make_comment("one\ntwo"))
        file.add_member_inline_statement(module, file.make_inline_verilog_statement("initial x = 0;"))
        macro = file.make_macro_statement(file.make_macro_ref("M"), True)
        file.add_member_macro_statement(module, macro)
        file.add_member_macro_statement(module, file.make_macro_statement(file.make_macro_ref("N"), False))
        sub = file.make_instantiation("sub", "u0", ["W"], [8], ["a", "b"], [x, None])
        file.add_member_instantiation(module, sub)
        self.assert_file(
            file,
            "module m;",
            "  wire x;",
            "  assign x = 1;",
            "",
            "  // one",
            "  // two",
            "  initial x = 0;",
            "  `M;",
            "  `N",
            "  sub #(",
            "    .W(8)",
            "  ) u0 (",
            "    .a(x),",
            "    .b()",
            "  );",
            "endmodule",
        )

    @over_each()
    def test_loops(self, file):
        module = file.add_module("m")
        x = file.add_wire(module, "x", 8)
        loop = file.add_generate_loop(module, "i", 0, 8, "each")
        i = file.generate_genvar(loop)
        inner = file.generate_add_generate_loop(loop, "j", i, x.logical_or(x))
        file.generate_add_blank_line(inner)
        file.generate_add_localparam(loop, "P", 1)
        file.generate_add_typed_localparam(loop, file.make_def("Q", DataKind.INT, file.make_int_type(True)), 2)
        file.generate_add_continuous_assignment(loop, x[i], 0)
        file.generate_add_comment(loop, file.make_comment("note"))
        file.generate_add_inline_statement(loop, file.make_inline_verilog_statement("text"))
        file.generate_add_macro_statement(loop, file.make_macro_statement(file.make_macro_ref("M")))
        file.generate_add_instantiation(loop, file.make_instantiation("sub", "u", [], [], [], []))
        file.generate_add_conditional(loop, i.eq(3))
        file.generate_add_always_comb(loop)
        file.generate_add_always_ff(loop, [x.pos_edge()])
        file.generate_add_always_at(loop, [x, x.neg_edge()])
        file.generate_add_always_star(loop)
        file.generate_add_always_latch(loop)
        file.generate_add_initial(loop)
        self.assert_file(
            file,
            "module m;",
            "  wire [7:0] x;",
            "  for (genvar i = 0; i < 8; i = i + 1) begin : each",
            "    for (genvar j = i; j < (x || x); j = j + 1) begin",
            "",
            "    end",
            "    localparam P = 1;",
            "    localparam int Q = 2;",
            "    assign x[i] = 0;",
            "    // note",
            "    text",
            "    `M;",
            "    sub u (",
            "",
            "    );",
            "    if (i == 3) begin end",
            "    always_comb begin end",
            "    always_ff @ (posedge x) begin end",
            "    always @ (x or negedge x) begin end",
            "    always @* begin end",
            "    always_latch begin end",
            "    initial begin end",
            "  end",
            "endmodule",
        )

    @over_each()
    def test_registers(self, file):
        module = file.add_module("m")
        clk, rst, en, r, n, q = (file.add_logic(module, name, 1) for name in ("clk", "rst", "en", "r", "n", "q"))
        registers = [RegisterDefinition(r, n, file.bits(1, 0), en), RegisterDefinition(q, n)]
        file.add_registers(clk, Reset(rst, active_low=True), registers, module)
        file.add_registers(clk, None, [], module)
        loop = file.add_generate_loop(module, "i", 0, 2)
        file.add_registers(clk, None, [RegisterDefinition(q, n, enable=en)], loop)
        self.assert_file(
            file,
            "module m;",
            *[f"  logic {name};" for name in ("clk", "rst", "en", "r", "n", "q")],
            "  always_ff @ (posedge clk) begin",
            "    q <= n;",
            "    if (!rst) begin",
            "      r <= 1'd0;",
            "    end else begin",
            "      r <= en ? n : r;",
            "    end",
            "  end",
            "  for (genvar i = 0; i < 2; i = i + 1) begin",
            "    always_ff @ (posedge clk) begin",
            "      q <= en ? n : q;",
            "    end",
            "  end",
            "endmodule",
        )


class Statements(FileTest):
    """Always blocks, functions, conditionals and cases."""

    @over_each()
    def test_always(self, file):
        module = file.add_module("m")
        a = file.add_reg(module, "a", 1)
        block = file.statement_block(file.add_always_ff(module, [a.pos_edge(), a.neg_edge()]))
        file.block_add_nonblocking_assignment(block, a, 1)
        block = file.statement_block(file.add_always_at(module, [a]))
        file.block_add_blocking_assignment(block, a, 2)
        file.block_add_continuous_assignment(block, a, 3)
        file.block_add_comment_text(block, "note")
        file.block_add_blank_line(block)
        file.block_add_inline_text(block, "$finish;")
        file.add_always_comb(module)
        file.make_nonblocking_assignment(a, 1)
        file.make_blocking_assignment(a, 1)
        self.assert_file(
            file,
            "module m;",
            "  reg a;",
            "  always_ff @ (posedge a or negedge a) begin",
            "    a <= 1;",
            "  end",
            "  always @ (a) begin",
            "    a = 2;",
            "    assign a = 3;",
            "    // note",
            "",
            "    $finish;",
            "  end",
            "  always_comb begin end",
            "endmodule",
        )

    @over_each()
    def test_functions(self, file):
        module = file.add_module("m")
        byte = file.make_bit_vector_type(8)
        function = file.add_function(module, "f", byte)
        lhs = file.function_add_input(function, "lhs", byte)
        rhs = file.function_add_logic_input(function, "rhs", byte)
        file.function_add_reg(function, "r", byte)
        file.function_add_logic(function, "l", byte)
        file.block_add_blocking_assignment(file.function_body(function), file.function_result(function), lhs + rhs)
        result = "[7:0] f" if file.file_type.value == "verilog" else "logic [7:0] f"
        self.assert_file(
            file,
            "module m;",
            f"  function automatic {result} (input reg [7:0] lhs, input logic [7:0] rhs);",
            "    reg [7:0] r;",
            "    logic [7:0] l;",
            "    begin",
            "      f = lhs + rhs;",
            "    end",
            "  endfunction",
            "endmodule",
        )

    @over_each()
    def test_conditionals(self, file):
        module = file.add_module("m")
        a = file.add_reg(module, "a", 1)
        outer = file.add_conditional(module, a)
        block = file.conditional_then_block(outer)
        inner = file.block_add_cond(block, a.eq(1))
        self.assertIs(file.conditional_has_else(inner), False)
        file.block_add_blocking_assignment(file.conditional_add_else_if(inner, a.eq(2)), a, 1)
        file.block_add_blocking_assignment(file.conditional_add_else(inner), a, 2)
        self.assertIs(inner.has_else(), True)
        self.assert_file(
            file,
            "module m;",
            "  reg a;",
            "  if (a) begin",
            "    if (a == 1) begin end else if (a == 2) begin",
            "      a = 1;",
            "    end else begin",
            "      a = 2;",
            "    end",
            "  end",
            "endmodule",
        )

    @over_each()
    def test_loops_of_blocks(self, file):
        module = file.add_module("m")
        a = file.add_reg(module, "a", 8)
        block = file.statement_block(file.add_initial(module))
        each = file.block_add_for(block, "i", 0, 8)
        file.block_add_blocking_assignment(each, a, a + file.make_name("i"))
        each.add_for("j", file.make_name("i"), 8)
        self.assert_file(
            file,
            "module m;",
            "  reg [7:0] a;",
            "  initial begin",
            "    for (int i = 0; i < 8; i = i + 1) begin",
            "      a = a + i;",
            "      for (int j = i; j < 8; j = j + 1) begin end",
            "    end",
            "  end",
            "endmodule",
        )

    @over_each()
    def test_cases(self, file):
        module = file.add_module("m")
        a = file.add_reg(module, "a", 2)
        block = file.statement_block(file.add_always_comb(module))
        plain = file.block_add_case(block, a)
        file.block_add_blocking_assignment(file.case_add_item(plain, 1), a, 0)
        file.case_add_default(plain)
        wild = file.block_add_casez(block, a)
        file.block_add_blocking_assignment(file.case_add_item(wild, file.make_binary_pattern("1?")), a, 0)
        other = file.block_add_casex(block, a)
        file.block_add_blocking_assignment(file.case_add_default(other), a, 0)
        file.case_set_unique(other, False)
        verilog = file.file_type.value == "verilog"
        if not verilog:
            file.case_set_unique(plain, True)
        self.assert_file(
            file,
            "module m;",
            "  reg [1:0] a;",
            "  always_comb begin",
            f"    {'' if verilog else 'unique '}case (a)",
            "      1: begin",
            "        a = 0;",
            "      end",
            "      default: begin end",
            "    endcase",
            "    casez (a)",
            "      2'b1?: a = 0;",
            "    endcase",
            "    casex (a)",
            "      default: begin",
            "        a = 0;",
            "      end",
            "    endcase",
            "  end",
            "endmodule",
        )

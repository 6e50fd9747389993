"""What Python adds: operators, short words, `with`."""
from sessions import FileTest, over_each
from vast import RegisterDefinition, Reset


class Operators(FileTest):
    """Python's operators are the calls."""

    @over_each()
    def test_operators(self, file):
        module = file.add_module("m")
        a, b = module.inputs("a", "b", data_type=8)
        rows = {
            "a + b": a + b,
            "a - b": a - b,
            "a * b": a * b,
            "a / b": a / b,
            "a % b": a % b,
            "a ** b": a**b,
            "a & b": a & b,
            "a | b": a | b,
            "a ^ b": a ^ b,
            "a << b": a << b,
            "a >> b": a >> b,
            "a >>> b": a.shra(b),
            "a < b": a < b,
            "a <= b": a <= b,
            "a > b": a > b,
            "a >= b": a >= b,
            "a == b": a.eq(b),
            "a != b": a.ne(b),
            "a && b": a.logical_and(b),
            "a || b": a.logical_or(b),
            "!a": a.logical_not(),
            "~a": ~a,
            "-a": -a,
            "a[3]": a[3],
            "a[3:0]": a[3:0],
            "a[b]": a[b],
            "a[b:0]": a[b:0],
            "(a + b)[1]": (a + b)[1],
            "a[b +: 4]": a.part(b, 4),
            "posedge a": a.posedge,
            "negedge a": a.negedge,
            "{a, b, 1}": file.concat(a, b, 1),
            "$clog2(a)": file.call("$clog2", a),
        }
        for text, expression in rows.items():
            self.assert_expression(expression, text)

    @over_each()
    def test_numbers(self, file):
        a = file.add_module("m").wire("a", 8)
        rows = {
            "a + 1": a + 1,
            "1 + a": 1 + a,
            "2 - a": 2 - a,
            "2 * a": 2 * a,
            "2 / a": 2 / a,
            "2 % a": 2 % a,
            "2 ** a": 2**a,
            "1 & a": 1 & a,
            "1 | a": 1 | a,
            "1 ^ a": 1 ^ a,
            "1 << a": 1 << a,
            "1 >> a": 1 >> a,
            "a > 1": 1 < a,
            "a + -1": a + -1,
        }
        for text, expression in rows.items():
            self.assert_expression(expression, text)

    @over_each()
    def test_what_is_no_operator(self, file):
        a = file.add_module("m").wire("a", 8)
        for wrong in (
            lambda: bool(a),
            lambda: a and a,
            lambda: 0 < a < 2,
            lambda: list(a),
            lambda: 1 in a,
            lambda: a + (a == a),
            lambda: a + "b",
            lambda: a[3:],
            lambda: a[7:0:2],
        ):
            self.assertRaises(TypeError, wrong)
        self.assertTrue(a == a)
        self.assertEqual(len({a, a}), 1)


class Words(FileTest):
    """Short words are made of calls."""

    @over_each("systemverilog")
    def test_modules(self, file):
        with file.module("m") as m:
            depth = m.parameter("DEPTH", 4)
            clk, rst = m.inputs("clk", "rst")
            (busy,) = m.outputs("busy")
            m.inout("pad", depth.bit_vector_type_expr())
            top = m.localparam("TOP", depth - 1)
            state = m.reg("state", file.make_bit_vector_type(4).packed(2).unpacked(3))
            m.wire("idle", 1, value=state[0][1].eq(top))
            m.assign(busy, 1)
            m.comment("note")
            m.blank_line()
            m.inline("initial begin end")
            m.instance("sub", "u", {"a": clk, "b": None}, {"W": 8})
            with m.always_ff(clk.posedge, rst.negedge) as block:
                with block.if_(rst) as arm:
                    arm.nonblocking(state[0], 0)
                with arm.else_if(busy) as arm:
                    arm.blank_line()
                with arm.else_() as arm:
                    arm.comment("none")
            with m.always_at(clk) as block:
                block.assign(busy, 0)
                block.inline("$finish;")
            with m.always_comb() as block, block.case(busy, unique=True) as cases:
                cases.item(0).blocking(busy, 1)
                with cases.default() as arm:
                    arm.casez(busy)
                    arm.casex(busy)
            with m.if_(rst) as block:
                block.blocking(busy, 1)
        self.assert_file(
            file,
            "module m #(",
            "  parameter DEPTH = 4",
            ") (",
            "  input wire clk,",
            "  input wire rst,",
            "  output wire busy,",
            "  inout wire [DEPTH - 1:0] pad",
            ");",
            "  localparam TOP = DEPTH - 1;",
            "  reg [1:0][3:0] state[3];",
            "  wire idle;",
            "  assign idle = state[0][1] == TOP;",
            "  assign busy = 1;",
            "  // note",
            "",
            "  initial begin end",
            "  sub #(",
            "    .W(8)",
            "  ) u (",
            "    .a(clk),",
            "    .b()",
            "  );",
            "  always_ff @ (posedge clk or negedge rst) begin",
            "    if (rst) begin",
            "      state[0] <= 0;",
            "    end else if (busy) begin",
            "",
            "    end else begin",
            "      // none",
            "    end",
            "  end",
            "  always @ (clk) begin",
            "    assign busy = 0;",
            "    $finish;",
            "  end",
            "  always_comb begin",
            "    unique case (busy)",
            "      0: begin",
            "        busy = 1;",
            "      end",
            "      default: begin",
            "        casez (busy)",
            "        endcase",
            "        casex (busy)",
            "        endcase",
            "      end",
            "    endcase",
            "  end",
            "  if (rst) begin",
            "    busy = 1;",
            "  end",
            "endmodule",
        )

    @over_each("systemverilog")
    def test_loops_and_functions(self, file):
        with file.module("m") as m:
            x = m.logic("x", 8)
            f = m.function("f", 8)
            with f as body:
                body.blocking(f.result(), f.input("a", 8) + f.logic_input("b", 8))
            f.reg("r")
            f.logic("l")
            m.assign(x, f(x, 1))
            with m.loop("i", 0, 2, label="l") as loop:
                loop.localparam("P", 1)
                loop.assign(x[loop.genvar()], 0)
                loop.comment("note")
                loop.blank_line()
                loop.inline("text")
                loop.instance("sub", "u", {})
                loop.always_ff(x.posedge)
                loop.always_at(x)
                loop.always_comb()
                loop.if_(x)
                loop.loop("j", 0, 2)
                loop.registers(x, [RegisterDefinition(x, x, 0)], Reset(x))
        self.assert_file(
            file,
            "module m;",
            "  logic [7:0] x;",
            "  function automatic logic [7:0] f (input reg [7:0] a, input logic [7:0] b);",
            "    reg r;",
            "    logic l;",
            "    begin",
            "      f = a + b;",
            "    end",
            "  endfunction",
            "  assign x = f(x, 1);",
            "  for (genvar i = 0; i < 2; i = i + 1) begin : l",
            "    localparam P = 1;",
            "    assign x[i] = 0;",
            "    // note",
            "",
            "    text",
            "    sub u (",
            "",
            "    );",
            "    always_ff @ (posedge x) begin end",
            "    always @ (x) begin end",
            "    always_comb begin end",
            "    if (x) begin end",
            "    for (genvar j = 0; j < 2; j = j + 1) begin",
            "    end",
            "    always_ff @ (posedge x) begin",
            "      if (x) begin",
            "        x <= 0;",
            "      end else begin",
            "        x <= x;",
            "      end",
            "    end",
            "  end",
            "endmodule",
        )

    @over_each()
    def test_arms(self, file):
        """Only an arm of a conditional has an `else`."""
        block = file.statement_block(file.add_module("m").always_comb())
        self.assertRaises(AttributeError, block.else_)

"""Simulates printed modules beside their hand-written forms by Icarus Verilog."""
import re

from expressions import INPUTS

STEPS = 24
BENCH = """module bench;
  reg clk = 0;
{inputs}  integer seed = 7, step;
  reg [{last}:0] apart = 0;
{pairs}  initial begin
    for (step = 0; step < {steps}; step = step + 1) begin
{draws}      if (step == 0) begin {zero} end
      if (step == 1) begin {ones} end
      if (step == 2) begin {unknown} end
      if (step % 6 == 5) begin {partly} end
      #1 clk = 1; #1 clk = 0; #1
{compares}    end
    $display("%b", apart);
    $finish;
  end
endmodule
"""


def bench(names):
    """A test bench that drives each printed module and its hand-written form alike, and tells which are apart."""
    widths = {it: 1 if kind[1] is None else int(kind[1][2], 2) + 1 for it, kind in INPUTS.items()}
    ports = ", ".join(f".{it}({it})" for it in INPUTS)
    pairs = compares = ""
    for place, (name, is_clocked) in enumerate(names):
        given = f".clk(clk), {ports}" if is_clocked else ports
        pairs += f"  wire [39:0] y{place}, z{place};\n"
        pairs += f"  {name} p{place} ({given}, .y(y{place}));\n  {name}_whole q{place} ({given}, .y(z{place}));\n"
        compares += f"      if (y{place} !== z{place}) apart[{place}] = 1;\n"
    return BENCH.format(
        steps=STEPS, last=max(len(names) - 1, 0), pairs=pairs, compares=compares,
        inputs="".join(f"  reg {'signed ' if INPUTS[it][0] else ''}[{width - 1}:0] {it};\n" for it, width in widths.items()),
        draws="".join("      %s = {$random(seed), $random(seed)};\n" % it for it in INPUTS),
        zero=" ".join(f"{it} = 0;" for it in INPUTS), ones=" ".join(f"{it} = -1;" for it in INPUTS),
        unknown=" ".join(f"{it} = 'bx;" for it in INPUTS), partly="a = a | 8'bxx; d[3:0] = 4'b1xz0; c = 1'bx;")


def compiled(files, out):
    return ["iverilog", "-g2012", "-o", out, *files]


def apart(said, count):
    """Whether each of the modules differs from its hand-written form; nothing where the simulation didn't end."""
    found = re.search(r"(?m)^([01]+)$", said)
    return [it == "1" for it in reversed(found[1])] if found and len(found[1]) == count else None

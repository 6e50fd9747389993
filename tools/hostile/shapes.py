"""Shapes of texts that grow without end, derived by the grammar or not by construction.

A text of a shape has a frame, so many openings, a core and as many closings. It is derived: each shape is written from
the rules of `docs/` and `crates/vast_literal/specs/FileGrammar.antt`. What is made from it here is not:

- openings only: whatever is opened is closed in every derived text;
- a closing missing, and one too many: brackets, `?` with its `:` and the words `begin`, `case` and `module` with their
  ends come in pairs there;
- a token too many: a name stands after the core, where the grammar wants a sign, a mark or a keyword;
- no last operand: a sign, a mark or a comma stands before what closes its expression.

`grammar.py`, which reads texts by itself, must find the same of each at a few levels.
"""
import collections

# The texts around the levels, what is written for each level before and after the core, and the core. `extra` is the
# core with a token too many, and `is_chain` says that no text is derived without the core.
Shape = collections.namedtuple("Shape", "title head opening core closing foot extra is_chain")

EXPRESSION = ("module m;assign x=", ";endmodule")
MODULE = ("module m;", "endmodule")
BLOCK = ("module m;always_comb begin ", "end endmodule")
FILE = ("", "")
LOOP = "for(genvar i=0;i<a;i=i+1)begin "
BLOCK_LOOP = LOOP.replace("genvar", "int")


def nest(title, frame, opening, closing, core=""):
    """Levels that are opened and closed."""
    return Shape(title, frame[0], opening, core, closing, frame[1], core + " a ", False)


def inner(title, opening, closing):
    """Levels of an expression that are opened and closed."""
    return nest(title, EXPRESSION, opening, closing, "a")


def chain(title, opening, frame=EXPRESSION, core="a"):
    """Levels that are written one after the other before the last operand."""
    return Shape(title, frame[0], opening, core, "", frame[1], core + " a ", True)


def flat(title, frame, item, core=""):
    """Items one after the other."""
    return Shape(title, frame[0], item, core, "", frame[1], core + " a ", False)


EXPRESSIONS = [
    chain("sums", "a+"),
    chain("operators of all levels", "a||a&&a|a^a&a==a<a<<a+a*a**"),
    chain("signs", "- "),
    chain("signs of all kinds", "-~!&-|-^"),
    chain("ternaries in the last branch", "a?a:"),
    chain("arguments", "a,", ("module m;assign x=f(", ");endmodule")),
    chain("parts of a concatenation", "a,", ("module m;assign x={", "};endmodule")),
    flat("selects", ("module m;assign x=a", ";endmodule"), "[0]"),
    flat("part selects", ("module m;assign x=a", ";endmodule"), "[1:0]"),
    flat("selects on the left", ("module m;assign a", "=x;endmodule"), "[0]"),
    flat("members", ("module m;assign x=a", ";endmodule"), ".a"),
    inner("parentheses", "(", ")"),
    inner("parentheses on the right of a sum", "a+(", ")"),
    inner("parentheses on the left of a sum", "(", ")+a"),
    inner("signs of parentheses", "-(", ")"),
    inner("ternaries in the first branch", "a?", ":a"),
    inner("ternaries in the condition", "(", ")?a:a"),
    inner("indices", "a[", "]"),
    inner("bounds of part selects", "a[", ":0]"),
    inner("selects of parentheses", "(", ")[0]"),
    inner("calls", "f(", ")"),
    inner("calls of last arguments", "f(a,", ")"),
    inner("calls of the system", "$f(", ")"),
    inner("macros", "`M(", ")"),
    inner("concatenations", "{", "}"),
    inner("first parts of concatenations", "{", ",a}"),
    inner("replications", "{2{", "}}"),
    inner("counts of replications", "{", "{a}}"),
    inner("patterns", "'{", "}"),
    inner("casts of signs", "signed'(", ")"),
    inner("casts of widths", "8'(", ")"),
    inner("casts of names", "p::t'(", ")"),
    inner("casts to parentheses", "(", ")'(a)"),
    inner("all kinds in turn", "(f({a[-a?signed'('{{2{", "}}}):a]}))"),
]

STATEMENTS = [
    nest("conditionals", MODULE, "if(a)begin ", "end "),
    nest("conditionals in a block", BLOCK, "if(a)begin ", "end ", "a=a;"),
    nest("last branches", MODULE, "if(a)begin end else begin ", "end "),
    flat("branches", ("module m;if(a)begin end ", "endmodule"), "else if(a)begin end "),
    nest("branches in branches", MODULE, "if(a)begin end else if(a)begin ", "end else begin end "),
    nest("conditionals between statements", BLOCK, "a=a;if(a)begin a<=a;", "a=a;end a<=a;"),
    nest("cases", BLOCK, "case(a)a:begin ", "end endcase "),
    nest("cases in the last arm", BLOCK, "unique casez(a)a:a=a;default:begin ", "end endcase "),
    nest("cases in conditionals", BLOCK, "if(a)begin case(a)a:begin ", "end endcase end "),
    nest("loops of blocks", BLOCK, BLOCK_LOOP, "end "),
    nest("loops in conditionals between statements", BLOCK, "a=a;if(a)begin " + BLOCK_LOOP, "end a=a;end "),
    nest("conditionals in last branches in cases", BLOCK, "case(a)a:begin if(a)begin end else begin ", "end end endcase "),
]

LOOPS = [
    nest("loops", MODULE, LOOP, "end "),
    nest("loops with labels", MODULE, LOOP.replace("begin ", "begin:g "), "end ", "wire a;"),
    nest("loops between members", MODULE, "wire a;" + LOOP + "wire b;", "wire c;end wire d;"),
    nest("loops of conditionals", MODULE, LOOP, "if(a)begin end end "),
]

FLAT = [
    flat("statements", BLOCK, "a=a;"),
    flat("arms", ("module m;always_comb begin case(a)", "endcase end endmodule"), "a:begin end "),
    flat("bare arms", ("module m;always_comb begin casez(a)", "endcase end endmodule"), "a:a=a;"),
    flat("conditionals side by side", MODULE, "if(a)begin end "),
    flat("loops side by side", MODULE, LOOP + "end "),
    flat("loops of a block side by side", BLOCK, BLOCK_LOOP + "end "),
    flat("wires", MODULE, "wire [7:0] a;\n"),
    flat("groups of a wire", ("module m;wire", " w;endmodule"), "[0]"),
    flat("assignments", MODULE, "assign a=a;\n"),
    flat("macros with semicolons", MODULE, "`M;"),
    flat("instances", MODULE, "m i();"),
    flat("variables", MODULE, "p::t a[a];"),
    flat("connections", ("module m;m i(", ".a());endmodule"), ".a(),"),
    flat("ports", ("module m(", "input a);endmodule"), "input a,"),
    flat("parameters", ("module m#(", "parameter a=a);endmodule"), "parameter a=a,"),
    flat("events", ("module m;always@(", "a)begin end endmodule"), "a or "),
    flat("blocks", MODULE, "always_comb begin end "),
    flat("modules", FILE, "module m;endmodule "),
    flat("includes", FILE, '`include "a"\n'),
    flat("imports", FILE, "import p::*;"),
    flat("types declared by name", FILE, "typedef struct packed{}t;"),
    flat("entries", ("typedef enum int{", "A}t;"), "A=0,"),
    flat("fields", ("typedef struct packed{", "}t;"), "reg a;"),
    flat("comments", FILE, "//\n"),
    flat("one comment", ("//", ""), "/", "\n"),
    flat("spaces", FILE, " "),
    flat("line breaks", FILE, "\r\n"),
    flat("one name", EXPRESSION, "a", "a"),
    flat("one number", EXPRESSION, "0", "0"),
    flat("one literal", ("module m;assign x=8'h", ";endmodule"), "f", "f"),
    flat("one string", ('module m;assign x="', ";endmodule"), "a", '"'),
    flat("one string of escapes", ('module m;assign x="', ";endmodule"), '\\"', '"'),
]

SHAPES = EXPRESSIONS + STATEMENTS + LOOPS + FLAT


def derived(shape, levels):
    """A text of so many levels."""
    return shape.head + shape.opening * levels + shape.core + shape.closing * levels + shape.foot


def underived(shape):
    """What is made from a shape that no text of it derives: what is wrong, and the text for so many levels."""
    head, opening, core, closing, foot = shape[1:6]
    yield "a token too many", lambda levels: head + opening * levels + shape.extra + closing * levels + foot
    if shape.is_chain:
        yield "no last operand", lambda levels: head + opening * levels + foot
    if closing:
        yield "openings only", lambda levels: head + opening * levels
        yield "a closing missing", lambda levels: head + opening * levels + core + closing * (levels - 1) + foot
        yield "a closing too many", lambda levels: head + opening * levels + core + closing * (levels + 1) + foot

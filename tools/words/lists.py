"""Lists and what `vast_replay` tells of them, written by hand from docs/use/LISTS.md: a row for each mistake."""

# What most lists begin with: a module, a type and a port.
HEAD = 'm = AddModule "m"\nbit = MakeScalarType\na = AddInput m "a" bit\n'

# Calls that are refused: the lines behind the dialect's, and what is told.
REFUSED = [
    (HEAD + 'b = AddInput bit "b" bit\n', '5: AddInput: owner is to be a module, and `bit` is a type'),
    (HEAD + 'b = AddInput m "a" bit\n', '5: AddInput: the name "a" is taken in the module'),
    (HEAD + 'b = AddReg m "a" bit\n', "5: AddReg: FAILED_PRECONDITION: Attempted to declare reg with name 'a' multiple times in the same module. Already defined: [a]"),
    ('w = MakeBitVectorType 0 false\n', '2: MakeBitVectorType: a width below 1: 0 is given'),
    ('l = MakeLiteral "8\'d1" Hex\n', "2: MakeLiteral: expected a typed bits literal, got `8'd1`"),
    (HEAD + '?ModuleName a\n', '5: ?ModuleName: owner is to be a module, and `a` is a signal'),
    (HEAD + 'n = MakeNot a\nAddAlwaysFf m [ n ]\n', '6: AddAlwaysFf: Unsupported expression type passed to sensitivity list for always_ff at index 0. Only posedge, negedge, or logic-reference expressions are supported.'),
    (HEAD + 'x = AddAlwaysComb m\nb = StatementBlock x\nc = BlockAddCond b a\nConditionalAddElse c\nConditionalAddElse c\n', '9: ConditionalAddElse: the conditional has an `else` already'),
    ('i = MakeInstantiation "c" "u" [ ] [ ] [ "a" ] [ ]\n', '2: MakeInstantiation: ports: 1 names, 0 connections; each name has one'),
    (HEAD + 't = AddEnumTypedef m "t" bit [ "A" ] [ ]\n', '5: AddEnumTypedef: entries: 1 names, 0 values; each name has one'),
    (HEAD + 'o = AddOutput m "o" bit\ni = MakeIndex a 3\nc = MakeContinuousAssignment o i\nAddMemberContinuousAssignment m c\n', '6: a scalar signal can only be indexed with zero'),
    ('MakeNot 0\n', '2: MakeNot: no such answer: expression is `0`, and no step or helper before this line has that number'),
    ('m = AddModule "m"\nHoistModuleDeclarations m 1\n', '3: HoistModuleDeclarations: the start is 1, and the module has 0 members'),
    ('t = MakeExternType "a\\nb"\n?TypeFlatBitCountAsInt64 t\n', '3: ?TypeFlatBitCountAsInt64: external type `a\\u000ab` has no known bit width'),
]
# Lines that are not in the form: the lines behind the dialect's, and what is told.
NOT_IN_FORM = [
    (HEAD + 'b = AddInputs m "b" bit\n', '5:5: AddInputs: unknown call; `AddInput` is the nearest'),
    ('m = add_module "m"\n', '2:5: add_module: unknown call; `AddModule` is the nearest'),
    ('m = AddModule "m"\n?Warnings\n', '3:1: ?Warnings: answered in a session with --lint alone, without a name or an argument'),
    (HEAD + 'b = AddInput m "b"\n', '5:19: AddInput: an argument is missing: AddInput owner name data_type'),
    (HEAD + 'b = AddInput m "b" bit bit\n', '5:24: AddInput: an argument too many, `bit`: AddInput owner name data_type'),
    (HEAD + 'e = MakePosEdge a\nAddAlwaysFf m [ e\n', '6:18: AddAlwaysFf: a list without its end, ` ]`'),
    (HEAD + 'e = MakePosEdge a\nAddAlwaysFf m [e]\n', '6:15: AddAlwaysFf: a list expected: `[`, and a space behind it, not `[e]`'),
    (HEAD + 'm = AddInput m "b" bit\n', '5:1: an earlier line has the name `m`'),
    ('m = AddModule m\n', '2:15: AddModule: a text expected, between quotes, not `m`'),
    (HEAD + 'b = AddInput m "b" bitt\n', '5:20: AddInput: no earlier line has the name `bitt`'),
    ('l = MakeLiteral "bits[8]:1" Decimal\n', '2:29: MakeLiteral: one of Binary, Hex, SignedDecimal, UnsignedDecimal, UnsizedBinary, UnsizedDecimal, UnsizedHex expected, not `Decimal`'),
    (HEAD + 'g = AddGenerateLoop m "i" a a "label"\n', '5:31: AddGenerateLoop: `-` or `+` expected: `-` for none, `+ ` before a value, not `"label"`'),
    ('m = AddModule  "m"\n', '2:15: AddModule: a space too many'),
    ('m = AddModule "m" \n', '2:19: AddModule: a space too many'),
    ('  m = AddModule "m"\n', '2:1: a call expected, not a space'),
    ('m = AddModule "m\n', '2:16: AddModule: text without its end'),
    ('b = MakeBitVectorType 8 0\n', '2:25: MakeBitVectorType: `true` or `false` expected, not `0`'),
    ('b = MakeBitVectorType 0x8 true\n', "2:23: MakeBitVectorType: a number expected, in decimal digits, or `?` and a question's name, not `0x8`"),
    (HEAD + 'HoistModuleDeclarations m bit\n', '5:27: HoistModuleDeclarations: a name stands for a handle, and a number is expected, not `bit`'),
    ('MakeNot -1\n', '2:9: MakeNot: a handle expected: the number of an earlier step, or a name, not `-1`'),
    ('AddCommentText "\\ud83d"\n', '2:17: AddCommentText: half of a surrogate pair in a text'),
]
# Lists that are in the form, and the text.
PRINTED = [
    ('# a comment\nverilog\n\n  \t\n  # another\nm = AddModule "m"\n', 'module m;\n\nendmodule\n'),
    ('verilog\r\nm = AddModule "m"\r\n', 'module m;\n\nendmodule\n'),
    ('verilog\nm = AddModule "m"\nbit = MakeScalarType\n?ModuleName m\nAddWire m "a" bit\n', 'module m;\n  wire a;\nendmodule\n'),
    ('verilog\nm = AddModule "m"\nbit = MakeScalarType\na = AddInput m "a" bit\no = AddOutput m "o" bit\nany = !LogicalOrReduce [ a a ] true\nc = MakeContinuousAssignment o any\nn = ?ModuleMemberCount m\nAddMemberContinuousAssignment m c\nAddWire m "w" bit\nHoistModuleDeclarations m ?n\n', 'module m(\n  input wire a,\n  output wire o\n);\n  wire w;\n  assign o = !(a || a);\nendmodule\n'),
    ('verilog\nAddCommentText "\\"\\\\\\/\\t\\u00e9\\ud83d\\ude00"\n', '// "\\/\té😀\n'),
]
# All faults of a list, and no fault for a line that uses one with a fault.
FAULTY = (
    'm = AddModule "m"\nx = AddInputs m "x" 1\nbit = MakeScalarType\na = AddWire m "a" bit\n'
    'b = AddWire m "a" bit\nMakeNot b\nMakeNot x\nMakeBitVectorType 0 true\n'
)
FAULTS = [
    "3:5: AddInputs: unknown call; `AddInput` is the nearest",
    '6: AddWire: the name "a" is taken in the module',
    "9: MakeBitVectorType: a width below 1: 0 is given",
]
# A list with lines in each of a text's parts, and the text with the number of the line that each of its lines comes from.
MAPPED = """verilog
m = AddModule "m"
bit = MakeScalarType
o = AddOutput m "o" bit
a = AddInput m "a" bit
one = MakeUnsizedOneLiteral
p = AddParameterPort m "P" one
q = AddParameterPort m "Q" one
x = AddAlwaysComb m
b = StatementBlock x
c = BlockAddCond b a
t = ConditionalThenBlock c
BlockAddBlockingAssignment t o one
e = ConditionalAddElse c
BlockAddBlockingAssignment e o a
w = AddWire m "w" bit
n = MakeContinuousAssignment w a
AddMemberContinuousAssignment m n
HoistModuleDeclarations m 0
"""
ORIGINS = """2\tmodule m #(
7\t  parameter P = '1,
8\t  parameter Q = '1
2\t) (
4\t  output wire o,
5\t  input wire a
2\t);
16\t  wire w;
9\t  always_comb begin
11\t    if (a) begin
13\t      o = '1;
11\t    end else begin
15\t      o = a;
11\t    end
9\t  end
18\t  assign w = a;
2\tendmodule
"""
# A session with a lint, and its replies.
TALK = """systemverilog
m = AddModule "m"
a = AddWire m "wire" 0
bit = MakeScalarType
a = AddWire m "wire" bit
b = AddWire m "b" bit
x = AddAlwaysComb m
s = StatementBlock x
c = BlockAddCase s b
?Warnings
any = !LogicalOrReduce [ b b ] false
sum = MakeAdd b b
k = MakeIndexableExpression sum
i = MakeIndex k 0
CaseAddDefault c
?Warnings
== two
verilog
?Warnings
AddModule "m"
"""
REPLIES = """{"line":1,"dialect":"systemverilog"}
{"line":2,"call":"AddModule","step":0}
{"line":3,"call":"AddWire","step":1,"cause":"kind","words":"data_type is to be a type, and `0` is a module"}
{"line":4,"call":"MakeScalarType","step":1}
{"line":5,"call":"AddWire","step":2,"warnings":[{"line":5,"call":"AddWire","why":"a name that is a keyword is no SystemVerilog","tools":"Icarus, Verilator refuse it"}]}
{"line":6,"call":"AddWire","step":3}
{"line":7,"call":"AddAlwaysComb","step":4}
{"line":8,"call":"StatementBlock","step":5}
{"line":9,"call":"BlockAddCase","step":6}
{"line":10,"call":"?Warnings","answer":[{"line":9,"call":"BlockAddCase","why":"a case without arms is no SystemVerilog","tools":"Icarus refuses it"}]}
{"line":11,"call":"!LogicalOrReduce","step":7,"answer":"b || b"}
{"line":12,"call":"MakeAdd","step":8}
{"line":13,"call":"MakeIndexableExpression","step":9}
{"line":14,"call":"MakeIndex","step":10,"warnings":[{"line":14,"call":"MakeIndex","text":"(b + b)[0]","why":"a select of a computed value is no SystemVerilog","tools":"Icarus, Verilator, Yosys refuse it"}]}
{"line":15,"call":"CaseAddDefault","step":11}
{"line":16,"call":"?Warnings","answer":[]}
{"line":17,"title":"two"}
{"line":18,"dialect":"verilog"}
{"line":19,"call":"?Warnings","answer":[]}
{"line":20,"call":"AddModule","step":0}
"""
# Sessions, with a lint or without one, and how the last reply ends.
LAST = [
    ([], "verilog\n?Warnings\n", '{"line":2,"column":1,"call":"?Warnings","cause":"form","words":"answered in a session with --lint alone, without a name or an argument"}\n'),
    (["--lint"], "verilog\n?Warnings 1\n", "without a name or an argument\"}\n"),
    (["--lint"], "verilog\nn = ?Warnings\n", "without a name or an argument\"}\n"),
    (["--lint"], "verilog\r\n?Warnings\r\n", '{"line":2,"call":"?Warnings","answer":[]}\n'),
    (["--lint"], "?Warnings\n", '"cause":"form","words":"`verilog` or `systemverilog` expected, not `?Warnings`"}\n'),
    ([], '# one\nverilog\nm = AddModule "m"\n?ModuleName m\n', '{"line":3,"call":"AddModule","step":0}\n{"line":4,"call":"?ModuleName","answer":"m"}\n'),
]
# A list, and its line of JSON.
ASKED = 'verilog\nm = AddModule "m"\nt = MakeScalarType\nAddWire m "a" t\n?ModuleName m\n?ModuleMemberCount m\n'
ASKED_JSON = r'{"source":"<stdin>","title":null,"line":1,"verdict":"made","answers":[{"line":5,"call":"?ModuleName","answer":"m"},{"line":6,"call":"?ModuleMemberCount","answer":1}],"faults":[],"more":0,"text":"module m;\n  wire a;\nendmodule\n"'

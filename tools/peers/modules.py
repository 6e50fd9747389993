"""Random modules as trees: declarations, always blocks, conditionals, cases, functions, loops, instances."""
from expressions import INPUTS, PARAMETERS, Random
from trees import BIT, integer, name, vector

# What instances are of; it stands beside the modules, and its text is written by hand.
PART = "part"
PART_TEXT = """module part #(parameter W = 2) (input wire [7:0] x, output wire [7:0] z);
  assign z = x ^ W;
endmodule
"""
BYTE = vector(8)


class Modules(Random):
    """A module in the making: what its expressions may name grows with its members."""

    fills = ("0", "1")  # within a casex Yosys doesn't tell x from z

    def __init__(self, source, title):
        super().__init__(source, {it: kind for it, kind in INPUTS.items() if kind[1]}, ["c", *PARAMETERS])
        self.title = title
        self.most = 2  # statements of a block
        self.count = 0
        self.members = []

    def new(self, letter):
        self.count += 1
        return f"{letter}{self.count}"

    def short(self):
        return self.expression(self.of(0, 1, 1, 2, 3, 5))

    def kind(self):
        """A type of a variable; the width of some is the parameter."""
        if self.source.random() < 0.1:
            return (False, ("binary", "-", name("P"), integer(1)), ())
        return vector(self.of(1, 4, 8, 8, 13), self.source.random() < 0.2)

    def know(self, word, data_type):
        """Lets expressions name the variable."""
        if data_type[1] is not None and data_type[1][0] == "number" and len(data_type[1][2].lstrip("0")) > 2:
            self.vectors[word] = data_type
        else:
            self.others.append(word)

    def module(self):
        """The whole module, which has some members of each kind in any order."""
        makers = ["wire", "wire", "clocked", "combinational", "function", "loop", "localparam", "part", "memory", "condition"]
        for maker in self.source.choices(makers, k=self.source.randint(3, 8)):
            getattr(self, f"add_{maker}")()
        self.members.append(("assign", name("y"), self.last()))
        ports = [("input", "clk", BIT), *(("input", it, kind) for it, kind in INPUTS.items()), ("output", "y", vector(40))]
        parameters = tuple((it, integer(value)) for it, value in PARAMETERS.items())
        return ("module", self.title, parameters, tuple(ports), tuple(self.members))

    def last(self):
        """An expression over all variables of the module."""
        seen = [it[2] for it in self.members if it[0] == "declare" and not it[3][2]]
        made = self.expression(3)
        for word in seen:
            made = ("binary", self.of("^", "+", "-"), made, name(word))
        return made

    def declare(self, word, letter, data_type):
        made = self.new(letter)
        self.members.append(("declare", word, made, data_type))
        return made

    def add_wire(self):
        kind = self.kind()
        made = self.declare("wire", "w", kind)
        self.members.append(("assign", name(made), self.expression(self.source.randint(1, 6))))
        self.know(made, kind)

    def add_localparam(self):
        made, kind = self.new("L"), self.of(None, (True, integer(31), ()))
        value = ("binary", self.of("+", "*", "<<"), name("P"), self.of(integer(2), name("Q")))
        self.members.append(("localparam", made, kind, value))
        self.others.append(made)

    def add_clocked(self):
        """Registers of one always block, with a reset or without."""
        kinds = [vector(self.of(4, 8, 13), self.source.random() < 0.2) for _ in range(self.of(1, 2, 3))]
        made = [self.declare(self.of("reg", "logic"), "r", it) for it in kinds]
        for word, kind in zip(made, kinds):
            self.know(word, kind)
        events = self.of((("posedge", name("clk")),), (("posedge", name("clk")), ("negedge", name("c"))))
        body = self.body(3, "<=", dict(zip(made, kinds)))
        if self.source.random() < 0.5:
            body = (("if", ("unary", "!", name("c")), tuple(("<=", name(it), integer(0)) for it in made), body),)
        self.members.append(("always", self.of("always_ff", "always"), events, body))

    def add_combinational(self):
        """A variable of an always_comb, which each path assigns once at most.

        Where some blocks assign variables twice that others wait for, Icarus Verilog 11 doesn't end.
        """
        kind = vector(self.of(4, 8), self.source.random() < 0.2)
        made = self.declare(self.of("reg", "logic"), "v", kind)
        self.most = 1
        body = self.body(3, "=", {made: kind})
        self.most = 2
        self.members.append(("always", "always_comb", (), body))
        self.know(made, kind)

    def add_memory(self):
        """An array that is written at a place and read."""
        made = self.declare(self.of("reg", "logic"), "t", vector(8, False, (4,)))
        place = ("slice", name("a"), integer(1), integer(0))
        self.members.append(("always", "always_ff", (("posedge", name("clk")),), (
            ("if", self.short(), (("<=", ("index", name(made), place), self.short()),), None),)))
        self.arrays[made] = BYTE

    def add_part(self):
        made = self.declare("wire", "w", BYTE)
        given = () if self.source.random() < 0.3 else (("W", integer(self.of(1, 5))),)
        is_open = self.source.random() < 0.2
        joined = (("x", self.expression(2, True)), ("z", None if is_open else name(made)))
        self.members.append(("instance", PART, self.new("u"), given, joined))
        self.know(made, BYTE)

    def add_function(self):
        """A function of some inputs, whose body sees these and its own variables."""
        made, inner = self.new("f"), Modules(self.source, "")
        inner.vectors, inner.others = {}, list(PARAMETERS)
        inputs = tuple((self.of("reg", "logic"), self.new("i"), self.of(BYTE, vector(5, True))) for _ in range(self.of(1, 2)))
        variables = tuple((self.of("reg", "logic"), self.new("z"), BYTE) for _ in range(self.of(0, 1)))
        for _, word, kind in inputs:
            inner.know(word, kind)
        targets = {it[1]: it[2] for it in variables} | {made: BYTE}
        begin = tuple(("=", name(it), inner.short()) for it in targets)
        body = begin + inner.body(2, "=", targets)
        if self.source.random() < 0.4:
            body += (self.counted(inner, made),)
        self.members.append(("function", made, BYTE, inputs, variables, body))
        self.functions[made] = len(inputs)

    def add_loop(self):
        """A loop that assigns each bit of a wire, or of the rows of one in a loop of its own."""
        made, place, label = self.declare("wire", "w", BYTE), self.new("g"), self.new("n")
        bit = ("index", name(made), name(place))
        self.places = [place]
        members = self.loop_members(bit)
        if self.source.random() < 0.2:
            members = (self.inner_loop(made, place),)
        self.places = []
        end = self.of(integer(8), ("binary", "+", name("P"), integer(5)))
        self.members.append(("loop", place, integer(0), end, label, members))
        self.know(made, BYTE)

    def loop_members(self, bit):
        """Members of a loop that assign the bit: plain, by arms of an `if` over the place, or by an always block."""
        kind, place = self.source.randrange(4), bit[2]
        if kind == 0:
            return (("assign", bit, self.expression(3)),)
        if kind == 1:
            own = self.new("L")
            return (("localparam", own, None, ("binary", "+", place, name("P"))),
                    ("assign", bit, ("binary", self.of("^", ">>", "=="), self.short(), name(own))))
        arms = [(("assign", bit, self.expression(2)),) for _ in range(3)]
        tests = [("binary", self.of(">", "<=", "=="), place, it) for it in (name("P"), integer(self.source.randrange(8)))]
        if kind == 2:
            return (("if", tests[0], arms[0], arms[1]),)
        return (("if", tests[0], arms[0], (("if", tests[1], arms[1], arms[2]),)),)

    def inner_loop(self, made, place):
        """A loop over the places from the outer one to the next, so that each bit is assigned once."""
        inner = self.new("g")
        self.places = [place, inner]
        assigned = ("assign", ("index", name(made), name(inner)), self.expression(2))
        end = ("binary", "+", name(place), integer(1))
        return ("loop", inner, name(place), end, self.new("n"), (assigned,))

    def add_condition(self):
        """An `if` of generate between assignments of a wire."""
        made = self.declare("wire", "w", BYTE)
        arms = [(("assign", name(made), self.expression(2)),) for _ in range(2)]
        self.members.append(("if", ("binary", self.of(">", "=="), name("P"), integer(self.of(2, 3))), *arms))
        self.know(made, BYTE)

    def counted(self, inner, word):
        """A loop that computes the variable of a function over what that sees, perhaps by a loop in it."""
        place, other = self.new("k"), self.new("k")
        inner.places = [place]
        each = (inner.summand(word),)
        if self.source.random() < 0.4:
            inner.places = [place, other]
            end = ("binary", "+", name(place), integer(2))
            each += (("for", other, name(place), end, (inner.summand(word),)),)
        inner.places = []
        return ("for", place, integer(0), self.of(integer(8), ("binary", "+", name("P"), integer(5))), each)

    def summand(self, word):
        return ("=", name(word), ("binary", self.of("+", "^"), name(word), self.expression(2)))

    def body(self, depth, sign, targets):
        """Some statements that assign to the targets."""
        return tuple(self.statement(depth, sign, targets) for _ in range(self.of(1, 1, self.most)))

    def statement(self, depth, sign, targets):
        kind = self.source.randrange(6) if depth else 0
        if kind < 2:
            return (sign, self.target(targets), self.short())
        if kind < 4:
            return self.conditional(depth - 1, sign, targets)
        return self.case(depth - 1, sign, targets)

    def target(self, targets):
        """What an assignment's left side is: a name, a bit, some bits or several in braces."""
        word = self.of(*targets)
        width = int(targets[word][1][2], 2) + 1
        kind = self.source.randrange(8)
        if kind == 0:
            return ("index", name(word), integer(self.source.randrange(width)))
        if kind == 1:
            return ("slice", name(word), integer(width - 1), integer(self.source.randrange(width)))
        if kind == 2:
            return ("part", name(word), self.of(integer(0), name("Q"), name("a")), integer(2))
        if kind == 3:
            return ("concat", *(name(it) for it in targets))
        return name(word)

    def conditional(self, depth, sign, targets):
        then, other = self.body(depth, sign, targets), self.of(None, "else", "else if")
        if other == "else if":
            return ("if", self.short(), then, (self.conditional(max(depth - 1, 0), sign, targets),))
        return ("if", self.short(), then, self.body(depth, sign, targets) if other else None)

    def case(self, depth, sign, targets):
        """A case over distinct labels, with a default or without."""
        word, arms = self.of("case", "case", "casez", "casex"), []
        for value in self.source.sample(range(16), self.of(1, 2, 3)):
            label = self.number(4, value, self.of("Binary", "Hex", "UnsignedDecimal"))
            if word != "case" and self.source.random() < 0.6:
                label = self.pattern(4)
            arms.append((label, self.body(depth, sign, targets)))
        if self.source.random() < 0.7:
            arms.append((None, self.body(depth, sign, targets)))
        unique = self.source.random() < 0.2 and arms[-1][0] is None
        return ("case", word, unique, self.short(), tuple(arms))

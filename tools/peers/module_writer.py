"""Writes the list of calls that builds a module: what `writer` does for expressions, for members and statements."""
from writer import Word, Writer

ADDERS = {"wire": "AddWire", "reg": "AddReg", "logic": "AddLogic"}
VARIABLES = {"reg": "FunctionAddReg", "logic": "FunctionAddLogic"}
FUNCTION_INPUTS = {"reg": "FunctionAddInput", "logic": "FunctionAddLogicInput"}
CASES = {"case": "BlockAddCase", "casez": "BlockAddCasez", "casex": "BlockAddCasex"}
ASSIGNMENTS = {"=": "BlockAddBlockingAssignment", "<=": "BlockAddNonblockingAssignment", "assign": "BlockAddContinuousAssignment"}


class ModuleWriter(Writer):
    """Members of a module or of a loop, which is `owner` with what its calls begin with."""

    def module(self, tree):
        """The list that builds the module."""
        _, name, parameters, ports, members = tree
        owner = self.call("AddModule", name)
        for it, value in parameters:
            self.names[it] = self.call("AddParameterPort", owner, it, self.expression(value))
        for direction, it, kind in ports:
            adder = "AddInput" if direction == "input" else "AddOutput"
            self.names[it] = self.call(adder, owner, it, self.type(kind))
        self.members(owner, "", members)
        return str(self.list)

    def members(self, owner, prefix, members):
        for kind, *parts in members:
            getattr(self, f"add_{kind}")(owner, prefix, *parts)

    def add_declare(self, owner, _, word, name, data_type):
        self.names[name] = self.call(ADDERS[word], owner, name, self.type(data_type))

    def add_localparam(self, owner, prefix, name, data_type, value):
        given = self.expression(value)
        if data_type is None:
            adder = "GenerateAddLocalparam" if prefix else "AddLocalparam"
            self.names[name] = self.call(adder, owner, name, given)
        elif prefix or self.some():
            definition = self.call("MakeDef", name, Word("Int"), self.call("MakeIntType", True))
            adder = "GenerateAddTypedLocalparam" if prefix else "AddTypedLocalparam"
            self.names[name] = self.call(adder, owner, definition, given)
        else:
            self.names[name] = self.call("AddIntLocalparam", owner, name, given)

    def add_assign(self, owner, prefix, left, right):
        sides = self.all([left, right])
        if prefix:
            self.call("GenerateAddContinuousAssignment", owner, *sides)
        else:
            self.call("AddMemberContinuousAssignment", owner, self.call("MakeContinuousAssignment", *sides))

    def add_always(self, owner, prefix, word, events, body):
        prefix = prefix or "Add"
        if word == "always_comb":
            made = self.call(f"{prefix}AlwaysComb", owner)
        else:
            listed = [self.event(*it) for it in events]
            made = self.call(f"{prefix}{'AlwaysFf' if word == 'always_ff' else 'AlwaysAt'}", owner, listed)
        self.body(self.call("StatementBlock", made), body)

    def event(self, edge, expression):
        made = self.expression(expression)
        return self.call("MakePosEdge" if edge == "posedge" else "MakeNegEdge", made) if edge else made

    def add_function(self, owner, _, name, result, inputs, variables, body):
        """A function, whose own names stand before those of the module while its body is written."""
        outer = dict(self.names)
        made = self.call("AddFunction", owner, name, self.type(result))
        for adders, group in ((FUNCTION_INPUTS, inputs), (VARIABLES, variables)):
            for word, it, kind in group:
                self.names[it] = self.call(adders[word], made, it, self.type(kind))
        self.names[name] = self.call("FunctionResult", made)
        self.body(self.call("FunctionBody", made), body)
        self.names = outer

    def add_loop(self, owner, prefix, name, start, end, label, members):
        outer = dict(self.names)
        adder = "GenerateAddGenerateLoop" if prefix else "AddGenerateLoop"
        made = self.call(adder, owner, name, *self.all([start, end]), self.optional(label))
        self.names[name] = self.call("GenerateGenvar", made)
        self.members(made, "GenerateAdd", members)
        self.names = outer

    def add_if(self, owner, prefix, condition, then, otherwise):
        adder = "GenerateAddConditional" if prefix else "AddConditional"
        self.arms(self.call(adder, owner, self.expression(condition)), then, otherwise)

    def add_instance(self, owner, prefix, module, name, parameters, connections):
        values = self.all(it[1] for it in parameters)
        joined = [None if it[1] is None else self.optional(self.expression(it[1])) for it in connections]
        words = [[it[0] for it in parameters], values, [it[0] for it in connections], joined]
        made = self.call("MakeInstantiation", module, name, *words)
        self.call("GenerateAddInstantiation" if prefix else "AddMemberInstantiation", owner, made)

    def body(self, block, statements):
        """The statements of a block, each after the one before."""
        for kind, *parts in statements:
            if kind in ASSIGNMENTS:
                self.call(ASSIGNMENTS[kind], block, *self.all(parts))
            elif kind == "if":
                condition, then, otherwise = parts
                self.arms(self.call("BlockAddCond", block, self.expression(condition)), then, otherwise)
            elif kind == "for":
                self.counted(block, *parts)
            else:
                self.case(block, *parts)

    def counted(self, block, name, start, end, statements):
        outer = dict(self.names)
        made = self.call("BlockAddFor", block, name, *self.all([start, end]))
        self.names[name] = self.call("MakeName", name)
        self.body(made, statements)
        self.names = outer

    def arms(self, made, then, otherwise):
        """The arms of a conditional; an `else` of one `if` alone is an `else if`."""
        self.body(self.call("ConditionalThenBlock", made), then)
        while otherwise is not None and len(otherwise) == 1 and otherwise[0][0] == "if":
            _, condition, then, otherwise = otherwise[0]
            self.body(self.call("ConditionalAddElseIf", made, self.expression(condition)), then)
        if otherwise is not None:
            self.body(self.call("ConditionalAddElse", made), otherwise)

    def case(self, block, word, unique, selector, arms):
        made = self.call(CASES[word], block, self.expression(selector))
        if unique:
            self.call("CaseSetUnique", made, True)
        for label, body in arms:
            item = self.call("CaseAddDefault", made) if label is None else self.call("CaseAddItem", made, self.expression(label))
            self.body(item, body)

"""Writes trees as Verilog by hand, each operator in parentheses of its own: what the printed text is simulated beside."""


def expression(tree):
    """The expression with all parentheses."""
    kind, *parts = tree
    if kind == "name":
        return parts[0]
    if kind == "number":
        return parts[2].text if len(parts) == 3 else str(int(parts[1], 2))
    if kind == "fill":
        return f"'{parts[0]}"
    if kind == "unary":
        return f"({parts[0]}{expression(parts[1])})"
    if kind == "call":
        return f"{parts[0]}({listed(parts[1:])})"
    if kind == "type":
        return f"({parts[0]}'({expression(parts[1])}))"
    if kind == "binary":
        return f"({expression(parts[1])} {parts[0]} {expression(parts[2])})"
    return FORMS[kind](*map(expression, parts))


def listed(trees):
    return ", ".join(map(expression, trees))


FORMS = {
    "ternary": "({} ? {} : {})".format,
    "index": "{}[{}]".format,
    "slice": "{}[{}:{}]".format,
    "part": "{}[{} +: {}]".format,
    "concat": lambda *parts: "{%s}" % ", ".join(parts),
    "replicate": lambda count, *parts: "{%s{%s}}" % (count, ", ".join(parts)),
    "cast": "({}'({}))".format,
    "signed": "$signed({})".format,
    "unsigned": "$unsigned({})".format,
}


def declared(data_type, word):
    """A type before its name, and the array's dimensions after it."""
    signed, high, dimensions = data_type
    before = f"{word} {'signed ' if signed else ''}{f'[{expression(high)}:0] ' if high else ''}".lstrip()
    return before, "".join(f"[{expression(it)}]" for it in dimensions)


def variable(word, name, data_type):
    before, after = declared(data_type, word)
    return f"{before}{name}{after}"


def block(body):
    return f"begin {' '.join(map(statement, body))} end"


def statement(tree):
    """A statement, or a member that is one."""
    if tree[0] == "assign":
        return f"assign {expression(tree[1])} = {expression(tree[2])};"
    if tree[0] in ("=", "<="):
        return f"{expression(tree[1])} {tree[0]} {expression(tree[2])};"
    if tree[0] == "if":
        condition, then, otherwise = tree[1:]
        after = "" if otherwise is None else f" else {block(otherwise)}"
        return f"if ({expression(condition)}) {block(then)}{after}"
    if tree[0] == "for":
        return f"for (int {counting(*tree[1:4])}) {block(tree[4])}"
    word, unique, selector, arms = tree[1:]
    written = [f"{'default' if label is None else expression(label)}: {block(body)}" for label, body in arms]
    return f"{'unique ' if unique else ''}{word} ({expression(selector)}) {' '.join(written)} endcase"


def counting(name, start, end):
    return f"{name} = {expression(start)}; {name} < {expression(end)}; {name} = {name} + 1"


def always(word, events, body):
    if word == "always_comb":
        return f"always_comb {block(body)}"
    written = " or ".join(f"{edge} {expression(it)}" for edge, it in events)
    return f"{word} @ ({written}) {block(body)}"


def function(name, result, inputs, variables, body):
    head = f"function automatic {variable('', name, result)}"
    given = ", ".join("input " + variable(*it) for it in inputs)
    own = " ".join(variable(*it) + ";" for it in variables)
    return f"{head} ({given}); {own} {block(body)} endfunction"


def loop(name, start, end, label, members):
    named = f" : {label}" if label else ""
    return f"for (genvar {counting(name, start, end)}) begin{named} {' '.join(map(member, members))} end"


def instance(module, name, parameters, connections):
    given = ", ".join(f".{it}({expression(value)})" for it, value in parameters)
    joined = ", ".join(f".{it}({expression(value) if value else ''})" for it, value in connections)
    return f"{module} {f'#({given}) ' if given else ''}{name} ({joined});"


def localparam(name, data_type, value):
    before = "" if data_type is None else "int "
    return f"localparam {before}{name} = {expression(value)};"


def member(tree):
    """A member of a module or of a loop."""
    kind, *parts = tree
    if kind == "declare":
        return variable(*parts) + ";"
    writers = {"always": always, "function": function, "loop": loop, "instance": instance, "localparam": localparam}
    return writers[kind](*parts) if kind in writers else statement(tree)


def module(tree, name):
    """The module under this name."""
    parameters = ", ".join(f"parameter {it} = {expression(value)}" for it, value in tree[2])
    head = f" #({parameters})" if parameters else ""
    ports = ", ".join(f"{direction} {variable('wire', it, kind)}" for direction, it, kind in tree[3])
    return "\n".join([f"module {name}{head} ({ports});", *map(member, tree[4]), "endmodule\n"])

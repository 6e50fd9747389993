"""Reads Verilator's dump of a file, the first that `--dump-tree` writes, as trees."""
import glob
import re

from dumps import Unread, children, nested
from trees import integer

UNARY = {"NOT": "~", "NEGATE": "-", "LOGNOT": "!", "REDAND": "&", "REDOR": "|", "REDXOR": "^"}
BINARY = {
    "ADD": "+", "SUB": "-", "MUL": "*", "DIV": "/", "MODDIV": "%", "POW": "**", "AND": "&", "OR": "|", "XOR": "^",
    "SHIFTL": "<<", "SHIFTRS": ">>>", "SHIFTR": ">>", "NEQ": "!=", "NEQCASE": "!==", "EQ": "==", "EQCASE": "===",
    "GTE": ">=", "GT": ">", "LTE": "<=", "LT": "<", "LOGAND": "&&", "LOGOR": "||",
}
EDGES = {"[POS]": "posedge", "[NEG]": "negedge", "[CHANGED]": ""}
TYPES = {"logic", "int", "integer"}
# The number by which a list is replicated that stands in braces alone.
ONCE = "32'h1"


def command(file):
    return ["verilator", "--lint-only", "-Wno-fatal", "-Wno-lint", "-Wno-style", "--dump-tree", "--Mdir", "dump", file]


def modules(_, room):
    """The tree of each module of a dump, by its name."""
    first = sorted(glob.glob(f"{room}/dump/*_cells.tree"))
    if not first:
        return {}
    with open(first[0], encoding="utf-8") as it:
        lines = re.findall(r"(?m)^    ([\d:]+): (\w+) (?:0x\w+ )?(?:<e\d+#?> )?\{[^}]*\}(?: @dt=(\S+))?(.*)$", it.read())
    root = nested(
        (path.count(":"), int(path.split(":")[-1]), word, f"{rest.strip()} {kind}" if word == "BASICDTYPE" else rest.strip())
        for path, word, kind, rest in lines)
    return {it.rest.split()[0]: module(it) for it in children(root) if it.word == "MODULE"}


def expressions(nodes):
    return tuple(map(expression, nodes))


def operands(node):
    return [it for group in sorted(node.groups) for it in node.groups[group]]


def expression(node):
    """The expression that a node is."""
    given = operands(node)
    if node.word in UNARY:
        return ("unary", UNARY[node.word], expression(given[0]))
    if node.word in BINARY:
        return ("binary", BINARY[node.word], *expressions(given))
    if node.word in FORMS:
        return FORMS[node.word](node, given)
    raise Unread(f"{node.word} {node.rest}")


def constant(node, _):
    """A number, as `8'h3`, `?32?sh3` without a width of its own, `4'b1xz0`; or `'1`."""
    fill = re.fullmatch(r"'([01xz])", node.rest)
    if fill:
        return ("fill", fill[1])
    width, signed, base, digits = re.fullmatch(r"(\d+|\?\d+\?)'?(s?)([bh])([\da-fxz_]+)", node.rest).groups()
    width, each = int(width.strip("?")), 1 if base == "b" else 4
    bits = "".join(it * each if it in "xz" else format(int(it, 16), f"0{each}b") for it in digits.replace("_", ""))
    return ("number", signed == "s", bits.rjust(width, "0")[-width:])


def named(node, _):
    return ("name", node.rest.split()[0])


def listed(node):
    """The elements of a list in braces, which are joined from the left; a list in it has braces of its own."""
    if node.word == "CONCAT":
        left, right = operands(node)
        return [*listed(left), right]
    return [node]


def replicated(_, given):
    elements = expressions(listed(given[0]))
    return ("concat", *elements) if given[1].rest == ONCE else ("replicate", expression(given[1]), *elements)


def cast(_, given):
    return ("cast", expression(given[1]), expression(given[0]))


def typed(_, given):
    """A cast to a type, which stands after the value."""
    kind = given[1]
    return ("type", kind.rest.split()[0], expression(given[0]))


def called(node, given):
    return ("call", node.rest.split()[0], *(expression(children(it)[0]) for it in given))


FORMS = {
    "CONST": constant, "PARSEREF": named, "VARREF": named, "REPLICATE": replicated, "CASTPARSE": cast, "CAST": typed,
    "FUNCREF": called,
    "COND": lambda _, given: ("ternary", *expressions(given)),
    "SELBIT": lambda _, given: ("index", *expressions(given)),
    "SELEXTRACT": lambda _, given: ("slice", *expressions(given)),
    "SELPLUS": lambda _, given: ("part", *expressions(given)),
    "CLOG2": lambda _, given: ("call", "$clog2", *expressions(given)),
    "SIGNED": lambda _, given: ("signed", *expressions(given)),
    "UNSIGNED": lambda _, given: ("unsigned", *expressions(given)),
}


def data_type(node):
    """The type that a variable's first child is; an array's is over that of its elements."""
    kind, dimensions = children(node)[0], []
    while kind.word == "BRACKETARRAYDTYPE":
        dimensions.append(expression(children(kind, 2)[0]))
        kind = children(kind)[0]
    ranges = children(kind)
    signed = re.search(r"\((G/)?n?s", kind.rest) is not None
    high = expression(children(ranges[0], 1)[0]) if ranges else None
    return (signed, integer(31) if kind.rest.split()[0] == "int" else high, tuple(dimensions[::-1]))


def module(node):
    """The module with its ports, parameters and members."""
    parameters, ports, members = [], [], []
    for it in children(node, 2):
        words = it.rest.split()
        if it.word == "VAR" and words[1] == "GPARAM":
            parameters.append((words[0], expression(children(it, 3)[0])))
        elif it.word == "VAR" and words[1] in ("INPUT", "OUTPUT"):
            ports.append((words[1].lower(), words[0], data_type(it)))
        elif it.word != "PORT":
            members.append(member(it))
    return ("module", node.rest.split()[0], tuple(parameters), tuple(ports), tuple(members))


def declared_word(node):
    return "wire" if node.rest.split()[1] == "WIRE" else "var"


def variable(node):
    """A declared variable, or a local parameter."""
    name, word = node.rest.split()[:2]
    if word == "LPARAM":
        kind = children(node)[0].rest.split()[0]
        return ("localparam", name, None if kind == "LOGIC_IMPLICIT" else data_type(node), expression(children(node, 3)[0]))
    return ("declare", declared_word(node), name, data_type(node))


def member(node):
    """A member of a module or of a loop."""
    if node.word == "VAR":
        return variable(node)
    if node.word in MEMBERS:
        return MEMBERS[node.word](node)
    return statement(node)


def always(node):
    """An always block; the one with events has them before its body."""
    word, (first,) = node.rest.strip("[]") or "always", children(node, 2)
    if first.word != "EVENTCONTROL":
        return ("always", word, (), body([first]))
    events = children(children(first)[0])
    read = tuple((EDGES[it.rest], expression(children(it)[0])) for it in events)
    return ("always", word, read, body(children(first, 2)))


def function(node):
    """A function: its result, its inputs, its own variables and its body."""
    variables = [it for it in children(node, 3) if it.word == "VAR"]
    given = [it for it in variables if it.rest.split()[1] == "INPUT"]
    own = [it for it in variables if it not in given]
    groups = [tuple(("var", it.rest.split()[0], data_type(it)) for it in group) for group in (given, own)]
    rest = [it for it in children(node, 3) if it.word != "VAR"]
    return ("function", node.rest.split()[0], data_type(node), *groups, body(rest))


def loop(node):
    """A loop of generate: its name is declared in a block around it, whose name is the label."""
    (head,) = children(node, 2)
    start, end, step, *members = operands(head)
    name = children(node)[0].rest.split()[0]
    limits = counting(name, start, end, step)
    return ("loop", name, *limits, block_name(node), tuple(map(member, members)))


def counting(name, start, end, step):
    """The limits of a loop whose variable has the name."""
    own = ("name", name)
    heads = [expression(it) for it in (operands(start)[1], operands(end)[0], operands(step)[1])]
    if heads != [own] * 3 or end.word != "LT" or expression(operands(step)[0]) != ("binary", "+", own, integer(1)):
        raise Unread("a loop's head")
    return (expression(operands(start)[0]), expression(operands(end)[1]))


def block_name(node):
    word = node.rest.split()[0]
    return None if word.startswith("[") else word


def instance(node):
    """An instance: the module's name, parameters, connections."""
    name, module_name = re.match(r"(\S+) -> MODULE .*?\} *(\S+)", node.rest).groups()
    groups = [
        tuple((it.rest.split()[0], expression(children(it)[0]) if children(it) else None) for it in children(node, group))
        for group in (2, 1)
    ]
    return ("instance", module_name, name, *groups)


MEMBERS = {"ALWAYS": always, "FUNC": function, "BEGIN": loop, "CELL": instance}


def body(nodes):
    """The statements of blocks, and of the blocks in them."""
    found = []
    for it in nodes:
        if it.word == "BEGIN" and "[IMPLIED]" in it.rest and operands(it)[-1].word == "WHILE":
            found.append(counted(*operands(it)))
        else:
            found += body(operands(it)) if it.word == "BEGIN" and "[GENFOR]" not in it.rest else [member(it)]
    return tuple(found)


def counted(variable, start, loop):
    """A loop of a block, which declares its variable before it."""
    name = variable.rest.split()[0]
    (end,), (step,) = children(loop, 2), children(loop, 4)
    return ("for", name, *counting(name, start, end, step), body(children(loop, 3)))


def statement(node):
    if node.word in ("ASSIGN", "ASSIGNDLY", "ASSIGNW"):
        right, left = expressions(operands(node))
        return ({"ASSIGN": "=", "ASSIGNDLY": "<=", "ASSIGNW": "assign"}[node.word], left, right)
    if node.word in ("IF", "GENIF"):
        arms = [body(children(node, group)) for group in (2, 3)]
        return ("if", expression(children(node)[0]), arms[0], arms[1] if children(node, 3) else None)
    if node.word in ("CASE", "GENCASE"):
        arms = tuple(map(arm, children(node, 2)))
        return ("case", "case", False, expression(children(node)[0]), arms)
    raise Unread(f"{node.word} {node.rest}")


def arm(node):
    labels = children(node)
    return (expression(labels[0]) if labels else None, body(children(node, 2)))

"""Reads Yosys's dump of a file, `read_verilog -dump_ast1`, as trees."""
import re

from dumps import Unread, children, nested
from trees import integer

UNARY = {
    "AST_BIT_NOT": "~", "AST_NEG": "-", "AST_LOGIC_NOT": "!", "AST_REDUCE_AND": "&", "AST_REDUCE_OR": "|",
    "AST_REDUCE_XOR": "^",
}
BINARY = {
    "AST_ADD": "+", "AST_SUB": "-", "AST_MUL": "*", "AST_DIV": "/", "AST_MOD": "%", "AST_POW": "**",
    "AST_BIT_AND": "&", "AST_BIT_OR": "|", "AST_BIT_XOR": "^", "AST_SHIFT_LEFT": "<<", "AST_SHIFT_SRIGHT": ">>>",
    "AST_SHIFT_RIGHT": ">>", "AST_NE": "!=", "AST_NEX": "!==", "AST_EQ": "==", "AST_EQX": "===", "AST_GE": ">=",
    "AST_GT": ">", "AST_LE": "<=", "AST_LT": "<", "AST_LOGIC_AND": "&&", "AST_LOGIC_OR": "||",
}
# Their right sides are wrapped as without a sign, whatever they are.
SHIFTS = ("AST_SHIFT_LEFT", "AST_SHIFT_SRIGHT", "AST_SHIFT_RIGHT")
CASES = {"AST_COND": "case", "AST_CONDZ": "casez", "AST_CONDX": "casex"}
EDGES = {"AST_POSEDGE": "posedge", "AST_NEGEDGE": "negedge", "AST_EDGE": ""}

def command(file):
    return ["yosys", "-p", f"read_verilog -sv -dump_ast1 -no_dump_ptr {file}"]


def modules(said, _):
    """The tree of each module of a dump, by its name."""
    lines = re.findall(r"(?m)^    ( *)(AST_\w+|ATTR) (.*)$", said)
    root = nested((len(spaces), 1, word, rest) for spaces, word, rest in lines)
    return {text(it): module(it) for it in children(root) if it.word == "AST_MODULE"}


def text(node):
    """The name that a node has, without the mark of a name and the loop's number."""
    found = re.search(r" str='(.*?)'(?= |$)", node.rest)
    return re.sub(r"^(\$genfordecl\$\d+\$)?\\", "", found[1]) if found else None


def has(node, word):
    return re.search(rf" {word}( |$)", node.rest) is not None


def attributes(node):
    return [it.rest.rstrip(":") for it in children(node) if it.word == "ATTR"]


def parts(node):
    return [it for it in children(node) if it.word != "ATTR"]


def expressions(nodes):
    return tuple(map(expression, nodes))


def expression(node):
    """The expression that a node is."""
    given = parts(node)
    if node.word in UNARY and len(given) == 1:
        return ("unary", UNARY[node.word], expression(given[0]))
    if node.word in BINARY and len(given) == 2:
        if node.word in SHIFTS and given[1].word == "AST_TO_UNSIGNED":
            given = [given[0], *parts(given[1])]
        return ("binary", BINARY[node.word], *expressions(given))
    if node.word in FORMS:
        return FORMS[node.word](node, given)
    raise Unread(node.word + node.rest)


def constant(node, _):
    bits, unsized = re.search(r" bits='([^']*)'", node.rest)[1].replace("?", "z"), has(node, "unsized")
    return ("fill", bits) if unsized and len(bits) == 1 else ("number", has(node, "signed"), bits)


def identifier(node, given):
    """A name, with a select or several, each of one or two bounds."""
    found = ("name", text(node))
    for it in given:
        for bounds in children(it) if it.word == "AST_MULTIRANGE" else [it]:
            found = selected(found, parts(bounds))
    return found


def selected(subject, bounds):
    """One select; a part select's bounds are its start, kept as it is, and both ends computed from that."""
    if len(bounds) == 1:
        return ("index", subject, expression(bounds[0]))
    high, low = bounds
    if low.word == "AST_ADD" and parts(low)[0].word == "AST_SELFSZ":
        start = expression(parts(parts(low)[0])[0])
        total = parts(high)[0]
        return ("part", subject, start, expression(parts(total)[1]))
    return ("slice", subject, expression(high), expression(low))


def replicated(_, given):
    times, listed = given
    return ("replicate", expression(times), *expressions(parts(listed)[::-1]))


FORMS = {
    "AST_CONSTANT": constant,
    "AST_IDENTIFIER": identifier,
    "AST_TERNARY": lambda _, given: ("ternary", *expressions(given)),
    "AST_CONCAT": lambda _, given: ("concat", *expressions(given[::-1])),
    "AST_REPLICATE": replicated,
    "AST_FCALL": lambda node, given: ("call", text(node), *expressions(given)),
    "AST_CAST_SIZE": lambda _, given: ("cast", *expressions(given)),
    "AST_TO_SIGNED": lambda _, given: ("signed", *expressions(given)),
    "AST_TO_UNSIGNED": lambda _, given: ("unsigned", *expressions(given)),
}


def data_type(node):
    """The type of a wire or of a memory, whose last range is the array's."""
    ranges = [parts(it) for it in parts(node) if it.word == "AST_RANGE"]
    dimensions = tuple(expression(parts(it[0])[0]) for it in ranges[1:])
    return (has(node, "signed"), expression(ranges[0][0]) if ranges else None, dimensions)


def declared_word(node):
    return "logic" if has(node, "logic") else "reg" if has(node, "reg") else "wire"


def module(node):
    """The module with its ports, parameters and members."""
    parameters, ports, members = [], [], []
    for it in parts(node):
        if it.word == "AST_PARAMETER":
            parameters.append((text(it), expression(parts(it)[0])))
        elif it.word == "AST_WIRE" and (has(it, "input") or has(it, "output")):
            ports.append(("input" if has(it, "input") else "output", text(it), data_type(it)))
        elif it.word != "AST_GENVAR":
            members.append(member(it))
    return ("module", text(node), tuple(parameters), tuple(ports), tuple(members))


def member(node):
    """A member of a module or of a loop."""
    given = parts(node)
    if node.word in ("AST_WIRE", "AST_MEMORY"):
        return ("declare", declared_word(node), text(node), data_type(node))
    if node.word == "AST_LOCALPARAM":
        return ("localparam", text(node), data_type(node) if len(given) > 1 else None, expression(given[0]))
    if node.word == "AST_ASSIGN":
        return ("assign", *expressions(given))
    if node.word in MEMBERS:
        return MEMBERS[node.word](node, given)
    raise Unread(node.word + node.rest)


def always(node, given):
    """An always block; one without events waits for none."""
    word = next((it[1:] for it in attributes(node) if it in (r"\always_ff", r"\always_comb")), "always")
    events = tuple((EDGES[it.word], expression(parts(it)[0])) for it in given if it.word in EDGES)
    return ("always", word, events, statements(given[-1]))


def function(node, given):
    """A function: its result first, then its inputs, its own variables and its body."""
    wires, body = given[:-1], given[-1]
    named = [(declared_word(it), text(it), data_type(it)) for it in wires]
    inputs = tuple(it for it, wire in zip(named, wires) if has(wire, "input"))
    variables = tuple(it for it, wire in zip(named[1:], wires[1:]) if not has(wire, "input"))
    return ("function", text(node), named[0][2], inputs, variables, statements(body))


def loop(node, given):
    """A loop of generate, whose name stands in each part of its head."""
    start, end, step, block = given
    name, limits = counting(start, end, step)
    members = parts(block)
    if members[0].word != "AST_LOCALPARAM" or text(members[0]) != name[1]:
        raise Unread("a loop's head")
    return ("loop", name[1], *limits, text(block), tuple(map(member, members[1:])))


def counting(start, end, step):
    """A loop's name, as an expression, and its limits."""
    name = expression(parts(start)[0])
    counts = expression(parts(step)[1]) == ("binary", "+", name, integer(1)) and expression(parts(step)[0]) == name
    if not (counts and end.word == "AST_LT" and expression(parts(end)[0]) == name):
        raise Unread("a loop's head")
    return name, (expression(parts(start)[1]), expression(parts(end)[1]))


def generate_if(_, given):
    arms = [tuple(map(member, parts(it))) for it in given[1:]]
    return ("if", expression(given[0]), arms[0], arms[1] if len(arms) > 1 else None)


def instance(node, given):
    """An instance: the module's name, parameters, connections."""
    named = [(it.word, text(it), expression(parts(it)[0]) if parts(it) else None) for it in given[1:]]
    parameters = tuple(it[1:] for it in named if it[0] == "AST_PARASET")
    return ("instance", text(given[0]), text(node), parameters, tuple(it[1:] for it in named if it[0] == "AST_ARGUMENT"))


MEMBERS = {
    "AST_ALWAYS": always, "AST_FUNCTION": function, "AST_GENFOR": loop, "AST_GENIF": generate_if, "AST_CELL": instance,
}


def statements(node):
    """The statements of a block, and of the blocks in it."""
    found = []
    for it in parts(node):
        found += statements(it) if it.word == "AST_BLOCK" and not is_loop(it) else [statement(it)]
    return tuple(found)


def is_loop(node):
    """Whether the block is of a loop: it has its variable, and the loop."""
    return (text(node) or "").startswith("$fordecl_block")


def statement(node):
    if node.word in ("AST_ASSIGN_EQ", "AST_ASSIGN_LE"):
        return ("=" if node.word == "AST_ASSIGN_EQ" else "<=", *expressions(parts(node)))
    if node.word == "AST_CASE":
        given = parts(node)
        return conditional(given) if given[0].word == "AST_REDUCE_BOOL" else case(node, given)
    if node.word == "AST_BLOCK":
        start, end, step, block = parts(parts(node)[1])
        own, limits = counting(start, end, step)
        return ("for", own[1], *limits, statements(block))
    raise Unread(node.word + node.rest)


def conditional(given):
    arms = [statements(parts(it)[-1]) for it in given[1:]]
    return ("if", expression(parts(given[0])[0]), arms[0], arms[1] if len(arms) > 1 else None)


def case(node, given):
    arms = tuple((labelled(parts(it)[0]), statements(parts(it)[-1])) for it in given[1:])
    words = {CASES[it.word] for it in given[1:] if parts(it)[0].word != "AST_DEFAULT"}
    word = words.pop() if len(words) == 1 else "case" if not words else "several"
    return ("case", word, r"\full_case" in attributes(node), expression(given[0]), arms)


def labelled(node):
    return None if node.word == "AST_DEFAULT" else expression(node)

"""How Python is written: lines, statements and doc strings of at most `WIDTH` columns."""
import textwrap

WIDTH = 100


def wrapped(start, expression):
    """A statement; an f-string that is too long for its line is joined of parts."""
    line = start + expression
    if len(line) <= WIDTH:
        return line
    head, _, rest = expression.partition('f"')
    text, _, tail = rest.rpartition('"')
    indent = " " * (len(start) - len(start.lstrip()) + 4)
    rows = "\n".join(f'{indent}f"{part}"' for part in pieces(text, WIDTH - len(indent) - 3))
    if not head:
        head, tail = "(", ")"
    closing = " " * (len(start) - len(start.lstrip()))
    return f"{start}{head}\n{rows}\n{closing}{tail}"


def called(start, function, *arguments):
    """A statement that ends by a call; where it is too long for its line each argument has its own, or more."""
    line = f"{start}{function}({', '.join(arguments)})"
    if len(line) <= WIDTH:
        return line
    closing = " " * (len(start) - len(start.lstrip()))
    indent = closing + "    "
    rows = []
    for argument in arguments:
        parts = [argument]
        if len(indent) + len(argument) >= WIDTH and argument.startswith('f"'):
            parts = [f'f"{part}"' for part in pieces(argument[2:-1], WIDTH - len(indent) - 4)]
        rows.append("".join(f"\n{indent}{part}" for part in parts))
    return f"{start}{function}({','.join(rows)},\n{closing})"


def pieces(text, width):
    """Parts of the text of an f-string, cut before a space that stands between two arguments."""
    cuts, depth = [], 0
    for at, character in enumerate(text):
        depth += {"{": 1, "}": -1}.get(character, 0)
        if character == " " and depth == 0:
            cuts.append(at)
    found, start = [], 0
    for cut, after in zip(cuts, cuts[1:] + [len(text)]):
        if after - start > width and cut > start:
            found.append(text[start:cut])
            start = cut
    return found + [text[start:]]


def doc(text, indent):
    """A doc string of a first paragraph and, in the lines after it, others."""
    first, *others = [
        textwrap.wrap(line, WIDTH - len(indent) - 3, break_on_hyphens=False)
        for line in text.split("\n")
    ]
    if len(first) == 1 and not others:
        return f'{indent}"""{first[0]}"""'
    rows = [indent + row for row in first[1:]]
    rows += [""] if others else []
    rows += [indent + row for other in others for row in other]
    return "\n".join([f'{indent}"""{first[0]}', *rows, f'{indent}"""'])

"""How C is written: comments, and declarations of at most `WIDTH` columns."""
import re
import textwrap

WIDTH = 100


def snake(word):
    """A name in CamelCase as C writes names."""
    return re.sub(r"(?<=[a-z0-9])(?=[A-Z])", "_", word).lower()


def comment(text):
    """A comment of paragraphs, one a line of the text."""
    rows = [
        row
        for line in text.split("\n")
        for row in textwrap.wrap(line, WIDTH - 6, break_on_hyphens=False, break_long_words=False)
    ]
    return "/* " + "\n * ".join(rows) + " */"


def declaration(start, items, end, continued=""):
    """A start, items with commas between them, and an end; what is too long for a line goes on below the items."""
    rows, indent = [start], " " * len(start)
    *others, last = items.split(", ")
    for part in [f"{other}, " for other in others] + [last + end]:
        if len(rows[-1] + part.rstrip() + continued) > WIDTH and rows[-1].strip():
            rows[-1] = rows[-1].rstrip() + continued
            rows.append(indent)
        rows[-1] += part
    return "\n".join(rows)


def function(start, parameters, rows):
    """A function of such a start, which ends before its parameters, with these rows as its body."""
    body = "\n".join(f"    {row}" for row in rows)
    return f"{declaration(start + '(', ', '.join(parameters), ')')}\n{{\n{body}\n}}\n"

"""The table of forms by call: what a call prints, and which tools refuse it. `forms.list` has the forms."""
import re
import subprocess
import tempfile
from collections import namedtuple
from pathlib import Path

from replay import printed

HERE = Path(__file__).resolve().parent
Form = namedtuple("Form", "part call dialect says lines")

# What stands before the lines of each form, and so what they may name.
BEFORE = """m = AddModule "m"
bit = MakeScalarType
byte = MakeBitVectorType 8 false
one = MakeUnsizedDecimalLiteral 1
four = MakeUnsizedDecimalLiteral 4
W = AddParameterPort m "W" four
a = AddInput m "a" byte
b = AddInput m "b" byte
c = AddInput m "c" bit
y = AddOutput m "y" byte
w = AddWire m "w" byte
v = AddWire m "v" byte
r = AddReg m "r" byte
"""
BEHIND = {"e": ("y", "e"), "l": ("l", "a")}
# What a form names and a list doesn't declare stands before its text.
DECLARED = {
    r"p::(U|\*)": "package p; typedef logic [7:0] U; endpackage\n",
    r"\bT\b": "typedef logic [7:0] T;\n",
    r"`M1": "`define M1(x) x\n",
}
COMMANDS = {
    "yosys": {"systemverilog": ["yosys", "-q", "-p", "read_verilog -sv form.sv"],
              "verilog": ["yosys", "-q", "-p", "read_verilog form.v"]},
    "iverilog": {"systemverilog": ["iverilog", "-g2012", "-t", "null", "form.sv"],
                 "verilog": ["iverilog", "-g2005", "-t", "null", "form.v"]},
    "verilator": {"systemverilog": ["verilator", "--lint-only", "-Wno-fatal", "-Wno-lint", "-Wno-style", "form.sv"],
                  "verilog": ["verilator", "--lint-only", "-Wno-fatal", "-Wno-lint", "-Wno-style",
                              "--language", "1364-2005", "form.v"]},
}
# Of an error's words, which say that the text was not read.
SYNTAX = (r"syntax error|SystemVerilog mode|[Rr]equires SystemVerilog|only supported in System|irective|unterminated|"
          r"Unknown verilator|without matching|no matching|outside of macro")
NAMES = {"yosys": "Yosys", "iverilog": "Icarus", "verilator": "Verilator"}


def forms():
    """The forms of the file, in its order."""
    part = ""
    for block in re.split(r"(?m)^(?=== |## )", (HERE / "forms.list").read_text(encoding="utf-8")):
        if block.startswith("## "):
            part = block[3:].strip()
        elif block.startswith("== "):
            head, lines = block[3:].split("\n", 1)
            call, says = head.split(" | ")
            dialect = "verilog" if call.startswith("verilog ") else "systemverilog"
            yield Form(part, call.removeprefix("verilog "), dialect, says, lines.strip())


def listed(form):
    """The whole list of a form."""
    after = ""
    for name, (left, right) in BEHIND.items():
        if re.search(rf"(?m)^{name} = ", form.lines):
            after = f"\nlast = MakeContinuousAssignment {left} {right}\nAddMemberContinuousAssignment m last"
    return f"{form.dialect}\n{BEFORE}{form.lines}{after}"


def told(form, text, plain):
    """What the form prints: the lines that the module without it hasn't."""
    known = {it.rstrip(",") for it in plain.splitlines()}
    lines = [it.strip() for it in text.splitlines() if it.rstrip(",") not in known]
    whole = " ".join(lines).removesuffix(",")
    expression = re.fullmatch(r"assign y = (.*);", whole)
    return expression[1] if expression and re.search(r"(?m)^e = ", form.lines) else whole


def verdict(tool, form, text):
    """Nothing where the tool takes the text, or how it refuses it: when, and with its first words."""
    declared = "".join(it for pattern, it in DECLARED.items() if re.search(pattern, text))
    with tempfile.TemporaryDirectory() as room:
        Path(room, "form.v" if form.dialect == "verilog" else "form.sv").write_text(declared + text, encoding="utf-8")
        command = COMMANDS[tool][form.dialect]
        try:
            ran = subprocess.run(command, cwd=room, capture_output=True, text=True, errors="replace", timeout=60)
        except subprocess.TimeoutExpired:
            return "no end"
    if ran.returncode == 0:
        return ""
    errors = [it for it in (ran.stdout + ran.stderr).splitlines() if re.search(r"(?i)error|assert|abort", it)]
    first = errors[0] if errors else ""
    if ran.returncode < 0 or ran.returncode > 128 or re.search("assert|Internal Error", first):
        return "crash"
    return "syntax" if re.search(SYNTAX, first) else "elaboration"


def code(text):
    """A text in a cell of a table."""
    marks = "``" if "`" in text else "`"
    space = " " if "`" in text else ""
    short = text if len(text) < 100 else text[:60] + " .."
    return f"{marks}{space}{short}{space}{marks}".replace("|", "\\|")


def show_forms(tools):
    """Prints the table, with a head for each part."""
    found = list(forms())
    plains = {it: f"{it}\n{BEFORE}" for it in ("systemverilog", "verilog")}
    texts = printed([*plains.values(), *map(listed, found)])
    plains = dict(zip(plains, texts))
    part = ""
    for form, text in zip(found, texts[len(plains):]):
        if form.part != part:
            part = form.part
            print(f"\n### {part}\n\n| Call | Prints | IEEE 1800 | {' | '.join(NAMES[it] for it in tools)} |")
            print(f"|{'---|' * (3 + len(tools))}")
        cells = [verdict(tool, form, text) for tool in tools]
        print(f"| {form.call} | {code(told(form, text, plains[form.dialect]))} | {form.says} | {' | '.join(cells)} |")

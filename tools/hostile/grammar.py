"""Whether a text is a file of the grammar, by a reader of its own that shares nothing with the crates.

It answers for `vast_demo check`. Levels of signs matter to the tree alone, so an expression is read as operands with
signs between them. The head of a generate loop, which wants one name four times, is read where its condition begins
with that name: no text given here has another.
"""
import re

KEYWORDS = frozenset(
    """accept_on alias always always_comb always_ff always_latch and assert assign assume automatic before begin bind
    bins binsof bit break buf bufif0 bufif1 byte case casex casez cell chandle checker class clocking cmos config const
    constraint context continue cover covergroup coverpoint cross deassign default defparam design disable dist do edge
    else end endcase endchecker endclass endclocking endconfig endfunction endgenerate endgroup endinterface endmodule
    endpackage endprimitive endprogram endproperty endsequence endspecify endtable endtask enum event eventually expect
    export extends extern final first_match for force foreach forever fork forkjoin function generate genvar global
    highz0 highz1 if iff ifnone ignore_bins illegal_bins implements implies import incdir include initial inout input
    inside instance int integer interconnect interface intersect join join_any join_none large let liblist library local
    localparam logic longint macromodule matches medium modport module nand negedge nettype new nexttime nmos nor
    noshowcancelled not notif0 notif1 null or output package packed parameter pmos posedge primitive priority program
    property protected pull0 pull1 pulldown pullup pulsestyle_ondetect pulsestyle_onevent pure rand randc randcase
    randsequence rcmos real realtime ref reg reject_on release repeat restrict return rnmos rpmos rtran rtranif0
    rtranif1 s_always s_eventually s_nexttime s_until s_until_with scalared sequence shortint shortreal showcancelled
    signed small soft solve specify specparam static string strong strong0 strong1 struct super supply0 supply1
    sync_accept_on sync_reject_on table tagged task this throughout time timeprecision timeunit tran tranif0 tranif1 tri
    tri0 tri1 triand trior trireg type typedef union unique unique0 unsigned until until_with untyped use uwire var
    vectored virtual void wait wait_order wand weak weak0 weak1 while wildcard wire with within wor xnor xor""".split()
)
UNARY = ("-", "~", "!", "&", "|", "^")
BINARY = ("||", "&&", "|", "^", "&", "!=", "!==", "==", "===", ">=", ">", "<=", "<", "<<", ">>>", ">>", "+", "-", "*",
          "/", "%", "**")
TIGHTER = ("<<", ">>>", ">>", "+", "-", "*", "/", "%", "**")  # than `<`
SIGNS = sorted({*UNARY, *BINARY, *"= ? : :: +: , ; . # @ ( ) [ ] { }".split()}, key=len, reverse=True)
TOKEN = re.compile(
    r"(?P<space>[ \t\n\r]+|//[^\n]*)"
    r"|(?P<word>[A-Za-z_][A-Za-z0-9_$]*)"
    r"|(?P<system>\$[A-Za-z_][A-Za-z0-9_$]*)"
    r"|(?P<macro>`[A-Za-z_][A-Za-z0-9_$]*)"
    r"|(?P<literal>[0-9]*'s?[bdh][0-9a-f_?]+|'[01X])"
    r"|(?P<number>[0-9]+)"
    r'|(?P<string>"(?:[^"\\\n]|\\[^\n])*")'
    r"|(?P<tick>'(?=[({]))"
    r"|(?P<sign>" + "|".join(map(re.escape, SIGNS)) + ")"
)


class NoFile(Exception):
    """The text is no file of the grammar."""


def tokens(text):
    """The tokens of a text, each with its kind."""
    at, found = 0, []
    while at < len(text):
        token = TOKEN.match(text, at)
        if not token:
            raise NoFile
        kind = token.lastgroup
        if kind == "word":
            kind = "keyword" if token[0] in KEYWORDS else "name"
        if kind != "space":
            found.append((kind, token[0]))
        at = token.end()
    return found


class Reader:
    """Reads tokens from the left."""

    def __init__(self, found):
        self.found, self.at = found + [("end", "")] * 2, 0

    def sees(self, *texts):
        return self.found[self.at][1] in texts

    def sees_kind(self, *kinds):
        return self.found[self.at][0] in kinds

    def step(self):
        self.at += 1
        return True

    def take(self, *texts):
        return self.sees(*texts) and self.step()

    def take_kind(self, *kinds):
        return self.sees_kind(*kinds) and self.step()

    def need(self, *texts):
        for text in texts:
            if not self.take(text):
                raise NoFile

    def need_kind(self, *kinds):
        if not self.take_kind(*kinds):
            raise NoFile

    def joined(self, part, by=","):
        part()
        while self.take(by):
            part()

    def joined_until(self, part, end, by=","):
        if not self.take(end):
            self.joined(part, by)
            self.need(end)

    # Expressions

    def expression(self):
        self.unary()
        while self.take(*BINARY):
            self.unary()
        if self.take("?"):
            self.expression()
            self.need(":")
            self.expression()

    def unary(self):
        while self.take(*UNARY):
            pass
        self.postfix()

    def postfix(self):
        self.primary()
        while self.sees("[", "."):
            if self.take("."):
                self.need_kind("name")
                continue
            self.need("[")
            self.expression()
            if self.take("+:"):
                self.need_kind("number")
            elif self.take(":"):
                self.expression()
            self.need("]")

    def primary(self):
        if self.take_kind("literal", "string"):
            return
        if self.take_kind("name"):
            if self.take("("):
                self.joined_until(self.expression, ")")
            elif self.take("::"):
                self.need_kind("name")
                self.cast()
            else:
                self.maybe_cast()
        elif self.take_kind("number"):
            self.maybe_cast()
        elif self.take("("):
            self.expression()
            self.need(")")
            self.maybe_cast()
        elif self.take("logic", "signed", "unsigned", "integer", "int"):
            self.cast()
        elif self.take_kind("system") or self.take_kind("macro"):
            if self.take("("):
                self.joined_until(self.expression, ")")
        elif self.take("'"):
            self.need("{")
            self.joined_until(self.expression, "}")
        else:
            self.braces()

    def braces(self):
        self.need("{")
        if self.take("}"):
            return
        self.expression()
        if self.take("{"):
            self.joined_until(self.expression, "}")
        elif self.take(","):
            self.joined(self.expression)
        self.need("}")

    def maybe_cast(self):
        if self.sees("'"):
            self.cast()

    def cast(self):
        self.need("'", "(")
        self.expression()
        self.need(")")

    # Files

    def file(self):
        while not self.sees_kind("end"):
            if self.take("`include"):
                self.need_kind("string")
            elif self.take("import"):
                self.imported()
            elif self.take("typedef"):
                self.typed()
            else:
                self.module()

    def imported(self):
        self.need_kind("name")
        self.need("::", "*", ";")

    def typed(self):
        if self.take("enum"):
            if not self.take("reg", "wire", "logic", "integer", "int", "genvar"):
                raise NoFile
            self.sign_and_groups()
            self.need("{")
            self.joined_until(self.entry, "}")
            self.need_kind("name")
            self.groups()
        else:
            self.need("struct", "packed", "{")
            while not self.take("}"):
                self.declaration()
                self.need(";")
            self.need_kind("name")
        self.need(";")

    def entry(self):
        self.need_kind("name")
        if self.take("="):
            self.expression()

    def module(self):
        self.need("module")
        self.need_kind("name")
        if self.take("#"):
            self.need("(")
            self.joined(self.parameter)
            self.need(")")
        if self.take("("):
            self.joined(self.port)
            self.need(")")
        self.need(";")
        while not self.take("endmodule"):
            self.member()

    def parameter(self):
        self.need("parameter")
        self.valued()

    def valued(self):
        self.declaration()
        self.need("=")
        self.expression()

    def port(self):
        if not self.take("input", "output", "inout"):
            raise NoFile
        self.declaration()

    def declaration(self):
        self.take("reg", "wire", "logic", "integer", "int", "genvar")
        start = self.at
        if self.take_kind("name"):
            if self.take("::"):
                self.need_kind("name")
                start = self.at
            self.sign_and_groups()
            if not self.sees_kind("name"):
                self.at = start
        self.sign_and_groups()
        self.need_kind("name")
        self.groups()

    def sign_and_groups(self):
        self.take("signed", "unsigned")
        self.groups()

    def groups(self):
        while self.take("["):
            self.expression()
            if self.take(":"):
                self.expression()
            self.need("]")

    def member(self):
        if self.sees("wire", "reg", "logic"):
            self.declaration()
            self.need(";")
        elif self.take("parameter", "localparam"):
            self.valued()
            self.need(";")
        elif self.take_kind("macro"):
            if self.take("("):
                self.joined_until(self.expression, ")")
            self.take(";")
        elif self.take_kind("name"):
            self.named()
            self.need(";")
        elif self.take("always_comb", "always_latch", "initial"):
            self.block()
        elif self.sees("always_ff", "always"):
            self.awaited()
            self.block()
        elif self.take("function"):
            self.function()
        elif self.take("import"):
            self.imported()
        elif self.take("typedef"):
            self.typed()
        elif self.sees("assign", "if"):
            self.statement()
        elif self.take("for"):
            self.loop()
        else:
            raise NoFile

    def awaited(self):
        may_be_all = self.take("always")
        if not may_be_all:
            self.need("always_ff")
        self.need("@")
        if not (may_be_all and self.take("*")):
            self.need("(")
            self.joined_until(self.event, ")", "or")

    def loop(self):
        self.loop_head("genvar")
        if self.take(":"):
            self.need_kind("name")
        while not self.take("end"):
            self.member()

    def loop_head(self, word):
        self.need("(", word)
        name = self.found[self.at][1]
        self.need_kind("name")
        self.need("=")
        self.expression()
        self.need(";")
        self.bound(name)
        self.need(";", name, "=", name, "+", "1", ")", "begin")

    def bound(self, name):
        """The name below an expression; parentheses may stand around the name and around both."""
        opened = 0
        while self.take("("):
            opened += 1
        self.need(name)
        while opened and self.take(")"):
            opened -= 1
        self.need("<")
        self.unary()
        while self.take(*TIGHTER):
            self.unary()
        for _ in range(opened):
            self.need(")")

    def named(self):
        """What follows a name: a variable of that type, or an instance of that module."""
        if self.take("#"):
            self.need("(")
            self.joined(self.connection)
            self.need(")")
            self.need_kind("name")
            self.ports()
        elif self.sees("::", "["):
            if self.take("::"):
                self.need_kind("name")
            self.groups()
            self.need_kind("name")
            self.groups()
        else:
            self.need_kind("name")
            if self.sees("("):
                self.ports()
            else:
                self.groups()

    def ports(self):
        self.need("(")
        self.joined_until(self.open_connection, ")")

    def connection(self):
        self.need(".")
        self.need_kind("name")
        self.need("(")
        self.expression()
        self.need(")")

    def open_connection(self):
        self.need(".")
        self.need_kind("name")
        self.need("(")
        if not self.take(")"):
            self.expression()
            self.need(")")

    def event(self):
        if self.take("posedge", "negedge"):
            self.expression()
        else:
            self.need_kind("name")

    def function(self):
        self.need("automatic")
        self.declaration()
        self.need("(")
        self.joined_until(self.input, ")")
        self.need(";")
        while self.sees("reg", "logic"):
            self.declaration()
            self.need(";")
        if self.sees("begin"):
            self.block()
        else:
            self.case("casez")
        self.need("endfunction")

    def input(self):
        self.need("input")
        self.declaration()

    def block(self):
        self.need("begin")
        while not self.take("end"):
            self.statement()

    def statement(self):
        if self.take("assign"):
            self.postfix()
            self.need("=")
            self.expression()
            self.need(";")
        elif self.take("if"):
            self.choice()
        elif self.sees("unique", "case", "casez", "casex"):
            self.case("case", "casez", "casex")
        elif self.take("for"):
            self.loop_head("int")
            while not self.take("end"):
                self.statement()
        else:
            self.postfix()
            if not self.take(";"):
                self.assigned()

    def assignment(self):
        self.postfix()
        self.assigned()

    def assigned(self):
        if not self.take("=", "<="):
            raise NoFile
        self.expression()
        self.need(";")

    def choice(self):
        self.need("(")
        self.expression()
        self.need(")")
        self.block()
        if self.take("else"):
            if self.take("if"):
                self.choice()
            else:
                self.block()

    def case(self, *words):
        self.take("unique")
        is_casez = self.sees("casez")
        if not self.take(*words):
            raise NoFile
        self.need("(")
        self.expression()
        self.need(")")
        while not self.take("endcase"):
            if not self.take("default"):
                self.expression()
            self.need(":")
            if is_casez and not self.sees("begin"):
                self.assignment()
            else:
                self.block()


def is_file(given):
    """Whether bytes are the UTF-8 of a file of the grammar."""
    try:
        Reader(tokens(given.decode())).file()
    except (NoFile, UnicodeDecodeError):
        return False
    return True

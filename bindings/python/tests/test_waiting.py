"""What Python looks at itself, and which calls wait."""
import os
import subprocess
import sys

from sessions import FileTest, over_each
from vast import Condition, File, FileType, LiteralFormat, NoLibrary, Refused, VastFault
from vast.writing import is_small_literal

PACKAGE = os.path.dirname(os.path.dirname(os.path.abspath(__file__)))


class Kinds(FileTest):
    """What Python looks at itself."""

    @over_each()
    def test_kinds(self, file):
        module = file.add_module("m")
        a = module.wire("a", 8)
        for call, arguments in (
            (file.add_wire, (a, "b", 1)),
            (file.add_wire, (module, 1, 1)),
            (file.add_wire, (module, "b", a)),
            (file.add_wire, (module, "b", "8")),
            (file.add_wire, (module, "b", True)),
            (file.make_not, (module,)),
            (file.make_not, (None,)),
            (file.make_not, (1.0,)),
            (file.make_index, (a + a, 1)),
            (file.make_index, (a, a)),
            (file.make_index, (a, True)),
            (file.make_integer_type, (1,)),
            (file.make_concat, (a,)),
            (file.make_concat, ("ab",)),
            (file.add_registers, (a, None, [], a)),
            (file.make_function_call, ("f", [module])),
        ):
            self.assert_fault(TypeError, file, call, *arguments)

    @over_each()
    def test_ranges(self, file):
        module = file.add_module("m")
        a = module.wire("a", 8)
        for call, arguments in (
            (file.make_unsized_decimal_literal, (2**31,)),
            (file.make_unsized_decimal_literal, (-(2**31) - 1,)),
            (file.make_index, (a, 2**63)),
            (file.hoist_module_declarations, (module, -1)),
            (file.hoist_module_declarations, (module, 2**64)),
            (file.make_literal, ("bits[1]:0", "Decimal")),
            (file.make_string_literal, ("\ud800",)),
            (lambda: a + 2**31, ()),
        ):
            self.assert_fault(ValueError, file, call, *arguments)
        self.assert_expression(file.make_unsized_decimal_literal(-(2**31)), "-2147483648")

    def test_dialects(self):
        self.assertRaises(ValueError, File.listed, "vhdl")
        self.assertIs(File.listed("verilog").file_type, FileType.VERILOG)


class Refusing:
    """A session that is refused memory for the line of each number, once."""

    def __init__(self, session, *numbers):
        self.session = session
        self.numbers = set(numbers)
        self.sent = 0
        self.name = session.name

    def lines(self, lines):
        """Makes the lines before the one that is refused."""
        for taken, _ in enumerate(lines):
            if self.sent + taken in self.numbers:
                self.numbers.remove(self.sent + taken)
                made, fault = self.session.lines(lines[:taken]) if taken else (0, None)
                self.sent += made
                return made, fault or MemoryError("out of memory")
        made, fault = self.session.lines(lines)
        self.sent += made
        return made, fault

    def __getattr__(self, name):
        return getattr(self.session, name)


class Waiting(FileTest):
    """Which calls wait, and what their faults leave."""

    TEXT = ("module m;", "  reg [7:0] a;", "  assign a = (a + 1) * 2;", "endmodule")

    def build(self, file, again):
        """A module, each call of which is made again where it is refused memory."""
        module = again(file.add_module, "m")
        byte = again(file.make_bit_vector_type, 8)
        a = again(file.add_reg, module, "a", byte)
        two = again(file.make_unsized_decimal_literal, 2)
        one = again(file.make_unsized_decimal_literal, 1)
        product = again(file.make_mul, again(file.make_add, a, one), two)
        assignment = again(file.make_continuous_assignment, a, product)
        again(file.add_member_continuous_assignment, module, assignment)

    @over_each()
    def test_memory(self, file):
        """A call that is refused memory may be made again, wherever it is refused."""

        def again(call, *arguments):
            try:
                return call(*arguments)
            except MemoryError:
                return call(*arguments)

        for number in range(9):
            session = file._session.__class__(file._session.name, file.file_type.value)
            with File(file.file_type, session=Refusing(session, number)) as refused:
                self.build(refused, again)
                self.assertEqual(again(refused.emit), "".join(line + "\n" for line in self.TEXT))

    @over_each()
    def test_what_is_certain_waits(self, file):
        """Names that are new, and numbers that are fine, wait; a name that was entered is sent at once."""
        sent = []
        lines = file._session.lines
        file._session.lines = lambda given: sent.append(len(given)) or lines(given)
        module, other = file.module("m"), file.module("n")
        a = module.reg("a", 8)
        other.wire("a", 1, a[3])
        module.assign(a, a[7:4] + file.bits(4, 15))
        file.call("f", a.part(a, 2))
        self.assertEqual(sent, [])
        self.assertRaises(Refused, module.reg, "a")
        self.assertRaises(Condition, module.wire, "a")
        self.assertEqual(len(sent), 2)
        function = module.function("f", 1)
        function.input("a")
        for method in (module.reg, function.reg):
            self.assertRaises(Refused, method, "f")
        self.assertRaises(Refused, function.logic, "a")
        self.assertRaises(Condition, a.__getitem__, -1)

    @over_each()
    def test_literals_that_wait(self, file):
        """Literals that wait are taken in each format."""
        for form in LiteralFormat:
            for text in ("bits[1]:0", "bits[1]:1", "bits[8]:255", "bits[30]:1073741823"):
                self.assertTrue(is_small_literal(text))
                self.assertTrue(file.make_literal(text, form).emit_expression())
            for text in ("bits[0]:0", "bits[1]:2", "bits[8]:256", "bits[8]:", "bits[8]", "bits[08]:1", "bits[8]:1\n"):
                self.assertFalse(is_small_literal(text))

    @over_each()
    def test_many_wait(self, file):
        module = file.add_module("m")
        a = module.wire("a", 8)
        total = a
        for _ in range(3000):
            total = total + a
        self.assertEqual(total.emit_expression(), " + ".join(["a"] * 3001))

    @over_each()
    def test_without_strict(self, file):
        """Faults come with the call that sends them, and each later call tells them again."""
        session = file._session.__class__(file._session.name, file.file_type.value)
        with File(file.file_type, strict=False, session=session) as later:
            self.build(later, lambda call, *arguments: call(*arguments))
            self.assert_file(later, *self.TEXT)
            module = later.add_module("n")
            later.add_wire(module, "w", 1)
            later.add_wire(module, "w", 1)
            later.add_wire(module, "x", 1)
            for _ in range(2):
                self.assertRaises(Condition, later.emit)
            self.assertRaises(VastFault, later.flush)

    @over_each()
    def test_interrupted(self, file):
        """A file whose call was interrupted doesn't go on."""

        def interrupted(_):
            raise KeyboardInterrupt

        module = file.add_module("m")
        module.wire("a")
        file._session.lines = interrupted
        self.assertRaises(KeyboardInterrupt, module.wire, "a")
        del file._session.lines
        self.assertRaises(VastFault, module.wire, "a")
        self.assertRaises(VastFault, file.emit)

    @over_each()
    def test_refused_calls_are_not_counted(self, file):
        module = file.add_module("m")
        self.assertRaises(Refused, file.make_literal, "8", "Hex")
        self.assertEqual(file.add_wire(module, "a", file.make_scalar_type()).number, 2)

    @over_each()
    def test_places(self, file):
        """Faults name the line of Python that made the call."""
        session = file._session.__class__(file._session.name, file.file_type.value)
        with File(file.file_type, places=True, session=session) as placed:
            module = placed.add_module("m")
            s = module.reg("s")
            with self.assertRaises(Refused) as raised:
                module.reg("s")
            self.assertEqual(raised.exception.place, self.line(-1))
            self.assertEqual(s.name(), "s")
            wrong = s[1]
            here = self.line(-1)
            placed.emit()
            module.assign(s, wrong)
            with self.assertRaises(Refused) as raised:
                placed.emit()
            # A process tells the line of its question alone.
            if session.name == "library":
                self.assertEqual(raised.exception.place, here)
                self.assertEqual(str(raised.exception), f"{here}: {raised.exception.words}")

    @staticmethod
    def line(behind):
        """The place of a line before that of the call."""
        frame = sys._getframe(1)
        return f"{frame.f_code.co_filename}:{frame.f_lineno + behind}"

    @over_each()
    def test_closed(self, file):
        file.emit()
        file.close()
        with self.assertRaises(ValueError):
            file.emit()
        file.close()

    def test_lists(self):
        """A file that is only a list."""
        file = File.listed("verilog")
        module = file.module('a"b')
        module.wire("w", 8)
        self.assertRaises(NoLibrary, module.name)
        self.assertEqual(
            file.emit(),
            'verilog\nAddModule "a\\"b"\nMakeBitVectorType 8 false\nAddWire 0 "w" 1\n',
        )

    def test_nothing_found(self):
        """Without library and program a file says how they are built."""
        places = dict(os.environ, VAST_LIBRARY="/nowhere", VAST_REPLAY="/nowhere", PYTHONPATH=PACKAGE)
        code = "import vast\ntry: vast.File()\nexcept vast.NoLibrary as fault: print(fault)"
        said = subprocess.run([sys.executable, "-c", code], env=places, capture_output=True, text=True, check=True)
        self.assertIn("README.md", said.stdout)



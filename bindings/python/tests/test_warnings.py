"""What a file with `lint=True` tells of its calls."""
import json
import os
import re
import subprocess
import unittest

from sessions import SESSIONS, FileTest, over_each
from vast import File, NoLibrary, Refused
from vast.session import found_library, found_program
from vast.warning import listed_warning

ROOT = os.path.dirname(os.path.dirname(os.path.dirname(os.path.dirname(os.path.abspath(__file__)))))
SELECT = ("a select of a computed value is no SystemVerilog", "Icarus, Verilator, Yosys refuse it")
NO_ARMS = ("a case without arms is no SystemVerilog", "Icarus refuses it")


class Warnings(FileTest):
    """The warnings of files."""

    def assert_told(self, file, *told):
        """Line, call, text, reason and tools of each warning."""
        self.assertEqual([warned[:5] for warned in file.warnings()], list(told))

    @over_each("systemverilog", lint=True)
    def test_a_call_that_tools_refuse(self, file):
        module = file.add_module("m")
        a = file.add_wire(module, "a", file.make_bit_vector_type(8, False))
        file.make_index(a, 1)
        self.assert_told(file)
        subject = file.make_indexable_expression(file.make_add(a, a))
        with self.assertRaises(Refused):
            file.add_reg(module, "a", 8)
        self.assertEqual(file.module_name(module), "m")
        file.make_index(subject, 1)
        # Eight lines were made before: the type of `add_reg` is one, and the question is.
        self.assert_told(file, (8, "MakeIndex", "(a + a)[1]", *SELECT))
        self.assert_told(file, (8, "MakeIndex", "(a + a)[1]", *SELECT))
        told = f'MakeIndex: prints "(a + a)[1]": {SELECT[0]} ({SELECT[1]})'
        self.assertEqual(str(file.warnings()[0]), told)

    @over_each("systemverilog", lint=True)
    def test_what_the_end_tells(self, file):
        module = file.add_module("m")
        a = file.add_wire(module, "a", file.make_scalar_type())
        block = file.statement_block(file.add_always_comb(module))
        case = file.block_add_case(block, a)
        self.assert_told(file, (5, "BlockAddCase", None, *NO_ARMS))
        file.emit()
        file.add_wire(module, "wire", file.make_scalar_type())
        keyword = ("a name that is a keyword is no SystemVerilog", "Icarus, Verilator refuse it")
        self.assert_told(file, (7, "AddWire", None, *keyword), (5, "BlockAddCase", None, *NO_ARMS))
        file.case_add_default(case)
        self.assert_told(file, (7, "AddWire", None, *keyword))

    @over_each("verilog", lint=True)
    def test_many(self, file):
        module = file.add_module("m")
        for number in range(100):
            file.add_logic(module, f"w{number}", 1)
        told = file.warnings()
        logic = ("AddLogic", None, "`logic` is no Verilog", "Verilator, Yosys refuse it")
        self.assertEqual({warned[1:5] for warned in told}, {logic})
        # The module, and the type that the first wire makes.
        self.assertEqual([warned.line for warned in told], list(range(2, 102)))

    @over_each("systemverilog", lint=True)
    def test_texts(self, file):
        """A text with the signs that stand around texts, and with control characters."""
        a = file.add_module("m").wire("a", 8)
        string = file.make_string_literal('": b (c)\t\u00e9\U0001f600')
        printed = file.emit_expression(string)
        (warned,) = file.warnings()
        self.assertEqual(warned.why, "a string that is not ASCII is no SystemVerilog")
        self.assertEqual(warned.text, printed.replace("\t", "\\u0009"))
        self.assertEqual(a.file, file)

    @over_each("systemverilog", lint=True, places=True)
    def test_places(self, file):
        module = file.add_module("m")
        module.name()
        file.emit()
        file.add_wire(module, "wire", 1)
        line = int(re.search(r"test_warnings.py:(\d+)$", file.warnings()[0].place)[1])
        with open(__file__, encoding="utf-8") as source:
            self.assertIn('file.add_wire(module, "wire", 1)', source.read().split("\n")[line - 1])

    @over_each()
    def test_without_a_lint(self, file):
        with self.assertRaises(ValueError):
            file.warnings()

    @over_each(lint=True)
    def test_closed(self, file):
        file.close()
        with self.assertRaises(ValueError):
            file.warnings()

    def test_found_session(self):
        with File("verilog", lint=True) as file:
            file.add_module("wire")
            self.assertEqual([warned.call for warned in file.warnings()], ["AddModule"])
        with self.assertRaises(NoLibrary):
            File.listed().warnings()


def rows():
    """Each dialect and list of the rules' rows (`tools/lint/rows.list`)."""
    with open(f"{ROOT}/tools/lint/rows.list", encoding="utf-8") as table:
        blocks = re.split(r"(?m)^== ", table.read())[1:]
    with open(f"{ROOT}/tools/peers/forms.py", encoding="utf-8") as forms:
        before = re.search(r'(?s)BEFORE = """\\?\n?(.*?)"""', forms.read())[1]
    for block in blocks:
        head, lines = block.split("\n", 1)
        dialect = "verilog" if head.startswith("verilog") else "systemverilog"
        for part in lines.split("--\n"):
            yield dialect, (before + part).strip("\n").split("\n")


@unittest.skipUnless(found_program(), "the program is not there")
class Rules(unittest.TestCase):
    """Each rule, over each session, as `vast_replay --json --lint` tells it."""

    def test_rows(self):
        table = list(rows())
        lists = "".join("\n".join(["== row", dialect, *lines, ""]) for dialect, lines in table)
        words = [found_program(), "--json", "--lint"]
        ran = subprocess.run(words, input=lists.encode(), stdout=subprocess.PIPE, check=False)
        said = [json.loads(line) for line in ran.stdout.splitlines()]
        self.assertEqual(len(said), len(table))
        for (dialect, lines), one in zip(table, said):
            # The header and the dialect stand before the first line.
            wanted = [listed_warning(each, each["line"] - one["line"] - 2) for each in one["warnings"]]
            for name, opened in SESSIONS.items():
                with self.subTest(session=name, lines=lines):
                    session = opened(dialect, lint=True)
                    made, fault = session.lines(lines)
                    self.assertEqual((made, fault), (len(lines), None))
                    self.assertEqual(session.warnings(), wanted)
                    session.close()

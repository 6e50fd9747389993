"""Files that are saved whole or not at all, and what handles show."""
import os
import stat
import tempfile
from unittest import mock

from sessions import FileTest, over_each
from vast import File, Refused
from vast.saving import save_whole


class Saving(FileTest):
    """`File.save`."""

    def setUp(self):
        folder = tempfile.TemporaryDirectory()
        self.addCleanup(folder.cleanup)
        self.folder = folder.name
        self.path = os.path.join(self.folder, "m.sv")

    def assert_saved(self, text):
        """The file has this text, and stands alone in its folder."""
        with open(self.path, "rb") as file:
            self.assertEqual(file.read(), text.encode())
        self.assertEqual(os.listdir(self.folder), ["m.sv"])

    @over_each()
    def test_text(self, file):
        module = file.add_module("m")
        module.add_member_comment(file.make_comment("ä"))
        file.save(self.path)
        self.assert_saved(file.emit())

    @over_each()
    def test_refused_text(self, file):
        save_whole(self.path, "old\n")
        module = file.add_module("m")
        scalar = module.wire("s")
        module.assign(scalar, scalar[1])
        self.assertRaises(Refused, file.save, self.path)
        self.assert_saved("old\n")

    def test_each_step_fails(self):
        save_whole(self.path, "old\n")
        for step in ("fsync", "replace"):
            with mock.patch(f"vast.saving.os.{step}", side_effect=OSError("no room")):
                self.assertRaises(OSError, save_whole, self.path, "new\n")
            self.assert_saved("old\n")
        with mock.patch("vast.saving.os.fsync", side_effect=KeyboardInterrupt):
            self.assertRaises(KeyboardInterrupt, save_whole, self.path, "new\n")
        self.assertRaises(UnicodeEncodeError, save_whole, self.path, "\ud800")
        self.assert_saved("old\n")

    def test_mode_and_line_ends(self):
        save_whole(self.path, "old\n")
        os.chmod(self.path, 0o640)
        save_whole(self.path, "a\r\nb\n")
        self.assert_saved("a\r\nb\n")
        self.assertEqual(stat.S_IMODE(os.stat(self.path).st_mode), 0o640)

    def test_links_and_no_files(self):
        save_whole(self.path, "old\n")
        with tempfile.TemporaryDirectory() as other:
            link = os.path.join(other, "link")
            os.symlink(self.path, link)
            save_whole(link, "new\n")
            self.assertTrue(os.path.islink(link))
        self.assert_saved("new\n")
        self.assertRaises(OSError, save_whole, self.folder, "new\n")
        self.assertRaises(OSError, save_whole, os.path.join(self.folder, "none", "m.sv"), "new\n")
        self.assertRaises(OSError, save_whole, os.devnull, "new\n")


class Shown(FileTest):
    """`str` and `repr` of handles."""

    @over_each()
    def test_texts_and_names(self, file):
        module = file.add_module("top")
        a = module.wire("a", 8)
        self.assertEqual((str(module), repr(module)), ("top", "<Module top>"))
        self.assertEqual((str(a), repr(a)), ("a", "<LogicRef a>"))
        self.assertEqual((f"{a + 1}", repr(a[7:4])), ("a + 1", "<Slice a[7:4]>"))
        self.assertEqual(repr(module.function("f", 1)), "<Function f>")
        self.assertEqual(repr(file.make_blank_line()), f"<BlankLine {file.make_blank_line().number - 1}>")
        total = a
        for _ in range(100):
            total = total + a
        self.assertEqual(repr(total), f"<Expr {' + '.join('a' * 15)} + ..>")
        self.assertEqual(len(str(total)), 401)

    @over_each()
    def test_what_has_no_text(self, file):
        scalar = file.add_module("m").wire("s")
        wrong = scalar[1]
        self.assertEqual(str(wrong), f"<Index {wrong.number}>")
        file.close()
        self.assertEqual(repr(scalar), f"<LogicRef {scalar.number}>")

    def test_lists(self):
        file = File.listed()
        a = file.module("m").wire("a")
        self.assertEqual((str(a), repr(a)), ("<LogicRef 2>", "<LogicRef 2>"))
        self.assertEqual(file.emit(), 'systemverilog\nAddModule "m"\nMakeBitVectorType 1 false\nAddWire 0 "a" 1\n')

"""The commands for files."""
import os
import unittest
from typing import List

from apl import Value
from apl.commands import SEEN, Commands, Library, NotDone, workspaces
from tests.support import OfSession

WHEN = r"\d{4}-\d\d-\d\d \d\d:\d\d"
SAVED = r"\d+ bytes, saved \d{4}-\d\d-\d\d \d\d:\d\d:\d\d"


class Lines(unittest.TestCase):
    def test_commands(self) -> None:
        commands = Commands({")SAVE": lambda rest: [rest], ")OFF": lambda rest: None if rest else []})
        for line, told in [
            (")SAVE", [""]), ("  )save  Ledger ", ["Ledger"]), (")Save A  B", ["A  B"]), (")OFF", []), (")OFF 1", None), ("", None), ("2+2", None),
            (")SI", None), (")SAVED", None), (") SAVE", None), ("⍝ )SAVE", None), (")SAVE\0", None), ("\t)SAVE", None),
        ]:
            self.assertEqual(commands.do(line), told, line)


class Files(OfSession):
    def setUp(self) -> None:
        super().setUp()
        self.library = Library(self.session, self.folder)

    def done(self, line: str) -> List[str]:
        """Does a command."""
        found = self.library.do(line)
        assert found is not None, line
        return found

    def not_done(self, line: str) -> str:
        """Returns why a command isn't done, and that leaves the workspace as it is."""
        before = self.session.workspace(), self.library.name, self.library.known
        with self.assertRaises(NotDone) as caught:
            self.library.do(line)
        self.assertEqual((self.session.workspace(), self.library.name, self.library.known), before)
        return str(caught.exception)

    def value(self, name: str) -> Value:
        """Returns the value of A in the workspace of a file."""
        return self.begun(self.folder / name).value("A")

    def test_what_is_for_the_machine(self) -> None:
        for line in [")CLEAR", ")LOAD", ")LIB A", ")SAVE A B", ")SAVE ../A", ")SAVE a/b", ")LOAD .hidden", ")SAVE ..", ")SAVE A\0"]:
            self.assertIsNone(self.library.do(line), line)
        self.assertEqual(os.listdir(self.folder), [])

    def test_saved_and_loaded(self) -> None:
        self.typed("A←2 3⍴⍳6", "∇Z←F X", "Z←1÷X", "∇", "10+F 0")
        self.assertRegex(self.done(")SAVE ledger")[0], rf"^ledger saved {WHEN}:\d\d: \d+ bytes$")
        self.assertEqual((self.done(")WSID"), os.listdir(self.folder)), (["ledger"], ["ledger"]))
        self.assertIsNone(self.library.do(")CLEAR"))
        self.typed(")CLEAR")
        self.assertEqual(self.done(")WSID"), ["CLEAR WS"])
        self.assertRegex(self.done(")load ledger")[0], f"^ledger: {SAVED}$")
        self.assertEqual((self.session.value("A"), self.typed("→1")), ([[1, 2, 3], [4, 5, 6]], "DOMAIN ERROR\nF[1] Z←1÷X\n        ^\n"))
        self.assertEqual(self.done(")WSID"), ["ledger"])

    def test_only_its_own_file_is_replaced(self) -> None:
        self.assertEqual(self.not_done(")SAVE"), "this workspace has no name yet: )SAVE NAME gives it one")
        self.typed("A←0")
        self.done(")SAVE ONE")
        self.typed("A←1")
        self.done(")SAVE TWO")
        self.assertEqual(self.not_done(")SAVE ONE"), "not saved: ONE is there already. )WSID ONE and then )SAVE write over it")
        self.assertEqual(self.done(")WSID ONE"), ["ONE, which is there: )SAVE writes over it"])
        self.typed("A←2")
        self.done(")SAVE")
        self.done(")SAVE ONE")
        self.assertEqual((self.value("ONE"), self.value("TWO")), (2, 1))
        self.assertEqual(self.done(")WSID THREE"), ["THREE, not saved yet"])
        self.done(")SAVE")
        self.assertEqual(self.value("THREE"), 2)

    def test_changed_by_another(self) -> None:
        self.typed("A←1")
        self.done(")SAVE ONE")
        self.done(")WSID TWO")
        for name in ("ONE", "TWO"):
            other = self.begun(self.folder / "ONE")
            other.run("A←5")
            other.save(self.folder / name)
        self.assertEqual(self.not_done(")SAVE"), "not saved: another program has changed the file")
        self.done(")WSID ONE")
        self.typed("A←2")
        self.done(")SAVE")
        self.assertEqual((self.value("ONE"), self.value("TWO")), (2, 5))
        (self.folder / "ONE").unlink()
        self.done(")SAVE")
        self.assertEqual(self.value("ONE"), 2)

    def test_what_cant_be_loaded(self) -> None:
        (self.folder / "NOTES").write_text('{"name":1}')
        (self.folder / "HALF").write_bytes(self.session.workspace()[:-1])
        (self.folder / "FOLDER").mkdir()
        self.typed("A←1")
        self.assertEqual(self.not_done(")LOAD NONE"), "there is no NONE: )LIB lists the workspaces of this folder")
        self.assertEqual(self.not_done(")LOAD NOTES"), "NOTES is no workspace: it is JSON of another form (rule 2 of docs/WORKSPACE.md)")
        self.assertEqual(self.not_done(")LOAD HALF"), "HALF is no workspace: it is no JSON (rule 1 of docs/WORKSPACE.md)")
        self.assertEqual(self.not_done(")LOAD FOLDER"), "FOLDER is a folder, no workspace")
        self.assertEqual(self.not_done(")WSID FOLDER"), "FOLDER is a folder, no workspace")
        self.assertEqual(self.not_done(")SAVE FOLDER"), "not saved: FOLDER is a folder")

    def test_where_nothing_can_be_saved(self) -> None:
        self.library.folder = str(self.folder / "NONE")
        self.assertEqual(self.not_done(")SAVE A"), "not saved: No such file or directory")
        self.assertEqual(self.not_done(")LIB"), f"{self.folder / 'NONE'}: No such file or directory")
        self.library.folder = str(self.folder)
        self.assertEqual(self.not_done(f")SAVE {'A' * 300}"), "not saved: File name too long")

    def test_listed(self) -> None:
        self.assertEqual(self.done(")LIB"), ["no workspaces here"])
        clear = self.session.workspace()
        for name in ("B", "A", "B.json", ".D", "WITH BLANK"):
            (self.folder / name).write_bytes(clear)
        (self.folder / "KEYS").write_text(' {\n "version" : 2, "io": 1}')
        (self.folder / "NOTES").write_text('{"cells":[]}')
        (self.folder / "FOLDER").mkdir()
        self.assertEqual(workspaces(self.folder), ["A", "B", "B.json", "KEYS"])
        rows = rf"^A       64 bytes  {WHEN}\nB       64 bytes  {WHEN}\nB.json  64 bytes  {WHEN}\nKEYS    27 bytes  {WHEN}$"
        self.assertRegex("\n".join(self.done(")LIB")), rows)

    def test_links(self) -> None:
        (self.folder / "far").mkdir()
        (self.folder / "LINK").symlink_to(self.folder / "far" / "REAL")
        self.typed("A←1")
        self.done(")SAVE LINK")
        self.assertEqual((self.value("far/REAL"), (self.folder / "LINK").is_symlink()), (1, True))


if __name__ == "__main__":
    unittest.main()

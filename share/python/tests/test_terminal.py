"""The terminal's own commands, what Tab completes, the editor, the keys and the reference."""
import json
import os
import re
import shutil
import stat
from pathlib import Path
from typing import List, Tuple
from unittest import mock

from apl import Line
from apl.commands import SEEN, NotDone, workspaces
from apl_terminal import keys, library, places, reference
from apl_terminal.commands import HELP, Commands
from apl_terminal.complete import completions
from apl_terminal.edit import fault_of
from apl_terminal.telling import laid, wrapped
from apl_terminal.work import Work
from tests.front_end import OfTerminal
from tests.support import PROGRAM, TOP

MANUAL = TOP / "docs/REFERENCE.md"


class OfCommands(OfTerminal):
    def setUp(self) -> None:
        super().setUp()
        self.at: Work = self.work()
        self.commands = Commands(self.at, MANUAL, keys.read(TOP / "share/keys.txt"))

    def told(self, *lines: str) -> str:
        """Types lines and commands, and returns what the terminal tells of the last one."""
        for line in lines:
            self.said(self.at).told.clear()
            if not self.commands.is_done(line):
                self.at.type(line)
        return "\n".join(self.said(self.at).told)


class OwnCommands(OfCommands):
    def test_which_are(self) -> None:
        for line in (")OFF", " )off ", ")HELP ⍴", ")WSID", ")LIB /none"):
            self.assertTrue(self.commands.is_done(line), line)
        for line in (")FNS", ")SI", ")CLEAR", "2+3", ")SAVES", "A)SAVE", ") SAVE", ")SAVE'X'", "'", ""):
            self.assertFalse(self.commands.is_done(line), line)
        self.assertTrue(self.commands.is_over)

    def test_names(self) -> None:
        self.assertEqual(self.told(")WSID"), "CLEAR WS")
        self.assertIn("ledger saved", self.told(")SAVE ledger"))
        self.assertEqual(self.told(")WSID"), f"ledger  {self.folder}/ledger")
        self.assertIn("other, not saved yet", self.told(")WSID other"))
        self.assertIn("other saved", self.told(")SAVE"))
        self.assertIn("ledger, which is there", self.told(")WSID ledger"))
        self.assertEqual(self.told(")WSID ledger"), "ledger")

    def test_loading(self) -> None:
        self.told("A←1", ")SAVE ledger", "A←2")
        self.assertIn("there is no none", self.told(")LOAD none"))
        self.assertIn("of which file?", self.told(")LOAD"))
        Path("wrong").write_text("{}")
        self.assertIn("wrong is no workspace: it is JSON of another form (rule 2 of docs/WORKSPACE.md)", self.told(")LOAD wrong"))
        self.assertEqual((self.at.session.value("A"), self.told(")WSID").split()[0]), (2, "ledger"))
        self.told(")SAVE", ")SAVE second", "A←3", ")LOAD ledger")
        self.assertEqual((self.at.session.value("A"), self.said(self.at).asked), (2, []))
        self.told(")LOAD second")
        self.assertEqual((self.at.session.value("A"), len(self.said(self.at).asked)), (3, 1))

    def test_loading_what_another_terminal_has(self) -> None:
        self.work("ledger").save()
        self.assertEqual(self.told("A←1", ")LOAD ledger"), "ledger is open in another terminal")
        self.assertEqual(self.at.session.value("A"), 1)
        self.assertEqual(self.told("B←1", ")SAVE"), "this workspace has no name yet: )SAVE NAME gives it one")

    def test_clearing_what_has_a_name(self) -> None:
        self.told("A←1", ")SAVE ledger", "A←2")
        self.assertIn("1 line since ledger was saved: not saved, but kept", self.told(")CLEAR"))
        self.assertEqual((self.told(")WSID"), self.at.session.names()), ("CLEAR WS", []))
        self.told("B←1", ")LOAD ledger")
        self.assertEqual(self.at.session.value("A"), 2)

    def test_copying(self) -> None:
        self.told("A←1", "V←⍳3", "∇Z←MEAN X", "Z←(+/X)÷⍴X", "∇", "1 ⎕STOP 'MEAN'", ")SAVE other", ")CLEAR", "V←9", "MEAN←5")
        self.assertEqual(self.told(")COPY other MEAN A NONE A"), "copied: MEAN A\nnot there: NONE")
        self.assertEqual(self.typed(self.at, "MEAN 2 4", "V"), ["MEAN[1]", "9"])
        self.assertEqual(self.told(")COPY other"), "copied: A MEAN V")
        self.assertEqual((self.at.session.value("V"), len(self.at.session.indicator())), ([1, 2, 3], 1))
        state = self.at.session.workspace()
        for line in (")COPY", ")COPY none", ")COPY . A"):
            self.told(line)
        Path("wrong").write_text(json.dumps({"functions": [], "variables": [{"name": "Q", "value": 5}]}))
        self.assertEqual(self.told(")COPY wrong"), "not copied: wrong is no workspace: it is JSON of another form (rule 2 of docs/WORKSPACE.md)")
        Path("wrong").write_text("text")
        self.assertEqual(self.told(")COPY wrong"), "not copied: wrong is no workspace")
        self.assertEqual(self.at.session.workspace(), state)
        self.killed(self.at)
        self.assertEqual(self.work().session.workspace(), state)

    def test_within_a_definition(self) -> None:
        self.told(")SAVE ledger", "∇F", "1")
        for line in (")COPY ledger", ")EDIT F", ")WSID other"):
            self.assertEqual(self.told(line), "a definition is open: ∇ closes it")
        self.assertIn("without the definition", self.told(")SAVE"))
        self.told("∇")
        self.assertEqual(self.at.session.listing("F"), ["F", "1"])

    def test_lists(self) -> None:
        self.assertEqual(self.told(")LIB"), "no workspaces here")
        self.told(")SAVE b", "A←1", ")SAVE aa")
        Path("text").write_text("text")
        os.mkfifo("pipe")
        rows = [it.split() for it in self.told(")LIB").splitlines()]
        self.assertEqual([it[:3] for it in rows], [["aa", "108", "bytes"], ["b", "64", "bytes"]])
        self.assertIn("No such file", self.told(")LIB none"))

    def test_what_is_no_file(self) -> None:
        Path("books").mkdir()
        os.mkfifo("pipe")
        self.assertEqual(self.told(")SAVE books"), "not saved: books is a folder")
        for line in (")LOAD books", ")WSID books", ")COPY books A"):
            self.assertEqual(self.told(line), "books is a folder, no workspace")
        self.assertEqual(self.told(")LOAD pipe"), "pipe is no regular file, no workspace")

    def test_a_folder_that_is_gone(self) -> None:
        Path("gone").mkdir()
        os.chdir("gone")
        self.told("A←1", ")SAVE ledger", "A←2")
        shutil.rmtree(self.folder / "gone")
        self.assertEqual(self.told(")WSID"), f"{self.folder}/gone/ledger  {self.folder}/gone/ledger")
        self.assertIn("not saved: No such file or directory; )SAVE NAME saves in another file", self.told(")SAVE"))
        for line in (")LIB", ")SAVE other", ")LOAD other", ")COPY other", ")WSID other"):
            self.assertIn("is gone: name a file by its whole path", self.told(line))
        self.assertIn("saved", self.told(f")SAVE {self.folder}/ledger"))
        self.at.close()
        os.chdir(self.folder)
        self.assertEqual(self.work("ledger").session.value("A"), 2)

    def test_what_was_never_saved(self) -> None:
        self.told(")WSID ledger", "A←1")
        self.assertEqual(self.told(")CLEAR"), "1 line since the beginning: not saved, but kept, and offered when ledger is opened again")
        self.assertIn("wait to be played again by )LOAD ledger", self.told(")SAVE ledger"))
        self.assertIn("ledger: a new workspace", self.told(")LOAD ledger"))
        self.assertIn("What was done in ledger is not saved, and ended with", self.said(self.at).asked[0])
        self.assertEqual(self.at.session.value("A"), 1)

    def test_the_help_of_commands(self) -> None:
        for width in (30, 80, 200):
            with mock.patch.object(self.said(self.at), "width", return_value=width):
                shown = self.told(")HELP").splitlines()
            self.assertLessEqual(max(map(len, shown)), max(width, 34))
            self.assertEqual(" ".join(" ".join(shown).split()), " ".join(HELP.split()))

    def test_samples_are_workspaces(self) -> None:
        self.assertEqual(len(workspaces(TOP / "share/workspaces", SEEN)), 6)

    def test_names_of_headers(self) -> None:
        for header in ("F", "F X", "A F X", "Z←F", "Z←F X;A;B", "Z←A F X"):
            self.assertEqual(library.name_of(header), "F")


class Documents(OfCommands):
    def test_the_sessions_of_the_reference(self) -> None:
        blocks = re.findall("^```terminal\n(.*?)^```$", MANUAL.read_text(encoding="utf-8"), re.M | re.S)
        self.assertGreater(len(blocks), 5)
        for number, block in enumerate(blocks):
            folder = self.folder / str(number)
            folder.mkdir()
            os.chdir(folder)
            self.at.open(None, is_fresh=True)
            found: List[str] = []
            for line in (it[6:] for it in block.splitlines() if it.startswith("      ")):
                said = self.said(self.at)
                said.shown.clear()
                told = self.told(line)
                found += [f"      {line}", *said.shown, *told.splitlines()]
            made = "\n".join(found).replace(str(folder), "/home/ann")
            self.assertEqual(dated(made), dated(block.rstrip("\n")))
            self.at.open(None, is_fresh=True)


def dated(text: str) -> str:
    """Returns a text without dates and times."""
    return re.sub(r"\d{4}-\d\d-\d\d \d\d:\d\d(:\d\d)?", "DATE", text)


class Telling(OfTerminal):
    def test_prose_is_broken_between_words(self) -> None:
        self.assertEqual(wrapped("not saved: it is full\n      A←1 2 3 4 5 6\none", 12), "not saved:\nit is full\n      A←1 2 3 4 5 6\none")
        self.assertEqual(wrapped(")LIB   lists the workspaces", 20, 7), ")LIB   lists the\n       workspaces")

    def test_a_caret_is_under_its_part_of_a_wide_line(self) -> None:
        def report(text: str, place: int) -> List[Line]:
            return [Line(it, "report") for it in ("SYNTAX ERROR", text, " " * place + "^")]

        self.assertEqual(laid(report("ABCDEFGHIJKLMN", 1), 20), ["SYNTAX ERROR", "ABCDEFGHIJKLMN", " ^"])
        self.assertEqual(laid(report("ABCDEFGHIJKLMN", 1), 6), ["SYNTAX ERROR", "ABCDEF", " ^", "GHIJKL", "MN"])
        self.assertEqual(laid(report("ABCDEFGHIJKLMN", 8), 6), ["SYNTAX ERROR", "ABCDEF", "GHIJKL", "  ^", "MN"])
        self.assertEqual(laid(report("ABCDEFGHIJKLMN", 13), 6), ["SYNTAX ERROR", "ABCDEF", "GHIJKL", "MN", " ^"])
        shown = [Line("ABCDEFGHIJKLMN"), Line("        ^")]
        self.assertEqual(laid(shown, 6), [it.text for it in shown])


class Editing(OfCommands):
    def editor(self, *texts: str) -> None:
        """Has the editor make these texts, one after the other."""
        for number, text in enumerate(texts):
            Path(f"text{number}").write_text(text, encoding="utf-8")
        Path("editor").write_text('#!/bin/sh\ncat "$1" >>seen\nn=0; while [ ! -e text$n ]; do n=$((n+1)); done\ncp text$n "$1"; rm text$n\n')
        os.chmod("editor", stat.S_IRWXU)
        os.environ["VISUAL"] = "./editor"

    def test_a_new_function(self) -> None:
        self.editor("Z←MEAN V\nZ←(+/V)÷⍴V\n\n")
        self.assertEqual(self.told(")EDIT MEAN"), "MEAN is defined")
        self.assertEqual((Path("seen").read_text(), self.at.session.listing("MEAN")), ("MEAN\n", ["Z←MEAN V", "Z←(+/V)÷⍴V"]))

    def test_one_that_is_there(self) -> None:
        self.told("∇F", "1", "∇")
        self.editor("F\n1\n", "∇F\n2\n∇\n")
        self.assertEqual(self.told(")EDIT F"), "F stays as it is")
        self.assertEqual(self.told(")EDIT F"), "F is defined")
        self.assertEqual((Path("seen").read_text(), self.typed(self.at, "F")), ("F\n1\n" * 2, ["2"]))
        self.killed(self.at)
        self.assertEqual(self.work().session.listing("F"), ["F", "2"])

    def test_one_that_is_refused(self) -> None:
        self.told("∇F", "1", "∇")
        self.editor("F\n'AB\n", "F\n'AB'\n")
        self.assertEqual(self.told(")EDIT F"), "DEFN ERROR\nSYNTAX ERROR\n[1]   'AB\n      ^\nF is defined")
        self.assertEqual(Path("seen").read_text(), "F\n1\nF\n'AB\n")

    def test_one_that_is_given_up(self) -> None:
        self.editor("F\n'AB\n", "F\n'AB'\n")
        self.said(self.at).answer = False
        self.assertIn(")EDIT alone opens the text again", self.told(")EDIT F"))
        self.assertEqual((self.at.session.names(), self.at.journal.past.lines), ([], []))
        self.assertEqual(self.told(")EDIT"), "F is defined")
        self.assertEqual(Path("seen").read_text(), "F\nF\n'AB\n")

    def test_a_name_that_is_in_use(self) -> None:
        self.told("F←1")
        self.assertEqual(self.told(")EDIT F"), "F stands for something that is no function")
        self.editor("F\n1\n")
        self.said(self.at).answer = False
        self.assertIn("its name stands for a variable", self.told(")EDIT G"))

    def test_no_text_and_no_editor(self) -> None:
        self.editor("", "F\n" + "A" * 2_001)
        self.assertIn("the text is empty", self.told(")EDIT F"))
        self.said(self.at).answer = False
        self.assertIn("over 2,000 bytes", self.told(")EDIT F"))
        os.environ["VISUAL"] = "false -x"
        self.assertEqual(self.told(")EDIT F"), "the editor false has ended with status 1, so nothing is defined")
        for command, why in (("./none -x", "the editor ./none can't be used: No such file or directory"), ("vi '", "it is no command")):
            os.environ["VISUAL"] = command
            self.assertIn(why, self.told(")EDIT F"))
            self.assertIn("EDITOR", self.told(")EDIT F"))

    def test_which_line_is_refused(self) -> None:
        rows: List[Tuple[List[str], str]] = [
            (["F", "1", "2 (", "3"], "[2]   2 ("), (["F A;A", "1"], "[0]   F A;A"), (["F", "A←5 ◊", "1"], "[1]   A←5 ◊"),
            (["F", "L:1", "1", "L:2"], "[3]   L:2"), (["F", "L:1", "L:(2", "L:3"], "[2]   L:(2"), (["F", *["1"] * 500, "'", "2"], "[501] '"),
            (["F", "∇", "A←1"], "[1]   ∇")]
        for lines, shown in rows:
            self.assertIn(shown, fault_of(PROGRAM, lines), lines)
        self.assertEqual(fault_of(PROGRAM, ["F", "1"], is_known=False), [])


class Completing(OfTerminal):
    def names(self) -> Tuple[List[str], List[str]]:
        """Returns names to complete."""
        return ["MEAN", "MODE"], ["MARKS", "∆x"]

    def test_words(self) -> None:
        rows: List[Tuple[str, str, List[str]]] = [
            ("1+ME", "ME", ["MEAN"]), ("M", "M", ["MARKS", "MEAN", "MODE"]), ("", "", ["MARKS", "MEAN", "MODE", "∆x"]), ("∆", "∆", ["∆x"]),
            ("⎕", "⎕", ["⎕IO", "⎕LC", "⎕NC", "⎕STOP", "⎕TRACE"]), ("A←⎕s", "⎕s", ["⎕STOP"]), (")s", ")s", [")SAVE", ")SI"]),
            (" )v", ")v", [")VARS"]), (")EDIT M", "M", ["MEAN", "MODE"]), (")ERASE MA", "MA", ["MARKS"]), ("1M", "", ["MARKS", "MEAN", "MODE", "∆x"]),
            ("(A)M", "M", ["MARKS", "MEAN", "MODE"]), ("me", "me", [])]
        for before, begun, words in rows:
            if before != "1M":
                self.assertEqual(completions(before, self.names), (begun, words), before)

    def test_files(self) -> None:
        (self.folder / "books").mkdir()
        for name in ("ledger", "books/one", "books/two", ".hidden"):
            (self.folder / name).write_text("")
        self.assertEqual(completions(")LOAD ", self.names), ("", ["books/", "ledger"]))
        self.assertEqual(completions(")load le", self.names), ("le", ["ledger"]))
        self.assertEqual(completions(")SAVE books/", self.names), ("books/", ["books/one", "books/two"]))
        self.assertEqual(completions(")COPY ledger ME", self.names), ("ME", ["MEAN"]))
        self.assertEqual(completions(")LOAD none/", self.names), ("none/", []))


class Reading(OfTerminal):
    def test_keys(self) -> None:
        found = keys.read(TOP / "share/keys.txt")
        self.assertEqual((len(found), found[0]), (46, keys.Key("2", "¯", "sign of a negative number")))
        self.assertEqual(len({it.key for it in found}), len(found))
        self.assertTrue(all(len(it) <= 60 for it in keys.brief(found, 60)))
        self.assertEqual(keys.table(found)[0].split()[:3], ["`2", "¯", "sign"])

    def test_the_reference_has_each_symbol(self) -> None:
        for it in keys.read(TOP / "share/keys.txt"):
            if not it.character.isascii() and it.character not in "∆⍙":
                self.assertTrue(reference.about(MANUAL, it.character), it.character)
        for word in ("⎕IO", "⎕STOP", ")SI", ")SAVE", "SAVE", ")COPY", "reshape", "DOMAIN ERROR", "rank error", "'", "LABELS", "∇"):
            self.assertTrue(reference.about(MANUAL, word), word)
        self.assertEqual((reference.about(MANUAL, "A"), reference.about(MANUAL, "xyzzy")), ([], []))

    def test_a_text(self) -> None:
        self.assertEqual(reference.help_text(MANUAL, "⍴", 60)[:3], ["⍴B shape", "", "The vector of B's lengths, one for each axis; a scalar's is"])
        shown = reference.help_text(MANUAL, "∇", 60)
        self.assertFalse([it for it in shown if "](" in it or "```" in it])
        self.assertIn("has nothing on xyzzy", reference.help_text(MANUAL, "xyzzy", 60)[0])
        self.assertIn("isn't there", reference.help_text(self.folder / "none", "⍴", 60)[0])

    def test_paths(self) -> None:
        self.assertEqual(places.shown(str(self.folder / "ledger")), "ledger")
        self.assertEqual(places.shown(os.path.expanduser("~/far/ledger")), "~/far/ledger")
        self.assertEqual(places.shown("/none"), "/none")
        self.assertEqual(places.journal(str(self.folder / "ledger")), str(self.folder / ".ledger.apl-journal"))
        self.assertRaises(NotDone, self.work, "none/ledger")

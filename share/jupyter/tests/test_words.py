"""Characters, completion, the entries of the reference, and the files of the kernel."""
import json
import os
import tempfile
import unittest
from pathlib import Path

from apl.arrays import LANGUAGE
from apl.commands import WORDS
from aplkernel import spec
from aplkernel.memory import Note
from aplkernel.reference import entries, plain, signs_of, token_at
from aplkernel.words import COMMANDS, SYSTEM, Words, signs


class Completions(unittest.TestCase):
    def setUp(self) -> None:
        self.words = Words(signs())

    def test_signs(self) -> None:
        found = {it.character: it for it in signs()}
        self.assertEqual(found["⍴"].told(), "⍴  shape, reshape   key ` r   ⍴5 6 7  gives  3")
        self.assertLessEqual({it for it in LANGUAGE if ord(it) > 126}, set(found))
        self.assertLessEqual({it for it in found if ord(it) > 126}, LANGUAGE)

    def test_completions(self) -> None:
        names, files = ["MEAN", "MEDIAN", "∆x"], ["ledger", "list"]
        for before, texts, length in [
            ("2+`r", ["⍴"], 2), ("``", ["`"], 2), ("2+ME", ["MEAN", "MEDIAN"], 2), ("∆", ["∆x"], 1), ("2+", [], 0), ("X", [], 1),
            (")s", [")SAVE", ")SI"], 2), ("A\n )L", [")LIB", ")LOAD"], 2), ("A)M", ["MEAN", "MEDIAN"], 1), ("⎕s", ["⎕STOP"], 2),
            ("⎕", list(SYSTEM), 1), (")LOAD l", files, 1),
            ("1\n)save le", ["ledger"], 2), (")LOAD ", files, 0), ("'`x", [], 1),
        ]:
            found = self.words.complete(before, names, files)
            self.assertEqual((found.texts, found.length), (texts, length), before)
        self.assertEqual(len(self.words.complete("`", names, files).texts), len(signs()))
        self.assertEqual(list(COMMANDS), sorted(COMMANDS))


class Reference(unittest.TestCase):
    def test_every_character_has_an_entry(self) -> None:
        known = set("!'()*+,-./:;<=>[\\]_|~") | {it for it in LANGUAGE if ord(it) > 126}
        self.assertEqual(known - set(entries()), set())
        self.assertEqual({it for it in entries() if it[0] == "⎕" and it != "⎕"}, {*SYSTEM})
        self.assertLessEqual({*COMMANDS} - {*WORDS}, set(entries()))
        self.assertEqual(signs_of("`)SAVE [NAME]`, `)LIB`") + signs_of("`∇F[⎕]∇` show"), [")SAVE", ")LIB", "∇"])

    def test_entries(self) -> None:
        for sign, titles in [("⍴", ["⍴B shape", "A⍴B reshape"]), ("⍋", ["⍋B grade up · ⍒B grade down"]), ("⎕IO", ["⎕IO index origin"]),
                             (")FNS", [")FNS, )VARS"]), ("⍝", ["Comments"]), ("∘", ["A∘.gB outer product"])]:
            self.assertEqual([plain(it).split("\n")[0] for it in entries()[sign]], titles)
        self.assertNotIn("```", plain(entries()["⍴"][0]))

    def test_tokens(self) -> None:
        for code, cursor, token in [
            ("MEAN 3", 0, "MEAN"), ("MEAN 3", 2, "MEAN"), ("MEAN 3", 4, "MEAN"), ("⍴M", 0, "⍴"), ("⍴M", 1, "⍴"), ("⍴M", 2, "M"),
            ("+/V", 1, "+"), ("+/V", 2, "/"), ("⎕IO←0", 3, "⎕IO"), ("⎕IO←0", 4, "←"), ("⎕←1", 1, "⎕"), ("A\n )si", 4, ")SI"),
            ("(A)", 3, ")"), ("'A B'", 2, "'"), ("¯12", 3, "¯"), ("", 0, ""), ("A  ", 3, ""),
        ]:
            self.assertEqual(token_at(code, cursor), token, (code, cursor))


class Files(unittest.TestCase):
    def setUp(self) -> None:
        made = tempfile.TemporaryDirectory()
        self.addCleanup(made.cleanup)
        self.folder = Path(made.name)

    def test_the_kernels_files(self) -> None:
        spec.lay(self.folder / "nadrizom", "/x/apl")
        self.assertEqual(sorted(os.listdir(self.folder / "nadrizom")), ["apl.woff2", "kernel.js", "kernel.json"])
        told = json.loads((self.folder / "nadrizom/kernel.json").read_text(encoding="utf-8"))
        self.assertEqual((told["env"]["APL"], told["language"], told["interrupt_mode"]), ("/x/apl", "apl", "signal"))
        self.assertTrue((Path(told["argv"][1]) / "__main__.py").is_file())
        script = (self.folder / "nadrizom/kernel.js").read_text(encoding="utf-8")
        self.assertIn('{"key": "r", "character": "⍴", "meaning": "shape, reshape", "example": "⍴5 6 7", "gives": "3"}', script)

    def test_notes(self) -> None:
        note = Note(str(self.folder / "kernel-1.json"))
        self.assertEqual(note.read(), ("", ""))
        note.write("/a", "ledger")
        self.assertEqual((Note(str(self.folder / "kernel-1.json")).read(), Note("").read()), (("/a", "ledger"), ("", "")))
        note.write("/a", "")
        note.write("/a", "")
        self.assertEqual((note.read(), os.listdir(self.folder)), (("", ""), []))
        (self.folder / "kernel-1.apl-workspace").write_text("[]", encoding="utf-8")
        self.assertEqual(note.read(), ("", ""))


if __name__ == "__main__":
    unittest.main()

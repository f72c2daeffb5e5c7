"""Tries what bin/build-page refuses, and the small parts of it: python3 -m unittest test_build"""
import sys
import unittest
from pathlib import Path

sys.path.insert(0, str(Path(__file__).resolve().parent.parent / "build"))
import assemble  # noqa: E402  pylint: disable=wrong-import-position
import bundle  # noqa: E402  pylint: disable=wrong-import-position
import content  # noqa: E402  pylint: disable=wrong-import-position
import lower  # noqa: E402  pylint: disable=wrong-import-position
import retarget  # noqa: E402  pylint: disable=wrong-import-position

OPENS = 'define internal noundef i32 @"apl_page::page_open"(ptr noundef %a0, i64 noundef %a1, ptr noundef %a2) #2 {\n'
MAIN = [
    'define internal void @"apl_page::main"() #0 {\n',
    "  %r3 = alloca [2608 x i8], align 8\n",
    "  %r9 = alloca ptr, align 8\n",
    "  store ptr %r3, ptr %r9, align 8\n",
    "  %r12 = load ptr, ptr %r9, align 8\n",
    '  %r13 = call i32 @"apl_page::page_open"(ptr %r10, i64 %r11, ptr %r12)\n',
    "}\n",
]
OPEN = [OPENS, "  %r1 = alloca [2608 x i8], align 8\n", "}\n"]


def retargeted(*lines: str) -> list[str]:
    """Returns these lines of a module retargeted."""
    return list(retarget.retargeted(lines, "apl_page", set()))


class Retargeting(unittest.TestCase):
    """The text of a module."""

    def test_an_export_is_named(self) -> None:
        self.assertIn('"wasm-export-name"="page_open" #2 {', retargeted(OPENS)[0])
        self.assertNotIn("internal", retargeted(OPENS)[0])

    def test_other_types_are_refused(self) -> None:
        for changed in (OPENS.replace("i64", "i32"), OPENS.replace("noundef i32", "noundef i64", 1), OPENS.replace("page_open", "page_close")):
            with self.assertRaises(retarget.NotThePage):
                retargeted(changed)

    def test_what_x86_alone_has_is_refused_but_for_the_shuffle(self) -> None:
        shuffle = f"  %r = call <16 x i8> {retarget.SHUFFLE}(<16 x i8> %a, <16 x i8> %b)\n"
        self.assertIn("@shuffled(", retargeted(shuffle)[0])
        self.assertIn("define internal <16 x i8> @shuffled", retargeted(f"declare <16 x i8> {retarget.SHUFFLE}(<16 x i8>, <16 x i8>)\n")[0])
        for line in ("  %r = call i32 @llvm.x86.sse42.crc32.32.8(i32 %a, i8 %b)\n", '  call void asm sideeffect "nop", ""()\n'):
            with self.assertRaises(retarget.NotThePage):
                retargeted(line)

    def test_a_place_behind_a_pointer_is_told_not_to_wrap(self) -> None:
        line = "  %r2 = getelementptr i8, ptr %r1, i64 {}\n"
        self.assertEqual(retargeted(line.format(16)), ["  %r2 = getelementptr nuw i8, ptr %r1, i64 16\n"])
        for other in ("-16", "%r3", "4294967296"):
            self.assertEqual(retargeted(line.format(other)), [line.format(other)])

    def test_the_place(self) -> None:
        self.assertEqual(retarget.place_size([*MAIN, *OPEN], "apl_page"), 2608)
        for changed in ([*MAIN, OPENS, "}\n"], [*MAIN[:1], *MAIN[2:], *OPEN], OPEN):
            with self.assertRaises(retarget.NotThePage):
                retarget.place_size(changed, "apl_page")


class Lowering(unittest.TestCase):
    """The bytes of a module."""

    HEAD = b"\0asm\1\0\0\0"

    def test_what_is_not_known_is_refused(self) -> None:
        importing, beginning, table = b"\x02\x01\x00", b"\x08\x01\x00", b"\x09\x01\x00"
        for section in (importing, beginning, table):
            with self.assertRaises(lower.NotLowered):
                lower.lowered(self.HEAD + section)
        for code in (b"\x00\x11\x00\x00\x0b", b"\x00\xfd\x00\x0b", b"\x00\x28\x00\x80\x80\x80\x80\x10\x0b"):
            with self.assertRaises(lower.NotLowered):
                lower.lowered_function(code, 0)

    def test_a_load_and_a_store(self) -> None:
        # local.get 0, i32.load offset=8; the offset has a place of ten bytes
        load = b"\x00\x20\x00\x28\x02\x88\x80\x80\x80\x80\x80\x80\x80\x80\x00\x0b"
        self.assertEqual(lower.lowered_function(load, 1), b"\x00\x20\x00\xa7\x28\x02\x08\x0b")
        # local.get 0, local.get 1, i64.store: the value waits in local 2
        store = b"\x00\x20\x00\x20\x01\x37\x03\x00\x0b"
        self.assertEqual(lower.lowered_function(store, 2), b"\x01\x01\x7e\x20\x00\x20\x01\x21\x02\xa7\x20\x02\x37\x03\x00\x0b")

    def test_the_memory(self) -> None:
        self.assertEqual(lower.lowered_memory(b"\x01\x04\x11"), b"\x01\x01\x11" + lower.number(65536))
        with self.assertRaises(lower.NotLowered):
            lower.lowered_memory(b"\x01\x00\x11")

    def test_numbers(self) -> None:
        for n in (0, 127, 128, 1 << 32, (1 << 64) - 1):
            self.assertEqual(lower.Reader(lower.number(n)).number(), n)


class Assembling(unittest.TestCase):
    """The scripts and what the page shows."""

    def test_modules_become_one_script(self) -> None:
        modules = {"a": "import { B, c } from './b.mjs';\nc(B);\n", "b": "export const B = 1;\nexport function c() { }\n"}
        whole = bundle.bundled(modules, "a")
        self.assertLess(whole.index("const b_ = "), whole.index("const a_ = "))
        self.assertIn("const { B, c } = b_;", whole)
        self.assertIn("return { B, c };", whole)
        with self.assertRaises(bundle.NotBundled):
            bundle.bundled({"a": "import * as b from './b.mjs';\n"}, "a")

    def test_each_key_has_a_meaning_and_each_example_a_key(self) -> None:
        shown = content.content()
        characters = {character for _, character in shown["keys"]}
        self.assertLessEqual(set(shown["examples"]), characters)
        self.assertEqual(set(shown["meanings"]), characters)

    def test_each_character_has_an_entry_of_the_reference(self) -> None:
        shown = content.content()
        entries, of = shown["reference"]["entries"], shown["reference"]["of"]
        self.assertEqual(set(shown["meanings"]) - set(of), {"`"})
        self.assertLessEqual({"⎕IO", "⎕LC", "⎕NC", "⎕STOP", "⎕TRACE", ")SI", ")FNS", ")VARS", ")ERASE", ")CLEAR", "[", "]", ";", "(", ")", "+", ":"}, set(of))
        self.assertEqual([entries[n]["title"] for n in of["⍳"]], ["`⍳B` count", "`A⍳B` index of"])
        self.assertEqual([entries[n]["title"] for n in of["'"]], ["Texts"])
        self.assertNotIn("`--", str(entries))
        self.assertNotIn("bin/apl-terminal", str(entries))
        self.assertIn("the button Interrupt", str(entries))

    def test_symbols(self) -> None:
        self.assertEqual(content.symbols_of("`A ⎕STOP B`, `⎕STOP B` stops, `)SI`, `` `- ``"), ["⎕STOP", ")SI", "`", "-"])
        self.assertEqual(content.symbols_of("`A,[K]B` and `∇F[⎕]∇`"), [",", "∇"])
        self.assertEqual(content.symbols_of("`[K]`"), ["[", "]"])

    def test_the_guides(self) -> None:
        pages = {it["name"]: it for it in content.content()["pages"]}
        self.assertEqual(len(pages), 7)
        typed = [line["text"] for step in pages["tutorial"]["steps"] for block in step["blocks"] if block["kind"] == "apl" for line in block["lines"] if line["typed"]]
        self.assertEqual(typed[:2], ["2+3×4", "2×3+4"])
        self.assertIn("∇Z←MEAN V", typed)
        anew = [step["title"] for it in pages.values() for step in it["steps"] for block in step["blocks"] if block.get("anew")]
        self.assertEqual(anew, ["Mending", "Mending (2)"])
        self.assertNotIn("apl-terminal", str(pages))
        self.assertNotIn("million steps", str(pages))
        self.assertIn("the button Interrupt", str(pages["tutorial"]))

    def test_the_policy_allows_the_script_that_stands_in_the_page(self) -> None:
        page = assemble.one_file(b"module")
        self.assertIn(f"script-src {assemble.digest(assemble.script())} 'wasm-unsafe-eval'", page)
        self.assertEqual(assemble.one_file(b"module"), page)


if __name__ == "__main__":
    unittest.main()

#!/usr/bin/python3
"""Makes the page's font, apl.woff2: the characters of the language, and those that the page's own words have, of DejaVu Sans Mono.

usage: share/page/build/font.py     needs Debian's fonts-dejavu-core, python3-fonttools and python3-brotli
"""
import importlib
import os
import sys

FONT = "/usr/share/fonts/truetype/dejavu/DejaVuSansMono.ttf"
HERE = os.path.dirname(os.path.dirname(os.path.realpath(__file__)))
LANGUAGE = "¯×÷←↑→↓∆∇∊∘∧∨≠≤≥⊖⊤⊥⌈⌊⌽⌿⍀⍉⍋⍎⍒⍕⍙⍝⍱⍲⍳⍴⎕"
WORDS = "…·–—’“”"


def main() -> int:
    subset = importlib.import_module("fontTools.subset")
    characters = "".join(map(chr, range(32, 127))) + LANGUAGE + WORDS
    words = [FONT, f"--text={characters}", "--flavor=woff2", "--layout-features=", "--no-hinting", "--desubroutinize", f"--output-file={HERE}/apl.woff2"]
    subset.main([*words, "--name-IDs=0,1,2,13,14"])
    return 0


if __name__ == "__main__":
    sys.exit(main())

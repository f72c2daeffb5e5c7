"""An LLVM module that the toolchain made for x86-64 becomes a WebAssembly module with 64-bit memory, which imports nothing.

The sizes and alignments of both targets are the same, so the code stays as it is but for the target's names, one instruction of x86, and the
functions that are exported. The memory that the code asks for comes from heap.c, and 128-bit arithmetic from the toolchain's own linker."""
import os
import re
import subprocess
from collections.abc import Iterable, Iterator

from modules import KIT

HERE = os.path.dirname(os.path.realpath(__file__))
TRIPLE = "wasm64-unknown-unknown"
LAYOUT = "e-m:e-p:64:64-p10:8:8-p20:8:8-i64:64-i128:128-n32:64-S128-ni:1:10:20"
# The most bytes of the stack: 257 nested calls take under a tenth of it.
STACK = 1 << 20
# The types of what each exported function of the program gives and takes.
EXPORTS = {
    "page_open": ("i32", "ptr i64 ptr"),
    "page_type": ("i32", "ptr ptr i64"),
    "page_advance": ("i32", "ptr i64"),
    "page_interrupt": ("i32", "ptr"),
    "page_is_idle": ("i1", "ptr"),
    "page_next_line": ("i64", "ptr"),
    "page_fault": ("i32", "ptr"),
    "page_gather": ("i32", "ptr ptr"),
    "page_take": ("i64", "ptr ptr i64"),
    "page_save": ("i32", "ptr ptr i64 ptr"),
    "page_names": ("i32", "ptr ptr i64 ptr"),
    "page_levels": ("i32", "ptr ptr i64 ptr"),
    "page_listing": ("i32", "ptr ptr i64 ptr i64 ptr"),
}
SHUFFLE = "@llvm.x86.ssse3.pshuf.b.128"
COMPILER = [f"{KIT}/toolchain/bin/clang", f"--target={TRIPLE}", "--no-default-config", "-no-canonical-prefixes", "-fintegrated-cc1", "-mcpu=lime1"]
OF_C = ["-O2", "-fwrapv", "-ffreestanding", "-nostdinc", "-Wall", "-Wextra", "-Werror"]
OF_MODULE = ["-O3", "-ffunction-sections", "-fdata-sections", "-Xclang", "-fmerge-functions"]
# 128-bit division and conversions are written out, since there is no library that has them.
PASSES = ["-expand-div-rem-bits=64", "-expand-fp-convert-bits=64"]
# A place at a fixed distance behind a pointer. All addresses are below 2 ** 32, so the sum is no smaller than the pointer, which LLVM isn't told for
# x86-64: an access of WebAssembly has room for a distance where that is known.
BEHIND = re.compile(r"\bgetelementptr i8, ptr ([%@][^, ]+), i64 (\d{1,9})\b")
DEFINED = re.compile(r'define (?:internal )?(.*?)@(?:"([^"]+)"|([\w.]+))\((.*)\)')


class NotThePage(Exception):
    """A module is not of the form that this script knows how to retarget."""


def shuffle() -> str:
    """Returns what x86's shuffle of bytes is, lane by lane: the byte that the lower four bits name, or 0 where the highest is set."""
    lines = ["define internal <16 x i8> @shuffled(<16 x i8> %a, <16 x i8> %m) nounwind {"]
    last = "zeroinitializer"
    for i in range(16):
        lines += [
            f"  %m{i} = extractelement <16 x i8> %m, i32 {i}",
            f"  %n{i} = icmp slt i8 %m{i}, 0",
            f"  %w{i} = and i8 %m{i}, 15",
            f"  %x{i} = zext i8 %w{i} to i32",
            f"  %v{i} = extractelement <16 x i8> %a, i32 %x{i}",
            f"  %s{i} = select i1 %n{i}, i8 0, i8 %v{i}",
            f"  %r{i} = insertelement <16 x i8> {last}, i8 %s{i}, i32 {i}",
        ]
        last = f"%r{i}"
    return "\n".join([*lines, f"  ret <16 x i8> {last}", "}", ""])


def types_of(text: str) -> str:
    """Returns the types in a list of parameters, or the one before a function's name, without attributes."""
    found = (re.match(r"(?:(?:noundef|zeroext|signext|internal|dso_local) )*(ptr|i\d+|void)\b", it.strip()) for it in text.split(","))
    return " ".join(it[1] if it else "?" for it in found)


def exported(line: str, crate: str, found: set[str]) -> str:
    """Returns the first line of a function, exported where the page calls it, whose types must then be those of the table."""
    named = DEFINED.match(line)
    if not named:
        raise NotThePage(f"a definition that isn't understood: {line.strip()}")
    name = named[2] or named[3]
    if name == "main":
        return line.replace("define ", "define internal ", 1)
    if not name.startswith(f"{crate}::page_"):
        return line
    short = name.removeprefix(f"{crate}::")
    if short not in EXPORTS:
        raise NotThePage(f"{short} is no function that this script knows")
    types = (types_of(named[1]), types_of(named[4]))
    if types != EXPORTS[short]:
        raise NotThePage(f"{short} has the types {types}, and not {EXPORTS[short]}")
    found.add(short)
    line = line.replace("define internal ", "define ", 1)
    return re.sub(r"\) ([^)]*)(#\d+)", rf') \1"wasm-export-name"="{short}" \2', line, count=1)


def retargeted(lines: Iterable[str], crate: str, found: set[str]) -> Iterator[str]:
    """Yields the lines of a module for wasm64, and notes which functions are exported."""
    for line in lines:
        if line.startswith("target datalayout"):
            line = f'target datalayout = "{LAYOUT}"\n'
        elif line.startswith("target triple"):
            line = f'target triple = "{TRIPLE}"\n'
        elif line.startswith("attributes"):
            line = re.sub(r'"(probe-stack|stack-probe-size|frame-pointer|target-features)"="[^"]*"', "", line)
            line = re.sub(r'"target-cpu"="[^"]*"', '"target-cpu"="lime1"', line)
        elif line.startswith("define "):
            line = exported(line, crate, found)
        elif line.startswith("declare ") and SHUFFLE in line:
            line = shuffle()
        line = BEHIND.sub(r"getelementptr nuw i8, ptr \1, i64 \2", line.replace(SHUFFLE, "@shuffled"))
        if "@llvm.x86" in line or re.search(r"\basm (sideeffect |alignstack )*\"", line):
            raise NotThePage(f"there is no such instruction here: {line.strip()}")
        yield line


def body(lines: list[str], name: str) -> list[str]:
    """Returns the lines of a function."""
    begin = next((i for i, line in enumerate(lines) if line.startswith("define ") and f'@"{name}"(' in line), None)
    if begin is None:
        raise NotThePage(f"there is no function {name}")
    end = next(i for i in range(begin, len(lines)) if lines[i].startswith("}"))
    return lines[begin:end]


def place_size(lines: list[str], crate: str) -> int:
    """Returns the bytes of the place where a session stands: those that the program's own main gives to the function that opens one, which has
    a value of that size in hand too."""
    main = body(lines, f"{crate}::main")
    sizes = {it[1]: int(it[2]) for line in main if (it := re.match(r"\s*(%\w+) = alloca \[(\d+) x i8\]", line))}
    loaded = {it[1]: it[2] for line in main if (it := re.match(r"\s*(%\w+) = load ptr, ptr (%\w+)", line))}
    stored = {it[2]: it[1] for line in main if (it := re.match(r"\s*store ptr (%\w+), ptr (%\w+)", line))}
    found = set()
    for line in main:
        if call := re.search(rf'call .*@"{crate}::page_open"\(.*ptr (?:noundef )?(%\w+)\)', line):
            place = call[1]
            while place not in sizes and place in loaded:
                place = stored[loaded[place]]
            found.add(sizes.get(place, 0))
    size = found.pop() if len(found) == 1 else 0
    if size == 0 or not any(f"alloca [{size} x i8]" in line for line in body(lines, f"{crate}::page_open")):
        raise NotThePage("the size of the place can't be told")
    return size


def module_of(text: str, crate: str, out: str, room: str) -> int:
    """Makes the WebAssembly module of a program's LLVM module, given as text, and returns the size of the place of a session."""
    with open(text, encoding="utf-8") as file:
        lines = file.readlines()
    size, found = place_size(lines, crate), set[str]()
    with open(f"{room}/wasm.ll", "w", encoding="utf-8") as file:
        file.writelines(retargeted(lines, crate, found))
    if missing := sorted(set(EXPORTS) - found):
        raise NotThePage(f"there is no function {', '.join(missing)}")
    passes = [word for it in PASSES for word in ("-mllvm", it)]
    subprocess.run([*COMPILER, "-x", "ir", *OF_MODULE, *passes, "-c", f"{room}/wasm.ll", "-o", f"{room}/wasm.o"], check=True)
    subprocess.run([*COMPILER, *OF_C, f"-DPLACE={size}", "-c", f"{HERE}/heap.c", "-o", f"{room}/heap.o"], check=True)
    subprocess.run([f"{KIT}/toolchain/bin/llvm-ar", "rcD", f"{room}/libapl.a", f"{room}/wasm.o", f"{room}/heap.o"], check=True)
    words = ["--target", TRIPLE, "--toolchain", f"{KIT}/toolchain", "--stack", str(STACK), "-o", out, f"{room}/libapl.a"]
    subprocess.run([f"{KIT}/bin/rattle-link", *words], check=True)
    return size

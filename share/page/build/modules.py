"""The LLVM module of a program of this repository, for x86-64: of the proved program, or of one of which nothing is proved.

Both are what the toolchain hands to its compiler: a stand-in for that keeps the module."""
import importlib
import importlib.machinery
import importlib.util
import os
import shutil
import subprocess
import sys
from types import ModuleType
from typing import Any

TOP = os.path.dirname(os.path.dirname(os.path.dirname(os.path.dirname(os.path.realpath(__file__)))))
KIT = os.path.dirname(os.path.dirname(os.path.realpath(shutil.which("rt") or "")))
# What stands in for the compiler: it keeps the module of the program, and does its work.
COMPILER = """#!/bin/sh
for word in "$@"; do
    case "$word" in
    *.bc) if [ "$(stat -c %s "$word")" -gt 100000 ]; then cp "$word" "{kept}"; fi ;;
    esac
done
exec {compiler} "$@"
"""


def script(path: str) -> ModuleType:
    """Returns a script of the repository, whose name has no ending, as a module."""
    name = os.path.basename(path)
    loader = importlib.machinery.SourceFileLoader(name, path)
    spec = importlib.util.spec_from_loader(name, loader)
    assert spec
    found = importlib.util.module_from_spec(spec)
    loader.exec_module(found)
    return found


def proved(name: str, kept: str, room: str) -> bool:
    """Proves a program and the crates below it, as far as that isn't done, builds it, and keeps its module. Returns whether all is well."""
    tools = f"{room}/toolchain"
    os.makedirs(f"{tools}/bin")
    os.symlink(f"{KIT}/toolchain/lib", f"{tools}/lib")
    for it in os.listdir(f"{KIT}/toolchain/bin"):
        if it != "clang":
            os.symlink(f"{KIT}/toolchain/bin/{it}", f"{tools}/bin/{it}")
    with open(f"{tools}/bin/clang", "w", encoding="utf-8") as file:
        file.write(COMPILER.format(kept=kept, compiler=f"{KIT}/toolchain/bin/clang"))
    os.chmod(f"{tools}/bin/clang", 0o755)
    begin: Any = subprocess.Popen

    class Begun(begin):  # type: ignore[misc]
        """A command, whose compiler is the stand-in where it builds the program."""

        def __init__(self, words: Any, *given: Any, **named: Any) -> None:
            if isinstance(words, list) and name in words and "build" in words:
                words = [tools if it == f"{KIT}/toolchain" else it for it in words]
            super().__init__(words, *given, **named)

    sys.path.insert(0, f"{TOP}/bin")
    crates: Any = importlib.import_module("crates")
    rt = crates.load()
    crate = crates.listed(rt)[name]
    if crates.prove(rt, crate.below(), lambda it, stood, took: stood or print(f"build-page: {it.name} proved in {took:.0f} s", flush=True)):
        return False
    setattr(subprocess, "Popen", Begun)
    try:
        return bool(crates.build(crate)) and os.path.exists(kept)
    finally:
        setattr(subprocess, "Popen", begin)


def unproved(name: str, kept: str, room: str) -> bool:
    """Translates a program without proving anything, as bench/unproved does, and keeps its module with no checks left. Returns whether it can be
    translated."""
    bench = script(f"{TOP}/bench/unproved")
    module = bench.translated(name, KIT, room)
    if not module:
        return False
    as_text(module, f"{room}/checked.ll", ["-O0"])
    with open(f"{room}/checked.ll", encoding="utf-8") as lines, open(kept, "w", encoding="utf-8") as file:
        file.writelines(bench.unchecked(lines, bench.hints(KIT)))
    return True


def as_text(module: str, text: str, how: list[str]) -> None:
    """Writes a module as text."""
    subprocess.run([f"{KIT}/toolchain/bin/clang", "-x", "ir", module, "-S", "-emit-llvm", *how, "-o", text], check=True)

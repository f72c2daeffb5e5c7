"""Trials of the kernel by messages, as a notebook sends them. Each returns what it has seen, or raises AssertionError."""
import json
import os
import re
import resource
import signal
import statistics
import subprocess
import sys
import tempfile
import time
from contextlib import contextmanager
from pathlib import Path
from typing import Iterator, List

from tests.kernels import Kernel, Ran, notebook

MEAN = "∇Z←MEAN V\nZ←(+/V)÷⍴V\n∇"
LIKE_A_REPORT = "DOMAIN ERROR      1+2÷0            ^"
SPIN = "∇SPIN\nX←'it spins'\nX\nL:→L\n∇\nSPIN\n'not reached'"
INTERRUPTED_IN, CELLS, CELL_IN = 0.5, 200, 0.05
WHEN = r"\d{4}-\d\d-\d\d \d\d:\d\d"
SAVED = r"\d+ bytes, saved \d{4}-\d\d-\d\d \d\d:\d\d:\d\d"
COLOURS = re.compile("\x1b\\[[0-9]*m")


@contextmanager
def kernel() -> Iterator[Kernel]:
    """A kernel in a folder of its own."""
    with tempfile.TemporaryDirectory() as folder:
        made = Kernel(folder)
        try:
            yield made
        finally:
            made.close()


def same(got: object, wanted: object) -> None:
    """Asks that both are the same."""
    assert got == wanted, f"\n    there is\n{got!r}\n    and not\n{wanted!r}"


def plain(ran: Ran) -> List[str]:
    """Returns the lines of an error without their colours."""
    return [COLOURS.sub("", it) for it in ran.error]


def lines() -> str:
    """The lines of a cell are typed one by one, a definition as one."""
    with kernel() as it:
        ran = it.run(f"⍝ a cell\n2+3×4\n\n{MEAN}\n  MEAN 4 6 8\n'DOMAIN ERROR'\n∇MEAN[⎕]∇")
        same((ran.status, ran.text), ("ok", "14\n6\nDOMAIN ERROR\n    ∇ Z←MEAN V\n[1] Z←(+/V)÷⍴V\n    ∇\n"))
        ran = it.run(f"3 12⍴'{LIKE_A_REPORT}'\n'as ever'")
        same((ran.status, ran.text), ("ok", "DOMAIN ERROR\n      1+2÷0 \n           ^\nas ever\n"))
    return "9 lines and a definition, and what looks like a report"


def faults() -> str:
    """A fault ends the cell, with its report and the state indicator, and what waits behind the cell isn't run."""
    with kernel() as it:
        first, second = it.begin(f"{MEAN}\n1\n10×MEAN 1 2\n'not reached'"), it.begin("'nor this'")
        ran = it.end(first)
        same((ran.status, ran.text, ran.name, ran.evalue), ("error", "1\n", "DOMAIN ERROR", "MEAN[1] Z←(+/V)÷⍴V"))
        same(plain(ran)[:-1], ["DOMAIN ERROR", "MEAN[1] Z←(+/V)÷⍴V", "               ^", "      )SI", "MEAN[1] *"])
        same(it.end(second).text, "")
        same(it.run("V←1 3\n→⎕LC").text, "20\n")
        for line, report in [("A[7]", ["VALUE ERROR", "      A[7]", "      ^"]), ("1 ◊", ["CHARACTER ERROR"]),
                             (")NONE", ["INCORRECT COMMAND"]), ("∇F F F F", ["DEFN ERROR"]), ("∇F\n'A\n∇", ["DEFN ERROR"]),
                             ("∇F\n1 ◊\n∇", ["CHARACTER ERROR"])]:
            ran = it.run(f"{line}\n'not reached'")
            same((ran.status, ran.text, plain(ran), ran.name), ("error", "", report, report[0]))
        ran = it.run("∇NOTE\n1")
        same((ran.name, it.run("NOTE").name, it.run("2").text), ("OPEN DEFINITION", "VALUE ERROR", "2\n"))
    return "10 faults, the next cell is not run"


def stops() -> str:
    """A stop ends the cell, and goes on by a branch."""
    with kernel() as it:
        ran = it.run(f"{MEAN}\n⎕IO←1 ⍝\nX←1 ⎕STOP 'MEAN'\nMEAN 4 6\n'not reached'")
        same((ran.status, ran.name, ran.text, plain(ran)[:-1]), ("error", "STOP", "MEAN[1]\n", ["      )SI", "MEAN[1] *"]))
        same(it.run("→⎕LC").text, "5\n")
    return "goes on by →⎕LC"


def interrupts() -> str:
    """A line that runs is interrupted, and what it has written is shown before."""
    with kernel() as it:
        times = []
        for _ in range(5):
            seen: List[float] = []
            interrupt = it.interrupt_after("it spins\n")

            def meanwhile(ran: Ran) -> None:
                interrupt(ran)
                if "it spins" in ran.text and not seen:
                    seen.append(time.monotonic())

            ran = it.run(SPIN, meanwhile)
            times.append(time.monotonic() - seen[0])
            same((ran.status, ran.name, ran.text), ("error", "INTERRUPT", "it spins\n"))
            same([it.strip(" ") for it in plain(ran)[:-1]], ["INTERRUPT", "SPIN[3] L:→L", "^", ")SI", "SPIN[3] *"])
            same(it.run(")SI\n→").text, "SPIN[3] *\n")
        took = statistics.median(times)
        assert took < INTERRUPTED_IN or "UNTIMED" in os.environ, f"an interrupt took {took:.3f} s"
    return f"5 loops, ended {took * 1000:.0f} ms after the interrupt"


def much() -> str:
    """A cell that writes without end shows its first 500,000 characters, and can be interrupted."""
    with kernel() as it:
        ran = it.run("∇MUCH\nL:⍳20\n→L\n∇\nMUCH", it.interrupt_after("The cell shows no more"))
        same((ran.name, len(ran.text) <= 500_100, it.run("→\n2").text), ("INTERRUPT", True, "2\n"))
    return f"{len(ran.text):,} characters were shown"


def tables() -> str:
    """A line that is the name of a matrix shows it as a table too."""
    with kernel() as it:
        ran = it.run("M←2 3⍴¯1 2 3 4 5 6\nM\n  M ⍝ again\nM+0\n,M\nV←3 4\nV")
        same([it["text/plain"] for it in ran.shown], ["¯1 2 3\n 4 5 6"] * 2)
        assert all("<tr><td>¯1</td><td>2</td><td>3</td></tr>" in it["text/html"] for it in ran.shown), ran.shown
        same(ran.text, "¯1 2 3\n 4 5 6\n¯1 2 3 4 5 6\n3 4\n")
    return "2 tables, and none of an expression"


def help_while_typing() -> str:
    """Completion, what stands at the cursor, and whether a definition is open."""
    with kernel() as it:
        it.run(f"{MEAN}\nMATRIX←2 2⍴⍳4\n)SAVE ledger")
        for code, wanted in [("2+`r", ["2+⍴"]), ("1+M", ["1+MATRIX", "1+MEAN"]), (")s", [")SAVE", ")SI"]), ("⎕T", ["⎕TRACE"]),
                             (")LOAD l", [")LOAD ledger"])]:
            same(it.complete(code), wanted)
        same(it.inspect("2+MEAN 3", 6), "    ∇ Z←MEAN V\n[1] Z←(+/V)÷⍴V\n    ∇")
        same(it.inspect("MATRIX", 3), "MATRIX: numbers, shape 2 2\n\n1 2\n3 4")
        assert it.inspect("⍴M", 1).startswith("⍴  shape, reshape   key ` r"), it.inspect("⍴M", 1)
        assert it.inspect(")save", 3).startswith(")SAVE  saves the workspace in its file"), it.inspect(")save", 3)
        same(it.inspect("NONE", 1), "")
        for code, status in [("∇F", "incomplete"), ("∇F\n∇", "complete"), ("2+", "complete")]:
            same(it.reply(it.client.is_complete(code))["status"], status)
    return "names, characters, commands, files; listings, values, entries"


def files() -> str:
    """The commands for files, in the notebook's folder."""
    with kernel() as it:
        ran = it.run(")WSID\nA←5\n)SAVE ledger\n)LIB\n)WSID\n)CLEAR\n)WSID\n)LOAD ledger\nA")
        rows = f"ledger saved {WHEN}:\\d\\d: 108 bytes\nledger  108 bytes  {WHEN}\nledger\nCLEAR WS\nledger: {SAVED}\n5\n"
        assert re.fullmatch(f"CLEAR WS\n{rows}", ran.text), ran.text
        ran = it.run(")LOAD none\n'not reached'")
        same((ran.status, ran.text, plain(ran)), ("error", "", ["there is no none: )LIB lists the workspaces of this folder"]))
        other = Kernel(folder_of(it))
        try:
            other.run(")LOAD ledger\nA←6\n)SAVE")
        finally:
            other.close()
        same(plain(it.run(")SAVE")), ["not saved: another program has changed the file"])
        same(it.run(")LOAD ledger\nA").text.split("\n")[1], "6")
    return "saved, listed, loaded; not over what another has saved"


def folder_of(it: Kernel) -> str:
    """Returns the folder in which a kernel runs."""
    return os.readlink(f"/proc/{it.manager.provisioner.pid}/cwd")


def restarts() -> str:
    """A restarted kernel begins with the workspace that was last saved or loaded; a fresh one begins with a clear one."""
    with kernel() as it:
        it.run("A←5")
        it.restart()
        ran = it.run("A")
        same((ran.name, ran.told), ("VALUE ERROR", ""))
        it.run("A←6\n)SAVE ledger\nA←7")
        it.restart()
        ran = it.run("A\n)WSID")
        same(ran.text, "6\nledger\n")
        assert re.fullmatch(f"The kernel was restarted. The session begins with the workspace ledger: {SAVED}.\n", ran.told), ran.told
        it.begin("∇SPIN\n→1\n∇\nSPIN")
        time.sleep(0.5)
        it.restart()
        same(it.run("A").text, "6\n")
        it.run(")CLEAR")
        it.restart()
        same(it.run("A").name, "VALUE ERROR")
    return "4 times, once in the midst of a loop"


def deaths() -> str:
    """A program that ends is told, and the session goes back to what was last saved."""
    with kernel() as it:
        it.run("A←6\n)SAVE ledger\nA←7")

        def kill(ran: Ran) -> None:
            if "it spins\n" == ran.text:
                [process] = it.children()
                os.kill(process, signal.SIGKILL)

        ran = it.run(SPIN, kill)
        same((ran.status, ran.name, plain(ran)[0]), ("error", "PROGRAM ENDED", "The program was killed by SIGKILL."))
        told = f"The session begins with the workspace ledger: {SAVED}. What was done since is lost: run the cells again."
        assert re.fullmatch(told, plain(ran)[1]), ran.error
        same(it.run("A\n)WSID").text, "6\nledger\n")
    return "told with what was last saved"


def no_program() -> str:
    """Where there is no program, that is told."""
    specs = Path(os.environ["JUPYTER_PATH"]) / "kernels/nadrizom/kernel.json"
    told = json.loads(specs.read_text(encoding="utf-8"))
    with tempfile.TemporaryDirectory() as room:
        (Path(room) / "kernels/nadrizom").mkdir(parents=True)
        told["env"]["APL"] = f"{room}/none"
        (Path(room) / "kernels/nadrizom/kernel.json").write_text(json.dumps(told), encoding="utf-8")
        code = "from tests.kernels import Kernel; it = Kernel('.'); print(*it.run('2').error); it.close(); del it"
        env = {**os.environ, "JUPYTER_PATH": room}
        got = subprocess.run([sys.executable, "-c", code], env=env, stdout=subprocess.PIPE, text=True, check=True).stdout
        same(got, f"The program {room}/none can't be run: No such file or directory\n")
    return "told"


def memory() -> str:
    """Where memory runs out in a line, that is told, and the session goes on."""
    with kernel() as it:
        it.run("A←⍳1000000")
        [process] = it.children()
        resource.prlimit(process, resource.RLIMIT_AS, (64 << 20, 64 << 20))
        ran = it.run("∇F N;A\nA←⍳1000000\nF N+1\n∇\nF 0\n'not reached'")
        same((ran.status, ran.name, plain(ran)[0], plain(ran)[1]), ("error", "REFUSED", "The line isn't done: out of memory.", "      )SI"))
        same(it.run(")CLEAR\n2+3").text, "5\n")
    return "told, with the calls that stand"


def times() -> str:
    """How long a cell of one line takes."""
    with kernel() as it:
        found = []
        for number in range(CELLS):
            began = time.perf_counter()
            it.run(f"N←{number}")
            found.append(time.perf_counter() - began)
        took = statistics.median(found)
        assert took < CELL_IN or "UNTIMED" in os.environ, f"a cell took {took:.3f} s"
    return f"a cell of one line takes {took * 1000:.1f} ms"


def run_all() -> str:
    """`jupyter nbconvert --execute` stops at a fault, and else writes what the cells show."""
    said = []
    for last in ("MEAN 4 6 8", "MEAN 1 2"):
        with tempfile.TemporaryDirectory() as folder:
            Path(folder, "it.ipynb").write_text(notebook(MEAN, last, ")SAVE later"), encoding="utf-8")
            words = [sys.executable, "-m", "nbconvert", "--execute", "--to", "markdown", "--stdout", "it.ipynb"]
            ran = subprocess.run(words, cwd=folder, check=False, stdout=subprocess.PIPE, stderr=subprocess.PIPE, text=True)
            said.append((ran.returncode, "    6\n" in ran.stdout, "DOMAIN ERROR" in ran.stderr, os.path.exists(f"{folder}/later")))
    same(said, [(0, True, False, True), (1, False, True, False)])
    return "nbconvert --execute: status 0, and 1 at a fault"


ALL = [lines, faults, stops, interrupts, much, tables, help_while_typing, files, restarts, deaths, no_program, memory, times, run_all]

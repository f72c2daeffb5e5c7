"""How many steps a second a loop makes in the page, in a headless Chromium, and natively: by the processor time of the page's worker and of the
native program, in turns."""
import os
import resource
import statistics
import subprocess
from pathlib import Path

from trial import Trial

ROUNDS = 9
TURNS = 3_000_000
STEPS = 15 * TURNS      # a turn is 15 steps
DEFINED = ("∇Z←LOOP N", "Z←0", "L:Z←Z+N", "N←N-1", "→(N>0)/L", "∇")
ANSWER = f"{TURNS * (TURNS + 1) // 2}\n"
HEADER, ROW = f"{'round':>5} {'native':>8} {'page':>8} {'ratio':>6}", "{:>5} {:>8.1f} {:>8.1f} {:>6.2f}"


def status(path: Path) -> tuple[str, list[str]]:
    """Returns the name of a process or thread, and what follows it in its file of Linux."""
    text = path.read_text(encoding="utf-8", errors="replace")
    return text[text.index("(") + 1 : text.rindex(")")], text[text.rindex(")") + 1 :].split()


def worker_time(browser: int) -> float:
    """Returns the processor time in seconds that the workers of a browser's pages have taken."""
    parents, ticks = {}, 0
    for it in Path("/proc").iterdir():
        if it.name.isdigit():
            try:
                parents[int(it.name)] = int(status(it / "stat")[1][1])
            except OSError:
                continue
    for process in parents:
        above = process
        while above in parents and above != browser:
            above = parents[above]
        if above != browser:
            continue
        for thread in Path(f"/proc/{process}/task").iterdir():
            name, rest = status(thread / "stat")
            ticks += int(rest[11]) if name.startswith("DedicatedWorker") else 0
    return ticks / os.sysconf("SC_CLK_TCK")


def native_time(program: str) -> float:
    """Returns the processor time in seconds that the native program takes."""
    before = resource.getrusage(resource.RUSAGE_CHILDREN).ru_utime
    typed = "\n".join([*DEFINED, f"LOOP {TURNS}", ""]).encode()
    ran = subprocess.run([program, "--steps", "1000000000"], input=typed, stdout=subprocess.PIPE, check=True)
    if ran.stdout.decode() != ANSWER:
        raise AssertionError(f"natively {ran.stdout!r}")
    return resource.getrusage(resource.RUSAGE_CHILDREN).ru_utime - before


def loops(folder: Path, program: str) -> float:
    """Measures in rounds, shows each in million steps a second, and returns the median of the ratios. The first round is not counted: the browser
    compiles the module better while it runs."""
    trial, found = Trial(folder, program), []
    try:
        tab = trial.tab("loops")
        tab.typed(*DEFINED)
        print(HEADER)
        for n in range(ROUNDS + 1):
            native, before = native_time(program), worker_time(trial.browser.process.pid)
            if not tab.typed(f"LOOP {TURNS}").endswith(ANSWER):
                raise AssertionError("in the page there is another answer")
            page = worker_time(trial.browser.process.pid) - before
            found.append(native / page)
            print(ROW.format(n, STEPS / native / 1e6, STEPS / page / 1e6, native / page), flush=True)
    finally:
        trial.close()
    return statistics.median(found[1:])

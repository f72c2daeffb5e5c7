"""The crates of this repository as the toolchain's rt has them, proved side by side: what bin/build, bin/check-embedding, bin/gate-cost
and bin/mutants share. What is proved is kept in crates/NAME/out, so that only what has changed is proved again."""
import functools
import importlib.machinery
import importlib.util
import os
import re
import shutil
import sys
import time
from concurrent.futures import FIRST_COMPLETED, ThreadPoolExecutor, wait

TOP = os.path.dirname(os.path.dirname(os.path.realpath(__file__)))
# A crate is proved by one process, since there are more crates than processors.
JOBS = ["--jobs", "1"]


def load():
    """Returns the toolchain's program rt as a module."""
    path = shutil.which("rt")
    if not path:
        sys.exit("there is no rt here: the toolchain's folder bin/ must be in PATH")
    loader = importlib.machinery.SourceFileLoader("rt", os.path.realpath(path))
    module = importlib.util.module_from_spec(importlib.util.spec_from_loader("rt", loader))
    sys.modules["rt"] = module
    loader.exec_module(module)
    # rt goes down each way from a crate to find those below it, and for the sum of its files; some crates here have 200,000 ways: minutes each
    module.rtlib.Crate.below = functools.cache(module.rtlib.Crate.below)
    module.rtlib.Crate.stamp = functools.cache(module.rtlib.Crate.stamp)
    # its first call sets a signal's handler, which only the main thread may
    module.rtlib.guarded()
    return module


def listed(rt):
    """Returns the crates of the repository by name, lowest first."""
    rt.Crate.allowed = rt.handles_of(TOP)
    rt.rtlib.Crate = rt.Crate
    return {it.name: it for it in sorted(rt.rtlib.crates_below(TOP), key=lambda it: len(it.below()))}


def size(crate):
    """Returns a crate's lines, by which its time is judged."""
    return crate.count(rb"\n")


def in_lanes(crates, work, in_order=True):
    """Calls work for each of the crates, as many side by side as there are processors, first those with the longest chain above them, and
    where they are to be in order each once those below it have ended well. Returns the names of those that ended well."""
    behind = {}
    for crate in sorted(crates, key=lambda it: -len(it.below())):
        behind[crate] = size(crate) + max((behind[it] for it in behind if crate in it.below()), default=0)
    left, running, well = sorted(crates, key=lambda it: -behind[it]), {}, set()
    lanes = len(os.sched_getaffinity(0))
    with ThreadPoolExecutor(lanes) as pool:
        while left or running:
            ready = [it for it in left if not in_order or all(low not in behind or low in well for low in it.below())]
            if not ready and not running:
                break
            for crate in ready[: lanes - len(running)]:
                left.remove(crate)
                running[pool.submit(work, crate)] = crate
            for it in wait(running, return_when=FIRST_COMPLETED).done:
                crate = running.pop(it)
                well |= {crate} if it.result() else set()
    return {it.name for it in well}


def prove(rt, crates, tell=lambda *_: None):
    """Proves crates, of which each one's libraries are among them or stand. It tells of each that is proved, and returns the names of the
    others, which it tells of on standard error."""
    held = rt.rtlib.lock(crates)

    def work(crate):
        began, is_kept = time.monotonic(), crate.is_built()
        well = made(crate, lambda: crate.build_rlib(JOBS, anew=False) if crate.makes_rlib() else crate.check(JOBS))
        if well:
            tell(crate, is_kept, time.monotonic() - began)
        return well

    try:
        well = in_lanes(crates, work)
    finally:
        for it in held:
            os.close(it)
    return [it.name for it in crates if it.name not in well]


def build(crate):
    """Proves and builds a program or a static library, whose libraries stand, in its folder out/. Returns whether all is well."""
    to = f"out/{crate.name}"
    if crate.is_static:
        return made(crate, lambda: crate.build_static(JOBS))
    return made(crate, lambda: crate.compile(JOBS, f"{to}.o") or crate.link(f"{to}.o", to))


def made(crate, call):
    """Calls what makes something of a crate, and tells what was said on standard error where it gives a status. Returns whether it gives none."""
    os.makedirs(f"{crate.folder}/out", exist_ok=True)
    log = f"{crate.folder}/out/proof"
    with open(log, "w", encoding="utf-8") as crate.out:
        status = call()
    if status:
        with open(log, encoding="utf-8", errors="replace") as said:
            print(f"{crate.name} is not proved and built:\n{said.read()}", file=sys.stderr, flush=True)
    return not status


def edits(crate, folder):
    """Returns the paths of the changed bodies in a folder of a crate's, in order."""
    path = f"{crate.folder}/{folder}"
    names = sorted(os.listdir(path)) if os.path.isdir(path) else []
    return [f"{path}/{it}" for it in names if re.search(r"\.edit$", it)]

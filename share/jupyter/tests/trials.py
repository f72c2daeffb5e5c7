"""Tries the kernel as it is installed: run by bin/check-kernel, with the Python that runs the kernel, and JUPYTER_PATH.

usage: python3 -m tests.trials [TRIAL]...

Each trial has a line. Statuses: 0 where all is right, else 1.
"""
import sys
import tempfile
from functools import partial
from importlib.util import find_spec
from pathlib import Path
from queue import Empty
from typing import Callable, List, Sequence

sys.path[:0] = [str(Path(__file__).resolve().parents[2] / "python")]

# What a trial by messages needs beside the kernel: a module, and the package of Debian that has it.
NEEDS = {"run_all": ("nbconvert", "python3-nbconvert")}


def tried(name: str, trial: Callable[[], str]) -> bool:
    """Does a trial, tells what it has seen, and returns whether all is right."""
    try:
        print(f"kernel: {name}: {trial()}", flush=True)
        return True
    except (AssertionError, EOFError, OSError, RuntimeError, TimeoutError, Empty) as error:
        print(f"kernel: {name} FAILED: {type(error).__name__} {str(error)[:1500]}", flush=True)
        return False


def missing() -> str:
    """Returns what the classic notebook can't be tried without, "" where all is there."""
    from tests import classic  # pylint: disable=import-outside-toplevel
    if not find_spec("notebook"):
        return "jupyter-notebook"
    return "" if classic.has_browser() else "chromium"


def main(only: Sequence[str]) -> int:
    """Does the trials, or these alone, and returns the status."""
    from tests import protocol  # pylint: disable=import-outside-toplevel
    found: List[bool] = []

    def chosen(name: str) -> bool:
        """Whether a trial is to be done."""
        return not only or name in only

    for trial in protocol.ALL:
        name = trial.__name__
        module, package = NEEDS.get(name, ("sys", ""))
        if chosen(name) and find_spec(module):
            found.append(tried(name, trial))
        elif chosen(name):
            print(f"kernel: {module} isn't installed, so {name} isn't tried: apt-get install {package}")
    if chosen("suite") and find_spec("jupyter_kernel_test"):
        from tests import suite  # pylint: disable=import-outside-toplevel
        found.append(tried("suite", suite.run))
    elif chosen("suite"):
        print("kernel: jupyter_kernel_test isn't installed, so Jupyter's own tests aren't done: "
              "apt-get install python3-jupyter-kernel-test")
    found += in_notebook(only)
    print(f"kernel: {sum(found)} of {len(found)} trials are right")
    return 0 if all(found) and found else 1


def in_notebook(only: Sequence[str]) -> List[bool]:
    """Does the trials in the classic notebook, where it is installed, and tells which are right."""
    lacks = missing()
    if lacks:
        print(f"kernel: {lacks} isn't installed, so the classic notebook isn't tried: apt-get install {lacks}")
        return []
    from tests import classic  # pylint: disable=import-outside-toplevel
    chosen = [it for it in classic.ALL if not only or it.__name__ in only]
    if not chosen:
        return []
    with tempfile.TemporaryDirectory() as folder:
        try:
            place = classic.Place(folder)
        except (OSError, TimeoutError) as error:
            print(f"kernel: in the notebook FAILED: {error}", flush=True)
            return [False]
        try:
            return [tried(f"in the notebook: {it.__name__}", partial(it, place)) for it in chosen]
        finally:
            place.close()


if __name__ == "__main__":
    sys.exit(main(sys.argv[1:]))

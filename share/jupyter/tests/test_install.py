"""bin/install-kernel."""
import json
import os
import subprocess
import sys
import tempfile
import unittest
from pathlib import Path
from typing import Tuple

from aplkernel.words import TOP

LACKS = "install-kernel: no python3 here has ipykernel: apt-get install python3-ipykernel jupyter-notebook gets it on Debian\n"
USAGE = "usage: bin/install-kernel [--program PROGRAM] PREFIX\n"


class Install(unittest.TestCase):
    def setUp(self) -> None:
        made = tempfile.TemporaryDirectory()
        self.addCleanup(made.cleanup)
        self.folder = Path(made.name).resolve()
        self.program = self.folder / "a program"
        self.program.write_text("#!/bin/sh\n")
        self.program.chmod(0o755)

    def run_it(self, *words: str, **env: str) -> Tuple[int, str, str]:
        """Runs it in the folder, and returns its status and what it writes."""
        known = {"PYTHON": sys.executable, "JUPYTER_PATH": "", **env}
        ran = subprocess.run([TOP / "bin/install-kernel", *words], cwd=self.folder, env={**os.environ, **known}, check=False,
                             stdout=subprocess.PIPE, stderr=subprocess.PIPE, text=True)
        return ran.returncode, ran.stdout, ran.stderr

    def told(self, prefix: str) -> Tuple[str, str, str]:
        """Returns the Python, the package and the program of an installed kernel."""
        found = json.loads((self.folder / prefix / "share/jupyter/kernels/nadrizom/kernel.json").read_text(encoding="utf-8"))
        return found["argv"][0], found["argv"][1], found["env"]["APL"]

    def test_installed(self) -> None:
        place = f"{self.folder}/far off/share/jupyter"
        hint = f"Jupyter finds the kernel where it is started with JUPYTER_PATH={place}\n"
        line = f"installed: the kernel of {self.program} in {place}/kernels/nadrizom, run by {sys.executable}\n"
        self.assertEqual(self.run_it("--program", "a program", "far off"), (0, hint + line, ""))
        self.assertEqual(self.run_it("--program", "a program", "far off", JUPYTER_PATH=place), (0, line, ""))
        package = f"{self.folder}/far off/lib/nadrizom/share/jupyter/aplkernel"
        self.assertEqual(self.told("far off"), (sys.executable, package, str(self.program)))

    def test_it_needs_nothing_of_the_repository(self) -> None:
        self.run_it("--program", "a program", "far")
        package = self.told("far")[1]
        code = f"import sys; sys.path[:0] = ['{package}/..', '{package}/../../python']; import aplkernel.kernel as it; " \
               "print(it.reference.entries()['⍴'][0][:5], it.TOP)"
        env = {"PATH": os.environ["PATH"], "PYDEVD_DISABLE_FILE_VALIDATION": "1"}
        ran = subprocess.run([sys.executable, "-c", code], cwd="/", env=env, stdout=subprocess.PIPE, text=True, check=True)
        self.assertEqual(ran.stdout, f"## `⍴ {self.folder}/far/lib/nadrizom\n")

    def test_the_program(self) -> None:
        (self.folder / "far/bin").mkdir(parents=True)
        (self.folder / "far/bin/apl").symlink_to(self.program)
        self.assertEqual((self.run_it("far")[0], self.told("far")[2]), (0, f"{self.folder}/far/bin/apl"))
        self.assertEqual(self.run_it("--program", "none", "far"), (1, "", "install-kernel: none is no program\n"))

    def test_a_python_that_lacks_ipykernel(self) -> None:
        bare = self.folder / "bare"
        bare.write_text(f"#!/bin/sh\nexec {sys.executable} -S \"$@\"\n")
        bare.chmod(0o755)
        for python in (str(bare), "/none"):
            self.assertEqual(self.run_it("--program", "a program", "far", PYTHON=python), (3, "", LACKS))
        self.assertFalse((self.folder / "far").exists())

    def test_words(self) -> None:
        for words in ((), ("--help",), ("A", "B"), ("--program",), ("--program", "a program")):
            self.assertEqual(self.run_it(*words), (1, "", USAGE), words)


if __name__ == "__main__":
    unittest.main()

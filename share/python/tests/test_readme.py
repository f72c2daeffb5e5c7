"""The examples of README.md, with the program that is tested in PATH."""
import doctest
import os
import tempfile
import unittest
from pathlib import Path
from unittest.mock import patch

from tests.support import PROGRAM


class Readme(unittest.TestCase):
    def test_the_examples(self) -> None:
        with tempfile.TemporaryDirectory() as folder:
            Path(folder, "apl").symlink_to(PROGRAM)
            with patch.dict(os.environ, PATH=f"{folder}:{os.environ['PATH']}"):
                failed, tried = doctest.testfile(str(Path(__file__).parents[1] / "README.md"), module_relative=False, encoding="utf-8")
        self.assertEqual(failed, 0)
        self.assertGreater(tried, 15)

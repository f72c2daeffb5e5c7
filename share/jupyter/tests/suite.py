"""Jupyter's own tests of a kernel (jupyter_kernel_test), for this one."""
import unittest

import jupyter_kernel_test  # type: ignore[import]


class Suite(jupyter_kernel_test.KernelTests):  # type: ignore[misc]
    """What a kernel has to do by Jupyter's protocol."""

    kernel_name, language_name, file_extension = "nadrizom", "apl", ".apl"
    code_hello_world = "'hello, world'"
    code_generate_error = "1÷0"
    code_display_data = [{"code": "M←2 2⍴⍳4\nM", "mime": "text/html"}]
    code_inspect_sample = "⍴"
    completion_samples = [{"text": "2+`r", "matches": {"⍴"}}, {"text": ")SI", "matches": {")SI"}}, {"text": "⎕L", "matches": {"⎕LC"}}]
    complete_code_samples = ["2+3", "∇F\n1\n∇", ""]
    incomplete_code_samples = ["∇F\n1", "∇Z←A F B;X"]


def run() -> str:
    """Runs them. Returns what is told, and raises AssertionError where one fails."""
    result = unittest.TextTestRunner(verbosity=0).run(unittest.defaultTestLoader.loadTestsFromTestCase(Suite))
    assert result.wasSuccessful(), f"{len(result.failures) + len(result.errors)} of {result.testsRun} fail"
    return f"{result.testsRun - len(result.skipped)} tests of jupyter_kernel_test"

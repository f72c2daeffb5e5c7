"""Makes the files by which Jupyter finds the kernel: run by bin/install-kernel, with the Python that is to run the kernel.

usage: python3 spec.py FOLDER PROGRAM

FOLDER gets kernel.json, which names this Python, this package and PROGRAM; kernel.js, the bar of the classic notebook; and its font. Where
Jupyter doesn't look for kernels there, that is told.
"""
import json
import shutil
import sys
from dataclasses import asdict
from pathlib import Path
from typing import Any, Dict

SHARE = Path(__file__).resolve().parents[2]
if __name__ == "__main__":
    sys.path[0] = str(SHARE / "jupyter")
    sys.path.insert(1, str(SHARE / "python"))

from aplkernel.words import signs  # noqa: E402  pylint: disable=wrong-import-position

PLACE = "/* the characters */ []"


def kernel_json(program: str) -> Dict[str, Any]:
    """Returns how Jupyter starts the kernel."""
    return {"argv": [sys.executable, str(SHARE / "jupyter/aplkernel"), "-f", "{connection_file}"], "display_name": "APL (Nadrizom)",
            "language": "apl", "interrupt_mode": "signal", "env": {"APL": program, "PYDEVD_DISABLE_FILE_VALIDATION": "1"}}


def kernel_js() -> str:
    """Returns the script of the classic notebook, with the characters, their keys and examples."""
    script = (SHARE / "jupyter/kernel.js").read_text(encoding="utf-8")
    before, after = script.split(PLACE)
    known = [asdict(it) for it in signs()]
    return before + json.dumps(known, ensure_ascii=False) + after


def lay(folder: Path, program: str) -> None:
    """Writes the files. Raises OSError."""
    folder.mkdir(parents=True, exist_ok=True)
    (folder / "kernel.json").write_text(json.dumps(kernel_json(program), indent=1) + "\n", encoding="utf-8")
    (folder / "kernel.js").write_text(kernel_js(), encoding="utf-8")
    shutil.copyfile(SHARE / "page/apl.woff2", folder / "apl.woff2")


def is_found(folder: Path) -> bool:
    """Whether Jupyter looks for kernels where this folder of one stands."""
    from jupyter_core.paths import jupyter_path  # pylint: disable=import-outside-toplevel
    found = jupyter_path("kernels")  # type: ignore[no-untyped-call]
    return folder.parent.resolve() in [Path(it).resolve() for it in found]


if __name__ == "__main__":
    lay(Path(sys.argv[1]), sys.argv[2])
    if not is_found(Path(sys.argv[1])):
        print(f"Jupyter finds the kernel where it is started with JUPYTER_PATH={Path(sys.argv[1]).parents[1]}")

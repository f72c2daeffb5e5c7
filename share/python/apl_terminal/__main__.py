"""A session at a terminal. bin/apl-terminal starts it with an interpreter that has prompt_toolkit.

usage: apl_terminal --top FOLDER --program PROGRAM [WORKSPACE]
"""
from __future__ import annotations

import subprocess
import sys
from pathlib import Path
from typing import List

from apl import AplError
from apl.commands import reason
from apl_terminal.loop import Terminal


def main(words: List[str]) -> int:
    """Does what the words ask for, and returns the status."""
    if len(words) not in (4, 5) or words[0] != "--top" or words[2] != "--program":
        print(__doc__, end="", file=sys.stderr)
        return 1
    top, program = Path(words[1]), words[3]
    try:
        # bin/apl may have to make the program first, which it tells on standard error
        if subprocess.run([program, "--version"], stdout=subprocess.DEVNULL, check=False).returncode:
            return 1
        terminal = Terminal(program, top)
    except (AplError, OSError) as error:
        print(f"apl-terminal: {program} can't be run: {reason(error)}", file=sys.stderr)
        return 1
    return terminal.run(words[4] if len(words) == 5 else None)


if __name__ == "__main__":
    try:
        sys.exit(main(sys.argv[1:]))
    except KeyboardInterrupt:
        # before the session has begun, as while bin/apl makes the program
        sys.exit(130)

"""Runs the kernel: `python3 share/jupyter/aplkernel -f FILE`, as Jupyter does by its kernel.json."""
import sys
from pathlib import Path

SHARE = Path(__file__).resolve().parents[2]
# In place of the folder of the package, whose modules would be found under the names of others.
sys.path[0] = str(SHARE / "jupyter")
sys.path.insert(1, str(SHARE / "python"))

if __name__ == "__main__":
    from aplkernel.kernel import main

    main()

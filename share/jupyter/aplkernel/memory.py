"""Which workspace a kernel has, noted for the kernel that takes its place where Jupyter restarts it."""
import json
import os
from contextlib import suppress
from pathlib import Path
from typing import Optional, Tuple


class Note:
    """A note beside the file of the kernel's connection, which a restarted kernel has again."""

    def __init__(self, connection_file: str) -> None:
        self.path: Optional[Path] = Path(connection_file).with_suffix(".apl-workspace") if connection_file else None

    def read(self) -> Tuple[str, str]:
        """Returns the folder and the name of the workspace that was noted, "" where none was."""
        with suppress(OSError, ValueError, LookupError, TypeError):
            if self.path:
                found = json.loads(self.path.read_text(encoding="utf-8"))
                return str(found["folder"]), str(found["name"])
        return "", ""

    def write(self, folder: str, name: str) -> None:
        """Notes a workspace, or takes the note away where the name is ""."""
        if not self.path:
            return
        with suppress(OSError):
            if name:
                fresh = self.path.with_suffix(".apl-new")
                fresh.write_text(json.dumps({"folder": folder, "name": name}), encoding="utf-8")
                os.replace(fresh, self.path)
            else:
                self.path.unlink()

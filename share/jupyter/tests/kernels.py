"""A kernel that a test starts and asks, as a notebook does."""
import json
import os
import time
from dataclasses import dataclass, field
from typing import Any, Callable, Dict, List, Optional

from jupyter_client.manager import KernelManager

SECONDS = 60.0


def notebook(*cells: str) -> str:
    """Returns the file of a notebook with these cells, of which those that begin with # are text."""
    code: Dict[str, Any] = {"cell_type": "code", "execution_count": None, "outputs": []}
    made = [{**({"cell_type": "markdown"} if it.startswith("#") else code), "metadata": {}, "source": it} for it in cells]
    spec = {"name": "nadrizom", "display_name": "APL (Nadrizom)", "language": "apl"}
    return json.dumps({"cells": made, "metadata": {"kernelspec": spec}, "nbformat": 4, "nbformat_minor": 4})


@dataclass
class Ran:
    """What a cell came to: its reply's status, its text, the data that it displays, and its error."""

    status: str = ""
    text: str = ""
    told: str = ""
    shown: List[Dict[str, str]] = field(default_factory=list)
    name: str = ""
    evalue: str = ""
    error: List[str] = field(default_factory=list)


class Kernel:
    """A kernel in a folder."""

    def __init__(self, folder: str) -> None:
        self.manager: Any = KernelManager(kernel_name="nadrizom")  # type: ignore[no-untyped-call]
        self.manager.start_kernel(cwd=folder)
        self.client: Any = self.manager.client()
        self.client.start_channels()
        self.client.wait_for_ready(timeout=SECONDS)

    def close(self) -> None:
        """Ends it."""
        self.client.stop_channels()
        self.manager.shutdown_kernel(now=False)

    def restart(self) -> None:
        """Restarts it, as the notebook's button does."""
        self.manager.restart_kernel()
        self.client.wait_for_ready(timeout=SECONDS)

    def begin(self, code: str) -> str:
        """Begins a cell, and returns its message's name."""
        return str(self.client.execute(code))

    def run(self, code: str, meanwhile: Optional[Callable[[Ran], None]] = None) -> Ran:
        """Runs a cell, and returns what it came to. meanwhile is called after each thing that it shows.

        What comes too soon behind an error isn't run by any kernel of ipykernel, and is sent again."""
        while True:
            ran = self.end(self.begin(code), meanwhile)
            if ran.status != "aborted":
                return ran

    def end(self, name: str, meanwhile: Optional[Callable[[Ran], None]] = None) -> Ran:
        """Waits until a cell has ended."""
        ran = Ran()
        while True:
            message = self.client.get_iopub_msg(timeout=SECONDS)
            if message["parent_header"].get("msg_id") != name:
                continue
            kind, content = message["msg_type"], message["content"]
            if kind == "status" and content["execution_state"] == "idle":
                break
            note(ran, kind, content)
            if meanwhile and kind in ("stream", "display_data", "execute_input"):
                meanwhile(ran)
        ran.status = self.reply(name)["status"]
        return ran

    def reply(self, name: str) -> Dict[str, Any]:
        """Returns the reply to a message."""
        while True:
            message = self.client.get_shell_msg(timeout=SECONDS)
            if message["parent_header"].get("msg_id") == name:
                return dict(message["content"])

    def complete(self, code: str, cursor: Optional[int] = None) -> List[str]:
        """Returns what may stand in place of what is before the cursor."""
        got = self.reply(self.client.complete(code, cursor))
        return [code[:got["cursor_start"]] + it for it in got["matches"]]

    def inspect(self, code: str, cursor: int) -> str:
        """Returns what is told of what stands at the cursor."""
        return str(self.reply(self.client.inspect(code, cursor))["data"].get("text/plain", ""))

    def interrupt_after(self, wanted: str) -> Callable[[Ran], None]:
        """Returns what interrupts the kernel once, when a cell has shown this text, and then waits a little."""
        done: List[bool] = []

        def interrupt(ran: Ran) -> None:
            if wanted in ran.text and not done:
                done.append(True)
                time.sleep(0.3)
                self.manager.interrupt_kernel()

        return interrupt

    def children(self) -> List[int]:
        """Returns the processes that the kernel has started."""
        parent = str(self.manager.provisioner.pid)
        return [int(it) for it in os.listdir("/proc") if it.isdigit() and parent_of(it) == parent]


def note(ran: Ran, kind: str, content: Dict[str, Any]) -> None:
    """Notes what a cell shows."""
    if kind == "stream" and content["name"] == "stdout":
        ran.text += content["text"]
    elif kind == "stream":
        ran.told += content["text"]
    elif kind == "display_data":
        ran.shown.append(content["data"])
    elif kind == "error":
        ran.name, ran.evalue, ran.error = content["ename"], content["evalue"], content["traceback"]


def parent_of(process: str) -> str:
    """Returns the parent of a process."""
    try:
        with open(f"/proc/{process}/stat", encoding="utf-8", errors="replace") as file:
            return file.read().rpartition(")")[2].split()[1]
    except OSError:
        return ""

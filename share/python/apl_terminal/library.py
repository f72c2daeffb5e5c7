"""What goes from one workspace into another."""
from __future__ import annotations

import json
from typing import Any, Dict, List, Sequence, Tuple

from apl_terminal.journal import compact


def name_of(header: str) -> str:
    """Returns the name of the function of a header."""
    words = header.split(";")[0].split("←")[-1].split()
    return words[1] if len(words) == 3 else words[0]


def named(workspace: Dict[str, Any]) -> Dict[str, Tuple[str, Any]]:
    """Returns what the names of a workspace stand for: under which key of it, and what."""
    found = {name_of(it["header"]): ("functions", it) for it in workspace["functions"]}
    found.update({it["name"]: ("variables", it) for it in workspace["variables"]})
    return found


def merged(ours: bytes, theirs: bytes, names: Sequence[str]) -> Tuple[bytes, List[str], List[str]]:
    """Returns our workspace with these names of another one, or with all of them where none is given; which were taken, and which it hasn't.

    Raises ValueError, LookupError or TypeError where the other one is no workspace. Whether what is taken is one is the program's to say."""
    workspace, other = json.loads(ours), named(json.loads(theirs))
    taken = [it for it in dict.fromkeys(names or sorted(other)) if it in other]
    mine = named(workspace)
    mine.update({it: other[it] for it in taken})
    for key in ("functions", "variables"):
        workspace[key] = [it for _, (kind, it) in sorted(mine.items()) if kind == key]
    return compact(workspace), taken, [it for it in dict.fromkeys(names) if it not in other]

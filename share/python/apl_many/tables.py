"""Which table a URL names."""
from __future__ import annotations

import os
import re

from apl_many.table import Table, TableError

POSTGRES = re.compile("postgres(ql)?://")


def open_table(url: str, name: str, is_new: bool = False) -> Table:
    """Opens a table: in PostgreSQL for postgresql://.., in a SQLite file for sqlite:///PATH or a path. Raises TableError."""
    if POSTGRES.match(url):
        from apl_many.postgres import PostgresTable  # pylint: disable=import-outside-toplevel

        return PostgresTable(url, name)
    if "://" in url and not url.startswith("sqlite:///"):
        raise TableError(f"{url}: a URL begins with postgresql:// or sqlite:///")
    from apl_many.sqlite import SqliteTable  # pylint: disable=import-outside-toplevel

    return SqliteTable(os.path.abspath(url[len("sqlite:///"):] if url.startswith("sqlite:///") else url), name, is_new)

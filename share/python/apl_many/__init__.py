"""Many workspaces recalculated by many workers, on as many machines as there are: bin/apl-many.

Workspaces and what came of them are rows of a table, in PostgreSQL or in a SQLite file. Workers take rows that no other worker has, type
the same lines in each workspace, and write the answers. docs/SCALE.md says more.
"""

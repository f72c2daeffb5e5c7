"""A session at a terminal: the program that bin/apl-terminal starts.

The machine runs in the process of a `Session` of the package apl. What belongs to the terminal is here: the line that is typed (prompt,
keys, complete), the commands that the machine hasn't (commands), the workspace's file with the journal of the lines since it was saved
(work, journal), and the loop that joins them (loop).
"""

"""A Jupyter kernel: notebooks whose cells are lines of a session of the program `apl`.

The machine runs in the process of a `Session` of the package apl. Here is what belongs to the notebook: the lines of a cell (cells), what
they wrote and whether they ended with a report (output), the table of a matrix (tables), characters and completion (words), the entries of
the reference (reference), and the kernel that joins them (kernel). spec makes the files by which Jupyter finds the kernel.
"""

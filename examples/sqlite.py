#!/usr/bin/env python3
"""Prints the rows of SQL queries over the graph of the current folder, one row a line, by SQLite.

In a folder with files of gmark: path/to/examples/sqlite.py query-0.sql query-1.sql. The graph is graph.txt, which becomes
the table edge(src, label, trg). A query without heads prints `1`, or nothing."""
import pathlib, sqlite3, sys

base = sqlite3.connect(":memory:")
base.execute("CREATE TABLE edge (src INTEGER, label INTEGER, trg INTEGER)")
with open("graph.txt") as graph:
    base.executemany("INSERT INTO edge VALUES (?, ?, ?)", (line.split() for line in graph))
base.execute("CREATE INDEX along ON edge (label, src)")
base.execute("CREATE INDEX against ON edge (label, trg)")
base.execute("ANALYZE")  # without it some queries take minutes
for name in sys.argv[1:]:
    for row in base.execute(pathlib.Path(name).read_text()):
        print(*row)

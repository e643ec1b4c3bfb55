#!/usr/bin/env python3
"""Writes a script of 4 nodes that run N INSERTs in a shuffled order of keys, and then N SELECTs by key, a quarter each.

    python3 bench/statements.py 12000 > /tmp/statements.tell
    time bin/tell --budget 100000 < /tmp/statements.tell > /dev/null
    python3 bench/statements.py 12000 --sqlite      # the same statements, one by one, in SQLite in memory
"""
import random
import sqlite3
import sys
import time

NODES = 4


def script(count):
    random.seed(5)
    keys = list(range(count))
    random.shuffle(keys)
    yield "CREATE TABLE t (k INT PRIMARY KEY, v INT)"
    for node in range(NODES):
        own = keys[node::NODES]
        yield f"@node {node + 1}"
        for key in own:
            yield f"INSERT INTO t VALUES ({key}, {key * 7})"
        for _ in own:
            yield f"SELECT * FROM t WHERE k = {random.randrange(count)}"


def in_sqlite(lines):
    connection = sqlite3.connect(":memory:", isolation_level=None)
    begin = time.perf_counter()
    for line in lines:
        if not line.startswith("@"):
            connection.execute(line).fetchall()
    return time.perf_counter() - begin


lines = list(script(int(sys.argv[1])))
if "--sqlite" in sys.argv[2:]:
    print(f"{in_sqlite(lines):.2f} s")
else:
    print("\n".join(lines))

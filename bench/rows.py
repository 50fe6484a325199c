#!/usr/bin/env python3
"""Times the built program: inserts, the same rows as one load, and 1,000 searches over 20,000 rows.

Run it with the program's path: bench/rows.py crates/svr/out/svr
"""

import json
import os
import random
import subprocess
import sys
import tempfile
import time

SCHEMA = {
    "tables": [
        {
            "name": "docs",
            "columns": [
                {"name": "id", "type": "int"},
                {"name": "stars", "type": "int"},
                {"name": "text", "type": "text"},
            ],
        },
        {"name": "pad", "columns": [{"name": "id", "type": "int"}]},
    ],
    "text": {"table": "docs", "column": "text"},
    "components": [{"kind": "own", "column": "stars", "weight": 1}],
    "divisor": 1,
    "method": {"kind": "id"},
}
# A folder in memory, where a sync costs little.
MEMORY = "/dev/shm" if os.path.isdir("/dev/shm") else None
WORDS = [f"word{number}" for number in range(5_000)]


def line(**members):
    return json.dumps(members) + "\n"


def documents(chance, count):
    ids = list(range(count))
    chance.shuffle(ids)
    for row in ids:
        yield [row, chance.randrange(1_000_000), " ".join(chance.choices(WORDS, k=8))]


def inserts(table, rows):
    for row in rows:
        yield line(op="insert", table=table, row=row)


def load(table, rows):
    block = "".join(",".join(map(str, row)) + "\n" for row in rows)
    return [line(op="load", table=table, bytes=len(block)) + block]


def searches(chance, count):
    for _ in range(count):
        yield line(op="search", query=" ".join(chance.sample(WORDS, 2)), mode="any", k=10)


def seconds(program, requests):
    text = "".join(requests).encode()
    start = time.monotonic()
    with tempfile.TemporaryDirectory(dir=MEMORY) as folder:
        done = subprocess.run([program, "serve"], input=text, capture_output=True, check=True, cwd=folder)
        spent = time.monotonic() - start
    replies = done.stdout.splitlines()
    assert len(replies) == len(requests)
    assert not [reply for reply in replies if b"error" in reply]
    return spent


def compare(program, schema, name, table, rows):
    alone = seconds(program, [schema, *inserts(table, rows)])
    at_once = seconds(program, [schema, *load(table, rows)])
    count = len(rows)
    print(f"{count} {name}: {alone:.2f} s as inserts, {at_once:.2f} s as one load")


def main():
    program = os.path.abspath(sys.argv[1])
    chance = random.Random(1)
    schema = line(op="schema", schema=SCHEMA)
    for count in (25_000, 50_000, 100_000):
        spent = seconds(program, [schema, *inserts("docs", documents(chance, count))])
        print(f"{count} inserts: {spent:.2f} s, {spent / count * 1e6:.1f} us each")
    compare(program, schema, "rows of an id", "pad", [[row] for row in range(262_144)])
    compare(program, schema, "documents", "docs", list(documents(chance, 100_000)))
    rows = [schema, *inserts("docs", documents(chance, 20_000))]
    without = seconds(program, rows)
    spent = seconds(program, rows + list(searches(chance, 1_000))) - without
    print(f"1000 searches over 20000 rows: {spent:.2f} s, {spent:.2f} ms each")


main()

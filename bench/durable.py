#!/usr/bin/env python3
"""Times changes that outlast a crash through the built program, beside what the disk allows, and how long a start takes.

Run it with the program's path and a folder on the disk that is to be timed: bench/durable.py crates/svr/out/svr .

A change is two writes and two syncs. The limit is a loop of the same writes and syncs without a program around it; both run in turn,
many times, since disks differ from one moment to the next. The journals that are opened are written in a folder in memory, where a sync costs little, and copied; what SQLite takes to
insert the same rows in one transaction stands beside.
"""

import fcntl
import json
import os
import random
import shutil
import sqlite3
import statistics
import subprocess
import sys
import tempfile
import time

ROUNDS = 20
CHANGES = 2_000
ROWS = 200_000
PIPE_BYTES = 1 << 20  # what a pipe holds at most where the system's limit is as it comes; all requests and their replies fit
WORDS = [f"word{number}" for number in range(5_000)]
SCHEMA = {
    "tables": [
        {
            "name": "docs",
            "columns": [{"name": "id", "type": "int"}, {"name": "stars", "type": "int"}, {"name": "text", "type": "text"}],
        }
    ],
    "text": {"table": "docs", "column": "text"},
    "components": [{"kind": "own", "column": "stars", "weight": 1}],
    "divisor": 1,
    "method": {"kind": "id"},
}


def line(**members):
    return json.dumps(members, separators=(",", ":")) + "\n"


def documents(chance, count):
    return [[number, chance.randrange(1_000_000), " ".join(chance.choices(WORDS, k=3))] for number in range(count)]


def inserts(rows):
    return "".join(line(op="insert", table="docs", row=row) for row in rows)


def load(rows):
    block = "".join(",".join(map(str, row)) + "\n" for row in rows)
    return line(op="load", table="docs", bytes=len(block)) + block


def serve(program, folder, text):
    """Seconds of a run over this input; each request is accepted."""
    start = time.monotonic()
    done = subprocess.run([program, "serve"], input=text.encode(), capture_output=True, check=True, cwd=folder)
    spent = time.monotonic() - start
    assert all(reply.startswith(b'{"ok":') for reply in done.stdout.splitlines()), done.stdout[:200]
    return spent


def limit(folder, sizes):
    """Seconds of writes and syncs as appending records of these sizes makes them."""
    file = os.open(os.path.join(folder, "limit"), os.O_RDWR | os.O_CREAT | os.O_TRUNC)
    os.write(file, b"SVRJ0001\0")
    os.fdatasync(file)
    end = 8
    start = time.monotonic()
    for size in sizes:
        os.pwrite(file, bytes(size - 1), end + 1)
        os.fdatasync(file)
        os.pwrite(file, b"\1", end)
        os.fdatasync(file)
        end += size - 1
    spent = time.monotonic() - start
    os.close(file)
    return spent


def record_sizes(path):
    """The bytes that each record of a journal takes with the closed gate behind it."""
    with open(path, "rb") as file:
        journal = file.read()
    sizes, place = [], 8
    while journal[place] == 1:
        length = int.from_bytes(journal[place + 1 : place + 5], "big")
        sizes.append(length + 6)
        place += 5 + length
    return sizes


def changing(program, folder, changes):
    """Seconds of a run between two pipes; each request is accepted. All requests are in the pipe before the program starts, and the replies
    are read when it has ended, so that no other process runs meanwhile."""
    given, requests = os.pipe()
    fcntl.fcntl(requests, fcntl.F_SETPIPE_SZ, PIPE_BYTES)
    os.write(requests, changes.encode())
    os.close(requests)
    replies, taken = os.pipe()
    start = time.monotonic()
    ended = subprocess.Popen([program, "serve"], stdin=given, stdout=taken, cwd=folder).wait()
    spent = time.monotonic() - start
    os.close(given)
    os.close(taken)
    with os.fdopen(replies, "rb") as lines:
        assert ended == 0 and all(reply.startswith(b'{"ok":') for reply in lines)
    return spent


def durable(program, where):
    changes = line(op="schema", schema=SCHEMA) + inserts(documents(random.Random(1), CHANGES - 1))
    spent, least = [], []
    for _ in range(ROUNDS):
        with tempfile.TemporaryDirectory(dir=where) as folder:
            spent.append(changing(program, folder, changes))
            least.append(limit(folder, record_sizes(os.path.join(folder, "svr.db"))))
    for name, pick in ("at best", min), ("in the middle", statistics.median):
        ours, disk = pick(spent), pick(least)
        print(f"{name} {CHANGES / ours:.0f} changes a second, the disk's limit {CHANGES / disk:.0f}: {disk / ours:.2f} of it")


def opening(program, memory, where, name, text, records):
    with tempfile.TemporaryDirectory(dir=memory) as made, tempfile.TemporaryDirectory(dir=where) as folder:
        serve(program, made, line(op="schema", schema=SCHEMA) + text)
        shutil.copy(os.path.join(made, "svr.db"), folder)
        size = os.path.getsize(os.path.join(folder, "svr.db"))
        spent = min(serve(program, folder, "") for _ in range(3))
    with tempfile.TemporaryDirectory(dir=where) as folder:
        serve(program, folder, "")
        spent -= serve(program, folder, "")
    print(f"{name}: opened in {spent:.3f} s, {size / spent / 1e6:.1f} MB a second, {spent / records * 1e6:.2f} us a row")


def sqlite(where, rows):
    with tempfile.TemporaryDirectory(dir=where) as folder:
        base = sqlite3.connect(os.path.join(folder, "base"))
        base.execute("create table docs (id integer primary key, stars integer, text text)")
        base.commit()
        start = time.monotonic()
        base.executemany("insert into docs values (?, ?, ?)", rows)
        base.commit()
        spent = time.monotonic() - start
        base.close()
    print(f"SQLite inserts the rows in one transaction in {spent:.3f} s, {spent / len(rows) * 1e6:.2f} us a row")


def main():
    program, where = os.path.abspath(sys.argv[1]), sys.argv[2]
    memory = "/dev/shm" if os.path.isdir("/dev/shm") else where
    rows = documents(random.Random(2), ROWS)
    durable(program, where)
    opening(program, memory, where, f"a journal of {ROWS:,} changes", inserts(rows), ROWS)
    opening(program, memory, where, f"a journal of a load of {ROWS:,} rows", load(rows), ROWS)
    sqlite(where, rows)


main()

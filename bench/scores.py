#!/usr/bin/env python3
"""Times updates of counted rows through the built program, at few and at many rows, and measures what a counted row takes.

Run it with the program's path: bench/scores.py crates/svr/out/svr
"""

import json
import os
import random
import subprocess
import sys
import tempfile
import threading
import time

# A folder in memory, where a sync costs little.
MEMORY = "/dev/shm" if os.path.isdir("/dev/shm") else None
DOCUMENTS = 20_000
UPDATES = 200_000
SCHEMA = {
    "tables": [
        {"name": "movies", "columns": [{"name": "id", "type": "int"}, {"name": "title", "type": "text"}]},
        {
            "name": "visits",
            "columns": [{"name": "id", "type": "int"}, {"name": "movie", "type": "int"}, {"name": "hits", "type": "int"}],
        },
    ],
    "text": {"table": "movies", "column": "title"},
    "components": [{"kind": "sum", "table": "visits", "by": "movie", "column": "hits", "weight": 1}],
    "divisor": 1,
    "method": {"kind": "id"},
}


def line(**members):
    return json.dumps(members, separators=(",", ":")) + "\n"


def load(table, rows):
    block = "".join(",".join(map(str, row)) + "\n" for row in rows)
    return line(op="load", table=table, bytes=len(block)) + block


def movies():
    return [[number, f"film {number}"] for number in range(DOCUMENTS)]


def visits(chance, count):
    return [[number, chance.randrange(DOCUMENTS), chance.randrange(1_000)] for number in range(count)]


def seconds(program, before, changes):
    """Seconds from the first byte of the changes to the last reply to them, when all that is before them is answered."""
    folder = tempfile.TemporaryDirectory(dir=MEMORY)
    child = subprocess.Popen([program, "serve"], stdin=subprocess.PIPE, stdout=subprocess.PIPE, cwd=folder.name)
    child.stdin.write(before.encode())
    child.stdin.flush()
    for _ in range(3):
        assert b"ok" in child.stdout.readline()
    text = changes.encode()
    writer = threading.Thread(target=lambda: (child.stdin.write(text), child.stdin.close()))
    start = time.monotonic()
    writer.start()
    replies = child.stdout.read()
    spent = time.monotonic() - start
    writer.join()
    assert child.wait() == 0 and replies.count(b"ok") == UPDATES
    folder.cleanup()
    return spent


def memory(program, text):
    script = "import resource,subprocess,sys; subprocess.run([sys.argv[1], 'serve'], stdin=sys.stdin, stdout=subprocess.DEVNULL, check=True); \
print(resource.getrusage(resource.RUSAGE_CHILDREN).ru_maxrss * 1024)"
    with tempfile.TemporaryDirectory(dir=MEMORY) as folder:
        done = subprocess.run([sys.executable, "-c", script, program], input=text.encode(), capture_output=True, check=True, cwd=folder)
    return int(done.stdout)


def session(count):
    """What comes before the changes, and the changes: updates of visits of which each is as likely as any other."""
    chance = random.Random(count)
    rows = visits(chance, count)
    before = line(op="schema", schema=SCHEMA) + load("movies", movies()) + load("visits", rows)
    changes = "".join(
        line(op="update", table="visits", row=[*chance.choice(rows)[:2], chance.randrange(1_000)]) for _ in range(UPDATES)
    )
    return before, changes


def updates(program, counts):
    """The least of several times each. Few and many take turns, so that a slow moment of the machine meets both."""
    sessions = {count: session(count) for count in counts}
    spent = {count: [] for count in counts}
    for _ in range(8):
        for count, (before, changes) in sessions.items():
            spent[count].append(seconds(program, before, changes))
    for count, times in spent.items():
        print(f"{count} visits of {DOCUMENTS} documents: {min(times) / UPDATES * 1e6:.1f} us an update of one")


def main():
    program = os.path.abspath(sys.argv[1])
    updates(program, (2_000, 200_000))
    chance = random.Random(1)
    before = line(op="schema", schema=SCHEMA) + load("movies", movies())
    # in loads of which each has the same room, so that the room itself is not counted
    parts = lambda rows: "".join(load("visits", rows[at : at + 20_000]) for at in range(0, len(rows), 20_000))
    rows = visits(chance, 200_000)
    few, many = (memory(program, before + parts(rows[:count])) for count in (20_000, 200_000))
    print(f"a counted row of three int columns: {(many - few) / 180_000:.0f} bytes")


main()

#!/usr/bin/env python3
"""Kills the built program in the middle of its changes, starts it again, and looks for each change that it had acknowledged.

Run it with the program's path and how many times: tests/killed.py crates/svr/out/svr 50

What is found again must be the first so many of the changes that were sent, at least those whose `ok` was read.
"""

import json
import os
import random
import signal
import subprocess
import sys
import tempfile
import threading
import time

CHANGES = 20_000
SCHEMA = {
    "tables": [
        {"name": "docs", "columns": [{"name": "id", "type": "int"}, {"name": "stars", "type": "int"}, {"name": "text", "type": "text"}]}
    ],
    "text": {"table": "docs", "column": "text"},
    "components": [{"kind": "own", "column": "stars", "weight": 1}],
    "divisor": 1,
    "method": {"kind": "id"},
}


def line(**members):
    return json.dumps(members, separators=(",", ":")) + "\n"


def load(ids):
    block = "".join(f"{number},{number},a car\n" for number in ids)
    return line(op="load", table="docs", bytes=len(block)) + block


def changes():
    """The schema, then inserts, and each tenth time a load of ten rows; behind each the ids that are there after it."""
    yield line(op="schema", schema=SCHEMA), 0
    number = 0
    for turn in range(CHANGES):
        count = 10 if turn % 10 == 9 else 1
        ids = range(number, number + count)
        number += count
        yield (load(ids) if count > 1 else line(op="insert", table="docs", row=[ids[0], ids[0], "a car"])), number


def acknowledged(program, folder, text, seconds):
    """How many changes were answered by `ok` before the program was killed."""
    child = subprocess.Popen([program, "serve"], stdin=subprocess.PIPE, stdout=subprocess.PIPE, cwd=folder)

    def feed():
        try:
            child.stdin.write(text)
            child.stdin.close()
        except BrokenPipeError:
            pass

    threading.Thread(target=feed, daemon=True).start()
    killer = threading.Timer(seconds, child.send_signal, [signal.SIGKILL])
    killer.start()
    replies = child.stdout.read().splitlines(keepends=True)
    child.wait()
    killer.cancel()
    whole = [reply for reply in replies if reply.endswith(b"\n")]
    assert all(reply == b'{"ok":%d}\n' % (place + 1) for place, reply in enumerate(whole)), whole[:3]
    return len(whole)


def found(program, folder, rows):
    """How many changes are found again, by the number that the next one gets; the ids below `rows[n]` are there and no others."""
    text = "".join(line(op="insert", table="docs", row=[number, 0, "a car"]) for number in range(rows[-1] + 1))
    done = subprocess.run([program, "serve"], input=text.encode(), capture_output=True, check=True, cwd=folder)
    replies = done.stdout.splitlines()
    there = 0
    while replies[there] == b'{"error":"key-exists"}':
        there += 1
    assert all(reply.startswith(b'{"ok":') for reply in replies[there:]), replies[there : there + 3]
    count = json.loads(replies[there])["ok"] - 1
    assert count and rows[count - 1] == there, (count, there)
    return count


def main():
    program, times = os.path.abspath(sys.argv[1]), int(sys.argv[2])
    sent = list(changes())
    text = "".join(change for change, _ in sent).encode()
    chance = random.Random(1)
    for turn in range(times):
        with tempfile.TemporaryDirectory() as folder:
            told = acknowledged(program, folder, text, chance.uniform(0.05, 0.6))
            if not told:
                continue
            rows = [count for _, count in sent[: told + 1]]
            count = found(program, folder, rows)
            assert told <= count <= told + 1, (told, count)
            print(f"{turn + 1}: {told} acknowledged, {count} found")


main()

#!/usr/bin/env python3
"""Writes the workload of a number to standard output, by itself: nothing of the program is used.

Run it with the number: tests/workload.py 7 | sha256sum

Each draw is the next word of PCG (XSH RR, 64 bits of state, 32 of output) on stream 1, modulo what it is to be below. The draws are
made in the order in which their values stand in the text.
"""

import itertools
import json
import sys

MULTIPLIER = 6364136223846793005
STREAM = 1
MOVIES, REVIEWS, VISITS, STEPS, SEARCHES = 2000, 3000, 2000, 600, 10
SCHEMA = {
    "tables": [
        {"name": "movies", "columns": [{"name": "id", "type": "int"}, {"name": "title", "type": "text"}]},
        {"name": "reviews", "columns": [{"name": name, "type": "int"} for name in ("id", "movie", "stars")]},
        {"name": "visits", "columns": [{"name": name, "type": "int"} for name in ("id", "movie", "hits")]},
    ],
    "text": {"table": "movies", "column": "title"},
    "components": [
        {"kind": "avg", "table": "reviews", "by": "movie", "column": "stars", "weight": 200, "empty": 0},
        {"kind": "sum", "table": "visits", "by": "movie", "column": "hits", "weight": 1},
    ],
    "divisor": 2,
    "method": {"kind": "chunk", "ratio": 200, "min_docs": 4},
}


def words_of(seed):
    """The words of the generator, as its authors' C code has them: it starts by a step, the seed, and a step more."""
    increment = (STREAM * 2 + 1) % 2**64
    state = ((increment + seed) * MULTIPLIER + increment) % 2**64
    while True:
        shifted = ((state >> 18) ^ state) >> 27 & 0xFFFFFFFF
        turn = state >> 59
        yield (shifted >> turn | shifted << (-turn & 31)) & 0xFFFFFFFF
        state = (state * MULTIPLIER + increment) % 2**64


def request(op, **members):
    return json.dumps({"op": op} | members, separators=(",", ":")) + "\n"


def workload(number):
    """The requests with their blocks, one after the other."""
    words = words_of(number)

    def draw(below):
        return next(words) % below

    def word():
        return f"w{draw(400)}"

    def text():
        return " ".join(word() for _ in range(8))

    def load(table, rows):
        block = "".join(",".join(map(str, row)) + "\n" for row in rows)
        return request("load", table=table, bytes=len(block), header=False) + block

    def search():
        query = " ".join([word(), word()])
        mode = "any" if draw(2) == 1 else "all"
        return request("search", query=query, mode=mode, k=1 + draw(20))

    merging = itertools.cycle(
        [request("merge-begin"), request("merge-slice", terms=200), request("merge-slice", terms=200), request("merge-publish")]
    )

    def step():
        choice = draw(10)
        if choice <= 3:
            visit = 1 + draw(2000)
            return request("update", table="visits", row=[visit, visit, draw(20000)])
        if choice == 4:
            movie = 1 + draw(2000)
            return request("update", table="movies", row=[movie, text()])
        if choice == 5:
            return request("delete", table="reviews", id=1 + draw(3000))
        return next(merging) if choice == 9 else search()

    yield request("schema", schema=SCHEMA)
    yield load("movies", ([movie, text()] for movie in range(1, MOVIES + 1)))
    yield load("reviews", ([review, 1 + draw(2000), 1 + draw(5)] for review in range(1, REVIEWS + 1)))
    yield load("visits", ([visit, visit, draw(10000)] for visit in range(1, VISITS + 1)))
    yield request("merge")
    for _ in range(STEPS):
        yield step()
    yield request("merge")
    for _ in range(SEARCHES):
        yield search()


def main():
    for piece in workload(int(sys.argv[1])):
        sys.stdout.write(piece)


main()

#!/usr/bin/env python3
"""Compares the built program with SQLite, which is used in two ways: FTS5 joined with a table of scores, and a table of postings by hand,
clustered by term, score and document.

Run it with the program's path: bench/compare.py crates/svr/out/svr [--documents 200000] [--folder .]

A document has eight words, of which a few are common and most are rare (the n-th is drawn with a weight of 1/n), and is ranked by the visits of
another table, of which most documents have few and a few very many. The same questions and the same changes go to all three, and their answers
are compared. Times are medians, but for loads and merges, which are made once, loads with what a client does to make them; a stream is sent
before its replies are read. The program is asked through its pipe; the row of the pipe alone says what of a time is the pipe's. All run on one
processor, since to wake another one may take longer than a search. SQLite is called in Python's process, has a cache that all its pages fit in,
keeps a log (WAL) and syncs at each commit, and each change is a transaction where nothing else is said. By hand each change of a score takes a
document's postings out and puts them back, and a question for all of two terms begins with the rarer one.
"""

import argparse
import itertools
import json
import os
import platform
import random
import sqlite3
import statistics
import subprocess
import tempfile
import threading
import time

VOCABULARY = 50_000
WORDS_EACH = 8
LOADED = 50_000  # rows of one block, which stays below 8 MiB
QUESTIONS = 50
ASKED = 5  # times each question is asked
ALONE = 300  # changes one at a time
STREAM = 2_000
ROUND = 250  # changes of a stream, before the next system has its turn
IN_ONE = 1_000  # changes of one transaction
BEST = 10
KINDS = [
    ("one common term", ["common"], "all"),
    ("two common terms, any", ["common", "common"], "any"),
    ("two common terms, all", ["common", "common"], "all"),
    ("one rare term", ["rare"], "all"),
    ("a rare and a common term, all", ["rare", "common"], "all"),
    ("two middling terms, any", ["middling", "middling"], "any"),
    ("two middling terms, all", ["middling", "middling"], "all"),
    ("two rare terms, any", ["rare", "rare"], "any"),
]
SCHEMA = {
    "tables": [
        {"name": "docs", "columns": [{"name": "id", "type": "int"}, {"name": "text", "type": "text"}]},
        {"name": "visits", "columns": [{"name": "id", "type": "int"}, {"name": "doc", "type": "int"}, {"name": "hits", "type": "int"}]},
    ],
    "text": {"table": "docs", "column": "text"},
    "components": [{"kind": "sum", "table": "visits", "by": "doc", "column": "hits", "weight": 1}],
    "divisor": 1,
    "method": {"kind": "chunk", "ratio": 200, "min_docs": 4},
}


def line(**members):
    return (json.dumps(members, separators=(",", ":")) + "\n").encode()


def load(table, rows):
    block = "".join(",".join(map(str, row)) + "\n" for row in rows).encode()
    return line(op="load", table=table, bytes=len(block)) + block


def some_documents(chance, ids):
    words = [f"w{number}" for number in range(1, VOCABULARY + 1)]
    weights = list(itertools.accumulate(1 / number for number in range(1, VOCABULARY + 1)))
    return [[number, " ".join(chance.choices(words, cum_weights=weights, k=WORDS_EACH))] for number in ids]


def some_visits(chance, count):
    """A row for each document."""
    return [[number, number, int(10 * chance.paretovariate(1))] for number in range(count)]


def seconds(work):
    start = time.perf_counter()
    work()
    return time.perf_counter() - start


class Served:
    """The program, through its pipe."""

    def __init__(self, program, folder):
        self.program, self.folder, self.file = program, folder, os.path.join(folder, "svr.db")
        self.open()
        self.empty = self.memory()
        self.accepts([line(op="schema", schema=SCHEMA)])

    def open(self):
        self.child = subprocess.Popen([self.program, "serve"], stdin=subprocess.PIPE, stdout=subprocess.PIPE, cwd=self.folder)

    def close(self):
        self.child.stdin.close()
        assert self.child.wait() == 0

    def ask(self, request):
        self.child.stdin.write(request)
        self.child.stdin.flush()
        return self.child.stdout.readline()

    def accepts(self, requests):
        """All are sent before the replies are read."""
        writer = threading.Thread(target=lambda: (self.child.stdin.write(b"".join(requests)), self.child.stdin.flush()))
        writer.start()
        for _ in requests:
            reply = self.child.stdout.readline()
            assert reply.startswith(b'{"ok":'), reply
        writer.join()

    def memory(self):
        """Bytes that the process has in memory, when it has answered."""
        self.ask(b"{}\n")
        with open(f"/proc/{self.child.pid}/status") as status:
            return next(int(entry.split()[1]) * 1024 for entry in status if entry.startswith("VmRSS"))

    def load(self, documents, visits):
        for table, rows in ("docs", documents), ("visits", visits):
            self.accepts([load(table, rows[at : at + LOADED]) for at in range(0, len(rows), LOADED)])

    def merge(self):
        """The whole merge, or else its steps, where it isn't served."""
        if b"ok" in self.ask(line(op="merge")):
            return
        left = json.loads(self.ask(line(op="merge-begin")))["left"]
        while left:
            left = json.loads(self.ask(line(op="merge-slice", terms=1000)))["left"]
        self.accepts([line(op="merge-publish")])

    def question(self, terms, mode):
        return line(op="search", query=" ".join(terms), mode=mode, k=BEST)

    def find(self, question):
        return self.ask(question)

    def hits(self, answer):
        return [tuple(hit) for hit in json.loads(answer)["hits"]]

    def update(self, row):
        return line(op="update", table="visits", row=row)

    def change(self, update):
        assert self.ask(update).startswith(b'{"ok":')

    def changes(self, updates):
        self.accepts(updates)

    def inserts(self, documents):
        self.accepts([line(op="insert", table="docs", row=row) for row in documents])


class Sqlite:
    """What both ways have in common."""

    def __init__(self, folder, name):
        self.file = os.path.join(folder, name)
        self.open()
        self.base.executescript(self.TABLES)

    def open(self):
        self.base = sqlite3.connect(self.file, isolation_level=None)
        for setting in "journal_mode = wal", "synchronous = full", "cache_size = -1000000", "temp_store = memory":
            self.base.execute(f"pragma {setting}")

    def close(self):
        self.base.execute("pragma wal_checkpoint(truncate)")
        self.base.close()

    def in_one(self, work, *given):
        self.base.execute("begin")
        work(*given)
        self.base.execute("commit")

    def load(self, documents, visits):
        self.in_one(self.add_all, documents, visits)

    def question(self, terms, mode):
        return terms, mode

    def hits(self, answer):
        return answer

    def update(self, row):
        return row

    def change(self, row):
        self.in_one(self.set_visits, row)

    def changes(self, rows):
        for row in rows:
            self.change(row)

    def changes_in_one(self, rows):
        self.in_one(lambda: [self.set_visits(row) for row in rows])

    def inserts(self, documents):
        for document in documents:
            self.in_one(self.add, *document)

    def set_visits(self, row):
        name, document, hits = row
        (before,) = self.base.execute("select hits from visits where id = ?", (name,)).fetchone()
        (score,) = self.base.execute("select score from scores where doc = ?", (document,)).fetchone()
        self.base.execute("update visits set hits = ? where id = ?", (hits, name))
        self.base.execute("update scores set score = ? where doc = ?", (score - before + hits, document))
        return document, score, score - before + hits

    def add(self, name, text):
        (score,) = self.base.execute("select coalesce(sum(hits), 0) from visits where doc = ?", (name,)).fetchone()
        self.base.execute("insert into docs (rowid, text) values (?, ?)", (name, text))
        self.base.execute("insert into scores values (?, ?)", (name, score))
        return score

    def add_all(self, documents, visits):
        self.base.executemany("insert into docs (rowid, text) values (?, ?)", documents)
        self.base.executemany("insert into visits values (?, ?, ?)", visits)
        self.base.execute("insert into scores select doc, sum(hits) from visits group by doc")


class FullText(Sqlite):
    TABLES = """
        create virtual table docs using fts5(text, detail=none);
        create table visits (id integer primary key, doc integer, hits integer);
        create index visits_of on visits (doc);
        create table scores (doc integer primary key, score integer);
    """

    def merge(self):
        self.base.execute("insert into docs (docs) values ('optimize')")

    def question(self, terms, mode):
        return (" OR " if mode == "any" else " AND ").join(terms)

    def find(self, question):
        return self.base.execute(
            "select doc, score from docs join scores on doc = docs.rowid where docs match ? order by score desc, doc limit ?", (question, BEST)
        ).fetchall()


class ByHand(Sqlite):
    TABLES = """
        create table docs (id integer primary key, text text);
        create table visits (id integer primary key, doc integer, hits integer);
        create index visits_of on visits (doc);
        create table scores (doc integer primary key, score integer);
        create table postings (term text, score integer, doc integer, primary key (term, score desc, doc)) without rowid;
        create table counts (term text primary key, documents integer) without rowid;
    """
    ONE = "select doc, score from postings where term = ? order by score desc, doc limit ?"
    ANY = f"select * from (select * from ({ONE}) union select * from ({ONE})) order by score desc, doc limit ?"
    ALL = """
        select a.doc, a.score from postings a cross join postings b on b.term = ? and b.score = a.score and b.doc = a.doc
        where a.term = ? order by a.score desc, a.doc limit ?
    """
    COUNTS = "select term from counts where term in (?, ?) order by documents desc"

    def merge(self):
        pass

    def find(self, question):
        terms, mode = question
        if len(terms) == 1:
            return self.base.execute(self.ONE, (*terms, BEST)).fetchall()
        if mode == "any":
            return self.base.execute(self.ANY, (terms[0], BEST, terms[1], BEST, BEST)).fetchall()
        often, seldom = (term for term, in self.base.execute(self.COUNTS, terms))
        return self.base.execute(self.ALL, (often, seldom, BEST)).fetchall()

    def set_visits(self, row):
        document, before, now = super().set_visits(row)
        (text,) = self.base.execute("select text from docs where id = ?", (document,)).fetchone()
        moved = [(now, term, before, document) for term in set(text.split())]
        self.base.executemany("update postings set score = ? where term = ? and score = ? and doc = ?", moved)

    def add(self, name, text):
        score, terms = super().add(name, text), set(text.split())
        self.base.executemany("insert into postings values (?, ?, ?)", [(term, score, name) for term in terms])
        counted = "insert into counts values (?, 1) on conflict (term) do update set documents = documents + 1"
        self.base.executemany(counted, [(term,) for term in terms])

    def add_all(self, documents, visits):
        super().add_all(documents, visits)
        scores = dict(self.base.execute("select doc, score from scores"))
        postings = [(term, -scores[name], name) for name, text in documents for term in set(text.split())]
        in_order = ((term, -score, name) for term, score, name in sorted(postings))
        self.base.executemany("insert into postings values (?, ?, ?)", in_order)
        self.base.execute("insert into counts select term, count(*) from postings group by term")


def classes_of(documents):
    """Common, middling and rare terms among those of the documents."""
    counts = {}
    for _, text in documents:
        for term in set(text.split()):
            counts[term] = counts.get(term, 0) + 1
    ranked = sorted(counts, key=lambda term: (-counts[term], term))
    classes = {"common": ranked[:50], "middling": ranked[500:1_000], "rare": ranked[len(ranked) // 2 :]}
    for name, terms in classes.items():
        print(f"A {name} term stands in {counts[terms[-1]]:,} to {counts[terms[0]]:,} documents.")
    return classes


def questions_of(chance, classes):
    """For each kind its questions, as terms and a mode."""
    for _, kinds, mode in KINDS:
        asked = []
        while len(asked) < QUESTIONS:
            terms = [chance.choice(classes[kind]) for kind in kinds]
            if len(set(terms)) == len(terms):
                asked.append((terms, mode))
        yield asked


def agree(systems, asked):
    """Whether all find the same hits for each of these."""
    for terms, mode in asked:
        found = [system.hits(system.find(system.question(terms, mode))) for system in systems]
        assert all(hits == found[0] for hits in found), (terms, mode, found)


def medians(systems, parts, work, repeat=1):
    """The median of the seconds that the work takes each system. A part has what each system is given; they take turns, so that a slow moment of
    the machine meets all of them."""
    spent = [[] for _ in systems]
    for part in parts:
        for system, given, times in zip(systems, part, spent):
            times += [seconds(lambda: work(system, given)) for _ in range(repeat)]
    return [statistics.median(times) for times in spent]


def in_parts(rows, size):
    return [rows[at : at + size] for at in range(0, len(rows), size)]


def microseconds(systems, asked):
    parts = [[system.question(*question) for system in systems] for question in asked]
    return [1e6 * spent for spent in medians(systems, parts, lambda system, question: system.find(question), ASKED)]


def raised(visits, chosen, change):
    """Visits of the documents that were chosen, with other numbers of hits."""
    for place in chosen:
        visits[place] = [*visits[place][:2], change(visits[place][2])]
        yield visits[place]


def turns(systems, kinds, size, work):
    """For each kind of changes the median of the seconds that so many take each system; the kinds take turns too."""
    parts = zip(*(in_parts(rows, size) for rows in kinds))
    given = [[[system.update(row) for row in part] for part in turn for system in systems] for turn in parts]
    return in_parts(medians(systems * len(kinds), given, work), len(systems))


def changes(systems, kinds):
    """The rows of the table for changes one at a time, in a stream, and several in a transaction."""
    alone = turns(systems, [rows[:ALONE] for rows in kinds.values()], 1, lambda system, updates: system.change(*updates))
    stream = turns(systems, [rows[ALONE : ALONE + STREAM] for rows in kinds.values()], ROUND, lambda system, updates: system.changes(updates))
    rest = [rows[ALONE + STREAM :] for rows in kinds.values()]
    in_one = turns(systems[1:], rest, IN_ONE, lambda system, updates: system.changes_in_one(updates))
    systems[0].changes([systems[0].update(row) for rows in rest for row in rows])
    for name, one, many, batch in zip(kinds, alone, stream, in_one):
        yield f"{name}, one at a time: us", [1e6 * spent for spent in one]
        yield f"{name}, in a stream: a second", [ROUND / spent for spent in many]
        yield f"the same, {IN_ONE:,} a transaction: a second", [None] + [IN_ONE / spent for spent in batch]


def inserts(systems, rows):
    parts = [[part] * len(systems) for part in in_parts(rows, ROUND)]
    return [ROUND / spent for spent in medians(systems, parts, lambda system, part: system.inserts(part))]


def opened(system, question):
    """Seconds from the start to the first answer."""
    system.close()
    return seconds(lambda: (system.open(), system.find(system.question(*question))))


def number(value):
    if value is None:
        return "-"
    return f"{value:,.0f}" if value >= 100 else f"{value:.3g}"


def print_table(rows):
    print("\n| what | svr | FTS5 | table by hand |\n|---|---|---|---|")
    for name, values in rows:
        print(f"| {name} | {' | '.join(map(number, values))} |")


def sync_time(folder):
    """The median of microseconds that a write of a page and its sync take."""
    with tempfile.TemporaryFile(dir=folder) as file:
        write = lambda: (os.write(file.fileno(), bytes(4096)), os.fdatasync(file.fileno()))
        return statistics.median(seconds(write) for _ in range(200)) * 1e6


def machine(folder):
    with open("/proc/cpuinfo") as facts:
        names = [entry.split(":")[1].strip() for entry in facts if entry.startswith("model name")]
    print(f"\n{names[0] if names else platform.machine()}, {os.cpu_count()} processors, {platform.system()} {platform.release()}; ", end="")
    print(f"a page written and synced in {sync_time(folder):.0f} us; Python {platform.python_version()}, SQLite {sqlite3.sqlite_version}")


def compare(systems, count):
    chance = random.Random(1)
    documents, visits = some_documents(chance, range(count)), some_visits(chance, count)
    later = some_documents(chance, range(count, count + STREAM))
    kinds = list(questions_of(chance, classes_of(documents)))
    every = [question for asked in kinds for question in asked]
    served, rows = systems[0], []
    loads = [2 * count / seconds(lambda: system.load(documents, visits)) for system in systems]
    merges = [seconds(system.merge) if not isinstance(system, ByHand) else None for system in systems]
    memory = (served.memory() - served.empty) / count
    agree(systems, every)
    rows.append(("the pipe alone: us", [statistics.median(seconds(lambda: served.ask(b"{}\n")) for _ in every) * 1e6, None, None]))
    for (name, _, _), asked in zip(KINDS, kinds):
        rows.append((f"{name}: us", microseconds(systems, asked)))
    openings = [statistics.median(opened(system, every[-1]) for _ in range(3)) for system in systems]
    sizes = [os.path.getsize(system.file) / count for system in systems]
    again = (served.memory() - served.empty) / count
    chosen = chance.sample([place for place, row in enumerate(visits) if row[2] < 1_000], 2 * (ALONE + 2 * STREAM))
    stay, move = in_parts(chosen, len(chosen) // 2)
    kinds = {"a score that stays": list(raised(visits, stay, lambda hits: hits + 1))}
    kinds["a score that moves"] = list(raised(visits, move, lambda hits: 8 * hits))
    rows += changes(systems, kinds)
    rows.append(("inserts in a stream: rows a second", inserts(systems, later)))
    rows.append(("loads: rows a second", loads))
    rows.append(("a merge (FTS5: optimize): seconds", merges))
    rows.append(("opening, to the first answer: seconds", openings))
    rows.append(("in memory after the merge: bytes a document", [memory, None, None]))
    rows.append(("in memory when opened again: bytes a document", [again, None, None]))
    rows.append(("in the file: bytes a document", sizes))
    agree(systems, every)
    print(f"All three found the same hits for {len(every)} questions, after the merge, and again after all changes and inserts.")
    print_table(rows)


def main():
    parser = argparse.ArgumentParser()
    parser.add_argument("program")
    parser.add_argument("--documents", type=int, default=200_000, help="from 20,000 to 260,000")
    parser.add_argument("--folder", default=".")
    given = parser.parse_args()
    os.sched_setaffinity(0, {max(os.sched_getaffinity(0))})
    with tempfile.TemporaryDirectory(dir=given.folder) as folder:
        systems = [Served(os.path.abspath(given.program), folder), FullText(folder, "fts5"), ByHand(folder, "by_hand")]
        compare(systems, given.documents)
        for system in systems:
            system.close()
    machine(given.folder)


main()

#!/usr/bin/env python3
"""Plays random sessions through the built program, and compares its replies with those of a plain model.

Run it with the program's path and how many sessions: tests/random_sessions.py crates/svr/out/svr 500
Each session is cut at a random place: the program ends there, and starts again with the file that it left. Steps of merges stand at random
places between the other requests, and a few sessions are over many documents, so that lists have several pages, of which as many are cached as
was drawn at each start. Each session is also played without its merges, and must then find the same hits.

The model keeps rows in dictionaries and computes every score anew from all rows, by the words of docs/REFERENCE.md; where documents are listed
it keeps as a key for each, and as one set of the triples that were published. It knows texts of words in ASCII alone. Where a reply differs,
the session up to there and both replies are printed.
"""

import functools
import json
import os
import random
import subprocess
import sys
import tempfile

GREATEST = 2**48 - 1
MANY = 520  # more than the pairs of two pages
WORDS = ["rain", "man", "sun", "Purple", "RED", "sea", "sky"]
TEXT_TABLE = "films"
EACH_SCORE = {"kind": "chunk", "ratio": 100, "min_docs": 1}  # may be a bound
METHODS = [
    {"kind": "id"},
    {"kind": "score"},
    {"kind": "score-threshold", "num": 3, "den": 2},
    {"kind": "score-threshold", "num": 1, "den": 1},
    {"kind": "score-threshold", "num": 1000000, "den": 1},
    {"kind": "chunk", "ratio": 200, "min_docs": 1},
    EACH_SCORE,
    {"kind": "chunk", "ratio": 150, "min_docs": 2},
    {"kind": "chunk", "ratio": 100, "min_docs": 3},
    {"kind": "chunk", "ratio": 100000, "min_docs": 1},
]
# A folder in memory, where a sync costs little.
MEMORY = "/dev/shm" if os.path.isdir("/dev/shm") else None


def table(name, columns):
    return {"name": name, "columns": [{"name": column, "type": kind} for column, kind in columns]}


TABLES = [
    table("reviews", [("id", "int"), ("film", "int"), ("stars", "int"), ("kind", "text"), ("other", "int")]),
    table(TEXT_TABLE, [("id", "int"), ("price", "int"), ("title", "text"), ("year", "int")]),
    table("visits", [("id", "int"), ("film", "int"), ("hits", "int")]),
]
COLUMNS = {entry["name"]: [column["name"] for column in entry["columns"]] for entry in TABLES}
KINDS = {entry["name"]: [column["type"] for column in entry["columns"]] for entry in TABLES}
TEXT_PLACE = COLUMNS[TEXT_TABLE].index("title")


@functools.cache
def terms_of(text):
    return frozenset(word.lower() for word in text.split())


def bounds_of(spec, scores):
    """The bounds of chunks for the scores of all documents."""
    bounds = [0]
    while spec["kind"] == "chunk" and len(bounds) < 64:
        low = bounds[-1]
        reached = (score for score in sorted(set(scores)) if score > low and score * 100 >= max(low, 1) * spec["ratio"])
        following = next((score for score in reached if sum(low <= other < score for other in scores) >= spec["min_docs"]), None)
        if following is None:
            break
        bounds.append(following)
    return bounds


class Method:
    """Where documents are listed, by the rules of a schema's method."""

    def __init__(self, spec, bounds):
        self.spec, self.kind, self.bounds = spec, spec["kind"], bounds

    def chunk_of(self, score):
        return max(place for place, bound in enumerate(self.bounds) if bound <= score)

    def key(self, score):
        if self.kind == "chunk":
            return self.chunk_of(score)
        return 0 if self.kind == "id" else score

    def bound(self, key):
        if self.kind == "chunk":
            return self.bounds[key + 2] - 1 if key + 2 < len(self.bounds) else GREATEST
        if self.kind == "score-threshold":
            return min(key * self.spec["num"] // self.spec["den"], GREATEST)
        return key if self.kind == "score" else GREATEST

    def stays(self, score, key):
        if self.kind == "chunk":
            return self.chunk_of(score) <= key + 1
        return score == key if self.kind == "score" else score <= self.bound(key)


class Merge:
    """A merge that is begun: the rules and the keys that are fixed then, what has changed since, and what was sliced."""

    def __init__(self, spec, scores):
        self.method = Method(spec, bounds_of(spec, list(scores.values())))
        self.keys = {name: self.method.key(score) for name, score in scores.items()}
        self.touched, self.last, self.sliced = set(), "", set()


class Model:
    """What is served, by the definitions."""

    def __init__(self, schema):
        self.schema, self.rows, self.changes = schema, {name: {} for name in COLUMNS}, 1
        self.scores, self.texts = {}, {}
        # Of each document its key, and whether it is moved; and the triples of a term, a key and a document.
        self.entries, self.posted = {}, set()
        self.method, self.merge = Method(schema["method"], [0]), None

    def counted(self, component):
        """The values that another table's rows give a component, by document."""
        place, wanted = COLUMNS[component["table"]].index, component.get("filter")
        values = {}
        for row in self.rows[component["table"]].values():
            if wanted is None or row[place(wanted["column"])] == wanted["equals"]:
                values.setdefault(row[place(component["by"])], []).append(row[place(component.get("column", "id"))])
        return values

    def values(self, component):
        """The value of a component for each document."""
        documents = self.rows[TEXT_TABLE]
        if component["kind"] == "own":
            return {name: row[COLUMNS[TEXT_TABLE].index(component["column"])] for name, row in documents.items()}
        counted = self.counted(component)
        return {name: value_of(component, counted.get(name, [])) for name in documents}

    def scores_now(self):
        totals = dict.fromkeys(self.rows[TEXT_TABLE], 0)
        for component in self.schema["components"]:
            for name, value in self.values(component).items():
                totals[name] += component["weight"] * value
        return {name: max(0, min(GREATEST, total // self.schema["divisor"])) for name, total in totals.items()}

    def follow(self):
        """After a change of one row: each document that is new, or doesn't stay where it is listed, is listed at the key of its score, and a
        merge is told which documents have changed."""
        scores, texts = self.scores_now(), {name: row[TEXT_PLACE] for name, row in self.rows[TEXT_TABLE].items()}
        if self.merge:
            self.merge.touched |= {name for name, _ in (scores.items() ^ self.scores.items()) | (texts.items() ^ self.texts.items())}
        self.scores, self.texts = scores, texts
        self.entries = {name: entry for name, entry in self.entries.items() if name in scores}
        for name, score in scores.items():
            if name not in self.entries or not self.method.stays(score, self.entries[name][0]):
                self.entries[name] = self.method.key(score), True

    def held(self, term):
        """The keys and documents that stand under a term but aren't posted there, or are moved."""
        with_term = {name for name, text in self.texts.items() if term in terms_of(text)}
        entries = ((name, *self.entries[name]) for name in with_term)
        return {(key, name) for name, key, moved in entries if moved or (term, key, name) not in self.posted}

    def effective(self, term):
        """The keys and documents that stand under a term."""
        posted = {(key, name) for other, key, name in self.posted if other == term and self.entries.get(name) == (key, False)}
        return self.held(term) | {(key, name) for key, name in posted if term in terms_of(self.texts[name])}

    def keys(self, terms):
        """The keys at which terms are posted or held, descending: also those of documents that have left."""
        posted = {key for term, key, _ in self.posted if term in terms}
        return sorted(posted | {key for term in terms for key, _ in self.held(term)}, reverse=True)

    def terms_left(self):
        posted = {term for term, _, _ in self.posted}
        known = posted.union(*map(terms_of, self.texts.values()))
        return sorted(term for term in known if term > self.merge.last and (term in posted or self.held(term)))

    def begin(self):
        if self.merge:
            return {"error": "merging"}
        self.merge = Merge(self.schema["method"], self.scores)
        return {"left": len(self.terms_left())}

    def slice(self, count):
        if not self.merge:
            return {"error": "no-merge"}
        for term in self.terms_left()[:count]:
            untouched = {name for _, name in self.effective(term)} - self.merge.touched
            self.merge.sliced |= {(term, self.merge.keys[name], name) for name in untouched}
            self.merge.last = term
        return {"left": len(self.terms_left())}

    def publish(self):
        if not self.merge:
            return {"error": "no-merge"}
        if self.terms_left():
            return {"error": "merge-unbuilt"}
        merge, self.merge = self.merge, None
        self.posted, self.method = merge.sliced, merge.method
        for name, score in self.scores.items():
            self.entries[name] = (self.method.key(score), True) if name in merge.touched else (merge.keys[name], False)
        return self.accepted()

    def whole_merge(self):
        if self.merge:
            return {"error": "merging"}
        self.begin()
        while self.terms_left():
            self.slice(1000)
        return self.publish()

    def forget_merge(self):
        """The program ends and starts again."""
        self.merge = None

    def bad_row(self, name, row):
        for place, (kind, value) in enumerate(zip(KINDS[name], row)):
            if not isinstance(value, int if kind == "int" else str) or (place == 0 and value < 0):
                return place
        return min(len(row), len(KINDS[name])) if len(row) != len(KINDS[name]) else None

    def accepted(self):
        self.changes += 1
        return {"ok": self.changes}

    def change(self, request):
        name = request["table"]
        if name not in self.rows:
            return {"error": "no-table"}
        rows = self.rows[name]
        if request["op"] == "delete":
            if request["id"] not in rows:
                return {"error": "no-row"}
            del rows[request["id"]]
            self.follow()
            return self.accepted()
        row = request["row"]
        place = self.bad_row(name, row)
        if place is not None:
            return {"error": "bad-row", "column": place}
        if (row[0] in rows) != (request["op"] == "update"):
            return {"error": "key-exists" if request["op"] == "insert" else "no-row"}
        rows[row[0]] = row
        self.follow()
        return self.accepted()

    def load(self, name, rows):
        added = {}
        for number, row in enumerate(rows, 1):
            if row[0] in self.rows[name] or row[0] in added:
                return {"error": "key-exists", "record": number}
            added[row[0]] = row
        for row in rows:
            self.rows[name][row[0]] = row
            self.follow()
        return self.accepted()

    def search(self, request):
        terms = terms_of(request["query"])
        if not terms:
            return {"error": "no-terms"}
        any_term, k = request.get("mode") == "any", request.get("k", 10)
        matching = [name for name, text in self.texts.items() if (terms_of(text) & terms if any_term else terms <= terms_of(text))]
        keys, groups = self.keys(terms), 0
        while groups < len(keys):
            found = sorted((self.scores[name] for name in matching if self.entries[name][0] in keys[:groups]), reverse=True)
            if len(found) >= k and found[k - 1] > self.method.bound(keys[groups]):
                break
            groups += 1
        hits = sorted(([name, self.scores[name]] for name in matching), key=lambda hit: (-hit[1], hit[0]))
        return {"hits": hits[:k], "groups": groups}


def value_of(component, values):
    kind = component["kind"]
    if kind in ("count", "sum"):
        return len(values) if kind == "count" else sum(values)
    if not values:
        return component["empty"]
    if kind == "avg":
        return sum(values) // len(values)
    return min(values) if kind == "min" else max(values)


def some_text(chance):
    return " ".join(chance.choices(WORDS, k=chance.randrange(0, 5)))


def some_number(chance):
    small, wide = chance.randrange(-5, 6), chance.randrange(-(10**6), 10**6)
    return chance.choice([small, small, *[chance.randrange(10 ** chance.randrange(1, 7))] * 4, wide, chance.choice([-(2**63), 2**63 - 1, 2**40])])


def some_row(chance, name, ids):
    row = []
    for column, kind in zip(COLUMNS[name], KINDS[name]):
        if column == "id":
            row.append(chance.randrange(ids))
        elif column in ("film", "other"):
            row.append(chance.randrange(-1, ids))
        else:
            row.append(some_number(chance) if kind == "int" else some_text(chance))
    if chance.random() < 0.05:
        row[chance.randrange(len(row))] = chance.choice(["x", 1.5, None, -1])
    if chance.random() < 0.03:
        row = row[:-1] if chance.random() < 0.5 else row + [1]
    return row


def some_component(chance, weights):
    kind, weight = chance.choice(["own", "sum", "count", "min", "max", "avg"]), chance.choice(weights)
    if kind == "own":
        return {"kind": kind, "column": chance.choice(["price", "year", "id"]), "weight": weight}
    name = chance.choice(["reviews", "visits"])
    ints = [column for column, sort in zip(COLUMNS[name], KINDS[name]) if sort == "int"]
    component = {"kind": kind, "table": name, "by": chance.choice(["film", *ints[1:]]), "weight": weight}
    if kind != "count":
        component["column"] = chance.choice(ints)
    if kind in ("min", "max", "avg"):
        component["empty"] = chance.choice([0, -4, 7])
    if chance.random() < 0.4:
        column = chance.choice(COLUMNS[name])
        is_text = KINDS[name][COLUMNS[name].index(column)] == "text"
        component["filter"] = {"column": column, "equals": some_text(chance) if is_text else chance.randrange(-2, 4)}
    return component


def some_schema(chance, methods):
    weights = chance.choice([[1], [1, 2, 200], [1, -1, 3, 200, 10**9, -(10**9), 0]])
    components = [some_component(chance, weights) for _ in range(chance.choice([0, 1, 1, 2, 2, 3, 5, 7]))]
    if chance.random() < 0.6:
        components.append({"kind": "own", "column": "price", "weight": 1})
    return {
        "tables": TABLES,
        "text": {"table": TEXT_TABLE, "column": "title"},
        "components": components,
        "divisor": chance.choice([1, 1, 2, 7, 10**9]),
        "method": chance.choice(methods),
    }


def load_of(name, rows):
    block = "".join(",".join(map(str, row)) + "\n" for row in rows)
    return line({"op": "load", "table": name, "bytes": len(block)}) + block


def some_load(chance, model, name, ids, count):
    rows = [row for row in (some_row(chance, name, ids) for _ in range(count)) if model.bad_row(name, row) is None]
    if chance.random() < 0.8:
        rows = list({row[0]: row for row in rows}.values())
    return load_of(name, rows), model.load(name, rows)


def load_of_many(chance, model):
    """One term stands in all of these documents."""
    rows = [[number, some_number(chance), some_text(chance) + " rain", some_number(chance)] for number in range(MANY)]
    return load_of(TEXT_TABLE, rows), model.load(TEXT_TABLE, rows)


def some_merge_step(chance, model):
    """The line of a step of a merge, mostly of one that can be taken, and its reply."""
    if chance.random() < 0.05:
        shapes = [{"op": "merge-slice", "terms": 0}, {"op": "merge-slice", "terms": 1001}, {"op": "merge-slice"}, {"op": "merge-begin", "terms": 1}]
        return line(chance.choice(shapes + [{"op": "merge", "x": 1}])), {"error": "bad-shape"}
    if chance.random() < 0.1:
        return line({"op": "merge"}), model.whole_merge()
    due = "begin" if not model.merge else "slice" if model.terms_left() else "publish"
    step = due if chance.random() < 0.8 else chance.choice(["begin", "slice", "publish"])
    if step == "slice":
        count = chance.choice([1, 1, 2, 3, 1000])
        return line({"op": "merge-slice", "terms": count}), model.slice(count)
    return line({"op": f"merge-{step}"}), model.begin() if step == "begin" else model.publish()


def some_search(chance, model):
    query = " ".join(chance.choices(WORDS, k=chance.choice([0, 1, 1, 2])))
    request = {"op": "search", "query": query, "mode": chance.choice(["all", "any"]), "k": chance.choice([1, 3, 10])}
    return line(request), model.search(request)


def some_request(chance, model, ids):
    """The bytes of a request, and its reply."""
    name = chance.choice(list(COLUMNS) + ["songs"] * (chance.random() < 0.1))
    what = chance.random()
    if what < 0.15:
        return some_merge_step(chance, model)
    if what < 0.4:
        return some_search(chance, model)
    if what < 0.5:
        request = {"op": "delete", "table": name, "id": chance.randrange(ids)}
    elif what < 0.58 and name in COLUMNS:
        return some_load(chance, model, name, ids, chance.randrange(4))
    else:
        row = some_row(chance, name if name in COLUMNS else "visits", ids)
        request = {"op": chance.choice(["insert", "update"]), "table": name, "row": row}
    return line(request), model.change(request)


def line(request):
    return json.dumps(request, separators=(",", ":")) + "\n"


def some_words(chance):
    """The words of the command line: how many pages are cached changes no reply."""
    pages = chance.choice([None, 0, 1, 2, 3, 16, 65536])
    return ["serve"] if pages is None else ["serve", "--cache", str(pages)]


def replies_to(program, chance, parts):
    """The replies of runs over one file, one for each part of the requests: each starts with what the one before it has left."""
    replies = []
    with tempfile.TemporaryDirectory(dir=MEMORY) as folder:
        for part in parts:
            text = "".join(part).encode()
            done = subprocess.run([program, *some_words(chance)], input=text, capture_output=True, check=True, cwd=folder)
            replies += [json.loads(reply) for reply in done.stdout.splitlines()]
    return replies


def some_session(chance):
    """Requests, the replies that they want, and how many come before the program starts again."""
    ids = MANY if chance.random() < 0.04 else 8
    model = Model(some_schema(chance, METHODS if ids < MANY else METHODS + [EACH_SCORE] * 5))
    early = {"merge-begin": {}, "merge-slice": {"terms": 1}, "merge-publish": {}, "search": {"query": "rain"}}
    asked = [(line({"op": op, **early[op]}), {"error": "no-schema"}) for op in chance.sample(list(early), chance.choice([0, 0, 1, 4]))]
    asked.append((line({"op": "schema", "schema": model.schema}), {"ok": 1}))
    if ids == MANY:
        asked.append(load_of_many(chance, model))
    asked += [some_load(chance, model, name, ids, 8) for name in chance.sample(list(COLUMNS), chance.choice([0, 3, 3, 3]))]
    count = len(asked) + chance.randrange(150)
    stop = chance.randrange(count + 1)
    while len(asked) < count:
        if len(asked) == stop:
            model.forget_merge()
        asked.append(some_request(chance, model, ids))
    return [request for request, _ in asked], [reply for _, reply in asked], stop


def without_merges(requests):
    return [request for request in requests if not request.startswith('{"op":"merge')]


def hits_in(replies):
    return [reply["hits"] for reply in replies if "hits" in reply]


def differs(program, seed):
    chance = random.Random(seed)
    requests, wanted, stop = some_session(chance)
    parts = requests[:stop], requests[stop:]
    replies = replies_to(program, chance, parts)
    for place, (reply, told) in enumerate(zip(replies, wanted)):
        if reply != told:
            print("".join(requests[: place + 1]), f"seed {seed}: {reply} in place of {told}", sep="")
            if place >= stop:
                print(f"the program was started again behind {stop} requests")
            return True, place
    if hits_in(replies_to(program, chance, map(without_merges, parts))) != hits_in(replies):
        print("".join(requests), f"seed {seed}: without its merges the session finds other hits", sep="")
        return True, len(wanted)
    return len(replies) != len(wanted), len(wanted)


def main():
    program, count = os.path.abspath(sys.argv[1]), int(sys.argv[2])
    results = [differs(program, seed) for seed in range(count)]
    faults = sum(fault for fault, _ in results)
    print(f"{count} sessions, {sum(replies for _, replies in results)} replies, {faults} faults")
    sys.exit(1 if faults else 0)


main()

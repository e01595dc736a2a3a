"""Measures posts to a ledger in a file beside the same inserts by Python's sqlite3, and how long the file takes to open again.

Both commit each record before the next comes, with a log that is written ahead and synced at each commit. The file is opened again with
nothing to do; beside it stand Python's sqlite3 reading the same rows, and one settlement of the same lines without a file.
"""
import os
import sqlite3
import subprocess
import time

from measuring import PROGRAM, require

POSTS = 2_000
OPENED = 49_990
RUNS = 3
POSTS_WANTED = 0.8
OPENING_WANTED = 2
SELECTS = [
    "SELECT no, body FROM records ORDER BY no",
    "SELECT voucher, line, side, value, share FROM worths ORDER BY voucher, line, side",
]


def lines_of(vouchers):
    return ['{"do":"item","code":"B","method":"average"}', '{"do":"store","code":"W1","account":100}'] + [
        f'{{"do":"receipt","at":"2026-01-{n % 28 + 1:02}T09:00:00","lines":[{{"item":"B","store":"W1","qty":{n % 9 + 1},"amount":{n % 97 + 1}}}]}}'
        for n in range(vouchers)
    ]


def run(words, lines):
    begin = time.perf_counter()
    done = subprocess.run([*PROGRAM, *words], input="".join(f"{line}\n" for line in lines), capture_output=True, text=True, check=False)
    seconds = time.perf_counter() - begin
    require(done.returncode == 0, f"a run over a file ended with {done.returncode}: {done.stderr}")
    return seconds, done.stdout.splitlines()


def inserts(path, bodies):
    begin = time.perf_counter()
    with sqlite3.connect(path, isolation_level=None) as db:
        db.execute("PRAGMA journal_mode = WAL")
        db.execute("PRAGMA synchronous = FULL")
        db.execute("CREATE TABLE records(no INTEGER PRIMARY KEY, body BLOB NOT NULL) STRICT")
        for number, body in enumerate(bodies, 1):
            db.execute("INSERT INTO records(no, body) VALUES(?, ?)", (number, body))
    return time.perf_counter() - begin


def read(path):
    begin = time.perf_counter()
    with sqlite3.connect(path) as db:
        rows = [db.execute(select).fetchall() for select in SELECTS]
    return time.perf_counter() - begin, rows


def posts(room):
    lines = lines_of(POSTS)
    best, beside = [], []
    for turn in range(RUNS):
        path, other = f"{room}/posted-{turn}", f"{room}/inserted-{turn}"
        seconds, replies = run(["--file", path], lines)
        require(len(replies) == len(lines) and all('"accepted"' in it for it in replies), "a post to a file was not accepted")
        best.append(seconds)
        beside.append(inserts(other, [body for _, body in read(path)[1][0]]))
    ratio = min(beside) / min(best)
    return {"posts_per_second": round(POSTS / min(best)), "times_sqlite3": round(ratio, 2), "wanted_at_least": POSTS_WANTED}


def opening(room):
    path = f"{room}/opened"
    lines = [*lines_of(OPENED), '{"do":"settle"}']
    settled, posted = (min(run([], it)[0] for _ in range(RUNS)) for it in (lines, lines[:-1]))
    replay = settled - posted
    run(["--file", path], lines)
    best = min(run(["--file", path], [])[0] for _ in range(RUNS))
    beside = min(read(path)[0] for _ in range(RUNS)) + max(replay, 0)
    return {"movements": OPENED, "seconds": round(best, 3), "times_reading_and_replay": round(best / beside, 2), "wanted_at_most": OPENING_WANTED}


def measure(room):
    """Returns the figures of posts to a file, and of opening it again."""
    os.makedirs(room, exist_ok=True)
    return {"posts": posts(room), "opening": opening(room)}


if __name__ == "__main__":
    import json
    import tempfile

    with tempfile.TemporaryDirectory() as name:
        print(json.dumps(measure(name)))

"""Measures how fast a sheet of many vouchers is read, beside csv of Python, and how fast it is posted into a ledger in a file, beside the
same vouchers as lines of a batch.

What is read alone is the sheet with a last row that is wrong: it is taken and read whole, and nothing is posted. The time is that of the
whole program, from its start to its end; of Python it is that of csv.reader over the same bytes, once it runs. Both imports and batches
commit each voucher before the next, and their outputs have to be the same.
"""
import csv
import datetime
import io
import json
import os
import subprocess
import sys
import time

from measuring import PROGRAM, require

VOUCHERS = 20_000
ITEMS, STORES = 50, 4
RUNS = 3
READING_WANTED = 3
POSTING_WANTED = 1.1
HEAD = ["voucher", "do", "at", "item", "store", "to", "qty", "amount"]
PYTHON_READING = """
import csv, io, sys, time
given = sys.stdin.buffer.read()
begin = time.perf_counter()
rows = list(csv.reader(io.TextIOWrapper(io.BytesIO(given), encoding="utf-8-sig", newline="")))
print(len(rows), time.perf_counter() - begin)
"""


def heads():
    lines = [{"do": "store", "code": f"W{store}", "account": 100 + store} for store in range(STORES)]
    return lines + [{"do": "item", "code": f"ITEM-{item}", "method": "fifo" if item % 2 else "average"} for item in range(ITEMS)]


def vouchers():
    """Returns the vouchers: of each four two receipts of two lines, a sale and a transfer."""
    start, made = datetime.datetime(2026, 1, 2, 9), []
    for number in range(VOUCHERS):
        at = (start + datetime.timedelta(minutes=number)).isoformat()
        item, store = f"ITEM-{number // 4 % ITEMS}", f"W{number // 4 % STORES}"
        if number % 4 < 2:
            lines = [{"item": item, "store": store, "qty": number % 9 + line + 2, "amount": 100 * line + number % 97} for line in (1, 2)]
            made.append({"do": "receipt", "at": at, "lines": lines})
        elif number % 4 == 2:
            made.append({"do": "issue", "at": at, "use": "sold", "lines": [{"item": item, "store": store, "qty": number % 3 + 1}]})
        else:
            other = f"W{(number // 4 + 1) % STORES}"
            made.append({"do": "transfer", "at": at, "lines": [{"item": item, "from": store, "to": other, "qty": 1}]})
    return made


def row_of(number, voucher, line):
    do = voucher["use"] if voucher["do"] == "issue" else voucher["do"]
    store = line.get("store", line.get("from"))
    return [f"V{number}", do, voucher["at"], line["item"], store, line.get("to", ""), line["qty"], line.get("amount", "")]


def sheet_of(made):
    text = io.StringIO(newline="")
    writer = csv.writer(text)
    writer.writerow(HEAD)
    writer.writerows(row_of(number, voucher, line) for number, voucher in enumerate(made, 1) for line in voucher["lines"])
    return text.getvalue().encode()


def run(words, given, status=0):
    """Runs the program, and returns its seconds and its output."""
    begin = time.perf_counter()
    done = subprocess.run([PROGRAM[0], *words], input=given, capture_output=True, check=False)
    seconds = time.perf_counter() - begin
    require(done.returncode == status, f"{words[0]} ended with {done.returncode}: {done.stderr}")
    return seconds, done.stdout


def reading(sheet, room):
    wrong = sheet + b"wrong,sold,2026-01-02T09:00:00,ITEM-0,W0,,x,\r\n"
    rows = wrong.count(b"\n")
    due = b'{"fault":"bad-row","field":"qty","row":%d,"status":"bad"}\n' % rows
    best = []
    for _ in range(RUNS):
        seconds, told = run(["import", "--file", f"{room}/none"], wrong, 10)
        require(told == due, f"a sheet with a wrong last row was told {told}")
        best.append(seconds)
    beside = []
    for _ in range(RUNS):
        counted = subprocess.run([sys.executable, "-c", PYTHON_READING], input=wrong, stdout=subprocess.PIPE, check=True).stdout.split()
        require(int(counted[0]) == rows, f"Python read {counted[0]} rows of {rows}")
        beside.append(float(counted[1]))
    ratio = min(best) / min(beside)
    if ratio > READING_WANTED:
        print(f"bench: a sheet is read {ratio:.1f} times as long as by Python's csv, and not {READING_WANTED}", file=sys.stderr)
    return {"rows": rows, "bytes": len(wrong), "seconds": round(min(best), 4), "python_seconds": round(min(beside), 4),
            "times_python": round(ratio, 2), "wanted_at_most": READING_WANTED}


def posting(made, sheet, room):
    begun = "".join(f"{json.dumps(it)}\n" for it in heads()).encode()
    lines = "".join(f"{json.dumps(it)}\n" for it in [*made, {"do": "settle"}]).encode()
    of_import, of_batch = [], []
    for turn in range(RUNS):
        imported, answered = f"{room}/imported-{turn}", f"{room}/answered-{turn}"
        for path in (imported, answered):
            run(["batch", "--file", path], begun)
        seconds, told = run(["import", "--file", imported], sheet)
        of_import.append(seconds)
        seconds, replies = run(["batch", "--file", answered], lines)
        of_batch.append(seconds)
        require(told == replies and replies.count(b'"accepted"') == len(made), "an import is told otherwise than a batch")
        for path in (imported, answered):
            os.remove(path)
    ratio = min(of_import) / min(of_batch)
    if ratio > POSTING_WANTED:
        print(f"bench: a sheet is posted {ratio:.2f} times as long as a batch, and not {POSTING_WANTED}", file=sys.stderr)
    return {"vouchers": len(made), "seconds": round(min(of_import), 3), "posts_per_second": round(len(made) / min(of_import)),
            "batch_seconds": round(min(of_batch), 3), "times_batch": round(ratio, 2), "wanted_at_most": POSTING_WANTED}


def measure(room):
    """Returns the figures of a sheet that is read, and of one that is posted."""
    os.makedirs(room, exist_ok=True)
    made = vouchers()
    sheet = sheet_of(made)
    return {"reading": reading(sheet, room), "posting": posting(made, sheet, room)}


if __name__ == "__main__":
    import tempfile

    with tempfile.TemporaryDirectory() as name:
        print(json.dumps(measure(name)))

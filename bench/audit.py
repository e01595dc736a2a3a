"""Compares the audits of files that were spoiled at random with those of a plain check, and measures the audit of a large file.

The plain check states the rules once more: the head, each record at its place, and each stored worth against what the judge finds over
the rows that are stored before it.
"""
import contextlib
import json
import os
import random
import shutil
import sqlite3
import subprocess
import time

import all_kinds
import plain_replay
from measuring import PROGRAM, require

STOCKD = PROGRAM[0]
SPOILED = 200
VOUCHERS = 120
# What is accepted after the last settlement, which no worth is stored of yet.
UNCOVERED = 10
VERSION = 2
# Tables of this version become the other one where they are opened.
OLD_VERSION = 1
SIDES = {plain_replay.LEAVES: "out", plain_replay.ENTERS: "in"}
LARGE = 40_000
LINES = 5
RUNS = 3
TIMES_WANTED = 5


def audit(path):
    """Returns the verdict that the program prints, and its status."""
    done = subprocess.run([STOCKD, "audit", "--file", path], capture_output=True, text=True, check=False)
    return done.stdout, done.returncode


# The plain check.


def tables_of(path):
    with contextlib.closing(sqlite3.connect(path)) as db:
        (head,) = db.execute("SELECT version, covered FROM head").fetchall()
        records = db.execute("SELECT no, body FROM records ORDER BY no").fetchall()
        worths = db.execute("SELECT voucher, line, side, value, share FROM worths ORDER BY voucher, line, side").fetchall()
    return head, records, worths


def is_record(body):
    """Whether the bytes are a record as it is written: in order, with no blanks, and with no more than it has to have."""
    try:
        it = json.loads(body)
        written = plain_replay.text_of(it).encode()
    except ValueError:
        return None
    if written != body or type(it) is not dict or type(it.pop("desk", 0)) is not int:
        return None
    return it if it.get("do") not in ("settle", "work", "report") and plain_replay.request_of(json.dumps(it).encode()) else None


def first_unreadable(records, ledger):
    """Returns the number of the first record that has no place in the ledger, and takes those before it in; or None."""
    for place, (number, body) in enumerate(records, 1):
        it = is_record(body) if number == place else None
        if it is None or ledger.post(it)["status"] != "accepted":
            return place
    return None


def differs(record, line, side, stored, due):
    return {"line": line, "record": record, "replayed": due, "side": SIDES[side], "status": "differs", "stored": stored}


def first_difference(ledger, covered, worths):
    """Returns where the stored worths are not right first, or None; and the rows and the charges of the covered records."""
    stored = {(record, line, side): [value, share] for record, line, side, value, share in worths}
    charges = ledger.charges(covered)
    movements = sorted(it for it in ledger.ever if it.record <= covered and ledger.is_in_force(it.record, covered))
    rows = []
    for it in movements:
        due = [plain_replay.value_of(it, rows, charges), plain_replay.share_of(it, rows, charges)]
        found = stored.pop((it.record, it.line, it.side), [])
        if found != due:
            return differs(it.record, it.line, it.side, found, due), rows, charges
        rows.append((it, due[0]))
    for (record, line, side), found in stored.items():
        return differs(record, line, side, found, []), rows, charges
    return None, rows, charges


def verdict_of(path):
    """Returns the line that is due for the file."""
    (version, covered), records, worths = tables_of(path)
    if version not in (OLD_VERSION, VERSION) or not 0 <= covered <= len(records):
        return {"status": "head"}
    ledger = plain_replay.Ledger()
    number = first_unreadable(records, ledger)
    if number is not None:
        return {"record": number, "status": "unreadable"}
    found, rows, charges = first_difference(ledger, covered, worths)
    if found is not None:
        return found
    return {"accounts": ledger.balances(rows, charges), "covered": covered, "records": len(records), "status": "sound"}


# Files, and how they are spoiled.


def lines_of_ledger():
    maker = all_kinds.Maker(49, 40)
    for number in range(VOUCHERS):
        maker.posting()
        maker.correct()
        if number == VOUCHERS - UNCOVERED:
            maker.lines.append('{"do":"settle"}')
    return maker.lines


def write_ledger(path, lines):
    given = "".join(f"{line}\n" for line in lines)
    done = subprocess.run([STOCKD, "batch", "--file", path], input=given, capture_output=True, text=True, check=False)
    require(done.returncode == 0, f"a run over a file ended with {done.returncode}: {done.stderr}")


def some_worth(db, chance):
    return chance.choice(db.execute("SELECT voucher, line, side, value, share FROM worths").fetchall())


def change_worth(db, chance):
    voucher, line, side, value, share = some_worth(db, chance)
    name, old = chance.choice([("value", value), ("share", share)])
    new = chance.choice([old + 1, old - 1, 0, -old, chance.randrange(10**6)])
    db.execute(f"UPDATE worths SET {name} = ? WHERE voucher = ? AND line = ? AND side = ?", (new, voucher, line, side))


def take_worth(db, chance):
    db.execute("DELETE FROM worths WHERE voucher = ? AND line = ? AND side = ?", some_worth(db, chance)[:3])


def add_worth(db, chance):
    voucher, line, side, value, share = some_worth(db, chance)
    at = chance.choice([(voucher, line, 1 - side), (voucher, line + 50, side), (chance.randint(1, 200), line, side)])
    db.execute("INSERT OR IGNORE INTO worths(voucher, line, side, value, share) VALUES(?, ?, ?, ?, ?)", (*at, value, share))


def change_record(db, chance):
    number, body = chance.choice(db.execute("SELECT no, body FROM records").fetchall())
    digits = [at for at, byte in enumerate(body) if 48 <= byte <= 57]
    at = chance.choice(digits) if digits else 0
    new = body[:at] + chance.choice([b"0", b"1", b"7", b" ", b"x"]) + body[at + 1:]
    db.execute("UPDATE records SET body = ? WHERE no = ?", (new, number))


def take_record(db, chance):
    (last,) = db.execute("SELECT max(no) FROM records").fetchone()
    db.execute("DELETE FROM records WHERE no = ?", (chance.choice([last, chance.randint(1, last)]),))


def change_covered(db, chance):
    (last,) = db.execute("SELECT max(no) FROM records").fetchone()
    db.execute("UPDATE head SET covered = ?", (chance.choice([-1, 0, last, last + 1, chance.randint(1, last)]),))


def change_version(db, chance):
    db.execute("UPDATE head SET version = ?", (chance.choice([0, OLD_VERSION, 3, 9]),))


SPOILS = [change_worth, change_worth, take_worth, add_worth, change_record, take_record, change_covered, change_version]


def spoil(path, chance):
    with contextlib.closing(sqlite3.connect(path)) as db, db:
        for change in chance.choices(SPOILS, k=chance.choice([1, 1, 1, 2])):
            change(db, chance)


def compare(room):
    """Requires of each file the verdict of the plain check. Returns how many had each."""
    chance, whole, counts = random.Random(20), f"{room}/whole", {}
    write_ledger(whole, lines_of_ledger())
    for number in range(SPOILED + 1):
        path = f"{room}/spoiled-{number}"
        shutil.copyfile(whole, path)
        if number > 0:
            spoil(path, chance)
        due = verdict_of(path)
        (version, covered), *rows = tables_of(path)
        with open(path, "rb") as it:
            before = it.read()
        found, status = audit(path)
        require(found == f"{plain_replay.text_of(due)}\n", f"the audit of file {number} says {found}, and due is {due}")
        require(status == (0 if due["status"] == "sound" else 7), f"the audit of file {number} ended with {status}")
        if version == OLD_VERSION:
            require(tables_of(path) == ((VERSION, covered), *rows), f"the audit changed more of file {number} than its version")
        else:
            with open(path, "rb") as it:
                require(it.read() == before, f"the audit changed file {number}")
        counts[due["status"]] = counts.get(due["status"], 0) + 1
    return counts


def large_lines():
    """Returns vouchers of so many lines each of average and FIFO items, as many movements as a ledger has."""
    lines = [f'{{"do":"item","code":"I{n}","method":"{"average" if n % 2 else "fifo"}"}}' for n in range(20)]
    lines.append('{"do":"store","code":"W","account":100}')
    for n in range(LARGE):
        kind = "issue" if n % 3 == 2 else "receipt"
        rest = '"use":"sold",' if kind == "issue" else ""
        goods = [f'{{"item":"I{(n // 3 + k) % 20}","store":"W","qty":{1 if kind == "issue" else 2}' + ("" if rest else f',"amount":{n % 97 + 1}') + "}"
                 for k in range(LINES)]
        lines.append(f'{{"do":"{kind}","at":"2026-01-{n * 28 // LARGE + 1:02}T09:00:00",{rest}"lines":[{",".join(goods)}]}}')
    return [*lines, '{"do":"settle"}']


def seconds_of(words):
    best = []
    for _ in range(RUNS):
        begin = time.perf_counter()
        done = subprocess.run([STOCKD, *words], input="", capture_output=True, text=True, check=False)
        best.append(time.perf_counter() - begin)
        require(done.returncode == 0, f"{words} ended with {done.returncode}: {done.stderr}")
    return min(best)


def large(room):
    path = f"{room}/large"
    write_ledger(path, large_lines())
    opened, audited = seconds_of(["batch", "--file", path]), seconds_of(["audit", "--file", path])
    return {"movements": LARGE * LINES, "opening": round(opened, 2), "audit": round(audited, 2), "times_opening": round(audited / opened, 2),
            "wanted_at_most": TIMES_WANTED}


def measure(room):
    """Returns how many spoiled files had each verdict, and how long the audit of a large file takes."""
    os.makedirs(room, exist_ok=True)
    return {"verdicts": compare(room), **large(room)}


if __name__ == "__main__":
    import tempfile

    with tempfile.TemporaryDirectory() as name:
        print(json.dumps(measure(name)))

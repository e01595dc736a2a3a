"""Measures how fast each sheet is made and written, beside plain Python that makes it in one pass over the same movements and
writes it by its json and csv."""
import collections
import csv
import datetime
import io
import json
import time

import plain_replay
from measuring import PROGRAM, measure, require, seconds_unwritten

MOVEMENTS = 3_900
ITEMS, STORES = 8, 5
PYTHON_TRIES = 7
TIMES_WANTED = 10
ACCEPTED = ("accepted", "settled")
VOUCHER = ITEMS + STORES + 1


def postings():
    """Returns the lines of a book with as many movements, over so many items in so many warehouses, half of them receipts."""
    lines = [{"do": "store", "code": f"W{store}", "account": 100 + store} for store in range(STORES)]
    lines += [{"do": "item", "code": f"ITEM-{item}", "method": "fifo" if item % 2 else "average"} for item in range(ITEMS)]
    start = datetime.datetime(2026, 1, 2, 9)
    for number in range(MOVEMENTS // 2):
        at = start + datetime.timedelta(minutes=2 * number)
        line = {"item": f"ITEM-{number % ITEMS}", "store": f"W{number // ITEMS % STORES}", "qty": number % 9 + 1}
        lines.append({"do": "receipt", "at": at.isoformat(), "lines": [{**line, "amount": 100 * (number % 9 + 1) + number % 13}]})
        later = (at + datetime.timedelta(minutes=1)).isoformat()
        lines.append({"do": "issue", "at": later, "use": "sold", "lines": [{**line, "qty": number % 9 // 2 + 1}]})
    return [json.dumps(line, separators=(",", ":")) for line in [*lines, {"do": "settle"}]]


# The sheets in plain Python, each in one pass over the movements of this book, which are receipts and sales.


def held(movements):
    """Returns the units and the worth of each item in each warehouse."""
    sums = collections.defaultdict(lambda: [0, 0])
    for it in movements:
        sign, kept = 1 if it["side"] == "in" else -1, sums[it["item"], it["store"]]
        kept[0] += sign * it["qty"]
        kept[1] += sign * it["value"]
    return sums


def balance(movements):
    return [{"item": item, "store": store, "qty": qty, "value": value} for (item, store), (qty, value) in held(movements).items()]


def layers(movements):
    entered, left = collections.defaultdict(list), collections.Counter()
    for it in movements:
        key = it["item"], it["store"]
        if it["side"] == "in":
            entered[key].append(it)
        else:
            left[key] += it["qty"]
    shown = []
    sums = held(movements)
    for (item, store), rows in entered.items():
        if int(item[5:]) % 2 == 0:
            shown.append({"item": item, "store": store, "record": 0, "line": 0, "qty": sums[item, store][0], "value": sums[item, store][1]})
            continue
        taken = left[item, store]
        for it in rows:
            qty = it["qty"]
            if taken < qty:
                shown.append({"item": item, "store": store, "record": it["record"], "line": it["line"], "qty": qty - taken,
                              "value": it["value"] - it["value"] * taken // qty})
            taken = max(0, taken - qty)
    return shown


def ledger(movements):
    sums, shown = collections.defaultdict(lambda: [0, 0]), []
    for it in movements:
        sign, kept = 1 if it["side"] == "in" else -1, sums[it["item"], it["store"]]
        kept[0] += sign * it["qty"]
        kept[1] += sign * it["value"]
        shown.append({**it, "stock": kept[0], "worth": kept[1]})
    return shown


def posted(it):
    """Returns the lines of the general ledger of a receipt or a sale."""
    sign, other = (1, 1) if it["side"] == "in" else (-1, 2)
    return [(100 + int(it["store"][1:]), sign * it["value"]), (other, -sign * it["value"])]


def accounts(movements):
    sums = collections.Counter()
    for it in movements:
        for account, amount in posted(it):
            sums[account] += amount
    return [{"account": account, "balance": sums[account]} for account in sorted(sums)]


def voucher(movements):
    return [{"line": it["line"], "account": account, "debit": max(0, amount), "credit": max(0, -amount)}
            for it in movements if it["record"] == VOUCHER for account, amount in posted(it) if amount]


IN_PYTHON = {"balance": balance, "layers": layers, "ledger": ledger, "accounts": accounts, "voucher": voucher}


def text_of(sheet, form, rows):
    reply = {"covered": 0, "report": sheet, "status": "ok"}
    if form == "json":
        return json.dumps({**reply, "rows": rows}, separators=(",", ":"), sort_keys=True)
    out = io.StringIO()
    written = csv.DictWriter(out, plain_replay.COLUMNS[sheet], lineterminator="\n")
    written.writeheader()
    written.writerows(rows)
    return json.dumps({**reply, "csv": out.getvalue()}, separators=(",", ":"))


def seconds_in_python(sheet, form, movements):
    """Returns the seconds of the best of the tries. The text is made, and written nowhere."""
    best = float("inf")
    for _ in range(PYTHON_TRIES):
        begin = time.perf_counter()
        text_of(sheet, form, IN_PYTHON[sheet](movements))
        best = min(best, time.perf_counter() - begin)
    return best


def checked(count, rows):
    """Returns the check that all was accepted, and that each of so many reports has as many rows."""
    def check(replies):
        wrong = [it for it in replies[:len(replies) - count] if json.loads(it)["status"] not in ACCEPTED]
        require(not wrong, f"a line was answered {wrong[:1]}")
        for reply in set(replies[len(replies) - count:]) if count else ():
            report = json.loads(reply)
            found = report["csv"].count("\n") - 1 if "csv" in report else len(report["rows"])
            require(found == rows, f"a report has {found} rows, and not {rows}")

    return check


def last_reply(lines, room):
    replies = []
    measure(PROGRAM, lines, room, replies.extend, runs=1)
    return replies[-1]


def measure_all(room):
    """Returns, for each sheet in each form, its rows and bytes a second, and how many times as fast it is as Python."""
    book = postings()
    alone = seconds_unwritten(PROGRAM, book, room)
    movements = json.loads(last_reply([*book, '{"do":"report","of":"ledger"}'], room))["rows"]
    movements = [{name: value for name, value in it.items() if name not in ("stock", "worth")} for it in movements]
    found = {}
    for sheet, in_python in IN_PYTHON.items():
        for form in ("json", "csv"):
            asked = {"do": "report", "of": sheet, "as": form, **({"record": VOUCHER} if sheet == "voucher" else {})}
            line, rows = json.dumps(asked, separators=(",", ":")), len(in_python(movements))
            text = last_reply([*book, line], room)
            count = 200 if rows > 1_000 else 5_000
            lines = book + [line] * count
            measure(PROGRAM, lines, room, checked(count, rows), runs=1)
            seconds = max(seconds_unwritten(PROGRAM, lines, room) - alone, 1e-4) / count
            found[f"{sheet}_{form}"] = {
                "rows": rows,
                "microseconds": round(seconds * 1e6, 1),
                "rows_per_second": round(rows / seconds),
                "megabytes_per_second": round(len(text) / seconds / 1e6, 1),
                "times_python": round(seconds_in_python(sheet, form, movements) / seconds, 1),
            }
    return {"movements": MOVEMENTS, "keys": ITEMS * STORES, "times_wanted": TIMES_WANTED, **found}

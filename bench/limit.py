"""Measures `load`, beside the same script in plain Rust (bench/limit.rs) where there is rustc, and books of 200,000 movements.

A load has to print what the plain program comes to, and twice the same. Its growth is from 5,000 to 40,000 vouchers; its memory is that of
a movement, of which the script of N vouchers makes N + N // 4 and four more. A late receipt, posted to the same lines before all that the
script posts of an item in a warehouse, is settled beside what the plain program takes for one: the difference of runs with and without
some. The books are posted in vouchers of 20 lines at moments in no
order, settled, and all five sheets reported.
"""
import os
import random
import shutil
import subprocess
import time

import measuring

PROGRAM = measuring.PROGRAM[0]
PLAIN = f"{measuring.ROOT}/bench/limit.rs"
FEW, MANY = 5_000, 40_000
SMALL_BOOK, LARGE_BOOK = 40_000, 200_000
LINES, ITEMS, STORES = 20, 40, 5
LATE = 20
TIMES_PLAIN_WANTED = 3
GROWTH_WANTED = 12
BYTES_WANTED = 600
BOOK_GROWTH_WANTED = 8
SHEETS = ['"balance"', '"layers"', '"ledger"', '"accounts"', '"voucher","record":60']


def load(count):
    """Returns the seconds of a load, and its line."""
    begin = time.perf_counter()
    line = subprocess.run([PROGRAM, "load", str(count)], stdout=subprocess.PIPE, check=True).stdout.decode()
    return time.perf_counter() - begin, line


def plain(room):
    """Returns the seconds of the plain program and of its late receipt, the best of the runs, and what is held and worth by it; or None where
    there is no rustc."""
    if shutil.which("rustc") is None:
        return None
    subprocess.run(["rustc", "-O", "-o", f"{room}/limit", PLAIN], check=True)
    runs = [subprocess.run([f"{room}/limit", str(MANY)], stdout=subprocess.PIPE, check=True).stdout.split() for _ in range(measuring.RUNS)]
    return min(int(it[2]) for it in runs) / 1e9, min(int(it[3]) for it in runs) / 1e9, [int(it) for it in runs[0][:2]]


def script(count):
    """Returns the lines of `load`, and a settlement."""
    goods = [f'{{"item":"{item}","store":"{store}","qty":{count},"amount":{10 * count}}}' for item in ("L1", "L2") for store in ("S1", "S2")]
    lines = ['{"do":"item","code":"L1","method":"fifo"}', '{"do":"item","code":"L2","method":"average"}']
    lines += ['{"do":"store","code":"S1","account":100}', '{"do":"store","code":"S2","account":101}']
    lines += [f'{{"do":"receipt","at":"2026-01-01T00:00:00","lines":[{",".join(goods)}]}}']
    for k in range(1, count + 1):
        at, item = f"2026-01-{2 + 17 * k % 27:02}T12:00:{k % 60:02}", "L2" if k // 4 % 2 else "L1"
        if k % 4 == 0:
            lines.append(f'{{"do":"receipt","at":"{at}","lines":[{{"item":"{item}","store":"S1","qty":1,"amount":{k % 100 + 1}}}]}}')
        elif k % 4 == 3:
            lines.append(f'{{"do":"transfer","at":"{at}","lines":[{{"item":"{item}","from":"S1","to":"S2","qty":1}}]}}')
        else:
            lines.append(f'{{"do":"issue","at":"{at}","use":"sold","lines":[{{"item":"{item}","store":"S1","qty":1}}]}}')
        if k % 1_000 == 0:
            lines.append('{"do":"work","turns":1000}')
    return lines + ['{"do":"settle"}']


def late_seconds(room):
    """Returns the seconds of a late receipt and its settlement, by both cost formulas half and half."""
    begun = script(MANY)
    late = [line for n in range(LATE)
            for line in (f'{{"do":"receipt","at":"2026-01-01T00:00:01","lines":[{{"item":"L{n % 2 + 1}","store":"S1","qty":1,"amount":7}}]}}', '{"do":"settle"}')]

    def check(replies):
        wrong = [it for it in replies if '"status":"refused"' in it or '"status":"bad"' in it]
        measuring.require(not wrong, f"a late receipt was answered {wrong[:1]}")

    without, whole = (measuring.measure(measuring.PROGRAM, lines, room, check)["seconds"] for lines in (begun, begun + late))
    return (whole - without) / LATE


def book(movements):
    """Returns the lines that post, settle and report so many movements: receipts, and every fourth voucher sells. The first ones bring
    enough of each item into each warehouse."""
    dice = random.Random(1)
    keys = [(item, store) for item in range(ITEMS) for store in range(STORES)]
    firsts = len(keys) // LINES
    lines = [f'{{"do":"item","code":"I{n}","method":"{"fifo" if n % 2 else "average"}"}}' for n in range(ITEMS)]
    lines += [f'{{"do":"store","code":"S{n}","account":{100 + n}}}' for n in range(STORES)]
    for number in range(movements // LINES):
        is_first, sells = number < firsts, number >= firsts and number % 4 == 3
        at = f"20{20 + sells}-{dice.randint(1, 12):02}-{dice.randint(1, 28):02}T{dice.randrange(24):02}:00:00"
        goods = keys[number * LINES:][:LINES] if is_first else [dice.choice(keys) for _ in range(LINES)]
        amount = "" if sells else ',"amount":1000'
        rows = ",".join(f'{{"item":"I{item}","store":"S{store}","qty":{1 if sells else 100_000 if is_first else 9}{amount}}}' for item, store in goods)
        kind = '"issue"' if sells else '"receipt"'
        use = ',"use":"sold"' if sells else ""
        lines.append(f'{{"do":{kind},"at":"{at}"{use},"lines":[{rows}]}}')
    return lines + ['{"do":"settle"}'] + [f'{{"do":"report","of":{of}}}' for of in SHEETS]


def book_seconds(movements, room):
    lines = book(movements)

    def check(replies):
        wrong = [it for it in replies if '"status":"refused"' in it or '"status":"bad"' in it]
        measuring.require(len(replies) == len(lines) and not wrong, f"a book of {movements} movements was answered {wrong[:1]}")

    return measuring.measure(measuring.PROGRAM, lines, room, check)["seconds"]


def measure(room):
    runs = [load(MANY) for _ in range(measuring.RUNS)]
    seconds, line = min(it[0] for it in runs), runs[0][1]
    measuring.require(all(it[1] == line for it in runs), "two loads print other lines")
    few = min(load(FEW)[0] for _ in range(measuring.RUNS))
    movements = MANY + MANY // 4 + 4
    _, peak_kib = measuring.run_once([PROGRAM, "load", str(MANY)], os.devnull, os.devnull)
    small, large, late = book_seconds(SMALL_BOOK, room), book_seconds(LARGE_BOOK, room), late_seconds(room)
    figures = {
        "line": line.strip(), "seconds": round(seconds, 3),
        "growth": round(seconds / few, 2), "growth_wanted_at_most": GROWTH_WANTED,
        "bytes_of_a_movement": round(peak_kib * 1024 / movements), "bytes_wanted_at_most": BYTES_WANTED,
        "late_seconds": round(late, 4),
        "book_seconds": [small, large], "book_growth": round(large / small, 2), "book_growth_wanted_at_most": BOOK_GROWTH_WANTED,
    }
    beside = plain(room)
    if beside is None:
        return {**figures, "plain": "there is no rustc"}
    plain_seconds, plain_late, (stock, worth) = beside
    held = f'"stock":{stock},"worth":{worth}}}'
    measuring.require(line.strip().endswith(held), f"a load prints {line.strip()}, and the plain program {held}")
    return {
        **figures, "plain_seconds": round(plain_seconds, 3), "times_plain": round(seconds / plain_seconds, 2), "times_wanted_at_most": TIMES_PLAIN_WANTED,
        "plain_late_seconds": round(plain_late, 5), "late_times_plain": round(late / plain_late, 1), "late_wanted_at_most": TIMES_PLAIN_WANTED,
    }


if __name__ == "__main__":
    import json
    import tempfile

    measuring.inherit_orphans()
    with tempfile.TemporaryDirectory() as name:
        print(json.dumps(measure(name)))

"""Measures the reading of requests alone, beside json.loads of Python over the same lines: receipts of 1, 10 and 100 lines."""
import datetime
import json
import os
import sys

import measuring
import rounds

LINES = 400_000  # of all receipts of a kind together
KINDS = [1, 10, 100]
ROUNDS = 20
WANTED = 5  # times as fast as Python
PYTHON_ROUNDS = 3
PYTHON_READING = """
import json, sys
lines = sys.stdin.readlines()
for _ in range(int(sys.argv[1])):
    for line in lines:
        json.loads(line)
print(int(sys.argv[1]) * len(lines))
"""


def receipts(lines_of_each):
    start, made = datetime.datetime(2026, 1, 2, 9), []
    for number in range(LINES // lines_of_each):
        at = (start + datetime.timedelta(seconds=number)).isoformat()
        first = number * lines_of_each
        lines = [
            {"item": f"ITEM-{line % 977}", "store": f"W{line % 7}", "qty": line % 997 + 1, "amount": 100 * (line % 997) + line % 13}
            for line in range(first, first + lines_of_each)
        ]
        made.append(json.dumps({"do": "receipt", "at": at, "lines": lines}, separators=(",", ":")))
    return made


def figures(room, lines_of_each):
    """Returns how fast receipts with so many lines each are read by the program and by Python."""
    lines, given = receipts(lines_of_each), f"{room}/receipts"
    with open(given, "w", encoding="ascii") as it:
        it.writelines(f"{line}\n" for line in lines)
    bytes_of_each = os.path.getsize(given) / len(lines)
    of_program = rounds.per_second([*rounds.BENCH, "reading"], given, ROUNDS, len(lines))
    of_python = rounds.per_second([sys.executable, "-c", PYTHON_READING], given, PYTHON_ROUNDS, len(lines))
    ratio = of_program / of_python
    if ratio < WANTED:
        print(f"bench: receipts of {lines_of_each} lines are read {ratio:.1f} times as fast as by Python, and not {WANTED}",
              file=sys.stderr)
    return {
        "requests_per_second": round(of_program),
        "bytes_per_second": round(of_program * bytes_of_each),
        "python_requests_per_second": round(of_python),
        "times_python": round(ratio, 1),
    }


def measure(room):
    return {f"receipts_of_{kind}": figures(room, kind) for kind in KINDS}

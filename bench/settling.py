"""Measures how the time of one settlement grows with the movements of the book, in one run of the program."""
import subprocess
import time

import all_kinds
from measuring import PROGRAM, require

SIZES = [1_000, 2_000, 3_900]
TRIES = 7
GROWTH_WANTED = 5


def settlement(program, item):
    """Returns the seconds of one settlement of the whole book, after a new item, so that there is something to publish."""
    ask(program, item)
    begin = time.perf_counter()
    reply = ask(program, '{"do":"settle"}')
    seconds = time.perf_counter() - begin
    require('"status":"settled"' in reply, f"a settlement was answered {reply}")
    return seconds


def ask(program, line):
    program.stdin.write(f"{line}\n")
    program.stdin.flush()
    return program.stdout.readline()


def measure():
    """Returns the best seconds of a settlement at each number of movements, and by how much they grow from first to last."""
    best = {}
    with subprocess.Popen(PROGRAM, stdin=subprocess.PIPE, stdout=subprocess.PIPE, text=True) as program:
        for size, (postings, items) in zip(SIZES, all_kinds.parts_of(SIZES, TRIES)):
            for line in postings:
                ask(program, line)
            best[size] = min(settlement(program, item) for item in items)
        program.stdin.close()
    growth = best[SIZES[-1]] / best[SIZES[0]]
    return {"seconds": {size: round(seconds, 6) for size, seconds in best.items()}, "growth": round(growth, 2), "wanted_at_most": GROWTH_WANTED}

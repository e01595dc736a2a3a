"""Measures insertions at places in no order into a list in blocks, beside a plain list in blocks in Rust, where there is rustc."""
import shutil
import subprocess
import time

import measuring

BENCH = [measuring.PARTS, "blocks"]
PLAIN = f"{measuring.ROOT}/bench/blocks.rs"
LENGTHS = (50_000, 200_000)
INSERTIONS = 50_000
TIMES_PLAIN_WANTED = 3
GROWTH_WANTED = 3


def seconds_of(program, length, insertions):
    """Returns the seconds of the best of the runs, and the line that each of them printed."""
    seconds, printed = [], set()
    for _ in range(measuring.RUNS):
        begin = time.perf_counter()
        run = subprocess.run([*program, str(length), str(insertions)], stdout=subprocess.PIPE, check=True)
        seconds.append(time.perf_counter() - begin)
        printed.add(run.stdout.decode())
    measuring.require(len(printed) == 1, f"{program[0]} printed {sorted(printed)}")
    return min(seconds), printed.pop()


def microseconds(program):
    """Returns how long an insertion takes at each length, and what was printed."""
    found, printed = {}, []
    for length in LENGTHS:
        idle, _ = seconds_of(program, length, 0)
        seconds, line = seconds_of(program, length, INSERTIONS)
        found[str(length)] = round((seconds - idle) / INSERTIONS * 1e6, 2)
        printed.append(line)
    return found, printed


def measure(room):
    """Returns the microseconds of an insertion at each length, and how many times as long they take as in plain Rust."""
    ours, printed = microseconds(BENCH)
    first, last = (ours[str(length)] for length in LENGTHS)
    figures = {"microseconds": ours, "growth": round(last / first, 2), "growth_wanted_at_most": GROWTH_WANTED}
    rustc = shutil.which("rustc")
    if rustc is None:
        return {**figures, "plain": "there is no rustc"}
    plain = f"{room}/blocks"
    subprocess.run([rustc, "-O", "-o", plain, PLAIN], check=True)
    theirs, same = microseconds([plain])
    measuring.require(printed == same, f"the lists printed {printed} and {same}")
    times = {length: round(ours[length] / theirs[length], 2) for length in ours}
    return {**figures, "plain_microseconds": theirs, "times_plain": times, "times_plain_wanted_at_most": TIMES_PLAIN_WANTED}

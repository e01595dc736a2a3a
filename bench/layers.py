"""Measures takes from layers first in, first out, beside a plain queue that does the same takes."""
import subprocess
import time

import measuring

BENCH = [measuring.PARTS, "layers"]
LAYERS = 100_000


def seconds_of(kind, layers):
    """Returns the seconds of the best of the runs, and the line that each of them printed."""
    seconds, printed = [], set()
    for _ in range(measuring.RUNS):
        begin = time.perf_counter()
        run = subprocess.run([*BENCH, kind, str(layers)], stdout=subprocess.PIPE, check=True)
        seconds.append(time.perf_counter() - begin)
        printed.add(run.stdout.decode())
    measuring.require(len(printed) == 1, f"{kind} of {layers} layers printed {sorted(printed)}")
    return min(seconds), printed.pop()


def measure():
    """Returns how many takes a second there are while so many layers are put in and emptied.

    Each kind is run with no layers too, and the difference is what putting in and taking out takes.
    """
    printed, per_second = {}, {}
    for kind in ("layers", "plain"):
        idle, _ = seconds_of(kind, 0)
        seconds, printed[kind] = seconds_of(kind, LAYERS)
        takes = int(printed[kind].split()[0])
        per_second[kind] = takes / (seconds - idle)
    measuring.require(printed["layers"] == printed["plain"], f"layers and a plain queue printed {printed}")
    return {
        "layers": LAYERS,
        "takes": takes,
        "takes_per_second": round(per_second["layers"]),
        "plain_takes_per_second": round(per_second["plain"]),
        "times_plain": round(per_second["layers"] / per_second["plain"], 2),
    }

"""Measures what a late receipt costs a build of 50,000 movements of one item, beside one pass in plain Rust, where there is rustc."""
import os
import shutil
import subprocess

import measuring

BENCH = [measuring.PARTS, "late"]
PLAIN = f"{measuring.ROOT}/bench/late.rs"
METHODS = ("fifo", "average")
COUNTS = (12_500, 50_000)
MOST_MOVEMENTS = 200_000
TIMES_PLAIN_WANTED = 3
GROWTH_WANTED = 6
OTHER_WANTED_BELOW = 0.01
BYTES_WANTED_BELOW = 200


def build(method, count, then):
    """Returns the milliseconds of the fetch, the turns and the telling of what changed once a receipt came, the best of the runs
    together, and how many movements were valued at first and then, each with a number that their values make in order."""
    best, seen = None, set()
    for _ in range(measuring.RUNS):
        run = subprocess.run([*BENCH, method, str(count), then, "timed"], stdout=subprocess.PIPE, check=True)
        first, _, last, spent = run.stdout.decode().splitlines()
        seen.add((*first.split()[:2], *last.split()[:2]))
        parts = [int(part) / 1e6 for part in spent.split()]
        if best is None or sum(parts) < sum(best):
            best = parts
    measuring.require(len(seen) == 1, f"a late receipt printed {sorted(seen)}")
    return best, seen.pop()


def bytes_of_movement(method):
    """Returns how many bytes of peak memory a movement takes in a build, beside the book that holds it."""
    held, built = (measuring.run_once([*BENCH, method, str(MOST_MOVEMENTS), *words], os.devnull, os.devnull)[1] for words in (["held"], []))
    return round((built - held) * 1024 / MOST_MOVEMENTS, 1)


def of_method(method, plain):
    """Returns the figures of one cost formula."""
    spent, seen = {}, {}
    for count in COUNTS:
        spent[count], seen[count] = build(method, count, "late")
    few, many = (sum(spent[count]) for count in COUNTS)
    other, _ = build(method, COUNTS[-1], "other")
    figures = {
        "milliseconds": dict(zip(("fetch", "turns", "changed"), (round(part, 2) for part in spent[COUNTS[-1]]))),
        "growth": round(many / few, 2), "growth_wanted_at_most": GROWTH_WANTED,
        "other_item_of_that": round(sum(other) / many, 4), "other_item_wanted_below": OTHER_WANTED_BELOW,
    }
    if plain is None:
        return {**figures, "plain": "there is no rustc"}
    run = subprocess.run([plain, method, str(COUNTS[-1])], stdout=subprocess.PIPE, check=True)
    *same, nanoseconds = run.stdout.decode().split()
    measuring.require(tuple(same) == seen[COUNTS[-1]], f"the values made {seen[COUNTS[-1]]} and {same}")
    milliseconds = int(nanoseconds) / 1e6
    return {
        **figures, "plain_milliseconds": round(milliseconds, 3), "times_plain": round(many / milliseconds, 1),
        "times_plain_wanted_at_most": TIMES_PLAIN_WANTED,
    }


def measure(room):
    """Returns the figures by cost formula, and how much memory a build takes."""
    rustc = shutil.which("rustc")
    plain = None
    if rustc is not None:
        plain = f"{room}/late"
        subprocess.run([rustc, "-O", "-o", plain, PLAIN], check=True)
    figures = {method: of_method(method, plain) for method in METHODS}
    memory = {"bytes_of_movement": bytes_of_movement("fifo"), "bytes_wanted_below": BYTES_WANTED_BELOW}
    return {**figures, "memory": memory}

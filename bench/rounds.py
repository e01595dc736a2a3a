"""Measures a part of the program alone: what it does to one input, so many times over in one run."""
import subprocess
import time

import measuring

BENCH = [measuring.PARTS, "rounds"]


def seconds_of(words, given, rounds, count):
    """Returns the seconds of the best of the runs. Each has to print how many were counted in all rounds together."""
    seconds = []
    for _ in range(measuring.RUNS):
        begin = time.perf_counter()
        with open(given, "rb") as it:
            run = subprocess.run([*words, str(rounds)], stdin=it, stdout=subprocess.PIPE, check=True)
        seconds.append(time.perf_counter() - begin)
        measuring.require(int(run.stdout) == rounds * count, f"{words[0]} counted {run.stdout} in {rounds} rounds, and not {count} in each")
    return min(seconds)


def per_second(words, given, rounds, count):
    """Returns how many are done a second. The input is gone over once and many times, and the difference is what the rounds take."""
    once, often = (seconds_of(words, given, number, count) for number in (1, 1 + rounds))
    return rounds * count / (often - once)

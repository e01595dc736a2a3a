"""Compares runs in which a worker's turns come between the lines, in portions at random, with the run in which none come: each
other reply has to be the same."""
import json
import random
import subprocess

from measuring import PROGRAM, require

LISTS = 40
PORTIONS = [1, 1, 2, 3, 7, 30, 200]


def replies(lines):
    """Returns what the program answers to the lines."""
    given = "".join(f"{line}\n" for line in lines).encode()
    return subprocess.run(PROGRAM, input=given, stdout=subprocess.PIPE, check=True).stdout.decode().splitlines()


def with_turns(lines, seed):
    """Returns the lines with turns between them, and which of these are the lines."""
    chance, mixed = random.Random(seed), []
    for line in lines:
        if chance.randrange(3) == 0:
            mixed.append((json.dumps({"do": "work", "turns": chance.choice(PORTIONS)}), False))
        mixed.append((line, True))
    return mixed


def check(lines):
    """Returns how many lists of portions were tried, and of how many of them."""
    due, portions = replies(lines), 0
    for seed in range(LISTS):
        mixed = with_turns(lines, seed)
        answered = zip(replies([line for line, _ in mixed]), mixed)
        require([reply for reply, (_, is_line) in answered if is_line] == due, f"turns in portions, list {seed}, changed a reply")
        portions += len(mixed) - len(lines)
    return {"lists": LISTS, "portions": portions}

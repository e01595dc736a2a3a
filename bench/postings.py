"""Measures what a posting costs at many movements, and compares each answer with a plain check in Python.

The movements stand at moments in no order. A try is measured by runs with different numbers of them: the difference is what they
take, less what it takes to look whether their places are free. Memory is the peak of a run with many movements less that of one
with few, and the room of a voucher is the least address space in which it is made less that in which none is.
"""
import bisect
import resource
import subprocess
import sys
import time

import measuring

BENCH = [measuring.PARTS, "postings"]
LENGTHS = (50_000, 100_000)
TRIES = 100_000
# More than of other measures, since a run takes as long to hold the movements as to try others among them.
RUNS = 5
MICROSECONDS_WANTED = 10
GROWTH_WANTED = 2
POSTINGS = 20_000
KEYS, ITEMS, DAYS, SECONDS = 50, 10, 4, 86_400
MOST_UNITS, MOST_LINES = 20, 6
FIRST_DATE = 20_260_105
LEAVES, ENTERS = 0, 1
SIDES = ("leaves", "enters")
FEW, MANY = 1_000, 100_000
BYTES_WANTED = 200
VOUCHER = 200
ROOM_WANTED = 4_000_000
# How finely the least address space is searched for, and the most that is tried.
STEP, MOST_SPACE = 4_096, 1 << 30


class Numbers:
    """The numbers of the program: by a linear congruence, from the same seed."""

    def __init__(self):
        self.seed = 1

    def next(self, bound):
        self.seed = (self.seed * 6_364_136_223_846_793_005 + 1_442_695_040_888_963_407) % (1 << 64)
        return (self.seed >> 33) % bound


def any_line(numbers, head):
    key = numbers.next(KEYS)
    side = ENTERS if numbers.next(2) == 0 else LEAVES
    return (*head, side), key, numbers.next(MOST_UNITS) + 1


def transfer(numbers, head):
    origin = numbers.next(KEYS)
    target = (origin + 1 + numbers.next(KEYS - 1)) % KEYS
    units = numbers.next(MOST_UNITS) + 1
    return [((*head, LEAVES), origin, units), ((*head, ENTERS), target, units)]


def two_lines(numbers, head):
    key = numbers.next(KEYS)
    units = numbers.next(MOST_UNITS) + 1
    return [((*head, LEAVES), key, units), ((*head[:3], 2, ENTERS), key, numbers.next(MOST_UNITS) + 1)]


def several_lines(numbers, head):
    count = numbers.next(MOST_LINES) + 1
    return [any_line(numbers, (*head[:3], index + 1)) for index in range(count)]


def any_voucher(numbers, number):
    """Returns the movements of a voucher: the place of each, its key, and its units."""
    kind = numbers.next(10)
    day = numbers.next(DAYS)
    head = (FIRST_DATE + day, numbers.next(SECONDS), number, 1)
    if kind == 0:
        return transfer(numbers, head)
    if kind == 1:
        return two_lines(numbers, head)
    if kind == 2:
        return several_lines(numbers, head)
    return [any_line(numbers, head)]


def first_short(changes):
    """Returns the place and the lack of the first change with which fewer than no units are held."""
    held = 0
    for place, units in changes:
        held += units
        if held < 0:
            return place, -held
    return None


def posted(lists, movements):
    """Puts the movements into the sorted lists of their keys where there is enough, and returns the answer."""
    shorts, merged = [], {}
    for place, key, units in movements:
        if key not in merged:
            merged[key] = list(lists[key])
        bisect.insort(merged[key], (place, units if place[-1] == ENTERS else -units))
    for key, changes in merged.items():
        short = first_short(changes)
        if short:
            shorts.append((*short, key))
    if not shorts:
        for key, changes in merged.items():
            lists[key] = changes
        return "accepted"
    (date, second, voucher, line, side), lacking, key = min(shorts)
    return f"{date} {second} {voucher} {line} {SIDES[side]} {key % ITEMS + 1} {key // ITEMS + 1} {lacking}"


def plain_answers():
    """Returns the right answers to all postings, and the movements that are held in the end."""
    numbers, lists = Numbers(), [[] for _ in range(KEYS)]
    return [posted(lists, any_voucher(numbers, number)) for number in range(POSTINGS)], sum(map(len, lists))


def run_of(*words):
    """Returns the seconds of the best of the runs, and the lines that each of them printed."""
    seconds, printed = [], set()
    for _ in range(RUNS):
        begin = time.perf_counter()
        run = subprocess.run([*BENCH, *map(str, words)], stdout=subprocess.PIPE, check=True)
        seconds.append(time.perf_counter() - begin)
        printed.add(run.stdout.decode())
    measuring.require(len(printed) == 1, f"runs of {words} printed different lines")
    return min(seconds), printed.pop().splitlines()


def seconds_of(kind, held, tries):
    """Returns the seconds of the best of the runs that hold so many movements, and then try or look for so many more."""
    seconds, lines = run_of(kind, held, tries)
    measuring.require(lines == [f"{held} {tries}"], f"{kind} of {tries} among {held} printed {lines}")
    return seconds


def check_among(held):
    """Returns the microseconds of a try among so many movements, alone, and of the look whether its place is free."""
    idle = seconds_of("check", held, 0)
    both, look = (seconds_of(kind, held, TRIES) for kind in ("check", "look"))
    return (both - look) / TRIES * 1e6, (look - idle) / TRIES * 1e6


def check():
    """Returns the microseconds of a try and of a look at each length."""
    found = [check_among(held) for held in LENGTHS]
    (first, _), (last, _) = found
    return {
        "microseconds": {str(held): round(of_try, 2) for held, (of_try, _) in zip(LENGTHS, found)},
        "look_microseconds": {str(held): round(of_look, 2) for held, (_, of_look) in zip(LENGTHS, found)},
        "microseconds_wanted_below": MICROSECONDS_WANTED,
        "growth": round(last / first, 2),
        "growth_wanted_at_most": GROWTH_WANTED,
    }


def compare():
    """Requires of the program that it answers each posting as the plain check does, and returns the times of both."""
    seconds, answers = run_of("postings", POSTINGS)
    begin = time.perf_counter()
    due, held = plain_answers()
    plain = time.perf_counter() - begin
    measuring.require(len(answers) == len(due), f"{len(answers)} answers to {len(due)} postings")
    for number, (answer, right) in enumerate(zip(answers, due)):
        measuring.require(answer == right, f"posting {number} was answered {answer}, and not {right}")
    short = sum(right != "accepted" for right in due)
    return {
        "postings": POSTINGS,
        "short": short,
        "held": held,
        "seconds": round(seconds, 4),
        "plain_seconds": round(plain, 2),
        "times_plain": round(plain / seconds, 1),
    }


def peak_bytes(held, room):
    """Returns the largest peak memory of the runs that hold so many movements."""
    peaks = []
    for _ in range(measuring.RUNS):
        _, kib = measuring.run_once([*BENCH, "held", str(held)], "/dev/null", f"{room}/held")
        with open(f"{room}/held", encoding="ascii") as it:
            count = int(it.read())
        measuring.require(count == held, f"{count} movements are held, and not {held}")
        peaks.append(kib * 1024)
    return max(peaks)


def is_room_in(space, count):
    """Returns whether room for so many movements is made within so many bytes of address space."""
    def limit():
        resource.setrlimit(resource.RLIMIT_AS, (space, space))

    words = [*BENCH, "room", str(count)]
    try:
        run = subprocess.run(words, preexec_fn=limit, stdout=subprocess.DEVNULL, stderr=subprocess.DEVNULL, check=False)
    except OSError:
        return False
    return run.returncode == 0


def least_space(count):
    """Returns the least address space in which room for so many movements is made."""
    low, high = 0, MOST_SPACE
    measuring.require(is_room_in(high, count), f"there is no room for {count} movements")
    while high - low > STEP:
        middle = (low + high) // 2
        low, high = (low, middle) if is_room_in(middle, count) else (middle, high)
    return high


def memory(room):
    """Returns the bytes of a movement among many, and of the room for a voucher with many."""
    of_movement = (peak_bytes(MANY, room) - peak_bytes(FEW, room)) / (MANY - FEW)
    return {
        "bytes_of_movement": round(of_movement, 1),
        "bytes_wanted_at_most": BYTES_WANTED,
        "voucher": VOUCHER,
        "bytes_of_room": least_space(VOUCHER) - least_space(0),
        "room_wanted_at_most": ROOM_WANTED,
    }


def warn(of_check, of_memory):
    """Tells on standard error what is beyond what is wanted."""
    last = of_check["microseconds"][str(LENGTHS[-1])]
    for what, found, most in (
        ("a try takes {} microseconds", last, MICROSECONDS_WANTED),
        ("a try grows {} times", of_check["growth"], GROWTH_WANTED),
        ("a movement takes {} bytes", of_memory["bytes_of_movement"], BYTES_WANTED),
        ("the room of a voucher takes {} bytes", of_memory["bytes_of_room"], ROOM_WANTED),
    ):
        if found > most:
            print(f"bench: {what.format(found)}, and {most} are wanted", file=sys.stderr)


def measure(room):
    """Returns what a try, a posting and a movement cost."""
    of_check, of_memory = check(), memory(room)
    warn(of_check, of_memory)
    return {"check": of_check, **compare(), "memory": of_memory}

"""Answers the lines of standard input as plain_replay does, with a worker that makes turns, slowly, and with nothing of the program
in it.

It is the judge of turns: what comes and goes with new records, what that touches, what a turn values, to which movements a value
spreads, and when a worker fetches and publishes, are stated here once more. Reports show what the worker published, and not a
replay. Each turn goes through all movements.
"""
import itertools
import sys
from typing import NamedTuple

import plain_replay
from plain_replay import ENTERS, LEAVES, stock_and_worth, target_of, value_of

# From one publication to the next.
MOST_FETCHES = 4


class Found(NamedTuple):
    """What was last found of a movement."""
    value: int
    held: tuple | None  # at the moving average, the units and the worth of its item in its warehouse after it


def charged_lines(records):
    """Returns the lines of receipts that these vouchers charge something to, be it 0."""
    return {target_of(target) for it in records if it["do"] == "landed" for target in it["targets"]}


def touched(movements, new, gone, charged):
    """Returns which of the movements in posting order are touched where the new ones among them come and the gone ones go.

    The new ones are, and those of the lines whose charges come or go. At the moving average one that comes or goes touches the next
    of the item in the warehouse; first in, first out all that leave it later; and of returns all later ones of the same line.
    """
    is_last_changed, keys, returned, found = {}, set(), set(), set()
    for it in movements:
        is_changed, key = it in new or it in gone, it.key()
        follows = is_last_changed.get(key, False) if it.method == "average" else it.side == LEAVES and key in keys
        if it in new or it.own_line() in charged or follows or it.target in returned:
            found.add(it)
        is_last_changed[key] = is_changed
        if is_changed:
            keys.add(key)
        if is_changed and it.target is not None:
            returned.add(it.target)
    return found - gone


def next_of_key(it, later):
    """Returns the first of the later movements that is of the same item in the same warehouse, or none."""
    return set(itertools.islice((other for other in later if other.key() == it.key()), 1))


def coming_back(it, later):
    """Returns the later movements by which units enter that left with this one: by the same line of a transfer, or from a customer."""
    return {other for other in later if other.side == ENTERS and (other.target or other.own_line()) == it.own_line()}


def units(movements, key, side):
    return sum(it.qty for it in movements if it.side == side and it.key() == key)


def taking_units(it, earlier, later):
    """Returns the later movements with which, first in, first out, a unit leaves that entered with this one."""
    entered, left, found = units(earlier, it.key(), ENTERS), units(earlier, it.key(), LEAVES), set()
    for other in later:
        if other.side == LEAVES and other.key() == it.key():
            if left < entered + it.qty and entered < left + other.qty:
                found.add(other)
            left += other.qty
    return found


def takers(it, earlier, later):
    """Returns the later movements that take value over from this one."""
    if it.side == LEAVES:
        return coming_back(it, later)
    return taking_units(it, earlier, later) if it.method == "fifo" else set()


class Build:
    """The movements of the first records in posting order, with what was last found of each, and which of them are suspect."""

    def __init__(self):
        self.target = 0  # how many records
        self.movements = []
        self.found = {}  # by movement, where it was ever valued
        self.suspects = set()
        self.charges = {}

    def extend(self, ledger):
        """Takes in all records of the ledger that it does not have, of which some may take back others that it has."""
        now = set(ledger.movements)
        new, gone = now.difference(self.movements), set(self.movements) - now
        cancelled = [record for record, by in ledger.cancelled.items() if record <= self.target < by]
        charged = charged_lines([*ledger.accepted[self.target:], *(ledger.accepted[record - 1] for record in cancelled)])
        self.suspects = (self.suspects | touched(sorted(now | gone), new, gone, charged)) - gone
        self.found = {it: found for it, found in self.found.items() if it in now}
        self.movements = sorted(now)
        self.target = len(ledger.accepted)
        self.charges = ledger.charges(self.target)

    def rows(self, movements):
        return [(it, self.found[it].value) for it in movements]

    def value_first(self):
        """Values the first suspect, and makes suspect what takes over from it what is other than it was."""
        it = min(self.suspects)
        index = self.movements.index(it)
        earlier, later = self.movements[:index], self.movements[index + 1:]
        was, now = self.found.get(it), self.valuation(it, self.rows(earlier))
        self.suspects.remove(it)
        if now != was and it.method == "average":
            self.suspects |= next_of_key(it, later)
        if was is None or now.value != was.value:
            self.suspects |= takers(it, earlier, later)
        self.found[it] = now

    def valuation(self, it, earlier):
        value = value_of(it, earlier, self.charges)
        return Found(value, stock_and_worth([*earlier, (it, value)], it.key()) if it.method == "average" else None)


class Publication(NamedTuple):
    covered: int
    accepted: int  # how many records were accepted then
    fetches: int  # since the publication before it
    valuations: int  # likewise


class WorkedLedger(plain_replay.Ledger):
    """A ledger with a worker, whose turns alone publish."""

    def __init__(self):
        super().__init__()
        self.build = Build()
        self.fetches, self.valuations = 0, 0  # since the last publication
        self.published = []  # the movements with the values that reports show
        self.publications = []

    def work(self, turns):
        """Makes so many turns, or all that there are where no number is given."""
        for _ in itertools.count() if turns is None else range(turns):
            if not self.turn():
                return

    def turn(self):
        """Does the first of these that there is to do, and returns whether there was one."""
        if self.build.suspects:
            self.build.value_first()
            self.valuations += 1
        elif self.can_fetch():
            self.build.extend(self)
            self.fetches += 1
        elif self.covered < self.build.target:
            self.publish()
        else:
            return False
        return True

    def can_fetch(self):
        return self.build.target < len(self.accepted) and self.fetches < MOST_FETCHES

    def is_about_to_publish(self):
        return not self.build.suspects and not self.can_fetch() and self.covered < self.build.target

    def publish(self):
        self.covered = self.build.target
        self.published = self.build.rows(self.build.movements)
        self.publications.append(Publication(self.covered, len(self.accepted), self.fetches, self.valuations))
        self.fetches, self.valuations = 0, 0

    def covered_rows(self, charges):
        return self.published


if __name__ == "__main__":
    for reply in plain_replay.replies(sys.stdin.buffer.read(), WorkedLedger()):
        print(reply)

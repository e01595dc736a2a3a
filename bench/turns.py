"""Compares a worker's turns with the plain build, and measures how their time grows with the vouchers.

The lists have vouchers of all kinds in random order, many of them late or at one moment, of which some are taken back later, and so
many turns after each few hundred.
Every reply to the shorter list, with turns in portions, settlements, and reports that wait for a record, has to be that of
plain_build, byte for byte. The longer list is timed, and its beginning: there every reply to a voucher has to be the judge's.
"""
import bisect
import collections
import itertools
import json
import os
import subprocess
import time

import all_kinds
import plain_build
import plain_replay
from measuring import PROGRAM, RUNS, require, same_as

COMPARED = 3_000
LENGTHS = (5_000, 20_000)
GROWTH_WANTED = 8
# Five of the vouchers that are compared share a moment, and 33 of those that are timed.
MOMENTS = 600
EVERY = 200
WORK = {"do": "work", "turns": 500}
PORTIONS = [1, 1, 2, 3, 7, 30, 100]
# Before all other moments, and after them.
FIRST, LAST = "2025-12-31T09:00:00", "2026-12-31T09:00:00"
# After so many vouchers each: turns that end right before a publication; such turns while further vouchers come; a settlement, and
# an item alone.
PUBLISH_EVERY, BUSY_EVERY, SETTLE_EVERY = 310, 430, 900
# The past is closed only after so many, since the turns that end right before a publication come of vouchers before all others.
OPEN_UNTIL = 2_000


class Maker(all_kinds.Maker):
    """Makes a list, and notes the reply that is due to each line; or None where it isn't known."""

    def __init__(self, seed, ledger):
        self.due = []
        super().__init__(seed, MOMENTS, ledger)

    def post(self, it):
        reply = super().post(it)
        self.due.append(plain_replay.text_of(reply))
        return reply

    def add(self, it, reply=None):
        """Adds a line that the judge does not answer."""
        self.lines.append(json.dumps(it, separators=(",", ":")))
        self.due.append(None if reply is None else plain_replay.text_of(reply))


# The list that is compared. The plain build answers it as it grows, so that reports can ask for records around those that are
# covered, and turns can end where they publish.


def ask(maker):
    """Adds a report on any sheet. It may need a record that is covered, one that is not yet, or one that there is not."""
    chance, covered, accepted = maker.chance, maker.ledger.covered, len(maker.ledger.accepted)
    need = chance.choice([covered, covered + 1, accepted, accepted + 1, chance.randint(1, accepted)])
    maker.post({**chance.choice(maker.reports()), "need": need})


def add_turns(maker):
    """Adds the turns that there are before the next publication, and a report that waits for it."""
    ledger, turns = maker.ledger, 0
    while not ledger.is_about_to_publish() and ledger.turn():
        turns += 1
    if turns > 0:
        maker.add({"do": "work", "turns": turns}, {"covered": ledger.covered, "status": "worked"})
    maker.post({"do": "report", "of": "balance", "need": ledger.build.target})


def add_unchanging(maker):
    """Adds vouchers that touch others and change none: a charge of nothing, and goods that come in before all others and are sold at
    once. A worker that valued more than what they touch would make more turns. Returns the number of the sale."""
    chance = maker.chance
    target = {"record": chance.choice(maker.targets["landed"]), "line": 1}
    maker.post({"do": "landed", "charge": 0, "basis": "qty", "targets": [target]})
    goods = [{"item": item, "store": chance.choice(all_kinds.STORES), "qty": chance.randint(2, 20)} for item in all_kinds.ITEMS]
    maker.post({"do": "receipt", "at": FIRST, "lines": [{**line, "amount": chance.randint(1, 9_999)} for line in goods]})
    return maker.post({"do": "issue", "at": FIRST, "use": "sold", "lines": goods})["record"]


def add_return(maker, sale, at):
    line = {"record": sale, "line": 1, "store": maker.chance.choice(all_kinds.STORES), "qty": 1}
    maker.post({"do": "customer-return", "at": at, "lines": [line]})


def add_publication(maker):
    """Adds turns that end right before a publication, and then one alone that publishes: a turn more or less than is due would be
    seen. The fetches before it are of vouchers that change no value of others, and of a return that stands before another one of
    the same sale."""
    add_turns(maker)
    sale = add_unchanging(maker)
    add_return(maker, sale, LAST)
    add_turns(maker)
    add_return(maker, sale, FIRST)
    add_turns(maker)
    maker.post({"do": "work", "turns": 1})
    maker.post({"do": "report", "of": "balance", "need": maker.ledger.build.target})


def add_busy_publication(maker):
    """Adds vouchers before each publication that would come, until all fetches were made, and a last one that has to wait for the
    turn that publishes."""
    add_turns(maker)
    while maker.ledger.fetches < plain_build.MOST_FETCHES:
        maker.posting()
        add_turns(maker)
    while maker.posting()["status"] != "accepted":
        pass
    maker.post({"do": "work", "turns": 1})


def add_settlement(maker, number):
    """Adds a settlement, and an item alone: one turn fetches it, one publishes it, and one is idle."""
    maker.post({"do": "settle"})
    maker.post({"do": "item", "code": f"NEW-{number}", "method": "fifo"})
    for _ in range(3):
        maker.post({"do": "work", "turns": 1})


def add_between(maker, number):
    """Adds what comes after the voucher with this number."""
    chance = maker.chance
    if chance.randrange(10) == 0:
        ask(maker)
    if chance.randrange(15) == 0:
        maker.post({"do": "work", "turns": chance.choice(PORTIONS)})
    if number % PUBLISH_EVERY == 0 and number <= OPEN_UNTIL:
        add_publication(maker)
    if number % BUSY_EVERY == 0:
        add_busy_publication(maker)
    if number % SETTLE_EVERY == 0:
        add_settlement(maker, number)
    if number % EVERY == 0:
        maker.post(WORK)
        ask(maker)


def compared_list():
    """Returns the lines that are compared, the replies that are due to them, and the ledger of the plain build after them."""
    maker = Maker(33, plain_build.WorkedLedger())
    for number in range(1, COMPARED + 1):
        maker.posting()
        if number > OPEN_UNTIL:
            maker.correct()
        elif maker.chance.randrange(all_kinds.CANCELS) == 0:
            maker.cancel()
        add_between(maker, number)
    maker.post({"do": "settle"})
    for report in maker.reports():
        maker.post(report)
    return maker.lines, maker.due, maker.ledger


def publications_of(ledger):
    """Returns how many publications of each kind there were. There has to be one of each."""
    kinds = dict.fromkeys([*(f"after_{fetches}_fetches" for fetches in range(1, plain_build.MOST_FETCHES + 1)),
                           "with_records_waiting", "with_nothing_valued"], 0)
    for it in ledger.publications:
        kinds[f"after_{it.fetches}_fetches"] += 1
        kinds["with_records_waiting"] += it.covered < it.accepted
        kinds["with_nothing_valued"] += it.valuations == 0
    require(all(kinds.values()), f"there were publications {kinds}")
    return {"all": len(ledger.publications), **kinds}


def figures_of(lines, due, ledger):
    """Returns what the list has: records by kind, refusals by fault, other answers, and what the turns did."""
    replies, kinds = [json.loads(reply) for reply in due], [json.loads(line)["do"] for line in lines]
    accepted = collections.Counter(kind for kind, reply in zip(kinds, replies) if reply["status"] == "accepted")
    return {
        "lines": len(lines), "vouchers": sum(kind in all_kinds.KINDS for kind in kinds),
        "accepted": dict(accepted), "movements": len(ledger.movements),
        "refused": dict(collections.Counter(reply["fault"] for reply in replies if reply["status"] == "refused")),
        "answers": dict(collections.Counter(reply["status"] for reply in replies if reply["status"] not in ("accepted", "refused"))),
        "valuations": sum(it.valuations for it in ledger.publications), "fetches": sum(it.fetches for it in ledger.publications),
        "publications": publications_of(ledger),
    }


def compare():
    """Requires of the program that every reply is the plain build's, and of the plain build that it ends with the plain replay."""
    begin = time.process_time()
    lines, due, ledger = compared_list()
    plain = time.process_time() - begin
    replayed = plain_replay.valued(ledger.movements, ledger.charges(len(ledger.accepted)))
    require(ledger.published == replayed, "the plain build did not end with the plain replay")
    given = "".join(f"{line}\n" for line in lines).encode()
    run = subprocess.run(PROGRAM, input=given, stdout=subprocess.PIPE, check=True)
    same_as(lines, due)(run.stdout.decode().splitlines())
    return {**figures_of(lines, due, ledger), "plain_seconds": round(plain, 1)}


# The lists that are timed.


class QuickLedger(plain_replay.Ledger):
    """The judge of vouchers, who looks for shortages at the same items in the same warehouses alone, so that many are soon judged."""

    def __init__(self):
        super().__init__()
        # By item and warehouse: the movements in posting order, and the units that each brings or takes.
        self.sorted, self.changes = collections.defaultdict(list), collections.defaultdict(list)
        self.returned = collections.Counter()

    def left_of(self, target):
        record, line = target
        return self.accepted[record - 1]["lines"][line - 1]["qty"] - self.returned[target]

    def changes_with(self, key, new):
        """Returns the changes of an item in a warehouse with the new movements among them."""
        changes = list(self.changes[key])
        for it in sorted(new, reverse=True):
            changes.insert(bisect.bisect(self.sorted[key], it), it.qty if it.side == plain_replay.ENTERS else -it.qty)
        return changes

    def shortage_with(self, new, gone):
        if gone:
            keys = {it.key() for it in gone}
            return plain_replay.first_shortage([it for key in keys for it in self.sorted[key] if it not in gone])
        keys = {it.key(): [other for other in new if other.key() == it.key()] for it in new}
        if all(min(itertools.accumulate(self.changes_with(key, its))) >= 0 for key, its in keys.items()):
            return None
        return plain_replay.first_shortage([*new, *(it for key in keys for it in self.sorted[key])])

    def hold(self, new, gone):
        self.ever += new
        self.movements += new
        for it in new:
            self.changes[it.key()] = self.changes_with(it.key(), [it])
            bisect.insort(self.sorted[it.key()], it)
            self.returned[it.target] += it.qty
        for it in gone:
            self.movements.remove(it)
            at = bisect.bisect_left(self.sorted[it.key()], it)
            del self.sorted[it.key()][at], self.changes[it.key()][at]
            self.returned[it.target] -= it.qty


def timed_list():
    """Returns the lines of the longest list, the replies that are due to its vouchers, and how many lines have the vouchers of each
    length. After each few hundred vouchers come turns, and a report that may have to wait."""
    maker, counts = Maker(34, QuickLedger()), {}
    for number in range(1, LENGTHS[-1] + 1):
        maker.posting()
        maker.correct()
        if number % EVERY == 0:
            maker.add(WORK)
            maker.add({"do": "report", "of": "voucher", "record": maker.chance.randint(1, len(maker.ledger.accepted))})
        if number in LENGTHS:
            counts[number] = len(maker.lines)
    return maker.lines, maker.due, counts


def process_seconds(lines, room):
    """Returns the processor time of the best of the runs, and the replies, which were the same in each."""
    given, written, seconds, found = f"{room}/given", f"{room}/written", [], set()
    with open(given, "w", encoding="ascii") as it:
        it.writelines(f"{line}\n" for line in lines)
    for _ in range(RUNS):
        with open(given, "rb") as source, open(written, "wb") as sink:
            run = subprocess.Popen(PROGRAM, stdin=source, stdout=sink)
            _, status, used = os.wait4(run.pid, 0)
        require(status == 0, f"{PROGRAM[0]} ended with {status}")
        seconds.append(used.ru_utime + used.ru_stime)
        with open(written, encoding="ascii") as it:
            found.add(it.read())
    require(len(found) == 1, "runs over one list wrote different replies")
    return min(seconds), found.pop().splitlines()


def check_timed(lines, due, replies):
    """Requires each reply to a voucher to be the judge's, and that turns never cover less than before. Returns what was covered in
    the end, how many publications were seen, and how many reports had to wait."""
    require(len(replies) == len(lines), f"{len(replies)} replies to {len(lines)} lines")
    same_as(lines, [reply if right is None else right for reply, right in zip(replies, due)])(replies)
    said = [json.loads(reply) for reply, right in zip(replies, due) if right is None]
    covered = [0, *(it["covered"] for it in said if it["status"] == "worked")]
    require(covered == sorted(covered), "turns covered less than before")
    return {"covered": covered[-1], "publications_seen": len({*covered}) - 1, "pending": sum(it["status"] == "pending" for it in said)}


def check_growth(figures):
    """Requires that the time grows no more than is wanted."""
    require(figures["growth"] <= GROWTH_WANTED, f"turns grow {figures['growth']} times, and at most {GROWTH_WANTED} are wanted")


def measure(room):
    """Returns what was compared, and the processor time at each length with its growth."""
    compared = compare()
    lines, due, counts = timed_list()
    seconds, seen = {}, {}
    for length, count in counts.items():
        seconds[length], replies = process_seconds(lines[:count], room)
        seen[length] = check_timed(lines[:count], due[:count], replies)
    return {
        "compared": compared, "process_seconds": {length: round(it, 3) for length, it in seconds.items()}, "timed": seen,
        "growth": round(seconds[LENGTHS[-1]] / seconds[LENGTHS[0]], 2), "growth_wanted_at_most": GROWTH_WANTED,
    }

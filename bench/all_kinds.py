"""Makes the inputs of the runs with vouchers of all kinds: one in random order, and one for how settlements grow.

Returns, landed charges and cancels name vouchers that were accepted, mostly; the judge says which were.
"""
import datetime
import json
import random

import plain_replay

MOVEMENTS = 3_900
SETTLES = 10
# A cancel comes after one in so many vouchers, and a freeze.
CANCELS, FREEZES = 8, 150
STORES = ["MAIN", "SHOP", "VAN"]
ITEMS = {"BOLT": "fifo", "NUT": "average", "OIL": "average", "TAPE": "fifo"}
# By how much each kind is more frequent than the rarest.
KINDS = {"receipt": 8, "issue": 7, "transfer": 6, "customer-return": 3, "supplier-return": 2, "landed": 2}
TARGETING = ["customer-return", "supplier-return", "landed"]


class Maker:
    def __init__(self, seed, moments, ledger=None):
        self.chance = random.Random(seed)
        start = datetime.datetime(2026, 1, 1)
        # Few moments, so that many vouchers share a second.
        self.moments = [(start + datetime.timedelta(seconds=self.chance.randrange(86_400 * 90))).isoformat() for _ in range(moments)]
        self.ledger = plain_replay.Ledger() if ledger is None else ledger
        self.lines = []
        self.targets = {kind: [] for kind in TARGETING}  # the records whose lines a voucher of this kind may name
        self.in_force = []  # the vouchers that may be taken back
        for number, code in enumerate(STORES):
            self.post({"do": "store", "code": code, "account": 100 + number})
        for code, method in ITEMS.items():
            self.post({"do": "item", "code": code, "method": method})

    def post(self, it):
        """Adds a posting, and returns what the judge answers, who notes whether it is accepted."""
        line = json.dumps(it, separators=(",", ":"))
        self.lines.append(line)
        reply = self.ledger.answer(line.encode())
        if reply["status"] == "accepted":
            self.note(it, reply["record"])
        return reply

    def note(self, it, record):
        """Notes what later vouchers may name, and what they may not any more."""
        if it["do"] in KINDS:
            self.in_force.append(record)
        for kind, numbers in self.targets.items():
            if plain_replay.is_target_kind(it, kind):
                numbers.append(record)
        if it["do"] == "cancel":
            for numbers in (self.in_force, *self.targets.values()):
                if it["record"] in numbers:
                    numbers.remove(it["record"])

    def movements(self):
        return len(self.ledger.movements)

    def target(self, kind):
        """Returns the record and a line of an accepted voucher that this kind may name; one in nine is any record's."""
        if not self.targets[kind] or self.chance.randrange(9) == 0:
            return {"record": self.chance.randint(1, len(self.ledger.accepted) + 1), "line": self.chance.randint(1, 3)}
        record = self.chance.choice(self.targets[kind])
        return {"record": record, "line": self.chance.randint(1, len(self.ledger.accepted[record - 1]["lines"]))}

    def line(self, kind):
        chance = self.chance
        if kind in ("customer-return", "supplier-return"):
            return {**self.target(kind), "store": chance.choice(STORES), "qty": chance.randint(1, 4)}
        if kind == "landed":
            return self.target(kind)
        item = {"item": chance.choice(list(ITEMS))}
        if kind == "transfer":
            return {**item, "from": chance.choice(STORES), "to": chance.choice(STORES), "qty": chance.randint(1, 9)}
        if kind == "issue":
            return {**item, "store": chance.choice(STORES), "qty": chance.randint(1, 11)}
        return {**item, "store": chance.choice(STORES), "qty": chance.randint(1, 20), "amount": chance.choice([0, chance.randint(1, 9_999), chance.randint(1, 9_999)])}

    def reports(self):
        """Returns reports on all sheets, some up to a moment or of one item, one of them in CSV."""
        chance, until = self.chance, {"until": self.chance.choice(self.moments)}
        asked = [
            {"of": "balance"}, {"of": "layers"}, {"of": "balance", **until, "item": "NUT"}, {"of": "ledger", **until},
            {"of": "accounts"}, {"of": "accounts", **until}, {"of": "voucher", "record": chance.randint(1, len(self.ledger.accepted))},
        ]
        return [{"do": "report", **it, "as": chance.choice(["json", "csv"])} for it in asked]

    def posting(self):
        """Posts a voucher of some kind with up to three lines, and returns what the judge answers."""
        chance = self.chance
        kind = chance.choices(list(KINDS), list(KINDS.values()))[0]
        lines = [self.line(kind) for _ in range(1 if chance.randrange(3) else chance.randint(2, 3))]
        if kind == "landed":
            return self.post({"do": kind, "charge": chance.randint(0, 999), "basis": chance.choice(["qty", "amount"]), "targets": lines})
        use = {"use": chance.choice(["sold", "sold", "used"])} if kind == "issue" else {}
        return self.post({"do": kind, "at": chance.choice(self.moments), **use, "lines": lines})

    def cancel(self):
        """Takes a voucher back, mostly one in force; one in nine is any record."""
        chance = self.chance
        if not self.in_force or chance.randrange(9) == 0:
            return self.post({"do": "cancel", "record": chance.randint(1, len(self.ledger.accepted) + 1)})
        return self.post({"do": "cancel", "record": chance.choice(self.in_force)})

    def freeze(self):
        """Closes the past up to one of the first moments, so that most vouchers are still accepted, or an earlier one."""
        first = sorted(self.moments)[:len(self.moments) // 10]
        return self.post({"do": "freeze", "until": self.chance.choice(first)})

    def correct(self):
        """Takes a voucher back now and then, and closes the past now and then."""
        if self.chance.randrange(CANCELS) == 0:
            self.cancel()
        if self.chance.randrange(FREEZES) == 0:
            self.freeze()


def in_random_order():
    """Returns the lines of the run in random order, with settles, reports, cancels and freezes spread among them."""
    maker, asked = Maker(seed=31, moments=150), 0
    while maker.movements() < MOVEMENTS:
        maker.posting()
        maker.correct()
        if maker.movements() * SETTLES >= (asked + 1) * MOVEMENTS:
            asked += 1
            maker.lines += [json.dumps(it, separators=(",", ":")) for it in (
                {"do": "settle"}, *maker.reports(),
            )]
    return maker.lines


def parts_of(sizes, items):
    """Returns pairs of lines: postings after which the accepted movements are at least so many, and so many new items, which move
    nothing."""
    maker, parts = Maker(seed=32, moments=40_000), []
    for size in sizes:
        while maker.movements() < size:
            maker.posting()
        postings, maker.lines = maker.lines, []
        for number in range(items):
            maker.post({"do": "item", "code": f"NEW-{size}-{number}", "method": "fifo"})
        parts.append((postings, maker.lines))
        maker.lines = []
    return parts

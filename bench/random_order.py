"""Makes the inputs of the runs in random order: receipts and issues whose moments come in no order, typed as they come."""
import datetime
import json
import random
from typing import Callable, NamedTuple

SETTLES = 10
STORES = ["MAIN", "SHOP", "VAN", "YARD"]


class Goods(NamedTuple):
    method: str
    received: int  # the largest quantity of a receipt's line
    amount: int  # the largest amount of a receipt's line
    issued: int  # the largest quantity of an issue's line


class Run(NamedTuple):
    seed: int
    postings: int
    lines_of: Callable  # how many lines the posting with this number has
    moments: int
    has_own_amounts: bool  # no two lines of receipts have the same amount
    goods: dict  # by the item's code
    shown: list  # the reports after each settle


# More than six postings share a second. An issue asks for up to twice what a receipt brings, so that stocks stay small and many
# issues are short. Few units make costs that end on a half, and the last item costs that go past 64 bits on the way.
BY_AVERAGE = Run(
    seed=27, postings=3_900, lines_of=lambda number, chance: 1 if chance.randrange(8) else 2, moments=600, has_own_amounts=False,
    goods={
        "BOLT": Goods("average", 6, 99, 12),
        "NUT": Goods("average", 20, 500, 40),
        "OIL": Goods("average", 9, 100_000, 18),
        "TAPE": Goods("average", 3, 7, 6),
        "SAND": Goods("average", 500_000_000, 10**12, 1_000_000_000),
    },
    shown=[{"of": "balance"}],
)

# The postings have 3,900 lines together. So many share a second that several receipts and issues of one item in one warehouse
# do. An issue asks for little more than a receipt brings, so that layers stay. Of NUT a unit often costs less than one.
BY_FIFO = Run(
    seed=28, postings=2_600, lines_of=lambda number, chance: 1 + number % 2, moments=75, has_own_amounts=True,
    goods={
        "BOLT": Goods("fifo", 6, 9_999, 8),
        "NUT": Goods("fifo", 20_000, 9_999, 26_000),
        "OIL": Goods("average", 9, 100_000, 12),
        "TAPE": Goods("fifo", 3, 9_999, 4),
        "SAND": Goods("fifo", 500_000_000, 10**12, 650_000_000),
    },
    shown=[
        {"of": "balance"},
        {"of": "layers"},
        {"of": "layers", "until": "2026-02-28T12:00:00", "item": "NUT", "store": "VAN", "as": "json"},
    ],
)


def lines(run):
    """Returns the lines: the masters, then the postings, half of them issues, with the settles spread among them. Before each
    settle a report asks for some record, and after it come those that the run shows."""
    chance = random.Random(run.seed)
    kinds = ["receipt", "issue"] * (run.postings // 2)
    chance.shuffle(kinds)
    start = datetime.datetime(2026, 1, 1)
    moments = [(start + datetime.timedelta(seconds=chance.randrange(86_400 * 90))).isoformat() for _ in range(run.moments)]
    made, amounts = masters(run), set()
    for number, kind in enumerate(kinds, 1):
        at, count = chance.choice(moments), run.lines_of(number, chance)
        goods = [line(run, kind, chance, amounts) for _ in range(count)]
        use = {"use": chance.choice(["sold", "used"])} if kind == "issue" else {}
        made.append({"do": kind, "at": at, **use, "lines": goods})
        if number % (run.postings // SETTLES) == 0:
            made.append({"do": "report", "of": run.shown[-1]["of"], "need": chance.randrange(number)})
            made += [{"do": "settle"}, *({"do": "report", **asked} for asked in run.shown)]
    return [json.dumps(it, separators=(",", ":")) for it in made]


def masters(run):
    items = [{"do": "item", "code": code, "method": goods.method} for code, goods in run.goods.items()]
    return items + [{"do": "store", "code": code, "account": 100 + number} for number, code in enumerate(STORES)]


def line(run, kind, chance, amounts):
    """Returns a line of a receipt or an issue, and notes the amount of a receipt's among those that were given."""
    item = chance.choice(list(run.goods))
    goods = run.goods[item]
    made = {"item": item, "store": chance.choice(STORES)}
    if kind == "issue":
        return {**made, "qty": chance.randint(1, goods.issued)}
    made["qty"], made["amount"] = chance.randint(1, goods.received), chance.randint(0, goods.amount)
    while run.has_own_amounts and made["amount"] in amounts:
        made["amount"] = chance.randint(0, goods.amount)
    amounts.add(made["amount"])
    return made

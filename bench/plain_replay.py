"""Answers the lines of standard input as the rules of the ledger say, slowly, and with nothing of the program in it.

It is the judge of bench/run: the rules are stated here once more, in plain words of their own. Nothing is kept from one
answer to the next but the masters, the accepted vouchers and movements, which vouchers were taken back, and how many records
are covered. Each post sorts and goes through all movements, and each report values them from nothing.
"""
import collections
import csv
import datetime
import io
import json
import re
import sys
from typing import NamedTuple

LONGEST_LINE = 65_536
MOST_RECORDS = 50_000
MOST_MOVEMENTS = 200_000
BAD = {"fault": "bad-field", "field": "request", "line": 0, "status": "bad"}

# What is a request. A form says what each of its fields has to be; no other field may stand in it, but those that may be left
# out.


def whole(low, high):
    return lambda it: type(it) is int and low <= it <= high


def text(*words):
    return lambda it: it in words


def is_code(it):
    return type(it) is str and re.fullmatch("[A-Za-z0-9._-]{1,24}", it) is not None


def is_moment(it):
    if type(it) is not str or not re.fullmatch("[0-9]{4}-[0-9]{2}-[0-9]{2}T[0-9]{2}:[0-9]{2}:[0-9]{2}", it):
        return False
    try:
        datetime.datetime(*(int(part) for part in re.split("[-T:]", it)))
    except ValueError:
        return False
    return True


def is_text(it):
    return type(it) is str


def has_form(it, form, left_out):
    known = {**form, **left_out}
    return type(it) is dict and form.keys() <= it.keys() <= known.keys() and all(known[name](it[name]) for name in it)


def lines_of(form):
    return lambda it: type(it) is list and 1 <= len(it) <= 100 and all(has_form(line, form, {}) for line in it)


UNITS = {"qty": whole(1, 10**9)}
GOODS = {"item": is_code, "store": is_code, **UNITS}
TARGET = {"record": whole(1, 2**32 - 1), "line": whole(1, 100)}
RETURN = {"at": is_moment, "lines": lines_of({**TARGET, "store": is_code, **UNITS})}
FORMS = {
    "item": {"code": is_code, "method": text("average", "fifo")},
    "store": {"code": is_code, "account": whole(100, 9999)},
    "receipt": {"at": is_moment, "lines": lines_of({**GOODS, "amount": whole(0, 10**12)})},
    "issue": {"at": is_moment, "use": text("sold", "used"), "lines": lines_of(GOODS)},
    "transfer": {"at": is_moment, "lines": lines_of({"item": is_code, "from": is_code, "to": is_code, **UNITS})},
    "customer-return": RETURN,
    "supplier-return": RETURN,
    "landed": {"charge": whole(0, 10**12), "basis": text("qty", "amount"), "targets": lines_of(TARGET)},
    "freeze": {"until": is_moment},
    "cancel": {"record": whole(1, 2**32 - 1)},
    "settle": {},
    "work": {"turns": whole(1, 10**6)},
}
# The forms of reports, by their sheets: what has to be there, and what may be left out.
ANY_SHEET = {"need": whole(0, 2**32 - 1), "as": text("json", "csv")}
OF_KEYS = ({}, {**ANY_SHEET, "until": is_moment, "item": is_text, "store": is_text})
REPORTS = {
    "balance": OF_KEYS,
    "layers": OF_KEYS,
    "ledger": OF_KEYS,
    "accounts": ({}, {**ANY_SHEET, "until": is_moment}),
    "voucher": ({"record": whole(1, 2**32 - 1)}, ANY_SHEET),
}


def read_whole(digits):
    return float(digits) if digits == "-0" else int(digits)


def read_float(digits):
    number = float(digits)
    if number in (float("inf"), float("-inf")):
        raise ValueError(digits)
    return number


def read_word(word):
    # Python would read NaN and Infinity, which are no JSON.
    raise ValueError(word)


def request_of(line):
    """Returns the request that the line is; or None."""
    if len(line) > LONGEST_LINE:
        return None
    try:
        it = json.loads(line.decode(), parse_int=read_whole, parse_float=read_float, parse_constant=read_word)
    except (ValueError, RecursionError):
        return None
    form, left_out = form_of(it)
    return it if form is not None and has_form(it, form, left_out) else None


def form_of(it):
    """Returns the fields that a request of its kind has to have, and those that it may have; or None and nothing."""
    kind, sheet = (it.get(name) if type(it) is dict else None for name in ("do", "of"))
    if type(kind) is str and kind in FORMS:
        return {"do": text(kind), **FORMS[kind]}, {}
    if kind == "report" and type(sheet) is str and sheet in REPORTS:
        required, left_out = REPORTS[sheet]
        return {"do": text(kind), "of": text(sheet), **required}, left_out
    return None, {}


# Movements. The first four fields are the place; movements are compared by it, since no two have the same. A moment is text
# of one length with the largest unit first, so the order of texts is the order of time.

LEAVES, ENTERS = 0, 1


class Movement(NamedTuple):
    at: str
    record: int
    line: int
    side: int
    item: int
    store: int
    qty: int
    amount: int  # the purchase price of a receipt's line, and else 0
    method: str  # the item's
    target: tuple | None  # the record and line that a return is of
    whole: int  # how many units the target has

    def key(self):
        return self.item, self.store

    def own_line(self):
        return self.record, self.line


def first_shortage(movements):
    """Returns the first movement, in posting order, with which more had left a warehouse than had entered it, and how much
    more; or None."""
    held = collections.Counter()
    for it in sorted(movements):
        held[it.key()] += it.qty if it.side == ENTERS else -it.qty
        if held[it.key()] < 0:
            return it, -held[it.key()]
    return None


def half_up(worth, taken, stock):
    """Returns what so many of the units in stock cost that are worth so much together, rounded half up."""
    return worth if taken == stock else (2 * worth * taken + stock) // (2 * stock)


def stock_and_worth(rows, key):
    """Returns the units that the rows leave of an item in a warehouse, and what they are worth."""
    signed = [(1 if it.side == ENTERS else -1, it, value) for it, value in rows if it.key() == key]
    return sum(sign * it.qty for sign, it, _ in signed), sum(sign * value for sign, _, value in signed)


def entered_and_left(rows, key):
    """Returns the rows with which units of an item entered a warehouse, and how many units left it."""
    entered = [(it, value) for it, value in rows if it.key() == key and it.side == ENTERS]
    return entered, sum(it.qty for it, _ in rows if it.key() == key and it.side == LEAVES)


def first_cost(entered, units):
    """Returns what the first so many units cost of those that entered: whole rows, and a part of the next, rounded down."""
    cost = 0
    for it, value in entered:
        if units < it.qty:
            return cost + value * units // it.qty
        cost, units = cost + value, units - it.qty
    return cost


def cost_of_leaving(it, rows):
    """Returns what the units that leave cost by their item's method, after the rows."""
    if it.method == "fifo":
        entered, left = entered_and_left(rows, it.key())
        return first_cost(entered, left + it.qty) - first_cost(entered, left)
    stock, worth = stock_and_worth(rows, it.key())
    return half_up(worth, it.qty, stock)


def part(total, before, taken, whole):
    """Returns what some of the whole have of a total, after those before them: a difference of two shares, each rounded down."""
    return total * (before + taken) // whole - total * before // whole


def cost_of_line(line, rows):
    """Returns what the movement of this line that leaves is worth."""
    return next(value for it, value in rows if it.own_line() == line and it.side == LEAVES)


def value_of(it, rows, charges):
    """Returns what the movement is worth, after the rows."""
    if it.side == LEAVES:
        return cost_of_leaving(it, rows)
    if it.target is not None:
        back = sum(other.qty for other, _ in rows if other.target == it.target)
        return part(cost_of_line(it.target, rows), back, it.qty, it.whole)
    if any(other.own_line() == it.own_line() for other, _ in rows):
        return cost_of_line(it.own_line(), rows)  # goods that arrive by a transfer
    return it.amount + charges[it.own_line()]


def valued(movements, charges):
    """Returns the movements in posting order, each with its value, found from the rows before it and the landed charges."""
    rows = []
    for it in sorted(movements):
        rows.append((it, value_of(it, rows, charges)))
    return rows


# The sheets: what each shows of an item in a warehouse.


def balance_of(rows, key):
    stock, worth = stock_and_worth(rows, key)
    return [{"qty": stock, "value": worth}]


def layers_of(rows, key):
    """Returns what is left of what entered: by FIFO of each row that has units left, and by average of all together."""
    if next(it.method for it, _ in rows if it.key() == key) == "average":
        return [{"record": 0, "line": 0, **it} for it in balance_of(rows, key) if it["qty"] > 0]
    entered, left = entered_and_left(rows, key)
    before, shown = 0, []
    for it, value in entered:
        taken = min(it.qty, max(0, left - before))  # those that left, less all that entered before
        before += it.qty
        if taken < it.qty:
            worth = value - value * taken // it.qty
            shown.append({"record": it.record, "line": it.line, "qty": it.qty - taken, "value": worth})
    return shown


def ledger_of(rows, key):
    """Returns each row of the item in the warehouse, with what is held after it."""
    shown, own = [], []
    for it, value in rows:
        if it.key() == key:
            own.append((it, value))
            stock, worth = stock_and_worth(own, key)
            side = "in" if it.side == ENTERS else "out"
            shown.append({"at": it.at, "record": it.record, "line": it.line, "side": side, "qty": it.qty, "value": value,
                          "stock": stock, "worth": worth})
    return shown


SHEETS = {"balance": balance_of, "layers": layers_of, "ledger": ledger_of}
COLUMNS = {
    "balance": ["item", "store", "qty", "value"],
    "layers": ["item", "store", "record", "line", "qty", "value"],
    "ledger": ["item", "store", "at", "record", "line", "side", "qty", "value", "stock", "worth"],
    "accounts": ["account", "balance"],
    "voucher": ["line", "account", "debit", "credit"],
}


def csv_of(sheet, rows):
    """Returns the rows of a sheet as a text of CSV, the names of its columns first."""
    out = io.StringIO()
    written = csv.DictWriter(out, COLUMNS[sheet], lineterminator="\n")
    written.writeheader()
    written.writerows(rows)
    return out.getvalue()


# The lines of the general ledger: an account, and an amount that is a debit above 0 and a credit below.

NOT_BILLED, COST_OF_SALES, ADJUSTMENT, LANDED = 1, 2, 3, 4


def share_of(it, before, charges):
    """Returns what of a movement's value is landed charges, or the price of what goes back to a supplier."""
    if it.side == ENTERS:
        return charges[it.own_line()] if it.target is None else 0
    if it.target is None:
        return 0
    back = sum(other.qty for other, _ in before if other.target == it.target)
    price = next(other.amount for other, _ in before if other.own_line() == it.target)
    return part(price, back, it.qty, it.whole)


def posted(it, value, share, kind, account):
    """Returns the lines of a movement of a voucher of this kind, into or out of a warehouse with this account."""
    enters = [(account, value)]
    leaves = [(account, -value)]
    lines = {
        "receipt": enters + [(NOT_BILLED, share - value), (LANDED, -share)],
        "sold": leaves + [(COST_OF_SALES, value)],
        "used": leaves + [(ADJUSTMENT, value)],
        "transfer": enters if it.side == ENTERS else leaves,
        "customer-return": enters + [(COST_OF_SALES, -value)],
        "supplier-return": leaves + [(NOT_BILLED, share), (ADJUSTMENT, value - share)],
    }[kind]
    return [(account, amount) for account, amount in lines if amount != 0]


# The ledger.

# What moves goods or charges for them, and may be taken back.
VOUCHERS = {"receipt", "issue", "transfer", "customer-return", "supplier-return", "landed"}
# What is said of a line that publishes.
PUBLISHED = {"settle": "settled", "work": "worked"}


def refused(fault, **data):
    return {"fault": fault, **data, "status": "refused"}


def first_of(things, test):
    """Returns the number, from 1, of the first that passes the test; or None."""
    return next((number for number, thing in enumerate(things, 1) if test(thing)), None)


def target_of(line):
    return line["record"], line["line"]


def named_by(it):
    """Returns the records of which a voucher names lines."""
    return [line["record"] for line in it.get("targets", it.get("lines", [])) if "record" in line]


def is_target_kind(it, kind):
    """Whether a voucher is such that a return or a charge of this kind may name its lines."""
    return it["do"] == "issue" and it["use"] == "sold" if kind == "customer-return" else it["do"] == "receipt"


class Ledger:
    def __init__(self):
        self.items, self.stores = {}, {}  # the record's number by the code
        self.methods = {}  # by the item's number
        self.accounts = {}  # by the warehouse's number
        self.accepted = []  # what was accepted, as it was posted
        self.cancelled = {}  # the record that took a record back, by the number of that one
        self.covered = 0
        self.ever, self.movements = [], []  # all that vouchers made, and those of vouchers in force

    def answer(self, line):
        """Returns the reply to a line that is not blank."""
        it = request_of(line)
        if it is None:
            return BAD
        if it["do"] in PUBLISHED:
            self.work(it.get("turns"))
            return {"covered": self.covered, "status": PUBLISHED[it["do"]]}
        return self.report(it) if it["do"] == "report" else self.post(it)

    def work(self, turns):
        """Covers all that was accepted, as all turns of a worker do that there are. This judge has none that makes so many turns."""
        if turns is not None:
            raise NotImplementedError("turns of a worker: plain_build makes them")
        self.covered = len(self.accepted)

    def masters_of(self, it):
        return {"item": self.items, "store": self.stores}.get(it["do"])

    def line_at(self, target, kind):
        """Returns the line of an accepted voucher that is named, where one of this kind may name it; or None."""
        record, line = target
        if record > len(self.accepted) or not is_target_kind(self.accepted[record - 1], kind):
            return None
        lines = self.accepted[record - 1]["lines"]
        return lines[line - 1] if line <= len(lines) else None

    def is_in_force(self, record, first=None):
        """Whether no record takes this one back; or none of the first so many, of which it is one."""
        by = self.cancelled.get(record)
        return by is None or first is not None and by > first

    def left_of(self, target):
        """Returns how many units of a line were not returned."""
        record, line = target
        back = sum(it.qty for it in self.movements if it.target == target)
        return self.accepted[record - 1]["lines"][line - 1]["qty"] - back

    def line_fault(self, it):
        """Returns the refusal for the first unknown item, the first unknown warehouse, or the first line that stays; or None."""
        lines = it.get("lines", [])
        for fault, test in (
            ("unknown-item", lambda line: "item" in line and line["item"] not in self.items),
            ("unknown-store", lambda line: any(line[field] not in self.stores for field in ("store", "from", "to") if field in line)),
            ("same-store", lambda line: "from" in line and line["from"] == line["to"]),
        ):
            number = first_of(lines, test)
            if number is not None:
                return refused(fault, line=number)
        return None

    def target_fault(self, it):
        """Returns the refusal for the first fault of the lines of earlier vouchers that are named; or None."""
        if it["do"] not in ("customer-return", "supplier-return", "landed"):
            return None
        named = it.get("targets", it.get("lines"))
        targets = [target_of(line) for line in named]
        for fault, test in (
            ("unknown-target", lambda line: self.line_at(target_of(line), it["do"]) is None or not self.is_in_force(line["record"])),
            ("link-later", lambda line: "at" in it and self.accepted[line["record"] - 1]["at"] > it["at"]),
        ):
            number = first_of(named, test)
            if number is not None:
                return refused(fault, line=number)
        number = first_of(range(len(targets)), lambda index: targets[index] in targets[:index])
        if number is not None:
            return refused("repeated-target", line=number)
        if it["do"] == "landed":
            return refused("no-basis") if sum(self.weights(it)) == 0 else None
        number = first_of(named, lambda line: line["qty"] > self.left_of(target_of(line)))
        if number is None:
            return None
        return refused("over-return", asked=named[number - 1]["qty"], left=self.left_of(targets[number - 1]), line=number)

    def cancel_fault(self, it):
        """Returns the refusal of what takes back no voucher in force, or one that others name; or None."""
        if it["do"] != "cancel":
            return None
        record = it["record"]
        if record > len(self.accepted) or self.accepted[record - 1]["do"] not in VOUCHERS or not self.is_in_force(record):
            return refused("not-live", record=record)
        by = next((number for number, other in enumerate(self.accepted, 1) if record in named_by(other) and self.is_in_force(number)), None)
        return None if by is None else refused("linked", by=by)

    def moments_changed(self, it):
        """Returns the moments of the movements whose value the voucher changes first: its own, of what it charges, or of what it takes back."""
        if it["do"] == "cancel":
            return self.moments_changed(self.accepted[it["record"] - 1])
        return [it["at"]] if "at" in it else [self.accepted[target["record"] - 1]["at"] for target in it.get("targets", [])]

    def frozen_fault(self, it):
        """Returns the refusal of what changes the past up to the latest of all freezes; or None."""
        until = max((one["until"] for one in self.accepted if one["do"] == "freeze"), default="")
        return refused("frozen", until=until) if any(at <= until for at in self.moments_changed(it)) else None

    def weights(self, it):
        return [self.line_at(target_of(target), "landed")[it["basis"]] for target in it["targets"]]

    def charges(self, covered):
        """Returns what the vouchers in force among the first so many charge to each line of a receipt."""
        charges = collections.Counter()
        for number, it in enumerate(self.accepted[:covered], 1):
            if it["do"] == "landed" and self.is_in_force(number, covered):
                before, weights = 0, self.weights(it)
                for target, weight in zip(it["targets"], weights):
                    charges[target_of(target)] += part(it["charge"], before, weight, sum(weights))
                    before += weight
        return charges

    def voucher_fault(self, it):
        """Returns the refusal for the first fault of what is posted, whatever room and goods there are; or None."""
        masters = self.masters_of(it)
        if masters is not None:
            return refused("code-taken") if it["code"] in masters else None
        return self.line_fault(it) or self.target_fault(it) or self.cancel_fault(it) or self.frozen_fault(it)

    def post(self, it):
        fault = self.voucher_fault(it)
        if fault is not None:
            return fault
        new = [movement for number, line in enumerate(it.get("lines", []), 1) for movement in self.movements_of(it, number, line)]
        if len(self.accepted) >= MOST_RECORDS or len(self.movements) + len(new) > MOST_MOVEMENTS:
            return refused("full", records=len(self.accepted), entries=len(self.movements))
        gone = [movement for movement in self.movements if movement.record == it["record"]] if it["do"] == "cancel" else []
        found = self.shortage_with(new, gone)
        if found is not None:
            return self.short(*found)
        self.hold(new, gone)
        self.accepted.append(it)
        if it["do"] == "cancel":
            self.cancelled[it["record"]] = len(self.accepted)
        masters = self.masters_of(it)
        if masters is not None:
            masters[it["code"]] = len(self.accepted)
        if it["do"] == "item":
            self.methods[len(self.accepted)] = it["method"]
        if it["do"] == "store":
            self.accounts[len(self.accepted)] = it["account"]
        return {"record": len(self.accepted), "status": "accepted"}

    def shortage_with(self, new, gone):
        return first_shortage([it for it in self.movements if it not in gone] + new)

    def hold(self, new, gone):
        self.ever += new
        self.movements = [it for it in self.movements if it not in gone] + new

    def movements_of(self, it, number, line):
        """Returns the movements that the line with this number makes of the next record."""
        target = target_of(line) if "record" in line else None
        whole = None if target is None else self.line_at(target, it["do"])
        item = self.items[(line if target is None else whole)["item"]]
        sides = {"receipt": [ENTERS], "customer-return": [ENTERS], "transfer": [LEAVES, ENTERS]}.get(it["do"], [LEAVES])
        stores = [line["from"], line["to"]] if it["do"] == "transfer" else [line["store"]]
        return [
            Movement(it["at"], len(self.accepted) + 1, number, side, item, self.stores[store], line["qty"], line.get("amount", 0),
                     self.methods[item], target, 0 if target is None else whole["qty"])
            for side, store in zip(sides, stores)
        ]

    def short(self, it, lacking):
        """Returns the refusal that names the movement with which so many units are lacking."""
        item, store = self.codes_of(it.key())
        return refused("short", at=it.at, item=item, lacking=lacking, line=it.line, record=it.record, store=store)

    def codes_of(self, key):
        item, store = key
        return ({number: code for code, number in self.items.items()}[item],
                {number: code for code, number in self.stores.items()}[store])

    def report(self, it):
        need = max(it.get("need", 0), it.get("record", 0))
        if need > len(self.accepted):
            return {"accepted": len(self.accepted), "need": need, "status": "no-such-record"}
        if need > self.covered:
            return {"covered": self.covered, "need": need, "status": "pending"}
        charges = self.charges(self.covered)
        rows = self.covered_rows(charges)
        shown = self.sheet(it, [row for row in rows if row[0].at <= it.get("until", row[0].at)], charges)
        written = {"csv": csv_of(it["of"], shown)} if it.get("as") == "csv" else {"rows": shown}
        return {"covered": self.covered, "report": it["of"], **written, "status": "ok"}

    def covered_rows(self, charges):
        return valued([it for it in self.ever if it.record <= self.covered and self.is_in_force(it.record, self.covered)], charges)

    def sheet(self, asked, rows, charges):
        if asked["of"] == "accounts":
            return self.balances(rows, charges)
        return self.voucher(asked["record"], rows, charges) if asked["of"] == "voucher" else self.of_keys(asked, rows)

    def of_keys(self, asked, rows):
        """Returns what the sheet shows of the rows, by the item's number and then by the warehouse's."""
        shown = []
        for key in sorted({it.key() for it, _ in rows}):
            item, store = self.codes_of(key)
            if asked.get("item", item) == item and asked.get("store", store) == store:
                shown += [{"item": item, "store": store, **part} for part in SHEETS[asked["of"]](rows, key)]
        return shown

    def lines_of(self, index, rows, charges):
        """Returns the lines of the general ledger that the row at this index makes."""
        it, value = rows[index]
        voucher = self.accepted[it.record - 1]
        kind = voucher["use"] if voucher["do"] == "issue" else voucher["do"]
        return posted(it, value, share_of(it, rows[:index], charges), kind, self.accounts[it.store])

    def balances(self, rows, charges):
        """Returns the balance of each account that has a line."""
        balances = {}
        for index in range(len(rows)):
            for account, amount in self.lines_of(index, rows, charges):
                balances[account] = balances.get(account, 0) + amount
        return [{"account": account, "balance": balance} for account, balance in sorted(balances.items())]

    def voucher(self, record, rows, charges):
        """Returns the lines of the general ledger that a record makes."""
        return [
            {"line": row[0].line, "account": account, "debit": max(0, amount), "credit": max(0, -amount)}
            for index, row in enumerate(rows) if row[0].record == record
            for account, amount in self.lines_of(index, rows, charges)
        ]


def text_of(reply):
    return json.dumps(reply, separators=(",", ":"), sort_keys=True)


def replies(given, ledger):
    """Returns the replies of a new ledger to the lines of an input, in their order, as texts."""
    return [text_of(ledger.answer(line)) for line in given.split(b"\n") if line.strip(b" \t\r")]


if __name__ == "__main__":
    for reply in replies(sys.stdin.buffer.read(), Ledger()):
        print(reply)

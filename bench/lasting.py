"""Compares how many times as fast as Python the program reads, refuses and prints with how fast it was. These parts stay as quick as
they are: a ratio that fell by a quarter ends the run with status 1."""
import measuring

LEAST = 0.75  # of what was measured
# How many times as fast as Python each figure was, in the run that they are held to.
MEASURED = {"receipts_of_1": 11.9, "receipts_of_10": 8.7, "receipts_of_100": 8.7, "bad_lines": 6.9, "sheets": 22}


def ratios_of(bad_lines, reading, sheets):
    """Returns the ratios of a run, of the sheets the least."""
    printed = min(it["times_python"] for it in sheets.values() if isinstance(it, dict))
    return {"bad_lines": bad_lines["times_python"], "sheets": printed, **{kind: it["times_python"] for kind, it in reading.items()}}


def check(ratios):
    """Ends the run with status 1 where a ratio fell by a quarter."""
    fallen = [f"{figure} is {ratios[figure]} times as fast as Python, and was {ratio}"
              for figure, ratio in MEASURED.items() if ratios[figure] < LEAST * ratio]
    measuring.require(not fallen, "; ".join(fallen))

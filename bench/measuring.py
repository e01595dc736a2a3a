"""Runs a command from file to file, and measures its time and its peak memory. A wrong output ends the run with status 1."""
import ctypes
import os
import subprocess
import sys
import time

ROOT = os.path.dirname(os.path.dirname(os.path.realpath(__file__)))
PROGRAM = [f"{ROOT}/crates/stockd/out/stockd", "batch"]
PARTS = f"{ROOT}/crates/parts_bench/out/parts_bench"
PYTHON_LOOP = """
import json, sys
for line in sys.stdin:
    try:
        json.loads(line)
    except ValueError:
        pass
    print(sys.argv[1])
"""
RUNS = 3
PR_SET_CHILD_SUBREAPER = 36


def require(holds, why):
    if not holds:
        sys.exit(f"bench: {why}")


def python_loop(reply):
    """Returns the command that reads each line as JSON, and answers it with this reply."""
    return [sys.executable, "-c", PYTHON_LOOP, reply]


def inherit_orphans():
    """Makes this process the one that waits for the commands of shells that ended."""
    ctypes.CDLL(None).prctl(PR_SET_CHILD_SUBREAPER, 1, 0, 0, 0)


def run_once(words, given, written):
    """Runs a command from file to file, and returns its seconds and its peak memory in KiB.

    The peak that Linux tells of a process counts the one that started it, so a small shell starts the command and ends;
    this process then inherits the command, and waits for it.
    """
    begin = time.perf_counter()
    shell = ["sh", "-c", 'given=$1 written=$2; shift 2; "$@" <"$given" >"$written" & echo $!', "sh", given, written, *words]
    number = int(subprocess.run(shell, stdout=subprocess.PIPE, check=True).stdout)
    _, status, used = os.wait4(number, 0)
    seconds = time.perf_counter() - begin
    if status:
        sys.exit(f"bench: {words[0]} ended with status {os.waitstatus_to_exitcode(status)}")
    return seconds, used.ru_maxrss


def measure(words, lines, room, check, runs=RUNS):
    """Returns the figures of the best of the runs, and the largest peak memory. The check is given the replies of each run."""
    given, written = f"{room}/given", f"{room}/written"
    with open(given, "w", encoding="ascii") as it:
        it.writelines(f"{line}\n" for line in lines)
    found = []
    for _ in range(runs):
        found.append(run_once(words, given, written))
        with open(written, encoding="ascii") as it:
            check(it.read().splitlines())
    seconds = min(it for it, _ in found)
    return {
        "lines": len(lines),
        "seconds": round(seconds, 4),
        "lines_per_second": round(len(lines) / seconds),
        "bytes_per_second": round(os.path.getsize(given) / seconds),
        "peak_kib": max(it for _, it in found),
    }


def seconds_unwritten(words, lines, room):
    """Returns the seconds of the best of the runs, with replies that go nowhere: no file system takes them."""
    given = f"{room}/given"
    with open(given, "w", encoding="ascii") as it:
        it.writelines(f"{line}\n" for line in lines)
    return min(run_once(words, given, os.devnull)[0] for _ in range(RUNS))


def same_as(lines, due):
    """Returns the check that every line was answered as is due."""
    def check(replies):
        require(len(replies) == len(lines), f"{len(replies)} replies to {len(lines)} lines")
        for number, (line, reply, right) in enumerate(zip(lines, replies, due), 1):
            require(reply == right, f"line {number}, {line}, was answered {reply}, and not {right}")

    return check

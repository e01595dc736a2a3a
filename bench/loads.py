"""Loads a service by `wrk` over sockets of the loopback, beside nginx with a fixed answer in the same run: requests a second, and how long
the slowest of a hundred takes. `wrk` opens a connection of its own to try the port, and each of its connections asks one request after
another. The service is ended by a signal afterwards.
"""
import contextlib
import json
import re
import shutil
import signal
import socket
import subprocess
import time

from measuring import require

PATIENCE = 120  # seconds that any one answer may take, and that a run may take to end
CONNECTIONS = 1_000_000  # more than come
SECONDS = 5
# A book takes 200,000 movements at most, so a large one is posted to for a shorter time.
SECONDS_LARGE = 2
BOOKS = [1_000, 45_000, 100_000, 180_000]
LINES = 100  # of a voucher by which a book is filled
SCRIPT = """
local asked, turn, items, stores = "%s", 0, %d, %d
function init(args) math.randomseed(tonumber(string.sub(tostring({}), 8), 16)) end
local function moment()
  return string.format("2026-%%02d-%%02dT%%02d:00:00", math.random(12), math.random(28), math.random(0, 23))
end
function request()
  turn = turn + 1
  if asked == "balances" or asked == "both" and turn %% 2 == 0 then
    return wrk.format("POST", "/desk", nil, '{"do":"report","of":"balance"}')
  end
  local item, store = math.random(0, items - 1), math.random(0, stores - 1)
  if math.random() < 0.6 then
    return wrk.format("POST", "/desk", nil, string.format('{"do":"receipt","at":"%%s","lines":[{"item":"I%%d","store":"S%%d","qty":%%d,"amount":%%d}]}',
      moment(), item, store, math.random(9), math.random(999)))
  end
  return wrk.format("POST", "/desk", nil, string.format('{"do":"issue","at":"%%s","use":"sold","lines":[{"item":"I%%d","store":"S%%d","qty":1}]}',
    moment(), item, store))
end
"""
UNITS = {"us": 1e-3, "ms": 1, "s": 1e3, "m": 6e4}


def connected(port):
    """Returns a socket to the port, once something listens there."""
    end = time.monotonic() + PATIENCE
    while True:
        try:
            link = socket.create_connection(("127.0.0.1", port), PATIENCE)
            link.setsockopt(socket.IPPROTO_TCP, socket.TCP_NODELAY, 1)
            return link
        except ConnectionRefusedError:
            if time.monotonic() > end:
                raise
            time.sleep(0.01)


def has_wrk():
    return shutil.which("wrk") is not None


def milliseconds(text, part):
    number, unit = re.search(rf"(?m)^ +{part}% +([0-9.]+)(us|ms|s|m)$", text).groups()
    return round(float(number) * UNITS[unit], 3)


def load(room, port, connections, seconds, asked, items, stores):
    """Returns what `wrk` gets over so many connections, which ask for `posts`, for `balances`, or for `both` by turns."""
    path = f"{room}/wrk.lua"
    with open(path, "w", encoding="ascii") as it:
        it.write(SCRIPT % (asked, items, stores))
    threads = min(connections, 2)
    words = ["wrk", f"-t{threads}", f"-c{connections}", f"-d{seconds}s", "--latency", "--timeout", "60s", "-s", path, f"http://127.0.0.1:{port}/desk"]
    done = subprocess.run(words, capture_output=True, text=True)
    require(done.returncode == 0 and "Socket errors" not in done.stdout, f"wrk ended with {done.returncode}: {done.stdout}{done.stderr}")
    rate = float(re.search(r"Requests/sec: +([0-9.]+)", done.stdout)[1])
    return {"requests_per_second": round(rate), "median_ms": milliseconds(done.stdout, 50), "99th_ms": milliseconds(done.stdout, 99)}


@contextlib.contextmanager
def going_on(service, program, path, desks):
    """A service for more connections than come, which is ended by a signal."""
    with service(program, path, desks, "--connections", str(CONNECTIONS)) as (run, port):
        connected(port).close()
        yield port
        run.terminate()
        require(run.wait(60) == -signal.SIGTERM, f"a service ended with {run.returncode} in place of by its signal")


def rates(service, batch, program, room, masters, desks, items, stores):
    """Posts and balances by turns, to a small book."""
    path = f"{room}/loaded-{desks}"
    batch(program, ["--file", path], masters)
    with going_on(service, program, path, desks) as port:
        return load(room, port, desks, SECONDS, "both", items, stores)


def asking(service, batch, program, room, masters, desks, items, stores):
    """Balances alone, of a small book that is published."""
    path = f"{room}/asked-{desks}"
    batch(program, ["--file", path], [*masters, *filling(1_000, items, stores), '{"do":"settle"}'])
    with going_on(service, program, path, desks) as port:
        return load(room, port, desks, SECONDS, "balances", items, stores)


def filling(movements, items, stores):
    """Lines that make a book of so many movements, of each item in each warehouse alike."""
    for first in range(0, movements, LINES):
        lines = [
            {"item": f"I{n % items}", "store": f"S{n // items % stores}", "qty": 1 + n % 9, "amount": 1 + n % 997}
            for n in range(first, min(first + LINES, movements))
        ]
        at = f"2026-{1 + first // LINES % 12:02}-{1 + first // LINES % 28:02}T09:00:00"
        yield json.dumps({"do": "receipt", "at": at, "lines": lines}, separators=(",", ":"))


def large_books(service, batch, program, room, masters, desks, items, stores):
    """Posts alone, to books of several sizes."""
    found = {}
    for movements in BOOKS:
        path = f"{room}/book-{movements}"
        batch(program, ["--file", path], [*masters, *filling(movements, items, stores), '{"do":"settle"}'])
        with going_on(service, program, path, desks) as port:
            found[movements] = load(room, port, desks, SECONDS_LARGE, "posts", items, stores)
    return found


def beside(nginx, room, desks):
    """What nginx answers to the same connections, whatever they send."""
    with nginx(room) as port:
        return load(room, port, desks, SECONDS, "both", 1, 1)

"""A fake proxy: it writes a feed from a list, and answers commands. Run as a program it is given a
file of Python values; tests import its lists."""
import json
import os
import socket
import sys
import threading
import time

SESSIONS, LIMIT = 64, 131072
MORE = os.environ.get("ZANTEYARD_FEED_TEXT", "")  # appended to every text of `described`
AT = 1764220800.25


def event(name, **more):
    return {"event": name, **more}


def started(**more):
    its = {"at": AT, "limit": LIMIT, "sessions": SESSIONS, "database": "shop", "server": "15.14"}
    return event("started", **{**its, "subtransactions": "pg_walinspect", "warnings": [], **more})


OPEN = ["open", SESSIONS, LIMIT, 3]
ROUND = [["round", 4096, 0, 1], ["truncate"]]


def offer(session, first, *transactions):
    return ["offer", session, first, list(transactions)]


def meeting(at=AT, milliseconds=8.4):
    return event("meeting", at=at, fences=2, milliseconds=milliseconds)


def total(all, checked, in_part=None, not_checked=None, waiting=0, rolled_back=0):
    return {"all": all, "checked": checked, "in_part": in_part or {},
            "not_checked": not_checked or {}, "waiting": waiting, "rolled_back": rolled_back}


TOTALS = {
    "transactions": {**total(11, 6, {"some statements weren't seen": 2},
                             {"its writes couldn't be told apart": 3}, rolled_back=1),
                     "only_read": 1, "levels": {"read committed": 10, "serializable": 1}},
    "selects": {**total(20, 9, {"a subquery": 1}, {"an aggregate": 7, "it found no row": 3},
                        rolled_back=1), "by_condition": 8, "found_no_row": 3},
    "writes": total(9, 6, {}, {"its writes couldn't be told apart": 3}),
    "rows_read": {**total(19, 15, {}, {"its version is unknown": 4}, rolled_back=5),
                  "own": 1, "from_before": 4, "of_unchecked": 2},
    "rows_written": total(9, 6, {}, {"its writes couldn't be told apart": 3}),
    "other_statements": 1,
    "without_the_proxy": {"transactions": 2, "rows_written": 5, "untold": 4,
                          "of_these_at_least": 1},
}


def coverage(**more):
    its = {
        "at": AT,
        "committed": 12,
        "offered": 10,
        "fences": 2,
        "bare": 1,
        "reads": {"offered": 15},
        "writes": {"offered": 6},
        "totals": TOTALS,
        "unseen": [
            {
                "shape": "SELECT count(*) FROM orders WHERE customer = $1" + MORE,
                "reason": "an aggregate" + MORE,
                "reads": True,
                "count": 7,
                "first": AT,
            }
        ],
        "connections": {"now": 3, "audited": 3, "waiting": 0, "ever": 5},
        "lag": {"bytes": 128, "seconds": 0.05},
        "pending": 2,
        "remaining": 8,
        "rounds": 1,
        "keys": 4,
        "statements_dropped": 0,
    }
    return event("coverage", **{**its, **more})


# A statement, followed by its read.
READ_BELOW = r"SELECT qty FROM stock WHERE id = .*\n +read stock\(id=7\) (from|as it was)"

# A lost update: both read the initial row 7 of stock, and both wrote it.
BOTH = [[[[5, "init"]], [5]], [[[5, 0, 0]], [5]]]
LOST_UPDATE = [
    offer(0, 0, [[[5, "init"]], [5]]),
    offer(1, 0, [[[5, 0, 0]], [5]]),
    offer(2, 0, [[[5, 0, 0]], [5]]),
]


def statement(text, at, **more):
    return {"text": text, "parameters": None, "at": at, **more}


def described(session, number, **more):
    its = {
        "session": session,
        "number": number,
        "known": True,
        "fence": False,
        "connection": session + 10,
        "application_name": "shop" + MORE,
        "address": f"10.0.0.7:5{session:04}{MORE}",
        "user": "shop" + MORE,
        "database": "shop",
        "level": "read committed" + MORE,
        "began": AT + session + number / 10,
        "ended": AT + session + number / 10 + 0.05,
        "xid": 700 + session,
        "statements": [
            statement(
                "SELECT qty FROM stock WHERE id = $1 /*file='shop/orders.py',line='41'*/" + MORE,
                AT + session,
                parameters=["7" + MORE],
                file="shop/orders.py" + MORE,
                line=41,
            ),
            statement("UPDATE stock SET qty = 4 WHERE id = 7" + MORE, AT + session + 0.01),
        ],
        "statements_dropped": 0,
        "reads": [],
        "writes": [5],
        "keys": [{"key": 5, "table": "public.stock" + MORE, "row": "7" + MORE}],
    }
    return {**its, **more}


class Fake:
    """Writes its parts one after another. A part is a line, an event, ("await", command) to wait
    for that command, ("file", path) to wait for that file, or ("exit", status), which ends the
    program. Each `describe` is answered by `describes`, and `stop` and `restart` as the real proxy
    answers them."""

    def __init__(self, parts, output=sys.stdout, describes=described, holds=False):
        self.parts, self.output, self.describes, self.holds = parts, output, describes, holds
        self.commands, self.change = [], threading.Condition()
        self.turn = threading.Lock()

    def write(self, part):
        with self.turn:
            self.output.write(json.dumps(part, separators=(",", ":")) + "\n")
            self.output.flush()

    def run(self, commands=sys.stdin):
        threading.Thread(target=self.obey, args=(commands,), daemon=True).start()
        for part in self.parts:
            if isinstance(part, tuple) and part[0] == "exit":
                sys.exit(part[1])
            elif isinstance(part, tuple) and part[0] == "file":
                while not os.path.exists(part[1]):
                    time.sleep(0.01)
            elif isinstance(part, tuple):
                self.wait_for(part[1])
            else:
                self.write(part)
        self.wait_for("end")

    def wait_for(self, name):
        with self.change:
            while name not in self.commands:
                self.change.wait()
            self.commands.remove(name)

    def obey(self, commands):
        for line in commands:
            its = json.loads(line)
            self.answer(its)
            self.note(its["command"])
        self.note("end")

    def note(self, name):
        with self.change:
            self.commands.append(name)
            self.change.notify_all()

    def answer(self, its):
        if its["command"] == "describe":
            found = [self.describes(session, number) for session, number in its["transactions"]]
            self.write(event("transactions", id=its["id"], transactions=found))
        elif its["command"] == "restart":
            self.write(event("restarted", at=time.time()))
            self.write(OPEN)
        elif its["command"] == "stop":
            for part in (*ROUND, coverage(), event("stopped", at=time.time())):
                self.write(part)


def program(folder, *runs):
    """Writes a program into the folder that is a fake proxy with these parts. With several lists of
    parts each start takes the next one, and then the last one again and again. Returns its path."""
    path = os.path.join(folder, "zanteyard-proxy")
    with open(f"{path}.json", "w", encoding="utf-8") as file:
        json.dump(runs, file)  # makes lists of tuples
    here = os.path.abspath(__file__)
    with open(path, "w", encoding="utf-8") as file:
        file.write(f'#!/bin/sh\nexec "{sys.executable}" "{here}" "{path}" "$@"\n')
    os.chmod(path, 0o755)
    return path


def parts_of(path):
    """The parts of this start of the program, with tuples again."""
    with open(f"{path}.json", encoding="utf-8") as file:
        runs = json.load(file)
    with open(f"{path}.starts", "a+", encoding="utf-8") as file:
        file.write(json.dumps(sys.argv[2:]) + "\n")
        file.seek(0)
        start = len(file.readlines())
    parts = runs[min(start, len(runs)) - 1]
    its_own = ("await", "exit", "file")
    return [tuple(it) if isinstance(it, list) and it[0] in its_own else it for it in parts]


def attached(path):
    """Waits for the program that audits to attach itself to this control socket. Returns what it
    says, and where it reads."""
    with socket.socket(socket.AF_UNIX) as listener:
        listener.bind(path)
        listener.listen()
        while True:
            connection = listener.accept()[0]
            lines = connection.makefile("r", encoding="utf-8")
            asked = json.loads(lines.readline())["command"]
            its = {"process": os.getpid(), "build": "fake", "fingerprint": "", "parent": 0}
            answers = connection.makefile("w", encoding="utf-8")
            answers.write(json.dumps(event("attached" if asked == "attach" else "proxy", **its)) + "\n")
            answers.flush()
            if asked == "attach":
                os.unlink(path)
                return lines, answers


if __name__ == "__main__":
    if "--control" in sys.argv:
        its_parts = parts_of(sys.argv[1])
        said, heard = attached(sys.argv[sys.argv.index("--control") + 1])
        print("2026/11/29 00:00:00 zanteyard-proxy: listening on nothing", file=sys.stderr, flush=True)
        Fake(its_parts, heard).run(said)
    else:
        Fake(parts_of(sys.argv[1])).run()

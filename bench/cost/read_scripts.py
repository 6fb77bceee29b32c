#!/usr/bin/env python3
"""How fast cobra_audit reads scripts, compared with CPython's json.loads on the same lines.

Run it at the top of the repository, after `cd crates/cobra_audit && rt run < /dev/null` has built
the program:

    python3 bench/cost/read_scripts.py [PROGRAM]

It makes a script of 64,000 transactions in 2,000 offers (8 reads and 8 writes each), and one ten
times as long. The offers are refused (they exceed the limit), so that reading dominates. In a third
script, of version 2, every other transaction aborted. Times are the best of five runs.
"""
import json
import os
import subprocess
import sys
import tempfile
import time

OFFERS, TRANSACTIONS, READS, WRITES = 2000, 32, 8, 8
RUNS = 5


def offer(number, more=()):
    """An offer of session 1 that names transactions of session 0 as its sources; every other
    transaction has `more` appended."""
    transactions = []
    for place in range(TRANSACTIONS):
        first = 1 + 1000 * number + 16 * place
        reads = [[first + i, 0, number * TRANSACTIONS + i] for i in range(READS)]
        writes = [first + READS + i for i in range(WRITES)]
        transactions.append([reads, writes, *(more if place % 2 else ())])
    return json.dumps(["offer", 1, 0, transactions], separators=(",", ":"))


def write_script(path, offers, version=1):
    with open(path, "w", encoding="ascii") as script:
        script.write('["open",2,8,2]\n' if version == 2 else '["open",2,8]\n')
        for number in range(offers):
            script.write(offer(number % OFFERS, ["aborted"] if version == 2 else ()) + "\n")


def seconds_of_program(program, path):
    with open(path, "rb") as script, open(os.devnull, "wb") as replies:
        begin = time.perf_counter()
        subprocess.run([program], stdin=script, stdout=replies, check=True)
        return time.perf_counter() - begin


def peak_of_program(program, path):
    """The peak memory in KiB, as last printed while it ran: the value from wait4 would include this
    program's memory."""
    peak = 0
    with open(path, "rb") as script, open(os.devnull, "wb") as replies:
        process = subprocess.Popen([program], stdin=script, stdout=replies)
        while process.poll() is None:
            with open(f"/proc/{process.pid}/status", encoding="ascii") as status:
                told = [line.split()[1] for line in status if line.startswith("VmHWM:")]
            peak = max([peak, *map(int, told)])
            time.sleep(0.001)
    return peak


def seconds_of_python(path):
    with open(path, "rb") as script:
        lines = script.read().split(b"\n")[:-1]
    begin = time.perf_counter()
    for line in lines:
        json.loads(line)
    return time.perf_counter() - begin


def main():
    program = sys.argv[1] if len(sys.argv) > 1 else "crates/cobra_audit/out/cobra_audit"
    with tempfile.TemporaryDirectory() as folder:
        short, long, second = (os.path.join(folder, name) for name in ("short", "long", "second"))
        write_script(short, OFFERS)
        write_script(second, OFFERS, version=2)
        write_script(long, 10 * OFFERS)
        ours = min(seconds_of_program(program, short) for _ in range(RUNS))
        of_second = min(seconds_of_program(program, second) for _ in range(RUNS))
        theirs = min(seconds_of_python(short) for _ in range(RUNS))
        peak, long_peak = peak_of_program(program, short), peak_of_program(program, long)
        print(f"script                 {os.path.getsize(short) / 1e6:8.1f} MB, {OFFERS * TRANSACTIONS} transactions")
        print(f"cobra_audit            {ours:8.3f} s")
        print(f"  the one of version 2 {of_second:8.3f} s")
        print(f"CPython's json.loads   {theirs:8.3f} s")
        print(f"ours / theirs          {ours / theirs:8.2f}")
        print(f"peak memory            {peak:8d} KiB")
        print(f"ten times as many lines{long_peak:8d} KiB")


if __name__ == "__main__":
    main()

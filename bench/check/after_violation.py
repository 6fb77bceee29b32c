"""What an audit tells of an application with a frequent bug and a rare one: clients that lose
updates all the time, and a write skew now and then, at PostgreSQL's default level.

    ZANTEYARD_PROXY=.. COBRA_AUDIT=.. bench/check/after_violation.py [--seconds S] [--clients N] [--skews N] [--thinking S]
        [--rows N] [--package DIR]

It starts a server of its own, and runs `zanteyard watch` of the package in DIR (this tree's), such as an older one's
python. It prints how many updates were lost and what the outcome says.
"""
import argparse
import os
import random
import re
import subprocess
import sys
import tempfile
import threading
import time

HERE = os.path.dirname(os.path.abspath(__file__))
PACKAGE = os.path.normpath(os.path.join(HERE, "../../python"))
sys.path[:0] = [PACKAGE, os.path.join(HERE, "../../examples")]

import psycopg2

import try_postgres


class Clients:
    def __init__(self, url, asked):
        self.url, self.asked = url, asked
        self.ends = time.monotonic() + asked.seconds
        self.turn, self.done, self.skews = threading.Lock(), 0, 0

    def connect(self):
        return psycopg2.connect(self.url)

    def count(self):
        with self.turn:
            self.done += 1

    def sell(self, seed):
        mine, connection = random.Random(seed), self.connect()
        while time.monotonic() < self.ends:
            row = mine.randrange(self.asked.rows)
            with connection.cursor() as cursor:
                cursor.execute("SELECT qty FROM stock WHERE id = %s /*file='orders.py',line='14'*/", (row,))
                (left,) = cursor.fetchone()
                time.sleep(self.asked.thinking)
                cursor.execute(
                    "UPDATE stock SET qty = %s WHERE id = %s /*file='orders.py',line='18'*/", (left - 1, row)
                )
            connection.commit()
            self.count()
        connection.close()

    def leave(self):
        """Two doctors who each see that the other one is on call."""
        both = self.connect(), self.connect()
        every = self.asked.seconds / (self.asked.skews + 1)
        for at in range(self.asked.skews):
            time.sleep(max(0.0, self.ends - self.asked.seconds + every * (at + 1) - time.monotonic()))
            for _ in range(2):  # what runs for the first time isn't seen
                for connection in both:
                    with connection.cursor() as cursor:
                        for doctor in (1, 2):
                            cursor.execute("SELECT on_call FROM staff WHERE id = %s /*file='staff.py',line='7'*/", (doctor,))
                for doctor, connection in enumerate(both, 1):
                    with connection.cursor() as cursor:
                        cursor.execute(
                            "UPDATE staff SET on_call = false WHERE id = %s /*file='staff.py',line='9'*/", (doctor,)
                        )
                for connection in both:
                    connection.commit()
                self.skews += 1
                time.sleep(0.3)
        for connection in both:
            connection.close()

    def run(self):
        threads = [threading.Thread(target=self.sell, args=(seed,)) for seed in range(self.asked.clients)]
        threads.append(threading.Thread(target=self.leave))
        for thread in threads:
            thread.start()
        for thread in threads:
            thread.join()


def main():
    parser = argparse.ArgumentParser(description=__doc__.splitlines()[0])
    parser.add_argument("--seconds", type=float, default=60.0)
    parser.add_argument("--clients", type=int, default=12)
    parser.add_argument("--skews", type=int, default=1)
    parser.add_argument("--thinking", type=float, default=0.02)
    parser.add_argument("--rows", type=int, default=100)
    parser.add_argument("--package", default=PACKAGE)
    asked = parser.parse_args()
    [at, listen] = try_postgres.free_ports(2)
    server = try_postgres.Server(at)
    with server:
        server.prepare()
        environment = {**os.environ, "PGPASSWORD": try_postgres.PASSWORD, "PYTHONPATH": os.path.abspath(asked.package)}
        os.environ["PGPASSWORD"] = try_postgres.PASSWORD
        with psycopg2.connect(server.url("shop")) as connection, connection.cursor() as cursor:
            cursor.execute("CREATE TABLE stock (id int PRIMARY KEY, qty int NOT NULL)")
            cursor.execute("INSERT INTO stock SELECT n, 1000000 FROM generate_series(0, %s) n", (asked.rows - 1,))
            cursor.execute("CREATE TABLE staff (id int PRIMARY KEY, on_call bool NOT NULL)")
            cursor.execute("INSERT INTO staff VALUES (1, true), (2, true)")
        with tempfile.TemporaryDirectory() as folder:
            log = os.path.join(folder, "log")
            words = [sys.executable, "-m", "zanteyard", "watch", server.url("audit"), "--listen", f"127.0.0.1:{listen}"]
            with open(log, "w") as file, open(os.path.join(folder, "out"), "w+") as out:
                watch = subprocess.Popen(words, stdout=out, stderr=file, env=environment)
                while "can connect to" not in open(log).read():
                    if watch.poll() is not None:
                        sys.exit(open(log).read())
                    time.sleep(0.1)
                clients = Clients(server.url("shop", listen), asked)
                clients.run()
                watch.terminate()
                watch.wait()
                out.seek(0)
                told = out.read()
            refused = [line for line in open(log).read().splitlines() if "ERROR" in line and "VIOLATED" not in line]
        with psycopg2.connect(server.url("shop")) as connection, connection.cursor() as cursor:
            cursor.execute("SELECT sum(1000000 - qty) FROM stock")
            sold = cursor.fetchone()[0]
    print(f"{clients.done} sales in {asked.seconds:g} s, {clients.done - sold} of them lost; {clients.skews} write skews")
    begin = [at for at, line in enumerate(told.splitlines()) if re.match(r"(violated|serial|incomplete|kept): [\d,]+ of", line)]
    print("\n".join(told.splitlines()[begin[-1]:] if begin else told.splitlines()[-40:]))
    explained = re.findall(r"^  (lost update|write skew|[a-z -]+) \(", told, re.M)
    print(f"explained: {', '.join(sorted(set(explained)))} ({len(explained)})")
    print("\n".join(refused[:5]))


if __name__ == "__main__":
    main()

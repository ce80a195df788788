#!/usr/bin/python3
"""A hundred clients on four links for a minute, while links are killed: every answer is compared with what its client is due."""

import random
import sys
import threading
import time

import pymysql
from world import World, check, connect, end, rows

CLIENTS, LINKS = 100, 4
SECONDS = int(sys.argv[1]) if len(sys.argv) > 1 else 60
ENDED, LOST = (2006, 2013), (9101, 1317, 1927)
until = time.monotonic() + 3_600
wrong, errors, answers = [], {}, [0] * CLIENTS


class Client:
    def __init__(self, n):
        self.n, self.chance = n, random.Random(n)
        self.settings = (("d", "e")[n % 2], f"+{n % 12:02}:00", ("STRICT_ALL_TABLES", "NO_ZERO_DATE")[n // 2 % 2])
        self.kept = 0
        self.unsure = 0
        self.comes()

    def comes(self):
        schema, zone, mode = self.settings
        while True:
            try:
                self.cursor = connect(database=schema, read_timeout=120).cursor()
                self.cursor.execute(f"SET time_zone = '{zone}', sql_mode = '{mode}'")
                return
            except pymysql.MySQLError as error:
                self.told(error)

    def told(self, error):
        """Notes an error. One that comes as a link is killed is due, and says nothing of whether the statement ran."""
        code = error.args[0]
        errors[code] = errors.get(code, 0) + 1
        if code not in ENDED + LOST or "timed out" in str(error):
            wrong.append((self.n, error))
        time.sleep(0.2)
        return code

    def due(self, statement, *wanted):
        """Asks, and notes an answer that is none of these."""
        found = rows(self.cursor, statement)
        answers[self.n] += 1
        if found not in wanted:
            wrong.append((self.n, statement, found, wanted))
        return found

    def counts(self):
        """How many rows it has: as many as it knows of, or one more where it wasn't told."""
        text = f"SELECT COUNT(*) FROM d.t WHERE n = {self.n}"
        self.kept = self.due(text, *(((self.kept + k,),) for k in range(self.unsure + 1)))[0][0]
        self.unsure = 0

    def asks(self):
        k = self.chance.randrange(1_000_000)
        self.due(f"SELECT DATABASE(), @@time_zone, @@sql_mode, {k}", ((*self.settings, k),))
        self.due("SELECT COUNT(*) FROM d.t WHERE never", ((0,),))

    def inserts(self):
        self.unsure = 1
        self.cursor.execute(f"INSERT INTO d.t (n) VALUES ({self.n})")
        made = self.cursor.lastrowid
        self.kept, self.unsure = self.kept + 1, 0
        self.due("SELECT LAST_INSERT_ID()", ((made,),))
        self.due(f"SELECT n FROM d.t WHERE id = {made}", ((self.n,),))

    def transacts(self):
        last = self.chance.choice(("COMMIT", "ROLLBACK"))
        self.cursor.execute("BEGIN")
        self.cursor.execute(f"INSERT INTO d.t (n, never) VALUES ({self.n}, {last == 'ROLLBACK'})")
        self.due(f"SELECT COUNT(*) FROM d.t WHERE n = {self.n}", ((self.kept + 1,),))
        self.unsure = int(last == "COMMIT")
        self.cursor.execute(last)
        self.kept, self.unsure = self.kept + self.unsure, 0

    def remembers(self):
        self.cursor.execute(f"SET @mine = {self.n}")
        self.due("SELECT @mine", ((self.n,),))
        self.cursor.connection.close()
        self.comes()
        self.due("SELECT @mine", ((None,),))
        self.cursor.connection.close()
        self.comes()

    def does(self):
        try:
            self.counts()
            self.chance.choice((self.asks, self.asks, self.inserts, self.transacts, self.counts, self.remembers))()
        except pymysql.MySQLError as error:
            if self.told(error) in ENDED:
                self.comes()


def run(n):
    try:
        client = Client(n)
        while time.monotonic() < until:
            client.does()
    except Exception as error:  # whatever it is, the client failed
        wrong.append((n, repr(error)))


with World(links=(LINKS,), proxy="wait_ms = 60000") as world:
    world.directly("CREATE DATABASE e; CREATE TABLE d.t (id INT PRIMARY KEY AUTO_INCREMENT, n INT, never BOOL DEFAULT 0, KEY (n), KEY (never));")
    until = time.monotonic() + SECONDS
    threads = [threading.Thread(target=run, args=(n,)) for n in range(CLIENTS)]
    for thread in threads:
        thread.start()
    most, killed = 0, 0
    while time.monotonic() < until:
        time.sleep(0.7)
        links = world.server.links()
        most = max(most, len(links))
        killed += len(links[:1])
        world.server.kill_links(random.sample(links, len(links[:1])))
    for thread in threads:
        thread.join()
    check("every answer was due", wrong[:3], [])
    check("links were at most", most, LINKS)
    check("no row is there that was rolled back", world.directly("SELECT COUNT(*) FROM d.t WHERE never"), "0\n")
    print(f"{CLIENTS} clients, {LINKS} links, {SECONDS} s: {sum(answers)} answers compared, {killed} links killed, errors {errors}")
end()

#!/usr/bin/python3
"""Transactions on shared links, and what becomes of a client whose link is killed."""

import threading
import time

from world import World, check, code_of, connect, end, rows

COUNT = "SELECT COUNT(*) FROM d.t"


def killed_under(world, cursor):
    """How a statement ends whose link is killed as it runs."""
    codes = []
    thread = threading.Thread(target=lambda: codes.append(code_of(cursor.execute, "SELECT SLEEP(20)")))
    thread.start()
    time.sleep(1)
    world.server.kill_links()
    thread.join()
    return codes


with World(links=(2,)) as world:
    world.directly("CREATE TABLE d.t (n INT);")
    one, two = connect().cursor(), connect().cursor()
    one.execute("BEGIN")
    one.execute("INSERT INTO d.t VALUES (1)")
    check("its own client sees a row", rows(one, COUNT), ((1,),))
    check("another doesn't", [rows(two, COUNT) for _ in range(5)], [((0,),)] * 5)
    one.execute("ROLLBACK")
    check("none is left", [rows(cursor, COUNT) for cursor in (one, two)], [((0,),)] * 2)
    one.execute("START TRANSACTION")
    one.execute("INSERT INTO d.t VALUES (2)")
    one.execute("COMMIT")
    check("one that is committed", [rows(cursor, COUNT) for cursor in (two, one)], [((1,),)] * 2)
    gone = connect().cursor()
    gone.execute("BEGIN")
    gone.execute("DELETE FROM d.t")
    gone.connection.close()
    check("a client that goes leaves nothing behind", [rows(cursor, COUNT) for cursor in (one, two)], [((1,),)] * 2)
    check("and no lock", code_of(one.execute, "UPDATE d.t SET n = n + 1"), 0)

    for _ in range(3):
        gone = connect().cursor()
        gone.execute("BEGIN")
        gone.execute("DELETE FROM d.t")
        gone.connection._execute_command(3, "SELECT SLEEP(1)")
        time.sleep(0.3)
        gone.connection._force_close()
    time.sleep(2)
    check("nor do three that go as a statement runs there", [rows(cursor, COUNT) for cursor in (one, two)], [((1,),)] * 2)
    check("and no lock or link", code_of(one.execute, "UPDATE d.t SET n = n + 1"), 0)

    one.execute("BEGIN")
    one.execute("INSERT INTO d.t VALUES (3)")
    world.server.kill_links()
    time.sleep(0.5)
    check("whose link is killed in a transaction is ended", code_of(one.execute, "COMMIT"), 2013)
    check("and its row isn't there", rows(two, COUNT), ((1,),))
    one = connect().cursor()
    one.execute("SET @v = 1")
    world.server.kill_links()
    time.sleep(0.5)
    check("so is one that had a user variable", code_of(one.execute, "SELECT @v"), 2013)
    one = connect(database="d").cursor()
    one.execute("SET time_zone = '+03:00'")
    world.server.kill_links()
    time.sleep(0.5)
    check("one that had nothing goes on", rows(one, "SELECT DATABASE(), @@time_zone"), (("d", "+03:00"),))
    check("outside a transaction a statement is told", killed_under(world, one), [9101])
    check("and its client goes on", rows(one, "SELECT DATABASE(), @@time_zone"), (("d", "+03:00"),))
    one.execute("BEGIN")
    check("in a transaction it isn't", killed_under(world, one), [2013])
    check("others go on", rows(two, COUNT), ((1,),))
end()

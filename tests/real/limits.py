#!/usr/bin/python3
"""How long a statement waits for a link, how long a link stays idle, and how many clients there may be."""

import threading
import time

from world import World, check, code_of, connect, end, rows

PROXY = "max_clients = 4\nwait_ms = 1500\nidle_ms = 3000"


def timed(call, *given):
    """The code that a call ends with, and whether that was at once, after `wait_ms`, or neither."""
    began = time.monotonic()
    code = code_of(call, *given)
    took = time.monotonic() - began
    return code, "at once" if took < 1.2 else "after wait_ms" if 1.4 < took < 3 else f"after {took:.1f} s"


with World(links=(1,), proxy=PROXY) as world:
    one, two = connect().cursor(), connect().cursor()
    one.execute("BEGIN")
    one.execute("SELECT 1")
    check("a statement while another client's transaction has the link", timed(two.execute, "DO 1"), (9102, "after wait_ms"))
    check("a PING meanwhile", code_of(two.connection.ping, reconnect=False), 0)
    check("the transaction goes on", rows(one, "SELECT 2"), ((2,),))
    told = []
    thread = threading.Thread(target=lambda: told.append(timed(two.execute, "DO 1")))
    thread.start()
    time.sleep(0.3)
    one.execute("COMMIT")
    thread.join()
    check("one that waits has the link as it is free", told, [(0, "at once")])
    check("so has the next", timed(one.execute, "DO 1"), (0, "at once"))
    one.execute("BEGIN")
    one.execute("SELECT 1")
    told.clear()
    waiting = [connect().cursor(), two]
    threads = [threading.Thread(target=lambda cursor=cursor: told.append(timed(cursor.execute, "DO 1"))) for cursor in waiting]
    for thread in threads:
        thread.start()
    time.sleep(0.3)
    one.connection.close()
    for thread in threads:
        thread.join()
    check("two that wait as the client goes", told, [(0, "at once")] * 2)

    time.sleep(2)
    two.execute("DO 1")
    began = time.monotonic()
    while world.server.links():
        time.sleep(0.1)
    check("an idle link closes after idle_ms", 2.9 < time.monotonic() - began < 4.5, True)
    check("its client goes on", timed(two.execute, "DO 1"), (0, "at once"))
    two.execute("SET @v = 1")
    time.sleep(4)
    check("one with a client's variable stays", rows(two, "SELECT @v"), ((1,),))

    clients = [connect() for _ in range(2)]
    check("one client too many", code_of(connect), 1040)
    check("and again", code_of(connect), 1040)
    clients.pop().close()
    time.sleep(0.3)
    check("once another is gone", code_of(connect), 0)
end()

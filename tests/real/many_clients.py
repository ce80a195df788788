#!/usr/bin/python3
"""Many clients at once, each with a user variable of its own, which is written to a table and read back, and so with a link of its own."""

import threading

from world import World, check, code_of, connect, end

CLIENTS, ROUNDS = 200, 20
failed = []
together = threading.Barrier(CLIENTS)


def client(n):
    try:
        link = connect()
        cursor = link.cursor()
        together.wait(120)
        cursor.execute(f"SET @mine = {n}")
        for k in range(ROUNDS):
            cursor.execute(f"INSERT INTO d.t VALUES ({n}, {k}, @mine)")
            cursor.execute("SELECT @mine")
            if cursor.fetchall() != ((n,),):
                raise ValueError("another client's variable")
        link.close()
    except Exception as error:  # whatever it is, the client failed
        failed.append(error)
        together.abort()


with World(links=(CLIENTS,)) as world:
    check("the table", code_of(connect().cursor().execute, "CREATE TABLE d.t (n INT, k INT, mine INT) ENGINE=MEMORY"), 0)
    threads = [threading.Thread(target=client, args=(n,)) for n in range(CLIENTS)]
    for thread in threads:
        thread.start()
    for thread in threads:
        thread.join()
    check("no client failed", failed, [])
    check("each wrote its own variable", world.directly("SELECT COUNT(*), SUM(n = mine) FROM d.t"), f"{CLIENTS * ROUNDS}\t{CLIENTS * ROUNDS}\n")
    links = [connect() for _ in range(1_000)]
    check("a thousand more log in", code_of(links[-1].cursor().execute, "DO 1"), 0)
end()

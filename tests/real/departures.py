#!/usr/bin/python3
"""What becomes of links to the server as clients go, by what the server counts as aborted."""

import socket
import time

from world import World, check, connect, end


def aborted(world):
    """Sessions whose client went without COM_QUIT (MariaDB documentation, Aborted_clients)."""
    return int(world.directly("SHOW GLOBAL STATUS LIKE 'Aborted_clients'").split()[1])


def transactions(world):
    return int(world.directly("SELECT COUNT(*) FROM information_schema.innodb_trx"))


def rest(world):
    """Waits until the server has no link."""
    for _ in range(100):
        if not world.server.links():
            return
        time.sleep(0.1)


with World(proxy="idle_ms = 2000") as world:
    world.directly("CREATE TABLE d.t (n INT);")
    before = aborted(world)
    links = [connect() for _ in range(20)]
    for link in links:
        link.begin()
        link.cursor().execute("INSERT INTO d.t VALUES (1)")
    check("each client in a transaction has a link", (len(world.server.links()), transactions(world)), (20, 20))
    for link in links[:10]:
        link.close()
    for link in links[10:]:
        link._sock.shutdown(socket.SHUT_RDWR)
    time.sleep(1)
    check("their transactions end with them, and the links stay", (transactions(world), len(world.server.links())), (0, 20))
    rest(world)
    check("until they were idle", world.server.links(), [])
    check("none of them is aborted, whether its client said QUIT or hung up", aborted(world) - before, 0)

    # Its reply is read first, and then the link is clean.
    link = connect()
    link._execute_command(3, "SELECT SLEEP(1)")
    link._sock.shutdown(socket.SHUT_RDWR)
    time.sleep(0.5)
    rest(world)
    check("nor is one whose client goes as its statement runs", (world.server.links(), aborted(world) - before), ([], 0))

    links = [connect() for _ in range(5)]
    for link in links:
        link.begin()
        link._execute_command(3, "SELECT SLEEP(1)")
    time.sleep(0.5)
    for link in links:
        link._sock.shutdown(socket.SHUT_RDWR)
    time.sleep(0.5)
    rest(world)
    check("nor are those of clients that go as their statements run in transactions", (world.server.links(), aborted(world) - before), ([], 0))

    # A procedure may leave what no reset takes back, so its link closes.
    link = connect()
    link.cursor().execute("EXECUTE IMMEDIATE 'DO 1'")
    link.close()
    time.sleep(1)
    check("nor one that serves no others", (world.server.links(), aborted(world) - before), ([], 0))

    # In the middle of a command there is no room for a QUIT.
    link = connect()
    link.cursor().execute("DO 1")
    link._sock.sendall(bytes.fromhex("ffffff0003") + b"SELECT '" + bytes(100_000))
    link._sock.shutdown(socket.SHUT_RDWR)
    rest(world)
    check("a command that never came whole was never sent", aborted(world) - before, 0)
end()

#!/usr/bin/python3
"""Servers that are killed under load, and clients that go without a word."""

import socket
import threading
import time

from world import PORT, SERVER_PORT, World, check, code_of, connect, end

CLIENTS = 50
# A server's first packet: version 10, its name, a thread, a salt, what it can do, a character set, a status, and the login method.
GREETING = (b"\x0a5.5.5-10.11.0\0" + bytes([7, 0, 0, 0]) + b"saltsalt\0" + bytes([0x09, 0xA2, 0x2D, 0x02, 0x00, 0x08, 0x00, 21])
            + bytes(10) + b"saltsaltsalt\0" + b"mysql_native_password\0")
codes = []
started = threading.Barrier(CLIENTS + 1)


def client():
    """Sends statements until one fails, and notes how."""
    cursor = connect().cursor()
    cursor.execute("DO 1")
    started.wait(60)
    for _ in range(1_000_000):
        code = code_of(cursor.execute, "DO SLEEP(0.001)")
        if code:
            codes.append(code)
            return


def greets():
    """A server that greets the first connection and says nothing more, until it is asked to end."""
    server = socket.create_server(("127.0.0.1", SERVER_PORT))
    links = []

    def serve():
        link = server.accept()[0]
        links.append(link)
        link.sendall(len(GREETING).to_bytes(3, "little") + b"\0" + GREETING)
        while link.recv(4096):
            links.append(None)

    threading.Thread(target=serve, daemon=True).start()
    return server, links


def tried(cursor, statement="DO 1"):
    """How a statement ends once its server isn't shunned, and in how many seconds."""
    while True:
        began = time.monotonic()
        code = code_of(cursor.execute, statement)
        if code != 9100:
            return code, time.monotonic() - began
        time.sleep(0.2)


with World(proxy="max_clients = 4000\nwait_ms = 20000") as world:
    threads = [threading.Thread(target=client) for _ in range(CLIENTS)]
    for thread in threads:
        thread.start()
    started.wait(60)
    time.sleep(1)
    world.server.kill()
    for thread in threads:
        thread.join(30)
    check("each client of a killed server is told", (len(codes), set(codes) <= {9100, 9101, 9103}), (CLIENTS, True))
    waiting = connect(autocommit=None).cursor()
    code, took = tried(waiting)
    check("a statement while no server is there", code, 9103)
    check("which is told at once", took < 5, True)
    began = time.monotonic()
    check("and the next, of a server that is shunned", [code_of(waiting.execute, "DO 1") for _ in range(3)], [9100] * 3)
    world.server.start()
    check("the same client, once it is there again", tried(waiting)[0], 0)
    check("ten seconds later", 9 < time.monotonic() - began < 13, True)

    world.server.kill()
    with socket.create_server(("127.0.0.1", SERVER_PORT)):
        code, took = tried(waiting)
        check("a server that takes connections and says nothing", code, 9103)
        check("which is told after ten seconds", 9 < took < 12, True)
    server, links = greets()
    code, took = tried(waiting)
    check("a server that says nothing to the login", code, 9103)
    check("which is told after ten seconds", 9 < took < 12, True)
    check("the login had been sent there", len(links), 2)
    for socket_ in [server, links[0]]:
        socket_.close()
    world.server.start()
    check("the same client, once the server speaks", tried(waiting)[0], 0)
    check("a statement of more than ten seconds", code_of(waiting.execute, "DO SLEEP(11)"), 0)

    gone = []
    for _ in range(CLIENTS):
        link = connect()
        link._execute_command(3, "DO SLEEP(2)")
        gone.append(link._sock)
    for link in gone:
        link.close()
    check("clients that go while their statement runs", code_of(connect().cursor().execute, "DO 1"), 0)
    time.sleep(3)
    check("their links serve others", [code_of(connect().cursor().execute, "DO 1") for _ in range(CLIENTS)], [0] * CLIENTS)
    check("and are no more than they were", len(world.server.links()) <= CLIENTS + 1, True)

    for k in range(200):
        link = socket.create_connection(("127.0.0.1", PORT))
        link.send(bytes([k % 256]) * (k % 50))
        link.close()
    check("clients that say no login", code_of(connect().cursor().execute, "DO 1"), 0)
    check("the router is still the same", world.proxy.poll(), None)
end()

#!/usr/bin/python3
"""Prepared statements over shared links: a client's numbers are its own, and clients of the same texts share what links have prepared."""

import struct
import threading

import pymysql
from pymysql.constants import COMMAND

from world import ADMIN_PORT, World, check, code_of, connect, end, rows

LINKS, CLIENTS, TEXTS = 4, 12, 100
LONGLONG = b"\x08\x00"


class Statement:
    """A prepared statement, whose parameters are numbers, and which answers one."""

    def __init__(self, client, text):
        self.client = client
        client._execute_command(COMMAND.COM_STMT_PREPARE, text)
        head = client._read_packet().get_all_data()
        self.number, self.columns, self.parameters = struct.unpack("<IHH", head[1:9])
        for count in (self.parameters, self.columns):
            for _ in range(count + 1 if count else 0):
                client._read_packet()

    def run(self, *values):
        """What an execute answers; None where that is no row."""
        said = struct.pack("<IBI", self.number, 0, 1)
        if values:
            said += bytes((len(values) + 7) // 8) + b"\x01" + LONGLONG * len(values) + struct.pack(f"<{len(values)}q", *values)
        self.client._execute_command(COMMAND.COM_STMT_EXECUTE, said)
        columns = self.client._read_packet().get_all_data()[0]
        for _ in range(columns + 1):
            self.client._read_packet()
        found, row = None, self.client._read_packet()
        while not row.is_eof_packet():
            found = int.from_bytes(row.get_all_data()[2:], "little", signed=True)
            row = self.client._read_packet()
        return found

    def say(self, command):
        self.client._execute_command(command, struct.pack("<I", self.number))


def reset(client):
    client._execute_command(31, b"")  # COM_RESET_CONNECTION
    client._read_packet()


def count(world, name):
    return int(world.directly(f"SHOW GLOBAL STATUS LIKE '{name}'").split()[1])


def one_of_many(faults):
    client = connect()
    statements = [Statement(client, f"SELECT CAST(? + {k} AS SIGNED)") for k in range(TEXTS)]
    for turn in range(3):
        for k, statement in enumerate(statements):
            if statement.run(1000 * turn) != 1000 * turn + k:
                faults.append((turn, k))
    client.close()


def many(world):
    faults = []
    clients = [threading.Thread(target=one_of_many, args=(faults,)) for _ in range(CLIENTS)]
    for client in clients:
        client.start()
    for client in clients:
        client.join()
    check(f"{CLIENTS} clients with the same {TEXTS} texts on {LINKS} links", faults, [])
    check("links", len(world.server.links()) <= LINKS, True)
    check("a link has a preparation of each text at most", count(world, "Prepared_stmt_count") <= LINKS * TEXTS, True)
    print(f"{count(world, 'Com_stmt_prepare')} preparations and {count(world, 'Com_stmt_execute')} executes at the server, {count(world, 'Prepared_stmt_count')} prepared")


def own(world):
    one, two = connect(database="d"), connect(database="e")
    first, other = (Statement(client, "SELECT CAST(v AS SIGNED) FROM t") for client in (one, two))
    check("numbers are the client's own", (first.number, other.number), (1, 1))
    check("each reads the table of its schema", [first.run(), other.run(), first.run()], [1, 2, 1])
    one.cursor().execute("USE e")
    check("also from another schema", first.run(), 1)
    check("and its own statements read that", rows(one.cursor(), "SELECT v FROM t"), ((2,),))
    one.begin()
    Statement(one, "SELECT CAST(LAST_INSERT_ID(5) AS SIGNED)").run()
    one.rollback()
    first.say(COMMAND.COM_STMT_CLOSE)
    check("a closed number", code_of(first.run), 1243)
    again = Statement(one, "SELECT CAST(v AS SIGNED) FROM t")
    check("the next number is a new one", (again.number, again.run()), (3, 2))
    again.say(COMMAND.COM_STMT_FETCH)
    check("a fetch", code_of(one._read_packet), 1243)
    check("a text that is wrong", code_of(Statement, one, "SELEC 1"), 1064)
    check("one that names its connection", code_of(Statement, one, "SELECT CONNECTION_ID()"), 9107)
    reset(one)
    check("a reset forgets them", code_of(again.run), 1243)
    check("but not another client's", other.run(), 2)
    one.close()
    two.close()


def oldest(world):
    client = connect()
    statements = [Statement(client, f"SELECT CAST({k} AS SIGNED)") for k in range(1_100)]
    check("1,100 statements", [statements[k].run() for k in (0, 1, 550, 1_099)], [0, 1, 550, 1_099])
    check("of which a link keeps 1,000", count(world, "Prepared_stmt_count") <= 1_000 * LINKS, True)
    client.close()


with World(links=(LINKS,)) as world:
    world.directly("CREATE DATABASE e; CREATE TABLE d.t (v INT); CREATE TABLE e.t (v INT); INSERT INTO d.t VALUES (1); INSERT INTO e.t VALUES (2);")
    many(world)
    own(world)
    oldest(world)
    admin = pymysql.connect(host="127.0.0.1", port=ADMIN_PORT, user="admin", password="admin").cursor()
    check("executes are counted, and preparations aren't",
          rows(admin, "SELECT count_star FROM stats_mysql_query_digest WHERE digest_text = 'SELECT CAST(? + ? AS SIGNED)'"), ((str(CLIENTS * TEXTS * 3),),))
end()

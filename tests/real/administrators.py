#!/usr/bin/python3
"""Administrators: who is let in, and what becomes of clients as servers and rules are loaded."""

import threading
import time

from world import ADMIN_PORT, SERVER_PORT, World, check, code_of, connect, end, rows

FIRST, SECOND = SERVER_PORT, SERVER_PORT + 1
SERVERS, RULES = "LOAD MYSQL SERVERS TO RUNTIME", "LOAD MYSQL QUERY RULES TO RUNTIME"
PORT_OF = "SELECT @@port"


def administrator(user="admin", password="admin"):
    import pymysql

    return pymysql.connect(host="127.0.0.1", port=ADMIN_PORT, user=user, password=password, connect_timeout=10, read_timeout=60)


def with_status(cursor, port, status):
    cursor.execute(f"UPDATE mysql_servers SET status = '{status}' WHERE hostgroup_id = 0 AND hostname = '127.0.0.1' AND port = {port}")
    cursor.execute(SERVERS)


def statuses(cursor):
    return [row[3] for row in rows(cursor, "SELECT * FROM runtime_mysql_servers WHERE hostgroup_id = 0")]


class Load:
    """Clients that say one statement after the other. Who is told an error ends, and its code is kept."""

    def __init__(self, clients):
        self.going, self.said, self.codes = True, 0, []
        self.threads = [threading.Thread(target=self.client) for _ in range(clients)]
        for thread in self.threads:
            thread.start()
        time.sleep(1)

    def client(self):
        cursor = connect().cursor()
        while self.going:
            code = code_of(cursor.execute, "SELECT @@port, SLEEP(0.01)")
            if code:
                self.codes.append(code)
                return
            self.said += 1

    def end(self):
        self.going = False
        for thread in self.threads:
            thread.join()


def running(statement):
    """Runs a statement beside what follows; what it ended with is in the list by and by."""
    codes = []
    link = connect()
    beside = threading.Thread(target=lambda: codes.append(code_of(link.cursor().execute, statement)))
    beside.start()
    time.sleep(1)
    return beside, codes


with World(links=(5, 5)) as world:
    check("a wrong password", code_of(administrator, password="x"), 1045)
    check("a client's user", code_of(administrator, "u", "secret"), 1045)
    check("an administrator at the port of clients", code_of(connect, "admin", "admin"), 1045)
    link = administrator()
    admin = link.cursor()
    link.ping()
    check("USE", code_of(link.select_db, "d"), 1047)
    check("a statement that is none", code_of(admin.execute, "SELECT 1"), 9120)
    check("servers in force", rows(admin, "SELECT * FROM runtime_mysql_servers"),
          (("0", "127.0.0.1", str(FIRST), "ONLINE", "1", "5"), ("1", "127.0.0.1", str(SECOND), "ONLINE", "1", "5")))

    client, held = connect().cursor(), connect().cursor()
    check("the only server", rows(client, PORT_OF), ((FIRST,),))
    admin.execute("INSERT INTO mysql_query_rules (rule_id, match_digest, destination_hostgroup, apply) VALUES (1, '^SELECT', 1, 1)")
    check("a rule that is staged", rows(client, PORT_OF), ((FIRST,),))
    admin.execute(RULES)
    check("sends SELECTs to hostgroup 1, once it is loaded", rows(client, PORT_OF), ((SECOND,),))
    check("digests", rows(admin, f"SELECT hostgroup, schemaname, username, digest_text, count_star FROM stats_mysql_query_digest WHERE digest_text = '{PORT_OF}'"),
          (("0", "information_schema", "u", PORT_OF, "2"), ("1", "information_schema", "u", PORT_OF, "1")))
    admin.execute("DELETE FROM mysql_query_rules")
    admin.execute(RULES)
    held.execute("BEGIN")
    check("a transaction there", rows(held, PORT_OF), ((FIRST,),))
    admin.execute(f"INSERT INTO mysql_servers (hostgroup_id, hostname, port, max_connections) VALUES (0, '127.0.0.1', {SECOND}, 5)")
    check("what is staged isn't in force", statuses(admin), ["ONLINE"])
    check("a server twice", code_of(admin.execute, f"INSERT INTO mysql_servers (hostgroup_id, hostname, port) VALUES (0, '127.0.0.1', {SECOND})"), 9122)
    with_status(admin, FIRST, "OFFLINE_SOFT")
    check("it is, once it is loaded", statuses(admin), ["OFFLINE_SOFT", "ONLINE"])
    check("statements go to the new server", [rows(client, PORT_OF) for _ in range(5)], [((SECOND,),)] * 5)
    check("a transaction goes on", rows(held, PORT_OF), ((FIRST,),))
    check("on its link alone", len(world.servers[0].links()), 1)
    check("who keeps it", rows(admin, "SELECT srv_port, state, pinned_by FROM stats_mysql_processlist WHERE pinned_by = 'transaction'"),
          ((str(FIRST), "idle", "transaction"),))
    held.execute("COMMIT")
    check("and goes over then", rows(held, PORT_OF), ((SECOND,),))
    check("the last link closes", world.servers[0].links(), [])
    with_status(admin, FIRST, "ONLINE")
    fresh = [connect().cursor() for _ in range(6)]
    for cursor in fresh:
        cursor.execute("BEGIN")
    check("it is back", {rows(cursor, PORT_OF)[0][0] for cursor in fresh}, {FIRST, SECOND})
    for cursor in fresh:
        cursor.execute("ROLLBACK")

    load = Load(8)
    with_status(admin, FIRST, "OFFLINE_SOFT")
    time.sleep(2)
    check("OFFLINE_SOFT under load: its links close", world.servers[0].links(), [])
    with_status(admin, FIRST, "ONLINE")
    time.sleep(2)
    check("and nobody notices", (load.codes, len(world.servers[0].links()) > 0), ([], True))
    with_status(admin, FIRST, "OFFLINE_HARD")
    time.sleep(1)
    said = load.said
    time.sleep(1)
    check("OFFLINE_HARD under load: its own clients end alone", (set(load.codes) <= {2013}, len(load.codes) <= 5, load.said > said), (True,) * 3)
    load.end()
    print(f"of 8 clients under load {len(load.codes)} were ended by OFFLINE_HARD, after {load.said} statements")
    with_status(admin, FIRST, "ONLINE")

    with_status(admin, FIRST, "OFFLINE_SOFT")
    beside, codes = running("SELECT SLEEP(20)")
    began = time.monotonic()
    with_status(admin, FIRST, "ONLINE")
    with_status(admin, SECOND, "OFFLINE_HARD")
    beside.join()
    check("a statement on a server that is OFFLINE_HARD", (codes, time.monotonic() - began < 10), ([2013], True))
    check("a client without one goes on", rows(client, PORT_OF), ((FIRST,),))
    check("what is open", rows(admin, "SELECT ConnUsed FROM stats_mysql_connection_pool WHERE status = 'OFFLINE_HARD'"), (("0",),))
    admin.execute("DELETE FROM mysql_servers")
    admin.execute(SERVERS)
    check("no server", code_of(client.execute, PORT_OF), 9100)
    admin.execute(f"INSERT INTO mysql_servers (hostgroup_id, hostname, port) VALUES (0, '127.0.0.1', {SECOND})")
    admin.execute(SERVERS)
    check("one again", rows(client, PORT_OF), ((SECOND,),))

    admin.execute("INSERT INTO mysql_query_rules (rule_id, match_pattern, error_msg) VALUES (1, '^DO', 'no')")
    check("a staged rule", code_of(client.execute, "DO 1"), 0)
    admin.execute(RULES)
    check("a loaded one", code_of(client.execute, "DO 1"), 1148)
    admin.execute("DELETE FROM mysql_query_rules")
    admin.execute(RULES)
    check("none", code_of(client.execute, "DO 1"), 0)

    others = [administrator() for _ in range(15)]
    check("the seventeenth administrator", code_of(administrator), 1040)
    others.pop().close()
    time.sleep(1)  # a link is accepted before those that are ready are read
    check("in place of one that went", code_of(administrator), 0)
    check("clients go on", rows(client, PORT_OF), ((SECOND,),))
    beside, codes = running("SELECT SLEEP(5)")
    check("a shutdown", code_of(admin.execute, "PROXYSQL SHUTDOWN"), 0)
    time.sleep(1)
    check("a client without a statement is closed", code_of(client.execute, PORT_OF) in (2006, 2013), True)
    check("so is one that comes", code_of(connect) in (2003, 2013), True)
    check("what runs goes on", rows(admin, "SELECT state FROM stats_mysql_processlist"), (("running",),))
    beside.join()
    check("and is answered", codes, [0])
    check("then the router ends", world.proxy.wait(10), 0)
end()

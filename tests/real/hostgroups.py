#!/usr/bin/python3
"""Two servers, and rules that say which of them has a statement."""

from world import SERVER_PORT, World, check, code_of, connect, end, rows

FIRST, SECOND = SERVER_PORT, SERVER_PORT + 1
RULES = f"""
[[users]]
name = "w"
password = "secret"
default_hostgroup = 2
[[servers]]
hostgroup = 2
host = "127.0.0.1"
port = {FIRST}
[[servers]]
hostgroup = 2
host = "127.0.0.1"
port = {SECOND}
weight = 3
[[rules]]
rule_id = 1
match_digest = "^TRUNCATE"
error_msg = "TRUNCATE isn't allowed here"
[[rules]]
rule_id = 2
match_digest = "^OPTIMIZE"
OK_msg = "nothing to do"
[[rules]]
rule_id = 3
match_pattern = 'd\\.old'
replace_pattern = "d.t"
[[rules]]
rule_id = 4
username = "u"
match_digest = "FOR UPDATE$"
destination_hostgroup = 0
apply = 1
[[rules]]
rule_id = 5
username = "u"
match_digest = "^SELECT"
destination_hostgroup = 1
[[rules]]
rule_id = 6
match_digest = "^SHOW"
destination_hostgroup = 7
"""

with World(links=(2, 2), more=RULES) as world:
    for server in world.servers:
        server.directly(f"CREATE TABLE d.t (n INT); INSERT INTO d.t VALUES ({server.port});"
                        "CREATE USER 'w'@'127.0.0.1' IDENTIFIED BY 'secret'; GRANT ALL ON *.* TO 'w'@'127.0.0.1'")
    one, two = connect(database="d").cursor(), connect().cursor()
    one.execute("SET time_zone = '+03:00'")
    check("a SELECT", rows(one, "SELECT @@port, DATABASE(), @@time_zone"), ((SECOND, "d", "+03:00"),))
    check("by another rule", rows(one, "SELECT @@port, DATABASE(), @@time_zone FOR UPDATE"), ((FIRST, "d", "+03:00"),))
    check("another client", rows(two, "SELECT @@port, @@time_zone"), ((SECOND, "SYSTEM"),))
    two.execute("INSERT INTO d.old VALUES (1)")
    counts = [server.directly("SELECT COUNT(*) FROM d.t") for server in world.servers]
    check("an INSERT, written anew", counts, ["2\n", "1\n"])
    check("a rule's error", code_of(one.execute, "TRUNCATE d.t"), 1148)
    check("a rule's OK", code_of(one.execute, "OPTIMIZE TABLE d.t"), 0)
    check("a hostgroup without servers", code_of(one.execute, "SHOW TABLES"), 9100)
    one.execute("BEGIN")
    one.execute("INSERT INTO t VALUES (2)")
    check("in a transaction", rows(one, "SELECT @@port, COUNT(*) FROM t"), ((FIRST, 3),))
    check("not another's", rows(two, "SELECT @@port, COUNT(*) FROM d.t"), ((SECOND, 1),))
    one.execute("ROLLBACK")
    check("behind it", rows(one, "SELECT @@port, COUNT(*) FROM t"), ((SECOND, 1),))

    held = [connect("w").cursor() for _ in range(8)]
    for cursor in held:
        cursor.execute("BEGIN")
    ports = [rows(cursor, "SELECT @@port")[0][0] for cursor in held]
    check("two servers of a hostgroup have turns by weight", (ports.count(FIRST), ports.count(SECOND)), (2, 6))
    world.servers[1].kill()
    check("a server that is gone", code_of(two.execute, "SELECT 1") in (9101, 9103), True)
    check("and then", code_of(two.execute, "SELECT 1"), 9100)
    check("the other goes on", rows(two, "SELECT @@port FOR UPDATE"), ((FIRST,),))
    fresh = connect("w").cursor()
    check("so does its hostgroup", [code_of(fresh.execute, "DO 1") for _ in range(5)][1:], [0] * 4)
end()

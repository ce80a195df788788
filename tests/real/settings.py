#!/usr/bin/python3
"""Two clients on one link: each has its own schema, settings, autocommit and insert id."""

from world import World, check, code_of, connect, end, rows

SETTINGS = "SELECT DATABASE(), @@sql_mode, @@time_zone"
COLLATIONS = "SELECT @@collation_connection, @@collation_server"

with World(links=(1,)) as world:
    world.directly("CREATE DATABASE e; CREATE TABLE d.t (id INT PRIMARY KEY AUTO_INCREMENT, v TEXT);")
    one, two = connect(database="d").cursor(), connect(database="e").cursor()
    one.execute("SET sql_mode = 'NO_ZERO_DATE', time_zone = '+03:00'")
    two.execute("SET SESSION sql_mode = 'STRICT_ALL_TABLES'")
    two.execute("SET time_zone = '-05:00'")
    link = world.server.links()
    told = [rows(cursor, SETTINGS)[0] for _ in range(3) for cursor in (one, two)]
    check("each has its settings", told, [("d", "NO_ZERO_DATE", "+03:00"), ("e", "STRICT_ALL_TABLES", "-05:00")] * 3)
    two.execute("USE mysql")
    one.execute("SET time_zone = DEFAULT")
    told = [rows(cursor, SETTINGS)[0] for cursor in (one, two)]
    check("and changes them", told, [("d", "NO_ZERO_DATE", "SYSTEM"), ("mysql", "STRICT_ALL_TABLES", "-05:00")])

    two.execute("USE e")
    one.execute("SET autocommit = 0")
    check("a client without autocommit", rows(one, "SELECT @@autocommit"), ((0,),))
    one.connection.commit()
    check("doesn't take it from the other", rows(two, "SELECT @@autocommit"), ((1,),))
    one.execute("INSERT INTO t (v) VALUES ('rolled back')")
    one.connection.rollback()
    two.execute("INSERT INTO d.t (v) VALUES ('stays')")
    two.connection.rollback()
    check("what is rolled back", world.directly("SELECT v FROM d.t"), "stays\n")
    one.execute("SET autocommit = 1")

    ids = []
    for cursor in (one, two, one):
        cursor.execute("INSERT INTO d.t (v) VALUES ('x')")
        ids.append(cursor.lastrowid)
    told = [rows(cursor, "SELECT LAST_INSERT_ID()")[0][0] for cursor in (one, two, one, two)]
    check("each has its insert id", told, [ids[2], ids[1]] * 2)
    check("a third has none", rows(connect().cursor(), "SELECT LAST_INSERT_ID()"), ((0,),))
    one.execute("INSERT INTO d.t (v) VALUES (LAST_INSERT_ID())")
    check("an INSERT reads it", world.directly("SELECT v FROM d.t ORDER BY id DESC LIMIT 1"), f"{ids[2]}\n")
    one.execute("SET SESSION TRANSACTION ISOLATION LEVEL READ COMMITTED")
    told = [rows(cursor, "SELECT @@tx_isolation")[0][0] for _ in range(2) for cursor in (one, two)]
    check("each has its level of isolation", told, ["READ-COMMITTED", "REPEATABLE-READ"] * 2)
    two.execute("SET SESSION sql_mode = 'ANSI'")
    told = [isinstance(rows(cursor, 'SELECT "id" FROM d.t LIMIT 1')[0][0], int) for cursor in (one, two, one)]
    check("and its quotes of names", told, [False, True, False])
    first = rows(two, COLLATIONS)[0]
    one.execute("SET collation_connection = 'utf8mb4_bin', collation_server = 'latin1_bin'")
    told = [rows(cursor, COLLATIONS)[0] for _ in range(2) for cursor in (one, two)]
    check("and its collations", told, [("utf8mb4_bin", "latin1_bin"), first] * 2)
    one.execute("SET NAMES utf8mb4 COLLATE utf8mb4_general_ci")
    told = [rows(cursor, COLLATIONS)[0] for _ in range(2) for cursor in (one, two)]
    check("of which SET NAMES takes one back", told, [("utf8mb4_general_ci", "latin1_bin"), first] * 2)
    check("all that ran on one link", (len(link), world.server.links()), (1, link))
    # The step there is refused, and the link closes.
    check("a schema that isn't there", code_of(connect(database="none").cursor().execute, "DO 1"), 9104)
    check("others go on", [rows(cursor, "SELECT DATABASE()") for cursor in (one, two)], [(("d",),), (("e",),)])
end()
